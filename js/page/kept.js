// The score that the browser keeps: for this tab, and the last one for new tabs.

const KEY = "gregorio-chant score";
// Getting a storage may throw, if the reader of the page allows none.
const storages = [() => sessionStorage, () => localStorage];

/** Keeps scores for this tab alone from now on. */
export const keepInTab = () => storages.splice(1);

/** Does `work` with each storage, and returns what came of it, `undefined` where there is none or it is full. */
const withEach = (work) =>
  storages.map((storage) => {
    try {
      return work(storage());
    } catch {
      return undefined;
    }
  });

/** Returns the score that is kept; an empty text if none is. */
export const keptScore = () => withEach((it) => it.getItem(KEY)).find((it) => typeof it === "string") ?? "";

/** Keeps a score, and returns whether it is kept. */
export function keep(score) {
  forget();
  return withEach((it) => it.setItem(KEY, score) ?? true).some(Boolean);
}

export function forget() {
  withEach((it) => it.removeItem(KEY));
}
