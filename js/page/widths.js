// How wide a picture is in the page.

const [LEAST, MOST] = [120, 720];
// By how much a width may change before a picture is drawn anew, in pixels.
const CLOSE = 8;
const tabs = document.getElementById("tabs");

const measured = () => Math.max(LEAST, Math.min(tabs.clientWidth, MOST));
// Kept, since to measure it after a key would lay out the page before the score is sent.
let width = measured();

/** Returns how wide a picture may be, in pixels. */
export const widthOf = () => width;

/** Calls `work` each time that this has changed. */
export function onNewWidth(work) {
  new ResizeObserver(() => {
    if (Math.abs(measured() - width) <= CLOSE) return;
    width = measured();
    work();
  }).observe(tabs);
}
