// Parts of the page of which one is seen at a time.

export class Tabs {
  #tabs;
  #onChange;

  /** Takes the tabs in `list`. `onChange` is called once another one is chosen. */
  constructor(list, onChange) {
    this.#tabs = [...list.querySelectorAll("[role=tab]")];
    this.#onChange = onChange;
    list.addEventListener("click", ({ target }) => {
      const tab = target.closest("[role=tab]");
      if (tab) this.#choose(tab).focus();
    });
    list.addEventListener("keydown", (event) => this.#pressed(event));
  }

  /** The id of the part that is seen. */
  get chosen() {
    return this.#tabs.find((it) => it.getAttribute("aria-selected") === "true").getAttribute("aria-controls");
  }

  /** Chooses the tab of the part with this id. */
  show(id) {
    this.#choose(this.#tabs.find((it) => it.getAttribute("aria-controls") === id));
  }

  #pressed(event) {
    const at = this.#tabs.indexOf(event.target);
    const ways = { ArrowRight: at + 1, ArrowLeft: at - 1, Home: 0, End: -1 };
    if (!(event.key in ways)) return;
    event.preventDefault();
    this.#choose(this.#tabs.at(ways[event.key] % this.#tabs.length)).focus();
  }

  /** Shows the part of a tab, and returns the tab. */
  #choose(chosen) {
    for (const tab of this.#tabs) {
      tab.setAttribute("aria-selected", String(tab === chosen));
      tab.tabIndex = tab === chosen ? 0 : -1;
      document.getElementById(tab.getAttribute("aria-controls")).hidden = tab !== chosen;
    }
    this.#onChange();
    return chosen;
  }
}
