// What runs in the panel of the picture.

import { Drawn } from "../../../js/page/drawn.js";

const vscode = acquireVsCodeApi();
const place = document.getElementById("picture");
const words = document.getElementById("words");
const drawn = new Drawn(place, (byte) => vscode.postMessage({ byte }));

addEventListener("message", ({ data }) => {
  if (data.svg !== undefined) {
    drawn.show(data.svg);
    words.textContent = data.words;
  }
  drawn.showAt(data.byte);
  place.querySelector(".here")?.scrollIntoView({ block: "nearest" });
});
new ResizeObserver(() => vscode.postMessage({ width: place.clientWidth })).observe(document.getElementById("ruler"));
