// The page of one file: it compiles and draws by itself.

import { Drawn } from "./drawn.js";
import { begin, fileName, goToByte } from "./main.js";
import { Reader } from "./reader.js";
import { onNewWidth, widthOf } from "./widths.js";

const at = (id) => document.getElementById(id);
const drawn = new Drawn(at("own-picture"), goToByte);

at("save-drawn").addEventListener("click", () => drawn.save(`${fileName()}.svg`));

/** Shows a picture, or none; and, if the score `isTooLong` for one, that it is. */
function showPicture({ picture, isTooLong }) {
  drawn.show(picture);
  at("too-long").hidden = !isTooLong;
}

const { read } = begin(new Reader(widthOf), {
  // The picture stands until the next one comes.
  onAnswer(answer) {
    if (!answer.isDrawn) showPicture({});
  },
  onPicture: showPicture,
  onCursor: (_, byte) => drawn.showAt(byte),
});

onNewWidth(read);
