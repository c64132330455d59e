// The page of `gregorio-chant page`: its server compiles, tries the rules if they are wanted, and draws.

import { bytesOfScore } from "../src/bytes.js";
import { save } from "./files.js";
import { keepInTab } from "./kept.js";
import { begin, chooseTab, fileName, goToPlace, scoreText } from "./main.js";
import { Picture } from "./picture.js";
import { ServerReader, fromServer } from "./server_reader.js";
import { onNewWidth, widthOf } from "./widths.js";

const at = (id) => document.getElementById(id);

// Each server has another address, under which the browser would keep a score for ever.
keepInTab();
const picture = new Picture(at("drawn"), goToPlace);
// The script that sings is one of its own, which the pages of `show` have too.
const singer = new Singer(at("sing"));
singer.load = () => fromServer("/sounds", bytesOfScore(scoreText()));

for (const it of document.querySelectorAll("[data-in]")) it.hidden = it.dataset.in !== "served";
at("save-picture").addEventListener("click", () => save(`${fileName()}.svg`, picture.file, "image/svg+xml"));

const { read } = begin(new ServerReader(widthOf), {
  onAnswer(answer) {
    singer.stop();
    picture.show(answer.picture);
    at("name").textContent = answer.name;
  },
  onCursor: (place) => picture.showAt(place),
  onMessage: (number) => picture.showMessage(number),
});
chooseTab("picture");
at("score").focus();

onNewWidth(read);
