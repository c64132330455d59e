// Sings a score: one note after another, each lit up in the picture. A panel has a button, a slider for the speed, and in `data-sounds` the notes: each a list of the
// number of its syllable, that of its head in the syllable, its key as in MIDI (null for a rest), and how many notes long it is. `data-prefixes` are those of the
// pictures, of which the one that is seen counts.
"use strict";

const SVG = "http://www.w3.org/2000/svg";
const AHEAD = 0.15;
const VOLUME = 0.25;

class Singer {
  constructor(panel) {
    this.panel = panel;
    [this.button, this.speed] = [panel.querySelector("button"), panel.querySelector("input")];
    this.audio = null;
    this.timer = 0;
    this.mark = document.createElementNS(SVG, "rect");
    this.mark.setAttribute("class", "now");
    // Where the notes come from, if they are asked for when they are wanted.
    this.load = null;
    this.sounds = JSON.parse(panel.dataset.sounds ?? "[]");
    this.button.addEventListener("click", () => (this.audio === null ? this.sing(0) : this.stop()));
    document.addEventListener("dblclick", (event) => {
      const number = this.syllableOf(event.target.closest?.("g[data-heads]"));
      if (number !== null) this.sing(number);
    });
    panel.hidden = false;
  }

  get prefixes() {
    return this.panel.dataset.prefixes.split(" ");
  }

  syllableOf(group) {
    for (const prefix of this.prefixes) {
      const rest = group?.id.startsWith(prefix) ? /^s(\d+)(-\d+)?$/.exec(group.id.slice(prefix.length)) : null;
      if (rest !== null) return Number(rest[1]);
    }
    return null;
  }

  stop() {
    clearTimeout(this.timer);
    this.audio?.close();
    this.audio = null;
    this.mark.remove();
    this.button.textContent = "Sing";
  }

  // Sings from the first note of this syllable on, or of the next one that has notes.
  async sing(syllable) {
    this.stop();
    const audio = (this.audio = new AudioContext());
    this.button.textContent = "Stop";
    if (this.load !== null) this.sounds = await this.load().catch(() => []);
    if (this.audio !== audio) return;
    const [volume, filter] = [audio.createGain(), audio.createBiquadFilter()];
    volume.gain.value = VOLUME;
    filter.type = "lowpass";
    filter.frequency.value = 1400;
    filter.connect(volume).connect(audio.destination);
    this.out = filter;
    const first = this.sounds.findIndex(([number, , key]) => number >= syllable && key !== null);
    this.go(first < 0 ? this.sounds.length : first, audio.currentTime + AHEAD);
  }

  // Sounds a note at this time of the audio, and then the next one.
  go(at, time) {
    if (at === this.sounds.length) {
      this.timer = setTimeout(() => this.stop(), 1000 * Math.max(time - this.audio.currentTime, 0));
      return;
    }
    const [syllable, head, key, notes] = this.sounds[at];
    const length = (notes * 60) / Number(this.speed.value);
    if (key !== null) this.sound(key, time, length);
    this.timer = setTimeout(() => {
      if (key !== null) this.light(syllable, head);
      this.timer = setTimeout(() => this.go(at + 1, time + length), 1000 * Math.max(time + length - AHEAD - this.audio.currentTime, 0));
    }, 1000 * Math.max(time - this.audio.currentTime, 0));
  }

  sound(key, time, length) {
    const [voice, gain] = [this.audio.createOscillator(), this.audio.createGain()];
    voice.type = "triangle";
    voice.frequency.value = 440 * 2 ** ((key - 69) / 12);
    gain.gain.setValueAtTime(0, time);
    gain.gain.linearRampToValueAtTime(1, time + 0.04);
    gain.gain.setValueAtTime(1, time + length - 0.05);
    gain.gain.linearRampToValueAtTime(0, time + length);
    voice.connect(gain).connect(this.out);
    voice.start(time);
    voice.stop(time + length);
  }

  // Lights up a head in the picture that is seen.
  light(syllable, head) {
    const prefix = this.prefixes.find((it) => document.getElementById(`${it}s${syllable}`)?.getClientRects().length > 0);
    let group = prefix === undefined ? null : document.getElementById(`${prefix}s${syllable}`);
    for (let part = 2, left = head; group !== null; part += 1) {
      const heads = group.dataset.heads?.split(" ") ?? [];
      if (left < heads.length) {
        const [x, y, width] = heads[left].split(",").map(Number);
        for (const [name, value] of Object.entries({ x: x - 50, y: y - 450, width: width + 100, height: 900, rx: 100 })) this.mark.setAttribute(name, value);
        group.append(this.mark);
        this.mark.scrollIntoView({ block: "nearest" });
        return;
      }
      left -= heads.length;
      group = document.getElementById(`${prefix}s${syllable}-${part}`);
    }
  }
}

for (const panel of document.querySelectorAll(".sing[data-sounds]")) new Singer(panel);
