// Scores that are read as a whole.

import { bytesOfScore } from "./bytes.js";
import { withMemory } from "./library.js";
import { Options } from "./options.js";
import { Report, Result, STATUSES } from "./results.js";

/** Returns the status and the texts that the library gives for the bytes of a score. Without `wantsOutput` the output is written nowhere. */
function call(library, score, options, wantsOutput) {
  return library.within((rooms, calls) => {
    const key = library.newKey();
    const told = [...rooms.put(score), ...options.numbers, rooms.put(key)[0], BigInt(key.length / 8)];
    const [ofOutput, ofMessages] = options.rooms(score.length);
    const [status, [output, messages]] = rooms.fit([wantsOutput ? ofOutput : undefined, ofMessages], (spans, lengths) =>
      withMemory(calls.gregorio_compile(...told, ...spans.flat(), lengths)),
    );
    return [STATUSES[status], rooms.text(...messages), wantsOutput ? rooms.text(...output) : ""];
  });
}

/** Compiles `score`, a text or bytes. */
export function compile(library, score, given) {
  const options = new Options(given, ["format", "allWarnings"]);
  return new Result(...call(library, bytesOfScore(score), options, true), options.format);
}

/** Reads `score`, and returns its status and messages. */
export function check(library, score, given) {
  const [status, messages] = call(library, bytesOfScore(score), new Options(given, ["allWarnings"]), false);
  return new Report(status, messages);
}
