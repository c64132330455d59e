// What the compiler answers of a score: a status, messages, and the output.

/** The status of a score, by the number that the library returns for it. */
export const STATUSES = ["whole", "errors", "fatal", undefined, "broken"];

/** Bytes that are no state of a run, or the state of a run with another format, other warnings or other limits. */
export class StateError extends Error {
  name = "StateError";
}

/** A run that is over was to go on. */
export class RunOverError extends Error {
  name = "RunOverError";
}

const LINE = /<stdin>:(\d+):(\d+): (warning|error|fatal): (\w+): (.*)\n/y;

/** Returns the messages that the lines of `text` tell. */
function messagesOf(text) {
  const messages = [];
  LINE.lastIndex = 0;
  for (let found; (found = LINE.exec(text)); ) {
    const [, line, column, kind, code, words] = found;
    messages.push({ line: Number(line), column: Number(column), kind, code, text: words });
  }
  return messages;
}

/** What was found in a score. */
export class Report {
  #messages;

  constructor(status, messagesText) {
    this.status = status;
    this.messagesText = messagesText;
  }

  get messages() {
    return (this.#messages ??= messagesOf(this.messagesText));
  }

  [Symbol.iterator]() {
    return this.messages[Symbol.iterator]();
  }
}

/** What became known with a piece of a run, or at its end. */
export class Step extends Report {
  constructor(status, messagesText, output) {
    super(status, messagesText);
    this.output = output;
  }
}

/** What is made of a whole score. */
export class Result extends Step {
  constructor(status, messagesText, output, format) {
    super(status, messagesText, output);
    this.format = format;
  }

  get canonical() {
    return this.format === "gabc" ? this.output : undefined;
  }

  get dump() {
    return this.format === "dump" ? this.output : undefined;
  }
}
