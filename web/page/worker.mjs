// The worker: runs the program for the page, one command at a time. compiler.mjs is the other side.
import { runProgram } from "./host.mjs";
import { MemorySystem } from "./memory.mjs";

/** Output is sent at most so often, in milliseconds, or when so many bytes wait. */
const PAUSE = 40;
const MOST_WAITING = 1 << 16;
const LINE_FEED = 10;

/** What a run writes, gathered so that a program that writes byte by byte doesn't flood the page: a piece has many writes to one stream. */
class Gathered {
  constructor(id) {
    this.id = id;
    this.stream = 1;
    this.buffer = new Uint8Array(MOST_WAITING);
    this.count = 0;
    this.sentAt = 0;
  }

  write(stream, bytes) {
    if (stream !== this.stream || this.count + bytes.length > MOST_WAITING) this.send();
    this.stream = stream;
    if (bytes.length > MOST_WAITING) {
      postMessage({ id: this.id, output: [stream, bytes] });
      return;
    }
    this.buffer.set(bytes, this.count);
    this.count += bytes.length;
    if (performance.now() - this.sentAt > PAUSE) this.send();
  }

  /** The same for one byte. Only the end of a line, or of 64 bytes, looks at the clock, which is slow. */
  writeByte(stream, byte) {
    if (stream !== this.stream || this.count === MOST_WAITING) this.send();
    this.stream = stream;
    this.buffer[this.count] = byte;
    this.count += 1;
    if ((byte === LINE_FEED || this.count % 64 === 0) && performance.now() - this.sentAt > PAUSE) this.send();
  }

  send() {
    if (this.count > 0) postMessage({ id: this.id, output: [this.stream, this.buffer.slice(0, this.count)] });
    this.count = 0;
    this.sentAt = performance.now();
  }
}

/** Standard input that was given beforehand. */
function givenInput(bytes) {
  let at = 0;
  return (to) => {
    const count = Math.min(to.length, bytes.length - at);
    to.set(bytes.subarray(at, at + count));
    at += count;
    return count;
  };
}

/**
 * Standard input that is typed while the program waits. The first word of the shared memory is the state, 0 while the page is asked;
 * the second counts the bytes of the line, which follow. No byte at all is the end.
 */
function typedInput(shared, ask) {
  const state = new Int32Array(shared, 0, 2);
  let line = new Uint8Array(0);
  return (to) => {
    if (line.length === 0) {
      Atomics.store(state, 0, 0);
      ask();
      Atomics.wait(state, 0, 0);
      line = new Uint8Array(shared, 8, state[1]).slice();
    }
    const count = Math.min(to.length, line.length);
    to.set(line.subarray(0, count));
    line = line.subarray(count);
    return count;
  };
}

/** What browsers say where their stack is too small, and what is said instead. */
const TOO_DEEP = /call stack|too much recursion/i;
const NO_ROOM = "the source is nested too deeply for this browser's stack; the program on the command line has more room";

let module = null;

async function run({ id, words, files, input, shared, terminals }) {
  const gathered = new Gathered(id);
  const ask = () => {
    gathered.send();
    postMessage({ id, asks: true });
  };
  const read = shared ? typedInput(shared, ask) : givenInput(input);
  const streams = { read, write: (stream, bytes) => gathered.write(stream, bytes), writeByte: (stream, byte) => gathered.writeByte(stream, byte) };
  const system = new MemorySystem(files, streams, terminals);
  let answer;
  try {
    answer = { status: await runProgram(module, ["bcpl", ...words], system) };
  } catch (error) {
    const said = String(error?.message ?? error);
    answer = { failure: TOO_DEEP.test(said) ? NO_ROOM : said };
  }
  gathered.send();
  postMessage({ id, ...answer, files: system.changed() });
}

addEventListener("message", ({ data }) => {
  if (data.module) module = data.module;
  else run(data);
});
