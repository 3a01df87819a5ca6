// The compiler as the page calls it: commands of bcpl, each run in a worker over files that are handed to it.
import { isSupported } from "./host.mjs";

export { isSupported };

/** The most bytes that are typed at once. */
const LINE_ROOM = 4096;

/** A worker that runs commands one after another, and that can be ended at any time. */
class Runner {
  constructor(start) {
    this.start = start;
    this.worker = null;
    this.jobs = new Map();
    this.count = 0;
  }

  /** Runs a command once those before it are done. `on.output(stream, bytes)` gets what it writes, as it comes. */
  run(request, on = {}) {
    this.count += 1;
    const id = this.count;
    const shared = request.isTyped && globalThis.crossOriginIsolated ? new SharedArrayBuffer(8 + LINE_ROOM) : null;
    const done = new Promise((settle) => this.jobs.set(id, { settle, on, shared }));
    this.begin();
    const { words, files = [], input = new Uint8Array(0), terminals = [] } = request;
    this.worker.postMessage({ id, words, files, input, shared, terminals });
    return done;
  }

  begin() {
    if (this.worker !== null) return;
    const worker = this.start();
    worker.addEventListener("message", ({ data }) => this.take(data));
    worker.addEventListener("error", (event) => this.stop(event.message || "the worker failed"));
    this.worker = worker;
  }

  take({ id, output, asks, status, failure, files }) {
    const job = this.jobs.get(id);
    if (job === undefined) return;
    if (output) job.on.output?.(...output);
    else if (asks) job.on.asks?.((bytes) => answer(job.shared, bytes));
    else {
      this.jobs.delete(id);
      job.settle({ status, failure, files });
    }
  }

  /** Ends the worker with all that it has to do; each job is answered with `stopped`. */
  stop(failure = null) {
    this.worker?.terminate();
    this.worker = null;
    const jobs = [...this.jobs.values()];
    this.jobs.clear();
    for (const job of jobs) job.settle({ stopped: true, failure, files: [] });
  }
}

/** Hands a typed line to the worker that waits for it; no bytes are the end of the input. */
function answer(shared, bytes) {
  const state = new Int32Array(shared, 0, 2);
  new Uint8Array(shared, 8).set(bytes.subarray(0, LINE_ROOM));
  state[1] = Math.min(bytes.length, LINE_ROOM);
  Atomics.store(state, 0, 1);
  Atomics.notify(state, 0);
}

export class Compiler {
  /** `module` is a promise of the compiled module, and `startWorker()` starts a worker of worker.mjs. */
  constructor(module, startWorker) {
    this.module = module;
    this.startWorker = startWorker;
    this.compiled = null;
    this.runner = new Runner(() => this.worker());
    this.checker = new Runner(() => this.worker());
  }

  async ready() {
    this.compiled = await this.module;
    this.checker.begin();
    this.runner.begin();
  }

  worker() {
    const worker = this.startWorker();
    worker.postMessage({ module: this.compiled });
    return worker;
  }

  /** Runs a command in the worker for programs, which Stop ends. */
  run(request, on) {
    return this.runner.run(request, on);
  }

  stop() {
    this.runner.stop();
    this.runner.begin();
  }

  /** Runs a command in the worker for checks and listings, and returns all that it wrote: `{ status, out, errors, files }`. */
  async ask(words, files, seconds = 60) {
    const parts = { 1: [], 2: [] };
    const watch = setTimeout(() => this.checker.stop(`stopped after ${seconds} seconds`), seconds * 1000);
    const done = await this.checker.run({ words, files }, { output: (stream, bytes) => parts[stream].push(bytes) });
    clearTimeout(watch);
    return { ...done, out: joined(parts[1]), errors: joined(parts[2]), files: new Map(done.files) };
  }
}

/** Pieces of bytes as one. */
export function joined(parts) {
  const whole = new Uint8Array(parts.reduce((sum, part) => sum + part.length, 0));
  let at = 0;
  for (const part of parts) {
    whole.set(part, at);
    at += part.length;
  }
  return whole;
}
