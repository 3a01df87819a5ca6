#!/usr/bin/env node
// ---- 7. The command line, over the interpreter of intcode.mjs, with the words, the statuses and the lines on standard error of `bcpl`.
// It is not proved either.
import * as fs from "node:fs";
import { parseArgs } from "node:util";
import { DeviceFault, Machine, Refusal, Streams, linkTexts } from "./intcode.mjs";

const HELP = `run.mjs run --steps N [--in NAME=PATH].. [--to NAME=PATH].. [--files DIR] TEXT..    links texts behind the primitives and runs them
run.mjs asm TEXT..                                                                  prints the words of the store up to the stack base

N is the most instructions that are carried out. Input 1 is standard input, under the name SYSIN; output 1 is standard output, under
the name SYSPRINT; the files of --in and --to have the numbers from 2 on, in their order. The status is 0 where all was done, 1 where
something was refused, 2 where a run ended otherwise than by finishing, and 3 where the words ask for nothing. This interpreter is not
proved.`;

/** The most bytes that a file may have. */
const FILE_LIMIT = 16_777_216;

/** How many bytes a stream's buffer holds. */
const BUFFER = 8192;

/** The words of the command line ask for nothing. */
class BadWords extends Error {}

/** Does what may fail at the file of this path, and throws the refusal of that file where it does. */
function withFile(path, action) {
  try {
    return action();
  } catch {
    throw new Refusal(`file ${path}`);
  }
}

/** Does what may fail at a stream's device. */
function withDevice(action) {
  try {
    return action();
  } catch {
    throw new DeviceFault();
  }
}

/** The bytes of a file. */
function contents(path) {
  return withFile(path, () => {
    const file = fs.openSync(path, "r");
    const pieces = [];
    let size = 0;
    for (let count = -1; count !== 0; size += count) {
      if (size > FILE_LIMIT) throw new Refusal();
      const piece = Buffer.alloc(65536);
      count = readInto(file, piece);
      pieces.push(piece.subarray(0, count));
    }
    fs.closeSync(file);
    return Buffer.concat(pieces);
  });
}

/** Reads bytes into the buffer, and waits for them where a terminal has none yet. */
function readInto(file, buffer) {
  for (;;) {
    try {
      return fs.readSync(file, buffer);
    } catch (error) {
      if (error.code === "EOF") return 0;
      if (error.code !== "EAGAIN") throw error;
      Atomics.wait(new Int32Array(new SharedArrayBuffer(4)), 0, 0, 10);
    }
  }
}

/** An input over a file. */
function inputOf(name, file) {
  const buffer = Buffer.alloc(BUFFER);
  let count = 0; // how many bytes the buffer has
  let at = 0; // how many of them were read
  const read = () => {
    if (at === count) {
      count = withDevice(() => readInto(file, buffer));
      at = 0;
    }
    return at < count ? buffer[at++] : -1;
  };
  return { name: Buffer.from(name), read };
}

/** An output over a file. */
function outputOf(name, file) {
  const buffer = Buffer.alloc(BUFFER);
  let count = 0; // how many bytes wait in the buffer
  const flush = () => {
    for (let from = 0; from < count; ) {
      const written = withDevice(() => fs.writeSync(file, buffer, from, count - from));
      if (written === 0) throw new DeviceFault();
      from += written;
    }
    count = 0;
  };
  const write = (byte) => {
    if (count === BUFFER) flush();
    buffer[count] = byte;
    count += 1;
  };
  return { name: Buffer.from(name), write, flush };
}

/** A word NAME=PATH, cut at its first `=`. */
function binding(word) {
  const at = word.indexOf("=");
  if (at < 0) throw new BadWords(`bcpl: option ${word}`);
  return { name: word.slice(0, at), path: word.slice(at + 1) };
}

// The level disk, which may be left out: streams that are found in a folder.

/** The path of a name in the folder; undefined where it would leave it, or where something else than a file has it. */
function pathOf(folder, name) {
  const word = Buffer.from(name).toString("latin1");
  if (!/^[A-Za-z0-9_-][A-Za-z0-9._-]*$/.test(word)) return undefined;
  const path = `${folder}/${word}`;
  const found = fs.lstatSync(path, { throwIfNoEntry: false });
  return !found || found.isFile() ? path : undefined;
}

/** Lets a table find the files of the folder too. `other` is the table of the other side, and `open` opens a path. */
function addFolder(table, other, folder, open) {
  const given = table.streams.length;
  const find = table.findStream.bind(table);
  const isSame = (name, device) => Buffer.compare(Buffer.from(name), device.name) === 0;
  table.hasOpenFile = (name) => table.streams.slice(given).some(({ device, hasEnded }) => !hasEnded && isSame(name, device));
  table.findStream = (name) => {
    const number = find(name);
    if ((number > 0 && number <= given) || table.hasOpenFile(name)) return number;
    const path = pathOf(folder, name);
    if (!path || other.hasOpenFile(name)) return 0;
    try {
      const stream = { device: open(name, path), hasEnded: false, isAtEnd: false };
      if (number === 0) return table.streams.push(stream);
      table.streams[number - 1] = stream; // it was ended: the same number, from the start
      return number;
    } catch {
      return 0;
    }
  };
}

/** Runs texts, and says how the run ended. */
function run(texts, steps, inputs, outputs, folder) {
  const image = linkTexts(texts.map(contents));
  if (folder !== undefined && !fs.statSync(folder, { throwIfNoEntry: false })?.isDirectory()) throw new Refusal(`file ${folder}`);
  const sources = inputs.map(({ name, path }) => inputOf(name, withFile(path, () => fs.openSync(path, "r"))));
  const sinks = outputs.map(({ name, path }) => outputOf(name, withFile(path, () => fs.openSync(path, "w"))));
  const streams = new Streams([inputOf("SYSIN", 0), ...sources], [outputOf("SYSPRINT", 1), ...sinks]);
  if (folder !== undefined) {
    addFolder(streams.inputs, streams.outputs, folder, (name, path) => inputOf(name, fs.openSync(path, "r")));
    addFolder(streams.outputs, streams.inputs, folder, (name, path) => outputOf(name, fs.openSync(path, "w")));
  }
  const end = new Machine(image, streams).run(steps);
  const closed = streams.close();
  return end === "Finished" && !closed ? "Device" : end;
}

/** Prints the words that texts become, one a line. */
function assemble(texts) {
  const { store, stackBase } = linkTexts(texts.map(contents));
  withFile("SYSPRINT", () => fs.writeFileSync(1, store.slice(0, stackBase).join("\n") + "\n"));
}

/** The budget: any number of 64 bits, of which those over 2^53 - 1 count as that one. */
function budget(words) {
  if (words.length > 1) throw new BadWords("bcpl: --steps is given twice");
  const word = words[0];
  if (!/^\+?[0-9]+$/.test(word ?? "")) throw new BadWords("bcpl: --steps N is wanted, a number of instructions");
  if (BigInt(word.replace("+", "")) >= 2n ** 64n) throw new BadWords(`bcpl: --steps ${word} is too large`);
  return Math.min(Number(word), Number.MAX_SAFE_INTEGER);
}

/** The options and texts that stand behind the command's name. */
function parsed(args, options) {
  try {
    return parseArgs({ args, options, allowPositionals: true });
  } catch (error) {
    throw new BadWords(`bcpl: ${error.message}`);
  }
}

/** Does what the words ask for, and gives the status. */
function command([name, ...words]) {
  if (name === "--help") {
    console.log(HELP);
    return 0;
  }
  if (name !== "run" && name !== "asm") throw new BadWords("bcpl: the words begin with run or asm; --help tells more");
  const many = { type: "string", multiple: true, default: [] };
  const options = name === "run" ? { steps: many, in: many, to: many, files: { type: "string" } } : {};
  const { values, positionals: texts } = parsed(words, options);
  if (texts.length === 0) throw new BadWords("bcpl: a text is wanted");
  if (name === "asm") {
    assemble(texts);
    return 0;
  }
  const end = run(texts, budget(values.steps), values.in.map(binding), values.to.map(binding), values.files);
  if (end === "Finished") return 0;
  complain(`bcpl: ended ${end}`);
  return 2;
}

function complain(line) {
  try {
    fs.writeSync(2, `${line}\n`);
  } catch {
    // There is nobody to be told.
  }
}

function status(words) {
  try {
    return command(words);
  } catch (refusal) {
    if (refusal instanceof BadWords) {
      complain(refusal.message);
      return 3;
    }
    if (!(refusal instanceof Refusal)) throw refusal;
    complain(`bcpl: ${refusal.message}`);
    return 1;
  }
}

process.exitCode = status(process.argv.slice(2));
