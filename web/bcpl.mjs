#!/usr/bin/env node
// bcpl.mjs ARGUMENTS: the program bcpl, as WebAssembly, on the computer's own files. It needs Node 18 or newer, on any system.
// The module is bcpl.wasm beside this file, or in out/ where web/build puts it, or the shipped one in dist/; BCPL_WASM names another.
import fs from "node:fs";
import os from "node:os";
import path from "node:path";
import tty from "node:tty";
import v8 from "node:v8";
import { fileURLToPath } from "node:url";
import { gunzipSync } from "node:zlib";
import { ERRORS, OPEN, SystemError, isSupported, runProgram } from "./page/host.mjs";

const here = path.dirname(fileURLToPath(import.meta.url));
const CURRENT = 1;
const END = 2;

/** Numbers of errors on Linux, by the names that Node gives them on every system. */
const NUMBERS = {
  EPERM: 1, ENOENT: 2, EIO: 5, EBADF: 9, ENOMEM: 12, EACCES: 13, EBUSY: 16, EEXIST: 17, EXDEV: 18, ENOTDIR: 20, EISDIR: 21, EINVAL: 22,
  EMFILE: 24, ETXTBSY: 26, EFBIG: 27, ENOSPC: 28, ESPIPE: 29, EROFS: 30, EPIPE: 32, ENAMETOOLONG: 36, ENOTEMPTY: 39, ELOOP: 40,
};

/** Returns what a call of Node returns; its errors become those of the system. */
function called(call) {
  try {
    return call();
  } catch (error) {
    throw new SystemError(NUMBERS[error.code] ?? ERRORS.IO);
  }
}

/** Flags of `open` on Linux as this system numbers them. */
function flagsHere(flags) {
  const names = { WRITE: "O_WRONLY", READ_WRITE: "O_RDWR", CREATE: "O_CREAT", NEW: "O_EXCL", EMPTY: "O_TRUNC", APPEND: "O_APPEND" };
  return Object.entries(names).reduce((sum, [bit, name]) => sum | (flags & OPEN[bit] ? fs.constants[name] : 0), 0);
}

/** Waits until a stream that others read or write is ready again. */
function pause() {
  Atomics.wait(new Int32Array(new SharedArrayBuffer(4)), 0, 0, 5);
}

/** Calls until a stream that doesn't block has an answer. */
function patiently(call) {
  for (;;) {
    try {
      return call();
    } catch (error) {
      if (error.code !== "EAGAIN") throw error;
      pause();
    }
  }
}

/** A file's status, with the fields that the program compares to see whether two files are one. */
function statusOf(found, isTerminal = false) {
  const kind = isTerminal ? "terminal" : found.isDirectory() ? "folder" : found.isSymbolicLink() ? "link" : "file";
  const device = Number(BigInt.asUintN(32, found.dev));
  const numbers = { size: Number(found.size), inode: BigInt.asUintN(64, found.ino), links: Number(found.nlink), modified: found.mtimeMs / 1000n };
  return { kind, mode: Number(found.mode) & 0o777, device, ...numbers };
}

/** The computer's own files, for host.mjs. */
class NodeSystem {
  constructor() {
    /** Where each opened file is read and written next; standard streams have no such place. */
    this.places = new Map();
  }

  open(name, flags, mode) {
    // Windows can't open folders, which the program does once at its start to keep low numbers free.
    const path = name === "/" && os.platform() === "win32" ? os.devNull : name;
    const file = called(() => fs.openSync(path, flagsHere(flags), mode));
    this.places.set(file, 0);
    return file;
  }

  close(file) {
    if (file <= 2) return;
    this.places.delete(file);
    called(() => fs.closeSync(file));
  }

  read(file, to) {
    const place = this.places.get(file) ?? null;
    try {
      const count = called(() => patiently(() => fs.readSync(file, to, 0, to.length, place)));
      if (place !== null) this.places.set(file, place + count);
      return count;
    } catch (error) {
      // On Windows a pipe that was closed is an error, and not the end.
      if (file === 0 && error.number === ERRORS.IO) return 0;
      throw error;
    }
  }

  write(file, bytes) {
    const place = this.places.get(file) ?? null;
    const count = called(() => patiently(() => fs.writeSync(file, bytes, 0, bytes.length, place)));
    if (place !== null) this.places.set(file, place + count);
    return count;
  }

  seek(file, offset, origin) {
    const place = this.places.get(file);
    if (place === undefined) throw new SystemError(ERRORS.SPIPE);
    const from = origin === CURRENT ? place : origin === END ? called(() => fs.fstatSync(file).size) : 0;
    if (from + offset < 0) throw new SystemError(ERRORS.INVAL);
    this.places.set(file, from + offset);
    return from + offset;
  }

  isTerminal(file) {
    return tty.isatty(file);
  }

  rename(from, to) {
    called(() => fs.renameSync(from, to));
  }

  remove(name) {
    called(() => fs.unlinkSync(name));
  }

  setMode(name, mode) {
    called(() => fs.chmodSync(name, mode));
  }

  /** What a link leads to, as bytes. */
  linkAt(name) {
    return called(() => fs.readlinkSync(name, { encoding: "buffer" }));
  }

  statusAt(name, isOfLink) {
    return statusOf(called(() => (isOfLink ? fs.lstatSync : fs.statSync)(name, { bigint: true })));
  }

  statusOf(file) {
    return statusOf(called(() => fs.fstatSync(file, { bigint: true })), tty.isatty(file));
  }
}

/** The module's path, or null. */
function modulePath() {
  const usual = [path.join(here, "bcpl.wasm"), path.join(here, "out", "bcpl.wasm"), path.join(here, "..", "dist", "bcpl.wasm.gz")];
  const places = process.env.BCPL_WASM ? [process.env.BCPL_WASM] : usual;
  return places.find((place) => fs.existsSync(place)) ?? null;
}

function complain(sentence) {
  console.error(`bcpl.mjs: ${sentence}`);
  process.exitCode = 3;
}

async function main() {
  // Before Node 24 memory64 is behind a flag of its engine.
  if (!isSupported()) v8.setFlagsFromString("--experimental-wasm-memory64");
  if (!isSupported()) {
    complain(`Node ${process.versions.node} can't run the program: it lacks memory64, a part of WebAssembly. Use Node 18 or newer.`);
    return;
  }
  const place = modulePath();
  if (place === null) {
    complain("there is no bcpl.wasm beside this file: web/build makes it");
    return;
  }
  const bytes = fs.readFileSync(place);
  const module = await WebAssembly.compile(place.endsWith(".gz") ? gunzipSync(bytes) : bytes);
  process.exitCode = await runProgram(module, ["bcpl", ...process.argv.slice(2)], new NodeSystem());
}

main().catch((error) => complain(`the program ended early: ${error.message}`));
