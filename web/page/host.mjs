// Runs the program bcpl.wasm: the functions that the module imports, over a system of files. The system is files in memory in the page
// (memory.mjs) and the computer's own files in Node (../bcpl.mjs). shim/system.c is the other side.

/** An error of a system, by its number on Linux. */
export class SystemError extends Error {
  constructor(number) {
    super(`system error ${number}`);
    this.number = number;
  }
}

export const ERRORS = { NOENT: 2, IO: 5, BADF: 9, ACCES: 13, EXIST: 17, NOTDIR: 20, ISDIR: 21, INVAL: 22, MFILE: 24, NOSPC: 28, SPIPE: 29 };

/** The bits of `open` on Linux that the program uses. */
export const OPEN = { WRITE: 0o1, READ_WRITE: 0o2, CREATE: 0o100, NEW: 0o200, EMPTY: 0o1000, APPEND: 0o2000 };

const encoder = new TextEncoder();
const decoder = new TextDecoder("utf-8", { ignoreBOM: true });

// A module that only declares a memory whose addresses have 64 bits.
const WITH_MEMORY = [0, 0x61, 0x73, 0x6d, 1, 0, 0, 0, 5, 3, 1, 4, 1];

/** Whether this engine has memory64: memories whose addresses have 64 bits. */
export function isSupported() {
  return typeof WebAssembly === "object" && WebAssembly.validate(new Uint8Array(WITH_MEMORY));
}

/** What a function of the system returns, or its error as a negative number. */
function answered(call) {
  try {
    return call() ?? 0;
  } catch (error) {
    if (error instanceof SystemError) return -error.number;
    throw error;
  }
}

/** The bit of `statx` on Linux for the status of a link itself. */
const NO_FOLLOW = 0x100;

/** A file's status in the layout of Linux's `statx`. `modified` is in seconds. */
function writeStatus(view, { kind, mode, size, inode, device = 0, links = 1, modified = 0 }) {
  const COMMON = 0xfff;
  for (let at = 0; at < 256; at += 1) view.setUint8(at, 0);
  view.setUint32(0, COMMON, true);
  view.setUint32(16, links, true);
  view.setUint16(28, { file: 0o100000, folder: 0o040000, terminal: 0o020000, link: 0o120000 }[kind] | mode, true);
  view.setBigUint64(32, BigInt(inode), true);
  view.setBigUint64(40, BigInt(size), true);
  view.setBigInt64(112, BigInt(modified), true);
  view.setUint32(140, device, true);
}

/** The imports of the module. `memory()` gives its memory once there is an instance. */
function importsOf(system, words, memory) {
  const bytes = (at, count) => new Uint8Array(memory().buffer, Number(at), Number(count));
  const pathAt = (at) => {
    const all = new Uint8Array(memory().buffer, Number(at));
    return decoder.decode(all.slice(0, all.indexOf(0)));
  };
  const argument = (number, to, room) => {
    if (number >= words.length) return -1;
    const word = encoder.encode(words[number]);
    if (word.length > room) return -2;
    bytes(to, word.length).set(word);
    return word.length;
  };
  const status = (folder, path, flags, to) => {
    const found = path === "" ? system.statusOf(folder) : system.statusAt(path, Boolean(flags & NO_FOLLOW));
    writeStatus(new DataView(memory().buffer, Number(to), 256), found);
  };
  const link = (path, to, room) => {
    const target = system.linkAt(path).subarray(0, room);
    bytes(to, target.length).set(target);
    return target.length;
  };
  return {
    arg_count: () => BigInt(words.length),
    arg: (number, to, room) => BigInt(argument(Number(number), to, Number(room))),
    write: (file, from, count) => BigInt(answered(() => system.write(file, bytes(from, count)))),
    // One byte, if the system has a function for it: at a terminal the program writes byte by byte, and numbers of 32 bits are quicker.
    put: (file, byte) => Number(system.writeByte?.(file, byte) ?? false),
    read: (file, to, count) => BigInt(answered(() => system.read(file, bytes(to, count)))),
    open: (path, flags, mode) => answered(() => system.open(pathAt(path), flags, mode)),
    close: (file) => answered(() => system.close(file)),
    lseek: (file, offset, origin) => BigInt(answered(() => system.seek(file, Number(offset), origin))),
    isatty: (file) => Number(system.isTerminal(file)),
    rename: (from, to) => answered(() => system.rename(pathAt(from), pathAt(to))),
    unlink: (path) => answered(() => system.remove(pathAt(path))),
    chmod: (path, mode) => answered(() => system.setMode(pathAt(path), mode)),
    statx: (folder, path, flags, mask, to) => answered(() => status(folder, pathAt(path), flags, to)),
    readlink: (path, to, room) => BigInt(answered(() => link(pathAt(path), to, Number(room)))),
  };
}

/**
 * Runs the program with these arguments, the first of which is its name, and returns its exit status. Each run has a fresh instance, so
 * nothing of one run is left for the next. Throws what the engine throws where the stack or the memory runs out.
 */
export async function runProgram(module, words, system) {
  let memory = null;
  const instance = await WebAssembly.instantiate(module, { host: importsOf(system, words, () => memory) });
  memory = instance.exports.memory;
  return instance.exports.start();
}
