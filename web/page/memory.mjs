// A system of files in memory, for host.mjs: a name is a path as it was written, folders aren't known, and there are the three standard streams.
import { ERRORS, OPEN, SystemError } from "./host.mjs";

/** The most bytes that a run may write to its files and standard streams, together. */
const MOST_WRITTEN = 256 * 1024 * 1024;

/** A file that grows: its bytes are the first `size` of the buffer. */
class MemoryFile {
  constructor(content, inode) {
    this.buffer = content.slice();
    this.size = content.length;
    this.inode = inode;
  }

  content() {
    return this.buffer.slice(0, this.size);
  }

  write(at, bytes) {
    const end = at + bytes.length;
    if (end > this.buffer.length) {
      const larger = new Uint8Array(Math.max(end, 2 * this.buffer.length, 1024));
      larger.set(this.buffer.subarray(0, this.size));
      this.buffer = larger;
    }
    this.buffer.set(bytes, at);
    this.size = Math.max(this.size, end);
  }
}

export class MemorySystem {
  /**
   * `files` are pairs of a name and bytes. `streams.read(to)` puts bytes of standard input there and returns how many, 0 at its end;
   * `streams.write(number, bytes)` and `streams.writeByte(number, byte)` take what is written to standard output, 1, and standard error, 2.
   * `terminals` lists the standard streams that are answered to be terminals.
   */
  constructor(files, streams, terminals = []) {
    this.inodes = 100;
    this.files = new Map(files.map(([name, bytes]) => [name, new MemoryFile(bytes, (this.inodes += 1))]));
    this.given = new Map(files);
    this.streams = streams;
    this.terminals = terminals;
    this.opened = new Map();
    this.written = 0;
  }

  /** The files that the run made or changed, as pairs. */
  changed() {
    const isNew = ([name, bytes]) => {
      const old = this.given.get(name);
      return old === undefined || old.length !== bytes.length || old.some((byte, at) => byte !== bytes[at]);
    };
    return [...this.files].map(([name, file]) => [name, file.content()]).filter(isNew);
  }

  file(path) {
    const file = this.files.get(path);
    if (file === undefined) throw new SystemError(ERRORS.NOENT);
    return file;
  }

  handle(number) {
    const handle = this.opened.get(number);
    if (handle === undefined) throw new SystemError(ERRORS.BADF);
    return handle;
  }

  open(path, flags) {
    if (path === "/" || path === ".") return this.add({ isFolder: true });
    if (path === "") throw new SystemError(ERRORS.NOENT);
    if (!this.files.has(path)) {
      if (!(flags & OPEN.CREATE)) throw new SystemError(ERRORS.NOENT);
      this.files.set(path, new MemoryFile(new Uint8Array(0), (this.inodes += 1)));
    } else if (flags & OPEN.CREATE && flags & OPEN.NEW) {
      throw new SystemError(ERRORS.EXIST);
    }
    const file = this.file(path);
    if (flags & OPEN.EMPTY) file.size = 0;
    return this.add({ file, at: 0, appends: Boolean(flags & OPEN.APPEND) });
  }

  add(handle) {
    let number = 3;
    while (this.opened.has(number)) number += 1;
    this.opened.set(number, handle);
    return number;
  }

  close(number) {
    if (number > 2 && !this.opened.delete(number)) throw new SystemError(ERRORS.BADF);
  }

  read(number, to) {
    if (number === 0) return this.streams.read(to);
    const handle = this.handle(number);
    if (handle.isFolder) throw new SystemError(ERRORS.ISDIR);
    const count = Math.max(0, Math.min(to.length, handle.file.size - handle.at));
    to.set(handle.file.buffer.subarray(handle.at, handle.at + count));
    handle.at += count;
    return count;
  }

  write(number, bytes) {
    this.written += bytes.length;
    if (this.written > MOST_WRITTEN) throw new SystemError(ERRORS.NOSPC);
    if (number === 1 || number === 2) {
      this.streams.write(number, bytes.slice());
      return bytes.length;
    }
    const handle = this.handle(number);
    if (handle.isFolder) throw new SystemError(ERRORS.ISDIR);
    if (handle.appends) handle.at = handle.file.size;
    handle.file.write(handle.at, bytes);
    handle.at += bytes.length;
    return bytes.length;
  }

  /** Writes a byte to a standard stream, and returns whether it has: the rest is for `write`. */
  writeByte(number, byte) {
    if ((number !== 1 && number !== 2) || this.written >= MOST_WRITTEN) return false;
    this.written += 1;
    this.streams.writeByte(number, byte);
    return true;
  }

  seek(number, offset, origin) {
    if (number <= 2) throw new SystemError(ERRORS.SPIPE);
    const handle = this.handle(number);
    if (handle.isFolder) throw new SystemError(ERRORS.INVAL);
    const to = offset + [0, handle.at, handle.file.size][origin];
    if (!(to >= 0)) throw new SystemError(ERRORS.INVAL);
    handle.at = to;
    return to;
  }

  isTerminal(number) {
    return this.terminals.includes(number);
  }

  rename(from, to) {
    const file = this.file(from);
    this.files.delete(from);
    this.files.set(to, file);
  }

  remove(path) {
    this.file(path);
    this.files.delete(path);
  }

  setMode(path) {
    this.file(path);
  }

  /** There are no links: for each file this is an error. */
  linkAt(path) {
    this.file(path);
    throw new SystemError(ERRORS.INVAL);
  }

  statusAt(path) {
    if (path === "/" || path === ".") return { kind: "folder", mode: 0o755, size: 0, inode: 1 };
    const file = this.file(path);
    return { kind: "file", mode: 0o644, size: file.size, inode: file.inode };
  }

  statusOf(number) {
    if (number <= 2) return { kind: "terminal", mode: 0o620, size: 0, inode: 2 + number };
    const { file, isFolder } = this.handle(number);
    return isFolder ? this.statusAt("/") : { kind: "file", mode: 0o644, size: file.size, inode: file.inode };
  }
}
