// intcode.mjs: reads INTCODE texts, links them behind the primitives and runs them.
//
// This interpreter is NOT proved. It was written by hand after docs/porting.md, in the order of that page and with its names, to be
// read and translated; the program `bcpl` is the one that is proved. It knows no browser and no Node: texts and names are arrays of
// bytes, and the streams of a run are objects that give and take a byte. The command line stands in run.mjs, a page in porting/page.

// ---- 1. Words: numbers from 0 to 65535; all sums are taken modulo 65536, which is `& 65535`

/** A word read as a signed number. */
export const signed = (word) => (word < 32768 ? word : word - 65536);

/** TRUE or FALSE. */
const truth = (holds) => (holds ? 65535 : 0);

// ---- 2. Refusals

/** A text, segments or the names of streams were refused. The message is what `bcpl` prints after its name. */
export class Refusal extends Error {}

/** What a stream's device throws where it fails. The run ends as `Device`. */
export class DeviceFault extends Error {}

// ---- 3. Reading

/** The letters of the functions 0 to 7. */
export const FUNCTIONS = "LSAJTFKX";

const isDigit = (letter) => letter >= "0" && letter <= "9";

/**
 * The segments of a text, each a list of items. An item is one of these, and `text` is how it is printed:
 *
 *     { kind: "label", label }                            n
 *     { kind: "data", number }                            Dn
 *     { kind: "address", label }                          DLm
 *     { kind: "byte", number }                            Cn
 *     { kind: "operation", f, indirect, base, number }    F[I]n F[I]Pn F[I]Gn F[I]Lm: f from 0 to 7, base "", "P", "G" or "L"
 *     { kind: "global", number, label }                   GnLm
 *
 * The first fault is thrown, as a Refusal, with its place: the number of bytes in front of it.
 */
export function readText(bytes) {
  let at = 0; // how many bytes were read

  // The next byte as a letter, or "" at the end.
  const next = () => (at < bytes.length ? String.fromCharCode(bytes[at]) : "");

  // Reads this letter, if it is the next one.
  const take = (letter) => {
    const taken = next() === letter;
    if (taken) at += 1;
    return taken;
  };

  // The refusal of the next byte, or that of a text that ends inside an item.
  const refusalHere = (what) => new Refusal(at < bytes.length ? `text ${what} ${at}` : "text 4 Unended");

  // A number from 0 to `limit`, or with a sign from -32768, which counts modulo 65536.
  const readNumber = (limit, maySign) => {
    const from = at;
    const negative = maySign && take("-");
    if (!isDigit(next())) throw refusalHere("2 BadNumber");
    let value = 0;
    while (isDigit(next())) {
      value = value * 10 + Number(next());
      if (value > (negative ? 32768 : limit)) throw new Refusal(`text 2 BadNumber ${from}`);
      at += 1;
    }
    return negative ? (65536 - value) % 65536 : value;
  };

  const readLabel = () => readNumber(65535, false);

  const readGlobal = () => {
    const number = readNumber(511, false);
    if (!take("L")) throw refusalHere("3 MissingLabel");
    return { kind: "global", number, label: readLabel() };
  };

  const readItem = () => {
    if (isDigit(next())) return { kind: "label", label: readLabel() };
    const f = FUNCTIONS.indexOf(next());
    if (f < 0 && !"DCG".includes(next())) throw refusalHere("1 BadCharacter");
    if (take("D")) return take("L") ? { kind: "address", label: readLabel() } : { kind: "data", number: readNumber(65535, true) };
    if (take("C")) return { kind: "byte", number: readNumber(255, false) };
    if (take("G")) return readGlobal();
    at += 1;
    const indirect = take("I");
    const base = ["P", "G", "L"].find(take) ?? "";
    return { kind: "operation", f, indirect, base, number: readNumber(65535, base !== "L") };
  };

  const segments = [];
  let items = [];
  while (at < bytes.length) {
    if (" \t\r\n$".includes(next())) {
      at += 1;
    } else if (take("/")) {
      while (at < bytes.length && next() !== "\n") at += 1;
    } else if (take("Z")) {
      segments.push(items);
      items = [];
    } else {
      items.push(readItem());
    }
  }
  if (items.length > 0) throw new Refusal("text 4 Unended");
  return segments;
}

// ---- 4. Placing: labels get addresses, and items become words

/** The first address of the globals, which G always holds. */
export const G = 8;

/** How many globals there are. */
export const GLOBALS = 512;

/** The address of the first segment. */
export const SEGMENTS = G + GLOBALS;

/** The last address at which the stack may begin: 64 cells are left for the stack. */
const LAST_STACK_BASE = 65472;

/** The call of the routine in global 1, and the end of the run: `LIG1 K2 X22`. */
const BOOT = [5121, 49154, 57366];

const PRIMITIVES = `1 LIP2 X24 L0 X4 2 LIP2 X25 L0 X4 3 X26 X4 4 LIP2 X27 L0 X4
  5 LIP2 X28 X4 6 LIP2 X29 X4 7 X33 L0 X4 8 X34 L0 X4
  G11L1 G12L2 G13L3 G14L4 G15L5 G16L6 G17L7 G18L8 Z`;

/** The segment of the primitives, the first one in every store. */
const primitives = () => readText(Array.from(PRIMITIVES, (letter) => letter.charCodeAt(0)))[0];

/** How many words an item takes that shares none with another one. */
function sizeOf(item) {
  if (item.kind === "label" || item.kind === "global") return 0;
  if (item.kind === "operation") return item.base === "L" || item.number > 511 ? 2 : 1;
  return 1;
}

/**
 * Where the items of a segment stand that begins at `start`: the address of the first word of each, the labels with their addresses,
 * and the address behind the last word. `low` has true for a byte that shares the word of the byte in front of it.
 */
function layOut(items, start) {
  const addresses = [];
  const low = [];
  const labels = new Map();
  let at = start;
  let halfFree = false; // whether the word in front of `at` has room for a byte
  for (const item of items) {
    const shares = item.kind === "byte" && halfFree;
    addresses.push(shares ? at - 1 : at);
    low.push(shares);
    if (item.kind === "label" && !labels.has(item.label)) labels.set(item.label, at);
    if (!shares) at += sizeOf(item);
    halfFree = item.kind === "byte" && !shares;
  }
  return { start, items, addresses, low, labels, end: at };
}

/** The label that an item speaks of, or undefined. */
function labelUsed(item) {
  if (item.kind === "address" || item.kind === "global") return item.label;
  return item.kind === "operation" && item.base === "L" ? item.number : undefined;
}

/** The first number of a list that stands in front of itself already, or undefined. */
function firstRepeated(numbers) {
  const before = new Set();
  for (const number of numbers) {
    if (before.has(number)) return number;
    before.add(number);
  }
  return undefined;
}

/** Throws what is wrong with the segments: each fault is looked for in all of them before the next one. */
function refuse(segments, places) {
  segments.forEach((items, k) => {
    const twice = firstRepeated(items.filter((item) => item.kind === "label").map((item) => item.label));
    if (twice !== undefined) throw new Refusal(`link 2 LabelTwice ${k} ${twice}`);
  });
  const twice = firstRepeated(segments.flat().filter((item) => item.kind === "global").map((item) => item.number));
  if (twice !== undefined) throw new Refusal(`link 3 GlobalTwice ${twice}`);
  if (places.at(-1).end > LAST_STACK_BASE) throw new Refusal("link 4 TooLarge");
  segments.forEach((items, k) => {
    const unset = items.map(labelUsed).find((label) => label !== undefined && !places[k].labels.has(label));
    if (unset !== undefined) throw new Refusal(`link 1 LabelUnset ${k} ${unset}`);
  });
}

/** Puts the words of an item into the store. */
function putItem(store, item, address, isLow, labels) {
  switch (item.kind) {
    case "data":
      store[address] = item.number;
      break;
    case "address":
      store[address] = labels.get(item.label);
      break;
    case "byte":
      store[address] += isLow ? item.number : item.number * 256;
      break;
    case "global":
      store[G + item.number] = labels.get(item.label);
      break;
    case "operation": {
      const word = 8192 * item.f + (item.indirect ? 4096 : 0) + (item.base === "P" ? 2048 : 0) + (item.base === "G" ? 1024 : 0);
      const isLong = sizeOf(item) === 2;
      store[address] = word + (isLong ? 512 : item.number);
      if (isLong) store[address + 1] = item.base === "L" ? labels.get(item.number) : item.number;
      break;
    }
  }
}

/**
 * The image of texts, in their order, behind the primitives: the words of the store, the stack base, and the places of the segments. What
 * is wrong is thrown as a Refusal: first what the texts have, and then what linking has.
 */
export function linkTexts(texts) {
  const segments = [primitives(), ...texts.map(readText).flat()];
  const places = [];
  for (const items of segments) places.push(layOut(items, places.at(-1)?.end ?? SEGMENTS));
  refuse(segments, places);
  const store = new Uint16Array(65536);
  store.set(BOOT);
  for (const { items, addresses, low, labels } of places) {
    items.forEach((item, i) => putItem(store, item, addresses[i], low[i], labels));
  }
  return { store, stackBase: places.at(-1).end, places };
}

// ---- 5. Streams: two tables, each numbered from 1; 0 is no stream

const sameName = (name, other) => name.length === other.length && name.every((byte, i) => byte === other[i]);

/** A table of streams, numbered from 1. */
class Table {
  constructor(streams) {
    streams.forEach(({ name }, i) => {
      if (name.length > 255) throw new Refusal("streams 2 NameTooLong");
      if (streams.slice(0, i).some((before) => sameName(before.name, name))) throw new Refusal("streams 1 NameTwice");
    });
    this.streams = streams.map((device) => ({ device, hasEnded: false, isAtEnd: false }));
    this.selectedNumber = streams.length > 0 ? 1 : 0; // that of the selected stream, or 0
  }

  /** The selected stream, or undefined. */
  get selected() {
    return this.streams[this.selectedNumber - 1];
  }

  /** Selects the stream with this number, or nothing where there is none. */
  selectStream(number) {
    this.selectedNumber = number <= this.streams.length ? number : 0;
  }

  /** The number of the stream with this name, or 0 where there is none or a word can't hold it. One that was ended is still found. */
  findStream(name) {
    const number = this.streams.findIndex(({ device }) => sameName(device.name, name)) + 1;
    return number <= 65535 ? number : 0;
  }

  /** Ends the selected stream for good; then none is selected. */
  endStream() {
    if (this.selected) this.selected.hasEnded = true;
    this.selectedNumber = 0;
  }
}

/**
 * The streams of a run. An input is `{ name, read() }`, where `read` gives the next byte, or -1 at the end; an output is
 * `{ name, write(byte), flush() }`. Each of them may throw a DeviceFault.
 */
export class Streams {
  constructor(inputs, outputs) {
    this.inputs = new Table(inputs);
    this.outputs = new Table(outputs);
  }

  /** The next byte of the selected input, or 65535. An input that has been at its end stays there. */
  readByte() {
    const input = this.inputs.selected;
    if (!input || input.hasEnded || input.isAtEnd) return 65535;
    const byte = input.device.read();
    input.isAtEnd = byte < 0;
    return input.isAtEnd ? 65535 : byte;
  }

  /** Writes a byte to the selected output; it is dropped where none is selected or it was ended. */
  writeByte(byte) {
    const output = this.outputs.selected;
    if (output && !output.hasEnded) output.device.write(byte);
  }

  /** Ends the selected output, once what was written to it is out. */
  endOutput() {
    this.outputs.selected?.device.flush();
    this.outputs.endStream();
  }

  /** Brings out what was written to the outputs, and gives whether no device failed. */
  close() {
    let closed = true;
    for (const { device } of this.outputs.streams) {
      try {
        device.flush();
      } catch (fault) {
        if (!(fault instanceof DeviceFault)) throw fault;
        closed = false;
      }
    }
    return closed;
  }
}

// ---- 6. Instructions

/** `B op A`, for X5 to X21; A is not 0 for X6 and X7. */
function operate(D, B, A) {
  switch (D) {
    case 5: // *
      return (signed(B) * signed(A)) & 65535;
    case 6: // /, which truncates towards 0
      return Math.trunc(signed(B) / signed(A)) & 65535;
    case 7: // REM, with the sign of B
      return signed(B) % signed(A) & 65535;
    case 8: // +
      return (B + A) & 65535;
    case 9: // -
      return (B - A) & 65535;
    case 10: // =
      return truth(B === A);
    case 11: // NE
      return truth(B !== A);
    case 12: // <
      return truth(signed(B) < signed(A));
    case 13: // GE
      return truth(signed(B) >= signed(A));
    case 14: // >
      return truth(signed(B) > signed(A));
    case 15: // LE
      return truth(signed(B) <= signed(A));
    case 16: // <<
      return A > 15 ? 0 : (B << A) & 65535;
    case 17: // >>, zeros coming in
      return A > 15 ? 0 : B >> A;
    case 18: // &
      return B & A;
    case 19: // |
      return B | A;
    case 20: // NEQV
      return B ^ A;
    default: // EQV
      return 65535 - (B ^ A);
  }
}

/** The registers, the store and the streams, and what an instruction does to them. */
export class Machine {
  constructor({ store, stackBase }, streams) {
    this.A = 0;
    this.B = 0;
    this.C = 0; // the address of the next instruction
    this.P = stackBase; // the address of the frame
    this.store = store.slice();
    this.streams = streams;
  }

  /** Carries out at most this many instructions, and gives the end. */
  run(budget) {
    for (let left = budget; left > 0; left -= 1) {
      const end = this.step();
      if (end !== null) return end;
    }
    return "BudgetSpent";
  }

  /**
   * Carries out the instruction at C, and gives null, or the end of the run: `Finished`, `ZeroDivide`, `BadInstruction` with the
   * instruction's address, or `Device`. An instruction that meets an end changes nothing: so C itself is set behind all else.
   */
  step() {
    const store = this.store;
    let C = this.C;
    const word = store[C];
    C = (C + 1) & 65535;
    let D = word & 511;
    if (word & 512) {
      D = store[C];
      C = (C + 1) & 65535;
    }
    if (word & 2048) D += this.P;
    if (word & 1024) D += G;
    D &= 65535;
    if (word & 4096) D = store[D];
    switch (word >> 13) {
      case 0: // L
        this.B = this.A;
        this.A = D;
        break;
      case 1: // S
        store[D] = this.A;
        break;
      case 2: // A
        this.A = (this.A + D) & 65535;
        break;
      case 3: // J
        C = D;
        break;
      case 4: // T
        if (this.A !== 0) C = D;
        break;
      case 5: // F
        if (this.A === 0) C = D;
        break;
      case 6: // K
        D = (this.P + D) & 65535;
        store[D] = this.P;
        store[(D + 1) & 65535] = C;
        this.P = D;
        C = this.A;
        break;
      case 7: // X
        return this.execute(D, C);
    }
    this.C = C;
    return null;
  }

  /** Carries out the operation X with the number D, where C is the address behind the instruction. Gives what `step` gives. */
  execute(D, C) {
    const { A, P, store, streams } = this;
    if (D >= 5 && D <= 21) {
      if (A === 0 && (D === 6 || D === 7)) return "ZeroDivide";
      this.A = operate(D, this.B, A);
    } else if (D === 1) {
      this.A = store[A];
    } else if (D === 2) {
      this.A = -A & 65535;
    } else if (D === 3) {
      this.A = 65535 - A;
    } else if (D === 4) {
      C = store[(P + 1) & 65535];
      this.P = store[P];
    } else if (D === 22) {
      return "Finished";
    } else if (D === 23) {
      C = this.switched(C);
    } else if (D === 24) {
      streams.inputs.selectStream(A);
    } else if (D === 25) {
      streams.outputs.selectStream(A);
    } else if (D === 26 || D === 27 || D === 34) {
      if (!this.transfer(D)) return "Device";
    } else if (D === 28) {
      this.A = streams.inputs.findStream(this.stringAt(A));
    } else if (D === 29) {
      this.A = streams.outputs.findStream(this.stringAt(A));
    } else if (D === 33) {
      streams.inputs.endStream();
    } else {
      return `BadInstruction ${this.C}`;
    }
    this.C = C;
    return null;
  }

  /** Where the switch goes whose count, default address and pairs of a value and an address stand at this address. */
  switched(address) {
    const store = this.store;
    let pair = (address + 2) & 65535;
    for (let count = store[address]; count > 0; count -= 1) {
      if (store[pair] === this.A) return store[(pair + 1) & 65535];
      pair = (pair + 2) & 65535;
    }
    return store[(address + 1) & 65535];
  }

  /** The bytes of the string at this address: its length stands in byte 0, and two bytes in a word, the high one first. */
  stringAt(address) {
    const byteAt = (k) => {
      const word = this.store[(address + (k >> 1)) & 65535];
      return k % 2 === 0 ? word >> 8 : word & 255;
    };
    return Array.from({ length: byteAt(0) }, (_, i) => byteAt(i + 1));
  }

  /** Carries out X26, X27 or X34, and gives whether the device did not fail. */
  transfer(D) {
    try {
      if (D === 26) this.A = this.streams.readByte();
      else if (D === 27) this.streams.writeByte(this.A & 255);
      else this.streams.endOutput();
      return true;
    } catch (fault) {
      if (fault instanceof DeviceFault) return false;
      throw fault;
    }
  }
}
