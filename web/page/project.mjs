// The files that are worked on, what each is for, and the arguments of bcpl that follow from that.
import { bytesOf } from "./dom.mjs";
import { namesGot } from "./language.mjs";

/** What a file can be for. */
export const ROLES = { section: "a section", header: "a header", data: "an input" };

/** The most files, and the most bytes in all of them, that are taken from a link or from disk. */
export const MOST_FILES = 40;
export const MOST_BYTES = 4_000_000;

const LONGEST_NAME = 80;

/** A name that is safe as a file's name and as an argument: no folders, no control characters, no leading hyphen. */
export function safeName(name) {
  const kept = String(name).replace(/[\0-\x1f\x7f/\\=]/g, "-").replace(/^[-.\s]+/, "").trim();
  return [...kept].slice(0, LONGEST_NAME).join("") || "file";
}

/** What a file is for, as its name says. */
export function roleOf(name) {
  if (/\.(bcpl|b|bpl)$/i.test(name)) return "section";
  return /\.(header|hdr|h|defs)$/i.test(name) ? "header" : "data";
}

/** The name by which a header is got, or an input is found, unless the user gives another. */
export function usualStream(name) {
  return name.replace(/\.[^.]*$/, "").toUpperCase();
}

export class Project {
  constructor() {
    this.files = [];
    this.current = null;
  }

  /** The number of the program that is worked on. Files of several programs can be open beside each other, as an example beside one's own. */
  get program() {
    return this.current?.program ?? 0;
  }

  /** The files of the program that is worked on. */
  get inProgram() {
    return this.files.filter((file) => file.program === this.program);
  }

  /** A number that no program has. */
  freeProgram() {
    return Math.max(-1, ...this.files.map((file) => file.program)) + 1;
  }

  /** Adds a file under its name, or under one like it where that is taken, and returns it. */
  add({ name, text = "", role, stream, program = this.program }) {
    const wanted = safeName(name);
    const safe = this.freeName(wanted);
    const known = Object.hasOwn(ROLES, role ?? "") ? role : roleOf(safe);
    const file = { name: safe, text, role: known, stream: stream ?? usualStream(wanted), program };
    this.files.push(file);
    this.current ??= file;
    return file;
  }

  freeName(name) {
    const dot = name.lastIndexOf(".");
    const [stem, ending] = dot > 0 ? [name.slice(0, dot), name.slice(dot)] : [name, ""];
    let free = name;
    for (let number = 2; this.find(free); number += 1) free = `${stem}-${number}${ending}`;
    return free;
  }

  find(name) {
    return this.files.find((file) => file.name === name);
  }

  rename(file, name) {
    const safe = safeName(name);
    if (safe !== file.name) file.name = this.freeName(safe);
  }

  /** The file that is worked on after this one, if that is removed: its neighbour in the program, or one of another program. */
  next(file) {
    const here = this.inProgram;
    const at = here.indexOf(file);
    return here[at + 1] ?? here[at - 1] ?? this.files.find((other) => other !== file);
  }

  remove(file) {
    this.files.splice(this.files.indexOf(file), 1);
    if (this.current === file) this.current = null;
  }

  replace(files) {
    this.files = [];
    this.current = null;
    for (const file of files) this.add(file);
  }

  withRole(role) {
    return this.inProgram.filter((file) => file.role === role);
  }

  /** Whether a source gets the further library's header, so that it must be linked as well. */
  needsExtension() {
    return this.inProgram.some((file) => file.role !== "data" && namesGot(file.text).includes("EXTHDR"));
  }

  /** The arguments that say what GET finds. */
  getWords() {
    const gets = this.withRole("header").flatMap((file) => [`--get=${file.stream}=${file.name}`]);
    return this.needsExtension() ? [...gets, "--library", "ext"] : gets;
  }

  /** The arguments that say what GET finds, for a command that links nothing. */
  formatWords() {
    return this.withRole("header").flatMap((file) => [`--get=${file.stream}=${file.name}`]);
  }

  /** The arguments that bind inputs to files. `outputs` are the names of further outputs. */
  streamWords(outputs) {
    const inputs = this.withRole("data").flatMap((file) => [`--in=${file.stream}=${file.name}`]);
    return [...inputs, ...outputs.flatMap((name) => [`--to=${name}=${safeName(name)}`])];
  }

  sectionNames() {
    return this.withRole("section").map((file) => file.name);
  }

  /** The files of the program as the compiler gets them: pairs of a name and bytes. */
  content() {
    return this.inProgram.map((file) => [file.name, bytesOf(file.text)]);
  }
}
