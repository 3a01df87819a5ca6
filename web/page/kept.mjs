// What the browser keeps between visits: the files, and those of the user that a link has replaced.
import { element } from "./dom.mjs";

const FILES = "kibvorg.files";
const BEFORE = "kibvorg.before";
const THEME = "kibvorg.theme";
const STRICT = "kibvorg.strict";

const isFile = (file) => typeof file?.name === "string" && typeof file?.text === "string";

function read(name) {
  try {
    return JSON.parse(localStorage.getItem(name));
  } catch {
    return null;
  }
}

/** The files and settings that are kept under a name, or null. */
function readFiles(name) {
  const found = read(name);
  return Array.isArray(found?.files) && found.files.every(isFile) ? found : null;
}

function write(name, value) {
  try {
    if (value === null) localStorage.removeItem(name);
    else localStorage.setItem(name, JSON.stringify(value));
  } catch {
    // Storage may be full or forbidden; then nothing is kept.
  }
}

export class Kept {
  constructor(app) {
    this.app = app;
    element("before-open").addEventListener("click", () => this.goBack());
    element("before-remove").addEventListener("click", () => this.remove());
    this.listenToTheme();
    this.listenToStrict();
    this.show();
  }

  /** The switch for strict runs is kept as well; they are the rule. */
  listenToStrict() {
    const box = element("strict");
    box.checked = read(STRICT) !== false;
    box.addEventListener("change", () => write(STRICT, box.checked));
  }

  /** The choice of colours is kept as well; an empty one is the system's. */
  listenToTheme() {
    const choice = element("theme");
    const choose = () => (document.documentElement.dataset.theme = choice.value);
    choice.value = ["light", "dark"].find((theme) => theme === read(THEME)) ?? "";
    choose();
    choice.addEventListener("change", () => {
      choose();
      write(THEME, choice.value);
      this.app.refresh();
    });
  }

  /** The files and settings of the last visit, or null. */
  last() {
    return readFiles(FILES);
  }

  keep(state) {
    write(FILES, state);
  }

  /** Sets the user's files aside before those of a link replace them. Files that were set aside before stay. */
  setAside(files) {
    const last = this.last();
    const texts = (list) => JSON.stringify(list?.map(({ name, text }) => [name, text]));
    const isSame = texts(last?.files) === texts(files);
    if (last && !isSame && this.app.isOwn(last.files) && readFiles(BEFORE) === null) write(BEFORE, last);
    this.show();
  }

  show() {
    element("before").hidden = readFiles(BEFORE) === null;
  }

  goBack() {
    const before = readFiles(BEFORE);
    write(BEFORE, null);
    this.app.trust();
    if (before) this.app.take(before);
    this.keep(this.app.state());
    this.show();
  }

  remove() {
    write(BEFORE, null);
    this.show();
  }
}
