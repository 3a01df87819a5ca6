// The tutorial and the language's pages, beside the editor. A program of a page can be opened with one button.
import { element, made } from "./dom.mjs";
import { shownPage } from "./markdown.mjs";

export class Learn {
  constructor(app, load) {
    this.app = app;
    this.load = load;
    this.pages = null;
    this.path = null;
    this.history = [];
    element("page").addEventListener("change", (event) => this.open(event.target.value));
    element("page-back").addEventListener("click", () => this.back());
  }

  /** Shows a page, from its top or from a heading. */
  async open(path = null, anchor = "", isBack = false) {
    this.pages ??= await this.load();
    this.list();
    const wanted = path ?? this.path ?? this.pages[0].path;
    const page = this.pages.find((it) => it.path === wanted);
    if (!page) return;
    if (this.path !== null && this.path !== wanted && !isBack) this.history.push(this.path);
    if (this.path !== wanted) this.show(page);
    this.path = wanted;
    element("page").value = wanted;
    element("page-back").disabled = this.history.length === 0;
    const heading = anchor && document.getElementById(`at-${anchor}`);
    if (heading) heading.scrollIntoView();
  }

  back() {
    this.open(this.history.pop(), "", true);
  }

  list() {
    const select = element("page");
    if (select.options.length > 0) return;
    const groups = [...new Set(this.pages.map(({ group }) => group))];
    const option = ({ path, title }) => made("option", { value: path, textContent: title });
    const options = (group) => this.pages.filter((page) => page.group === group).map(option);
    select.append(...groups.map((group) => made("optgroup", { label: group }, ...options(group))));
  }

  show(page) {
    const on = { link: (target) => this.link(page.path, target), code: (figure, kind, text) => this.code(figure, kind, text) };
    element("page-text").replaceChildren(...shownPage(page.text, on));
    element("panel-learn").scrollTop = 0;
  }

  /** What a link of a page does here: leads to another page or heading, or nothing. */
  link(from, target) {
    const [path, anchor = ""] = target.split("#");
    const whole = path === "" ? from : resolved(from, path);
    return this.pages.some((page) => page.path === whole) ? () => this.open(whole, anchor) : null;
  }

  /** Gives a block with a program a button that opens it. */
  code(figure, kind, text) {
    const [, name] = kind.match(/^file (\S+)$/) ?? [];
    const isProgram = name !== undefined || /^LET START\(\)/m.test(text);
    if (!isProgram) return;
    const button = made("button", { type: "button", className: "plain", textContent: "Open in the editor" });
    const source = `${text.replace(/\n$/, "")}\n`;
    this.app.given.add(source);
    button.addEventListener("click", () => this.app.openProgram(name ?? "example.bcpl", source));
    figure.prepend(made("figcaption", {}, name ?? "", button));
  }
}

/** A relative path as seen from the root. */
function resolved(from, path) {
  const parts = from.split("/").slice(0, -1);
  for (const part of path.split("/")) {
    if (part === "..") parts.pop();
    else if (part !== "." && part !== "") parts.push(part);
  }
  return parts.join("/");
}
