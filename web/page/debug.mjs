// The debugger: records a run by `bcpl debug`, and shows the recording with the debugger's page (../../debugger).
import { bytesOf, element, made, textOf } from "./dom.mjs";

const RECORDED = "run.html";
const INPUT = "input.txt";
/** How many stops are kept, and how many turns are recorded at most. */
const MOST_STOPS = 200_000;
const MOST_TURNS = 10_000_000;

/** How a recorded run ended, by the recording's word for it. */
const ENDINGS = {
  finished: "Recorded", wild: "Stopped at a wild access", strict: "Stopped at a probable mistake", zero: "Stopped at a division by 0",
  turns: "The budget is spent", device: "Stopped: the run wrote more than is kept", cut: "Recorded",
};

export class Debug {
  constructor(app) {
    this.app = app;
    this.page = null;
    element("debug").addEventListener("click", () => this.record());
    element("debug-back").addEventListener("click", () => {
      app.showPanel("output");
      app.editor.area.focus();
    });
  }

  /** Whether a recording is shown. */
  get isShown() {
    return this.page !== null;
  }

  async record() {
    const { project, output } = this.app;
    const input = element("input").value;
    const turns = Math.min(Number(output.budget), MOST_TURNS);
    const words = ["debug", ...output.strictWords(), "--places", "always", "--turns", turns, "--record", MOST_STOPS, "--out", RECORDED].map(String);
    // It knows standard input only, as a file that is there beforehand.
    if (input !== "") words.push("--input", INPUT);
    const done = await output.start([...words, ...project.getWords(), "--", ...project.sectionNames()], "--turns", [[INPUT, bytesOf(input)]]);
    const page = done?.files?.find(([name]) => name === RECORDED)?.[1];
    if (page) this.show(textOf(page), done.seconds);
  }

  /** Shows the recording of a page that the program wrote. The page itself is never shown. */
  show(page, seconds) {
    const found = new DOMParser().parseFromString(page, "text/html").getElementById("recording")?.textContent;
    const data = found ? JSON.parse(found) : null;
    this.page?.close();
    this.page = data ? globalThis.bcplDebugger.mount(element("debugger"), data) : null;
    if (!data) element("debugger").replaceChildren(made("p", { textContent: "The program wrote no recording." }));
    else this.showEnding(data.end, seconds);
    element("debug-hint").hidden = this.isShown;
    element("debug-line").hidden = !this.isShown;
    this.app.showPanel("debug");
  }

  /** Says how the run ended, and shows its message in Output too. */
  showEnding({ kind, lines }, seconds) {
    const { output } = this.app;
    output.showErrors(lines);
    output.showEnding(`${ENDINGS[kind] ?? "Ended"}, after ${seconds}`, ENDINGS[kind] === ENDINGS.finished, kind === "turns" ? "--turns" : null);
  }
}
