// A machine that has nothing but an interpreter, and the boot image in its store: what is typed is edited, compiled and run there.
// The compiler of the page has no part in it.
import { bytesOf, element, pictured, textOf } from "./dom.mjs";
import { DeviceFault, Machine, Streams, linkTexts } from "./intcode.mjs";

/** How many instructions are carried out before the page looks again at what the user does. */
const SLICE = 300_000;
/** The most characters of the console that stay. */
const MOST_SHOWN = 100_000;

export class Boot {
  constructor(app, load) {
    this.app = app;
    this.load = load;
    this.image = null;
    this.machine = null;
    element("boot-form").addEventListener("submit", (event) => {
      event.preventDefault();
      this.type(`${element("boot-line").value}\n`);
      element("boot-line").value = "";
    });
    element("boot-file").addEventListener("click", () => this.typeFile());
    element("boot-again").addEventListener("click", () => this.start());
  }

  /** Boots the machine when the panel is shown for the first time. */
  async open() {
    if (this.machine === null) await this.start();
  }

  async start() {
    this.image ??= linkTexts([bytesOf(await this.load())]);
    this.typed = [];
    this.written = [];
    this.isWaiting = false;
    element("boot-screen").textContent = "";
    const input = { name: bytesOf("SYSIN"), read: () => this.read() };
    const output = { name: bytesOf("SYSPRINT"), write: (byte) => this.written.push(byte), flush: () => {} };
    this.machine = new Machine(this.image, new Streams([input], [output]));
    this.tell("");
    this.go(this.machine);
  }

  /** The next byte that was typed, which is echoed. Without one the machine stops before the instruction that reads, and goes on there. */
  read() {
    if (this.typed.length === 0) throw new DeviceFault();
    const byte = this.typed.shift();
    this.written.push(byte);
    return byte;
  }

  /** Runs the machine until it waits or ends, unless another one was booted. */
  go(machine) {
    if (machine !== this.machine) return;
    const end = machine.run(SLICE);
    this.isWaiting = end === "Device";
    this.show();
    if (end === "BudgetSpent") setTimeout(() => this.go(machine));
    else if (!this.isWaiting) this.tell(end === "Finished" ? "The machine has halted." : `The machine has stopped: ${end}.`);
  }

  /** Types a text on the console. */
  type(text) {
    for (const byte of bytesOf(text)) this.typed.push(byte);
    if (this.isWaiting) this.go(this.machine);
  }

  /** Types the current file in the place of the lines that are there, and goes. */
  async typeFile() {
    await this.open();
    const { text } = this.app.project.current;
    this.type(`,d\na\n${text.replace(/\n?$/, "\n")}.\ng\n`);
  }

  /** Shows what was written since the last time. */
  show() {
    if (this.written.length === 0) return;
    const screen = element("boot-screen");
    screen.textContent = (screen.textContent + pictured(textOf(Uint8Array.from(this.written)))).slice(-MOST_SHOWN);
    screen.scrollTop = screen.scrollHeight;
    this.written = [];
  }

  tell(sentence) {
    element("boot-said").textContent = sentence;
  }
}
