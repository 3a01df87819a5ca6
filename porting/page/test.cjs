// test [--only WORD] [--picture] [--shots DIR]: opens index.html in a headless chromium and uses it: each example runs to its
// output, the keyboard steps, sets breakpoints and runs, refusals are told with their places, and the speed is measured. With
// --picture it takes docs/porting-page.png anew; with --shots it takes pictures at three widths, light and dark, into that folder.
//
// CHROMIUM says which program is the browser. Where there is none, that is said, and the status is 0.
"use strict";
const fs = require("node:fs");
const os = require("node:os");
const path = require("node:path");
const zlib = require("node:zlib");
const { spawn, spawnSync } = require("node:child_process");

const here = __dirname;
const top = path.join(here, "../..");
const words = process.argv.slice(2);
const wordBehind = (option) => (words.includes(option) ? words[words.indexOf(option) + 1] : undefined);

/** The browser's program, or undefined. */
function browserProgram() {
  const usual = ["chromium", "chromium-browser", "google-chrome", "chromium-headless-shell"];
  const names = process.env.CHROMIUM ? [process.env.CHROMIUM] : usual;
  const folders = process.env.PATH.split(":");
  const places = names.flatMap((name) => (name.includes("/") ? [name] : folders.map((folder) => path.join(folder, name))));
  return places.find((place) => fs.existsSync(place));
}

const descriptionOf = ({ exception, text }) => exception?.description ?? text;

/** A browser that is spoken to over two pipes: each message is JSON, and a 0 byte ends it. */
class Browser {
  constructor(program) {
    this.profile = fs.mkdtempSync(path.join(os.tmpdir(), "intcode-page-"));
    const options = ["--headless", "--no-sandbox", "--disable-gpu", "--hide-scrollbars", "--remote-debugging-pipe"];
    const words = [...options, `--user-data-dir=${this.profile}`, "about:blank"];
    this.process = spawn(program, words, { stdio: ["ignore", "ignore", "ignore", "pipe", "pipe"] });
    this.waiting = new Map();
    this.count = 0;
    this.faults = [];
    let rest = "";
    this.process.stdio[4].setEncoding("utf8").on("data", (piece) => {
      const messages = (rest + piece).split("\0");
      rest = messages.pop();
      for (const message of messages) this.take(JSON.parse(message));
    });
  }

  take({ id, result, error, method, params }) {
    if (method === "Runtime.exceptionThrown") this.faults.push(descriptionOf(params.exceptionDetails));
    if (id === undefined) return;
    const { resolve, reject } = this.waiting.get(id);
    this.waiting.delete(id);
    if (error) reject(new Error(error.message));
    else resolve(result);
  }

  send(method, params = {}) {
    this.count += 1;
    const id = this.count;
    this.process.stdio[3].write(`${JSON.stringify({ id, method, params, sessionId: this.session })}\0`);
    return new Promise((resolve, reject) => this.waiting.set(id, { resolve, reject }));
  }

  async open() {
    const { targetInfos } = await this.send("Target.getTargets");
    const { targetId } = targetInfos.find(({ type }) => type === "page");
    this.session = (await this.send("Target.attachToTarget", { targetId, flatten: true })).sessionId;
    await this.send("Runtime.enable");
    await this.send("Page.enable");
  }

  async close() {
    this.session = undefined;
    const ended = new Promise((resolve) => this.process.on("exit", resolve));
    await this.send("Browser.close").catch(() => {});
    await ended;
    fs.rmSync(this.profile, { recursive: true, force: true, maxRetries: 5 });
  }

  /** The value of an expression in the page. */
  async value(expression) {
    const { result, exceptionDetails } = await this.send("Runtime.evaluate", { expression, returnByValue: true, awaitPromise: true });
    if (exceptionDetails) throw new Error(descriptionOf(exceptionDetails));
    return result.value;
  }

  async key(key, modifiers = 0) {
    const codes = { Enter: 13, Escape: 27, Tab: 9, Backspace: 8, Home: 36, End: 35, ArrowDown: 40, ArrowUp: 38 };
    const isLetter = key.length === 1;
    const windowsVirtualKeyCode = codes[key] ?? key.toUpperCase().charCodeAt(0);
    const text = key === "Enter" ? "\r" : key;
    const event = { key, modifiers, windowsVirtualKeyCode, ...((isLetter || key === "Enter") && modifiers === 0 ? { text } : {}) };
    await this.send("Input.dispatchKeyEvent", { type: "keyDown", ...event });
    await this.send("Input.dispatchKeyEvent", { type: "keyUp", ...event });
  }

  async keys(...keys) {
    for (const key of keys) await this.key(key);
  }

  type(text) {
    return this.send("Input.insertText", { text });
  }

  /** How many seconds of the processor the page's process has had. */
  async processorSeconds() {
    const session = this.session;
    this.session = undefined;
    const { processInfo } = await this.send("SystemInfo.getProcessInfo");
    this.session = session;
    return processInfo.filter(({ type }) => type === "renderer").reduce((sum, { cpuTime }) => sum + cpuTime, 0);
  }

  async size(width, height, scale = 1) {
    await this.send("Emulation.setDeviceMetricsOverride", { width, height, deviceScaleFactor: scale, mobile: false });
  }

  async picture(file) {
    const { data } = await this.send("Page.captureScreenshot", { format: "png" });
    fs.writeFileSync(file, smaller(Buffer.from(data, "base64")));
  }
}

// ---- Smaller pictures

/** The chunks of a PNG: type and content. */
function chunksOf(png) {
  const chunks = [];
  for (let at = 8; at < png.length; at += 12 + png.readUInt32BE(at)) {
    chunks.push([png.toString("latin1", at + 4, at + 8), png.subarray(at + 8, at + 8 + png.readUInt32BE(at))]);
  }
  return chunks;
}

function chunk(type, content) {
  const body = Buffer.concat([Buffer.from(type, "latin1"), content]);
  const frame = Buffer.alloc(8);
  frame.writeUInt32BE(content.length, 0);
  frame.writeUInt32BE(crc(body), 4);
  return Buffer.concat([frame.subarray(0, 4), body, frame.subarray(4)]);
}

function crc(bytes) {
  let rest = 0xffffffff;
  for (const byte of bytes) {
    rest ^= byte;
    for (let bit = 0; bit < 8; bit += 1) rest = rest & 1 ? (rest >>> 1) ^ 0xedb88320 : rest >>> 1;
  }
  return (rest ^ 0xffffffff) >>> 0;
}

/** What a PNG's filter adds to a byte, from those to the left, above, and above to the left. */
function predicted(filter, left, above, corner) {
  if (filter < 3) return [0, left, above][filter];
  if (filter === 3) return (left + above) >> 1;
  const distances = [left, above, corner].map((it) => Math.abs(left + above - corner - it));
  return [left, above, corner][distances.indexOf(Math.min(...distances))];
}

/** A PNG of three or four bytes a point with its rows as they are, unfiltered: pictures of text come out a fifth smaller so. */
function smaller(png) {
  const chunks = chunksOf(png);
  const header = chunks[0][1];
  const [width, height, depth] = [header.readUInt32BE(0), header.readUInt32BE(4), header[9] === 6 ? 4 : 3];
  const rows = zlib.inflateSync(Buffer.concat(chunks.filter(([type]) => type === "IDAT").map(([, content]) => content)));
  const size = width * depth + 1;
  for (let y = 0; y < height; y += 1) {
    const filter = rows[y * size];
    rows[y * size] = 0;
    for (let at = y * size + 1; at < (y + 1) * size; at += 1) {
      const left = at - depth > y * size ? rows[at - depth] : 0;
      const above = y > 0 ? rows[at - size] : 0;
      const corner = y > 0 && at - depth > y * size ? rows[at - size - depth] : 0;
      rows[at] += predicted(filter, left, above, corner);
    }
  }
  const data = zlib.deflateSync(rows, { level: 9, memLevel: 9 });
  return Buffer.concat([png.subarray(0, 8), chunk("IHDR", header), chunk("IDAT", data), chunk("IEND", Buffer.alloc(0))]);
}

// ---- The checks

let failed = 0;
let passed = 0;

function expect(what, got, wanted) {
  const isRight = wanted instanceof RegExp ? wanted.test(got) : got === wanted;
  if (isRight) {
    passed += 1;
  } else {
    failed += 1;
    console.error(`page: ${what}: ${JSON.stringify(got)}, wanted ${wanted instanceof RegExp ? wanted : JSON.stringify(wanted)}`);
  }
}

const CTRL = 2;
const TEXT = (id) => `document.getElementById(${JSON.stringify(id)}).textContent`;
const STATUS = TEXT("status");
const register = (name) =>
  `[...document.querySelectorAll("#register-rows tr")].find((row) => row.cells[0].textContent === "${name}").cells[1].textContent`;

const CHOSEN = `document.getElementById(
  document.getElementById("listing").getAttribute("aria-activedescendant")).getAttribute("aria-label")`;

/** Waits until the page stands still. */
const STILL = `new Promise((resolve) => {
  const look = () => document.body.classList.contains("running") ? setTimeout(look, 10) : resolve(true);
  look();
})`;

/** Puts this text and this input into the page, and loads it. */
const loading = (text, input = "") => `(() => {
  const set = (id, value) => { const it = document.getElementById(id); it.value = value; it.dispatchEvent(new Event("input")); };
  set("text", ${JSON.stringify(text)}); set("input-1", ${JSON.stringify(input)}); document.getElementById("load").click();
  document.activeElement.blur();
})()`;

const choosing = (name) => `(() => {
  const it = document.getElementById("example");
  it.value = ${JSON.stringify(name)};
  it.dispatchEvent(new Event("change"));
  document.activeElement.blur();
})()`;

const contentOf = (...parts) => (fs.existsSync(path.join(...parts)) ? fs.readFileSync(path.join(...parts), "utf8") : undefined);

/** What the page shows of the outputs: name, and text. */
const OUTPUTS = `[...document.querySelectorAll("#output-list .stream")].map((it) =>
  [it.querySelector("input")?.value ?? it.querySelector("b").textContent, it.querySelector("pre").textContent])`;

async function examplesRun(browser) {
  const names = await browser.value(`[...document.getElementById("example").options].map((it) => it.value).filter(Boolean)`);
  for (const name of names) {
    const folder = path.join(top, "examples", ...(name.endsWith(".bcpl") ? [] : ["intcode"]));
    const stem = name.replace(/\.bcpl$/, "");
    await browser.value(choosing(name));
    await browser.key("r");
    await browser.value(STILL);
    const err = contentOf(folder, `${stem}.err`);
    const wanted = err ? new RegExp(`\\(${err.replace("bcpl: ", "").trim()}\\)`) : /^Finished after [0-9,]+ instructions?\.$/;
    expect(`example ${name}, its end`, await browser.value(STATUS), wanted);
    const shown = Object.fromEntries(await browser.value(OUTPUTS));
    expect(`example ${name}, its output`, shown.SYSPRINT, contentOf(folder, `${stem}.out`));
    const copy = contentOf(folder, `${stem}.copy`);
    if (copy !== undefined) expect(`example ${name}, its output COPY`, shown.COPY, copy);
  }
  console.log(`page: ${names.length} examples run`);
}

/** Chooses the line of this address, by keys. */
async function chooseAddress(browser, address) {
  await browser.keys("l", "Home");
  for (let k = 0; k < 80 && !(await browser.value(CHOSEN)).startsWith(`${address},`); k += 1) await browser.keys("ArrowDown");
}

async function keyboardDrives(browser) {
  await browser.value(choosing("factorial"));
  expect("C at the start", await browser.value(register("C")), "0");
  await browser.keys("s");
  expect("C after a step", await browser.value(register("C")), "1");
  expect("A after LIG1", await browser.value(register("A")), "546");
  await browser.keys("s", "s", "s", "s");
  expect("C in front of the call", await browser.value(register("C")), "549");
  const frame = await browser.value(register("P"));
  await browser.keys("o");
  await browser.value(STILL);
  expect("C behind the call", await browser.value(register("C")), "550");
  expect("P behind the call", await browser.value(register("P")), frame);
  expect("A has 7 factorial", await browser.value(register("A")), "5040");
  await browser.keys("x");
  await chooseAddress(browser, 563);
  await browser.keys("b");
  expect("a breakpoint is told", await browser.value(STATUS), /^A breakpoint stands at /);
  await browser.keys("r");
  await browser.value(STILL);
  expect("the run stops at the breakpoint", await browser.value(STATUS), /^At the breakpoint at /);
  expect("C is at the breakpoint", await browser.value(register("C")), "563");
  const depth = `document.querySelectorAll("#frame-list .frame").length`;
  const first = await browser.value(depth);
  await browser.keys("r");
  await browser.value(STILL);
  expect("a frame more", await browser.value(depth), first + 1);
  await browser.keys("b", "u");
  await browser.value(STILL);
  expect("the frame has returned", await browser.value(depth), first);
  await browser.keys("r");
  await browser.value(STILL);
  expect("the run goes on to its end", await browser.value(STATUS), /^Finished after /);
  expect("the output", (await browser.value(OUTPUTS))[0][1], "5040\n");
  await stepsOverARecursion(browser);
  await browser.keys("?");
  expect("the keys are shown", await browser.value(`document.getElementById("keys").open`), true);
  await browser.keys("Escape");
  expect("Escape closes them", await browser.value(`document.getElementById("keys").open`), false);
  await typesATextAndInput(browser);
}

/** A step over a call that comes by the address behind it in deeper frames first. */
async function stepsOverARecursion(browser) {
  await browser.keys("x");
  await chooseAddress(browser, 568);
  await browser.keys("b", "r");
  await browser.value(STILL);
  const frame = await browser.value(register("P"));
  await browser.keys("b", "o");
  await browser.value(STILL);
  expect("C behind the call in a recursion", await browser.value(register("C")), "569");
  expect("P behind the call in a recursion", await browser.value(register("P")), frame);
  expect("A has 6 factorial", await browser.value(register("A")), "720");
}

/** A text and an input by the keyboard alone. */
async function typesATextAndInput(browser) {
  await browser.value(choosing("hello"));
  await browser.keys("e");
  await browser.key("a", CTRL);
  await browser.value(`document.activeElement.select()`);
  await browser.type("1 LIG13 K2 SP2 A1 FL2 LIP2 SP5 LIG14 K3 JL1 2 X4 G1L1 Z");
  await browser.key("Enter", CTRL);
  await browser.keys("s", "Backspace");
  expect("a letter in the field is no key", await browser.value(TEXT("count")), "0 carried out");
  await browser.keys("Escape", "i");
  await browser.type("abc");
  await browser.keys("Escape", "r");
  await browser.value(STILL);
  expect("typed input comes out", (await browser.value(OUTPUTS))[0][1], "abc");
  await browser.value(`document.getElementById("letters").click()`);
  const count = await browser.value(TEXT("count"));
  await browser.keys("x");
  expect("letters are off", await browser.value(TEXT("count")), count);
  await browser.value(`document.getElementById("letters").click()`);
}

/** An input and an output that are added: they are named by keys, and the input is typed in. */
async function streamsAreAdded(browser) {
  await browser.value(choosing("hello"));
  await browser.value(loading(contentOf(top, "examples/intcode/streams.int")));
  await browser.value(`document.getElementById("add-output").click()`);
  await browser.type("COPY");
  await browser.key("Enter");
  await browser.value(`document.getElementById("add-input").click()`);
  await browser.type("DATA");
  await browser.keys("Tab", "Tab", "Tab");
  await browser.type("line one\nline twø\n");
  await browser.keys("Escape", "r");
  await browser.value(STILL);
  const shown = Object.fromEntries(await browser.value(OUTPUTS));
  expect("the added output", shown.COPY, "line one\nline twø\n");
  expect("the first output beside it", shown.SYSPRINT, ".");
  const said = await browser.value(`[...document.querySelectorAll(".said")].map((it) => it.textContent).join("; ")`);
  expect("what is said of the streams", said, "selected, 1 byte; ended, 19 bytes; 0 of 0 bytes read; ended, 19 of 19 bytes read");
  await browser.value(`document.querySelector("#output-list button").click()`);
  await browser.key("r");
  await browser.value(STILL);
  expect("without its output", Object.keys(Object.fromEntries(await browser.value(OUTPUTS))).join(" "), "SYSPRINT");
}

async function refusalsAreTold(browser) {
  const table = [
    ["L5 Q", /line 1, column 4.*text 1 BadCharacter 3/],
    ["/ é\nL65536 Z", /line 2, column 2.*text 2 BadNumber 6/],
    ["G1 Z", /line 1, column 3.*text 3 MissingLabel 2/],
    ["L5", /text 4 Unended/],
    ["1 1 Z", /link 2 LabelTwice 1 1/],
    ["LL7 Z", /link 1 LabelUnset 1 7/],
    ["1 X4 G14L1 Z", /link 3 GlobalTwice 14/],
  ];
  for (const [text, wanted] of table) {
    await browser.value(loading(text));
    expect(`the refusal of ${text}`, await browser.value(TEXT("fault")), wanted);
    await browser.keys("s");
  }
  for (const [text, wanted] of [["1 L0 X6 G1L1 Z", /ended ZeroDivide/], ["1 X30 G1L1 Z", /546.*ended BadInstruction 546/]]) {
    await browser.value(loading(text));
    await browser.keys("r");
    await browser.value(STILL);
    expect(`the end of ${text}`, await browser.value(STATUS), wanted);
  }
}

/** A loop that never ends: it runs for a while and is stopped by a key. */
async function runsFast(browser) {
  await browser.value(loading("1 L0 SP2 2 LIP2 A1 SP2 LIP2 L60000 X11 TL2 JL1 G1L1 Z"));
  await browser.value(`document.getElementById("budget").value = "900,000,000,000"`);
  const processor = await browser.processorSeconds();
  const clock = performance.now();
  await browser.keys("r");
  await new Promise((resolve) => setTimeout(resolve, 4000));
  await browser.keys(".");
  const seconds = (performance.now() - clock) / 1000;
  const busy = (await browser.processorSeconds()) - processor;
  expect("a key stops the run", await browser.value(STATUS), /^Stopped at /);
  const millions = Number((await browser.value(TEXT("count"))).replace(/\D/g, "")) / 1e6;
  const [ofClock, ofProcessor] = [millions / seconds, millions / busy].map((speed) => speed.toFixed(1));
  console.log(`page: ${ofClock} million instructions a second, ${ofProcessor} million for each second of the processor`);
  expect("ten million instructions a second of the processor", millions / busy >= 10, true);
}

// ---- Pictures

/** The state that the pictures show: the factorial, some calls deep, at a breakpoint. */
async function pose(browser) {
  await browser.value(choosing("factorial"));
  await chooseAddress(browser, 558);
  await browser.keys("b");
  for (let k = 0; k < 4; k += 1) {
    await browser.keys("r");
    await browser.value(STILL);
  }
  await browser.value(STILL);
}

async function pictures(browser) {
  const shots = wordBehind("--shots");
  await browser.size(1280, 800);
  await pose(browser);
  const picture = path.join(words.includes("--picture") ? path.join(top, "docs") : browser.profile, "porting-page.png");
  await browser.picture(picture);
  expect("that the picture has at most 200 KB", fs.statSync(picture).size <= 200 * 1024, true);
  for (const width of [1400, 1000, 420]) {
    await browser.size(width, 900);
    expect(`at ${width}, how far the page is too wide`, await browser.value(`document.documentElement.scrollWidth - window.innerWidth`), 0);
  }
  if (shots === undefined) return;
  fs.mkdirSync(shots, { recursive: true });
  for (const [width, height] of [[1400, 900], [1000, 1100], [420, 900]]) {
    for (const theme of ["light", "dark"]) {
      await browser.size(width, height);
      await browser.value(`(() => {
        const it = document.getElementById("theme");
        it.value = "${theme}";
        it.dispatchEvent(new Event("change"));
      })()`);
      await pose(browser);
      if (width < 1240) await browser.size(width, await browser.value(`document.documentElement.scrollHeight`));
      await browser.picture(path.join(shots, `${width}-${theme}.png`));
    }
  }
}

// ----

/** Whether index.html is what its parts make. */
function isMade() {
  return spawnSync(process.execPath, [path.join(here, "make"), "--check"], { stdio: "ignore" }).status === 0;
}

async function main() {
  const program = browserProgram();
  if (program === undefined) {
    console.log("page: not tested, since there is no chromium here (CHROMIUM says where one is)");
    return;
  }
  expect("index.html is what porting/page/make makes", isMade(), true);
  const browser = new Browser(program);
  try {
    await browser.open();
    await browser.size(1400, 900);
    await browser.send("Page.navigate", { url: `file://${path.join(here, "index.html")}` });
    await browser.value(`new Promise((resolve) => {
      const look = () => document.querySelector(".row") ? resolve(true) : setTimeout(look, 20);
      look();
    })`);
    const checks = { examplesRun, keyboardDrives, streamsAreAdded, refusalsAreTold, runsFast, pictures };
    for (const [name, check] of Object.entries(checks)) {
      if (!wordBehind("--only") || name.includes(wordBehind("--only"))) await check(browser);
    }
    for (const fault of browser.faults) expect("a fault of the page's script", fault, "none");
  } finally {
    await browser.close();
  }
  console.log(`page: ${passed} checks passed${failed > 0 ? `, ${failed} failed` : ""}`);
  process.exitCode = failed > 0 ? 1 : 0;
}

main().catch((error) => {
  console.error(`page: ${error.message}`);
  process.exitCode = 1;
});
