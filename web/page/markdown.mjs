// Shows pages of docs/ as elements: the part of Markdown that these pages use. Nothing of a page becomes HTML by itself.
import { made } from "./dom.mjs";

const FENCE = /^```\s*(.*)$/;
const HEADING = /^(#{1,4}) (.*)$/;
const ITEM = /^(\s*)([-*]|\d+\.) +(.*)$/;
const RULE = /^\|?[-:| ]+\|?$/;

/** The anchor of a heading, as GitHub makes it. */
const slug = (text) => text.trim().toLowerCase().replace(/[^\p{L}\p{N}_\- ]/gu, "").replaceAll(" ", "-");

/**
 * The elements of a page. `on.link(target)` returns what a click on a link does, or null where the link leads nowhere here;
 * `on.code(figure, kind, text)` may add to a block of code.
 */
export function shownPage(text, on) {
  const lines = text.split("\n");
  const nodes = [];
  let at = 0;
  while (at < lines.length) {
    const block = BLOCKS.find(({ begins }) => begins(lines, at)) ?? PARAGRAPH;
    const { node, next } = block.take(lines, at, on);
    if (node) nodes.push(node);
    at = next;
  }
  return nodes;
}

function codeBlock(kind, text, on) {
  const figure = made("figure", {}, made("pre", { tabIndex: 0 }, made("code", { textContent: text })));
  on.code(figure, kind, text);
  return figure;
}

function takeFence(lines, at, on) {
  let end = at + 1;
  while (end < lines.length && !lines[end].startsWith("```")) end += 1;
  return { node: codeBlock(lines[at].match(FENCE)[1], lines.slice(at + 1, end).join("\n"), on), next: end + 1 };
}

function takeIndented(lines, at, on) {
  let end = at;
  while (end < lines.length && (/^ {4}/.test(lines[end]) || (lines[end].trim() === "" && /^ {4}/.test(lines[end + 1] ?? "")))) end += 1;
  return { node: codeBlock("", lines.slice(at, end).map((line) => line.slice(4)).join("\n"), on), next: end };
}

function takeHeading(lines, at, on) {
  const [, marks, title] = lines[at].match(HEADING);
  const node = made(`h${marks.length}`, {}, ...inline(title, on));
  node.id = `at-${slug(node.textContent)}`;
  return { node, next: at + 1 };
}

/** The cells of a row. A bar inside of code, or after a backslash, is part of its cell. */
function cellsOf(line) {
  const inner = line.trim().replace(/^\|/, "").replace(/\|$/, "");
  const cells = [""];
  for (const [piece] of inner.matchAll(/(`+)[^`]+\1|\\\||[^]/g)) {
    if (piece === "|") cells.push("");
    else cells[cells.length - 1] += piece;
  }
  return cells.map((cell) => cell.trim().replaceAll("\\|", "|"));
}

function takeTable(lines, at, on) {
  let end = at + 2;
  while (end < lines.length && lines[end].trim().startsWith("|")) end += 1;
  const row = (line, tag) => made("tr", {}, ...cellsOf(line).map((cell) => made(tag, {}, ...inline(cell, on))));
  const body = lines.slice(at + 2, end).map((line) => row(line, "td"));
  const table = made("table", {}, made("thead", {}, row(lines[at], "th")), made("tbody", {}, ...body));
  return { node: made("div", { className: "table", tabIndex: 0 }, table), next: end };
}

/** A list, whose items may go on in indented lines and may have lists inside. */
function takeList(lines, at, on) {
  const [, indent, sign] = lines[at].match(ITEM);
  const list = made(/\d/.test(sign) ? "ol" : "ul");
  let next = at;
  while (next < lines.length) {
    const match = lines[next].match(ITEM);
    if (!match || match[1].length !== indent.length) break;
    const own = [match[3]];
    next += 1;
    while (next < lines.length && lines[next].trim() !== "" && !ITEM.test(lines[next]) && /^\s/.test(lines[next])) own.push(lines[next++].trim());
    const item = made("li", {}, ...inline(own.join(" "), on));
    if (next < lines.length && (lines[next].match(ITEM)?.[1].length ?? 0) > indent.length) {
      const inner = takeList(lines, next, on);
      item.append(inner.node);
      next = inner.next;
    }
    list.append(item);
    while (lines[next]?.trim() === "" && (lines[next + 1]?.match(ITEM)?.[1].length ?? -1) === indent.length) next += 1;
  }
  return { node: list, next };
}

const BLOCKS = [
  { begins: (lines, at) => lines[at].trim() === "", take: (_, at) => ({ node: null, next: at + 1 }) },
  { begins: (lines, at) => FENCE.test(lines[at]), take: takeFence },
  { begins: (lines, at) => /^ {4}/.test(lines[at]), take: takeIndented },
  { begins: (lines, at) => HEADING.test(lines[at]), take: takeHeading },
  { begins: (lines, at) => lines[at].trim().startsWith("|") && RULE.test(lines[at + 1] ?? ""), take: takeTable },
  { begins: (lines, at) => ITEM.test(lines[at]), take: takeList },
];

/** Whether a block begins inside of a paragraph. Of numbered lists only those from 1 on do: a sentence may begin with another number. */
const interrupts = (lines, at) => BLOCKS.some(({ begins }) => begins(lines, at)) && !/^\s*(?!1\.)\d+\. /.test(lines[at]);

const PARAGRAPH = {
  take(lines, at, on) {
    let end = at + 1;
    while (end < lines.length && !interrupts(lines, end)) end += 1;
    return { node: made("p", {}, ...inline(lines.slice(at, end).join(" "), on)), next: end };
  },
};

const INLINE = /(`+)(.+?)\1|!\[([^\]]*)\]\(([^)]*)\)|\[([^\]]+)\]\(([^)]*)\)|\*\*(.+?)\*\*|\*([^*\s](?:[^*]*[^*\s])?)\*/g;

/** The pieces of a line: code, links, emphasis, and text. */
function inline(text, on) {
  const nodes = [];
  let at = 0;
  for (const match of text.matchAll(INLINE)) {
    if (match.index > at) nodes.push(text.slice(at, match.index));
    nodes.push(inlineNode(match, on));
    at = match.index + match[0].length;
  }
  return [...nodes, text.slice(at)];
}

function inlineNode([, marks, code, picture, , label, target, strong, weak], on) {
  if (marks) return made("code", { textContent: code.trim() });
  if (picture !== undefined) return picture;
  if (strong) return made("strong", {}, ...inline(strong, on));
  if (weak) return made("em", {}, ...inline(weak, on));
  const action = on.link(target);
  if (action === null) return made("span", {}, ...inline(label, on));
  const link = made("a", { href: "#" }, ...inline(label, on));
  link.addEventListener("click", (event) => {
    event.preventDefault();
    action();
  });
  return link;
}
