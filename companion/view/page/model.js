"use strict";
/* The page's data, and the arithmetic between a hart's counts and the rows of the joint order.
   Everything of a log or an ELF gets into the page as text nodes and attribute values alone, never as markup. */
const D = JSON.parse(document.getElementById("data").textContent);
const intervals = D.intervals.map(([hart, number, start, end, reason, value, row, endRow]) =>
  ({ hart, number, start, end, reason, value, row, endRow }));
const edges = D.edges.map(([hart, count, from, fromCount, row, fromRow, even]) =>
  ({ hart, count, from, fromCount, row, fromRow, even }));
const ends = new Map(D.ends.map(([hart, count, reason, value]) => [hart, { hart, count, reason, value }]));
const start = point(D.start);

/* What is shown: the order of the axis, its two ends, the chosen point, the chosen group of races. */
const state = { order: D.harts > 1 ? "joint" : "count", from: 0, to: 1, chosen: null, race: -1 };

function point([hart, count, row]) {
  return { hart, count, row };
}

function byId(id) {
  return document.getElementById(id);
}

function element(tag, text, className) {
  const made = document.createElement(tag);
  if (text !== undefined) made.textContent = text;
  if (className) made.className = className;
  return made;
}

function shape(tag, attributes, text) {
  const made = document.createElementNS("http://www.w3.org/2000/svg", tag);
  for (const name in attributes) made.setAttribute(name, attributes[name]);
  if (text !== undefined) made.textContent = text;
  return made;
}

function titled(made, text) {
  made.append(shape("title", {}, text));
  return made;
}

function link(text, action) {
  const made = element("button", text, "link");
  made.addEventListener("click", action);
  return made;
}

const NUMBERS = new Intl.NumberFormat("en-US");

function commas(number) {
  return NUMBERS.format(number);
}

function plural(number, word) {
  const more = word.endsWith("s") ? "es" : "s";
  return `${commas(number)} ${word}${number === 1 ? "" : more}`;
}

function hex(number) {
  return (number >>> 0).toString(16).padStart(8, "0");
}

function shorten(text, most) {
  return text.length > most ? text.slice(0, most - 1) + "…" : text;
}

/* The name of the colour of an interval that ended for a reason. */
function kindOf(reason) {
  if (/^[A-Z]/.test(reason)) return "fault";
  if (reason === "exit" || reason === "group") return "good";
  return ["call", "guard", "stopped", "limit"].includes(reason) ? reason : "length";
}

/* A place of the code: function, FILE:LINE, the line's text, and the functions that it is inlined in. */
function place(index) {
  const [name, line, source, ...outer] = D.places[index] || ["", "", ""];
  return { name, line, source, outer };
}

function placeText(index) {
  const { name, line } = place(index);
  return name ? `${name}  ${line}` : line;
}

const PALETTE = ["#3b78c2", "#d07c1c", "#3f9950", "#8a5fc0", "#c2527a", "#2b9a9a", "#9b7b2f", "#6b7f95", "#b0573f", "#5c8f2a"];
const REST_COLOUR = "#8c939c";
const functionsByShare = D.functions.map((_, index) => index).sort((a, b) => D.functions[b][1] - D.functions[a][1]);
const functionColours = D.functions.map(() => REST_COLOUR);
functionsByShare.slice(0, PALETTE.length).forEach((index, rank) => { functionColours[index] = PALETTE[rank]; });

const firstCount = new Map();
const lastCount = new Map();
for (const { hart, start: from, end } of intervals) {
  if (!firstCount.has(hart)) firstCount.set(hart, from);
  lastCount.set(hart, Math.max(lastCount.get(hart) || 0, end));
}

/* The last place in an ascending list whose value isn't over the given one. */
function lastNotOver(list, value) {
  let low = 0;
  let high = list.length - 1;
  while (low < high) {
    const middle = (low + high + 1) >> 1;
    if (list[middle] <= value) low = middle;
    else high = middle - 1;
  }
  return low;
}

/* Each hart's segments are its switches: the count and the row at which it went on. Thinned ones are interpolated. */
function rowOfCount(hart, count) {
  const [counts, rows] = D.segments[hart];
  if (!counts.length) return 0;
  const at = lastNotOver(counts, count);
  const row = rows[at] + (count - counts[at]);
  if (at + 1 >= counts.length || row < rows[at + 1]) return row;
  const share = (count - counts[at]) / Math.max(1, counts[at + 1] - counts[at]);
  return rows[at] + share * (rows[at + 1] - rows[at]);
}

function countOfRow(hart, row) {
  const [counts, rows] = D.segments[hart];
  if (!counts.length) return 0;
  const at = lastNotOver(rows, row);
  const count = counts[at] + Math.max(0, row - rows[at]);
  return at + 1 < counts.length ? Math.min(count, counts[at + 1]) : count;
}

/* The parts of the axis in which a hart's instructions from one count to another were done. In the joint order
   there are gaps while other harts go on, if all switches are known. */
function axisPieces(hart, from, to) {
  if (state.order === "count") return [[from, to]];
  const [counts, rows, thinned] = D.segments[hart];
  if (thinned) return [[rowOfCount(hart, from), rowOfCount(hart, to)]];
  const pieces = [];
  for (let at = lastNotOver(counts, from); at < counts.length && counts[at] < to; at++) {
    const begin = Math.max(from, counts[at]);
    const end = at + 1 < counts.length ? Math.min(to, counts[at + 1]) : to;
    if (end > begin) pieces.push([rows[at] + begin - counts[at], rows[at] + end - counts[at]]);
  }
  return pieces;
}

/* Where a point stands on the axis. */
function axisValue({ hart, count, row }) {
  return state.order === "count" ? count : row || rowOfCount(hart, count);
}

function wholeAxis() {
  if (state.order === "joint") return [1, D.rows + 1];
  if (!firstCount.size) return [0, 1];
  return [Math.min(...firstCount.values()), Math.max(...lastCount.values()) + 1];
}

function showAll() {
  const [first, last] = wholeAxis();
  const margin = (last - first) * 0.02;
  state.from = first - margin;
  state.to = last + margin;
}

/* Shows a part of the axis, not smaller than some rows and not far outside of the whole. */
function showPart(from, to) {
  const [first, last] = wholeAxis();
  const whole = last - first;
  const width = Math.max(Math.min(8, whole), Math.min(to - from, whole * 1.06));
  const margin = whole * 0.03;
  state.from = Math.max(first - margin, Math.min(from, last + margin - width));
  state.to = state.from + width;
}
