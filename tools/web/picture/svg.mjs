// The drawing: SVG elements, and how lengths and times are written.

import {STYLE} from "./palette.mjs";
import {size} from "./whole.mjs";

const SPACE = "http://www.w3.org/2000/svg";
const EM = 0.6;
const MINUS = "\u2212";

/** A number with at most so many decimals, one or two, rounded to the nearest; of two that are as near, to the even one. */
export function rounded(value, digits) {
  const text = value.toFixed(digits);
  const halves = Math.abs(value) * 2 ** (digits + 1);
  if (halves % 2 !== 1) return text;
  const units = Math.floor(Math.abs(value) * 10 ** digits);
  const even = ((units + (units % 2)) / 10 ** digits).toFixed(digits);
  return value < 0 ? `-${even}` : even;
}

/** A length with at most one decimal. */
export function num(value) {
  const text = rounded(value, 1);
  return text.endsWith(".0") ? text.slice(0, -2) : text;
}

/** The points of a polyline. */
export const points = (values) => values.map(([x, y]) => `${num(x)},${num(y)}`).join(" ");

/** Text that XML can hold: what it can't becomes `?`. */
const clean = (text) => text.replace(/[^\t\n\u0020-\ud7ff\ue000-\ufffd]/gu, "?");

/** How many characters a text has. */
export const count = (text) => [...text].length;

/** About how wide a text is. */
export const wide = (text, height = 12) => count(text) * height * EM;

/** A text that is turned by 45 degrees and ends at a place, shortened where it would begin outside the picture. */
export function fitted(text, x, height = 11) {
  const most = Math.max(4, Math.trunc((x - 8) / (height * EM * 0.71)));
  return count(text) <= most ? text : `${[...text].slice(0, most - 1).join("")}\u2026`;
}

/** A number of nanoseconds in a unit, rounded to so many decimals. */
function decimal(value, unit, digits) {
  const scale = 10n ** BigInt(digits);
  const scaled = (size(value) * scale + unit / 2n) / unit;
  const tail = `${scaled % scale}`.padStart(digits, "0").replace(/0+$/, "");
  const text = tail ? `${scaled / scale}.${tail}` : `${scaled / scale}`;
  return value < 0n && text !== "0" ? MINUS + text : text;
}

/** A time in seconds. */
export const seconds = (time) => `${decimal(time, 10n ** 9n, 6)} s`;

const UNITS = [
  [10n ** 3n, 1n, "ns"],
  [10n ** 6n, 10n ** 3n, "\u00b5s"],
  [10n ** 9n, 10n ** 6n, "ms"],
  [10n ** 13n, 10n ** 9n, "s"],
];
const HOUR = 3600n * 10n ** 9n;

/** A duration in the unit that fits it, or that fits another one. */
export function span(time, like = time) {
  if (time === 0n) return "0";
  const unit = UNITS.find(([limit]) => size(like) < limit);
  if (unit) return `${decimal(time, unit[1], 6)} ${unit[2]}`;
  if (size(like) < 10_000n * HOUR) return `${decimal(time, HOUR, 2)} h`;
  return `${decimal(time, 24n * HOUR, 1)} days`;
}

/** A duration with its sign. */
export const signed = (time, like = time) => (time > 0n ? "+" : "") + span(time, like);

const ESCAPES = {"&": "&amp;", "<": "&lt;", ">": "&gt;", '"': "&quot;", "\n": "&#10;", "\t": "&#09;"};
const escaped = (text) => text.replace(/[&<>]/g, (it) => ESCAPES[it]);
const quoted = (text) => text.replace(/[&<>"\n\t]/g, (it) => ESCAPES[it]);

/** An element as text, with what stands in it as text. */
function element(tag, attributes, inside) {
  const said = Object.entries(attributes).map(([name, value]) => ` ${name}="${quoted(value)}"`);
  return inside ? `<${tag}${said.join("")}>${inside}</${tag}>` : `<${tag}${said.join("")} />`;
}

const titled = (tip) => (tip ? element("title", {}, escaped(clean(tip))) : "");

/**
 * An SVG picture; or, as a part of a page, one without a style sheet of its own, in which what is drawn of an op has the
 * attribute `data-op`, its number from 0.
 */
export class Drawing {
  constructor(width, title, told, isPart = false) {
    this.width = width;
    this.isPart = isPart;
    this.op = null;
    this.label = `${clean(title)}. ${clean(told)}`;
    this.head = [element("title", {}, escaped(clean(title))), element("desc", {}, escaped(clean(told)))];
    if (!isPart) this.head.push(element("style", {}, escaped(STYLE)));
    this.made = [];
  }

  /** What is drawn by a function is of an op. */
  ofOp(op, draw) {
    this.op = op;
    draw();
    this.op = null;
  }

  /** An element with a class, a tooltip where one is wanted, and a text. */
  add(tag, css, tip, attributes, words = "") {
    const said = {class: css};
    for (const [name, value] of Object.entries(attributes)) said[name] = typeof value === "string" ? value : num(value);
    if (this.isPart && this.op !== null) said["data-op"] = `${this.op}`;
    this.made.push(element(tag, said, escaped(clean(words)) + titled(tip)));
  }

  /** A straight line. */
  line(css, x1, y1, x2, y2, tip = "") {
    this.add("line", css, tip, {x1, y1, x2, y2});
  }

  /** A rectangle. */
  box(css, x, y, width, height, tip = "") {
    this.add("rect", css, tip, {x, y, width: Math.max(0, width), height});
  }

  /** A line of text, which may be turned about its anchor. */
  text(css, x, y, words, anchor = "start", tip = "", turn = 0) {
    const said = {x, y};
    if (anchor !== "start") said["text-anchor"] = anchor;
    if (turn) said.transform = `rotate(${turn} ${num(x)} ${num(y)})`;
    this.add("text", css, tip, said, words);
  }

  /** The text of the picture, so high. */
  done(height) {
    const [wide, high] = [num(this.width), num(height)];
    const page = {class: "page", x: "0.5", y: "0.5", width: num(this.width - 1), rx: "6", height: num(height - 1)};
    const attributes = {xmlns: SPACE, role: "img", "aria-label": this.label, width: wide, height: high, viewBox: `0 0 ${wide} ${high}`};
    const inside = [...this.head, element("rect", page, ""), ...this.made].map((it) => `${it}\n`);
    return `${element("svg", attributes, inside.join(""))}\n`;
  }
}
