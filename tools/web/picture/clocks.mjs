// The upper part of a scenario's picture: the three clocks as differences from even running.

import {rateOf, vertex} from "./course.mjs";
import {num, points, signed, span, wide} from "./svg.mjs";
import {floor, greater, lesser, ratio} from "./whole.mjs";

/** The clocks by the class of their lines. */
export const CLOCKS = [
  ["os", "OS system time"],
  ["sys", "Erlang system time"],
  ["mono", "Erlang monotonic time"],
];
const HEIGHT = 190;
const FLAT = 40;
const PAD = 14;
const ROW = 16;
const MOST_FLAGS = 24;
const RIGHT = 164;
const NAMES = new Map([
  [-1_000_000n, "frozen"],
  [-10_000n, "\u22121 %: slow"],
  [-500n, "\u22120.05 %: slow"],
  [500n, "+0.05 %: fast"],
  [10_000n, "+1 %: fast"],
]);

/** The differences of the three clocks, in nanoseconds, at the vertices of their course. */
export class Differences {
  constructor(axis) {
    const {readings} = axis.run;
    this.zero = vertex(readings[0]);
    this.lines = [[], [], []];
    readings.forEach((reading, number) => {
      this.put(axis.lefts[number], vertex(reading));
      this.put(axis.rights[number], vertex(reading));
      for (const it of axis.stretches[number]?.slice(1) ?? []) this.put(axis.at(number, it[0]), it);
    });
    const values = this.lines.flatMap((line) => line.map(([, value]) => value));
    this.least = values.reduce((a, b) => lesser(a, b));
    this.most = values.reduce((a, b) => greater(a, b));
  }

  put(x, at) {
    const passed = at[0] - this.zero[0];
    this.lines.forEach((line, number) => line.push([x, at[number + 1] - this.zero[number + 1] - passed]));
  }

  /** Whether all clocks run evenly. */
  get isFlat() {
    return this.least === 0n && this.most === 0n;
  }
}

/** The points of one pixel: the first, the least, the greatest and the last, where there are more. */
function thinned(column) {
  if (column.length <= 4) return column;
  const where = (isBeyond) => column.reduce((best, [, y], at) => (isBeyond(y, column[best][1]) ? at : best), 0);
  const inner = [where((a, b) => a < b), where((a, b) => a > b)].sort((a, b) => a - b);
  return [column[0], ...inner.map((at) => column[at]), column.at(-1)];
}

/** A line with the points of one pixel joined. */
function joined(line) {
  const made = [];
  let start = 0;
  for (let place = 1; place <= line.length; place++) {
    if (place < line.length && Math.trunc(line[place][0]) === Math.trunc(line[start][0])) continue;
    made.push(...thinned(line.slice(start, place)));
    start = place;
  }
  return made;
}

/**
 * What is worth a note: leaps of the OS clock, leaps of Erlang's, changes of the offset, and rates; each at one place, or
 * over a stretch.
 */
export function flags(axis) {
  const made = [];
  const note = (css, start, end, words) => made.push({css, start, end, words});
  const {readings} = axis.run;
  axis.stretches.forEach((vertices, number) => {
    const [before, after] = [vertices.at(-1), readings[number + 1]];
    const x = axis.lefts[number + 1];
    if (after.sys !== before[1]) note("leap", x, x, `OS system time leaps ${signed(after.sys - before[1])}`);
    if (after.now !== before[3]) note("rate", x, x, `Erlang's times leap ${signed(after.now - before[3])}`);
    if (after.isShifted) {
      const moved = after.offset - readings[number].offset;
      note("warp", x, x, moved ? `offset ${signed(moved)}` : "offset final, unmoved");
    }
    const name = NAMES.get(rateOf(vertices));
    if (!name) return;
    const [start, end, last] = [axis.rights[number], axis.at(number, vertices[1][0]), made.at(-1)];
    if (last && last.words === name && last.end >= axis.lefts[number]) made[made.length - 1] = {...last, css: "rate", end};
    else note("rate", start, end, name);
  });
  return made;
}

/** Where the words of a note stand, and what room it takes. */
function seat(flag, left, right) {
  const room = wide(flag.words) + 8;
  if (flag.start !== flag.end) {
    const x = Math.min(Math.max((flag.start + flag.end) / 2, left + room / 2), right - room / 2);
    return {flag, anchor: "middle", x, low: Math.min(flag.start, x - room / 2), high: Math.max(flag.end, x + room / 2)};
  }
  if (flag.start + room + 4 <= right) {
    const x = flag.start + 4;
    return {flag, anchor: "start", x, low: x - 4, high: x + room};
  }
  const x = flag.start - 4;
  return {flag, anchor: "end", x, low: x - room, high: x + 4};
}

/** The row, the place and the anchor of each note, so that no two overlap; and how many rows there are. */
function placeFlags(found, left, right) {
  const rows = [];
  const placed = found.map((flag) => {
    const seated = seat(flag, left, right);
    const isFree = (taken) => taken.every(({low, high}) => seated.high < low || high < seated.low);
    const free = rows.findIndex(isFree);
    const row = free < 0 ? rows.push([]) - 1 : free;
    rows[row].push(seated);
    return {...seated, row};
  });
  return {placed, rows: rows.length};
}

/** A step of the grid: 1, 2 or 5 times a power of ten, so that at most five fit. */
function stepOf(extent) {
  for (let step = 1n; ; step *= 10n) {
    const factor = [1n, 2n, 5n].find((it) => extent <= step * it * 5n);
    if (factor) return step * factor;
  }
}

/** Draws the clocks, and tells where they end. */
export function drawClocks(drawing, axis, above) {
  const differences = new Differences(axis);
  const {isFlat, least: low} = differences;
  const found = flags(axis);
  const {placed, rows} = placeFlags(found.length <= MOST_FLAGS ? found : [], axis.left, drawing.width - RIGHT);
  const top = above + (rows * ROW + 6);
  const height = isFlat ? FLAT : HEIGHT;
  const high = greater(differences.most, low + 1n);
  const yOf = (value) => (isFlat ? top + height / 2 : top + PAD + ratio(high - value, high - low) * (height - 2 * PAD));
  drawGround(drawing, axis, top, height);
  drawGrid(drawing, axis, yOf, low, high, isFlat);
  for (const it of placed) drawFlag(drawing, it, top - (rows - it.row) * ROW, top, height);
  CLOCKS.forEach(([css, name], number) => {
    const line = differences.lines[number];
    const last = line.at(-1)[1];
    const tip = `${name}: at the end ${last ? signed(last) : "no difference"} from even running`;
    drawing.add("polyline", css, tip, {points: points(joined(line.map(([x, value]) => [x, yOf(value)])))});
  });
  return top + height;
}

/** The shades of bands and cuts. */
function drawGround(drawing, axis, top, height) {
  if (!axis.isSmall) return;
  axis.lefts.forEach((left, number) => {
    const right = axis.rights[number];
    if (right > left) drawing.box("band", left, top, right - left, height, "one reading: no time passes from op to op");
    let x = right;
    for (const piece of axis.pieces[number]) {
      if (piece.kind === "cut") drawing.box("cut", x, top, piece.width, height, `cut: ${span(piece.length)} of even running`);
      x += piece.width;
    }
  });
}

/** The lines of equal differences, with their values. */
function drawGrid(drawing, axis, yOf, low, high, isFlat) {
  const step = stepOf(high - low);
  const most = greater(high, -low);
  const values = isFlat ? [0n] : [];
  for (let value = -floor(-low, step) * step; !isFlat && value <= high; value += step) values.push(value);
  for (const it of values) {
    const y = yOf(it);
    drawing.line(it === 0n ? "edge" : "grid", axis.left, y, axis.right, y);
    drawing.text("soft small", axis.left - 6, y + 4, it === 0n ? "even" : signed(it, most), "end");
  }
}

/** One note with its line. */
function drawFlag(drawing, {flag, x, anchor}, y, top, height) {
  if (flag.start === flag.end) {
    drawing.line(flag.css, flag.start, y, flag.start, top + height);
  } else {
    const [low, high, base] = [num(flag.start), num(flag.end), num(y + ROW - 2)];
    drawing.add("path", `${flag.css} open`, "", {d: `M${low} ${num(y + ROW + 2)}V${base}H${high}V${num(y + ROW + 2)}`});
  }
  drawing.text(flag.css, x, y + 10, flag.words, anchor);
}
