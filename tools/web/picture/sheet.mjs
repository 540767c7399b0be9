// The picture of a scenario: clocks above, the ops and the timers below, on one axis.

import {Axis} from "./axis.mjs";
import {TURNS, drawBars} from "./bars.mjs";
import {CLOCKS, drawClocks} from "./clocks.mjs";
import {Drawing, count, fitted, span, wide} from "./svg.mjs";
import {short} from "./wording.mjs";

const WIDTH = 960;
const LEFT = 96;
const INNER = 700;
const SLANTED = 15;
const MOST_NAMED = 40;
/** The modes of time warp, as they are named. */
export const MODES = {no: "no time warp mode", single: "single time warp mode", multi: "multi-time warp mode"};

/** Title, settings and the names of the clocks. */
function drawHead(drawing, {settings}, name) {
  drawing.text("ink title", 16, 26, name);
  const said = `${MODES[settings.mode]}, ${settings.correction ? "with" : "without"} time correction`;
  drawing.text("soft", 16 + count(name) * 9.6 + 16, 26, said);
  let x = LEFT;
  for (const [css, words] of CLOCKS) {
    drawing.line(css, x, 46, x + 30, 46);
    drawing.text("ink small", x + 38, 50, words);
    x += 60 + wide(words, 11);
  }
  drawing.text("soft small", x, 50, "as differences from even running");
  return 60;
}

/** The times of the readings, where they have room; in a long run those at even distances. */
function drawTimes(drawing, axis, y) {
  const {readings} = axis.run;
  const marks = readings.map(({mono}, number) => [axis.lefts[number], mono]);
  if (axis.tail && axis.isSmall) marks.push([axis.end, readings.at(-1).mono + axis.tail]);
  let [free, last] = [axis.left - 40, ""];
  for (const [x, mono] of marks) {
    const label = span(mono);
    const half = wide(label, 11) / 2;
    if (axis.isSmall) drawing.line("edge", x, y, x, y + 5);
    if (x - half < free + 4 || label === last) continue;
    drawing.line("edge", x, y, x, y + 5);
    drawing.text("soft small", x, y + 17, label, "middle");
    [free, last] = [x + half + (axis.isSmall ? 0 : 60), label];
  }
}

/** The axis with its times and its cuts. */
function drawAxis(drawing, axis, y) {
  drawing.line("edge", axis.left, y, axis.right, y);
  drawTimes(drawing, axis, y);
  drawing.text("soft small", axis.right + 14, y + 5, `OS monotonic time${axis.isStill ? ", which stands still" : ""}`);
  for (const [number, row] of (axis.isSmall ? axis.pieces : []).entries()) {
    let x = axis.rights[number];
    for (const piece of row) {
      if (piece.kind === "cut") drawing.text("soft small", x + piece.width / 2, y + 4, "\u2215\u2215", "middle", `cut: ${span(piece.length)}`);
      x += piece.width;
    }
  }
  return y + 22;
}

/** An op as JSON. */
const json = (op) => `[${op.map((it) => (typeof it === "string" ? `"${it}"` : `${it}`)).join(",")}]`;

/** The ops as ticks, named where they have room. */
function drawOps(drawing, axis, top) {
  const {run, ops: places} = axis;
  if (!axis.isSmall || !run.ops.length) return top;
  const isNamed = run.ops.length <= MOST_NAMED && places.every((x, at) => at === 0 || x - places[at - 1] >= SLANTED - 0.5);
  const names = run.ops.map((op, place) => short(run, op, run.lines[place]));
  drawing.text("soft small", axis.left - 6, top + 8, "ops", "end");
  run.ops.forEach((op, place) => {
    const x = places[place];
    const tip = `${json(op)} \u2192 ${run.lines[place]}`;
    drawing.ofOp(place, () => {
      drawing.line("mark", x, top, x, top + 9, tip);
      if (isNamed) drawing.text("ink small", x + 3, top + 18, fitted(names[place], x), "end", tip, -45);
    });
  });
  return top + (isNamed ? 22 + Math.max(...names.map((it) => wide(it, 11))) * 0.64 : 16);
}

/** Where everything of a run stands in its picture. */
export const axisOf = (run) => new Axis(run, LEFT, INNER);

/** The picture of a run whose places are known, which may be a part of a page. */
export function pictureOn(axis, name, isPart = false) {
  const {run} = axis;
  const told = `A scenario of ${run.ops.length} ops, ${run.readings.length - 1} readings and ${run.timers.length} timers`;
  const drawing = new Drawing(WIDTH, name, told, isPart);
  let y = drawHead(drawing, run, name);
  y = drawClocks(drawing, axis, y);
  y = drawAxis(drawing, axis, y);
  y = drawOps(drawing, axis, y + 4);
  if (run.timers.length || run.ops.some(([op]) => TURNS.includes(op))) y = drawBars(drawing, axis, y + 6);
  const below = [];
  if (axis.slot) below.push("Shaded: ops at one reading, in order; no time passes from one to the next.");
  const isCut = axis.pieces.some((row) => row.some((it) => it.kind === "cut"));
  if (axis.isSmall && isCut) below.push("\u2215\u2215: a long stretch in which Erlang's clocks ran evenly, cut.");
  if (below.length) {
    drawing.text("soft small", LEFT, y + 14, below.join(" "));
    y += 16;
  }
  return drawing.done(y + 12);
}

/** The picture of a run. */
export const picture = (run, name) => pictureOn(axisOf(run), name);
