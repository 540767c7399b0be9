// The lower part of a scenario's picture: one bar a timer, and the turns of the schedulers.

import {MILLISECOND} from "./replay.mjs";
import {num, span} from "./svg.mjs";

/** What became of timers, with what is told of each in the legend. */
const FATES = new Map([
  ["delivered", "delivered"],
  ["cancelled", "cancelled"],
  ["orphaned", "orphaned: its process exited"],
  ["dropped", "dropped: its process had exited"],
  ["expired", "expired, not handed over"],
  ["armed", "armed at the end"],
]);
/** The ops that are turns or parts of turns. */
export const TURNS = ["turn", "serve", "advance", "deliver"];
const ROW = 22;
const LABELLED = 24;
const MOST_ROWS = 140;
const HEIGHT = 420;
const MOST_STRIPS = 4;
const STRIP = 16;
const MARK = 4.5;

/** The parts of a timer's bar as shade, start and end; where its deadline stands; and whether that is in sight. */
export function cutUp(axis, timer) {
  const start = axis.ops[timer.started];
  const found = axis.deadline(timer);
  const due = Math.max(start, found.x);
  if (["delivered", "dropped", "expired"].includes(timer.fate)) {
    const end = timer.handed === null ? axis.end : axis.ops[timer.handed];
    const met = Math.min(due, end);
    return {parts: [[timer.fate, start, met], ["late", met, end]], due: met, isInSight: true};
  }
  const end = timer.settled === null ? axis.rights.at(-1) : axis.ops[timer.settled];
  if (due < end) return {parts: [[timer.fate, start, due], ["late", due, end]], due, isInSight: true};
  return {parts: [[timer.fate, start, end], ["rest", end, due]], due, isInSight: found.isInSight};
}

/** What became of a timer, in a few words. */
export function wordsOf(timer) {
  if (timer.fate === "delivered") return timer.left < 0n ? `delivered ${span(-timer.left * MILLISECOND)} late` : "delivered on time";
  if (timer.fate === "cancelled") return `cancelled, ${span(timer.left * MILLISECOND)} left`;
  return FATES.get(timer.fate).split(":")[0];
}

/** The tooltip of a timer. */
function tipOf(timer) {
  const ends = timer.handed ?? timer.settled;
  const started = `timer ${timer.label} of scheduler ${timer.scheduler}, to process ${timer.process}: started at op ${timer.started + 1}`;
  return `${started}, deadline ${timer.deadline} ms after the start time, ${wordsOf(timer)}${ends === null ? "" : ` at op ${ends + 1}`}`;
}

/** The mark of a fate: each has a shape of its own. */
function drawMark(drawing, fate, x, y) {
  const [near, far, low, high] = [x - MARK, x + MARK, y - MARK, y + MARK].map(num);
  const path = (d) => drawing.add("path", "mark open", "", {d});
  if (fate === "delivered") drawing.add("circle", "ink", "", {cx: x, cy: y, r: MARK});
  else if (fate === "expired") drawing.add("circle", "mark open", "", {cx: x, cy: y, r: MARK});
  else if (fate === "cancelled") path(`M${near} ${low}L${far} ${high}M${near} ${high}L${far} ${low}`);
  else if (fate === "orphaned") path(`M${near} ${num(y)}L${num(x)} ${low}L${far} ${num(y)}L${num(x)} ${high}Z`);
  else if (fate === "dropped") path(`M${near} ${low}H${far}L${num(x)} ${high}Z`);
}

/** One bar; and its shades. */
function drawBar(drawing, axis, timer, y, row) {
  const {parts, due, isInSight} = cutUp(axis, timer);
  const thick = Math.max(1, row * 0.55);
  const tip = tipOf(timer);
  for (const [css, start, end] of parts) {
    if (end > start || (css !== "late" && css !== "rest")) drawing.box(css, start, y + (row - thick) / 2, Math.max(end - start, 1), thick, tip);
  }
  const shades = parts.filter(([, start, end]) => end > start).map(([css]) => css);
  if (row < 10) return shades;
  const middle = y + row / 2;
  if (isInSight) drawing.line("mark", due, y + 2, due, y + row - 2, `deadline: ${timer.deadline} ms after the start time`);
  else drawing.text("soft", axis.right + 2, middle + 4, "\u25b8");
  drawMark(drawing, timer.fate, parts[1][0] === "rest" ? parts[0][2] : parts[1][2], middle);
  drawing.text("ink small", axis.left - 6, middle + 4, `timer ${timer.label}`, "end", tip);
  drawing.text("ink small", axis.right + 14, middle + 4, wordsOf(timer), "start", tip);
  return shades;
}

/** Stretches in half pixels, with those that touch joined. */
function spans(found) {
  const halves = found.map(([a, b]) => [Math.trunc(a * 2) / 2, Math.trunc(b * 2 + 1) / 2]);
  const made = [];
  for (const [start, end] of halves.sort((a, b) => a[0] - b[0] || a[1] - b[1])) {
    const last = made.at(-1);
    if (last && start <= last[1]) last[1] = Math.max(last[1], end);
    else made.push([start, end]);
  }
  return made;
}

/** How many timers had each fate. */
function countFates(timers) {
  const counts = new Map([...FATES.keys()].map((fate) => [fate, 0]));
  for (const {fate} of timers) counts.set(fate, counts.get(fate) + 1);
  return counts;
}

/** One row for many timers: of each shade the stretches where one has it; and the shades. */
function drawJoined(drawing, axis, timers, y, row) {
  const found = new Map(["rest", ...FATES.keys(), "late"].map((css) => [css, []]));
  for (const timer of timers) {
    for (const [css, start, end] of cutUp(axis, timer).parts) {
      if (end > start || css === timer.fate) found.get(css).push([start, end]);
    }
  }
  const told = [...countFates(timers)].filter(([, count]) => count).map(([fate, count]) => `${count} ${fate}`);
  const tip = `${timers.length} timers, from ${timers[0].label} to ${timers.at(-1).label}: ${told.join(", ")}`;
  const [low, thick] = [num(y), num(row * 0.8)];
  const shades = [...found].filter(([, some]) => some.length);
  for (const [css, some] of shades) {
    const d = spans(some).map(([a, b]) => `M${num(a)} ${low}H${num(Math.max(b, a + 0.5))}v${thick}H${num(a)}Z`);
    drawing.add("path", css, tip, {d: d.join("")});
  }
  return shades.map(([css]) => css);
}

/** The turns of each scheduler as ticks, and where they end. */
function drawTurns(drawing, axis, top) {
  const {ops, lines, settings} = axis.run;
  const count = settings.schedulers;
  const strips = count <= MOST_STRIPS ? count : 1;
  const ticks = Array.from({length: strips}, () => new Map());
  ops.forEach((op, place) => {
    if (!TURNS.includes(op[0])) return;
    const strip = ticks[strips === count ? op[1] : 0];
    const x = Math.trunc(axis.ops[place] * 2);
    if (strip.has(x)) strip.get(x).push(place);
    else strip.set(x, [place]);
  });
  ticks.forEach((strip, number) => {
    const y = top + number * STRIP;
    drawing.text("soft small", axis.left - 6, y + STRIP / 2 + 4, strips === count ? `scheduler ${number}` : `${count} schedulers`, "end");
    drawing.line("grid", axis.left, y + STRIP / 2, axis.right, y + STRIP / 2);
    for (const places of strip.values()) {
      const x = axis.ops[places[0]];
      const tip = places.length === 1 ? lines[places[0]] : `${places.length} turns and parts of turns`;
      drawing.ofOp(places[0], () => drawing.line("mark", x, y + 2, x, y + STRIP - 2, tip));
    }
  });
  return top + strips * STRIP;
}

/** A bar for each timer, or a row for each of as many groups of them; and their shades. */
function drawTimers(drawing, axis, timers, top) {
  const shades = new Set();
  const add = (some) => some.forEach((it) => shades.add(it));
  if (timers.length <= MOST_ROWS) {
    const row = timers.length <= LABELLED ? ROW : HEIGHT / timers.length;
    timers.forEach((timer, number) => drawing.ofOp(timer.started, () => add(drawBar(drawing, axis, timer, top + number * row, row))));
    return {shades, end: top + timers.length * row};
  }
  const row = HEIGHT / MOST_ROWS;
  for (let number = 0; number < MOST_ROWS; number++) {
    const [low, high] = [number, number + 1].map((it) => Math.floor((timers.length * it) / MOST_ROWS));
    add(drawJoined(drawing, axis, timers.slice(low, high), top + number * row, row));
  }
  drawing.text("ink small", axis.left - 6, top + 12, `${timers.length} timers`, "end");
  drawing.text("soft small", axis.left - 6, top + 26, "in order", "end");
  drawing.text("soft small", axis.left - 6, top + 40, "of starting", "end");
  return {shades, end: top + HEIGHT};
}

/** Draws turns, timers and what their shades mean, and tells where they end. */
export function drawBars(drawing, axis, above) {
  const {timers} = axis.run;
  const top = drawTurns(drawing, axis, above);
  if (!timers.length) return top;
  const {shades, end} = drawTimers(drawing, axis, timers, top + 4);
  return drawLegend(drawing, axis, end + 6, shades);
}

/** What the shades and marks of the timers mean: those that are there. */
function drawLegend(drawing, axis, above, shades) {
  const {timers} = axis.run;
  const counts = countFates(timers);
  let [x, top] = [axis.left, above];
  for (const [fate, told] of FATES) {
    if (!counts.get(fate)) continue;
    drawing.box(fate, x, top + 4, 22, 10);
    drawMark(drawing, fate, x + 22, top + 9);
    const words = told + (timers.length > LABELLED ? ` (${counts.get(fate)})` : "");
    drawing.text("soft small", x + 32, top + 13, words);
    x += 46 + words.length * 6.2;
  }
  for (const [css, words] of [["late", "after the deadline"], ["rest", "what was left to the deadline"]]) {
    if (!shades.has(css)) continue;
    if (x + 40 + words.length * 6.2 > drawing.width) [x, top] = [axis.left, top + 16];
    drawing.box(css, x, top + 4, 22, 10);
    drawing.text("soft small", x + 28, top + 13, words);
    x += 42 + words.length * 6.2;
  }
  return top + 18;
}
