// The picture of a history: one lane an actor, the entries from left to right, and the life of each timer.

import {BadInput, number} from "./inputs.mjs";
import {reason} from "./judge.mjs";
import {MODES} from "./sheet.mjs";
import {Drawing, count, fitted, num, points, wide} from "./svg.mjs";
import {order} from "./whole.mjs";
import {KINDS, plain, readHistory} from "./written.mjs";

const LEFT = 150;
const STEP = 30;
const LANE = 30;
const NAMED = 80;
const WIDTH = 1100;
const TOP = 78;
const MOST_LANES = 12;
const LIVES = 6;
const TIMER_EVENTS = ["arm", "peek", "cancel", "expire", "orphan", "deliver", "drop"];
const NAMES = {k: "clock", c: "caller", w: "timers", s: "scheduler", i: "inbox", m: "mailbox"};
const ORDER = `kc${KINDS.replace("c", "")}`;

/** The lanes of the actors that take part, by name, and the lane of each; many of one kind are joined. */
class Lanes {
  constructor({entries}) {
    const seen = new Set(entries.flatMap((it) => [it.by, it.other]));
    seen.delete(null);
    this.names = [];
    this.of = new Map();
    for (const kind of ORDER) {
      const actors = [...seen].filter((it) => it[0] === kind).sort((a, b) => order(BigInt(a.slice(1)), BigInt(b.slice(1))));
      const rows = Math.min(actors.length, MOST_LANES);
      for (let row = 0; row < rows; row++) {
        const [low, high] = [row, row + 1].map((it) => Math.floor((actors.length * it) / rows));
        this.add(kind, actors.slice(low, high));
      }
    }
  }

  /** A lane for some actors of a kind. */
  add(kind, actors) {
    for (const actor of actors) this.of.set(actor, this.names.length);
    const name = kind === "k" ? NAMES[kind] : `${NAMES[kind]} ${actors[0].slice(1)}`;
    this.names.push(actors.length === 1 ? name : `${name} to ${actors.at(-1).slice(1)}`);
  }
}

/** The entries, by number, that touch each timer, up to one of them; the timers by their names. */
function touches(entries, until) {
  const made = new Map();
  const touch = (timer, place) => {
    const name = plain(timer);
    if (made.has(name)) made.get(name).push(place);
    else made.set(name, [place]);
  };
  entries.slice(0, until).forEach(({event, fields}, place) => {
    if (TIMER_EVENTS.includes(event)) touch(fields[0], place);
    else if (event === "take" && fields[1]?.[0] === "timeout") touch(fields[1][1], place);
  });
  return made;
}

/**
 * The lane on which a timer is when an entry touches it: its wheel's when it is armed, its mailbox when it is delivered, and
 * else that of who touches it.
 */
function laneOfLife({event, by, other}) {
  return event === "arm" || event === "deliver" ? other ?? by : by;
}

/** The line of the first illegal entry; null where the history is legal. */
function verdictOf(lines, {entries}, source) {
  const words = lines[0].split(" ");
  const found = words.length === 2 && lines.length === 1 ? number(words[1]) : null;
  const line = Number(found ?? -1);
  if (words[0] === "legal" && line === entries.length) return null;
  if (words[0] === "illegal" && 2 <= line && line < entries.length + 2) return line;
  throw new BadInput(`${source}: not the verdict of this history`);
}

/** Where lanes and entries stand. */
class Board {
  constructor(history, bad) {
    this.history = history;
    this.bad = bad === null ? null : bad - 2;
    this.lanes = new Lanes(history);
    const {length} = history.entries;
    this.isNamed = length <= NAMED;
    this.step = this.isNamed ? STEP : (WIDTH - LEFT - 30) / length;
    this.width = this.isNamed ? Math.max(640, LEFT + STEP * length + 40) : WIDTH;
  }

  /** Where an entry stands. */
  x(place) {
    return LEFT + (place + 0.6) * this.step;
  }

  /** Where a lane stands. */
  y(actor) {
    return TOP + (this.lanes.of.get(actor) + 0.5) * LANE;
  }

  /** Below the last lane. */
  get bottom() {
    return TOP + this.lanes.names.length * LANE;
  }

  /** Where the entries stand, from left to right. */
  get places() {
    return this.history.entries.map((_, place) => this.x(place));
  }
}

function drawGround(drawing, {lanes, width}) {
  lanes.names.forEach((name, row) => {
    const y = TOP + (row + 0.5) * LANE;
    if (row % 2 === 0) drawing.box("band", 1, y - LANE / 2, width - 2, LANE);
    drawing.line("grid", LEFT, y, width - 20, y);
    drawing.text("ink small", LEFT - 10, y + 4, name, "end");
  });
}

/** The corners of a timer's life; in a long history of each pixel the first. */
function cornersOf(board, places) {
  const corners = [];
  for (const place of places) {
    const [x, y] = [board.x(place), board.y(laneOfLife(board.history.entries[place]))];
    const last = corners.at(-1);
    if (!board.isNamed && last && Math.trunc(last[0]) === Math.trunc(x) && last[1] === y) continue;
    corners.push([x, y]);
  }
  return corners;
}

/** The life of each timer as a line from lane to lane. */
function drawLives(drawing, board) {
  const {entries} = board.history;
  const shown = new Set();
  let life = 0;
  for (const [name, places] of touches(entries, board.bad === null ? entries.length : board.bad + 1)) {
    const corners = cornersOf(board, places);
    const css = `life${life++ % LIVES} life`;
    const said = points(board.isNamed ? corners : corners.map(([x, y]) => [Math.trunc(x), y]));
    if (corners.length < 2 || shown.has(`${css} ${said}`)) continue;
    shown.add(`${css} ${said}`);
    drawing.add("polyline", css, board.isNamed ? `the life of timer ${name}` : "", {points: said});
  }
}

/** The words of an entry below its lanes. */
const wordsOf = ({text}) => text.split(" ").slice(2).join(" ");

/** One entry with its name below. */
function drawEntry(drawing, board, place) {
  const entry = board.history.entries[place];
  const [x, y] = [board.x(place), board.y(entry.by)];
  const isBad = place === board.bad;
  const ink = isBad ? "bad" : board.bad !== null && place > board.bad ? "soft" : "ink";
  const tip = `line ${place + 2}: ${entry.text}`;
  drawing.line(isBad ? "bad badline" : "grid", x, TOP, x, board.bottom + 6);
  if (entry.other !== null) {
    const other = board.y(entry.other);
    drawing.line(isBad ? "bad badline" : "edge", x, y, x, other, tip);
    drawing.add("circle", "page", tip, {cx: x, cy: other, r: 4});
    drawing.add("circle", `${isBad ? "bad" : "edge"} open`, tip, {cx: x, cy: other, r: 4});
  }
  drawing.add("circle", ink, tip, {cx: x, cy: y, r: isBad ? 5.5 : 4.5});
  drawing.text(`${isBad ? "bad" : "soft"} small`, x, TOP - 6, `${place + 2}`, "middle", tip);
  drawing.text(`${ink} small`, x + 4, board.bottom + 16, fitted(wordsOf(entry), x), "end", tip, -45);
}

/** The entries of a long history: of each lane and pixel one mark. */
function drawJoined(drawing, board) {
  const {entries} = board.history;
  const found = board.lanes.names.map(() => ({pixels: new Set(), count: 0}));
  entries.forEach((entry, place) => {
    const lane = found[board.lanes.of.get(entry.by)];
    lane.pixels.add(Math.trunc(board.x(place)));
    lane.count++;
  });
  found.forEach((lane, row) => {
    if (!lane.count) return;
    const y = num(TOP + (row + 0.5) * LANE - 5);
    const marks = [...lane.pixels].sort((a, b) => a - b).map((x) => `M${x} ${y}v10`);
    drawing.add("path", "mark open", `${board.lanes.names[row]}: ${lane.count} entries`, {d: marks.join("")});
  });
  if (board.bad === null) return;
  const x = board.x(board.bad);
  drawing.line("bad badline", x, TOP, x, board.bottom + 6, entries[board.bad].text);
  drawing.add("circle", "bad", "", {cx: x, cy: board.y(entries[board.bad].by), r: 5.5});
}

function drawHead(drawing, {history, bad}, name) {
  drawing.text("ink title", 16, 26, name);
  const said = bad === null ? `legal: ${history.entries.length} entries` : `illegal at line ${bad + 2}`;
  drawing.text(bad === null ? "soft" : "bad", 16 + count(name) * 9.6 + 16, 26, said);
  const settings = `${MODES[history.mode]}, ${history.correction ? "with" : "without"} time correction`;
  drawing.text("soft small", 16, 46, `${settings}. From left to right: entries, by the numbers of their lines.`);
}

function drawLegend(drawing, board, y) {
  let x = 16;
  for (const [css, words] of board.isNamed ? [["ink", "who made the entry"], ["edge open", "with whom"]] : []) {
    drawing.add("circle", css, "", {cx: x + 5, cy: y - 4, r: 4.5});
    drawing.text("soft small", x + 16, y, words);
    x += 34 + wide(words, 11);
  }
  drawing.line("life0 life", x, y - 4, x + 20, y - 4);
  drawing.text("soft small", x + 26, y, "the life of a timer, between the lanes that touch it");
  return y + 14;
}

/** The entries of a history, and where they end. */
function drawEntries(drawing, board) {
  const {entries} = board.history;
  const y = board.bottom + 16;
  if (!board.isNamed) {
    drawJoined(drawing, board);
    return y;
  }
  entries.forEach((_, place) => drawing.ofOp(place, () => drawEntry(drawing, board, place)));
  const longest = Math.max(0, ...entries.map((it, place) => count(fitted(wordsOf(it), board.x(place)))));
  return y + longest * 11 * 0.6 * 0.72;
}

/** Where everything of a history with its verdict stands. */
export function boardOf(text, name, lines, source) {
  const history = readHistory(text, name);
  return new Board(history, verdictOf(lines, history, source));
}

/** The picture of a history whose places are known, which may be a part of a page. */
export function pictureOnBoard(board, title, isPart = false) {
  const {history} = board;
  const bad = board.bad === null ? null : board.bad + 2;
  const why = bad === null ? "" : reason(history, bad);
  const told = `A history of ${history.entries.length} entries${why ? `; illegal at line ${bad}: ${why}` : "; legal"}`;
  const drawing = new Drawing(board.width, title, told, isPart);
  drawHead(drawing, board, title);
  drawGround(drawing, board);
  let y = drawEntries(drawing, board);
  drawLives(drawing, board);
  if (bad !== null) {
    drawing.text("bad", 16, y + 16, `line ${bad}, ${history.entries[board.bad].text}: ${why}`);
    y += 22;
  }
  return drawing.done(drawLegend(drawing, board, y + 18));
}

/** The picture of a history with its verdict. */
export function pictureOfHistory(text, name, lines, source, title) {
  return pictureOnBoard(boardOf(text, name, lines, source), title);
}
