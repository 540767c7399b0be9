// What the buttons change in the text of a scenario: each gives the new text. Times are nanoseconds, as BigInt.

import {scan} from "./scan.mjs";
import {last} from "./text.mjs";

const ORDER = ["format", "mode", "correction", "start", "schedulers", "processes", "slots", "first", "ops", "race"];
const READINGS = ["tick", "check", "finalize"];
const INTEGER = /^-?\d+$/;
const MILLISECOND = 1_000_000n;
/** OS system time is taken to run evenly between two readings that differ by a fiftieth of the time at most. */
const DRIFT = 50n;

/** The text with some parts replaced: each has a start, an end and a text. */
function replaced(text, parts) {
  let [made, at] = ["", 0];
  for (const part of [...parts].sort((a, b) => a.start - b.start || a.end - b.end)) {
    made += text.slice(at, part.start) + part.text;
    at = part.end;
  }
  return made + text.slice(at);
}

/** What a field says, as it is written; none where it is absent. */
export function field(text, found, name) {
  const place = found.fields.get(name);
  return place ? text.slice(place.value.start, place.value.end) : null;
}

/** The text with another value of a field. */
export function withField(text, name, value) {
  const found = scan(text);
  const place = found.fields.get(name);
  if (place) return replaced(text, [{...place.value, text: value}]);
  if (found.open === null) return text;
  const before = ORDER.slice(0, ORDER.indexOf(name)).reverse().find((it) => found.fields.has(it));
  const start = before ? found.fields.get(before).value.end : found.open + 1;
  const comma = found.fields.size ? "," : "";
  const put = before ? `${comma}\n "${name}":${value}` : `"${name}":${value}${comma}\n `;
  return replaced(text, [{start, end: start, text: put}]);
}

/** The text in the other format: its asynchronous calls say whether an answer is sent, or don't. */
export function withFormat(text, version) {
  const parts = [];
  for (const {items} of scan(text).ops) {
    const words = items.map((it) => text.slice(it.start, it.end));
    if (words[0] !== '"cancel_async"' && words[0] !== '"read_async"') continue;
    const end = items.at(-1).end;
    if (version === "2" && items.length === 3) parts.push({start: end, end, text: ",true"});
    if (version === "1" && items.length === 4 && words[3] === "true") parts.push({start: items[2].end, end, text: ""});
  }
  return withField(replaced(text, parts), "format", version);
}

/** The text with a field a line and an op a line; none where it isn't JSON. */
export function tidied(text) {
  try {
    JSON.parse(text);
  } catch {
    return null;
  }
  const found = scan(text);
  if (!found.fields.size) return null;
  const plain = ({start, end}) => text.slice(start, end).replace(/("(?:[^"\\]|\\.)*")|\s+/g, "$1");
  const rows = [...found.fields].map(([name, {value}]) => {
    const isList = name === "ops" && text[value.start] === "[" && found.ops.length;
    const said = isList ? `[\n${found.ops.map((op) => `  ${plain(op)}`).join(",\n")}]` : plain(value);
    return `"${name}":${said}`;
  });
  return `{${rows.join(",\n ")}}\n`;
}

/**
 * The readings of a scenario: the first one, which has the place -1, and those of its ops, as far as they are numbers. As
 * for the clock, OS monotonic time never falls.
 */
function readings(text, found) {
  const made = [];
  const add = (place, items) => {
    const words = items.map((it) => text.slice(it.start, it.end));
    if (words.length !== 2 || !words.every((it) => INTEGER.test(it))) return;
    const [mono, sys] = words.map(BigInt);
    const before = made.at(-1)?.mono ?? mono;
    made.push({place, mono: mono > before ? mono : before, sys, written: items[1]});
  };
  add(-1, numbers(text, found.fields.get("first")?.value));
  found.ops.forEach(({items}, place) => {
    if (items.length === 3 && READINGS.includes(text.slice(items[0].start + 1, items[0].end - 1))) add(place, items.slice(1));
  });
  return made;
}

/** Where the numbers of an array of numbers stand. */
function numbers(text, place) {
  if (!place) return [];
  const inside = text.slice(place.start, place.end);
  return [...inside.matchAll(/-?\d+/g)].map((it) => ({start: place.start + it.index, end: place.start + it.index + it[0].length}));
}

/** OS system time at a moment, by the readings around it. */
function systemAt(all, number, mono) {
  const [a, b] = [all[number], all[number + 1]];
  const passed = mono - a.mono;
  if (!b || b.mono === a.mono) return a.sys + passed;
  const [whole, gained] = [b.mono - a.mono, b.sys - a.sys];
  const off = gained > whole ? gained - whole : whole - gained;
  return a.sys + (off * DRIFT <= whole ? (passed * gained) / whole : passed);
}

/**
 * Between which ops a moment lies that isn't before the first reading: the least and the greatest number of ops that may
 * stand before it, and the number of the reading that holds then.
 */
function limits(all, found, mono) {
  const number = last(all, mono, (it) => it.mono);
  return {low: all[number].place + 1, high: all[number + 1]?.place ?? found.ops.length, number};
}

/** The part of a text that puts ops in front of the op of a number. */
function insertion(text, found, number, ops) {
  const said = ops.map((op) => `[${op.map((it) => (typeof it === "string" ? `"${it}"` : `${it}`)).join(",")}]`);
  const {ops: there} = found;
  const list = found.fields.get("ops")?.value;
  if (!there.length) return {start: list.start, end: list.end, text: `[\n  ${said.join(",\n  ")}]`};
  const near = Math.max(1, Math.min(number, there.length - 1));
  const between = there.length > 1 ? text.slice(there[near - 1].end, there[near].start) : ",\n  ";
  if (number === 0) return {start: there[0].start, end: there[0].start, text: said.map((it) => it + between).join("")};
  const at = there[number - 1].end;
  return {start: at, end: at, text: said.map((it) => between + it).join("")};
}

/** Where an op can be put at a point: the number of ops before it, and the reading that holds there; none where it can't. */
function placed(text, point) {
  const found = scan(text);
  const all = readings(text, found);
  if (!all.length || !found.fields.has("ops") || point.mono < all[0].mono) return null;
  const {low, high, number} = limits(all, found, point.mono);
  return {found, all, place: Math.min(Math.max(point.index, low), high), number};
}

/**
 * The OS clock leaps at a point: a tick there reads a system time that is so much later, as all do that follow. Gives the
 * text and the number of the tick; none where the text has no first reading or no list of ops.
 */
export function withLeap(text, point, amount) {
  const at = placed(text, point);
  if (!at) return null;
  const sys = systemAt(at.all, at.number, point.mono) + amount;
  const parts = at.all.filter((it) => it.place >= at.place).map((it) => ({...it.written, text: `${it.sys + amount}`}));
  parts.push(insertion(text, at.found, at.place, [["tick", point.mono, sys]]));
  return {text: replaced(text, parts), op: at.place};
}

/**
 * A timer is started at a point, with a tick where no reading is taken there; and at its deadline, as OS monotonic time
 * goes, there is a tick, where there is none, and a turn. Gives the text and the number of the start.
 */
export function withTimer(text, point, length) {
  const at = placed(text, point);
  if (!at) return null;
  const {found, all, place, number} = at;
  const used = found.ops.filter(({items}) => items.length === 7).map(({items}) => Number(text.slice(items[1].start, items[1].end)));
  const label = Math.max(0, ...used.filter(Number.isInteger)) + 1;
  const tick = (mono, by) => (all[by].mono === mono ? [] : [["tick", mono, systemAt(all, by, mono)]]);
  const begun = [...tick(point.mono, number), ["start", label, 0, "rel", length, 0, label]];
  const end = point.mono + BigInt(length) * MILLISECOND;
  const due = limits(all, found, end);
  const ended = [...tick(end, due.number), ["turn", 0]];
  const parts = [];
  if (due.high === place) {
    parts.push(insertion(text, found, place, [...begun, ...ended]));
  } else {
    parts.push(insertion(text, found, place, begun), insertion(text, found, due.high, ended));
  }
  return {text: replaced(text, parts), op: place + begun.length - 1};
}

/** How long a drag from a point to another is, in milliseconds, rounded up: at least one. */
export function length(from, to) {
  const time = (to.mono - from.mono + MILLISECOND - 1n) / MILLISECOND;
  return Number(time < 1n ? 1n : time);
}
