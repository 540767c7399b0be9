// A scenario as `docs/FORMATS.md` describes it, read from its JSON text. Times are nanoseconds, as BigInt.

import {GREATEST, LEAST, BadInput} from "./inputs.mjs";
import {parse} from "./json.mjs";

/** The ops by which the clock takes a reading. */
export const READINGS = ["tick", "check", "finalize"];

const MODES = ["no", "single", "multi"];
const UNITS = ["second", "millisecond", "microsecond", "nanosecond", "native"];
const MOST_OPS = 100_000;
const FIELDS = new Set(["format", "mode", "correction", "start", "schedulers", "processes", "slots", "first", "ops", "race"]);

const isInteger = (it) => typeof it === "bigint" && LEAST <= it && it <= GREATEST;
const isMono = (it) => isInteger(it) && 0n <= it && it < 2n ** 62n;
const isSys = (it) => isInteger(it) && -(2n ** 61n) < it && it < 2n ** 61n;
const isNatural = (it) => typeof it === "bigint" && 0n <= it && it < 2n ** 64n;

// The arguments of ops: each gives the value by which it is followed, or undefined where it is none.
const kept = (is) => (it) => (is(it) ? it : undefined);
const below = (count) => (it) => (typeof it === "bigint" && 0n <= it && it < count ? Number(it) : undefined);
const flag = kept((it) => typeof it === "boolean");
const when = kept((it) => it === "rel" || it === "abs");
const unit = kept((it) => UNITS.includes(it) || (isNatural(it) && 1n <= it && it < 2n ** 63n));
const [integer, natural, mono, sys] = [isInteger, isNatural, isMono, isSys].map(kept);
const [label, monitor] = [below(1_000_000n), below(2n ** 32n)];

/** The arguments of each op of a format. */
function rowsOf(format, schedulers, processes) {
  const [scheduler, process] = [below(BigInt(schedulers)), below(BigInt(processes))];
  const start = [label, scheduler, when, integer, process, natural];
  const asked = format === 2n ? [label, process, flag] : [label, process];
  const rows = new Map(Object.entries({
    time: [], system: [], offset: [], info: [], convert: [integer, unit, unit], start, cancel: [label], read: [label],
    cancel_async: asked, read_async: asked, receive: [process], exit: [process], alive: [process], monitor: [process],
    demonitor: [process, monitor], notify: [process],
  }));
  for (const name of READINGS) rows.set(name, [mono, sys]);
  for (const name of ["serve", "advance", "deliver", "turn"]) rows.set(name, [scheduler]);
  if (format === 2n) rows.set("send_after", start).set("cancel_quiet", [label]);
  return rows;
}

/** An op with its arguments read; none where it is no op. */
function opOf(value, rows) {
  if (!Array.isArray(value)) return null;
  const row = rows.get(value[0]);
  if (!row || value.length !== row.length + 1) return null;
  const op = [value[0], ...row.map((read, number) => read(value[number + 1]))];
  return op.includes(undefined) ? null : op;
}

function objectOf(text, name) {
  let value;
  try {
    value = parse(text);
  } catch {
    throw new BadInput(`${name}: not JSON`);
  }
  if (!(value instanceof Map) || ![...value.keys()].every((it) => FIELDS.has(it))) {
    throw new BadInput(`${name}: not a scenario: it is no object, or has a field that no scenario has`);
  }
  return value;
}

/** The settings of a scenario. */
function settingsOf(value, name) {
  const field = (key, absent) => (value.has(key) ? value.get(key) : absent);
  const right = (key, is) => {
    if (!is) throw new BadInput(`${name}: not a scenario: ${key}`);
  };
  const count = (key, most, absent) => {
    const found = field(key, absent);
    right(key, isInteger(found) && 1n <= found && found <= most);
    return Number(found);
  };
  const [mode, correction, start, first] = [field("mode", "no"), field("correction", true), field("start", 0n), value.get("first")];
  right("mode", MODES.includes(mode));
  right("correction", typeof correction === "boolean");
  right("start", isInteger(start) && start % 1_000_000n === 0n && -(2n ** 58n) <= start && start <= 2n ** 58n);
  right("first", Array.isArray(first) && first.length === 2 && isMono(first[0]) && isSys(first[1]));
  const schedulers = count("schedulers", 64n, 1n);
  const processes = count("processes", 1024n, 1n);
  right("slots", count("slots", 65_536n, 1024n) * schedulers <= 262_144);
  return {mode, correction, start, schedulers, processes, first};
}

/** The scenario that a text spells, for `ertime run`: its settings, and its ops in order. */
export function readScenario(text, name) {
  const value = objectOf(text, name);
  const [format, listed] = [value.get("format"), value.get("ops")];
  if (format !== 1n && format !== 2n) throw new BadInput(`${name}: not a scenario: format`);
  if (value.has("race")) throw new BadInput(`${name}: a race has no transcript in one order, so no picture`);
  const settings = settingsOf(value, name);
  if (!Array.isArray(listed) || listed.length > MOST_OPS) throw new BadInput(`${name}: not a scenario: ops`);
  const rows = rowsOf(format, settings.schedulers, settings.processes);
  const labels = new Set();
  const ops = listed.map((it, place) => {
    const op = opOf(it, rows);
    if (!op) throw new BadInput(`${name}: not a scenario: op ${place + 1}`);
    if (op[0] === "start" || op[0] === "send_after") {
      if (labels.has(op[1])) throw new BadInput(`${name}: not a scenario: op ${place + 1} has the label of a start before`);
      labels.add(op[1]);
    }
    return op;
  });
  return {settings, ops};
}
