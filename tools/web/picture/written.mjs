// A written history, as `docs/FORMATS.md` describes it ("Written histories"). Its numbers are BigInt.

import {GREATEST, LEAST, BadInput, number} from "./inputs.mjs";
import {size} from "./whole.mjs";

const STATUSES = ["armed", "expired", "delivered", "cancelled", "orphaned", "dropped"];
/** The letters of the actors that have a number. */
export const KINDS = "wismc";

/** A line that isn't spelled as its kind. */
class Misspelled extends Error {}

/** The words of a line, taken one after the other. A timer is a list of its scheduler, its slot and its generation. */
class Words {
  constructor(line) {
    this.words = line.split(" ");
    this.place = 0;
  }

  /** The next word. */
  word() {
    if (!this.words[this.place]) throw new Misspelled();
    return this.words[this.place++];
  }

  /** The next word, one of these. */
  oneOf(wanted) {
    const found = this.word();
    if (!wanted.includes(found)) throw new Misspelled();
    return found;
  }

  /** The next word, a number. */
  within(least, most) {
    const found = number(this.word());
    if (found === null || found < least || most < found) throw new Misspelled();
    return found;
  }

  /** The end of the line. */
  end() {
    if (this.place !== this.words.length) throw new Misspelled();
  }
}

// The parts of a line: each takes its words.
const small = (it) => it.within(0n, 2n ** 32n - 1n);
const natural = (it) => it.within(0n, 2n ** 64n - 1n);
const integer = (it) => it.within(LEAST, GREATEST);
const flag = (it) => it.oneOf(["true", "false"]) === "true";
const word = (...wanted) => (it) => it.oneOf(wanted);
const list = (...parts) => (it) => parts.map((read) => read(it));
const timer = list(small, small, natural);
const start = list(word("after", "at"), integer, small, natural, word("wrapped", "bare"));
const request = list(word("cancel", "read"), timer, small, flag);
const state = word("preliminary", "final", "volatile");

/** `none`, which is null, or what is read. */
const optional = (read) => (it) => {
  if (it.words[it.place] !== "none") return read(it);
  it.place++;
  return null;
};

const MESSAGES = {
  timeout: [timer, natural],
  bare: [natural],
  cancel_done: [timer, optional(natural)],
  read_done: [timer, optional(natural)],
  change: [small, integer],
};
const message = (it) => {
  const kind = it.oneOf(Object.keys(MESSAGES));
  return [kind, ...list(...MESSAGES[kind])(it)];
};

/** An actor: `k`, or a letter and a number. */
const actor = (it) => {
  const found = it.word();
  if (found === "k") return found;
  const count = number(found.slice(1));
  if (!KINDS.includes(found[0]) || count === null || count < 0n || count >= 2n ** 32n) throw new Misspelled();
  return found;
};

/** The fields of each event. */
export const FIELDS = {
  tick: [integer, integer, word("plain", "force", "finalize"), integer],
  shift: [integer, state],
  off: [integer, state],
  look: [integer],
  arm: [timer, start],
  probe: [small, small, optional(word(...STATUSES))],
  peek: [timer, optional(natural)],
  cancel: [timer, optional(natural)],
  expire: [timer],
  orphan: [timer],
  deliver: [timer],
  drop: [timer],
  mark: [small, flag, flag],
  advanced: [small, natural],
  ask: [small, request],
  pick: [small, optional(request)],
  answer: [small, optional(natural)],
  take: [small, optional(message)],
  unwatch: [small, small, flag],
  watch: [small, small, integer],
  tell: [small, integer],
};
const EVENTS = Object.keys(FIELDS);

/** A field as it is written, by which fields are compared. */
export function plain(value) {
  if (value === null || value === undefined) return "none";
  return Array.isArray(value) ? value.map(plain).join(" ") : `${value}`;
}

/** Whether two fields are the same. */
export const isSame = (a, b) => plain(a) === plain(b);

/** An entry: who made it, with whom, the event and its fields. */
function entryOf(line) {
  const words = new Words(line);
  const by = actor(words);
  const other = words.words[1] === "-" ? null : actor(words);
  if (other === null) words.place++;
  const event = words.oneOf(EVENTS);
  const fields = FIELDS[event].map((read) => read(words));
  words.end();
  return {by, other, event, fields, text: line};
}

/** The settings of a history. */
function settingsOf(line) {
  const words = new Words(line);
  words.oneOf(["settings"]);
  const [mode, correction, start] = [words.oneOf(["no", "single", "multi"]), flag(words), integer(words)];
  const [schedulers, processes] = [words.within(1n, 1024n), words.within(1n, 524_288n)];
  const [slots, callers] = [words.within(1n, 16_777_216n), words.within(1n, 1025n)];
  const first = [words.within(0n, 2n ** 62n - 1n), words.within(1n - 2n ** 61n, 2n ** 61n - 1n)];
  words.end();
  if (start % 1_000_000n || size(start) > 2n ** 58n || slots * schedulers > 67_108_864n) throw new Misspelled();
  return {mode, correction, start, schedulers, processes, slots, callers, first};
}

/** The history that a text spells: its settings, and its entries, of which `entries[i]` stands at line `i + 2`. */
export function readHistory(text, name) {
  const lines = text.split("\n");
  if (lines.pop()) throw new BadInput(`${name}: misspelled at line ${lines.length + 1}: it doesn't end`);
  let place = 1;
  try {
    const settings = settingsOf(lines[0] ?? "");
    const entries = lines.slice(1).map((line, number) => {
      place = number + 2;
      return entryOf(line);
    });
    return {...settings, entries};
  } catch (error) {
    if (!(error instanceof Misspelled)) throw error;
    throw new BadInput(`${name}: misspelled at line ${place}`);
  }
}
