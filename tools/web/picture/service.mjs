// The state of the service after a legal history, as `docs/MODEL.md` describes it ("The state").

import {MILLISECOND, up} from "./replay.mjs";
import {floor, greater, order, size} from "./whole.mjs";
import {isSame, plain} from "./written.mjs";

const MINUTE = 60_000_000_000n;
/** How many uses a slot has in a round, and the least generation of a later round. */
export const USES_OF_ROUND = 262_143n;
export const LATER = 1n << 43n;

/** An entry that no legal history has: what it names isn't there. */
export class Missing extends Error {}

/** What a map has for a key. */
function known(map, key) {
  if (!map.has(key)) throw new Missing();
  return map.get(key);
}

/** Puts an item behind those of a key. */
function put(map, key, item) {
  if (map.has(key)) map.get(key).push(item);
  else map.set(key, [item]);
}

/** Takes the first item of a key. */
function taken(map, key) {
  const queue = known(map, key);
  if (!queue.length) throw new Missing();
  return queue.shift();
}

/** Which use of its round a generation is. */
const useOf = (generation) => (generation < LATER ? generation : generation / LATER);

/** The uses of a slot: the last generation, since when its round may have timers, and one above all deadlines. */
export class Uses {
  constructor(last = 0n, since = 0n, above = 0n) {
    Object.assign(this, {last, since, above});
  }

  /** These uses, or those of the next round where this one has had all of its own. */
  turned() {
    return useOf(this.last) < USES_OF_ROUND ? this : new Uses(0n, this.above, this.above);
  }

  /** The next generation and its deadline, in milliseconds after the start time. */
  next(now, wanted) {
    const turned = this.turned();
    const count = useOf(turned.last) + 1n;
    if (turned.since === 0n) return {generation: count, deadline: wanted};
    const deadline = greater(now, wanted);
    return {generation: count * LATER + deadline, deadline};
  }
}

/** The scheduler of an actor `s0`, `s1`, .. */
const schedulerOf = (actor) => BigInt(actor.slice(1));

/** The service after some legal entries. Timers and slots are known by their names, as they are written. */
export class State {
  constructor(history) {
    this.history = history;
    const [mono, sys] = history.first;
    this.time = history.start;
    this.offset = sys - history.start;
    this.offsetState = {no: "final", single: "preliminary", multi: "volatile"}[history.mode];
    this.base = {time: history.start, mono, sys, rate: 0n};
    this.mono = mono;
    this.due = null;
    this.exited = new Set();
    for (const name of ["looks", "rows", "uses", "waiting", "inbox", "hand", "result", "mail", "monitors", "nextMonitor"]) this[name] = new Map();
  }

  /** The last look of an actor, in nanoseconds after the start time. */
  look(actor) {
    return (this.looks.get(actor) ?? this.history.start) - this.history.start;
  }

  /** What is known of a timer; undefined where it was never armed. */
  row(timer) {
    return this.rows.get(plain(timer));
  }

  /** What is left of a timer for an actor, in milliseconds; null where it isn't armed. */
  left(actor, timer) {
    const row = this.row(timer);
    return row?.status === "armed" ? greater(0n, row.deadline - up(this.look(actor))) : null;
  }

  /** The deadline of an arm. */
  deadline(entry) {
    const [when, amount] = entry.fields[1];
    return when === "after" ? up(this.look(entry.by)) + amount : amount - this.history.start / MILLISECOND;
  }

  /** The time that the clock makes of a reading. */
  timeAfter(mono, sys) {
    if (!this.history.correction) return greater(this.time, sys - this.offset);
    const passed = greater(this.mono, mono) - this.base.mono;
    return this.base.time + passed + floor(passed * this.base.rate, 1_000_000n);
  }

  /** Whether a tick is a check. */
  isCheck(mono, sys, act) {
    const passed = this.history.correction ? greater(this.mono, mono) - this.base.mono : size(sys - this.base.sys);
    return act === "force" || (act === "plain" && passed >= MINUTE);
  }

  /** The shift that is due after a tick, as an offset and its state; null where none is. */
  dueAfter(mono, sys, act, now) {
    if (act === "finalize") return [sys - now, "final"];
    const moves = this.offsetState === "volatile" && this.isCheck(mono, sys, act);
    return moves && size(sys - now - this.offset) > MILLISECOND ? [sys - now, "volatile"] : null;
  }

  /** The uses of a slot. */
  usesOf(scheduler, slot) {
    return this.uses.get(`${scheduler} ${slot}`) ?? new Uses();
  }

  /** The armed timer of a scheduler that is due first: by its deadline, and then by when it was armed. */
  ahead(scheduler) {
    const rows = [...this.rows.values()].filter((it) => it.timer[0] === scheduler && it.status === "armed");
    return rows.sort((a, b) => order(a.deadline, b.deadline) || a.armed - b.armed)[0];
  }

  /** The state after a legal entry, which stands at a line. */
  move(entry, line) {
    MOVES[entry.event]?.(this, entry, line);
  }

  /** A timer gets another status. */
  settle(timer, status, entry, line) {
    const row = known(this.rows, plain(timer));
    row.status = status;
    if (!row.settled) Object.assign(row, {settled: line, settledBy: entry.by});
  }
}

/** What each event does to the state; an event that does nothing isn't here. */
const MOVES = {
  tick(state, {fields: [mono, sys, act, now]}) {
    state.due = state.dueAfter(mono, sys, act, now);
    const isBase = act === "finalize" || state.isCheck(mono, sys, act);
    [state.mono, state.time] = [greater(state.mono, mono), now];
    if (!isBase) return;
    const error = state.offsetState === "final" && act !== "finalize" ? sys - now - state.offset : 0n;
    const rate = size(error) > 100n * MILLISECOND ? 10_000n : size(error) > MILLISECOND ? 500n : 0n;
    state.base = {time: now, mono: state.mono, sys, rate: error > 0n ? rate : -rate};
  },

  shift(state, {fields}) {
    [state.offset, state.offsetState] = fields;
    state.due = null;
  },

  look(state, {by, fields}) {
    state.looks.set(by, fields[0]);
  },

  arm(state, entry, line) {
    const [timer, [, , process, message, kind]] = entry.fields;
    const uses = state.usesOf(timer[0], timer[1]);
    const {generation, deadline} = uses.next(state.look(entry.by) / MILLISECOND, state.deadline(entry));
    state.rows.set(plain(timer), {timer, deadline, process, message, kind, armed: line, status: "armed", settled: 0, settledBy: ""});
    state.uses.set(`${timer[0]} ${timer[1]}`, new Uses(generation, uses.turned().since, greater(uses.above, deadline + 1n)));
  },

  /** A scheduler's look at the timer of the request in its hand is kept. */
  peek(state, {by, fields: [timer, left]}) {
    if (by[0] !== "s") return;
    const hand = state.hand.get(schedulerOf(by));
    if (hand && isSame(hand[1], timer)) state.result.set(schedulerOf(by), left);
  },

  cancel(state, entry, line) {
    MOVES.peek(state, entry);
    if (state.left(entry.by, entry.fields[0]) !== null) state.settle(entry.fields[0], "cancelled", entry, line);
  },

  expire(state, entry, line) {
    const [timer] = entry.fields;
    state.settle(timer, "expired", entry, line);
    put(state.waiting, timer[0], timer);
  },

  orphan(state, entry, line) {
    state.settle(entry.fields[0], "orphaned", entry, line);
  },

  deliver(state, entry, line) {
    const [timer] = entry.fields;
    const row = known(state.rows, plain(timer));
    taken(state.waiting, timer[0]);
    state.settle(timer, "delivered", entry, line);
    put(state.mail, row.process, row.kind === "wrapped" ? ["timeout", timer, row.message] : ["bare", row.message]);
  },

  drop(state, entry, line) {
    taken(state.waiting, entry.fields[0][0]);
    state.settle(entry.fields[0], "dropped", entry, line);
  },

  mark(state, {fields: [process, exits]}) {
    if (exits) state.exited.add(process);
  },

  ask(state, {fields: [scheduler, request]}) {
    put(state.inbox, scheduler, request);
  },

  pick(state, {fields: [scheduler, got]}) {
    state.result.delete(scheduler);
    if (got !== null) state.hand.set(scheduler, taken(state.inbox, scheduler));
  },

  answer(state, {fields: [scheduler, left]}) {
    const [kind, timer, process, isWanted] = known(state.hand, scheduler);
    state.hand.delete(scheduler);
    if (isWanted) put(state.mail, process, [`${kind}_done`, timer, left]);
  },

  take(state, {fields: [process, message]}) {
    if (message !== null) taken(state.mail, process);
  },

  unwatch(state, {fields: [process, monitor]}) {
    state.monitors.get(process)?.delete(monitor);
  },

  watch(state, {fields: [process, monitor, offset]}) {
    if (!state.monitors.has(process)) state.monitors.set(process, new Map());
    state.monitors.get(process).set(monitor, offset);
    state.nextMonitor.set(process, monitor + 1n);
  },

  tell(state, {fields: [process, offset]}) {
    const stand = [...(state.monitors.get(process) ?? [])].sort((a, b) => order(a[0], b[0]));
    for (const [monitor, told] of stand.filter((it) => it[1] !== offset)) {
      put(state.mail, process, ["change", monitor, offset]);
      state.monitors.get(process).set(monitor, offset);
    }
  },
};
