// The horizontal axis: OS monotonic time, with room for the ops that are done while it stands still.
//
// Between two readings time is to one scale. A reading after which ops were done has a band, in which no time passes and
// each op has a place. Where the clocks run evenly for much longer than all else takes, that stretch is cut.

import {course, monoAt} from "./course.mjs";
import {MILLISECOND} from "./replay.mjs";
import {greater, lesser, order, ratio} from "./whole.mjs";

const SLOT = 18;
const WIDE_SLOT = 40;
const BANDS = 0.68;
const CUT = 64;
/** A piece is cut where it is longer than five halves of all else. */
const CUT_AT = [5n, 2n];
const GAP = 24;
const SMALL = 60;

/** How many items of a sorted list come before one that `isBehind` tells of. */
function before(items, isBehind) {
  let [low, high] = [0, items.length];
  while (low < high) {
    const middle = (low + high) >> 1;
    if (isBehind(items[middle])) high = middle;
    else low = middle + 1;
  }
  return low;
}

/** A piece of the axis on which time is to one scale, by its ends in nanoseconds; `kind` is `time`, `cut` or `gap`. */
const pieceOf = (start, end, kind) => ({start, end, kind, length: end - start, width: 0});

const total = (lengths) => lengths.reduce((sum, it) => sum + it, 0n);

/** Where everything of a run stands from left to right. */
export class Axis {
  constructor(run, left, width) {
    this.run = run;
    [this.left, this.right] = [left, left + width];
    this.stretches = course(run);
    this.nows = run.readings.map((it) => it.now);
    const counts = this.counts();
    const count = counts.reduce((sum, it) => sum + it, 0);
    this.isSmall = count <= SMALL && counts.length <= SMALL;
    this.tail = this.tailOf();
    this.pieces = run.readings.map((_, number) => this.piecesOf(number));
    this.isStill = this.pieces.every((row) => row.every((it) => it.length === 0n));
    this.cut();
    this.slot = this.slotOf(count, width);
    const bands = counts.map((it) => (it && this.slot ? (it + 0.6) * this.slot : 0));
    this.widen(width - bands.reduce((sum, it) => sum + it, 0));
    this.lay(bands);
    if (this.isStill && this.isSmall) this.right = Math.min(this.right, Math.max(this.end, left + width / 3));
    this.ops = this.places();
  }

  /** Whether an op took the reading at which it stands, and so has no place in its band. */
  isReading(place) {
    return this.run.readings[this.run.current[place]].place === place;
  }

  /** How many ops have a place in the band of each reading. */
  counts() {
    const counts = this.run.readings.map(() => 0);
    this.run.current.forEach((number, place) => {
      if (!this.isReading(place)) counts[number]++;
    });
    return counts;
  }

  /** The Erlang monotonic time at which a timer is due. */
  deadlineTime(timer) {
    return this.run.settings.start + timer.deadline * MILLISECOND;
  }

  /** How far beyond the last reading the axis goes, for deadlines to come. */
  tailOf() {
    const {readings, timers} = this.run;
    const last = readings.at(-1);
    const latest = timers.map((it) => this.deadlineTime(it)).reduce((a, b) => greater(a, b), last.now);
    const [tail, span] = [latest - last.now, last.mono - readings[0].mono];
    return span ? lesser(tail, span) : tail;
  }

  piecesOf(number) {
    const {readings, timers} = this.run;
    const start = readings[number].mono;
    const isLast = number === readings.length - 1;
    const end = isLast ? start + this.tail : readings[number + 1].mono;
    const knots = new Set([start, end]);
    if (this.isSmall && !isLast) {
      const monos = timers.map((it) => monoAt(this.stretches[number], this.deadlineTime(it)));
      for (const it of [...monos, ...this.stretches[number].map(([mono]) => mono)]) if (it !== null) knots.add(it);
    }
    const sorted = [...knots].sort(order);
    const made = sorted.slice(1).map((it, at) => pieceOf(sorted[at], it, "time"));
    return made.length || isLast ? made : [pieceOf(start, end, "gap")];
  }

  isEven(number) {
    if (number === this.stretches.length) return true;
    const [start, end] = [this.stretches[number][0], this.stretches[number].at(-1)];
    return end[3] - start[3] === end[0] - start[0];
  }

  /** Cuts even pieces that are longer than two and a half times all else. */
  cut() {
    const all = this.pieces.flatMap((row, number) => row.map((piece) => ({piece, number})));
    all.sort((a, b) => order(b.piece.length, a.piece.length) || a.number - b.number);
    let sum = total(all.map(({piece}) => piece.length));
    for (const {piece, number} of all) {
      const rest = sum - piece.length;
      if (!rest || piece.length * CUT_AT[1] <= rest * CUT_AT[0] || !this.isEven(number)) return;
      piece.kind = "cut";
      sum = rest;
    }
  }

  slotOf(count, width) {
    if (!this.isSmall || !count) return 0;
    return Math.min(this.isStill ? WIDE_SLOT : SLOT, (BANDS * width) / (count + 0.6 * Math.min(count, this.pieces.length)));
  }

  /** Gives each piece its width, and none less than can be seen where there are few. */
  widen(room) {
    const ends = new Set(this.pieces.slice(0, -1).flatMap((row) => row.slice(-1).map((it) => it.end)));
    const least = this.isSmall ? Math.min(GAP, (0.5 * room) / this.pieces.length) : 0;
    const leastOf = (piece) => (ends.has(piece.end) ? least : least / 4);
    const rows = this.pieces.flat();
    let fixed = 0;
    for (const piece of rows.filter((it) => it.kind !== "time")) {
      piece.width = piece.kind === "cut" ? CUT : least;
      fixed += piece.width;
    }
    let free = rows.filter((it) => it.kind === "time");
    while (free.length) {
      const scale = Math.max(0, room - fixed) / Number(total(free.map((it) => it.length)));
      const small = free.filter((it) => Number(it.length) * scale < leastOf(it));
      if (!small.length) {
        for (const piece of free) piece.width = Number(piece.length) * scale;
        return;
      }
      for (const piece of small) {
        [piece.kind, piece.width] = ["gap", leastOf(piece)];
        fixed += piece.width;
      }
      free = free.filter((it) => it.kind === "time");
    }
  }

  /** Puts bands and pieces side by side. */
  lay(bands) {
    let x = this.left;
    [this.lefts, this.rights, this.knots] = [[], [], []];
    this.pieces.forEach((row, number) => {
      this.lefts.push(x);
      x += bands[number];
      this.rights.push(x);
      const knots = {monos: [this.run.readings[number].mono], xs: [x]};
      for (const piece of row) {
        x += piece.width;
        knots.monos.push(piece.end);
        knots.xs.push(x);
      }
      this.knots.push(knots);
    });
    this.end = x;
  }

  /** Where each op stands. */
  places() {
    const done = this.lefts.map(() => 0);
    return this.run.current.map((number, place) => {
      if (!this.isReading(place)) done[number]++;
      return this.isReading(place) ? this.lefts[number] : this.lefts[number] + done[number] * this.slot;
    });
  }

  /** Where a moment of the stretch after a reading stands. */
  at(number, mono) {
    const {monos, xs} = this.knots[number];
    const place = before(monos, (it) => it > mono) - 1;
    if (place < 0) return xs[0];
    if (place >= monos.length - 1) return xs.at(-1);
    const share = ratio(mono - monos[place], monos[place + 1] - monos[place]);
    return xs[place] + (xs[place + 1] - xs[place]) * share;
  }

  /** Where Erlang monotonic time comes to a timer's deadline, and whether that is on the axis. */
  deadline(timer) {
    const time = this.deadlineTime(timer);
    const number = before(this.nows, (it) => it >= time);
    if (number === 0) return {x: this.lefts[0], isInSight: true};
    if (number < this.nows.length) {
      const mono = monoAt(this.stretches[number - 1], time);
      return {x: mono === null ? this.lefts[number] : this.at(number - 1, mono), isInSight: true};
    }
    const [ahead, last] = [time - this.nows.at(-1), this.nows.length - 1];
    return {x: this.at(last, this.run.readings[last].mono + ahead), isInSight: ahead <= this.tail};
  }
}
