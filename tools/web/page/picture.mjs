// The picture that the program's transcript makes: what of it is an op, and which time a place is.

import {last} from "./text.mjs";

const SPACE = "http://www.w3.org/2000/svg";
/** A move by fewer pixels is a click. */
const DRAG = 6;
/** To about how many pixels a time is rounded. */
const ROUND = 4;

/** An SVG element. */
function drawn(tag, css, attributes) {
  const element = document.createElementNS(SPACE, tag);
  element.setAttribute("class", css);
  for (const [name, value] of Object.entries(attributes)) element.setAttribute(name, value);
  return element;
}

/** A number of nanoseconds, rounded down to 1, 2 or 5 times a power of ten. */
function step(most) {
  let power = 1n;
  while (power * 10n <= most) power *= 10n;
  return [5n, 2n, 1n].find((it) => it * power <= most) * power || 1n;
}

export class Picture extends EventTarget {
  /** Tells `choose` with the number of an op, `point` with a place, and `drag` with two. `sheets` are its styles. */
  constructor(host, sheets) {
    super();
    this.host = host;
    this.root = host.attachShadow({mode: "open"});
    this.root.adoptedStyleSheets = sheets;
    this.svg = null;
    this.places = [];
    this.axis = [];
    this.from = null;
    this.root.addEventListener("pointerdown", (event) => this.down(event));
    this.root.addEventListener("pointermove", (event) => this.move(event));
    this.root.addEventListener("pointerup", (event) => this.up(event));
    document.addEventListener("keydown", (event) => event.key === "Escape" && this.drop());
  }

  /** Shows the picture of an answer. */
  show({picture, places, axis}) {
    const read = new DOMParser().parseFromString(picture, "image/svg+xml").documentElement;
    const svg = document.importNode(read, true);
    if (this.svg) this.svg.replaceWith(svg);
    else this.root.append(svg);
    this.svg = svg;
    this.places = places;
    this.axis = axis;
    this.height = svg.viewBox.baseVal.height;
    this.pointLine = drawn("line", "point", {y1: 56, y2: this.height - 12});
    this.hereLine = drawn("line", "here", {y1: 56, y2: this.height - 12});
    this.knob = drawn("path", "knob", {});
    this.drop();
  }

  /** Whether a place of the axis is known. */
  get hasAxis() {
    return this.axis.length > 0;
  }

  /** Marks an op, or none. */
  mark(number, isShown) {
    if (!this.svg) return;
    for (const it of this.svg.querySelectorAll(".chosen")) it.classList.remove("chosen");
    this.hereLine.remove();
    if (number < 0 || number >= this.places.length) return;
    for (const it of this.svg.querySelectorAll(`[data-op="${number}"]`)) it.classList.add("chosen");
    this.stand(this.hereLine, this.places[number]);
    if (isShown) this.reveal(this.places[number]);
  }

  /** Marks the point, or none. */
  setPoint(x) {
    if (!this.svg) return;
    this.pointLine.remove();
    this.knob.remove();
    if (x === null) return;
    this.stand(this.pointLine, x);
    this.knob.setAttribute("d", `M${x - 5} 50H${x + 5}L${x} 58Z`);
    this.svg.append(this.knob);
  }

  stand(line, x) {
    line.setAttribute("x1", x);
    line.setAttribute("x2", x);
    this.svg.append(line);
  }

  /** Scrolls to a place. */
  reveal(x) {
    const box = this.svg.getBoundingClientRect();
    const at = (x / this.svg.viewBox.baseVal.width) * box.width;
    const {scrollLeft: left, clientWidth: width} = this.host;
    if (at < left + 20 || at > left + width - 20) this.host.scrollLeft = at - width / 2;
  }

  /** The point at a place: the OS monotonic time there, rounded to what can be seen, and how many ops stand before it. */
  at(x) {
    const {axis} = this;
    const number = Math.min(Math.max(last(axis, x, (it) => it.x), 0), axis.length - 1);
    const [a, b] = [axis[number], axis[number + 1]];
    return {x: Math.max(x, axis[0].x), mono: b && x > a.x ? this.between(a, b, x) : a.mono, index: last(this.places, x) + 1};
  }

  between(a, b, x) {
    const width = BigInt(Math.max(1, Math.round((b.x - a.x) * 100)));
    const length = b.mono - a.mono;
    const exact = a.mono + (length * BigInt(Math.round((x - a.x) * 100))) / width;
    const by = step((length * BigInt(ROUND) * 100n) / width || 1n);
    const round = ((exact + by / 2n) / by) * by;
    return round < a.mono ? a.mono : round > b.mono ? b.mono : round;
  }

  /** The place of a time: behind the ops that are done at it. */
  placeOf(mono) {
    const {axis} = this;
    const number = last(axis, mono, (it) => it.mono);
    const [a, b] = [axis[Math.max(number, 0)], axis[number + 1]];
    if (number < 0 || !b || mono === a.mono) return a.x;
    return a.x + (b.x - a.x) * (Number(mono - a.mono) / Number(b.mono - a.mono));
  }

  /** Whether a time isn't before the axis. */
  isFrom(mono) {
    return this.axis[0].mono <= mono;
  }

  /** Where the axis begins and ends. */
  get ends() {
    return [this.axis[0].x, this.axis.at(-1).x];
  }

  /** Where in the picture the pointer is, within the axis. */
  x(event) {
    const box = this.svg.getBoundingClientRect();
    const x = ((event.clientX - box.left) / box.width) * this.svg.viewBox.baseVal.width;
    return this.hasAxis ? Math.min(Math.max(x, this.ends[0]), this.ends[1]) : x;
  }

  tell(name, detail) {
    this.dispatchEvent(new CustomEvent(name, {detail}));
  }

  down(event) {
    if (!this.svg || event.button !== 0) return;
    this.from = {x: this.x(event), op: event.target.closest?.("[data-op]"), isFinger: event.pointerType === "touch"};
  }

  move(event) {
    if (!this.from || !this.hasAxis || this.from.isFinger || !(event.buttons & 1)) return;
    const x = this.x(event);
    if (!this.band && Math.abs(x - this.from.x) < DRAG) return;
    this.svg.setPointerCapture(event.pointerId);
    this.band ??= this.svg.appendChild(drawn("rect", "drag", {y: 60, height: Math.max(10, this.height - 80)}));
    this.words ??= this.svg.appendChild(drawn("text", "length", {y: 74}));
    const [low, high] = [Math.min(x, this.from.x), Math.max(x, this.from.x)];
    this.band.setAttribute("x", low);
    this.band.setAttribute("width", high - low);
    this.words.setAttribute("x", low + 4);
    this.to = {from: this.at(low), to: this.at(high)};
    this.tell("length", this.to);
  }

  /** What is written beside a drag. */
  say(text) {
    if (this.words) this.words.textContent = text;
  }

  up(event) {
    const {from, to} = this;
    this.drop();
    if (!from) return;
    if (to) {
      this.tell("drag", to);
      return;
    }
    const x = this.x(event);
    const op = from.op ? Number(from.op.dataset.op) : this.near(x);
    if (op >= 0) this.tell("choose", op);
    if (this.hasAxis) this.tell("point", this.at(x));
  }

  /** A drag ends without being done. */
  drop() {
    this.band?.remove();
    this.words?.remove();
    this.band = this.words = undefined;
    this.from = this.to = null;
  }

  /** The op that is nearest to a place. */
  near(x) {
    const number = last(this.places, x);
    const isNext = number + 1 < this.places.length && (number < 0 || this.places[number + 1] - x < x - this.places[number]);
    return isNext ? number + 1 : number;
  }
}
