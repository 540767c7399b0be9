// The tab in which a scenario is written and run.

import {field, length, tidied, withField, withFormat, withLeap, withTimer} from "./edits.mjs";
import {List} from "./lines.mjs";
import {opAt, scan} from "./scan.mjs";
import {Tab} from "./tab.mjs";
import {nanoseconds, seconds} from "./times.mjs";

/** How many steps the slider of the point has. */
const STEPS = 1000;

export class ScenarioTab extends Tab {
  constructor(shelf, help, page) {
    super("scenario", shelf, help, page);
    this.point = null;
    this.list = new List(this.find(".lines"), (number, goes) => this.picked(number, goes));
    this.explain(help.of("", {stack: []}, 0));
    this.buttons();
    this.points();
  }

  /** The controls that change a setting or the form of the text. */
  buttons() {
    const on = (selector, event, act) => this.find(selector).addEventListener(event, (it) => act(it.target));
    on(".mode", "change", ({value}) => this.edit((text) => withField(text, "mode", `"${value}"`)));
    on(".correction", "change", ({checked}) => this.edit((text) => withField(text, "correction", `${checked}`)));
    on(".version", "change", ({value}) => this.edit((text) => withFormat(text, value)));
    on(".format", "click", () => {
      const text = tidied(this.editor.text);
      if (text === null) this.tell("The text isn't JSON yet");
      else this.become(text);
    });
  }

  /** The controls of the point, and what is done there. */
  points() {
    const on = (selector, event, act) => this.find(selector).addEventListener(event, act);
    this.picture.addEventListener("point", ({detail}) => this.setPoint(detail));
    this.picture.addEventListener("length", ({detail}) => this.picture.say(`${length(detail.from, detail.to)} ms`));
    this.picture.addEventListener("drag", ({detail}) => this.start(detail.from, length(detail.from, detail.to)));
    on(".slide", "input", ({target}) => {
      if (!this.picture.hasAxis) return;
      const [low, high] = this.picture.ends;
      this.setPoint(this.picture.at(low + ((high - low) * Number(target.value)) / STEPS));
    });
    on(".at", "change", () => this.typed());
    on(".leap", "click", () => this.leap());
    on(".start", "click", () => this.startAtPoint());
    this.find(".by").addEventListener("keydown", ({key}) => key === "Enter" && this.leap());
    this.find(".of").addEventListener("keydown", ({key}) => key === "Enter" && this.startAtPoint());
    on(".act", "submit", (event) => event.preventDefault());
  }

  /** Changes the text by a function of it. */
  edit(change) {
    this.become(change(this.editor.text));
  }

  /** Takes an edit with the op that it put into the text. */
  put(edit) {
    if (!edit) {
      this.tell("The text has no first reading or no ops, or the point lies before the first reading");
      return;
    }
    this.become(edit.text);
    this.choose(edit.op, "button");
  }

  setPoint(point) {
    this.point = point;
    this.picture.setPoint(point.x);
    const [low, high] = this.picture.ends;
    const slide = this.find(".slide");
    slide.value = Math.round(((point.x - low) / (high - low || 1)) * STEPS);
    slide.setAttribute("aria-valuetext", `${seconds(point.mono)} seconds`);
    this.find(".at").value = seconds(point.mono);
  }

  /** The point is at the time that was typed: behind what is done then. */
  typed() {
    const mono = nanoseconds(this.find(".at").value);
    if (!this.point) return;
    if (mono === null || !this.picture.isFrom(mono)) {
      this.tell("The point is a time from the first reading on, in seconds");
      this.setPoint(this.point);
    } else {
      this.setPoint({x: this.picture.placeOf(mono), mono, index: Infinity});
    }
  }

  leap() {
    const amount = nanoseconds(this.find(".by").value);
    if (amount === null) this.tell("A leap is a number of seconds, such as -10 or 0.5");
    else if (this.point) this.put(withLeap(this.editor.text, this.point, amount));
  }

  startAtPoint() {
    const {value} = this.find(".of");
    if (!/^\d{1,13}$/.test(value)) this.tell("A timer takes a whole number of milliseconds");
    else if (this.point) this.start(this.point, Math.max(1, Number(value)));
  }

  start(point, time) {
    this.put(withTimer(this.editor.text, point, time));
  }

  /** Another text, as a whole: the point of the one before says nothing in it. */
  exchange(text, isUndone) {
    this.point = null;
    super.exchange(text, isUndone);
  }

  /** Takes what the text says into the controls. */
  read(text) {
    this.found = scan(text);
    const say = (name, absent) => field(text, this.found, name) ?? absent;
    this.find(".mode").value = say("mode", '"no"').replaceAll('"', "");
    this.find(".correction").checked = say("correction", "true") === "true";
    this.find(".version").value = say("format", "");
  }

  /** Shows the transcript, and keeps the point. */
  show({lines, outcome, picture}) {
    const isRun = outcome === "ran";
    if (isRun || lines.length) {
      const label = (number) => (isRun && number < lines.length - 1 ? number + 1 : "");
      this.list.show(lines.map((text, number) => ({text, label: label(number), css: isRun ? "" : "bad", isOff: label(number) === ""})));
    }
    if (picture === undefined || !this.picture.hasAxis) return;
    const [low, high] = this.picture.ends;
    if (this.point && this.picture.isFrom(this.point.mono)) this.setPoint({...this.point, x: this.picture.placeOf(this.point.mono)});
    else this.setPoint(this.picture.at((low + high) / 2));
  }

  summary(outcome, lines) {
    const count = lines.length - 1;
    return `ran: ${count} ${count === 1 ? "op" : "ops"}, and monotonic time is ${seconds(BigInt(lines.at(-1).split(" ")[1]))} s at the end`;
  }

  /** Where an op stands. */
  part(number) {
    return this.found?.ops[number] ?? null;
  }

  numberAt(offset) {
    return opAt(this.found.ops, this.editor.lines, offset);
  }

  /** A line of the transcript was chosen. */
  picked(number, goes) {
    this.choose(number, "transcript");
    const part = this.part(number);
    if (goes && part) this.editor.go(part.start, part.end);
  }

  chosen(number) {
    this.list?.mark(number);
  }
}
