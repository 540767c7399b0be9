// One tab: a text, what the program says of it, and the picture.

import {failed} from "./answers.mjs";
import {Editor} from "./editor.mjs";
import {MOST} from "./link.mjs";
import {Picture} from "./picture.mjs";
import {size} from "./text.mjs";
import {fixed} from "./times.mjs";

/** Milliseconds without a key after which a text is judged. */
const PAUSE = 200;

export class Tab extends EventTarget {
  /**
   * Tells `answer` with what came of a text. `kind` is that of the text: its place in the page, and its program. `page` has
   * what the tabs share: `runner` makes what runs the programs, `sheets` are the styles of pictures, `tell` shows a note.
   */
  constructor(kind, shelf, help, page) {
    super();
    this.kind = kind;
    this.tell = page.tell;
    this.runner = page.runner();
    this.place = document.getElementById(kind);
    this.said = this.find(".said");
    this.shelf = shelf;
    this.editor = new Editor(this.place, help);
    this.picture = new Picture(this.find(".picture"), page.sheets);
    this.answer = null;
    this.asked = 0;
    this.here = -1;
    this.editor.addEventListener("change", () => this.changed(PAUSE));
    this.editor.addEventListener("move", () => this.moved());
    this.editor.addEventListener("long", () => this.tell(`A text has ${MOST.toLocaleString("en")} bytes at most`));
    this.picture.addEventListener("choose", ({detail}) => this.choose(detail, "picture"));
    this.said.addEventListener("click", () => this.goToFault());
    this.fill();
  }

  find(selector) {
    return this.place.querySelector(selector);
  }

  /** Fills the list of examples. */
  fill() {
    const list = this.find(".shelf");
    list.append(new Option("of your own", ""));
    const groups = new Map();
    this.shelf.forEach(({name, section, caption}, number) => {
      if (!groups.has(section)) {
        groups.set(section, document.createElement("optgroup"));
        groups.get(section).label = section;
        list.append(groups.get(section));
      }
      groups.get(section).append(new Option(caption ? `${name}: ${caption}` : name, number));
    });
    list.addEventListener("change", () => list.value && this.exchange(this.shelf[Number(list.value)].text, true));
  }

  /** Another text, by a button: it is judged at once. */
  become(text) {
    this.editor.become(text);
    this.changed(0);
  }

  /** Another text, as a whole; undo takes that back where it is wanted. */
  exchange(text, isUndone) {
    if (isUndone) this.editor.become(text);
    else this.editor.open(text);
    this.changed(0);
  }

  changed(pause) {
    const {text} = this.editor;
    const number = this.shelf.findIndex((it) => it.text === text);
    this.find(".shelf").value = number < 0 ? "" : `${number}`;
    this.place.ariaBusy = "true";
    this.read(text);
    clearTimeout(this.timer);
    this.timer = setTimeout(() => this.judge(text), pause);
  }

  /** Has a text judged, unless another one comes meanwhile. */
  async judge(text) {
    const number = ++this.asked;
    if (this.editor.isLong || size(text) > MOST) {
      this.take(failed(`The text is longer than ${MOST.toLocaleString("en")} bytes.`));
      return;
    }
    const found = await this.runner.answer(this.kind, text);
    if (found && number === this.asked) this.take(found.answer);
  }

  /** Shows what came of a text. */
  take(answer) {
    this.answer = answer;
    const isFault = answer.fault !== null || answer.outcome === "failed";
    this.said.textContent = this.told(answer);
    this.said.className = `said ${isFault ? "bad" : "good"}`;
    this.editor.setFault(answer.fault);
    const hasPicture = answer.picture !== undefined;
    if (hasPicture) this.picture.show(answer);
    this.place.classList.toggle("old", !hasPicture && this.picture.svg !== null);
    this.find(".stale").hidden = hasPicture || !this.picture.svg;
    this.show(answer);
    this.choose(this.here, "answer");
    this.place.ariaBusy = "false";
    this.dispatchEvent(new Event("answer"));
  }

  /** What is said of an answer. */
  told({outcome, fault, message, lines}) {
    if (fault) return `line ${fault.line}${fault.column === null ? "" : `, column ${fault.column}`}: ${fault.message}`;
    return message || this.summary(outcome, lines);
  }

  /** The cursor moved. */
  moved() {
    this.choose(this.numberAt(this.editor.area.selectionStart), "text");
    this.explain(this.editor.told);
  }

  /** Marks an op or an entry in the text, the picture and the transcript, but where it was chosen. */
  choose(number, by) {
    this.here = number;
    const part = this.part(number);
    this.editor.setHere(part, by !== "text" && by !== "answer");
    this.picture.mark(number, by !== "picture" && by !== "answer");
    this.chosen(number);
  }

  goToFault() {
    const {fault} = this.answer ?? {};
    if (fault) this.editor.go(this.editor.lines.offset(fault.line, fault.column));
    else this.editor.area.focus();
  }

  /** Tells about what is at the cursor. */
  explain(told) {
    if (!told) return;
    const title = document.createElement("p");
    title.append(...titled(told));
    const description = document.createElement("p");
    description.textContent = fixed(told.description ?? "");
    this.find(".help").replaceChildren(title, description);
  }
}

/** A title as code; that of an op with the argument at the cursor in bold. */
function titled({title, part}) {
  const code = document.createElement("code");
  const words = /^\[.*\]$/.test(title ?? "") ? title.slice(1, -1).split(", ") : null;
  if (!words || part < 0) {
    code.textContent = title ?? "";
    return [code];
  }
  words.forEach((word, number) => {
    const shown = document.createElement(number === part ? "b" : "span");
    shown.textContent = word;
    code.append(number ? ", " : "[", shown);
  });
  code.append("]");
  return [code];
}
