// A text with numbers of lines, marks, and choices at the cursor, over a plain textarea.

import {MOST} from "./link.mjs";
import {Lines, change} from "./text.mjs";

const ROW = 20;
const PAD = 8;
/** Above this many characters a change is made without the browser's undo, which is slow there. */
const MOST_UNDONE = 200_000;

/** An element with a class. */
function made(tag, css, text = "") {
  const element = document.createElement(tag);
  element.className = css;
  element.textContent = text;
  return element;
}

export class Editor extends EventTarget {
  /**
   * Tells `change` where the text changed, `move` where the cursor did, and `long` where one is put in that is too long.
   * `help` tells what can stand at the cursor.
   */
  constructor(place, help) {
    super();
    this.area = place.querySelector("textarea");
    this.gutter = place.querySelector(".gutter");
    this.marks = place.querySelector(".marks");
    this.list = place.querySelector(".choices");
    this.help = help;
    this.fault = null;
    this.here = null;
    this.told = null;
    this.chosen = 0;
    this.lines = new Lines("");
    this.area.addEventListener("input", (event) => this.changed(event));
    this.area.addEventListener("scroll", () => this.draw());
    this.area.addEventListener("keydown", (event) => this.key(event));
    this.area.addEventListener("blur", () => this.close());
    this.area.addEventListener("paste", (event) => this.putIn(event, event.clipboardData));
    this.area.addEventListener("drop", (event) => this.putIn(event, event.dataTransfer));
    document.addEventListener("selectionchange", () => document.activeElement === this.area && this.moved());
    this.list.addEventListener("pointerdown", (event) => this.clicked(event));
    new ResizeObserver(() => this.draw()).observe(this.area);
  }

  /** The text; none of one that is too long to be read. */
  get text() {
    return this.lines.text;
  }

  /** Whether the text is too long to be read. */
  get isLong() {
    return this.area.value.length > MOST;
  }

  /** What is put in: a file becomes the text, and what is too long stays out. */
  async putIn(event, given) {
    const [file] = given.files;
    if (!file && given.getData("text/plain").length <= MOST) return;
    event.preventDefault();
    if (file && file.size <= MOST) this.become(await file.text());
    else this.dispatchEvent(new Event("long"));
  }

  /** Another text, as if it had been opened. */
  open(text) {
    this.area.value = text;
    this.area.setSelectionRange(0, 0);
    this.area.scrollTo(0, 0);
    this.changed(null);
  }

  /** Another text, which the browser's undo takes back. */
  become(text) {
    const part = change(this.text, text);
    if (part.start === part.end && !part.text) return;
    const before = document.activeElement;
    this.area.focus({preventScroll: true});
    this.area.setSelectionRange(part.start, part.end);
    const command = part.text ? "insertText" : "delete";
    const isSmall = part.text.length + part.end - part.start < MOST_UNDONE;
    if (!isSmall || !document.execCommand(command, false, part.text)) {
      this.area.setRangeText(part.text, part.start, part.end, "end");
      this.changed(null);
    }
    if (before !== this.area) before?.focus({preventScroll: true});
  }

  /** Marks the place of a fault, or none; without an end it goes on to the end of what stands there. */
  setFault(fault) {
    this.fault = null;
    if (fault) {
      const start = this.lines.offset(fault.line, fault.column);
      const line = this.lines.at(start);
      const rest = this.text.slice(start, this.lines.end(line));
      const length = fault.column === null ? rest.length : /^(?:"(?:[^"\\]|\\.)*"?|[\w.+-]+|)/.exec(rest)[0].length;
      this.fault = {start, end: start + Math.max(1, length), line};
    }
    this.area.setAttribute("aria-invalid", `${this.fault !== null}`);
    this.draw();
  }

  /** Marks the lines of a part of the text, or none, and brings them into sight where that is wanted. */
  setHere(part, isShown) {
    this.here = part && {from: this.lines.at(part.start), to: this.lines.at(part.end)};
    if (part && isShown) this.reveal(this.here.from);
    this.draw();
  }

  /** Brings a line into sight. */
  reveal(line) {
    const {scrollTop: top, clientHeight: height} = this.area;
    const low = line * ROW;
    if (low < top || low + 2 * ROW > top + height) this.area.scrollTop = low - height / 2;
  }

  /** Puts the cursor to an offset. */
  go(offset, end = offset) {
    this.area.focus({preventScroll: true});
    this.area.setSelectionRange(offset, end);
    this.reveal(this.lines.at(offset));
  }

  changed(event) {
    this.lines = new Lines(this.isLong ? "" : this.area.value);
    this.setFault(null);
    this.setHere(null, false);
    this.dispatchEvent(new Event("change"));
    this.ask(event?.inputType === "insertText" && /^["\w]$/.test(event.data ?? ""), false);
  }

  moved() {
    this.ask(!this.list.hidden, false);
    this.dispatchEvent(new Event("move"));
  }

  /** Asks what can stand at the cursor, and shows it where it is wanted: within a word, or anywhere by the key for that. */
  ask(isWanted, isAnywhere) {
    const {selectionStart: start, selectionEnd: end} = this.area;
    this.told = start === end ? this.help.at(this.text, start) : null;
    if (isWanted && this.told?.choices.length && (isAnywhere || this.told.isTyping)) this.show();
    else this.close();
  }

  /** Shows the choices at the cursor. */
  show() {
    const line = this.lines.at(this.told.from);
    const column = this.told.from - this.lines.start(line);
    this.chosen = 0;
    this.list.replaceChildren(
      ...this.told.choices.map(({label, detail}, number) => {
        const row = made("li", "", detail ? `${label}  \u2014 ${detail}` : label);
        row.id = `${this.list.id}-${number}`;
        row.role = "option";
        row.dataset.number = number;
        return row;
      }),
    );
    this.list.hidden = false;
    const left = this.gutter.offsetWidth + PAD + column * this.width() - this.area.scrollLeft;
    const top = PAD + (line + 1) * ROW - this.area.scrollTop;
    const room = this.area.parentElement.parentElement.getBoundingClientRect();
    const most = Math.max(0, room.width - this.list.offsetWidth - 4);
    this.list.style.left = `${Math.min(Math.max(left, 0), most)}px`;
    const isBelow = room.top + top + this.list.offsetHeight < window.innerHeight || top < this.list.offsetHeight + ROW;
    this.list.style.top = `${isBelow ? top : top - ROW - this.list.offsetHeight}px`;
    this.mark(0);
  }

  close() {
    this.list.hidden = true;
    this.area.removeAttribute("aria-activedescendant");
    this.area.removeAttribute("aria-controls");
  }

  mark(number) {
    this.chosen = number;
    [...this.list.children].forEach((row, at) => (row.ariaSelected = `${at === number}`));
    this.list.children[number]?.scrollIntoView({block: "nearest"});
    this.area.setAttribute("aria-controls", this.list.id);
    this.area.setAttribute("aria-activedescendant", `${this.list.id}-${number}`);
  }

  /** Writes a choice in the place of what stands there. */
  take(number) {
    const {from, to, choices} = this.told;
    this.area.setSelectionRange(from, to);
    if (!document.execCommand("insertText", false, choices[number].text)) {
      this.area.setRangeText(choices[number].text, from, to, "end");
      this.changed(null);
    }
    this.close();
  }

  clicked(event) {
    event.preventDefault();
    const row = event.target.closest("li");
    if (row) this.take(Number(row.dataset.number));
  }

  key(event) {
    if (event.key === " " && event.ctrlKey) {
      event.preventDefault();
      return this.ask(true, true);
    }
    if (this.list.hidden) return undefined;
    const count = this.told.choices.length;
    if (event.key === "ArrowDown") this.mark((this.chosen + 1) % count);
    else if (event.key === "ArrowUp") this.mark((this.chosen + count - 1) % count);
    else if (event.key === "Enter" || event.key === "Tab") this.take(this.chosen);
    else if (event.key === "Escape") this.close();
    else return undefined;
    return event.preventDefault();
  }

  /** How wide a character is. */
  width() {
    const probe = made("span", "", "0".repeat(100));
    this.marks.append(probe);
    const {width} = probe.getBoundingClientRect();
    probe.remove();
    return width / 100;
  }

  /** Draws the numbers of the lines in sight, and the marks. */
  draw() {
    const {scrollTop: top, scrollLeft: left, clientHeight: height} = this.area;
    const first = Math.floor(top / ROW);
    const after = Math.min(this.lines.count, Math.ceil((top + height) / ROW) + 1);
    const numbers = [];
    for (let line = first; line < after; line++) {
      const number = made("span", this.fault?.line === line ? "bad" : "", `${line + 1}`);
      number.style.top = `${PAD + line * ROW - top}px`;
      numbers.push(number);
    }
    this.gutter.replaceChildren(...numbers);
    const rows = [];
    for (let line = Math.max(first, this.here?.from ?? 0); this.here && line <= Math.min(after, this.here.to); line++) {
      rows.push(this.row("here", line, top, left));
    }
    if (this.fault) rows.push(this.wave(this.row("bad", this.fault.line, top, left)));
    this.marks.replaceChildren(...rows);
  }

  /** The mark of a line. */
  row(css, line, top, left) {
    const row = made("div", css);
    row.style.top = `${line * ROW - top}px`;
    row.style.transform = `translateX(${-left}px)`;
    row.style.width = `calc(100% + ${left}px)`;
    return row;
  }

  /** The mark of the fault itself, in that of its line: it stands behind the line's own text, which isn't seen. */
  wave(row) {
    const {start, end, line} = this.fault;
    const [low, high] = [this.lines.start(line), this.lines.end(line)];
    row.append(this.text.slice(low, start), made("mark", "", this.text.slice(start, Math.min(end, high)) || " "));
    return row;
  }
}
