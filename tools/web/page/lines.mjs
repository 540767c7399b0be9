// A long list of which only the lines in sight are in the page: a transcript, or the entries of a history.

const ROW = 20;
const BEYOND = 5;

export class List {
  /** `chosen` is called with the number of a line, and whether its text is to be gone to. */
  constructor(place, chosen) {
    this.place = place;
    this.chosen = chosen;
    this.rows = [];
    this.here = -1;
    place.addEventListener("scroll", () => this.draw());
    new ResizeObserver(() => this.draw()).observe(place);
    place.addEventListener("click", (event) => this.pick(Number(event.target.closest("[data-row]")?.dataset.row ?? -1), false));
    place.addEventListener("dblclick", () => this.pick(this.here, true));
    place.addEventListener("keydown", (event) => this.key(event));
  }

  /** Shows rows: each has a text, a number to show, and maybe a class; those with `isOff` can't be chosen. */
  show(rows) {
    this.rows = rows;
    this.here = Math.min(this.here, rows.length - 1);
    this.draw();
  }

  /** Marks a line, and brings it into sight. */
  mark(number) {
    this.here = number;
    const {scrollTop: top, clientHeight: height} = this.place;
    const [low, high] = [number * ROW, (number + 1) * ROW];
    if (number >= 0 && (low < top || high > top + height)) this.place.scrollTop = low - height / 2;
    this.draw();
  }

  pick(number, goes) {
    if (number >= 0 && number < this.rows.length && !this.rows[number].isOff) this.chosen(number, goes);
  }

  key(event) {
    const page = Math.max(1, Math.floor(this.place.clientHeight / ROW) - 1);
    const end = this.rows.length - 1 - (this.rows.at(-1)?.isOff ? 1 : 0);
    const to = {ArrowDown: this.here + 1, ArrowUp: this.here - 1, PageDown: this.here + page, PageUp: this.here - page, Home: 0, End: end}[event.key];
    if (to === undefined && event.key !== "Enter") return;
    event.preventDefault();
    if (event.key === "Enter") this.pick(this.here, true);
    else this.pick(Math.min(Math.max(to, 0), end), false);
  }

  /** Puts the lines in sight into the page. */
  draw() {
    const {place, rows} = this;
    const first = Math.max(0, Math.floor(place.scrollTop / ROW) - BEYOND);
    const after = Math.min(rows.length, Math.ceil((place.scrollTop + place.clientHeight) / ROW) + BEYOND);
    const made = [];
    for (let number = first; number < after; number++) {
      const {text, label, css, isOff} = rows[number];
      const row = document.createElement("div");
      row.id = `${place.id}-${number}`;
      row.role = "option";
      row.dataset.row = number;
      row.dataset.number = label;
      row.textContent = text;
      row.className = [css ?? "", isOff ? "off" : "", number === this.here ? "here" : ""].join(" ").trim();
      row.ariaSelected = `${number === this.here}`;
      row.ariaPosInSet = number + 1;
      row.ariaSetSize = rows.length;
      row.style.top = `${number * ROW}px`;
      made.push(row);
    }
    const foot = document.createElement("i");
    foot.style.top = `${rows.length * ROW - 1}px`;
    place.replaceChildren(...made, foot);
    const isIn = this.here >= first && this.here < after;
    if (isIn) place.setAttribute("aria-activedescendant", `${place.id}-${this.here}`);
    else place.removeAttribute("aria-activedescendant");
  }
}
