// What the tables of written histories say of the line at which the cursor stands, and the events that there are.

/** The place of the event in the words of an entry. */
const EVENT = 2;

export class Spelling {
  constructor({events, parts}) {
    this.events = events;
    this.parts = parts;
  }

  /** What is at an offset: a title, a description, and the choices, each with the text that comes from `from` to `to`. */
  at(text, offset) {
    const start = text.lastIndexOf("\n", offset - 1) + 1;
    const before = text.slice(start, offset).split(" ");
    const typed = before.at(-1);
    const word = /^\S*/.exec(text.slice(offset))[0];
    const line = /^.*/.exec(text.slice(start))[0];
    const names = before.length === EVENT + 1 ? Object.keys(this.events).filter((it) => it.startsWith(typed)) : [];
    const choices = names.filter((it) => it !== typed + word).map((it) => ({label: it, detail: this.events[it], text: it}));
    return {...this.of(line.split(" "), start), choices, from: offset - typed.length, to: offset + word.length, isTyping: true, part: -1};
  }

  /** What is told of a line. */
  of(words, start) {
    if (start === 0) return {title: "settings", description: this.parts.settings};
    const fields = this.events[words[EVENT]];
    if (!fields) return {title: "by, with, event, fields", description: `by and with: ${this.parts.actor}; with is - where there is none`};
    const named = Object.entries(this.parts).filter(([name]) => new RegExp(`\\b${name}\\b`).test(fields));
    return {title: `${words[EVENT]}: ${fields}`, description: named.map(([name, said]) => `${name}: ${said}`).join(". ")};
  }
}
