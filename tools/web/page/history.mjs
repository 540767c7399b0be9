// The tab in which a history is written and judged.

import {Tab} from "./tab.mjs";

export class HistoryTab extends Tab {
  constructor(shelf, help, page) {
    super("history", shelf, help, page);
    this.explain(help.of([], 0));
  }

  read() {}

  /** Shows the verdict, which is the program's own line. */
  show({outcome, lines}) {
    const place = this.find(".verdict");
    place.textContent = lines[0] ?? "";
    place.className = `verdict ${outcome === "legal" ? "good" : "bad"}`;
  }

  summary(outcome, lines) {
    const count = lines[0].split(" ")[1];
    return `${outcome}: ${count} ${count === "1" ? "entry" : "entries"}`;
  }

  /** Where an entry stands: the first one in the second line. */
  part(number) {
    const {lines} = this.editor;
    const line = number + 1;
    return number >= 0 && line < lines.count ? {start: lines.start(line), end: lines.end(line)} : null;
  }

  numberAt(offset) {
    return this.editor.lines.at(offset) - 1;
  }

  chosen() {}
}
