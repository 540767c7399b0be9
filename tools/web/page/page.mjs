// The page: two tabs, and the link that has the text of the one in sight.

import {STYLE} from "../picture/palette.mjs";
import {HistoryTab} from "./history.mjs";
import {fragment, opened} from "./link.mjs";
import {Runner} from "./runner.mjs";
import {ScenarioTab} from "./scenario.mjs";
import {Help} from "./schema.mjs";
import {Spelling} from "./spelling.mjs";

/** The longest fragment that is written into the address. */
const MOST_LINK = 100_000;

const find = (id) => document.getElementById(id);
let written = "";

/** Shows a note, until the next key or click. */
function tell(text) {
  find("told").textContent = text;
}

for (const event of ["keydown", "pointerdown"]) document.addEventListener(event, () => tell(""), {capture: true});

/** What stands packed in an element, as bytes. */
function unpacked(id) {
  const bytes = Uint8Array.from(atob(find(id).textContent), (it) => it.charCodeAt(0));
  return new Response(new Blob([bytes]).stream().pipeThrough(new DecompressionStream("gzip")));
}

/** What the page is built with (`packaging/page`): the module, and the worker, lists, texts and styles. */
const module = new Uint8Array(await unpacked("module").arrayBuffer());
const built = await unpacked("built").json();
const worker = URL.createObjectURL(new Blob([built.worker], {type: "text/javascript"}));

/** What runs the programs, in a worker that it begins when it is first asked. */
function runner() {
  return new Runner(() => {
    const begun = new Worker(worker);
    begun.postMessage({module});
    return begun;
  });
}

/** A style sheet of a text. */
function sheet(text) {
  const made = new CSSStyleSheet();
  made.replaceSync(text);
  return made;
}

const page = {tell, runner, sheets: [STYLE, built.marks].map(sheet)};
const tabs = {
  scenario: new ScenarioTab(built.shelf.scenario, new Help(built.schema), page),
  history: new HistoryTab(built.shelf.history, new Spelling(built.spelling), page),
};
let shown = tabs.scenario;
find("licences").textContent = built.licences;

/** Shows a tab, which has its first example where nothing was opened or written. */
function show(kind, isOpened = false) {
  shown = tabs[kind];
  for (const [name, tab] of Object.entries(tabs)) {
    const button = find(`tab-${name}`);
    button.ariaSelected = `${tab === shown}`;
    button.tabIndex = tab === shown ? 0 : -1;
    tab.place.hidden = tab !== shown;
  }
  if (!isOpened && !shown.answer && !shown.editor.text) shown.exchange(shown.shelf[0]?.text ?? "", false);
  else link();
}

/** Writes the text in sight into the address, if it isn't too long for that; and tells whether it is there. */
async function link() {
  const {kind, editor} = shown;
  const {text} = editor;
  const made = await fragment(kind, text);
  const fits = made.length <= MOST_LINK && !editor.isLong;
  if (shown.kind === kind && editor.text === text) {
    written = fits ? `#${made}` : "";
    history.replaceState(null, "", written || location.pathname);
  }
  return fits;
}

/** Opens what the address has, if it has anything. */
async function enter() {
  if (location.hash === written && written) return;
  const found = await opened(location.hash);
  if (location.hash && !found) tell("The link can't be read");
  if (found) tabs[found.kind].exchange(found.text, false);
  show(found?.kind ?? shown.kind, found !== null);
}

for (const [kind, tab] of Object.entries(tabs)) {
  const button = find(`tab-${kind}`);
  button.addEventListener("click", () => show(kind));
  button.addEventListener("keydown", ({key}) => {
    if (key !== "ArrowLeft" && key !== "ArrowRight") return;
    const other = kind === "scenario" ? "history" : "scenario";
    show(other);
    find(`tab-${other}`).focus();
  });
  tab.addEventListener("answer", () => tab === shown && link());
}

find("copy").addEventListener("click", async () => {
  if (!(await link())) {
    tell("The text is too long for a link");
    return;
  }
  try {
    await navigator.clipboard.writeText(location.href);
    tell("The link is copied");
  } catch {
    tell("The link is in the address: copy it there");
  }
});

document.addEventListener("keydown", (event) => {
  if (event.key !== "F8") return;
  event.preventDefault();
  shown.goToFault();
});
window.addEventListener("hashchange", enter);
await enter();

/** For the browser's console: `ertime.answer("scenario", text)` gives what the program said, and what is made of that. */
const asked = runner();
globalThis.ertime = {answer: (kind, text) => asked.answer(kind, text)};
document.body.dataset.ready = "true";
