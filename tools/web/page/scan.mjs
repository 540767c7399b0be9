// Where the parts of a scenario stand in its text, which may not be JSON yet.

import {last} from "./text.mjs";

const TOKEN = /"(?:[^"\\\n]|\\.)*"?|[{}[\]:,]|[^\s"{}[\]:,]+/gy;
const SPACE = /\s+/gy;
const CLOSES = {"}": "{", "]": "["};

/** A part of a text, from an offset up to another. */
const span = (start, end) => ({start, end});

/**
 * Goes over a text up to an offset. `fields` has the fields of the object by name, each with the places of its name and
 * of its value; `ops` the ops that are closed, each with its items; `stack` the arrays and objects that are open at the
 * end, with the name of the field or the number of the item at which they are, and whether all of that is there (`isFull`);
 * `token` the string or word that ends there, and so may be going on.
 */
export function scan(text, until = text.length) {
  const found = {fields: new Map(), ops: [], stack: [], token: null, open: null};
  let at = 0;
  while (at < until) {
    SPACE.lastIndex = at;
    if (SPACE.test(text)) {
      at = SPACE.lastIndex;
      continue;
    }
    TOKEN.lastIndex = at;
    TOKEN.test(text);
    const end = Math.min(TOKEN.lastIndex || at + 1, until);
    const token = text[at];
    if (token === "{" || token === "[") {
      found.open ??= at;
      if (found.stack.length === 3 && isOps(found)) leave(found);
      found.stack.push({kind: token, start: at, name: null, number: 0, isNamed: token === "[", isFull: false, items: []});
    } else if (token in CLOSES) {
      close(found, CLOSES[token], end);
    } else if (token === ":" || token === ",") {
      separate(found, token);
    } else {
      const isClosed = token !== '"' || (end - at > 1 && text[end - 1] === '"');
      if (end === until && !(token === '"' && isClosed)) found.token = {...span(at, end), isString: token === '"'};
      take(found, at, end, token === '"' ? text.slice(at + 1, isClosed ? end - 1 : end) : null);
    }
    at = end;
  }
  return found;
}

/** The arrays or objects up to one of this kind are closed. */
function close(found, kind, end) {
  const depth = found.stack.findLastIndex((frame) => frame.kind === kind);
  if (depth < 0) return;
  const closed = found.stack[depth];
  found.stack.length = depth;
  if (depth === 2 && isOps(found)) found.ops.push({...span(closed.start, end), items: closed.items});
  take(found, closed.start, end, null);
}

/** An op in which another array begins lacks its bracket, since no op holds one: so it ends with its last item. */
function leave(found) {
  const {start, items} = found.stack[2];
  close(found, "[", items.at(-1)?.end ?? start + 1);
  found.stack[1].number++;
}

/** Whether what is open is the list of the ops. */
export function isOps({stack}) {
  return stack.length >= 2 && stack[0].kind === "{" && stack[0].name === "ops" && stack[1].kind === "[";
}

/** A comma or a colon. */
function separate({stack}, token) {
  const top = stack.at(-1);
  if (!top) return;
  top.isFull = false;
  if (token === ",") {
    top.number++;
    top.isNamed = top.kind === "[";
    if (top.kind === "{") top.name = null;
  } else if (top.kind === "{") {
    top.isNamed = true;
  }
}

/** A value, or the name of a field. */
function take(found, start, end, string) {
  const top = found.stack.at(-1);
  if (!top) return;
  top.isFull = true;
  if (top.kind === "[") {
    if (found.stack.length === 3) top.items.push(span(start, end));
  } else if (!top.isNamed) {
    top.name = string;
    top.place = span(start, end);
    if (string === "ops" && found.stack.length === 1) found.ops = [];
  } else if (found.stack.length === 1 && top.name !== null) {
    found.fields.set(top.name, {name: top.place, value: span(start, end)});
  }
}

/** The number of the op in which an offset stands, or in whose line it does; -1 where there is none. */
export function opAt(ops, lines, offset) {
  const line = lines.at(offset);
  const next = last(ops, offset - 1, (it) => it.end) + 1;
  if (next < ops.length && lines.at(ops[next].start) <= line) return next;
  return next > 0 && lines.at(ops[next - 1].end) === line ? next - 1 : -1;
}
