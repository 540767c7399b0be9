// JSON in which an integer is read exactly.

const TOKEN = /"(?:[^"\\]|\\.)*"|[-+.\w]+|[{}[\],]/g;
const CLOSES = new Set(["}", "]"]);
const WORDS = new Map([["true", true], ["false", false], ["null", null]]);

/** A number that a scenario can't have: a fraction, `-0`, or what is longer than 64 bits take. */
export const NO_INTEGER = NaN;

/** What a word or a string spells. */
function plain(token) {
  if (token[0] === '"') return JSON.parse(token);
  if (WORDS.has(token)) return WORDS.get(token);
  return /^-?\d{1,20}$/.test(token) && token.length <= 20 && token !== "-0" ? BigInt(token) : NO_INTEGER;
}

/**
 * What a text spells: as `JSON.parse` reads it, but an integer is a BigInt, any other number `NO_INTEGER`, and an object a
 * Map. A text that isn't JSON throws SyntaxError.
 */
export function parse(text) {
  JSON.parse(text);
  const above = [];
  let [value, top, name] = [null, null, null];
  const put = (it) => {
    if (!top) value = it;
    else if (Array.isArray(top)) top.push(it);
    else if (name === null) name = it;
    else {
      top.set(name, it);
      name = null;
    }
  };
  for (const [token] of text.matchAll(TOKEN)) {
    if (token === ",") continue;
    if (CLOSES.has(token)) {
      [top, name] = above.pop();
    } else if (token === "{" || token === "[") {
      const made = token === "{" ? new Map() : [];
      put(made);
      above.push([top, name]);
      [top, name] = [made, null];
    } else {
      put(plain(token));
    }
  }
  return value;
}
