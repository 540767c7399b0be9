// What the JSON Schema of scenarios says of the place at which the cursor stands, and what can be written there.

import {isOps, scan} from "./scan.mjs";

const DEFAULT_FORMAT = 2;

/** The ops of a schema by name, each with the schema of the whole array. */
function opsOf(schema, definition) {
  const rows = (at) => (at.$ref ? rows(named(schema, at)) : at.prefixItems ? [at] : (at.anyOf ?? []).flatMap(rows));
  return new Map(rows(definition).map((row) => [row.prefixItems[0].const, row]));
}

/** What a schema refers to. */
function named(schema, at) {
  return at.$ref ? schema.$defs[at.$ref.split("/").at(-1)] : at;
}

/** The values that a schema offers. */
function valuesOf(at) {
  if (at.enum) return at.enum;
  if (at.type === "boolean") return [true, false];
  return (at.anyOf ?? []).flatMap((it) => it.enum ?? []);
}

export class Help {
  constructor(schema) {
    this.schema = schema;
    const {shared_op: shared, op_of_format_1: one, op_of_format_2: two} = schema.$defs;
    this.ops = {1: opsOf(schema, {anyOf: [shared, one]}), 2: opsOf(schema, {anyOf: [shared, two]})};
  }

  /**
   * What is at an offset: the title of it, which of its parts is meant, the description, and the choices, each with the
   * text that replaces what stands from `from` to `to`.
   */
  at(text, offset) {
    const found = scan(text, offset);
    const token = found.token;
    const from = token ? token.start : offset;
    const to = token ? ending(text, offset, token.isString) : offset;
    const typed = text.slice(from, offset);
    const told = this.of(text, found, to);
    if (found.stack.at(-1)?.isFull && !token) return {...told, choices: []};
    const choices = told.choices.filter((it) => place(it, typed) >= 0).sort((a, b) => place(a, typed) - place(b, typed));
    const isDone = choices.length === 1 && text.slice(from, to) === choices[0].text;
    return {...told, choices: isDone ? [] : choices, from, to, isTyping: token !== null};
  }

  /** What is told of a place, whatever is typed there. */
  of(text, found, to) {
    const {stack} = found;
    const [top] = stack;
    if (!top) return said(this.schema);
    if (stack.length === 1 && top.kind === "{") return top.isNamed ? this.value(top.name) : this.names(text, found, to);
    if (stack.length === 2 && top.name === "first") return this.item(this.schema.properties.first, stack[1].number);
    if (isOps(found) && stack.length <= 3) return this.op(text, found, to);
    return said(this.schema.properties[top.name] ?? this.schema);
  }

  /** The fields that aren't there yet, and that a scenario to run may have. */
  names(text, found, to) {
    const there = scan(text).fields;
    const isNew = !/^\s*:/.test(text.slice(to));
    const rows = Object.entries(this.schema.properties).filter(([name]) => !there.has(name) && name !== "race");
    const choices = rows.map(([name, it]) => ({label: name, detail: it.title, text: `"${name}"${isNew ? ":" : ""}`}));
    const field = this.schema.properties[found.stack[0].name];
    return {...said(field ?? this.schema), choices};
  }

  /** The value of a field. */
  value(name) {
    const field = this.schema.properties[name];
    if (!field) return said(this.schema);
    return {...said(field), title: `"${name}"`, choices: literals(valuesOf(field))};
  }

  /** An item of an array whose items have schemas of their own. */
  item(array, number) {
    const at = named(this.schema, array.prefixItems[number] ?? array);
    return {...said(at), title: array.title, part: number};
  }

  /** An op: its name, or one of its arguments. */
  op(text, found, to) {
    const version = /"format"\s*:\s*([12])\b/.exec(text)?.[1] ?? DEFAULT_FORMAT;
    const ops = this.ops[version];
    const frame = found.stack[2];
    if (!frame) {
      const choices = [...ops].map(([name, it]) => ({label: name, detail: brief(it), text: JSON.stringify(it.examples[0])}));
      return {...said(this.schema.properties.ops), choices};
    }
    const name = frame.items.length ? text.slice(frame.items[0].start + 1, frame.items[0].end).replace(/"$/, "") : "";
    const row = ops.get(name);
    if (frame.number === 0) {
      const isNew = /^\s*(?:\n|$)/.test(text.slice(to, to + 200));
      const tail = (it) => (isNew ? JSON.stringify(it.examples[0]).slice(it.prefixItems[0].const.length + 3) : "");
      const choices = [...ops].map(([label, it]) => ({label, detail: brief(it), text: `"${label}"${tail(it)}`}));
      return {...said(row ?? this.schema.properties.ops), choices, part: 0};
    }
    if (!row) return said(this.schema.properties.ops);
    const kind = row.prefixItems[frame.number];
    const argument = kind ? named(this.schema, kind) : null;
    const choices = argument ? literals(valuesOf(argument)) : [];
    const description = argument ? `${argument.description} \u2014 ${brief(row)}.` : row.description;
    return {title: row.title, part: frame.number, description, choices};
  }
}

/** Where what is being typed ends: a string at its quote, if it has one in its line. */
function ending(text, offset, isString) {
  const rest = text.slice(offset, offset + 200);
  return offset + (isString ? /^[^"\n,[\]{}]*"?/ : /^[^\s"{}[\]:,]*/).exec(rest)[0].length;
}

/** Where what was typed stands in the label of a choice; -1 where it doesn't. */
function place({label}, typed) {
  return label.toLowerCase().indexOf(typed.replace(/^"/, "").toLowerCase());
}

/** The title and the description of a schema. */
function said({title, description}) {
  return {title, description, choices: [], part: -1};
}

/** The first sentence of a description. */
function brief({description}) {
  return description.split(/\.(?: |$)/)[0];
}

/** Values as choices. */
function literals(values) {
  return values.map((it) => ({label: `${it}`, detail: "", text: JSON.stringify(it)}));
}
