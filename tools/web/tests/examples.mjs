// The examples of the repository, and runs of scenarios that a test writes.

import fs from "node:fs";

import {follow} from "../picture/replay.mjs";
import {readScenario} from "../picture/scenario.mjs";

export const TOP = new URL("../../../", import.meta.url);
export const SECOND = 1_000_000_000n;

/** A file of the repository. */
export const read = (name) => fs.readFileSync(new URL(name, TOP), "utf8");

/** The names of the files in a folder that end so, without that end. */
export const named = (folder, end) => fs.readdirSync(new URL(folder, TOP)).filter((it) => it.endsWith(end)).map((it) => it.slice(0, -end.length)).sort();

/** The lines of a transcript. */
export const lines = (text) => text.trimEnd().split("\n");

/** The run of a scenario that is written here. */
export function runOf(ops, said, fields = {}) {
  return follow(readScenario(JSON.stringify({format: 2, first: [0, 0], ops, ...fields}), "here"), said, "there");
}

/** The run of an example. */
export function example(name) {
  const path = `examples/ertime/${name}.json`;
  return follow(readScenario(read(path), name), lines(read(`${path}.stdout`)), name);
}
