// What the page is told of a text: the lines that the program printed, the fault with its place, and the picture.
//
// An answer has an `outcome`: `ran` of a scenario, `legal` or `illegal` of a history, `refused`, or `failed` where the
// program didn't judge the text; and where there is a picture, the `places` of the ops or entries in it.

import {BadInput, linesOf} from "../picture/inputs.mjs";
import {boardOf, pictureOnBoard} from "../picture/lanes.mjs";
import {follow} from "../picture/replay.mjs";
import {readScenario} from "../picture/scenario.mjs";
import {axisOf, pictureOn} from "../picture/sheet.mjs";

/** A message of a program: the line, mostly the column in bytes, and what is wrong there. */
const MESSAGE = /^(?:scenario|history):(\d+):(?:(\d+):)? (.*)\n$/;
const ILLEGAL = 1;
const REFUSED = 3;
/** The other statuses (docs/FORMATS.md, "The command line"). */
const STATUSES = {7: "memory ran out", 8: "the input is too long"};
/** How close together, in pixels, the places are by which the page finds the time of a point. */
const STEP = 0.5;

/** The program that answers each kind of text. */
export const PROGRAMS = {scenario: "ertime", history: "ertaudit"};

/** An answer without a judgement. */
export const failed = (message) => ({outcome: "failed", lines: [], fault: null, message});

/** The place and the words of a program's message; null where it says nothing of that form. */
export function faultOf(errors) {
  const said = MESSAGE.exec(errors);
  return said && {line: Number(said[1]), column: said[2] ? Number(said[2]) : null, message: said[3]};
}

/** Places from left to right, each with the OS monotonic time there: between two of them time is to one scale. */
function knotsOf(axis) {
  const made = [];
  let last = {x: -1, mono: -1n};
  axis.knots.forEach(({monos, xs}, number) => {
    const knots = [[axis.lefts[number], monos[0]], ...xs.map((x, at) => [x, monos[at]])];
    for (const [x, mono] of knots) {
      if (!axis.isSmall && x - last.x < STEP) continue;
      if (x !== last.x || mono !== last.mono) made.push({x, mono});
      last = {x, mono};
    }
  });
  return made;
}

/** The picture of a scenario that ran. */
function ofRun(text, output) {
  const axis = axisOf(follow(readScenario(text, "the scenario"), linesOf(output, "ertime"), "ertime"));
  return {picture: pictureOn(axis, "scenario", true), places: axis.ops, axis: knotsOf(axis)};
}

/** The picture of a history that was judged. */
function ofHistory(text, output) {
  const board = boardOf(text, "the history", linesOf(output, "ertaudit"), "ertaudit");
  return {picture: pictureOnBoard(board, "history", true), places: board.places, axis: []};
}

/** The outcome that a status means; undefined where it is no judgement. */
function outcomeOf(kind, status) {
  if (status === REFUSED) return "refused";
  return kind === "scenario" ? {0: "ran"}[status] : {0: "legal", [ILLEGAL]: "illegal"}[status];
}

/** The answer to a text of which the program of its kind said this: its status, its output and its message. */
export function answerOf(kind, text, {status, output, errors}) {
  const outcome = outcomeOf(kind, status);
  if (!outcome) {
    const why = STATUSES[status];
    return failed(`${PROGRAMS[kind]} ended with status ${status}${why ? `: ${why}` : ""}`);
  }
  const answer = {outcome, lines: output ? output.replace(/\n$/, "").split("\n") : [], fault: faultOf(errors), message: ""};
  if (outcome === "refused") return answer;
  try {
    return {...answer, ...(kind === "scenario" ? ofRun : ofHistory)(text, output)};
  } catch (error) {
    if (!(error instanceof BadInput)) throw error;
    return {...answer, message: `There is no picture. ${error.message}`};
  }
}
