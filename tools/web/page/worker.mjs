// The worker: it runs the programs, and draws. It is given the module first, and then a text at a time.

import {load} from "../ertime.mjs";
import {PROGRAMS, answerOf, failed} from "./answers.mjs";

let ertime = null;

/** What the program of a kind says of a text, and the answer that is made of it. */
function answerTo(kind, text) {
  try {
    const said = kind === "scenario" ? ertime.run(text) : ertime.judge(text);
    return {said, answer: answerOf(kind, text, said)};
  } catch (error) {
    return {said: null, answer: failed(`${PROGRAMS[kind]} failed: ${error.message}`)};
  }
}

addEventListener("message", async ({data}) => {
  if (!data.module) {
    postMessage(answerTo(data.kind, data.text));
    return;
  }
  try {
    ertime = await load(data.module);
    postMessage({isReady: true});
  } catch (error) {
    postMessage({said: null, answer: failed(`This browser can't run the programs: ${error.message}`)});
  }
});
