// Has texts answered by a worker, so that the page never waits, and for a limited time.

import {PROGRAMS, failed} from "./answers.mjs";

/** Seconds that a text may take, and that a worker may take to begin. */
export const SECONDS = 5;
const STARTING = 20;

export class Runner {
  /** `begin` begins a worker, which tells when it is ready. */
  constructor(begin, seconds = SECONDS) {
    this.begin = begin;
    this.seconds = seconds;
    this.worker = null;
    this.isReady = false;
    this.asked = null;
  }

  /**
   * What comes of a text of a kind, as `answer`, and what the program said, as `said`; null where another text was asked for
   * meanwhile. A worker that takes too long is stopped.
   */
  answer(kind, text) {
    if (this.asked && this.isReady) this.stop(null);
    this.asked?.tell(null);
    return new Promise((tell) => {
      this.asked = {kind, text, tell};
      if (!this.worker) this.start();
      else if (this.isReady) this.send();
    });
  }

  /** Begins a worker. */
  start() {
    const worker = this.begin();
    this.worker = worker;
    const isAsked = () => worker === this.worker && this.asked;
    worker.onmessage = ({data}) => isAsked() && this.told(data);
    worker.onerror = (event) => isAsked() && this.fail(`failed: ${event.message}`);
    this.limit(STARTING);
  }

  /** Hands the text to the worker. */
  send() {
    const {kind, text} = this.asked;
    this.worker.postMessage({kind, text});
    this.limit(this.seconds);
  }

  limit(seconds) {
    clearTimeout(this.timer);
    this.timer = setTimeout(() => this.fail(`took more than ${seconds} seconds and was stopped`), 1000 * seconds);
  }

  /** The worker is ready, or has an answer; without being ready it can only tell why. */
  told(data) {
    if (data.isReady) {
      this.isReady = true;
      this.send();
    } else if (this.isReady) {
      this.tell(data);
    } else {
      this.stop(data);
    }
  }

  tell(data) {
    clearTimeout(this.timer);
    const {tell} = this.asked;
    this.asked = null;
    tell(data);
  }

  fail(why) {
    this.stop({said: null, answer: failed(`${PROGRAMS[this.asked.kind]} ${why}`)});
  }

  /** Ends the worker, whatever it does, and tells this. */
  stop(answer) {
    this.worker.terminate();
    this.worker = null;
    this.isReady = false;
    this.tell(answer);
  }
}
