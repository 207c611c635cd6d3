// The page's side of a program in a worker. It never blocks the page.
import { newWorker, packedModule } from "./packed.js";

/**
 * What waits for its replies.
 * @typedef {{resolve: (replies: string[]) => void, reject: (reason: any) => void}} Asked
 */

// Why a question has no reply: it was stopped, or the program ended with this status, which is null
// if its module failed.
export class Stopped extends Error {
  constructor() {
    super("the question was stopped");
  }
}

export class Ended extends Error {
  /** @param {number | null} status @param {string} text */
  constructor(status, text) {
    super(text.trim() || `the program ended with status ${status}`);
    this.status = status;
  }
}

export class Machine {
  /**
   * `program` is search or disassemble; `arguments` are the words of its command line, `files` the
   * bytes of the files that they name. `taken` are the edits that hold: a new worker takes them up.
   * @param {{program?: string, arguments?: string[], files?: Object<string, Uint8Array>,
   *   taken?: import("./ledger.js").Taken[]}} start
   */
  constructor({ program = "search", arguments: words = [], files = {}, taken = [] } = {}) {
    this.start = { program, arguments: words, files };
    this.taken = taken;
    this.lastId = 0;
    /** @type {Error | null} why nothing more can be asked */
    this.closed = null;
    /** @type {Map<number, Asked>} by number, what waits for its replies */
    this.asked = new Map();
    this.worker = this.newWorker();
    this.started = this.begin();
  }

  /** Stops what is asked. A new worker takes up the edits, and what is asked from now on. */
  stop() {
    this.close();
    this.closed = null;
    this.worker = this.newWorker();
    this.started = this.begin();
    if (this.taken.length > 0) this.takeUp();
  }

  /** Ends the worker. Nothing more can be asked.
      @param {Error} reason */
  close(reason = new Stopped()) {
    this.worker.terminate();
    this.closed = reason;
    for (const { reject } of this.asked.values()) reject(reason);
    this.asked.clear();
  }

  newWorker() {
    const worker = newWorker();
    worker.onmessage = ({ data }) => this.worker === worker && this.hear(data);
    worker.onerror = event => this.worker === worker && this.close(new Error(event.message));
    return worker;
  }

  /** Gives the worker its program. Resolves once it has it. */
  begin() {
    const { worker, start } = this;
    const started = packedModule(start.program).then(
      module => worker.postMessage({ start: { ...start, module } }),
    );
    started.catch(error => this.worker === worker && this.close(error));
    return started;
  }

  /** Resolves with the reply to each line: with its line feeds, and empty for a comment. Rejects
      with Stopped or Ended; then none of these lines is an edit that holds.
      @param {string[]} lines @returns {Promise<string[]>} */
  ask(lines) {
    if (this.closed) return Promise.reject(this.closed);
    const id = ++this.lastId, { worker } = this;
    this.started.then(() => worker.postMessage({ id, lines }), () => {});
    return new Promise((resolve, reject) => this.asked.set(id, { resolve, reject }));
  }

  /** @param {{id: number, replies: string[], ended?: number | null, error: string}} message */
  hear({ id, replies, ended, error }) {
    if (ended !== undefined) {
      this.close(new Ended(ended, error));
      return;
    }
    const asked = this.asked.get(id);
    this.asked.delete(id);
    asked?.resolve(replies);
  }

  /** The edits must have the same replies again, since later lines name their events. */
  async takeUp() {
    const edits = [...this.taken];
    try {
      const replies = await this.ask(edits.map(it => it.line));
      if (edits.every(({ reply }, at) => reply === replies[at])) return;
      this.close(new Error("the edits can't be made again"));
    } catch {
      // stopped again, or closed: who asks next hears of it
    }
  }
}
