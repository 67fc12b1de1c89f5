// Lets a worker do jobs, which can be stopped at any time.

/** What a job that was stopped is rejected with. */
export class Stopped extends Error {}

/** A worker that is made again after it was stopped. */
export class Runner {
  #source;
  #octets;
  #worker = null;
  #text = null; // the text that the worker was given last
  #waiting = new Map();
  #next = 0;

  /**
   * @param {string} source the worker's script
   * @param {Uint8Array} octets the WebAssembly module, packed as deflate-raw
   */
  constructor(source, octets) {
    this.#source = source;
    this.#octets = octets;
  }

  /**
   * Does a job.
   *
   * @param {object} request as taprio.js wants it, but for its input, which is a text: `text`
   * @returns {Promise<{status: number, output: Uint8Array, fault: string, time: number}>} what it tells, and its milliseconds
   */
  async run(request) {
    if (!this.#worker) this.#start();
    const { text, ...rest } = request;
    const isKnown = text === undefined || text === this.#text;
    if (!isKnown) this.#text = text;
    return (await this.#ask({ request: isKnown ? rest : request })).told;
  }

  /** Ends what is being done. */
  stop() {
    this.#worker?.terminate();
    this.#worker = null;
    this.#end(new Stopped("stopped"));
  }

  #start() {
    const address = URL.createObjectURL(new Blob([this.#source], { type: "text/javascript" }));
    const worker = new Worker(address);
    URL.revokeObjectURL(address);
    worker.onmessage = ({ data }) => this.#hear(data);
    worker.onerror = (event) => this.#end(new Error(event.message || "The page's worker did not start."));
    this.#worker = worker;
    this.#text = null;
    this.#ask({ octets: this.#octets }).catch(() => {});
  }

  #ask(message) {
    const id = this.#next++;
    const { promise, resolve, reject } = Promise.withResolvers();
    this.#waiting.set(id, { resolve, reject, frames: [] });
    this.#worker.postMessage({ id, ...message });
    return promise;
  }

  // (of frames lots come, and then what is told beside them)
  #hear({ id, lot, error, ...said }) {
    const waits = this.#waiting.get(id);
    if (lot) {
      waits?.frames.push(...lot);
      return;
    }
    this.#waiting.delete(id);
    if (error) waits?.reject(new Error(error));
    else waits?.resolve(said.told ? { ...said, told: { ...said.told, frames: waits.frames } } : said);
  }

  #end(error) {
    for (const { reject } of this.#waiting.values()) reject(error);
    this.#waiting.clear();
  }
}
