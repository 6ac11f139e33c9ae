// Has pictures drawn by a worker, which runs the script of this page too.

/** How many milliseconds a picture is waited for when another input comes. */
const PATIENCE = 300;

const wait = (time) => new Promise((resolve) => { setTimeout(resolve, time); });

/** Overwrites what a worker has found, and gives its memory back, where the browser knows how. */
export function wipe(found) {
  for (const it of Object.values(found)) {
    // Two may be in one buffer, which has no length once it is given back.
    if (ArrayBuffer.isView(it) && it.length) {
      it.fill(0);
      it.buffer.transfer?.(0);
    }
  }
}

export class Drawing {
  #url = null;
  #worker = null;
  #turn = 0;
  #running = null;
  #end = null;
  #refused;

  /** The function is called with the reason if the worker can't begin. */
  constructor(refused) {
    this.#refused = refused;
  }

  /** Begins a worker, so that it is there for the first input. */
  begin() {
    if (this.#worker) return;
    if (!globalThis.Worker) throw new Error('this browser has no workers');
    const script = document.querySelector('script[type=module]').textContent;
    this.#url ??= URL.createObjectURL(new Blob([script], { type: 'text/javascript' }));
    const worker = new Worker(this.#url);
    worker.onmessage = ({ data }) => this.#take(data);
    worker.onerror = (event) => {
      event.preventDefault();
      this.#take({ error: event.message || 'its worker doesn\u2019t begin' });
    };
    this.#worker = worker;
  }

  /** Returns what the worker finds of an input, which is handed over to it, or null if it was
   * stopped or another input has come. Throws an Error with the reason if it finds nothing. */
  async draw(input, isAll) {
    this.#turn += 1;
    const turn = this.#turn;
    if (this.#end) {
      await Promise.race([this.#running, wait(PATIENCE)]);
      if (turn !== this.#turn) {
        input.fill(0);
        return null;
      }
      this.#terminate();
    }
    this.begin();
    this.#running = new Promise((resolve) => { this.#end = resolve; });
    this.#worker.postMessage({ input, isAll }, [input.buffer]);
    const found = await this.#running;
    this.#running = null;
    if (found?.error) throw new Error(found.error);
    if (found && turn !== this.#turn) wipe(found);
    return turn === this.#turn ? found : null;
  }

  /** Ends what is drawn, with all that the worker has. */
  stop() {
    this.#turn += 1;
    this.#terminate();
  }

  /** Ends the worker too, whose memory is given back. The next input begins another one. */
  end() {
    this.stop();
    this.#worker?.terminate();
    this.#worker = null;
  }

  #take(data) {
    const end = this.#end;
    if (data?.isReady) return;
    this.#end = null;
    if (end) end(data);
    else if (data?.error) this.#refused(data.error);
  }

  #terminate() {
    if (!this.#end) return;
    this.#worker.terminate();
    this.#worker = null;
    this.#take(null);
  }
}
