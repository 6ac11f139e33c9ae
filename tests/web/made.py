"""The page as web/make makes it, with another script in front of its own."""
import pathlib
import runpy

# Keeps in sight the workers that begin, each buffer that the page reads, makes of a text, copies or
# is given by its worker, and the memory of each instance of the module, and what it was at first.
WATCHES = """if (globalThis.document) {
  // What is given back can't be seen any more.
  delete ArrayBuffer.prototype.transfer;
  Object.assign(window, { workers: [], kept: [] });
  const keep = async (made) => { const it = await made; window.kept.push(it.buffer ?? it); };
  for (const [owner, name] of [[Blob.prototype, 'arrayBuffer'], [TextEncoder.prototype, 'encode'],
    [Object.getPrototypeOf(Uint8Array.prototype), 'slice']]) {
    const plain = owner[name];
    owner[name] = function watched(...given) {
      const made = plain.apply(this, given);
      keep(made);
      return made;
    };
  }
  window.total = (buffers) => buffers.filter((it) => it.byteLength).reduce((sum, it) =>
    new Uint8Array(it).reduce((one, other) => one + other, sum), 0);
  const { Worker } = window;
  window.Worker = class extends Worker {
    constructor(...given) {
      super(...given);
      window.workers.push(this);
      const { terminate } = this;
      this.terminate = () => { this.isEnded = true; terminate.call(this); };
      this.addEventListener('message', ({ data }) => {
        Object.values(data).filter(ArrayBuffer.isView).forEach(keep);
      });
    }
  };
} else {
  const { instantiate, Instance } = WebAssembly;
  const seen = [];
  const watched = (instance) => {
    const { memory } = instance.exports;
    seen.push({ memory, first: new Uint8Array(memory.buffer).slice() });
    return instance;
  };
  WebAssembly.instantiate = async (...given) => watched(await instantiate(...given));
  WebAssembly.Instance = function make(...given) { return watched(new Instance(...given)); };
  addEventListener('message', (event) => {
    if (!event.data.look) return;
    event.stopImmediatePropagation();
    const lefts = seen.map(({ memory, first }) => new Uint8Array(memory.buffer).findIndex(
      (byte, at) => byte !== (at < first.length ? first[at] : 0)));
    postMessage({ seen: [Math.max(...lefts), seen.at(-1).memory.buffer.byteLength] });
  });
}
"""
# Lets nothing be written to a console, of the page or of its worker.
CONSOLE = """for (const name of Object.keys(console)) {
  console[name] = () => { throw new Error('a console is written to'); };
}
"""
BEFORE = {"memory": WATCHES, "buffers": WATCHES, "everywhere": CONSOLE}
# A folder like the repository's, of which the page is made.
folder = pathlib.Path(__file__).resolve().parent.parent.parent


def page(before=""):
    """Returns the page, whose script begins with another one."""
    return runpy.run_path(str(folder / "web/make"))["page"](before=before)
