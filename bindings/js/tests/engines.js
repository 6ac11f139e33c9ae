// Makes the calls of the module that read and draw over damaged keys, certificates and signatures,
// and sums up all that they return and store: engines that run the module alike have one sum.
//
//   node engines.js SEC1.WASM P256.DER CONTAINERS.TXT
//   jsc -m engines.js -- SEC1.WASM P256.DER CONTAINERS.TXT     WebKit's engine
//
// A page imports `digest`.
const ROUNDS = 24000;
const READERS = [
  'key_read', 'key_fault_at', 'private_key_read', 'private_key_fault_at', 'public_key_read',
  'public_key_fault_at', 'certificate_read_public_key', 'certificate_fault_at', 'signature_read',
  'signature_fault_at', 'tree_check', 'tree_fault_at', 'document_len',
].map((name) => `sec1_${name}`);

/** Returns a function of numbers below a limit, which are the same in each engine: a generator of
 * Marsaglia (xorshift32). */
function numbers(state) {
  return (limit) => {
    state ^= state << 13;
    state ^= state >>> 17;
    state ^= state << 5;
    return (state >>> 0) % limit;
  };
}

/** Returns the bytes of the first line of each word, and those of the key. */
function inputsOf(key, containers) {
  const words = ['private-key-info', 'public-key-info', 'certificate', 'signature'];
  const digits = words.map((word) => new RegExp(`^${word} (\\S+)$`, 'm').exec(containers)[1]);
  return [key, ...digits.map((it) => Uint8Array.from(it.match(/../g), (two) => parseInt(two, 16)))];
}

/** The module in an engine, and a sum over what its calls return and store (FNV-1a). */
class Calls {
  #exports;
  #memory;
  #places;
  sum = 2166136261;
  count = 0;

  constructor(module) {
    this.#exports = new WebAssembly.Instance(new WebAssembly.Module(module), {}).exports;
    this.#exports.memory.grow(8);
    this.#memory = new Uint8Array(this.#exports.memory.buffer);
    const heap = Number(this.#exports.__heap_base.value);
    // the input, what is stored, the room to draw in, and the text
    this.#places = [heap, heap + 8192, heap + 16384, heap + 212992];
  }

  #add(begin, end) {
    for (let at = begin; at < end; at += 1) {
      this.sum = Math.imul(this.sum ^ this.#memory[at], 16777619) >>> 0;
    }
  }

  #call(name, ...given) {
    this.count += 1;
    const status = this.#exports[name](...given.map(BigInt));
    this.sum = Math.imul(this.sum ^ status, 16777619) >>> 0;
    return status;
  }

  read(bytes) {
    const [input, stored] = this.#places;
    this.#memory.set(bytes, input);
    for (const name of READERS) {
      this.#memory.fill(0xee, stored, stored + 96);
      this.#call(name, input, bytes.length, stored);
      this.#add(stored, stored + 96);
    }
  }

  draw(bytes) {
    const [input, stored, room, text] = this.#places;
    const [length, most] = [196608, 131072];
    this.#memory.set(bytes, input);
    const places = [room, length, text, most, stored, stored + 8];
    if (this.#call('sec1_picture_draw', input, bytes.length, 0, ...places) === 0) {
      const view = new DataView(this.#memory.buffer);
      this.#add(text, text + Number(view.getBigUint64(stored, true)));
    }
  }
}

/** Returns how many calls were made, and the sum. */
export function digest(module, key, containers) {
  const [calls, draw] = [new Calls(module), numbers(7)];
  const inputs = inputsOf(key, containers);
  for (let round = 0; round < ROUNDS; round += 1) {
    const bytes = inputs[round % inputs.length].slice();
    for (let change = draw(4); change > 0; change -= 1) bytes[draw(bytes.length)] = draw(256);
    const damaged = bytes.subarray(0, draw(4) ? bytes.length : draw(bytes.length + 1));
    calls.read(damaged);
    if (round % 20 < 5) calls.draw(damaged);
  }
  return `${calls.count} calls: ${calls.sum}`;
}

// The shell of WebKit's engine has these two functions, and its arguments in `arguments`.
if (typeof readFile === 'function') {
  const [module, key, containers] = arguments;
  print(digest(readFile(module, 'binary'), readFile(key, 'binary'), readFile(containers)));
} else if (globalThis.process?.argv[1]?.endsWith('engines.js')) {
  const { readFileSync } = await import('node:fs');
  const [module, key, containers] = process.argv.slice(2);
  const text = readFileSync(containers, 'utf8');
  console.log(digest(readFileSync(module), new Uint8Array(readFileSync(key)), text));
}
