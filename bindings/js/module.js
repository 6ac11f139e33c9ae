// The proved module: whether an engine can run it, where its bytes are from, and its compilation.

/** The first bytes of each module, which are one without content (WebAssembly 2.0, section 5.5). */
const MAGIC = Uint8Array.of(0, 0x61, 0x73, 0x6d, 1, 0, 0, 0);
/** A module of one function, `run`, that returns the number of 64 bits that it is given, with the
 * upper 56 as bit 7 is, by instructions that the first edition of WebAssembly didn't have and the
 * proved module does: memory.fill, memory.copy and i64.extend8_s. */
const PROBE = `0061736d0100000001060160017e017e0302010005030100010707010372756e
00000a1a011800410041004101fc0b00410041014101fc0a00002000c20b`;

/** Returns the bytes of digits in hexadecimal. */
const unhex = (digits) => Uint8Array.from(digits.match(/\w\w/g), (two) => parseInt(two, 16));

/** Where the bytes are from: a name, and a function that returns them at once, or promises them. */
let source;
let compiled = null;

/** Says where the bytes are from, as an entry of the package knows it. Of two entries in one
 * program one that has them at once counts. */
export function provide(given) {
  if (!source?.read) source = given;
}

/** Returns whether the engine can run the module, and a page's policy lets it. */
export function isSupported() {
  try {
    const probe = new WebAssembly.Instance(new WebAssembly.Module(unhex(PROBE)), {});
    return probe.exports.run(0x80n) === -128n;
  } catch {
    return false;
  }
}

/** Returns why these bytes couldn't be compiled. */
function reason(bytes, cause) {
  try {
    new WebAssembly.Module(MAGIC);
  } catch {
    return "WebAssembly is forbidden here: a policy has to allow 'wasm-unsafe-eval'";
  }
  if (MAGIC.some((byte, at) => byte !== bytes[at])) {
    return `${source.name} is no module of WebAssembly: its ${bytes.length} bytes begin otherwise`;
  }
  // What an engine says that compiles long modules in the background alone.
  if (cause instanceof RangeError) return 'this engine compiles it in `await ready()` alone';
  return `${source.name} is damaged, or this engine doesn't know WebAssembly 2.0`;
}

function assertEngine() {
  if (!globalThis.WebAssembly) throw new Error('this engine has no WebAssembly');
}

/** Returns the compiled module. Throws an Error where it has to be fetched first. */
export function module() {
  if (compiled) return compiled;
  assertEngine();
  if (!source.read) throw new Error('the module has to be fetched first: `await ready()`');
  const bytes = source.read();
  try {
    compiled = new WebAssembly.Module(bytes);
  } catch (cause) {
    throw new Error(reason(bytes, cause), { cause });
  }
  return compiled;
}

/** Returns the compiled module, as soon as it is there. */
export async function promised() {
  if (compiled) return compiled;
  assertEngine();
  const bytes = await (source.read ?? source.fetch)();
  try {
    compiled = await WebAssembly.compile(bytes);
  } catch (cause) {
    throw new Error(reason(bytes, cause), { cause });
  }
  return compiled;
}
