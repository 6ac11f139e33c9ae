"""Faults of the package, for tests/plant."""
import pathlib
import shutil

HERE = pathlib.Path(__file__).resolve().parent
FAULTS = {"library.js": [
    # the memory of a call
    ("memory.fill(0, STORED, end);", ""),
    ("memory.fill(0, STORED, end)", "memory.fill(0, STORED + 65536, end)",
     "memory.fill(0, STORED, end - 65536)", "memory.fill(0, GIVEN, end)",
     "memory.fill(1, STORED, end)"),
    *[("return answer;\n  } finally {\n    wipe(FLAT);", "return answer;\n  } finally {\n    " + it)
      for it in ("", "wipe(64);")],
    "lengthOf(input) - end)];\n  } finally {\n[[    wipe(FLAT);~>]]",
    "      isWhole = true;\n    } finally {\n      wipe([[DEEP~>FLAT]]);",
    "wanted === 0];\n    } finally {\n      wipe([[DEEP~>FLAT]]);",
    ("wanted === 0];\n    } finally {\n      wipe(DEEP);\n", "wanted === 0];\n    } finally {\n"),
    ("  if (memory.length > KEPT) renew();\n", ""),
    ("const KEPT = 4194304;", "const KEPT = 67108864;"),
    "  [[try {\n    take(instantiated());~>take(instantiated());\n  try {]]\n  } catch {\n",
    ("const length = lengthOf(it);", "const { length } = it;"),
    ("=> partAt(place, copied)", "=> partAt(place, sliced)"),
    ("{ fields: null, copy: copied }", "{ fields: null, copy: sliced }"),
    ("memory.fill(0, STACK - depth, STACK);", ""), ("  end = GIVEN;\n  if", "  if"),
    ("const BUFFER = 7;", "const BUFFER = 8;"), ("const PAGE = 65536;", "const PAGE = 131072;"),
    ("  GIVEN = STORED + 96;", "  GIVEN = STORED + 64;"),
    "exports.memory.grow([[Math.ceil(length / PAGE~>BigInt(Math.ceil(length / PAGE)]]));",
    ("  exports.memory.grow(Math.ceil(length / PAGE));\n", ""),
    ("  view = new DataView(exports.memory.buffer);\n", ""),
    ("  memory = new Uint8Array(exports.memory.buffer);\n", ""),
    ("Math.ceil(length / 8) * 8", "Math.floor(length / 8) * 8"),
    ("if (end > memory.length)", "if (end > memory.length + 4096)"),
    ("grow(end - memory.length)", "grow(end)", "grow(end - memory.length - 65536)"),
    ("view.getUint32(place, true)", "view.getUint32(place, false)"),
    (" + view.getUint32(place + 4, true) * 2 ** 32", ""),
    ("view.getInt32(place, true)", "view.getUint32(place, true)"),
    ("      memory.set(it, place);\n", ""),
    ("BigInt(place), BigInt(length)", "BigInt(place), BigInt(place)"),
    ("words.push(BigInt(it))", "words.push(BigInt(it) + 1n)"),
    ("if (status !== BUFFER || length <= room) return", "return"),
    ("BigInt(room), STORED_WORD", "BigInt(ROOM), STORED_WORD"),
    ("wordAt(place), wordAt(place + 8)", "wordAt(place), wordAt(place + 16)"),
    ("wordAt(place + 16) ? copy", "wordAt(place + 8) ? copy"),
    ("memory.slice(place,", "memory.subarray(place,"),
    ("GIVEN + wordAt(place),", "GIVEN + wordAt(place) + 1,"),
    ("copied(text, wanted)", "memory.subarray(text, text + wanted)"),
    ("      offset += length;\n", ""),
    *[(f"sec1_{it}_fault_at: stores([size])", f"sec1_{it}_fault_at: stores([part])")
      for it in ("certificate", "private_key", "private_key_info", "public_key", "signature")],
    ("stores([size, part, part])", "stores([part, part, size])"),
    ("stores([secret, part, part], [size])", "stores([secret, part, part, size])"),
    # pictures
    ("export const NUMBERS = 6;", "export const NUMBERS = 7;"),
    ("HEADING: 0, ROW: 1, MARK: 2,", "HEADING: 0, ROW: 2, MARK: 1,"),
    "[reserve([[length), reserve(most~>8), reserve(most~>length), reserve(8]])]",
    ("reserve(count * NUMBERS * 8)", "reserve(count * NUMBERS)"),
    ("(memory.buffer, place,", "(memory.buffer, place + 8,"),
    ("halves[2 * at];", "halves[at];", "halves[2 * at + 1];"),
    ("Math.min(found, count)", "found - 1"),
    *[("const room = 2 * length + 2;", f"const room = {it};")
      for it in ("length + 2", "2 * length + 1")],
    ("roomFor(size, isWhole) + most;", "roomFor(size, isWhole);"),
    ("isWhole || room < DRAWN ? room : 2;", "room;"),
    ("Math.min(8 * size + 4096, DRAWN)", "8 * size + 4096"),
    ("placed([input, all, 0,", "placed([input, 0, 0,", "placed([input, all, 1,"),
    ("levels, offset, new", "offset, levels, new", "levels, 0, new", "0, offset, new"),
    ("if (status !== BUFFER || (wanted <= most && (wanted || isWhole))) {", "if (true) {"),
    ("(wanted <= most && (wanted || isWhole))", "wanted <= most"),
    ("if (status !== BUFFER || found || isWhole) {", "if (true) {"),
    ("return [status, copied(text,", "return [0, copied(text,"),
    ("wanted), wordAt(STORED + 8)];", "wanted), wordAt(STORED)];"),
    ("drawn(input);", "drawn(input, 1);"),
    ("text.indexOf(10, at + 1)", "text.indexOf(10, at + 40)"),
    ("let count = 0;", "let count = -1;"),
    ("status: status || told.status", "status", "status: told.status"),
    # PEM
    ("const length = 2 * lengthOf(text) + 2;", "const length = 2 * lengthOf(text) + 1;"),
    ("[wordAt(STORED + 8), status, copied", "[1, status, copied"),
    "copied(room, wordAt(STORED))];\n  } finally {\n    wipe([[DEEP~>0]]);",
    # elements, trees, and the module
    ("    if (status) return [status];\n    const [header", "    const [header"),
    ("const end = header + length;", "const end = length;"),
    ("copied(GIVEN + header, length), copied(", "sliced(GIVEN + header, length), copied("),
    ("copied(GIVEN + end, lengthOf(input) - end)", "sliced(GIVEN + end, lengthOf(input) - end)",
     "copied(GIVEN + end, lengthOf(input))"),
    ("sec1_element_write: writesSecret,", "sec1_element_write: writes,"),
], "api.js": [
    ("  if (data instanceof Uint8Array) return data;\n", ""),
    # refusals
    *[(f"static status = {n};", f"static status = {n + 20};")
      for n in (1, 2, 3, 4, 5, 6, 8, 9, 10, 11, 12)],
    *[(f"static kind = '{it}';", f"static kind = '{it}s';")
      for it in ("Truncated", "Tag", "Length", "TrailingData", "Value", "Overlength", "Depth",
                "PointEncoding", "FieldLength", "Curve", "OtherCurve")],
    ("'sec1_status_to_text', this.status)", "'sec1_status_to_text', 12)"),
    ("if (!TEXTS.has(this.status))", "if (TEXTS.size < 5)"),
    ("static kind = null;", "static kind = 'Error';"),
    ("static status = null;", "static status = 0;"), ("'the library broke its contract'", "''"),
    ("offset === null ? text :", "!offset ? text :"), ("    this.name = new.target.name;\n", ""),
    ("this.offset = offset;", "this.offset = offset || null;"),
    ("TruncatedError, TagError, LengthError, TrailingDataError, ValueContentError, "
     "OverlengthError,",
     "TruncatedError, TagError, LengthError, TrailingDataError, OverlengthError,"),
    ("DepthError, PointEncodingError, FieldLengthError, CurveError, OtherCurveError, PemError,\n",
     "DepthError, PointEncodingError, FieldLengthError, CurveError,\n"),
    ("if (status) throw new", "if (status > 1) throw new"),
    ("?? Sec1Error)(offset)", "?? Sec1Error)()"),
    # arguments and results
    ("  if (data instanceof ArrayBuffer) return new Uint8Array(data);\n", ""),
    ("data.buffer, data.byteOffset, data.byteLength", "data.buffer"),
    ("  throw new TypeError('bytes are expected, as a Uint8Array');", "  return data;"),
    ("  if (typeof text !== 'string') throw new TypeError('a text is expected');\n", ""),
    ("bytes.subarray(0, -1)", "bytes"),
    ("if (!Number.isInteger(number))", "if (typeof number !== 'number')", "if (isNaN(number))"),
    ("if (!(value instanceof Class))", "if (!value)"),
    ("first === null || second === null", "first === null && second === null"),
    ("first.length === second.length && ", ""),
    ("byte === second[index]", "byte === second[index] || index > 30"),
    ("if (status) check(status, call(faultAt, bytes)[1]);", "check(status);"),
    ("  check(status);\n  return result;", "  return result;"),
    # identifiers and curves
    ("copyOf(bytesOf(content));", "bytesOf(content);"),
    ("    if (mark !== MADE) made('sec1_identifier_check', this.#content);\n", ""),
    ("this.#content = mark === MADE ?", "this.#content = mark ?"),
    ("const MADE = Symbol('made');", "const MADE = undefined;"),
    ("const isMade = mark === MADE;", "const isMade = true;"),
    ("    if (mark !== MADE) this.#read();\n", ""),
    ("return this.#content.slice();", "return this.#content;"),
    ("other instanceof ObjectIdentifier && same(this.#content, other.#content)",
     "other instanceof ObjectIdentifier && this.#content.length === other.#content.length"),
    ("String(this).split('.').map(Number)", "String(this).split('.')"),
    ("first[index] < second[index] ? -1 : 1", "first[index] < second[index] ? 1 : -1"),
    ("Math.sign(first.length - second.length)", "0", "first.length - second.length"),
    ("this.#fieldLength = made('sec1_curve_field_len', content);", "this.#fieldLength = 32;"),
    ("    this.#identifier = identifier;\n", ""),
    ("this.#identifier.equals(other.#identifier)", "true"),
    # keys
    ("privateKey : bytesOf(privateKey);", "privateKey : bytesOf(privateKey).slice();"),
    ("this.#privateKey = isMade", "this.#privateKey = this.hidden = isMade"),
    ("curve === null ? null : instance(ObjectIdentifier, curve)", "curve"),
    ("curve === null ? null : instance", "!curve ? null : instance"),
    ("publicKey === null || isMade ? publicKey : bytesOf(publicKey)", "publicKey"),
    ("publicKey === null || isMade ? publicKey", "!publicKey || isMade ? publicKey"),
    "    check(status[[, offset~>]]);\n    return EcPrivateKey.#ofParts",
    ("    check(status, offset);\n    return EcPrivateKey.fromDerOrPkcs8(data);",
     "    return EcPrivateKey.fromDerOrPkcs8(data);",
     "    check(status);\n    return EcPrivateKey.fromDerOrPkcs8(data);"),
    ("call('sec1_private_key_info_fault_at',", "call('sec1_private_key_fault_at',"),
    ("return EcPrivateKey.fromDerOrPkcs8(data);", "return EcPrivateKey.fromDer(data);"),
    ("= 'sec1_private_key_fault_at';", "= 'sec1_private_key_info_fault_at';"),
    ("#ofParts(...read('sec1_private_key_read', faultAt, bytesOf(data)))",
     "#ofParts(...call('sec1_private_key_read', bytesOf(data)).slice(1))"),
    ("= 'sec1_certificate_fault_at';", "= 'sec1_public_key_fault_at';"),
    ("return read('sec1_certificate_read_public_key', faultAt, bytesOf(data))[0];",
     "return made('sec1_certificate_read_public_key', bytesOf(data));"),
    *[("(privateKey, identifier, publicKey, MADE);", f"(privateKey, {it}, MADE);")
      for it in ("identifier, null", "null, publicKey")],
    ("same(this.#privateKey, other.#privateKey) &&", "true &&"),
    ("(this.#curve?.equals(other.#curve) ?? other.#curve === null) &&", ""),
    ("?? other.#curve === null)", "?? true)"),
    "      [[same(this.#publicKey, other.#publicKey)~>true]];\n  }\n\n  toDer() {\n    return this",
    ("this.#written('sec1_key_write')", "this.#written('sec1_private_key_info_write')"),
    ("Number(this.#publicKey !== null)", "Number(Boolean(this.#publicKey?.length))"),
    ("this.#curve?.content ?? NOTHING", "NOTHING"),
    # public keys and signatures
    ("this.#publicKey = copyOf(bytesOf(publicKey));", "this.#publicKey = bytesOf(publicKey);"),
    ("return this.#publicKey.slice();", "return this.#publicKey;"),
    ("this.#curve = instance(ObjectIdentifier, curve);", "this.#curve = curve;"),
    ("new Point(this.#publicKey, new Curve(this.#curve).fieldLength)",
     "new Point(this.#publicKey, this.#publicKey.length >> 1)"),
    "other instanceof EcPublicKey &&[[ this.#curve.equals(other.#curve) &&~>]]",
    "      [[same(this.#publicKey, other.#publicKey)~>true]];\n  }\n\n  toDer() {\n    return made",
    ("this.#r = copyOf(bytesOf(r));", "this.#r = copyOf(bytesOf(r)).slice(1);"),
    ("this.#s = copyOf(bytesOf(s));", "this.#s = copyOf(bytesOf(s)).reverse();"),
    ("return this.#r.slice();", "return this.#r;"), ("return this.#s.slice();", "return this.#s;"),
    ("same(this.toDer(), other.toDer())", "same(this.#r, other.#r)"),
    ("'sec1_signature_write', this.#r, this.#s", "'sec1_signature_write', this.#s, this.#r"),
    # points
    ("export const Tag = Object.freeze({", "export const Tag = ({"),
    ("HYBRID_EVEN: 6,\n  HYBRID_ODD: 7,", "HYBRID_EVEN: 7,\n  HYBRID_ODD: 6,"),
    ("copyOf(bytesOf(encoding));", "bytesOf(encoding);"),
    ("this.#fieldLength = wholeNumber(fieldLength);", "this.#fieldLength = fieldLength;"),
    ("{ tag, x, y };", "{ tag, x: y, y };", "{ tag, x, y: x };", "{ tag: tag & 6, x, y };"),
    ("    if (!this.#parts) {", "    if (this.#parts) {"),
    ("Number(Boolean(compress))", "Number(!compress)", "1"),
    ("made('sec1_point_identity'), fieldLength", "made('sec1_point_identity'), 32"),
    ("digits, wholeNumber(fieldLength)", "digits, fieldLength"),
    ("return this.#encoding.slice();", "return this.#encoding;"),
    ("this.#read().x?.slice() ?? null", "this.#read().x"),
    ("this.#read().y?.slice() ?? null", "this.#read().y", "this.#read().y?.slice()"),
    ("Number(Boolean(lowerCase))", "Number(!lowerCase)"),
    ("this.#made('sec1_point_compress')", "this.#made('sec1_point_to_hybrid')"),
    ("this.#made('sec1_point_to_hybrid')", "this.#made('sec1_point_compress')"),
    ("Point.fromCoordinates(x, y);", "Point.fromCoordinates(y, x);"),
    ("y === null ? this : Point", "this.tag !== 6 ? this : Point"),
    "other instanceof Point &&[[ this.#fieldLength === other.#fieldLength &&~>]]",
    ("this.compare(other) === 0", "this.compare(other) <= 0"),
    ("if (instance(Point, other).#fieldLength !== length)", "if (false)"),
    "'sec1_point_compare', [[this.#encoding, other~>other.#encoding, this]].#encoding, length",
    ("    return this.hex();", "    return this.hex(true);"),
    # pictures
    ("text.split('\\n').slice(0, -1)", "text.split('\\n').slice(1)", "text.trim().split(/\\n */)"),
    ("[kind, offset, headerLength, contentLength, depth, hidden]",
     "[kind, offset, contentLength, headerLength, depth, hidden]",
     "[kind, depth, headerLength, contentLength, offset, hidden]"),
    ("at * NUMBERS, (at + 1) * NUMBERS", "(at + 1) * NUMBERS, (at + 2) * NUMBERS"),
    ("const isHidden = hidden === 1;", "const isHidden = hidden === 0;"),
    ("if (kind === Kind.ROW) {", "if (kind !== Kind.MARK) {"),
    ("} else if (kind === Kind.MARK) {", "} else if (kind > Kind.ROW) {"),
    ("rows.at(-1).marks.push(line);", "rows[0].marks.push(line);"),
    ("      rows.at(-1).marks.push(line);\n", ""),
    ("{ all = false, levels", "{ all = true, levels"), ("offset = 0 } = {}", "offset = 0 }"),
    ("[countOf(levels), countOf(offset)]", "[levels, countOf(offset)]",
     "[countOf(levels), offset]"),
    ("  if (wholeNumber(number) < 0) throw new RangeError('the number is negative');\n", ""),
    "return [[Math.min(number, Number.MAX_SAFE_INTEGER)~>number~>Math.min(number, 1e9)]];",
    ("  const bytes = bytesOf(data);\n  if (", "  const bytes = data;\n  if ("),
    ("const bytes = bytesOf(data);\n    const [status", "const bytes = data;\n    const [status"),
    ("  check(plain.status);\n", ""), ("CODE.decode(plain.text)", "CODE.decode(plain.text).trim()"),
    ("if (all || limits.some(Boolean)) {", "if (all === true || limits.some(Boolean)) {",
     "if (all || limits[0]) {", "if (all || limits[1]) {", "if (limits.some(Boolean)) {"),
    "drawn(bytes, [[Number(Boolean(all))~>1~>0]], ...limits);",
    ("const LONGEST = 16777215;", "const LONGEST = 16777214;", "const LONGEST = 16777216;"),
    ("new TextDecoder();", "new TextDecoder('utf-16le');"),
    ("plain.isKey === 1]", "plain.isKey === 0]", "plain.isKey]"),
    # PEM
    (".sort((a, b) => a.line - b.line)", ".sort((a, b) => b.line - a.line)", ""),
    (".filter((it) => it.line)", "", ".filter((it) => !it.status)"),
    ("check(first ? first.status : PemError.status);", "check(first?.status);"),
    ("    for (const { found } of blocks) found.fill(0);\n", ""), ("    copy.fill(0);\n", ""),
    ("new ArrayBuffer(3 * text.length)", "new ArrayBuffer(text.length)"),
    ("'EC PRIVATE KEY': fromDer,", "'EC PRIVATE KEY': EcPrivateKey.fromDerOrPkcs8,"),
    ("'PRIVATE KEY': fromPkcs8Der }", "'PRIVATE KEY': EcPrivateKey.fromDerOrPkcs8 }"),
    ("pem('EC PRIVATE KEY', this.toDer())", "pem('PRIVATE KEY', this.toDer())"),
    ("pem('PRIVATE KEY', this.toPkcs8Der())", "pem('PRIVATE KEY', this.toDer())"),
    ("pem('PUBLIC KEY', this.toDer())", "pem('EC PUBLIC KEY', this.toDer())"),
    ("[64, 61, 10];", "[76, 61, 10];", "[64, 65, 10];"), ("wxyz0123456789+/'", "wxyz0123456789-_'"),
    ("(bytes[first + 1] ?? 0)", "bytes[first + 1]"),
    ("Math.floor((6 * at) / 8)", "Math.round((6 * at) / 8)"),
    ("Math.ceil(count / COLUMNS)", "Math.floor(count / COLUMNS)"),
    ("  bytes.fill(0);\n  text.fill(0);\n", "  text.fill(0);\n", "  bytes.fill(0);\n"),
    # elements, trees, and the module
    ("this.#tag = wholeNumber(tag);", "this.#tag = tag;"),
    ("this.#content = bytesOf(content);", "this.#content = copyOf(bytesOf(content));",
     "this.#content = content;", "this.#content = this.content_ = bytesOf(content);"),
    ("    check(status);\n    return [new Element", "    return [new Element"),
    ("new Element(bytes[0], content), rest]", "new Element(bytes[0] & 0xdf, content), rest]"),
    ("other instanceof Element && this.#tag === other.#tag &&", "other instanceof Element &&"),
    ("      same(this.#content, other.#content);\n", "      true;\n"),
    "'sec1_element_write', this.#tag[[~> % 256]], this.#content",
    ("'sec1_tree_check', 'sec1_tree_fault_at'", "'sec1_tree_check', 'sec1_key_fault_at'"),
    "call('sec1_document_len', bytesOf(data))[1][[ || null~>]]",
    ("export const version = '0.2.0';", "export const version = '0.2.1';"),
    ("export function documentLength", "export const other = 1;\nexport function documentLength"),
    # texts, arcs and curves at their limits
    ("ENCODER.encode(text)", "ENCODER.encode(text.normalize('NFKC'))"),
    ("= first.findIndex(", "= first.slice(0, 8).findIndex("),
    (".split('.').map(Number)", ".split('.').map((it) => it | 0)"),
    ("    this.#curve = instance(ObjectIdentifier, curve);",
     "    this.#curve = new Curve(instance(ObjectIdentifier, curve)).identifier;"),
    ("      rows ??= rowsOf(", "      rows = rowsOf("),
    ("  encoded.fill(0);\n", "  encoded.fill(0);\n  plain.numbers.fill(0);\n"),
], "index.d.ts": [
    ("  toHybrid(): Point;\n", ""),
    ("  readonly fieldLength: number;\n  readonly tag", "  readonly tag"),
    ("  readonly offset: number | null;", "  readonly offset: number;"),
], "module.js": [
    ("this engine has no WebAssembly'", "no'"),
    ("  if (!globalThis.WebAssembly) throw", "  if (false) throw"),
    ("a policy has to allow", "a policy may allow"),
    ("    new WebAssembly.Module(MAGIC);", "    new WebAssembly.Module(bytes);"),
    ("byte !== bytes[at]", "byte > bytes[at]"), ("is damaged, or this", "is damaged: this"),
    ("if (!source?.read) source = given;", "source = given;"),
    ("run(0x80n) === -128n;", "run(0x80n) !== 128;"), ("    return false;\n", "    return true;\n"),
    ("  if (!source.read) throw", "  if (false) throw"),
    ("    compiled = new WebAssembly.Module(bytes);\n  } catch (cause) {\n"
     "    throw new Error(reason(bytes, cause), { cause });",
     "    compiled = new WebAssembly.Module(bytes);\n  } catch (cause) {\n"
     "    throw new Error(reason(bytes, cause));"),
    ("    compiled = await WebAssembly.compile(bytes);\n  } catch (cause) {\n"
     "    throw new Error(reason(bytes, cause), { cause });",
     "    compiled = await WebAssembly.compile(bytes);\n  } catch (cause) {\n"
     "    throw new Error(reason(bytes, cause));"),
    ("  if (cause instanceof RangeError)", "  if (false)"),
], "node.js": [
    ("fs.readFileSync(url)", "fs.readFileSync(url).subarray(1)"),
], "index.js": [
    ("  if (!response.ok) throw", "  if (false) throw"),
], "package.json": [
    ('    "./sec1.wasm": "./sec1.wasm",\n', ""), ('"node": ">=18"', '"node": ">=12"'),
]}

UNREADABLE = "SyntaxError"
# Ends the tests where the first of them fails; node's own go on. What takes most of the time is run
# where all else passes.
STOP = """
let last = Promise.resolve();
const slow = [];
function run(name, call) {
  last = last.then(call).catch((error) => {
    console.error(name, error);
    process.exit(1);
  });
}
export default function test(name, call) {
  const at = SLOW.findIndex((it) => name.startsWith(it));
  if (at < 0) run(name, call);
  else slow[at] = [name, call];
}
const SLOW = ['reads the stored containers', 'draws the pictures', 'reads and writes PEM as',
  'reads stored keys', 'reads and writes keys of many', 'draws a text that is longer',
  'reads and writes points of each', 'refuses to write', 'asks first whether', 'fetches the module',
  'gives back memory', 'takes little memory', 'leaves no copy of', 'says why the module',
  'draws large inputs'];
process.once('beforeExit', () => slow.forEach((it) => run(...it)));
"""


def tool(_):
    """Returns the command that runs the tests."""
    return "node"


def copy(folder):
    """Copies the package, with files in place of links, which lead to others of the repository."""
    shutil.copytree(HERE, folder, dirs_exist_ok=True)
    tests = folder / "tests/test.js"
    whole = tests.read_text(encoding="utf-8")
    given = "import test from 'node:test';"
    assert whole.count(given) == 1
    tests.write_text(whole.replace(given, "import test from './stop.js';"), encoding="utf-8")
    tests.with_name("stop.js").write_text(STOP, encoding="utf-8")
    return folder


def commands(*_):
    """Returns what has to end well."""
    return [["node", "tests/test.js"]]
