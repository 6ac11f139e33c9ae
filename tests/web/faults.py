"""Faults of the page, for tests/plant, by the check that has to find them: it is made in Chromium,
and "in" another browser what that one alone shows.
"""
import pathlib
import shutil
import sys

TOP = pathlib.Path(__file__).resolve().parents[2]
sys.path[:0] = [str(TOP / "tests/dump"), str(TOP / "tests/web")]
import browsers  # noqa: E402
import checks  # noqa: E402
import made  # noqa: E402
import plant  # noqa: E402

# The file stands in front of the texts.
WORDS = 1
WHERE = {"library.js": "bindings/js/library.js", "page.html": "web/page.html",
         "style.css": "web/style.css", "make": "web/make"}
REQUEST = "fetch('https://planted.example/').catch(() => {});\n"
PART = "const part = (id) =>"
FAULTS = {"stored_examples": [
    ("dump.js", "const isVeiled = row.isPrivate &&", "const isVeiled = false &&"),
    ("engine.js", "items: items.slice(0, found)",
     "items: items.slice(0, found).map((it, at, all) => at === 1 ? all[2] ?? it : it)"),
    ("picture.js", "    marks.push(", "    if (line < 4) marks.push("),
    ("picture.js", "while (this.#kind(line) === Kind.MARK)", "if (this.#kind(line) === Kind.MARK)"),
    ("dump.js", "offset < start ? 'head'", "offset < start - 1 ? 'head'"),
    ("page.js", "() => copy(picture.text)", "() => copy(picture.text.replace(/.*\\n$/, ''))"),
    ("page.js", "kind === Kind.COMMAND\n", "false\n"),
    ("picture.js", "    if (isShown) columns[4] = columns[4]",
     "    columns[4] = columns[4].replace('k', '')"),
    ("engine.js", "while (around.length [[~>> 1 ]]&& holds(around.at(-1)))"),
    ("page.js", "const MOST_SAID = 400;", "const MOST_SAID = 1;"),
], "other_ways": [
    ("page.js", PART, REQUEST + PART), ("engine.js", "begun.then(", REQUEST + "begun.then("),
    ("page.js", "  say();\n[[~>  new Image().src = `https://planted.example/${result.bytes}`;\n]]"),
    ("page.html", "<h1>", "<h1><img src='https://planted.example/' alt=''>"),
    ("page.js", "  event.preventDefault();\n  if (hasFiles) {", "  if (hasFiles) {"),
    ("page.js", "  else clear();\n", ""),
    ("page.js", "  typed.value = '';\n  keep(taken);", "  keep(taken);"),
    ("page.js", "  clear();\n  typed.value = '';\n", "  clear();\n"),
    ("page.js", "showText(target.value, false)", "showText(target.value, true)"),
    ("page.js", "    typed.value = '';\n    showText(text, true);", "    showText(text, true);"),
    ("page.js", "document.addEventListener('dragover', (event) => {\n  event.preventDefault();",
     "document.addEventListener('dragover', () => {"),
    ("page.js", "document.addEventListener('drop', (event) => {\n  event.preventDefault();",
     "document.addEventListener('dropped', (event) => {"),
], "keys": [
    ("table.js", "ArrowLeft: () =>", "ArrowLeave: () =>"),
    ("table.js", "      element.focus({ preventScroll: true });\n", ""),
    ("table.js", "if (event.ctrlKey || event.altKey || event.metaKey) return;", ""),
    ("table.js", "      ArrowUp: () => at - 1,", "      ArrowUp: () => at - 2,"),
    ("table.js", "      End: () => last,", "      End: () => last - 1,"),
    ("table.js", "Math.max(moves[event.key](), 0)", "Math.max(moves[event.key](), 1)"),
    ("table.js", "item.hasInside && [[!this.#folds.isFolded(index)~>false]]) this.#fold"),
    ("table.js", "if (this.#folds.isFolded(index)) this.#fold(index);\n    else ", ""),
    ("table.js", "this.#picture.item(index).hasInside ? index + 1 : index",
     "Math.min(index + 1, this.#picture.count - 1)"),
    ("table.js", "this.select([[this.#picture.outside(item~>Math.max(item.index - 1, 0]]))"),
    ("picture.js", "  return [[this.#depth(index) < item.depth ? index : item.~>]]index;"),
    ("engine.js", "  close(() => true);\n", ""),
    ("engine.js", "(index) => depthOf(index) >= depth", "(index) => depthOf(index) > depth"),
    ("folds.js", "    return place + this.#upTo(at + 1);", "    return place;"),
    ("dump.js", "`${heading}${heading && '. '}Offset", "`Offset"),
    ("folds.js", "before += to - index - 1;", "before += to - index;"),
    ("folds.js", "    if (isIn) return false;", "    return false;"),
    ("table.js", "String(!this.#folds.isFolded(index))", "'true'"),
    ("table.js", "      if (item.hasInside) {\n", "      if (item.depth) {\n"),
    ("table.js", "    else if (event.target.closest('.fold')) this.#fold(index);\n", ""),
    ("dump.js", "if (row !== undefined) this.#table.select(Number(row));", ""),
    ("table.js", "String(item.depth + 1)", "String(item.depth)"),
    ("table.js", "    else this.select(index);\n  }\n\n  #key", "  }\n\n  #key"),
    ("table.js", "element.tabIndex = isCurrent ? 0 : -1;", "element.tabIndex = 0;"),
    ("table.js", "setAttribute('aria-selected', String(isCurrent[[~> || index === 0]]))"),
    ("page.html", 'role="treegrid"', 'role="grid"'),
    ("table.js", "cell.setAttribute('role', 'gridcell')", "cell.setAttribute('role', 'cell')"),
], "private_bytes": [
    ("dump.js", "offset >= row.start &&", "offset > row.start &&", "offset >= row.start + 16 &&"),
    ("table.js", "return this.#shown.has(item.index);", "return this.#shown.size > 0;"),
    ("table.js", "[[if (!this.#shown.delete(index)) ~>]]this.#shown.add(index);"),
    ("page.js", "  dump.clear();\n", ""), ("page.js", "  table.clear();\n", ""),
    ("picture.js", "isPrivate: isHidden === 1", "isPrivate: header === 0",
     "isPrivate: header > 0 && isHidden === 1", "isPrivate: content > 32 && isHidden === 1"),
    ("value.js", "item.isPrivate && !isShown ? null", "false ? null"),
    ("table.js", "'hide' : 'show'", "'show' : 'hide'"),
    ("table.js", "`${button.textContent} the private bytes`", "'show the private bytes'"),
    ("dump.js", "? ', hidden' : ''", "? '' : ', hidden'"),
    ("table.js", "this.#picture.columns(item[[, this.isShown(item)~>]]).at(-1)"),
    ("table.js", "      if (item.isPrivate) row.", "      if (item.isPrivate && index < 5) row."),
    ("table.js", "      Enter: () => this.#turn(this.#current),\n", ""),
    ("table.js", "if (event.target.closest('button')) this.#turn(index);\n    else ", ""),
    ("dump.js", "const VEIL = '\\u00b7\\u00b7';", "const VEIL = '\\u00b7';"),
], "everywhere": [
    ("dump.js", "element.dataset.row =",
     "element.title = this.#digits(offset);\n    element.dataset.row =",
     "element.dataset.byte = this.#bytes[offset];\n    element.dataset.row ="),
    ("table.js", "    button.type = 'button';\n",
     "    button.type = 'button';\n    button.title = this.#picture.value(item).text;\n"),
    ("table.js", "`${button.textContent} the private bytes`",
     "`${button.textContent} ${this.#picture.value(item).text}`"),
    ("table.js", "row.dataset.index = String(index);", "row.dataset.index = String(index);\n"
     "    row.style.setProperty('--content', [...this.#picture.content(item)].join());"),
    ("value.js", "this.#box.hidden = isEmpty;",
     "this.#box.hidden = isEmpty;\n    this.#box.title = item.content && picture"
     " ? picture.value(item)?.text : '';"),
    ("value.js", "item.isPrivate && !isShown ? null", "item.isPrivate && isShown ? null"),
    ("page.js", "  say();\n", "  say();\n  window.lastInput = result.bytes.slice();\n",
     "  say();\n  window.picture = [...result.bytes];\n",
     "  say();\n  document.title = String.fromCharCode(...result.bytes.subarray(0, 60));\n",
     "  say();\n  window.name = [...result.bytes].join(' ');\n", "  say();\n"
     "  localStorage.last = btoa(String.fromCharCode(...result.bytes.subarray(0, 99)));\n",
     "  say();\n  sessionStorage.last = name.textContent;\n",
     "  say();\n  indexedDB.open('last').onupgradeneeded = ({ target }) => {\n"
     "    target.result.createObjectStore('bytes').put(result.bytes.slice(), 0);\n  };\n",
     "  say();\n  console.debug(result.bytes);\n",
     "  say();\n  history.replaceState({ bytes: [...result.bytes] }, '');\n",
     "  say();\n  history.pushState(null, '');\n",
     "  say();\n  location.hash = [...result.bytes.subarray(0, 60)].map((it) => it.toString(16)"
     ".padStart(2, '0')).join('');\n",
     "  say();\n  part('wanted').value = [...result.bytes.subarray(0, 60)].join();\n",
     "  say();\n  document.body.append(document.createComment([...result.bytes].join()));\n"),
    ("engine.js", "    postMessage(found,", "    console.log(found.text);\n    postMessage(found,"),
    ("page.js", "name.textContent = title;[[~>\n  document.title = title;]]"),
    ("table.js", "    this.#shown.clear();\n    this.#list.set(0);", "    this.#list.set(0);"),
    ("page.js", "  value.clear();\n", ""),
], "clipboards": [
    ("page.js", "() => copy(picture.text)", "() => copy(`${picture.text}${picture.input}`)"),
    ("value.js", "picture.content(item), '')", "picture.bytes(item), '')"),
    ("value.js", "this.#box.hidden = isEmpty;", "this.#box.hidden = false;"),
    ("rows.js", "    if (isContent(text, from)) continue;\n", ""),
    ("rows.js", "rest && withoutValue(rest, of[CONTENT])", "rest"),
    ("rows.js", "Number(content > 0 && !isOpen)", "0"),
    ("page.js", "copied.textContent = 'copied';", "copied.textContent = ' copied';"),
], "policy": [
    ("make", "default-src 'none'; ", "default-src 'self'; ", "default-src 'none'; connect-src *; "),
    ("make", "worker-src blob:; ", "worker-src *; "), ("make", "; form-action 'none'", ""),
    ("make", "base-uri 'none'; ", ""),
    ("make", " 'wasm-unsafe-eval'; ", " 'unsafe-eval' 'wasm-unsafe-eval'; "),
    ("make", "style-src {digest(style)}", "style-src 'unsafe-inline'"),
    ("page.html", 'autocomplete="off" autocapitalize', 'autocapitalize'),
    ("page.html", '\n      spellcheck="false"></textarea>', "></textarea>"),
    ("page.html", 'content="no-referrer"', 'content="origin"'),
    ("page.html", '"Text, name or offset" spellcheck="false"', '"Text, name or offset"'),
    ("page.html", "<footer>", '<footer><a href="https://planted.example/">more</a>'),
], "buffers": [
    ("page.js", "  if (picture) wipe(picture.found);\n", ""),
    ("drawing.js", "of Object.values(found)", "of Object.values({ ...found, bytes: null })",
     "of Object.values({ ...found, text: null })", "of Object.values(found).slice(0, 3)"),
    ("drawing.js", "    this.#worker?.terminate();\n    this.#worker = null;\n  }\n\n  #take",
     "  }\n\n  #take"),
    ("drawing.js", "postMessage({ input, isAll }[[, [input.buffer]~>]])"),
    ("page.js", "addEventListener('pagehide', forget);", ""),
    ("page.js", "part('clear').addEventListener('click', forget);",
     "part('clear').addEventListener('click', () => { said.replaceChildren(); });"),
    ("drawing.js", "      it.fill(0);", "      it.fill(0, 1);"),
    ("page.js", "picture = new Picture([[result~>{ ...result, bytes: result.bytes.slice() }]]);"),
], "memory": [
    ("library.js", "memory.fill(0, STORED, end);", "memory.fill(0, STORED + 65536, end);"),
    ("library.js", "memory.fill(0, STACK - depth, STACK);", ""),
    ("library.js", "[65536, 53248, 4096]", "[65536, 4096, 4096]"),
    ("library.js", "  if (memory.length > KEPT) renew();\n", ""),
], "values": [
    ("letters.js", "\\\\p{C}", ""), ("letters.js", "\\\\p{Default_Ignorable_Code_Point}", ""),
    ("letters.js", "|(?! )\\\\p{Zs}", ""), ("letters.js", "\\\\p{Zl}", ""),
    ("letters.js", ".replace(MARKS, escaped)", ""),
    ("letters.js", "    .replace(/\"(\\p{M}+)/gu, (_, marks) => `\"${escaped(marks)}`)", ""),
    ("letters.js", "  if (!words.includes('\\\\u{')) return words;", "  return words;"),
    ("letters.js", "[12, 0], ", ""), ("letters.js", "[28, 4], [30, 2]", "[28, 4], [30, 1]"),
    ("letters.js", "content[0] === 0 && content.length > 1", "false"),
    ("letters.js", "  if (isSigned) number -= 1n << BigInt(8 * content.length);\n", ""),
    ("letters.js", "hex: isSigned ? '' : hex", "hex"),
    ("letters.js", "hexOf(digits, ':')", "hexOf(digits, '')"),
    ("picture.js", "(tag === 2 || tag === 10)", "tag === 10"),
    ("value.js", "() => value.text,", "() => wordsOf(value),"),
    ("value.js", "hexOf(picture.content(item)[[~>.subarray(1)]], '')"),
    ("picture.js", 'const quoted = [[/^[^"]*"(?:[^"\\\\]|\\\\.)*("|$)/.exec(words)~>null]];'),
    ("picture.js", "|| item.content > WHOLE) return", "|| item.content > 4) return"),
    ("picture.js", "item.content > SAID ? UNSAID : PART_SAID", "PART_SAID", "UNSAID"),
    ("value.js", "more ? `${front} (${more})` : front", "front"),
], "searching": [
    ("search.js", ".toLowerCase().includes(wanted));\n}", ".includes(wanted));\n}"),
    ("search.js", "const wanted = text.trim().toLowerCase();", "const wanted = text.trim();"),
    ("search.js", "/[[\\.\\.\\.\\n|String, ~>String, ~>\\.\\.\\.\\n]]/.test(text)"),
    ("search.js", "if (isFirst && /^\\d+$/.test(wanted)) {", "if (false) {"),
    ("search.js", "(isBack ? from - done : from + done)", "(from + done)"),
    ("search.js", "    if (isBack) found.reverse();\n", ""),
    ("search.js", "const words = item.kind === Kind.ROW ? columns.slice(3) : columns;",
     "const words = columns.slice(3, 4);"),
    ("page.js", "isFirst: text !== asked", "isFirst: true"),
    ("page.js", "'No row has it' : ''", "'' : ''"), ("page.js", "table.select(index, false);", ""),
    ("folds.js", "    if (isIn) return false;", "    return false;"),
    ("page.js", "    table.focus();\n  }\n});", "  }\n});"),
    ("page.js", "  part('wanted').focus();\n", ""),
    ("page.js", "part('before').addEventListener('click', () => look([[true~>false]]));"),
], "all_rows": [
    ("page.js", "all.hidden = [[!isAll && !picture.undrawn~>true~>false]];"),
    ("page.js", "  if (isSame) copied", "  if (isAll) copied", "  if (false) copied"),
    ("page.js", "show(picture.input.slice(), name.textContent, { go: true[[, isAll~>]] });"),
    ("rows.js", "const isOpen = this.#known.open.has(", "const isOpen = !this.#known.open.has("),
    ("rows.js", "    if (ended >= 0) this.#ends.length = ended;\n", ""),
    ("rows.js", "this.#ends.findIndex(", "this.#ends.findLastIndex("),
    ("rows.js", "      this.#part += Number(this.#count > 0);\n", ""),
    ("page.js", "String(isAll)", "'true'"),
    ("rows.js", "left = row ? marks.get(`${headings} ${row[1]}`) ?? [] : [];", "left = [];"),
    ("rows.js", "      left = left.filter((it) => it !== words);\n", ""),
], "several_files": [
    ("page.html", 'id="file" multiple', 'id="file"'),
    ("page.js", "showFile(given[Number(files.value)])", "showFile(given[0])"),
    ("page.js", "given.length < 2;", "false;"),
    ("page.js", "  keep([]);\n  drawing.end();\n", "  drawing.end();\n"),
    ("table.js", "    this.#shown.clear();\n    this.#list.set(0);", "    this.#list.set(0);"),
    ("page.js", "name.textContent = title;", "name.innerHTML = title;"),
], "large": [
    ("list.js", "const top = [[~>2 * ]]share * this.#box.clientHeight"),
    ("list.js", "() => this.#draw());\n    new Resize", "() => 0);\n    new Resize"),
    ("list.js", "    new ResizeObserver(() => this.#draw()).observe(box);\n", ""),
    ("table.js", "PageUp: () => at - this.#list.page", "PageUp: () => at - 1"),
    ("table.js", "PageDown: () => at + this.#list.page", "PageDown: () => at + 1"),
    ("search.js", "for (let done = isFirst ? 0 : 1; done [[<=~>+ from <]] count;)"),
], "limits": [
    ("page.js", "const LONGEST = [[16777215~>16777214~>33554432]];"),
    ("list.js", "HIGHEST = 8_000_000;", "HIGHEST = 80;"),
    ("dump.js", "const isVeiled = [[~>row.content < 2000 && ~>offset < 4096 && ]]row.isPrivate &&"),
    ("dump.js", "if (!isTurned && bytes.length", "if (bytes.length"),
], "limits in firefox-esr": [
    ("list.js", "const HIGHEST = 8_000_000;", "const HIGHEST = 800_000_000;"),
], "stopping": [
    ("page.js", "    busy.hidden = false;\n", ""),
    ("page.js", "part('stop').addEventListener('click', () => stopped());", ""),
    ("page.js", "    refuse('Stopped: nothing is drawn.');\n", ""),
    ("drawing.js", "    this.#worker.terminate();\n    this.#worker = null;\n", ""),
    ("page.js", "    busy.hidden = true;\n", ""),
    ("page.js", "  stopped();\n  drawing.stop();", ""),
], "style": [
    ("style.css", ".row .mark { grid-column", ".row .mark { display: none; grid-column"),
    ("style.css", "#dump { padding", "#dump { display: none; padding"),
    ("style.css", ".row { cursor: default;", ".row { color: var(--back); cursor: default;"),
    ("style.css", ".bytes .veiled { color: [[var(--faint)~>transparent]]; }"),
    ("style.css", "#said p { [[~>text-indent: -9999px; ~>opacity: .3; ]]margin: 0;"),
    ("style.css", "--text: light-dark(#1b1f24, #e4e7eb);", "--text: light-dark(#1b1f24, #1b1f24);"),
    ("style.css", "--faint: light-dark(#[[525c69~>8a94a2]], #a9b3c1);"),
    ("style.css", "--mark: light-dark(#a3260f, #ff9d85);", "--mark: light-dark(#ff9d85, #ff9d85);"),
    ("style.css", "min-width: 24px; min-height: 24px;", "min-width: 24px; min-height: 20px;"),
    ("style.css", "::placeholder { color: [[var(--faint)~>#999]]; opacity: 1; }"),
    ("style.css", ".row .fold { display: inline-block; width: [[24px~>12px]];"),
    ("page.js", "  name.hidden = false;\n", ""),
    ("style.css", ".bytes .head { background: var(--[[head~>text]]); }"),
], "focus": [
    ("style.css", ":focus-visible, .row:focus { outline: .15rem", ".row:focus { outline: .15rem",
     ":focus-visible, .row:focus { outline: .05rem"),
    ("style.css", ".ways label:focus-within { outline: [[.15rem~>0]] solid var(--link);"),
    ("style.css", ".row { cursor: default;", ".row { outline: none !important; cursor: default;"),
    ("page.html", 'id="copy" hidden', 'id="copy" tabindex="-1" hidden'),
    ("table.js", "    if (hasFocus) renewed.focus();\n", ""),
    ("table.js", "      [[event.preventDefault();\n      ~>]]acts[event.key]();"),
], "narrow": [
    ("dump.js", "LITTLE.matches ? NARROW : WIDE", "WIDE"),
    ("dump.js", "LITTLE.addEventListener('change',", "LITTLE.addEventListener('changed',"),
    ("style.css", "  #dump { min-width: 0; }\n", "  #dump { min-width: 60rem; }\n"),
    ("style.css", ".top { position: sticky; top: 0;", ".top { position: static; top: 0;"),
    ("dump.js", "    if ([[!isTurned && bytes.length && item.kind === Kind.ROW~>false]]) {"),
], "told": [
    ("table.js", "String(index + 2)", "String(index + 1)"),
    ("table.js", "String(picture.count + 1)", "String(picture.count)"),
    ("dump.js", "count === 1 ? '' : 's'", "'s'"),
    ("picture.js", "isPrivate: isHidden === 1", "isPrivate: isHidden === 1 || !content"),
    ("dump.js", "content + inside)", "content)"),
], "messages": [
    ("page.js", "    copied.textContent = '[[The browser doesn\\u2019t allow it~>copied]]';\n"),
    ("page.js", "for (const element of [name, [[copied, ~>]]found]) element.textContent = '';"),
    ("page.js", "() => copy(line.trim())", "() => copy(picture.text)"),
    ("page.js", "    await navigator.clipboard.writeText(text);\n", ""),
    ("page.js", "    refuse(`${file.name} can\\u2019t be read.`);\n", ""),
    ("page.js", "  element.[[textContent~>innerHTML]] = text;\n  return element;\n}\n\n/** Puts"),
    ("page.html", "sec1.html of Bridgeacacia {version}", "A page of {version}"),
], "needs": [
    ("engine.js", ", ({ message }) => postMessage({ error: message }));", ", () => {});"),
    ("drawing.js", "if (!globalThis.Worker) throw", "if (false) throw"),
    ("page.html", "It needs JavaScript", "It needs a network"),
], "stored_files": [
    ("picture.js", "    return marks;\n", "    return [];\n"),
]}

# Those that run, by name.
running = {}


def path(_, file):
    """Returns the file of a fault in a copy."""
    return WHERE.get(file, f"web/src/{file}")


def tool(key):
    """Returns the browser in which a check is made."""
    return key.partition(" in ")[2] or "chromium"


def copy(folder):
    """Copies what the page is made of."""
    for name in ("web", "bindings/js", "dist"):
        (folder / name).mkdir(parents=True)
    for name in ("web/make", "web/page.html", "web/style.css", "bindings/js/module.js",
                 "bindings/js/library.js", "dist/sec1.wasm", "dist/sec1.h"):
        shutil.copy(TOP / name, folder / name)
    shutil.copytree(TOP / "web/src", folder / "web/src")
    made.folder = folder
    browsers.IDLE = 20
    return folder


def run(sources, key, file=None):
    """Returns whether a check passes, of the page that is made of a copy, and says of one without a
    fault why it doesn't."""
    name = tool(key)
    if name not in running:
        running[name] = browsers.KINDS[name](sources)
    browser = running[name]
    wrong = checks.tries(getattr(checks, key.partition(" in ")[0]), browser, sources)[1]
    has_ended = browser.process.poll() is not None
    if has_ended or browser.is_stuck:
        running.pop(name).close()
    if has_ended:
        raise plant.Unnoticed(wrong)
    if wrong and not file:
        print(f"{key}: {wrong}", flush=True)
    return not wrong


def end():
    """Ends the browsers."""
    for it in running.values():
        it.close()
