"""What is tried of the page, each check with one that was opened anew. A check counts its cases by
the page, and raises Failed at the first that isn't as it has to be.
"""
import base64
import hashlib
import itertools
import json
import re
import time

import inputs
import made
import programs
from browsers import Failed
from expected import View, after, drawn, view
from inputs import CERTIFICATE, EMPTY, KEY, SECRETS, TWO_BLOCKS, element, pem
from page import FOCUSED, SAID, SELECTED, Page, about, private_in, row_at

# What the page copies is kept in it, where the clipboard itself isn't looked at.
KEEPS = """navigator.clipboard.writeText = async (text) => {
  document.documentElement.dataset.copied = text; }, 0"""
SHOW = "$('#list .row button').click()"


def tries(check, browser, room, file=None):
    """Makes a check of this file, or of a page that is made. Returns how many cases have passed, or
    why one didn't."""
    before = made.BEFORE.get(check.__name__, "")
    if before or not file:
        file = room / "made.html"
        file.write_text(made.page(before), encoding="utf-8")
    try:
        browser.proxy.asked.clear()
        page = Page(browser, file, room)
        check(page)
        if check is not needs:
            page.want(browser.complaints(), [], "what the browser says")
        return page.cases, ""
    except Failed as reason:
        return 0, str(reason)


def stored_examples(page):
    """The inputs of the pictures drawn by hand: dropped, chosen and pasted, and copied."""
    for number, (name, data, *_) in enumerate(programs.drawn_by_hand()):
        if data.startswith(b"-") and data.isascii():
            page.paste(data.decode())
        else:
            give = page.choose if number % 2 else page.drop
            give(page.store(f"example-{number}", data))
        with about(name):
            page.compare(data)
            page.want(page.copied("#copy"), drawn(data), "what is copied")


def other_ways(page):
    """Hexadecimal and base64 that are pasted, text that is typed, and files that are no key."""
    for number, (name, text) in enumerate(inputs.PASTED.items()):
        page.run(f"$('#{'typed' if number % 2 else 'copy'}').focus()")
        page.paste(text)
        with about(name):
            page.compare(text.encode())
        page.see("$('#typed').value", "", "what is left of a paste in its field")
    page.clear()
    page.type("0500")
    page.wait("$$('#list .row').length", value=1)
    page.wait(SAID, value=view(b"0500").said)
    page.compare(b"0500")
    page.see("document.activeElement.id", "typed", "the focus after a digit")
    page.press(*["Backspace"] * 4)
    page.wait("$('#name').hidden", "an emptied field's picture")
    for what, act in (("beside a paste", lambda: page.paste("0500")),
                      ("beside a file", lambda: page.drop(page.store("beside", KEY))),
                      ("after Clear", page.clear)):
        page.type("05")
        page.wait_for("Text")
        act()
        page.see("$('#typed').value", "", f"typed text {what}")


# ---- the table by keys

def keys(page):
    """The table is walked by keys: the focus, and the row that is selected."""
    rows = page.give("certificate", CERTIFICATE).rows
    page.see(FOCUSED, "0", "the focus after a file was chosen")
    table = Tree(rows)
    letters = {"D": "ArrowDown", "U": "ArrowUp", "L": "ArrowLeft", "R": "ArrowRight",
               "E": "End", "H": "Home"}
    # Then two are folded, one behind the other.
    for letter in "DDDDDDDUUEDHURRRDDLLLDURRELLLLRH" "DDLDDLDEHDDRDDDRH":
        key = letters[letter]
        page.press(key)
        table.press(key)
        compare_table(page, table, key)
    page.want([row.level for row in page.rows()], [rows[at].depth + 1 for at in table.seen],
              "the levels")
    roles = page.run("$$('[role]').map((it) => it.getAttribute('role'))")
    page.want(set(roles), {"status", "search", "treegrid", "rowgroup", "row", "columnheader",
                           "gridcell"}, "roles")
    if not page.browser.is_scripted:
        page.press("Tab")
        page.see("document.activeElement.closest('#list .row')", None,
                 "the table is left by one Tab")
    combined(page)
    over_parts(page)


class Tree:
    """What the keys of a tree do with rows."""

    def __init__(self, rows):
        self.rows, self.at, self.folded = rows, 0, set()

    def has_inside(self, at):
        """Returns whether there are rows inside of one."""
        return after(self.rows, at) > at + 1

    @property
    def seen(self):
        """The places of the rows that aren't folded away."""
        seen, at = [], 0
        while at < len(self.rows):
            seen.append(at)
            at = after(self.rows, at) if at in self.folded else at + 1
        return seen

    def press(self, key):
        """Does what a key does."""
        seen, at = self.seen, self.at
        if key == "ArrowLeft" and self.has_inside(at) and at not in self.folded:
            self.folded.add(at)
        elif key == "ArrowLeft":
            self.at = next((it for it in range(at, -1, -1)
                            if self.rows[it].depth < self.rows[at].depth), at)
        elif key == "ArrowRight" and at in self.folded:
            self.folded.remove(at)
        elif key == "ArrowRight":
            self.at = at + self.has_inside(at)
        else:
            step = {"ArrowDown": 1, "ArrowUp": -1, "End": len(seen), "Home": -len(seen)}[key]
            self.at = seen[min(max(seen.index(at) + step, 0), len(seen) - 1)]


def compare_table(page, table, key):
    """Compares the rows with those of a tree."""
    page.see(FOCUSED, str(table.at), f"the focus after {key}")
    rows = page.rows()
    page.want([row.index for row in rows if row.selected], [table.at],
              f"what is selected after {key}")
    page.want([row.index for row in rows], table.seen, f"which rows there are after {key}")
    wanted = [str(at not in table.folded).lower() if table.has_inside(at) else None
              for at in table.seen]
    page.see("$$('#list .row').map((it) => it.getAttribute('aria-expanded'))", wanted,
             f"which rows are folded after {key}")


def combined(page):
    """Keys with Ctrl, and a letter, move nothing. A click selects, and one on the mark folds."""
    page.run("$('#list [aria-selected=true]').focus()")
    page.click(f"{row_at(2)} .element")
    page.see(SELECTED, [2], "what a click selects")
    if not page.browser.is_scripted:
        page.browser.press("ArrowDown", "none")
        page.see(SELECTED, [2], "what is selected after Ctrl and an arrow")
    page.click(f"{row_at(2)} .fold")
    page.see(f"$('{row_at(3)}')", None, "what a click on the mark folds")
    page.click(f"{row_at(2)} .fold")
    page.click('#dump span[data-row="5"]')
    page.see(SELECTED, [5], "the row of a byte that is clicked")
    page.click(f"{row_at(4)} .element")
    page.press("ArrowUp", "ArrowUp", "ArrowLeft")
    page.see(SELECTED, [2], "the row that is folded")
    page.click('#dump span[data-row="3"]')
    page.see(SELECTED, [3], "the row of a byte that was folded")
    rows = page.give("behind", CERTIFICATE + KEY).rows
    page.press("End", "ArrowLeft")
    page.see(SELECTED, [len(rows) - 1], "what is outside of a row behind the root")


def over_parts(page):
    """Arrows stay in a part, and headings are rows."""
    items = page.give("two.pem", TWO_BLOCKS.encode()).items
    second = next(item.index for item in items if item.level == 0 and item.index)
    page.press("End")
    page.see(FOCUSED, str(len(items) - 1), "the focus on the last part's end")
    heading = items[second].columns[0]
    page.want(page.text("#where")[:len(heading)], heading, "where the row is")
    page.select(second + 1)
    for pressed, selected, what in (
            (["ArrowLeft"] * 2, second + 1, "what is outside of a part's root"),
            (["ArrowUp"], second, "the heading"),
            (["ArrowRight"], second, "what is inside of a heading"),
            (["ArrowUp", "ArrowRight"], second - 1, "what is inside of the last row of a part")):
        page.press(*pressed)
        page.see(SELECTED, [selected], what)
        if selected == second:
            page.want(page.text("#where"), heading, "where the heading is")


# ---- private bytes

def private_bytes(page):
    """Private bytes are hidden until they are shown, row by row, by a key and by the button."""
    page.run(KEEPS)
    by_key = itertools.cycle((False, True))
    for name, data, secrets in SECRETS:
        page.choose(page.store(name, data))
        page.unseen(secrets, name)
        given = page.compare(data)
        for line in given.rows:
            if line.hidden:
                turn(page, given, line, next(by_key))
        page.unseen(secrets, f"{name}, where rows were shown and hidden")
        page.clear()
        page.want(page.text("#dump") + page.text("#list") + page.text("#value"), "", "what is left")
        page.unseen(secrets, f"{name}, after Clear")


def turn(page, given, line, by_key):
    """Shows the private bytes of a row, and hides them again."""
    row, field = row_at(given.rows.index(line)), line.columns[4]
    for word, shown, wanted in (("hide", [line], field.replace(", not shown", "")),
                                ("show", [], field)):
        if by_key:
            page.run(f"$('{row}').focus()")
            page.click(f"{row} .element")
            page.press("Enter")
        else:
            page.click(f"{row} button")
        page.wait(f"$('{row} button').textContent", value=word)
        page.compare_bytes(given, line, shown)
        page.see(f"""[$$('#list button').length, $('{row} .field').firstChild.nodeValue,
                 $('{row} button').getAttribute('aria-label')]""",
                 [sum(it.hidden for it in given.rows), wanted, f"{word} the private bytes"],
                 "how many buttons there are, the field's name, and what the button says")
        page.want(page.text("#where").endswith(", hidden"), not shown,
                  "whether it is said to be hidden")


def everywhere(page):
    """After each input and each key no private byte is anywhere in the document, in what a browser
    keeps, or on the clipboard; and the second of two keys is veiled where the first one's were
    shown."""
    page.run(KEEPS)
    kept = "[history.length, window.name, document.title, location.href, document.cookie]"
    before = page.run(kept)
    for number, (name, data, secrets) in enumerate(SECRETS):
        page.give(name, data)
        page.unseen(secrets, name)
        for key in ("ArrowDown", "ArrowDown", "ArrowLeft", "ArrowRight", "End", "PageUp",
                    "PageDown", "Home", "a"):
            page.press(key)
            page.unseen(secrets, f"{name}, after {key}")
        page.run(SHOW)
        page.wait("$('#list .row button').textContent", value="hide")
        page.unseen(secrets[1:], f"{name}, where one row is shown")
        # Another file, with its private content at the same row.
        second = bytes(7 * byte % 256 for byte in secrets[0])
        changed = data.replace(secrets[0], second)
        if changed != data:
            page.give(f"second-{name}", changed)
            page.unseen([second, *secrets], f"{name}, behind one that was shown")
        others = [it for it in SECRETS if it[0] != name and it[2] != secrets]
        other, data, secrets = others[number % len(others)]
        page.give(other, data)
        page.unseen(secrets, "the next one")
        page.run(SHOW)
        page.clear()
        page.unseen(secrets, "after Clear")
    page.see(kept, before, "what the browser keeps")
    page.see("(async () => [localStorage.length, sessionStorage.length, history.state, "
             "(await indexedDB.databases?.() ?? []).length])()", [0, 0, None, 0], "what is stored")


def clipboards(page):
    """What is copied has no private byte that isn't shown."""
    for name, data, secrets in SECRETS:
        page.give(name, data)
        page.want(page.copied("#copy"), drawn(data), "what is copied")
        page.run(SHOW)
        page.wait("$('#value').textContent !== ''")
        page.want(private_in(page.copied("#copy"), secrets), None, f"{name}: what is copied")
        if name == "key.der":
            page.want(page.copied("#copy-bytes").lower(), secrets[0].hex(),
                      "the bytes that are copied")
        page.run(SHOW)
        page.see("$$('#copy-value, #copy-bytes').map((it) => it.checkVisibility())",
                 [False, False], f"{name}: buttons of what is hidden")
        if not page.run("$('#all').hidden"):
            page.turn_all(True)
            page.want(private_in(page.copied("#copy"), secrets, 8), None,
                      f"{name}: private bytes in the copy of all rows")
            page.unseen(secrets, f"{name}, where all rows are shown", 8)


def policy(page):
    """What the page says that the browser may do, and keep."""
    text = page.file.read_text(encoding="utf-8")
    script, style = (re.search(f"<{name}>(.*?)</{name.split()[0]}>", text, re.S)[1] for name in (
        'script type="module"', "style"))
    digests = [base64.b64encode(hashlib.sha256(it.encode()).digest()).decode()
               for it in (script, style)]
    wanted = (f"default-src 'none'; script-src 'sha256-{digests[0]}' 'wasm-unsafe-eval'; "
              f"worker-src blob:; style-src 'sha256-{digests[1]}'; base-uri 'none'; "
              "form-action 'none'")
    page.want(re.findall(r'Content-Security-Policy" content="([^"]*)"', text), [wanted],
              "the policy")
    page.want(text.index("Content-Security-Policy") < text.index("<style"), True,
              "the policy comes early")
    page.want(re.findall(r"<meta name=\"referrer\" content=\"([^\"]*)\"", text), ["no-referrer"],
              "what is said to others")
    for name in ("typed", "wanted"):
        page.see(f"['autocomplete', 'spellcheck'].map((it) => $('#{name}').getAttribute(it))",
                 ["off", "false"], f"what the browser does with #{name}")
    for name in ("src=", "href=", "http:", "https:", "<iframe", "<form", "<link"):
        page.want(name in text.replace(script, ""), False, f"{name} is in the page")
    page.want(text.count("<script"), 1, "how many scripts there are")


def buffers(page):
    """Each buffer that the page was given is overwritten, or given away, when it isn't needed."""
    for number, (name, data, _) in enumerate(SECRETS):
        page.give(f"buffer-{number}", data)
        page.run(SHOW)
        page.see("total(kept) > 0", True, "a buffer of the page is seen")
        if number % 2:
            page.clear()
            page.see("total(kept)", 0, f"{name}: bytes in buffers after Clear")
            page.see("workers.every((it) => it.isEnded)", True, "the worker is ended")
        else:
            page.run("window.old = kept.splice(0), 0")
            page.give("other", bytes([5, 0]))
            page.see("total(old)", 0, f"{name}: bytes in buffers after the next file")
    page.give("left", KEY)
    page.run("dispatchEvent(new Event('pagehide'))")
    page.see("total(kept)", 0, "bytes in buffers where the page is left")
    page.see("[$('#typed').value, $('#list').textContent]", ["", ""], "what is left")


def memory(page):
    """The module's memory has no byte of a key once a picture is drawn, and is small again."""
    look = """new Promise((resolve) => { const worker = workers.at(-1);
      worker.addEventListener('message', ({ data }) => resolve(data.seen), { once: true });
      worker.postMessage({ look: true }); })"""
    for name, data, *_ in [*SECRETS, ("all", EMPTY), *inputs.LARGE]:
        page.choose(page.store(name, data))
        if name == "all":
            page.run("$('#all').click()")
            page.wait("$$('#list .row').length > 4")
        left, size = page.run(look)
        page.want(left, -1, f"{name}: where a byte of the memory is another")
        if name in ("key.der", "numbers.der", "empty.der"):
            page.want(size <= 4 << 20, True, f"{name}: a memory of {size} bytes")


# ---- what a person looks for

# Names, and how they are shown.
NAMES = {
    "D\u00dcnit & S\u00f6hne": "D\u00dcnit & S\u00f6hne",
    "\u0130\u017f\u4e2d\u6587 \u0440\u0443": "\u0130\u017f\u4e2d\u6587 \u0440\u0443",
    "pay\u202epal": "pay\\u{202E}pal", "zero\u200bwidth": "zero\\u{200B}width",
    "soft\u00adhyphen": "soft\\u{AD}hyphen", "hard\u00a0blank": "hard\\u{A0}blank",
    "tag\U000e0041": "tag\\u{E0041}", "private\ue000": "private\\u{E000}",
    "filler\u3164": "filler\\u{3164}", "line\u2028end": "line\\u{2028}end",
    "\u0301mark": "\\u{301}mark", "cafe\u0301": "cafe\u0301",
    "\u0939\u093f\u0928\u094d\u0926\u0940": "\u0939\u093f\u0928\u094d\u0926\u0940",
    "a\\b \\u{DC}": "a\\\\b \\\\u{DC}", '"quoted"': '\\"quoted\\"',
    "two  blanks": "two  blanks"}


def named(*texts, tag=12, code="utf-8"):
    """Returns a certificate with these texts as common names of its issuer."""
    names = b"".join(
        element(0x31, element(0x30, bytes.fromhex("0603550403") + element(tag, text.encode(code))))
        for text in texts)
    # Its issuer stands behind the algorithm of the signature.
    tbs = CERTIFICATE[8:47] + element(0x30, names) + CERTIFICATE[104:336]
    return element(0x30, element(0x30, tbs) + CERTIFICATE[336:])


def names_in(page):
    """Returns the columns of the rows that have a name."""
    return [row.columns for row in page.rows() if row.columns[3].startswith("UTF8String")]


def values(page):
    """Values as a person reads them: names with their letters, numbers, and copies of both."""
    data = named(*NAMES)
    lines = page.give("names", data).rows
    found = names_in(page)
    wanted = [f'UTF8String "{shown}"' for shown in NAMES.values()]
    page.want([it[3] for it in found][:len(wanted)], wanted, "the names")
    # None where the line has no room for it.
    fields = [line.columns[4] for line in lines if "UTF8" in line.words]
    page.want(set(fields), {"", "value"}, "the fields of the lines")
    page.want([it[4] for it in found], fields, "the fields beside the names")
    for row in page.rows():
        words, offset = row.columns[3], int(row.columns[0])
        if not words.startswith(("UTF8String", "INTEGER, 20", "INTEGER 2", "UTCTime")):
            continue
        page.select(row.index)
        shown = page.text("#value")
        content = data[offset + 2:][:data[offset + 1]]
        if words.startswith("UTF8String"):
            # In a row what ends it is escaped too.
            page.want(shown, words[12:-1].replace('\\"', '"').replace("\\\\", "\\"),
                      "a name's value")
        elif words.startswith("INTEGER, 20"):
            number = content.hex(":").upper()
            page.want(shown, f"{number} ({int.from_bytes(content, 'big')})", "the serial number")
            page.want(page.copied("#copy-value"), number, "a copied serial number")
            page.want(page.copied("#copy-bytes"), content.hex().upper(), "its copied bytes")
        else:
            page.want(shown, words[8:], "the version, or a time")
    # Numbers with and without a sign, in the place of the serial number.
    for content, shown in ((b"\xff", "-1"), (b"\x80", "-128"), (b"\0\x80", "128"),
                           (b"\0" + b"\xab" * 9, ":".join(["AB"] * 9)),
                           (b"\xab" * 9, str(int.from_bytes(b"\xab" * 9, "big", signed=True)))):
        tbs = CERTIFICATE[8:13] + element(2, content) + CERTIFICATE[35:336]
        page.give("number", element(0x30, element(0x30, tbs) + CERTIFICATE[336:]))
        page.select(4)
        page.want(page.text("#value").split(" (")[0], shown, "a number")
    for tag, code, text in ((30, "utf-16-be", "M\u00fcller"), (28, "utf-32-be", "M\u00fcller"),
                            (22, "latin-1", "Mueller")):
        page.give(code, named(text, tag=tag, code=code))
        page.select(next(row.index for row in page.rows() if row.columns[0] == "58"))
        page.want(page.text("#value"), text, f"a name in {code}")
    # One that is cut off in its line, and one that isn't in it.
    for long in ("Ein langer Name, " * 7, "Ein sehr langer Name, " * 20):
        page.give("long name", named(long))
        page.want(names_in(page)[0][3], f'UTF8String "{long}"', "a long name")


def searching(page):
    """Rows are found by text, name, identifier and offset, also those that are folded."""
    rows = page.give("searched", named("Example", "M\u00fcller GmbH", "x" * 90 + "needle")).rows
    umlaut, needle, serial, curve = (
        next(at for at, row in enumerate(rows) if text in row.words)
        for text in ("ller", "xxxx", "serialNumber", "1.2.840.10045.3.1.7"))
    for text, place in (
            ("m\u00fcller", umlaut), ("serialnumber", serial), ("1.2.840.10045.3.1.7", curve),
            ("SERIALNUMBER", serial), ("P-256", curve), ("needle", needle), ("0", 0),
            (str(rows[5].offset), 5), (str(rows[4].offset + 3), 4)):
        look_for(page, text)
        page.see(SELECTED, [place], f"what is found for {text}")
    names = [at for at, row in enumerate(rows) if "commonName" in row.words]
    look_for(page, "commonname")
    page.click("#next")
    page.wait(f"{names}.includes({SELECTED}[0])", "nothing is found")
    for key, step in (("#next", 1), ("#before", -1)):
        at = page.run(SELECTED)[0]
        page.click(key)
        page.wait(f"{SELECTED}[0] !== {at}")
        page.see(SELECTED, [names[(names.index(at) + step) % len(names)]], key)
    look_for(page, "no such row")
    page.want(page.text("#found"), "No row has it", "what is said where nothing is found")
    # A row that is folded away.
    page.click(f"{row_at(0)} .fold")
    page.see("$$('#list .row').length", 1, "the folded rows")
    look_for(page, "needle")
    page.see(SELECTED, [needle], "a folded row that is found")
    page.press("Escape")
    page.see(FOCUSED, str(needle), "the focus after Escape")
    page.press("/")
    page.see("document.activeElement.id", "wanted", "the focus after /")
    # A text that isn't in its line.
    rows = page.give("long", named("y" * 400 + "thread")).rows
    look_for(page, "thread")
    page.want(rows[page.run(SELECTED)[0]].columns[3], "UTF8String, 406 bytes", "a long text")


def look_for(page, text):
    """Looks for a text, and waits for what is found."""
    page.run(f"$('#wanted').value = {json.dumps(text)}, $('#wanted').focus(), "
             "$('#found').textContent = ''")
    page.press("Enter")
    page.wait("$('#found').textContent !== ''", f"{text} isn't looked for")


def all_rows(page):
    """The rows of what isn't drawn, with what is veiled still veiled, and back again."""
    parts = pem("EC PRIVATE KEY", EMPTY) + pem("CERTIFICATE", CERTIFICATE)
    for name, data in (
            ("empty", EMPTY), ("cut", KEY[:60]),
            ("longer", KEY[:6] + b"\x21" + KEY[7:38] + b"\x63" + KEY[38:]),
            ("behind", CERTIFICATE + KEY),
            ("indefinite", b"\x30\x80" + KEY[2:39] + b"\xA0\x80" + KEY[41:51] + b"\0\0"
             + KEY[51:60]),
            ("text.pem", parts.encode())):
        given = page.give(name, data)
        page.see_shown("#all", True, "the button")
        page.see("document.body.innerText.includes('--all')", False, "an option of the program")
        page.turn_all(True)
        rows = page.rows()
        page.want([[*row.columns[:2], row.button, row.level] for row in rows
                   if len(row.columns) == 5], all_of(data, given), f"{name}: all rows")
        marks = {(row.columns[0], mark) for row in rows for mark in row.marks}
        wanted = {(item.columns[0], mark) for item in given.items for mark in item.marks
                  if "may be" not in mark and "after the" not in mark}
        page.want(wanted - marks, set(), f"{name}: marks that don't stay")
        page.want([row.marks for row in rows if len(set(row.marks)) < len(row.marks)], [],
                  f"{name}: marks that stand there twice")
        page.want(page.run(SAID)[-1], given.said[-1], "what is said last")
        # Behind a root nothing is drawn.
        page.want(page.text("#copied"), "There are no more rows" * (name == "behind"),
                  "what is said")
        page.turn_all(False)
        page.compare(data)
    page.give("whole", KEY)
    page.see_shown("#all", False, "the button where all is drawn")


def all_of(data, given):
    """Returns offset, header, button and level of each row of the text with all contents."""
    open_rows = {(row.part, row.offset, row.header, row.content)
                 for row in given.rows if not row.hidden}
    found, part = [], 0
    for words in drawn(data, True).splitlines():
        row = re.match(r" *(\d+)((?: [0-9A-F]{2})*) +(?:\d+|\?)  ( *)", words)
        if words.startswith("PEM at"):
            part += bool(found)
        elif row and not words.startswith(" " * 20):
            found.append((part, int(row[1]), row[2].strip(), len(row[3]) // 2))
    rows = []
    for (part, offset, header, depth), behind in itertools.zip_longest(found, found[1:]):
        end = behind[1] if behind and behind[0] == part else len(given.parts[part])
        size = len(header.split())
        content = end - offset - size
        hidden = content > 0 and (size == 0 or (part, offset, size, content) not in open_rows)
        rows.append([str(offset), header, "show" if hidden else None, depth + 1])
    return rows


def several_files(page):
    """Files that are given together: each has its own picture, and nothing of another one's."""
    given = SECRETS[:5]
    given.insert(2, ("none <b>.txt", b"hello", []))
    names = [name for name, *_ in given]
    page.browser.choose(*(page.store(name, data) for name, data, _ in given))
    page.wait_for(names[0])
    page.see("$$('#files option').map((it) => it.textContent)", names, "the names of the files")
    page.see_shown("#several", True, "the list")
    # Where files are dropped, the field isn't asked.
    page.see("$('#file').multiple", True, "the field takes several")
    for at in (2, 4, 1, 0, 3, 5):
        name, data, secrets = given[at]
        page.run(f"$('#files').value = '{at}', $('#files').dispatchEvent(new Event('change'))")
        page.wait_for(name)
        page.compare(data)
        page.unseen([it for _, _, contents in given for it in contents], name)
        if secrets:
            page.run(SHOW)
    page.see("$('#name b')", None, "a name as HTML")
    page.choose(page.room / names[0])
    page.see_shown("#several", False, "the list of one")
    page.clear()
    page.see("$$('#files option').length", 0, "the list after Clear")


# ---- what is large, and what lasts

def large(page):
    """A megabyte is drawn, and its rows as they are scrolled to."""
    for name, data, lines in inputs.LARGE:
        rows = page.give(name, data).rows
        page.want([row.words for row in rows] == lines, True, f"the rows of {name}")
        for key, at in (("End", len(rows) - 1), ("PageUp", None), ("Home", 0), ("PageDown", None),
                        ("ArrowDown", None)):
            before = page.run(SELECTED)[0]
            page.press(key)
            compare_sight(page, rows, at)
            if key.startswith("Page"):
                moved = page.run(SELECTED)[0] - before
                page.want(abs(moved) >= 5, True, f"{key} moves by {moved}")
        for share in (0.5, 0.123, 1, 0):
            page.run("(() => { const list = $('#list');"
                     f"list.scrollTop = {share} * (list.scrollHeight - list.clientHeight);"
                     "})()")
            at = min(int(share * len(rows)), len(rows) - 1)
            page.wait(f"$('{row_at(at)}') !== null", f"the rows at {share} of the list aren't made")
            compare_sight(page, rows)
        if not page.browser.is_scripted:
            page.browser.size(1280, 300)
            page.browser.size(1280, 1000)
            page.wait(f"{BOX}[1]", "the rows fill a box that has grown")
            compare_sight(page, rows)
            page.browser.size()
        look_for(page, rows[-1].columns[0])
        page.see(SELECTED, [len(rows) - 1], "a row that is found out of sight")
        look_for(page, "sequence")
        page.see(SELECTED, [0], "the first row, found from the last one on")
        fold = f"$('{row_at(0)} .fold').click()"
        page.run(fold)
        page.want([row.index for row in page.rows()], [0], "the rows of a folded root")
        page.run(fold)
        page.want(len(page.rows()) > 10, True, "the rows of an unfolded root")


def compare_sight(page, rows, selected=None):
    """Compares the rows that are made of a long picture, which fill the box."""
    found = page.rows()
    first = found[0].index
    # Of those in sight alone: a line takes long to be taken apart.
    items = View(rows[first:first + len(found)], [b""]).items
    page.want([row[:5] for row in found],
              [item._replace(index=first + item.index) for item in items], "the rows in sight")
    compare_box(page, selected)


# Whether the rows fill their box, from its top on and to its bottom, and the selected one is in it.
BOX = """(() => { const box = $('#list').getBoundingClientRect();
  const rows = $$('#list .row');
  const at = (row) => row.getBoundingClientRect();
  const current = $('#list [aria-selected=true]');
  return [at(rows[0]).top <= box.top + 1, at(rows.at(-1)).bottom >= box.bottom - 1,
    current && at(current).top >= box.top - 1 && at(current).bottom <= box.bottom + 1]; })()"""


def compare_box(page, selected=None):
    """Compares where rows lie with the box that they have to fill."""
    box = page.run(BOX)
    page.want(box[:2], [True, True], "the rows fill the box")
    if selected is not None:
        page.want([page.run(SELECTED), box[2]], [[selected], True], "the selected row")


def limits(page):
    """A file of 16,777,215 bytes is drawn, a longer one isn't, and long contents are veiled."""
    content = b"\x5a\xa5\x33\xcc" * (16_777_215 // 4)
    whole = element(0x30, bytes([2, 1, 1]) + element(4, content))
    path = page.store("most.der", whole[:16_777_215])
    page.choose(path)
    page.see("$$('#list .row').length > 0", True, "rows of 16 MB")
    page.run("$('#dump').scrollTop = 1e9")
    page.wait("$$('#dump .at').at(-1).textContent > 16000000")
    page.unseen([content[:32]], "16 MB of private bytes, at their end")
    path.unlink()
    page.choose(page.store("longer.der", whole[:16_777_216]))
    page.see(SAID, ["more than 16,777,215 bytes"], "what is said of a long file")
    page.see_shown("#panes", False, "its rows")
    # As many rows as an engine can't lay out at their height.
    count = 4_000_000
    path = page.store("rows.der", element(0x30, bytes([10, 2, 85, 1]) * count))
    page.choose(path)
    for key, at in (("End", count), ("PageUp", None), ("Home", 0), ("ArrowDown", 1)):
        page.press(key)
        compare_box(page, at)
    path.unlink()
    name, data, secrets = next(it for it in SECRETS if it[0] == "long.der")
    page.give(name, data)
    for share in (0, 0.3, 0.6, 1):
        page.run(f"$('#dump').scrollTop = {share} * $('#dump').scrollHeight")
        time.sleep(0.2)
        page.unseen(secrets, f"{name}, at {share}")
    # What is in sight of them stays where they are shown and hidden.
    page.press("End")
    page.run("$('#dump').scrollTop = 2000")
    for word in ("hide", "show"):
        page.press("Enter")
        page.see("[$('#list button').textContent, $('#dump').scrollTop]", [word, 2000], "the bytes")


def stopping(page):
    """What lasts says so, and is stopped; the page goes on while it is drawn."""
    path = page.store("nulls.der", element(0x30, bytes([5, 0]) * 8_000_000))

    def begin():
        page.browser.choose(path)
        page.wait("$('#busy').checkVisibility()", "nothing is said")

    begin()
    said = page.text("#doing")
    is_right = bool(re.match(r"Drawing 16,000,00\d bytes: \d+ s", said))
    page.want(is_right, True, f"what is said: {said}")
    page.click("#stop")
    page.wait("$('#said p') !== null")
    page.see(SAID, ["Stopped: nothing is drawn."], "what is said of what was stopped")
    page.see_shown("#busy", False, "the line")
    page.give("after", KEY)
    page.compare(KEY)
    # Another input ends what lasts, and so does Clear.
    begin()
    page.give("after", KEY)
    page.compare(KEY)
    begin()
    page.clear()
    page.see_shown("#busy", False, "the line")
    path.unlink()


# ---- how it looks

# Which texts differ too little from what is behind them, and by how much.
CONTRAST = """(() => {
  const channel = (it) => it <= 0.04045 ? it / 12.92 : ((it + 0.055) / 1.055) ** 2.4;
  const light = ([r, g, b]) => 0.2126 * channel(r / 255) + 0.7152 * channel(g / 255)
    + 0.0722 * channel(b / 255);
  const over = (color, below) => {
    const [r, g, b, a = 1] = color.match(/[\\d.]+/g).map(Number);
    return [r, g, b].map((one, at) => one * a + below[at] * (1 - a));
  };
  const ground = (it) => it ? over(getComputedStyle(it).backgroundColor, ground(it.parentElement))
    : [255, 255, 255];
  const contrast = (it, part) => {
    const below = ground(it);
    const above = over(getComputedStyle(it, part).color, below);
    const [less, more] = [light(above), light(below)].sort((a, b) => a - b);
    return (more + 0.05) / (less + 0.05);
  };
  return $$('body *').filter((it) => it.checkVisibility()).flatMap((it) => {
    const hasText = [...it.childNodes].some((at) => at.nodeType === 3 && at.nodeValue.trim());
    const parts = [[hasText, null], [it.placeholder, '::placeholder'],
      [it.matches('.fold'), '::before']];
    return parts.filter(([isThere]) => isThere).map(([, part]) => [contrast(it, part),
      `${it.tagName} ${it.id} ${it.className}`, it.textContent.slice(0, 20), part]);
  }).filter(([found]) => found < 4.5);
})()"""
# What is out of sight though it has a text, and which buttons are small.
HIDDEN = """$$(`#said p, #list .row > *, #dump .bytes span, #where, #name,
  .columns > *`).filter((it) => {
  const { left, right, width, height } = it.getBoundingClientRect();
  const style = getComputedStyle(it);
  return it.textContent.trim() && (right <= 0 || left >= innerWidth || !width || !height
    || !it.checkVisibility({ opacityProperty: true, visibilityProperty: true })
    || style.opacity < 1 || style.textIndent !== '0px' || parseFloat(style.fontSize) < 11);
}).map((it) => it.textContent.slice(0, 30))"""
SMALL = """$$('button, .fold, select, .ways label').filter((it) => {
  const { width, height } = it.getBoundingClientRect();
  return it.checkVisibility() && (width < 23.9 || height < (it.matches('.fold') ? 18 : 23.9));
}).map((it) => `${it.textContent} ${it.className}`)"""


def style(page):
    """All is in sight, its colours differ enough, and what is pressed is large enough, in the light
    and in the dark."""
    looks = [(False, False), (True, False)] + [(False, True)] * (page.browser.name == "chromium")
    for is_dark, is_forced in looks:
        page.browser.darken(is_dark, is_forced)
        for name, data in (("key.der", KEY), ("two.pem", TWO_BLOCKS.encode()),
                           ("damaged", KEY[:60])):
            page.give(name, data)
            for step in ("Home", "ArrowDown", "ArrowDown", "Enter", "End"):
                page.press(step)
                page.see(CONTRAST, [], f"contrasts {'in the dark' * is_dark}")
                page.see(HIDDEN, [], "what isn't in sight")
                page.see(SMALL, [], "what is small")
        page.clear()
        page.see(CONTRAST, [], f"contrasts of an empty page {'in the dark' * is_dark}")


def focus(page):
    """Where the focus is, is seen."""
    page.give("several", EMPTY)
    # Before Tab leads out of the page.
    page.click("#list .row .element")
    page.press("ArrowDown")
    page.see("[getComputedStyle(document.activeElement).outlineStyle, "
             "document.activeElement.className]", ["solid", "row"], "the focus of a row")
    # The button by Tab and Enter, which turns once, and keeps the focus.
    page.press("End", "Tab")
    for key, word in (("Enter", "hide"), (" ", "show")):
        page.press(key)
        page.see("[document.activeElement.tagName, document.activeElement.textContent]",
                 ["BUTTON", word], f"the button after {key!r}")
    page.run("$('#file').focus()")
    seen = set()
    for _ in range(16):
        name, line, width, color = page.run("""(() => { const it = document.activeElement;
          const style = getComputedStyle(it.id === 'file' ? it.parentElement : it);
          return [it.id || it.className || it.tagName, style.outlineStyle,
            parseFloat(style.outlineWidth), style.outlineColor]; })()""")
        if name in ("BODY", "HTML"):
            break
        is_seen = line != "none" and width >= 2 and not re.match(r"rgba.*, 0\)", color)
        page.want(is_seen, True, f"the focus of {name} is seen: {line}, {width}, {color}")
        seen.add(name)
        page.press("Tab")
    page.want({"typed", "clear", "copy", "all", "wanted", "before", "next", "row"} - seen, set(),
              "where Tab doesn't lead to")


def narrow(page):
    """In a narrow window nothing is beside it, and the bytes have half as many in a line."""
    page.give("narrow", CERTIFICATE)
    lines = "$$('#dump .bytes').slice(0, 2).map((it) => $$('span:not(.at)', it).length)"
    page.see(lines, [16, 16], "bytes in a line")
    for width in (600, 390, 320):
        page.browser.size(width, 844)
        if page.run("innerWidth") > 640:
            continue
        page.wait(lines, "the lines of a narrow window", [8, 8])
        page.see("document.documentElement.scrollWidth <= innerWidth", True,
                 f"all is in a window of {width} pixels")
        page.see(HIDDEN.replace(".columns > *", ".title"), [], "what isn't in sight")
        page.see(SMALL, [], "what is small")
        page.press("End", "ArrowDown")
    page.browser.size()
    page.wait(lines, "the lines of a wide window", [16, 16])
    # The head of the table stays, and the selected row's bytes are in sight.
    page.browser.size(1280, 480)
    page.press("End")
    page.see("(() => { const { top, height } = $('.columns').getBoundingClientRect();"
             "return top >= 0 && top < 200 && height > 10; })()", True, "the head of the table")
    page.see("(() => { const box = $('#dump').getBoundingClientRect();"
             "const it = $('#dump .head').getBoundingClientRect();"
             "return it.top >= box.top - 1 && it.bottom <= box.bottom + 1; })()", True,
             "the bytes of the selected row")


def told(page):
    """What a screen reader is told: of the table, its rows, and the selected one."""
    for name, data in (("certificate", CERTIFICATE), ("key", KEY),
                       ("one.der", bytes.fromhex("300402020101")),
                       ("empty.der", bytes.fromhex("30050201010400"))):
        rows = page.give(name, data).rows
        page.see("$('#table').getAttribute('aria-rowcount')", str(len(rows) + 1),
                 "how many rows are told")
        page.see("$$('#list .row').map((it) => Number(it.getAttribute('aria-rowindex')))",
                 list(range(2, len(rows) + 2)), "the numbers of the rows")
        for at, line in enumerate(rows):
            content = rows[after(rows, at) - 1].end - line.start
            sizes = [f"{it} byte{'' if it == 1 else 's'}" for it in (line.header, content)]
            page.want(page.text("#where"), f"Offset {line.offset}: header {sizes[0]}, content "
                      f"{sizes[1]}{', hidden' * line.hidden}", "where the row is")
            page.press("ArrowDown")
    page.see("$$('#list button').length", 0, "a button of no bytes")


def messages(page):
    """What is said where the browser refuses, a file can't be read, or a command is copied."""
    page.paste(TWO_BLOCKS)
    command = next(line for line in page.run(SAID) if line.startswith("openssl"))
    page.want(page.copied("#said .command button"), command, "the command that is copied")
    page.press("Home")
    page.give("next", KEY)
    page.want(page.text("#copied"), "", "what is said of the last copy")
    page.run("navigator.clipboard.writeText = async () => { throw new Error('no'); }, 0")
    page.click("#copy")
    page.wait("$('#copied').textContent !== ''")
    page.want(page.text("#copied"), "The browser doesn\u2019t allow it", "where nothing is copied")
    page.run("File.prototype.arrayBuffer = async () => { throw new Error('no'); }, 0")
    page.browser.choose(page.store("unread <b>.der", KEY))
    page.wait("$('#said p') !== null && $('#said p').textContent.includes('unread')",
              "nothing is said of a file that can't be read")
    page.see(SAID, ["unread <b>.der can\u2019t be read."], "what is said of it")
    page.see("$('#said b')", None, "a name as HTML")
    page.see("$$('#list .row').length", 0, "rows of it")
    for wanted in ("Bridgeacacia", "0.", "web", "sec1.wasm"):
        page.want(wanted in page.text("footer"), True, f"{wanted} is below the page")


def stored_files(page):
    """Keys, damaged keys and certificates, as the library draws them."""
    for number, (name, data) in enumerate(inputs.stored()):
        page.choose(page.store(f"stored-{number}", data))
        with about(f"{name}: {data.hex()[:80]}"):
            given = page.compare(data)
            page.want(len(page.rows()), len(given.rows), "how many rows")


def needs(page):
    """Where the page can't run it says why."""
    for before, removed, words in (
            ("if (!globalThis.document) delete globalThis.WebAssembly;\n", "",
             "Nothing can be drawn: this engine has no WebAssembly."),
            ("if (globalThis.document) delete globalThis.Worker;\n", "",
             "Nothing can be drawn: this browser has no workers."),
            ("if (!globalThis.document) {\n  WebAssembly.compile = async () => "
             "{ throw new TypeError(); };\n}\n", "",
             "Nothing can be drawn: the module in this page is damaged, or this engine doesn't "
             "know WebAssembly 2.0."),
            # Who forbids it says so: the package, or in WebKit the engine.
            ("", " 'wasm-unsafe-eval'", "'wasm-unsafe-eval'"),
            ("(", "", "This browser hasn\u2019t run the page\u2019s script, so nothing can be "
             "drawn. It needs JavaScript, workers and WebAssembly 2.0.")):
        file = page.room / "needs.html"
        file.write_text(made.page(before).replace(removed, "", 1), encoding="utf-8")
        page.browser.open(file.as_uri())
        page.wait("$('#said p') !== null && $('#said p').textContent.includes('can')",
                  "nothing is said")
        found = " ".join(page.text("#said p").split())
        is_right = words in found if removed else words == found
        page.want(is_right, True, f"what is said: {found}")
    page.browser.open(page.file.as_uri())


CHECKS = [stored_examples, other_ways, keys, private_bytes, everywhere, clipboards, policy, buffers,
          memory, values, searching, all_rows, several_files, large, limits, stopping, style, focus,
          narrow, told, messages, needs, stored_files]
# Those that need the clipboard, or of keys more than the events, aren't tried in WebKitGTK.
BY_A_PERSON = [stored_examples, other_ways, clipboards, values, searching, limits, style, focus,
               narrow, messages]
