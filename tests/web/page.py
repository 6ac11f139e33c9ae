"""The page in a browser, what is read of it, and what it is compared with."""
import base64
import contextlib
import html
import json
import re
from collections import namedtuple

from browsers import Failed
from expected import after, view

VEIL = "\u00b7\u00b7"
# In expressions `$` finds the first element of a selector, and `$$` all of them.
FINDS = ("(($, $$) => (EXPRESSION))((selector) => document.querySelector(selector), "
         "(selector, root = document) => [...root.querySelectorAll(selector)])")
# The rows that are made: the parts of an item, and whether it is selected.
Row = namedtuple("Row", "index columns marks button level selected")
ROWS = """$$('#list .row').map((row) => [Number(row.dataset.index),
  $$('[role=gridcell]:not(.mark)', row).map((cell) => [...cell.childNodes]
    .filter((it) => it.nodeType === 3).map((it) => it.nodeValue).join('')),
  $$('.mark', row).map((it) => it.textContent), row.querySelector('button')?.textContent ?? null,
  Number(row.getAttribute('aria-level')), row.getAttribute('aria-selected') === 'true'])"""
SAID = """$$('#said p').map((it) => it.matches('.command')
  ? it.querySelector('code').textContent : it.textContent)"""
BYTES = """$$('#dump .bytes').map((line) => [Number(line.querySelector('.at').textContent),
  $$('span:not(.at)', line).map((it) => [it.textContent.trim(), it.className])])"""
FOCUSED = "document.activeElement.dataset?.index ?? document.activeElement.tagName"
SELECTED = "$$('#list [aria-selected=true]').map((it) => Number(it.dataset.index))"
# All that a script can find of what the page shows or keeps.
EVERYWHERE = """(async () => {
  const root = document.documentElement.cloneNode(true);
  for (const it of root.querySelectorAll('script, style')) it.remove();
  // Of each attribute its values in all elements, in their order: a byte may be in each.
  const values = {};
  for (const it of root.querySelectorAll('*')) {
    for (const { name, value } of it.attributes) (values[name] ??= []).push(value);
  }
  const fields = $$('input:not([type=file]), textarea, option');
  const stores = [localStorage, sessionStorage].map((it) => JSON.stringify(it));
  const databases = await (indexedDB.databases?.() ?? []);
  const own = Object.getOwnPropertyNames(window).filter((it) => !PLAIN.includes(it));
  const text = (it) => {
    try {
      return ArrayBuffer.isView(it) ? [...it].join() : typeof it === 'object'
        ? JSON.stringify(it) : String(it);
    } catch { return ''; }
  };
  return [root.outerHTML, ...Object.values(values).map((it) => it.join(' ')), document.title,
    ...fields.map((it) => it.value), ...stores,
    document.cookie, window.name, text(history.state), location.href,
    databases.map((it) => it.name).join(), ...own.map((it) => `${it}=${text(window[it])}`),
    ...performance.getEntries().map((it) => it.name),
    String(document.getSelection())].join('\\n\\u0001\\n');
})()"""


@contextlib.contextmanager
def about(name):
    """Says of which input it is what is wrong."""
    try:
        yield
    except Failed as reason:
        raise Failed(f"{name}: {reason}") from None


def forms(content, count=4):
    """Yields how so many bytes in a row, of all of a content, may be written: of a long one, such
    that one of them is in each 16 bytes."""
    for at in range(0, len(content) - count + 1, 1 if len(content) < 256 else 17 - count):
        part = content[at:at + count]
        yield "hexadecimal", part.hex()
        yield "numbers", "".join(f"{byte}," for byte in part)
        yield "escapes", "".join(f"%{byte:02x}" for byte in part)
        yield "characters", part.decode("latin-1")
    for skip in range(3):
        digits = base64.b64encode(content[skip:][:(len(content) - skip) // 3 * 3]).decode()
        for at in range(0, len(digits) - 7, 1 if len(digits) < 256 else 13):
            yield "base64", digits[at:at + 8]
    if len(content) < 256:
        yield "a number", str(int.from_bytes(content, "big"))


def private_in(text, contents, count=4):
    """Returns how so many private bytes in a row are in a text, or None."""
    both = f"{text},|{html.unescape(re.sub(r'<[^>]*>', '', text))},|"
    texts = {"hexadecimal": re.sub(r"0[xX]|[\s:,;-]|\\x", "", both).lower(),
             "numbers": re.sub(r"[\s,;.]+", ",", both), "escapes": both.lower(),
             "characters": both, "base64": re.sub(r"\s", "", both), "a number": both}
    for content in contents:
        for kind, form in forms(content, count):
            if form in texts[kind]:
                return f"{kind}: {form!r}"
    return None


def row_at(index):
    """Returns the selector of a row."""
    return f'#list .row[data-index="{index}"]'


class Page:
    """The page in a browser, opened anew, and the cases that were compared of it."""

    def __init__(self, browser, file, room):
        self.browser, self.file, self.room, self.cases = browser, file, room, 0
        browser.size()
        browser.darken(False)
        browser.open(file.as_uri())
        # What stands there until the page's script has begun.
        self.wait("$('#said p') === null", "the page doesn't begin")
        # What a page before it has kept isn't to be found again.
        self.run("localStorage.clear(), sessionStorage.clear(), window.name = '', "
                 "indexedDB.deleteDatabase('last'), 0")

    def run(self, expression):
        return self.browser.run(FINDS.replace("EXPRESSION", expression))

    def wait(self, expression, what=None, value=True):
        """Waits until an expression has a value in the page."""
        self.browser.wait(FINDS.replace("EXPRESSION", expression), what or expression, value)

    def want(self, found, wanted, what):
        """Counts a case: whether what is found is what is wanted."""
        if found != wanted:
            raise Failed(f"{what}: {str(found)[:300]!r} isn't {str(wanted)[:300]!r}")
        self.cases += 1

    def see(self, expression, wanted, what):
        """Counts a case: whether an expression has this value in the page."""
        self.want(self.run(expression), wanted, what)

    def see_shown(self, selector, is_shown, what):
        """Counts a case: whether an element is shown."""
        self.see(f"$('{selector}').checkVisibility()", is_shown, what)

    def press(self, *keys):
        for key in keys:
            self.browser.press(key)

    def click(self, selector):
        self.browser.click(selector)

    def select(self, index):
        """Selects a row by a click that a script makes."""
        self.run(f"$('{row_at(index)} .element').click()")

    def store(self, name, data):
        """Stores a file, and returns where."""
        path = self.room / name
        path.write_bytes(data)
        return path

    def choose(self, path):
        self.browser.choose(path)
        self.wait_for(path.name)

    def drop(self, path):
        self.browser.drop(path)
        self.wait_for(path.name)

    def paste(self, text):
        self.browser.write_clipboard(text)
        self.browser.press("v", "paste")
        self.wait_for("Text")

    def type(self, text):
        """Presses the keys of a text in the field."""
        self.run("$('#typed').focus()")
        self.press(*text)

    def give(self, name, data):
        """Chooses a file of these bytes, and returns how it is drawn."""
        self.choose(self.store(name, data))
        return view(data)

    def wait_for(self, name):
        self.wait("$('#said p') !== null && $('#name').textContent", f"{name} isn't drawn", name)

    def clear(self):
        self.click("#clear")
        self.wait("$('#said p') === null")

    def turn_all(self, is_all):
        """Shows all rows, or those of the picture again."""
        self.click("#all")
        self.wait("$('#said p') !== null && $('#all').getAttribute('aria-pressed')",
                  value=str(is_all).lower())

    def rows(self):
        return [Row(*it) for it in self.run(ROWS)]

    def text(self, selector):
        return self.run(f"$('{selector}').textContent")

    def everywhere(self):
        """Returns all that a script can find of what the page shows or keeps."""
        return self.run(EVERYWHERE.replace("PLAIN", json.dumps(self.browser.names)))

    def unseen(self, contents, what, count=4):
        """Counts a case: so many private bytes in a row are nowhere in the page."""
        self.want(private_in(self.everywhere(), contents, count), None, f"{what}: private bytes")

    def copied(self, selector):
        """Returns what a button puts on the clipboard."""
        self.click(selector)
        self.wait("$('#copied').textContent", f"{selector} copies nothing", "copied")
        return self.browser.read_clipboard()

    def compare(self, given):
        """Compares what is said, the rows, and the bytes beside them, of which none is shown."""
        wanted = view(given)
        self.see(SAID, wanted.said, "what is said")
        self.want([row[:5] for row in self.rows()], wanted.items[:400], "the rows")
        if wanted.rows:
            self.compare_bytes(wanted, wanted.rows[0])
        return wanted

    def compare_bytes(self, given, selected, shown=()):
        """Compares the bytes with those of the selected row's part, of which these rows are
        shown."""
        found = {at + place: byte for at, line in self.run(BYTES)
                 for place, byte in enumerate(line)}
        data = given.parts[selected.part]
        wanted = {at: [f"{byte:02X}", ""] for at, byte in enumerate(data)}
        rows = [row for row in given.rows if row.part == selected.part]
        for row in rows:
            if row.hidden and row not in shown:
                wanted |= {at: [VEIL, "veiled"] for at in range(row.start, row.end)}
        last = rows[after(rows, rows.index(selected)) - 1]
        for at in range(selected.offset, last.end):
            part = "head" if at < selected.start else "body" if at < selected.end else "inner"
            wanted[at][1] = f"{part} {wanted[at][1]}".strip()
        wanted = {at: wanted[at] for at in found} if len(data) > 1024 else wanted
        self.want(found, wanted, "the bytes")
