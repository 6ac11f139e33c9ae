#!/usr/bin/env python3
"""Makes the table of the calls of sec1.h in bindings/README.md, of the sources of the packages.

  bindings/calls.py [rust|python|js]..   compares the columns of packages, by default all
  bindings/calls.py --write              writes the table

A row has a call, and for each package the public names that make it, directly or by private functions. For a call
that no name makes it has an arrow where another does as much, the name that does it alone, or nothing. The last
line is 'N passed, M failed'.
"""
import ast
import pathlib
import re
import sys

HERE = pathlib.Path(__file__).resolve().parent
CALL = re.compile(r"\bsec1_[a-z0-9_]+\b")
HEAD = "| Call of `sec1.h` | Rust | Python | JavaScript |\n|---|---|---|---|\n"
# What does as much as a call that a package needn't make.
OTHER = {
    "sec1_key_fault_at": "sec1_key_read_at",
    "sec1_key_len": "sec1_key_write",
    "sec1_key_len_of": "sec1_key_write",
    "sec1_key_read": "sec1_key_read_at",
    "sec1_key_write_of": "sec1_key_write",
    "sec1_picture_draw": "sec1_picture_write",
    "sec1_picture_show": "sec1_picture_write",
    "sec1_point_check": "sec1_point_read",
    "sec1_point_len": "sec1_point_read",
    "sec1_point_read": "sec1_point_check",
    "sec1_private_key_info_read": "sec1_private_key_read",
    "sec1_status_text": "sec1_status_to_text",
}


def read(path):
    return (HERE / path).read_text(encoding="utf-8")


def declared():
    """The calls that sec1.h declares, in order."""
    text = re.sub(r"/\*.*?\*/", "", read("../dist/sec1.h"), flags=re.S)
    return list(dict.fromkeys(re.findall(r"^[\w *]*\b(sec1_\w+)\([^()]*\);", text, re.M)))


# What a package does by itself, by the public name.
OWN = {
    "rust": {
        "sec1_point_compress": "EncodedPoint::compress",
        "sec1_point_compare": "EncodedPoint::cmp",
        "sec1_point_identity": "EncodedPoint::identity",
        "sec1_identifier_arcs": "ObjectIdentifier::arcs",
    },
    "python": {"sec1_identifier_arcs": "ObjectIdentifier.arcs", "sec1_version": "__version__"},
    "js": {"sec1_identifier_arcs": "ObjectIdentifier.arcs", "sec1_version": "version"},
}


class Code:
    """The functions of a package: what each calls, and which are private."""

    def __init__(self):
        self.calls, self.uses, self.public = {}, {}, {}

    def add(self, name, calls, uses, public=None):
        """A function, the calls of sec1.h and the functions that stand in it, and its public name."""
        self.calls.setdefault(name, set()).update(calls)
        self.uses.setdefault(name, set()).update(uses)
        if public:
            self.public[name] = public

    def reached(self, name, seen):
        """The calls that a function makes, also by private ones."""
        found = set(self.calls[name])
        for other in self.uses[name] - seen:
            if other in self.calls and other not in self.public:
                seen.add(other)
                found |= self.reached(other, seen)
        return found

    def table(self):
        """For each call the public names that make it, in the order of the sources."""
        found = {}
        for name, public in self.public.items():
            for call in self.reached(name, {name}):
                names = found.setdefault(call, [])
                if public not in names:
                    names.append(public)
        return found


def python():
    """Of the package for Python, by its syntax trees."""
    code = Code()
    library = ast.parse(read("python/src/sec1/_library.py"))
    package = ast.parse(read("python/src/sec1/__init__.py"))

    def add(node, public=None, name=None):
        names = [it.id for it in ast.walk(node) if isinstance(it, ast.Name)]
        parts = [it for it in ast.walk(node) if isinstance(it, ast.Attribute)]
        # A function of the other module has no dot, and a method of any class one.
        names += [it.attr if ast.unparse(it.value) == "_library" else f".{it.attr}" for it in parts]
        texts = [it.value for it in ast.walk(node) if isinstance(it, ast.Constant)]
        texts = [it for it in texts if isinstance(it, str) and CALL.fullmatch(it)]
        code.add(name or node.name, texts, names, public)

    for node in library.body:
        if isinstance(node, ast.FunctionDef):
            add(node)
        elif isinstance(node, ast.Assign) and isinstance(node.value, ast.Subscript):
            add(node.value, name=node.targets[0].id)
    for node in package.body:
        if isinstance(node, ast.Assign) and ast.unparse(node.targets[0]) == "__version__":
            code.add("__version__", [], [], "__version__")
        elif isinstance(node, ast.FunctionDef):
            add(node, None if node.name.startswith("_") else node.name)
        elif isinstance(node, ast.For):
            add(node, "Error", "text of errors")
        elif isinstance(node, ast.ClassDef):
            for part in node.body:
                if isinstance(part, ast.FunctionDef):
                    is_made = part.name in ("__init__", "__post_init__")
                    is_private = re.match(r"_(?!_)", part.name)
                    public = node.name if is_made else f"{node.name}.{part.name}"
                    name = f".{part.name}" if is_private else f"{node.name}.{part.name}"
                    add(part, None if is_private else public, name)
    return code


def js():
    """Of the package for JavaScript, by the indentation of its sources."""
    code = Code()
    item = re.compile(
        r"^(?P<export>export )?(?:async )?function (?P<function>\w+)\(.*?^\}$"
        r"|^(?P<value>export const) (?P<name>\w+) = [^\n]*"
        r"|^export class (?P<class>\w+)|^  (?:static |get |async )*(?P<method>#?\w+)\(.*?^  \}$",
        re.M | re.S,
    )
    for file in ("library.js", "api.js"):
        of = None
        text = re.sub(r"^const CALLS = \{.*?^\};$", "", read(f"js/{file}"), flags=re.M | re.S)
        for found in item.finditer(text):
            if found["class"]:
                of = found["class"]
                continue
            body, name = found.group(), found["function"] or found["method"] or found["name"]
            is_public = file == "api.js" and bool(found["export"] or found["value"])
            public = name if is_public else None
            if found["method"]:
                is_made, is_private = name == "constructor", name.startswith("#")
                public = None if is_private else of if is_made else f"{of}.{name}"
                name = name if is_private else f"{of}.{name}"
            code.add(name, CALL.findall(body), re.findall(r"#?\w+(?=\()", body), public)
    return code


def rust():
    """Of the package for Rust, by the indentation of its sources. A name stands for a function of the
    same type after `Self::` or `self.`, for one of its file alone, and for any after another path."""
    code = Code()
    folder = HERE / "rust/sec1/src"
    item = re.compile(
        r"^impl(?:<[^{]*?>)? (?:(?P<trait>[\w:]+)(?:<[^{]*?>)? for )?&?(?P<type>\w+)[^{;]*\{"
        r"|^pub trait (?P<own>\w+)"
        r"|^(?P<in>    )?(?P<pub>pub |pub\(\w+\) )?(?:const )?fn (?P<fn>\w+).*?^(?(in)    )\}$",
        re.M | re.S,
    )
    for path in sorted(folder.rglob("*.rs")):
        of, is_trait = None, False
        text = re.sub(r"^\s*//.*\n", "", path.read_text(encoding="utf-8"), flags=re.M)
        # What the one macro of impls writes, with the type's name in it.
        macro = re.search(r"^macro_rules! by_encoding .*?^\}", text, re.M | re.S)
        if macro:
            text += re.sub(r"^        ", "", macro.group().replace("$name", "EncodedPoint"), flags=re.M)
        for found in item.finditer(text):
            if not found["fn"]:
                of = found["type"] or found["own"]
                is_trait = bool(found["trait"] or found["own"])
                continue
            body, name = found.group(), found["fn"]
            if path.name == "raw.rs":
                code.add(f"raw::{name}", CALL.findall(body), [])
                continue
            uses = {f"{of}::{it}" for it in re.findall(r"\b(?:Self::|self\.)(\w+)", body)}
            uses |= {f"Encoding::{it}" for it in re.findall(r"\.encoding\.(\w+)\(", body)}
            uses |= {f"{path.stem}::{it}" for it in re.findall(r"(?<![\w.:])(\w+)\(", body)}
            uses |= set(re.findall(r"\b\w+::\w+", body))
            is_public = found["pub"] == "pub " or (is_trait and found["in"])
            public = (f"{of}::{name}" if found["in"] else name) if is_public else None
            code.add(f"{of if found['in'] else path.stem}::{name}", [], uses, public)
    return code


PACKAGES = {"rust": rust, "python": python, "js": js}


def column(name, calls):
    """The cells of a package, one for each call, and how many calls are reached."""
    code, own = PACKAGES[name](), OWN[name]
    table = code.table()
    wrong = sorted(set(table) - set(calls)) + sorted(set(own.values()) - set(code.public.values()))
    if wrong:
        sys.exit(f"FAILED: neither a call nor a public name: {', '.join(wrong)}")
    found = []
    for call in calls:
        names = ", ".join(f"`{it}`" for it in table.get(call, []))
        if not names and call in own:
            names = f"`{own[call]}`, alone"
        elif not names and OTHER.get(call) in table:
            names = "→"
        found.append(names)
    return found, sum(call in table for call in calls)


def main():
    write = sys.argv[1:] == ["--write"]
    failed, calls, text = 0, declared(), read("README.md")
    found = re.search(rf"^{re.escape(HEAD)}((?:\|.*\n)*)", text, re.M)
    cells = [[cell.strip() for cell in line.split("|")[1:-1]] for line in found[1].splitlines()]
    chosen = list(PACKAGES) if write else sys.argv[1:] or list(PACKAGES)
    columns = {}
    for name in chosen:
        columns[name], reached = column(name, calls)
        print(f"{name}: {reached} of {len(calls)} calls")
        at = 1 + list(PACKAGES).index(name)
        if not write and [[row[0], row[at]] for row in cells] != [[f"`{it}`", names] for it, names in zip(calls, columns[name])]:
            failed += 1
            print(f"FAILED: README.md: the table's column isn't that of the code: {name}")
    if write:
        rows = "".join(f"| `{call}` | {' | '.join(names)} |\n" for call, *names in zip(calls, *columns.values()))
        (HERE / "README.md").write_text(text.replace(found[0], HEAD + rows), encoding="utf-8")
    print(f"{len(chosen) - failed} passed, {failed} failed")
    return failed != 0


if __name__ == "__main__":
    sys.exit(main())
