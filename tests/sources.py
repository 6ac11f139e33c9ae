"""The files of the repository, and the calls of its crates: the contract of each, and what is said
above it. Needs Python 3.8 or later."""

import re
import subprocess
from collections import defaultdict, namedtuple
from functools import lru_cache
from pathlib import Path

TOP = Path(__file__).resolve().parent.parent


@lru_cache(maxsize=None)
def read(path, errors="strict"):
    """Returns the text of a file of the repository."""
    return (TOP / path).read_text(encoding="utf-8", errors=errors)


@lru_cache(maxsize=None)
def tracked(*patterns):
    """Returns the files that these patterns name, but for those that git ignores."""
    command = ["git", "ls-files", "-co", "--exclude-standard", *patterns]
    names = subprocess.check_output(command, cwd=TOP, text=True).splitlines()
    return [it for it in sorted(names) if "/out/" not in it and (TOP / it).is_file()]


CRATES = sorted(it.parent.name for it in TOP.glob("crates/*/src"))
SOURCES = tracked("crates/*/src/*.rt")


def one_line(text):
    """Returns a text with one space for its blanks."""
    return " ".join(text.split())


def crate_of(path):
    """Returns the crate that a file is of."""
    return path.split("/")[1]


@lru_cache(maxsize=None)
def code_of(path):
    """Returns a source with spaces for its comments; `//` in a string is none."""
    pattern = r'"(?:\\.|[^"\\])*"|//[^\n]*'
    return re.sub(pattern, lambda it: it[0] if it[0][0] == '"' else " " * len(it[0]), read(path))


def braced(text, start):
    """Returns the index behind the brace that closes the one at `start`."""
    depth = 0
    for brace in re.compile(r"[{}]").finditer(text, start):
        depth += 1 if brace[0] == "{" else -1
        if depth == 0:
            return brace.end()
    raise ValueError("a brace that isn't closed")


# A function: its contract, as it stands at a line of its source, its clauses in their order, what
# its trait has it give, and what is said above it.
Call = namedtuple("Call", "path line contract signature clauses gives said")
# A comment of documentation, and what may stand between it and what it is of.
COMMENT = re.compile(
    r"((?:^ *///(?!/).*\n)+)(?:\s|//(?!/).*\n|#\[(?:[^\[\]]|\[[^\]]*\])*\])*", re.M
)
# The head of an `impl` or a `trait`, and of a function up to its name.
OWNER = re.compile(r"^(?:pub )?(?:impl|trait)\b[^{;]*\{", re.M)
FUNCTION = re.compile(
    r'^ *((?:pub(?:\([a-z]+\))? )?(?:const )?(?:final )?(?:extern "C" )?)fn (\w+)', re.M
)
BODY = re.compile(r"\b(?:requires|ensures)\b|\{|;(?![^\[\]]*\])")
CLAUSE = re.compile(r"\s*(requires|ensures)\s+(\w+)?\s*\{")


def type_name(header):
    """Returns the type that an `impl` is for, or the trait that a `trait` declares."""
    header, count = one_line(header).split(" where ")[0].replace("->", ""), 1
    while count:
        header, count = re.subn(r"<[^<>]*>", "", header)
    header = re.sub(r"^(?:pub )?(?:impl|trait) |.* for ", "", header)
    return re.match(r"&?(?:'\w+ )?(\w+|.*)", header)[1]


def said_in(comment):
    """Returns the first sentence of a comment of documentation, and what is below `# Errors`."""
    text = re.sub(r"^ *///? ?", "", comment, flags=re.M).strip()
    errors = re.search(r"^# Errors\n\n(.*?)(?=\n# |\Z)", text, re.M | re.S)
    first = re.split(r"(?<=\.)\s+(?=[A-Z])|\n\n", text, maxsplit=1)[0]
    said = first + (" Errors: " + errors[1] if errors else "")
    return one_line(re.sub(r"\[(`[^`]*`)\](?:\([^)]*\))?", r"\1", said))


def calls_in(path):
    """Yields each function of a source, after its name: `name` or `Type::name`."""
    text = code_of(path)
    said = {it.end(): said_in(it[1]) for it in COMMENT.finditer(read(path))}
    owners = [
        (it.start(), braced(text, it.end() - 1), type_name(it[0][:-1]) + "::")
        for it in OWNER.finditer(text)
    ]
    for found in FUNCTION.finditer(text):
        around = (it for it in owners if it[0] <= found.start() < it[1])
        start, end, owner = next(around, (0, 0, ""))
        name, at = owner + found[2], BODY.search(text, found.end()).start()
        front = re.sub(r'pub(\(\w+\))? |extern "C" ', "", found[1])
        signature = one_line(f"{front}fn {name}{text[found.end():at]}")
        clauses = []
        while (clause := CLAUSE.match(text, at)):
            at = braced(text, clause.end() - 1)
            clauses.append((clause[1], clause[2], one_line(text[clause.end() : at - 1])))
        contract, gives = read(path)[found.start() : at], ""
        given = re.compile(rf"^ *ghost {found[2]}_gives = \{{", re.M).search(text, start, end)
        if given:
            last = braced(text, given.end() - 1)
            contract, gives = read(path)[given.start() : last + 1], text[given.end() : last - 1]
        yield name, Call(
            path=path,
            line=text.count("\n", 0, (given or found).start()) + 1,
            contract=contract.rstrip(),
            signature=signature.replace("( ", "(").replace(", )", ")").rstrip(","),
            clauses=clauses,
            gives=one_line(gives),
            said=said.get(found.start(1)) or owner and said.get(start, ""),
        )


CALLS = defaultdict(list)
for source in SOURCES:
    for called, call in calls_in(source) if "/tests" not in source else []:
        CALLS[called].append(call)


def calls_of(path):
    """Returns the calls that a path of a document names, which may begin with a crate."""
    parts = path.split("::")
    crates = [parts.pop(0)] if parts[0] in CRATES and len(parts) > 1 else CRATES
    names = ["::".join(parts[-2:])]
    if len(parts) > 2 or len(parts) == 2 and parts[0].islower():
        names.append(parts[-1])
    calls = [call for name in names for call in CALLS.get(name, [])]
    return [call for call in calls if crate_of(call.path) in crates]
