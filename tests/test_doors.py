"""What the READMEs have a user paste: the commands of README.md's "Use it", and those by which the
READMEs of the packages install them, as they stand there, in a clone, without a network. Each has
to end with what its README promises, and to leave nothing that git doesn't ignore."""

import re
import textwrap

import pytest
from conftest import OFFLINE, TOP, blocks, call, lines_of

pytestmark = pytest.mark.slow

PICTURE = (TOP / "dist/examples/p256-view.txt").read_text()
PARTS = (TOP / "dist/examples/p256.txt").read_text()
# docs/FORMATS.md has the text of this error; the length, which is too long, is at byte 1.
ERROR = "SEC1 ASN.1 error: input ends inside an element at DER byte 1"
# The languages, with the optional tools of each.
TOOLS = {"C": [], "Rust": [], "Python": [], "JavaScript": ["node", "npm"]}
SHELL = ["env", "-u", "SEC1_LIB_DIR", "-u", "CARGO_TARGET_DIR", "-u", "CC", *OFFLINE.split()]
# The files that git doesn't ignore, as a repository in an empty folder.
CLONE = """git ls-files -coz --exclude-standard | tar c --null -T - --ignore-failed-read |
    tar x -C "$0" && cd "$0" && git init -q && git add -A &&
    git -c user.name=t -c user.email=t@example.com commit -q -m ."""


def commands(path, heading):
    """Returns the blocks of commands below a heading of a document, which are indented there."""
    text = (TOP / path).read_text().split(f"\n{heading}\n", 1)[1]
    section = re.split(r"^#+ ", text, maxsplit=1, flags=re.M)[0]
    return [textwrap.dedent(it) for it in re.findall(r"(?:^    .*\n)+", section, re.M)]


def test_doors(tell, tmp_path):
    block, shown = commands("README.md", "## Use it")
    found = re.findall(r"^# (\w+): .*\n((?:[^#].*\n)+)", block, re.M)
    tell("README.md has a door for each language", [it for it, _ in found] == list(TOOLS))
    tell("README.md shows what each of them prints", shown == PICTURE)
    doors = [(language, "README.md", text, PICTURE) for language, text in found]
    path = "bindings/python/README.md"
    ways = commands(path, "## Install")
    tell(f"{path} has two ways to install", len(ways) == 2)
    text = f"python3 -m venv venv\n{ways[1]}venv/bin/python -m sec1 dist/examples/p256.der\n"
    doors += [("Python", path, f"rm -rf venv\n{it}", PICTURE) for it in (ways[0], text)]
    path = "bindings/js/README.md"
    text = f"{commands(path, '## Install')[0]}cp dist/examples/p256.der .\n"
    text += f"node --input-type=module <<'END'\n{blocks(path, 'js')[0]}END\nrm p256.der\n"
    doors.append(("JavaScript", path, text, PARTS))
    path = "bindings/rust/sec1/README.md"
    text = f"{blocks(path, 'sh')[0]}cat >src/main.rs <<'END'\n{blocks(path, '')[0]}END\n"
    promised = f"121 bytes; the first 60: {ERROR}\n"
    doors.append(("Rust", path, f"{text}cargo run --quiet\n", promised))
    clone = tmp_path / "clone"
    clone.mkdir()
    lines_of("bash", "-euo", "pipefail", "-c", CLONE, clone, cwd=TOP)
    for language, path, text, promised in doors:
        if tell.lacks(1, *TOOLS[language]):
            continue
        ran = call([*SHELL, f"npm_config_cache={clone}.npm", "bash", "-ec", text], cwd=clone)
        is_right = ran.returncode == 0 and ran.stdout.rstrip("\n").endswith(promised.rstrip("\n"))
        tell(f"{language}: {path}: {(ran.stdout + ran.stderr)[-500:]}", is_right)
    left = lines_of("git", "status", "--porcelain", cwd=clone)
    tell(f"git doesn't ignore what is left: {left}", not left)
