"""What tests/crate and tests/edits share: the crates of crates.txt, and rooms to prove them in.

`rt` lets one command at a time work in a crate's folder and in those below it, so crates that stand
on the same one can't be proved side by side in one checkout. A room is a copy of a crate and of the
crates below it, whose libraries are linked in. It is made in TMPDIR, and is gone when the script
ends, also by a signal.

    RT      the command `rt`
    WORDS   a folder for what commands print while they run
"""

import contextlib
import ctypes
import fcntl
import os
import re
import shutil
import signal
import subprocess
import sys
import tempfile
from dataclasses import dataclass
from pathlib import Path

TOP = Path(__file__).resolve().parent.parent
RT = os.environ.get("RT", "rt").split()
PROCESSORS = len(os.sched_getaffinity(0))
# `rt` ends a test or a program after a minute, if nothing is said.
os.environ.setdefault("RT_SECONDS", "3600")
WORDS = Path(os.environ.get("WORDS") or tempfile.gettempdir())


def say(text):
    """Prints a line at once."""
    print(text, flush=True)


def count(passed, failed):
    """Prints the last line, and returns the script's status."""
    say(f"{passed} passed, {failed} failed")
    return int(failed != 0)


# ---- the crates


@dataclass(frozen=True)
class Crate:
    """A crate, in the folder `crates` of a checkout or a room."""

    top: Path
    name: str

    @property
    def folder(self):
        return self.top / "crates" / self.name

    @property
    def out(self):
        return self.folder / "out"

    @property
    def is_program(self):
        return (self.folder / "src/main.rt").exists()

    @property
    def has_tests(self):
        return any("#[test]" in it.read_text() for it in (self.folder / "src").rglob("*.rt"))

    @property
    def is_used(self):
        """Whether another crate of the checkout uses it."""
        return any(self.name in used for used in uses_of(TOP).values())


def lines_of(top):
    """Returns the lines of the repository's crates by their names, without the comments."""
    lines = (top / "crates.txt").read_text().splitlines()
    return {re.match(r"\w+", it)[0]: it for it in lines if re.match(r"\w+( staticlib)?:", it)}


def uses_of(top):
    """Returns the names of the repository's crates, each with those that it uses itself."""
    lines = lines_of(top)
    return {
        name: [it for it in line.partition(":")[2].split() if it in lines]
        for name, line in lines.items()
    }


def below_of(top, name):
    """Returns the names of all crates that a crate stands on, the lowest first."""
    every = [it for used in uses_of(top)[name] for it in [*below_of(top, used), used]]
    return list(dict.fromkeys(every))


# ---- rooms


def link_or_copy(file, to):
    """Gives a checked module, or a file of a built library, a second name on the same file system,
    and copies any other file: a check replaces these, and never writes into them."""
    with contextlib.suppress(OSError):
        if str(file).endswith(".oantt") or "/out/rlib/" in str(file):
            return os.link(file, to)
    return shutil.copy2(file, to)


@contextlib.contextmanager
def locked(folder):
    """Keeps every `rt` out of a crate's folder."""
    held = os.open(folder, os.O_RDONLY)
    try:
        with contextlib.suppress(OSError):
            fcntl.flock(held, fcntl.LOCK_EX)
        yield
    finally:
        os.close(held)


def copy_crate(crate, to, kept):
    """Copies a crate without its edits, and what stands in its out/ under these names."""
    shutil.copytree(crate.folder, to, ignore=shutil.ignore_patterns("out", "must-fail"))
    with locked(crate.folder):
        for name in kept:
            file = crate.out / name
            if file.is_dir():
                shutil.copytree(file, to / "out" / name, copy_function=link_or_copy)
            elif file.exists():
                (to / "out").mkdir(exist_ok=True)
                shutil.copy2(file, to / "out" / name)


@contextlib.contextmanager
def room_of(crate, kept, of_below=("rlib",)):
    """Gives the crate in a room of its own, over the libraries below it as they are built."""
    below = below_of(crate.top, crate.name)
    with tempfile.TemporaryDirectory(prefix=f"{crate.name}-") as made:
        room = Path(made)
        lines = lines_of(crate.top)
        uses = [lines[it] for it in [*below, crate.name]]
        (room / "crates.txt").write_text("".join(f"{it}\n" for it in uses))
        shutil.copy2(crate.top / "HANDLES", room)
        for used in below:
            copy_crate(Crate(crate.top, used), room / "crates" / used, of_below)
        copy_crate(crate, room / "crates" / crate.name, kept)
        yield Crate(room, crate.name)


def bring_back(room, crate):
    """Puts what a room's crate has in its out/ in the place of what the checkout's has."""
    crate.out.mkdir(exist_ok=True)
    with locked(crate.folder):
        for made in room.out.iterdir() if room.out.is_dir() else ():
            old = crate.out / made.name
            if old.is_dir():
                shutil.rmtree(old)
            shutil.move(made, old)


# ---- commands


def run_in(folder, command, name, given=None, env=None):
    """Runs a command in a folder, and returns how it ended and what it printed. What it prints
    stands in the file NAME.words of the folder WORDS until then, where ./test sees how far it is.
    """
    how = {"input": given} if given is not None else {"stdin": subprocess.DEVNULL}
    file = WORDS / f"{name}.words"
    with open(file, "w+b") as output, tempfile.TemporaryFile() as errors:
        ran = subprocess.run(command, cwd=folder, env=env, stdout=output, stderr=errors, **how)
        file.unlink()
        for it in (output, errors):
            it.seek(0)
        return subprocess.CompletedProcess(command, ran.returncode, output.read(), errors.read())


def last_lines(ran):
    """Returns how a command ended, and the last lines of what it printed."""
    lines = (ran.stdout + ran.stderr).decode(errors="replace").splitlines()[-15:]
    return "\n".join([f"ended with status {ran.returncode}", *(f"   {it[:300]}" for it in lines)])


def end_on_signals():
    """Has a signal, or the end of what began this script, end it, its commands and its rooms."""

    def stop(number, _):
        signal.signal(number, signal.SIG_IGN)
        os.killpg(0, number)
        sys.exit(128 + number)

    with contextlib.suppress(PermissionError):
        # of a session's leader it is its group already
        os.setpgid(0, 0)
    for number in (signal.SIGTERM, signal.SIGINT, signal.SIGHUP):
        signal.signal(number, stop)
    with contextlib.suppress(OSError, AttributeError):
        # PR_SET_PDEATHSIG
        ctypes.CDLL(None).prctl(1, signal.SIGTERM)
