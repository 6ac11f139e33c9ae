#!/usr/bin/env python3
"""Counts the instructions of each call of benches/calls.rs by valgrind, this crate's and those of plain Rust. Prints
a line for each: the name, the two numbers, and how many times the second the first is.

  bindings/rust/instructions.py [FOLDER]    FOLDER: where cargo builds, by default bindings/rust/target
"""
import json
import os
import pathlib
import re
import subprocess
import sys
import tempfile

HERE = pathlib.Path(__file__).resolve().parent
CALLS = (200, 1200)


def built():
    """The bench as cargo builds it."""
    command = ["cargo", "bench", "--offline", "--features", "std", "--no-run", "--message-format=json"]
    output = subprocess.run(command, cwd=HERE, check=True, stdout=subprocess.PIPE, text=True).stdout
    messages = [json.loads(line) for line in output.splitlines()]
    return next(m["executable"] for m in messages if m.get("executable") and m["target"]["name"] == "calls")


def counted(program, line, side, calls):
    """The instructions of a run with so many calls."""
    with tempfile.TemporaryDirectory() as folder:
        tool = ["valgrind", "--tool=callgrind", f"--callgrind-out-file={folder}/out"]
        command = [*tool, program, str(line), str(side), str(calls)]
        output = subprocess.run(command, check=True, stderr=subprocess.PIPE, text=True).stderr
    return int(re.search(r"Collected : (\d+)", output).group(1))


def main():
    if sys.argv[1:]:
        os.environ["CARGO_TARGET_DIR"] = sys.argv[1]
    program = built()
    names = re.findall(r'table\.line\(\s*"([^"]*)"', (HERE / "sec1/benches/calls.rs").read_text())
    for line, name in enumerate(names):
        few, many = [[counted(program, line, side, calls) for side in (0, 1)] for calls in CALLS]
        ours, plain = [(b - a) / (CALLS[1] - CALLS[0]) for a, b in zip(few, many)]
        print(f"{name:30} {ours:8.0f} {plain:8.0f} {ours / plain:6.2f}", flush=True)


main()
