#!/usr/bin/env python3
"""Runs programs that draw a file over the pictures that were drawn by hand, over stored keys,
structures and damaged keys, and compares what each prints and its status with those pictures and
with the second reader: programs.py [--several] COMMAND.., each called as `COMMAND [--all] FILE`,
and with --several also as `COMMAND [--all] FILE..` with several files, missing ones, and none: what
begins with -- and isn't that option is a file.

The last line is `N passed, M failed`.
"""
import pathlib
import random
import re
import shlex
import subprocess
import sys
import tempfile

HERE = pathlib.Path(__file__).resolve().parent
sys.path.insert(0, str(HERE))
import picture  # noqa: E402


def drawn_by_hand():
    """The name of each picture that was drawn by hand, its input, the option, the text and the
    status."""
    for block in (HERE / "pictures.txt").read_text().rstrip("\n").split("\n\n"):
        lines = block.splitlines()
        digits = "".join(line[2:] for line in lines if line.startswith("x "))
        written = "".join(line[2:] + "\n" for line in lines if line.startswith("< "))
        asked = next(at for at, line in enumerate(lines) if line.startswith("$"))
        text = "".join(line + "\n" for line in lines[asked + 1:-1])
        data = written.encode() + bytes.fromhex(digits)
        yield lines[0][2:], data, lines[asked].split()[1:], text, int(lines[-1][2:])


def structures():
    """The name and the bytes of each stored structure."""
    for line in (HERE.parent / "certificates/openssl.txt").read_text().splitlines():
        name, digits = line.split()
        yield name, bytes.fromhex(digits)


def stored():
    """The same of stored keys, structures and damaged keys, by the second reader."""
    lines = (HERE.parent / "keys/openssl.txt").read_text().splitlines()
    keys = [bytes.fromhex(line) for line in lines if not line.startswith("#")]
    others = [data for _, data in structures()]
    numbers, damaged = random.Random(2026), []
    for key in numbers.sample(keys, 60):
        at = numbers.randrange(len(key))
        damaged += [key[:at], key[:at] + bytes([numbers.randrange(256)]) + key[at + 1:]]
    for kind, inputs in (("key", keys[::10]), ("structure", others[::8]), ("damaged key", damaged)):
        for number, data in enumerate(inputs):
            asked = ["--all"] if number % 5 == 0 else []
            text, is_key = picture.draw(data, bool(asked))
            yield f"{kind} {number}", data, asked, text, int(not is_key)


def several(folder):
    """The words after the command, what is printed, the status, and what stands in each line that
    is said of an error: of files that were drawn by hand, and of others."""
    drawn = {status: (data, text) for _, data, asked, text, status in drawn_by_hand() if not asked}
    key, other, none, word = (*(str(folder / name) for name in ("key", "other", "none")), "--none")
    texts = {none: f"{none}:\n", word: f"{word}:\n"}
    for path, (data, text) in ((key, drawn[0]), (other, drawn[1])):
        pathlib.Path(path).write_bytes(data)
        texts[path] = f"{path}:\n{text}"
    for *paths, status in ((key, key, 0), (key, other, 1), (other, key, 1), (none, key, 2),
                           (other, none, key, 2), (word, key, 2)):
        said = [f": {path}: No such file or directory" for path in paths if path in (none, word)]
        yield paths, "".join(texts[path] for path in paths), status, said
    all_shown = picture.draw(drawn[0][0], True)[0]
    yield [key, "--all"], all_shown, 0, []
    yield [key, "--all", key], f"{key}:\n{all_shown}" * 2, 0, []
    for words, said in (([none], f": {none}: No such file or directory"),
                        ([str(folder)], f": {folder}: Is a directory"), ([], " [--all] FILE..")):
        yield words, "", 2, [said]


def outputs(program, options, given):
    """What `sec1_dump` prints of each of these inputs, which are files of one run; None if it
    doesn't print something of each."""
    return outputs_and_status(program, options, given)[0]


def outputs_and_status(program, options, given):
    """The same, and the status of the run."""
    with tempfile.TemporaryDirectory() as room:
        paths = [path_of(number) for number in range(len(given))]
        for path, data in zip(paths, given):
            pathlib.Path(room, path).write_bytes(data)
        ended = subprocess.run([program, *options, *paths], cwd=room, capture_output=True)
    front = r"^(\d+\.file):\n"
    if "--json" in options:
        front = r'^(?=\{(?:"bytes":\d+,)?"file":"(\d+\.file)")'
    first, *texts = re.split(front, ended.stdout.decode(), flags=re.M)
    found = {}
    # of a file with several blocks of PEM there are several objects
    for path, text in zip(texts[::2], texts[1::2]):
        found[path] = found.get(path, "") + text
    is_whole = not first and not ended.stderr and list(found) == paths
    return list(found.values()) if is_whole else [None] * len(given), ended.returncode


def path_of(number):
    """The path of the input with this number, for `outputs`."""
    return f"{number}.file"


def main(arguments):
    passed = failed = 0
    is_several = arguments[0] == "--several"
    with tempfile.TemporaryDirectory() as folder:
        file = pathlib.Path(folder) / "file"
        cases = [(name, data, [*asked, file], text, status, [])
                 for name, data, asked, text, status in [*drawn_by_hand(), *stored()]]
        for words, *wanted in several(pathlib.Path(folder)) if is_several else ():
            cases.append((f"{len(words)} words", b"", words, *wanted))
        for name, data, words, text, status, said in cases:
            file.write_bytes(data)
            for command in arguments[is_several:]:
                ran = subprocess.run([*shlex.split(command), *words], capture_output=True)
                lines = ran.stderr.decode().splitlines()
                holds = ran.stdout.decode() == text and ran.returncode == status
                holds &= len(lines) == len(said) and all(map(str.__contains__, lines, said))
                passed, failed = passed + holds, failed + (not holds)
                if not holds:
                    print(f"FAILED: {command} of {name}: {ran.stdout[:300]!r}, {ran.returncode}, "
                          f"{ran.stderr[-200:]!r}, in place of {text[:300]!r}, {status}")
    print(f"{passed} passed, {failed} failed")
    return failed != 0


if __name__ == "__main__":
    sys.exit(main(sys.argv[1:]))
