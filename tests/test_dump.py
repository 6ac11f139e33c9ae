"""Runs the built sec1_dump over pictures that were drawn by hand, files that people have in place
of a key, stored keys and structures, damaged copies and large inputs, and compares what it prints,
its JSON and its status with the second reader `dump/picture.py`.

`dump/pictures.txt` has the pictures that were drawn by hand, `advice.py` makes files with the tools
that people have, `shapes.py` each form and each damage, and `rows.py` compares the rows with the
input, and with those of `openssl asn1parse`.
"""

import base64
import itertools
import json
import pathlib
import re
import shutil
import subprocess
import sys
import time

import pytest
from conftest import TOP, lines_of

sys.path.insert(0, str(TOP / "tests/dump"))
import advice  # noqa: E402
import guard  # noqa: E402
import picture  # noqa: E402
import programs  # noqa: E402
import rows  # noqa: E402
import shapes  # noqa: E402
import table  # noqa: E402
import text  # noqa: E402
import words  # noqa: E402
from pairs import element, sequence  # noqa: E402
from values import escaped  # noqa: E402

pytestmark = pytest.mark.built
PROGRAM = TOP / "crates/sec1_dump/out/sec1_dump"
LIMIT = 16_777_215
MEGABYTE = 1 << 20
KEY = shapes.KEY
# The key in PKCS #8, as OpenSSL writes it: its curve is that of the container.
PKCS8 = sequence(shapes.ZERO, shapes.algorithm_of("1.2.840.10045.2.1", KEY[41:51]),
                 element(4, sequence(KEY[2:39], KEY[51:])))


def run(arguments, given=b"", **more):
    """Returns what the program prints over this standard input, its messages, and its status."""
    ended = subprocess.run([PROGRAM, *arguments], input=given, capture_output=True, **more)
    return ended.stdout.decode(), ended.stderr.decode(), ended.returncode


def drawn(given, options=(), path=None, **part):
    """Returns what the second reader prints of an input, or of a part of it, no message, and the
    status."""
    shown, found = picture.draw(given, "--all" in options, "--json" in options, path, **part)
    return shown, "", int(not found)


def compare(tell, cases, *asked, **part):
    """Compares what is printed of inputs, or of a part of each, which are files of one run: the
    name and the bytes of each, before what else a case has."""
    names, given, *_ = zip(*cases)
    for options in ([], ["--all"], ["--json"], ["--all", "--json"]):
        options = [*options, *asked]
        found = programs.outputs(PROGRAM, options, given)
        for number, (name, data, shown) in enumerate(zip(names, given, found)):
            wanted = drawn(data, options, programs.path_of(number), **part)[0]
            tell(f"{name} {options}: {shown!r}", shown == wanted)


def test_drawn(tell):
    """The pictures that were drawn by hand, by the program and by the second reader."""
    by_hand = list(programs.drawn_by_hand())
    for name, data, asked, text, status in by_hand:
        tell(f"the reader's: {name}", drawn(data, asked) == (text, "", status))
    for name, data, asked, text, status in [*by_hand, *programs.stored()]:
        tell(f"{name} {asked}", run(asked, data) == (text, "", status))
    lines = run(["--json"], KEY[:60])[0].splitlines()
    for number, line in JSON.items():
        tell(f"line {number} of JSON", lines[number - 1] == line)
    compare(tell, by_hand)


# Of a key that is cut off after 60 bytes: what docs/FORMATS.md says of the members.
JSON = {
    1: '{"bytes":60,"form":"der"}',
    2: '{"announced":119,"class":"universal","constructed":true,"depth":0,"faults":[{"kind":'
    '"missing","words":"61 of 119 bytes missing"}],"header_len":2,"len":58,"name":"ECPrivateKey",'
    '"offset":0,"tag":16,"type":"SEQUENCE"}',
    4: '{"class":"universal","constructed":false,"depth":1,"header_len":2,"len":32,'
    '"name":"privateKey","offset":5,"secret":true,"tag":4,"type":"OCTET STRING"}',
    7: '{"depth":1,"header_len":0,"len":9,"offset":51,"type":"not drawn"}',
    8: '{"key":false,"mark":0,"words":"This is no EC private key (RFC 5915): 60 of 121 bytes are '
    'there."}',
}


def test_advice(tell, tmp_path):
    """What is said of files that people have in place of a key: each command makes the key of that
    very file, if OpenSSL reads it, and where none is printed, `openssl ec` makes none."""
    room = advice.Room(tmp_path)
    tell("the tools make the files", room.make() is None)
    cases = list(room.cases())
    for name, data, said in cases:
        shown, _, status = run([], data)
        lines = shown.splitlines()
        if name in HEADINGS:
            tell(f"the heading of {name}", lines[0] == HEADINGS[name])
        command = lines.pop()[2:] if said[-1].endswith(":") else None
        tell(f"what is said of {name}", lines[-len(said) :] == said)
        tell(f"the status of {name}", status == int(advice.KEY not in lines))
        if command is None:
            makes = [room.makes_key(words.EC % (form, ""), name, data) for form in FORMS]
            tell(f"no command makes a key of {name}", any(makes) == (name in advice.UNSAID))
        elif shutil.which(command.split()[0]) and not command.startswith("xxd"):
            done = room.makes_key(command, name, data)
            tell(f"the command for {name}", done == (name not in advice.UNREAD))
        if name in ASN1:
            tell(f"{name}: the rows of OpenSSL", rows.are_openssl(PROGRAM, data))
    compare(tell, cases)


# How the commands of OpenSSL are told that a file is DER, or PEM.
FORMS = ("-inform DER ", "")
HEADINGS = {
    "ec.pem": "PEM at line 1, EC PRIVATE KEY: 121 bytes",
    "bag.pem": "PEM at line 3, EC PRIVATE KEY: 121 bytes",
    "proc_type.pem": "PEM at line 1, EC PRIVATE KEY: encrypted (RFC 1421), not drawn",
    "openssh": "PEM at line 1, OPENSSH PRIVATE KEY: no DER, not drawn",
}
# The files in DER that are drawn whole.
ASN1 = """
    key.der pkcs8.der encrypted.der ed25519.der public.der x509.der request.der cms.der rsa.der
    signature.der explicit.der curve.der key.p12 dsa8.der dh.der curve_by.der query.tsq
    request.ocsp chain.p7b rsa_public.der explicit8.der
""".split()


def test_readme(tell):
    """The pictures in the README of the program, each below a line that names its input."""
    inputs = {"A key with another tag for the private key": KEY[:5] + b"\6" + KEY[6:],
              "A key in PKCS #8": PKCS8}
    text = (TOP / "crates/sec1_dump/README.md").read_text()
    shown = dict(re.findall(r"^(.+):\n\n```text\n((?:(?!```).*\n)*)```$", text, re.M))
    tell("the inputs of the README", shown.keys() == inputs.keys())
    for name, data in inputs.items():
        tell(f"the picture of the README: {name}", run([], data)[0] == shown.get(name))
        tell(f"the reader's picture: {name}", drawn(data)[0] == shown.get(name))


def test_commands(tell):
    """Each command that is printed stands in docs/REFUSED.md, whose commands are run."""
    page = (TOP / "docs/REFUSED.md").read_text()
    for command in (
        *(words.EC % (form, "") for form in FORMS), words.EC % ("-inform DER ", words.EXPLICIT),
        words.PKCS12 % "", words.LEGACY.strip(), "ssh-keygen -p -m PEM -f COPY",
        "puttygen FILE -O private-openssh -o key.pem",
    ):
        tell(f"docs/REFUSED.md has `{command}`", f"`{command}`" in page)


def test_words(tell):
    """What is said of each form that is whole stands in docs/FORMATS.md."""
    page = (TOP / "docs/FORMATS.md").read_text()
    front = r"This is PKCS #8 \(RFC 5958\) |These are (?:two )?INTEGERs, as of |This is "
    for form in table.ALL:
        content = shapes.example(form.structure, form.structure != "ECPrivateKey", 1)
        data = content if form.structure == "oid" else sequence(content)
        said = next(line for line in run([], data)[0].splitlines() if line.startswith("Th"))
        part = re.sub("key: [^ ]*[.] It", "key: Ed25519. It", re.sub(f"^(?:{front})", "", said))
        part = part.removesuffix(", no EC key.").removesuffix(": it has no private key.")
        is_like = form.structure in ("DHParameter", "Dss-Parms", "DomainParameters")
        tell(f"docs/FORMATS.md has {said}", is_like or part in page)


def test_arguments(tell, tmp_path):
    """Files, standard input and options; what couldn't be read, with the system's reason."""
    name = 'a"\u00E4\n'
    for file, data in (("key", KEY), ("other", b"\5\0"), ("-", b"\5\0"), (name, KEY)):
        (tmp_path / file).write_bytes(data)
    key, other, none = drawn(KEY)[0], drawn(b"\5\0")[0], "No such file or directory (os error 2)"
    key_below, other_below = f"key:\n{key}", f"other:\n{other}"
    for asked, given, shown, said, status in (
        (["key"], b"", key, "", 0),
        (["other"], b"", other, "", 1),
        ([], KEY, key, "", 0),
        (["-"], KEY, key, "", 0),
        (["./-"], KEY, other, "", 1),
        (["key", "key"], b"", key_below * 2, "", 0),
        (["other", "key"], b"", other_below + key_below, "", 1),
        (["-", "other"], KEY, f"-:\n{key}{other_below}", "", 1),
        ([name], b"", key, "", 0),
        ([name, "key"], b"", f"{escaped(name)}:\n{key}{key_below}", "", 0),
        (["none", "key"], b"", key_below, f"none: {none}", 2),
        (["key", "a\nb"], b"", key_below, f"a\\u{{A}}b: {none}", 2),
        (["."], b"", "", ".: Is a directory (os error 21)", 2),
        (["key/"], b"", "", "key/: Not a directory (os error 20)", 2),
        ([b"\xFF", "key"], b"", "", "the arguments can't be read", 2),
        (["key", "--json"], b"", *drawn(KEY, ["--json"], "key")),
        (["--", "key"], b"", key, "", 0),
        (["--all", "key", "--all"], b"", *drawn(KEY, ["--all"])),
        (["--depth", "1", "--depth=0", "key"], b"", *drawn(KEY, depth=0)),
    ):
        found = run(asked, given, cwd=tmp_path)
        said = said and f"sec1_dump: {said}\n"
        tell(f"{asked}: {found[1:]}", found == (shown, said, status))
    for files in ([name, "-"], ["./key", f"../{tmp_path.name}/key"]):
        lines = run(["--json", *files], KEY, cwd=tmp_path)[0].splitlines()
        named = [json.loads(line).get("file") for line in lines if '"form"' in line]
        tell(f"the names of files in JSON: {named}", named == files)
    version = re.search(r"^## .*?(\d+\.\d+\.\d+)", (TOP / "CHANGELOG.md").read_text(), re.M)
    tell("the CHANGELOG's version", run(["--version"]) == (f"sec1_dump {version[1]}\n", "", 0))


def test_wrong_arguments(tell):
    """Of wrong arguments standard error names the option or the value that is wrong, and nothing is
    drawn."""
    cases = [
        (["--other"], "--other"), (["--all=1"], "--all"), (["--json=1"], "--json"),
        (["-x", "-"], "-x"), (["-", "--dept", "1"], "--dept")]
    numbers = ("", "x", "1x", "-1", "0x10", " 1", "1.5", "16777216", "18446744073709551616")
    for option in ("--depth", "--offset"):
        cases += [([option], option), ([option, "-1"], "-1")]
        cases += [([f"{option}={number}"], option) for number in numbers]
    for asked, named in cases:
        shown, said, status = run(asked, KEY)
        is_named = said.startswith("error: ") and named in said.split("\n")[0]
        tell(f"{asked}: {said!r}, {status}", (shown, status) == ("", 2) and is_named)


def test_parts(tell):
    """One element of an input alone, and the rows that few elements are around."""
    der = KEY + b"\5\0"
    pem = b"-----BEGIN KEY-----\n%b\n-----END KEY-----\n" % base64.b64encode(KEY)
    inputs = {
        "a key and more": der, "a key in PEM": pem, "two keys in PEM": pem + pem,
        "a key in hexadecimal": KEY.hex().encode(), "PKCS #8": PKCS8,
        "a key that is cut": KEY[:60], "an indefinite length": b"\x30\x80" + KEY[2:] + b"\0\0",
        "a BIT STRING of elements": element(3, b"\0", sequence(element(2, b"\5"))),
        "no element": b"\xC3" * 40, "a text": b"hello", "no byte": b"",
        "a header that is cut": b"\x30\3\2\1",
        "64 levels": shapes.nested(64), "70 levels": shapes.nested(70)}
    # what begins where, by hand: an element, and one in a string that is drawn
    for offset, data, part in ((2, der, KEY[2:5]), (41, der, KEY[41:51]), (53, der, KEY[53:]),
                               (29, PKCS8, PKCS8[29:])):
        lines, _, is_key = picture.drawn(part, runs=False)
        found = run(["--offset", str(offset)], data)
        tell(f"what begins at {offset}", found == ("\n".join(lines) + "\n", "", int(not is_key)))
    # 7 is inside the private key, and 121 behind the root
    for offset in (1, 3, 6, 7, 42, 54, 55, 121, 122, 123, LIMIT):
        said = f"No element begins at offset {offset}."
        tell(f"nothing at {offset}", run(["--offset", str(offset)], der) == (f"{said}\n", "", 1))
        last = run(["--offset", str(offset), "--json"], der)[0].splitlines()[1:]
        tell(f"nothing at {offset} in JSON", last == [f'{{"key":false,"words":"{said}"}}'])
    for depth, wanted in ((0, [0]), (1, [0, 2, 5, 39, 51]), (2, [0, 2, 5, 39, 41, 51, 53])):
        lines = run(["--depth", str(depth)], KEY)[0].splitlines()
        tell(f"the rows of --depth {depth}", [int(line[:4]) for line in lines[:-1]] == wanted)
    offsets, depths = (0, 1, 2, 5, 7, 27, 29, 41, 53, 60, 121), (None, 0, 1, 2, 64)
    for offset, depth in itertools.product(offsets, depths):
        asked = ["--offset", str(offset), *([] if depth is None else ["--depth", str(depth)])]
        compare(tell, inputs.items(), *asked, offset=offset, depth=depth)


def test_help(tell):
    """Help says what the program and each of its words is for, what is hidden, the statuses and the
    limit, and has an example."""
    shown, _, status = run(["--help"])
    tell("the status of help", status == 0 and run(["-h"])[0] == shown)
    for words_of in ("private is hidden", "status is 0", "16,777,215", "Example: sec1_dump "):
        tell(f"help says {words_of}", words_of in shown)
    tell("help says what the program draws", "in place of a key" in shown.split("\n")[0])
    for word, says in (("--all", "private keys"), ("--json", "JSON"), ("[FILE]...", "PEM"),
                       ("--offset", "begins after N bytes"), ("--depth", "more than N")):
        lines = [line for line in shown.split("\n") if word in line.split()[:1]]
        tell(f"help says what {word} is for", len(lines) == 1 and says in lines[0])


def test_full(tell):
    """A device that is full, and standard input that is closed."""
    said = b"sec1_dump: standard output: No space left on device (os error 28)\n"
    for asked in (["-"], ["--json", "-"], ["--help"], ["--version"], ["-", "-"]):
        with open("/dev/full", "wb") as full:
            command = [PROGRAM, *asked]
            ended = subprocess.run(command, input=KEY, stdout=full, stderr=subprocess.PIPE)
        tell(f"a full device {asked}", (ended.returncode, ended.stderr) == (2, said))
    closed = subprocess.run(["sh", "-c", '"$0" <&-', PROGRAM], capture_output=True, text=True)
    said = "sec1_dump: standard input: Bad file descriptor (os error 9)\n"
    found = (closed.stdout, closed.stderr, closed.returncode)
    tell(f"closed input: {closed.stderr}", found in (("", said, 2), drawn(b"")))


def test_limit(tell, tmp_path):
    """The greatest input, and one byte more."""
    file = tmp_path / "file"
    file.write_bytes(element(4, bytes(LIMIT - 5)))
    shown = f"   0 04 83 FF FF FA 16777210  OCTET STRING, 16777210 bytes\n{words.NO_KEY}.\n"
    tell("the greatest input", run([file]) == (shown, "", 1))
    with file.open("ab") as more:
        more.write(b"\0")
    said = f"sec1_dump: {file}: more than 16,777,215 bytes\n"
    tell("an input of a byte more", run([file]) == ("", said, 2))


def test_requests(tell, refuse, tmp_path):
    """Each request for memory refused in turn: the picture is printed, or a beginning of it."""
    count = tmp_path / "count"
    reason = "sec1_dump: (standard input: |the arguments )?(out of memory|can't be read)\n"

    def refusing(number, asked, given):
        """Runs the program with the request of this number refused: how it ended, the number of
        requests, and whether one was refused."""
        wanted = {"LD_PRELOAD": refuse, "REFUSE_COUNT": count, "REFUSE": str(number)}
        ended = run(asked, given, env=wanted)
        requests, refused = count.read_text().split()
        return ended, int(requests), refused == "1"

    for given in (KEY, KEY.hex().encode(), b'\x30\7\x0C\5\xC3\xA4"\\a'):
        for asked in ([], ["--json"]):
            whole, requests, _ = refusing(1_000_000, asked, given)
            tell("what is printed where none is refused", whole == drawn(given, asked))
            tell("requests for memory are seen", 4 < requests < 500)
            for number in range(1, requests + 1):
                ended, _, is_refused = refusing(number, asked, given)
                shown, said, status = ended
                is_front = whole[0].startswith(shown) and status == 2 and re.fullmatch(reason, said)
                is_right = is_refused and (ended == whole or is_front)
                tell(f"request {number} of {requests}: {said}, {status}", is_right)


def test_keys(tell):
    """The stored keys, damaged copies of them, and keys that differ in the private key alone."""
    lines = (TOP / "tests/keys/openssl.txt").read_text().splitlines()
    copies = lines_of(sys.executable, TOP / "tests/keys/damage.py", given=lines)
    stored, damaged = ([(it, bytes.fromhex(it)) for it in digits if not it.startswith("#")]
                       for digits in (lines, copies))
    compare(tell, stored + damaged)
    for name, data in stored[::8]:
        tell(f"{name}: the rows of OpenSSL", rows.are_openssl(PROGRAM, data))
    for count in (0, 1, 28, 32, 66, 200):
        one, other = (sequence(shapes.ONE, element(4, it * count)) for it in (b"\5", b"\xFA"))
        for asked in ([], ["--json"]):
            tell(f"{count} bytes that are hidden", run(asked, one) == run(asked, other))
            is_same = run([*asked, "--all"], one) == run([*asked, "--all"], other)
            tell(f"{count} bytes that are shown", is_same == (count == 0))


def test_structures(tell):
    """Containers, certificates and public keys, as they are stored and cut off in the middle."""
    for name, data in programs.structures():
        tell(f"{name}: the rows of OpenSSL", rows.are_openssl(PROGRAM, data))
    cut = [(f"{name}, cut off", data[:len(data) // 2]) for name, data in programs.structures()]
    compare(tell, [*programs.structures(), *cut])


def test_shapes(tell):
    """Each shape, by the second reader."""
    compare(tell, shapes.every())
    for levels in (1, 63, 64, 65, 70):
        count = run([], shapes.nested(levels))[0].count("SEQUENCE")
        tell(f"{count} rows of {levels} levels", count == (levels if levels <= 64 else 0))
    lines = (line for data in shapes.shapes() for line in run([], data)[0].splitlines())
    tell("no line but the last is too long", all(len(line) <= 100 for line in lines))


def test_masks(tell):
    """The picture of DER doesn't depend on what isn't shown, but where a known file is named."""
    inputs = [data for _, data in shapes.every()
              if not text.is_text(data) and text.parts(data)[0].form == "der"
              and not any(begins(data) for _, begins in words.KNOWN)]
    masks = [guard.mask_of(data) for data in inputs]
    both = (programs.outputs(PROGRAM, [], given) for given in (inputs, masks))
    for data, one, other in zip(inputs, *both):
        tell(f"the mask of {data.hex()}", one is not None and one == other)


def test_large(tell, tmp_path):
    """A megabyte of elements: the rows, and the memory that they take more than a small key."""
    nulls = run([], b"\5\0" * 524_288)[0].splitlines()
    undrawn = "   0             1048576  1048576 bytes not drawn"
    tell("NULLs side by side", nulls == [undrawn, "These are 1048576 bytes: no DER."])
    small, large = tmp_path / "small", tmp_path / "large"
    small.write_bytes(KEY)
    least = {True: peak(["--json"], small), False: peak([], small)}
    for name, inside, count in (("INTEGERs", b"\2\1\5", 349_000),
                                ("empty SEQUENCEs", b"\x30\0", 524_000)):
        data = sequence(inside * count)
        large.write_bytes(data)
        for asked in (["--all"], ["--all", "--json"], [], ["--json"]):
            more = peak(asked, large) - least["--json" in asked]
            most = len(data) * (1 if "--json" in asked else 2) + MEGABYTE
            tell(f"{name} {asked}: {more} bytes of memory, of {most}", more <= most)
        drawn_rows, _ = rows.of(PROGRAM, data, True)
        tell(f"{name}: a row each", len(drawn_rows) == count + 1)
        tell(f"{name}: the rows are the input", rows.cover(drawn_rows, len(data)))


def peak(asked, file):
    """Returns the memory in bytes that the program has had at most when it has drawn a file, and
    waits for standard input."""
    command = [PROGRAM, *asked, file, "-"]
    with subprocess.Popen(command, stdin=subprocess.PIPE, stdout=subprocess.DEVNULL) as ran:
        of_process, before, now = pathlib.Path(f"/proc/{ran.pid}"), None, ("",)
        # until it sleeps, and has taken no more time
        while ran.poll() is None and (now != before or now[0] != "S"):
            time.sleep(0.1)
            state, *others = (of_process / "stat").read_text().rsplit(")", 1)[1].split()
            before, now = now, (state, others[10], others[11])
        found = re.search(r"VmHWM:\s+(\d+) kB", (of_process / "status").read_text())
        ran.communicate(KEY)
    return int(found[1]) * 1024


def test_rows(tell):
    """The rows of damaged inputs are their bytes, each once."""
    for name, data in rows.damaged():
        for everything in (False, True):
            found, count = rows.of(PROGRAM, data, everything)
            tell(f"{name}: the rows are the input", count == len(data) and rows.cover(found, count))
