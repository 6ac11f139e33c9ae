"""The library for C, as it is installed: what it exports and wants, its tests by compilers with
sanitizers, its header as each standard of C and C++, and its examples in C, C++, Rust and Python.

The object is what the proof of crates/sec1_c built. The rest is of dist, whose assembly is compared
with that object by test_made.py.
"""

import itertools
import os
import re

import pytest
from conftest import CLANG, TOP, lines_of, object_of

pytestmark = pytest.mark.library

DIST = TOP / "dist"
CC = os.environ.get("CC", "cc")
ARCHIVE = "lib/libsec1.a"
STRICT = """-std=c11 -g -O1 -Wall -Wextra -Wpedantic -Werror -fsanitize=address,undefined
    -fno-sanitize-recover=all""".split()


@pytest.fixture(scope="module")
def installed(program, tmp_path_factory):
    """Returns the folder in which the library is installed."""
    program("sec1_c", "libsec1_c.a")
    folder = tmp_path_factory.mktemp("installed")
    build = ["SEC1_C_BUILT=1", f"BUILD={tmp_path_factory.mktemp('build')}"]
    lines_of("env", *build, TOP / "crates/sec1_c/build.sh", folder)
    return folder


def names_of(*command):
    """Returns the names that nm prints, sorted."""
    return sorted(it.split()[-1] for it in lines_of(*command) if " " in it)


# ---- the archive


def test_archive(installed, program, tell):
    archive = installed / ARCHIVE
    exported = re.findall(r"^ *(sec1_\w+);$", (DIST / "packaging/libsec1.map").read_text(), re.M)
    declared = re.findall(r"\b(sec1_\w+)\(", (DIST / "sec1.h").read_text())
    tell("the header declares what is exported", sorted({*declared}) == sorted(exported))
    files = "include/sec1.h", "lib/libsec1.a", "lib/libsec1.so", "bin/sec1_dump"
    tell("the library is installed", all((installed / it).exists() for it in files))
    members = sorted(lines_of("ar", "t", archive))
    tell(f"it has two objects: {members}", members == ["header.o", "sec1_c.o"])
    found, proved = object_of(archive, "sec1_c.o"), object_of(program("sec1_c", "libsec1_c.a"))
    tell("it has the proved object", found and found == proved)
    wanted = [it for it in names_of("nm", "-u", archive) if not it.startswith("sec1_")]
    tell(f"it wants three functions: {wanted}", wanted == ["memcpy", "memmove", "memset"])
    found = names_of("nm", "-g", "--defined-only", archive)
    tell(f"it exports what the header declares: {found}", found == sorted(exported))


# ---- its instructions

# Those that the first x86-64 lacks: SSE3, SSSE3, SSE4, AVX, BMI, ADX and the like. tzcnt isn't one:
# an old processor runs it as bsf, whose result is the same for every number but 0, and the compiler
# writes it for no other.
NEWER = re.compile(
    """v[a-z0-9]+|k(mov|or|and|not|xor|test|shift|unpck|add)[a-z]+|addsubp[sd]|h(add|sub)p[sd]
    |mov[sd][hl]?dup|lddqu|fisttp.*|m(onitor|wait)x?|pshufb|ph(add|sub)s?[wd]|pmaddubsw
    |pabs[bwd]|psign[bwd]|pmulhrsw|palignr|p?blend[a-z]+|ptest|pmov[sz]x[a-z]+|pmul(dq|ld)
    |pm(in|ax)(sb|sd|uw|ud)|round[ps][sd]|insertps|extractps|pinsr[bdq]|pextr[bdq]|mpsadbw
    |phminposuw|packusdw|pcmp(eq|gt)q|dpp[sd]|movntdqa|pcmp[ei]str[im]|crc32[bwlq]?
    |popcnt[wlq]?|lzcnt[wlq]?|andn[lq]?|bextr[lq]?|bls(i|r|msk)[lq]?|bzhi[lq]?|mulx[lq]?
    |pdep[lq]?|pext[lq]?|rorx[lq]?|s[ah][rl]x[lq]?|ad[co]x[lq]?|movbe[wlq]?|cmpxchg16b
    |aes[a-z]+|pclmul[a-z]+|sha(1|256)[a-z0-9]+|rd(rand|seed|pid|[fg]sbase)|[ls]ahf
    |xsave[a-z0-9]*|xrstor[a-z0-9]*""",
    re.X,
)


def instructions(file):
    """Returns the instructions of an object or an archive, each once."""
    lines = lines_of("objdump", "-d", "--no-show-raw-insn", file)
    return {it.split("\t")[1].split()[0] for it in lines if "\t" in it}


def test_code_has_no_newer_instruction(installed, tell, tmp_path):
    archive, planted = installed / ARCHIVE, tmp_path / "newer.o"
    code = "popcnt %eax, %eax; pshufb %xmm0, %xmm0; haddps %xmm0, %xmm0; ret"
    (tmp_path / "newer.c").write_text(f'__asm__("{code}");\n')
    lines_of(CC, "-c", "newer.c", cwd=tmp_path)
    tell("the code can be read", "ret" in instructions(archive))
    for file, newer in (archive, []), (planted, ["haddps", "popcnt", "pshufb"]):
        found = sorted(filter(NEWER.fullmatch, instructions(file)))
        tell(f"{found} are newer in {file.name}", found == newer)


# ---- what runs over it

# How many cases each has, for where clang is missing.
TESTS = {"calls": 28, "million": 33}
PROGRAMS = [*itertools.product(TESTS, ["clang", "gcc"]), ("openssl", "gcc")]


@pytest.mark.parametrize("name, compiler", PROGRAMS)
def test_program_by_a_compiler(installed, tell, check, add, tmp_path, name, compiler):
    if compiler == "clang" and tell.lacks(1 + TESTS[name], *CLANG):
        return
    build = [compiler, *STRICT, "-I", installed / "include", "-o", name, DIST / f"tests/{name}.c"]
    # which openssl.c alone needs
    check(f"{compiler} compiles it", [*build, installed / ARCHIVE, "-Wl,--as-needed", "-lcrypto"])
    add([tmp_path / name])


def test_header_by_standards(installed, tell, add):
    # those of clang
    tell.lacks(81, "clang")
    add([DIST / "tests/compilers.sh", installed / "include", installed / ARCHIVE])


def test_examples(installed, add):
    add([DIST / "tests/examples.sh", installed])
