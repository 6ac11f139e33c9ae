"""What dist ships, where no kit is: the archive is built, tested, installed and removed; sec1.c is
compiled by compilers of C and of C++, and run for Windows under wine, and for processors of both
byte orders under qemu; and no branch and no address depends on a byte of a private key."""

import os
import re
import shutil
import tempfile
from pathlib import Path

import pytest
from conftest import TOP, call, lines_of, needs, rows

pytestmark = pytest.mark.slow

DIST = TOP / "dist"
HERE, ARCHIVE = ["make", "-s", "-C", DIST], "libsec1.a"
VARIABLES = """MAKEFLAGS MAKELEVEL DESTDIR PREFIX LIBDIR INCLUDEDIR DATADIR MANDIR DOCDIR BUILD
    PROVED CC CFLAGS CPPFLAGS LDFLAGS"""
WINE = "/usr/lib/wine/wine64"
COMPILERS = ["gcc", pytest.param("clang", marks=needs("clang"))]


@pytest.fixture(autouse=True)
def clean(monkeypatch, tmp_path):
    """Has the variables that dist/Makefile takes as if nobody had set them."""
    for name in VARIABLES.split():
        monkeypatch.delenv(name, raising=False)
    monkeypatch.setenv("WINEPREFIX", str(tmp_path / "wine"))
    monkeypatch.setenv("WINEDEBUG", "-all")


# ---- the archive, where no kit is


@pytest.fixture(scope="module")
def packed(tmp_path_factory):
    """Returns the archive that dist/pack makes."""
    folder = tmp_path_factory.mktemp("packed")
    lines_of(DIST / "pack", folder)
    return next(folder.glob("sec1-*.tar.gz"))


@pytest.fixture
def folder(packed, check):
    """Returns an empty folder, in which the archive is unpacked, and which is nobody's."""
    with tempfile.TemporaryDirectory() as place:
        # others may go through it, which they may not through the folders of pytest
        os.chmod(place, 0o755)
        folder = Path(place, "sec1")
        folder.mkdir()
        unpack = f"tar -C {folder} --strip-components=1 -xzf {packed}"
        owner = "" if os.getuid() else f"; chown -R 65534:65534 {folder}"
        check("the archive is unpacked", unpack + owner)
        yield folder


@pytest.fixture
def alone(check, folder):
    """Runs a command as `check` does, in the folder, as another user, in a name space without
    network where neither the kit nor this repository is. Where this user can't make one, only the
    path is without the kit."""
    before = ["env", "-i", "PATH=/usr/bin:/bin", f"HOME={folder}", "LC_ALL=C"]
    unshare, hidden = ["unshare", "--mount", "--net"], [TOP]
    if not os.getuid() and call([*unshare, "true"]).returncode == 0:
        rt = os.environ.get("RT", "rt")
        if shutil.which(rt):
            hidden.append(os.path.dirname(os.path.realpath(lines_of(rt, "doc")[0])))
        hide = "".join(f"mount -t tmpfs none '{it}' || exit 99\n" for it in hidden)
        user = "exec setpriv --reuid=65534 --regid=65534 --clear-groups --no-new-privs"
        before = [*unshare, "bash", "-c", f'{hide}{user} "$@"', "alone", *before]

    def run(what, command, **how):
        words = ["sh", "-ec", command] if isinstance(command, str) else command
        check(what, [*before, *words], folder=folder, **how)

    return run


def test_archive_is_the_same_each_time(packed, check, tmp_path):
    check("it is packed again", [DIST / "pack", tmp_path])
    check("it has the same bytes", ["cmp", packed, tmp_path / packed.name])


def test_there_is_no_kit(alone):
    alone("rt", "! command -v rt")
    alone("this repository", f"! test -e {DIST}/make")


OWN = """#include <sec1.h>
uint32_t own(void);
uint32_t own(void) { return sec1_identifier_check(0, 0); }
"""


@pytest.mark.parametrize("compiler", COMPILERS)
def test_archive_is_made(alone, folder, tell, compiler):
    alone("make", f"make CC={compiler} BUILD=build")
    alone("make check", f"make check CC={compiler} BUILD=build")
    # what a library of one's own that links the archive exports, without and with the option: of
    # the one object that the linker took, or nothing
    (folder / "own.c").write_text(OWN)
    number = len(re.findall(r"^\t\.globl", (DIST / "sec1-x86_64.s").read_text(), re.M))
    for option, wanted in ("", number), ("-Wl,--exclude-libs,libsec1.a", 0):
        build = f"{compiler} -shared -fPIC -I. own.c build/{ARCHIVE} {option} -o own.so"
        alone(f"a library over the archive, {option}", build)
        names = lines_of("nm", "-D", "--defined-only", folder / "own.so")
        found = sum(" T sec1_" in it for it in names)
        tell(f"{option}: it exports {found} functions, not {wanted}", found == wanted)


CMAKE = """cmake_minimum_required(VERSION 3.13)
project(p C)
find_package(sec1 0.2 REQUIRED)
add_executable(shared examples/key_parts.c)
target_link_libraries(shared sec1::sec1)
add_executable(archive examples/key_parts.c)
target_link_libraries(archive sec1::static)
"""
PRINTS = "examples/p256.der | cmp - examples/p256.txt"
# What is done with the library that is installed in usr, by which tool.
INSTALLED = {
    "export PKG_CONFIG_PATH=$PWD/usr/lib/pkgconfig;"
    "cc -std=c99 examples/key_parts.c $(pkg-config --cflags --libs sec1) -o c": "pkg-config",
    f"LD_LIBRARY_PATH=usr/lib ./c {PRINTS}": "pkg-config",
    "cc -std=c99 -Iusr/include examples/key_parts.c usr/lib/libsec1.a -o static": "pkg-config",
    f"./static {PRINTS}": "pkg-config",
    "cmake -S . -B cmake -DCMAKE_PREFIX_PATH=$PWD/usr": "cmake",
    "cmake --build cmake": "cmake",
    f"cmake/shared {PRINTS}": "cmake",
    f"cmake/archive {PRINTS}": "cmake",
}


def test_archive_is_installed_and_removed(alone, folder, tell):
    (folder / "CMakeLists.txt").write_text(CMAKE)
    alone("make install", "make install PREFIX=$PWD/usr")
    for command, tool in INSTALLED.items():
        if not tell.lacks(1, tool):
            alone(command, command)
    other = folder / "usr/share/doc/sec1/other"
    other.write_text("other\n")
    alone("make uninstall", "make uninstall PREFIX=$PWD/usr")
    left = [it for it in (folder / "usr").rglob("*") if not it.is_dir()]
    tell(f"what others have stays, and nothing else: {left}", left == [other])


def test_packaging(add):
    add([DIST / "tests/packaging.sh"])


@needs("dh", "dpkg-buildpackage", "lintian")
def test_debian_package(alone, check, folder):
    folder.parent.chmod(0o777)
    # its tests are those of the archive
    packer = "DEB_BUILD_OPTIONS=nocheck DEBFULLNAME='A Packer' DEBEMAIL=packer@debian.org"
    lines = r"`DEBFULLNAME` and `DEBEMAIL`:\n\n((?:    .*\n)+)"
    lines = re.search(lines, (DIST / "README.md").read_text())[1]
    alone("dpkg-buildpackage, as README.md says it", f"export {packer}\n{lines}")
    # which bug of Debian the first upload closes is known to who uploads it
    ignored = "--suppress-tags initial-upload-closes-no-bugs"
    lintian = f"lintian --fail-on error,warning {ignored} ../*.changes"
    alone("lintian finds no error, and gives no warning", lintian)
    for file, has in ("libsec1-0", "libsec1.so.0 -> "), ("sec1-dump", "/usr/bin/sec1_dump"):
        command = f"dpkg-deb -c {folder.parent}/{file}_*.deb | grep -F '{has}'"
        check(f"{has} is in {file}", command)


@needs("qemu-aarch64", "aarch64-linux-gnu-gcc")
def test_archive_for_aarch64(check, folder):
    run = "RUN=qemu-aarch64 -L /usr/aarch64-linux-gnu"
    check("make check", ["make", "-C", folder, "check", "CC=aarch64-linux-gnu-gcc", run])
    check("it is for aarch64", f"readelf -h {folder}/build/calls | grep 'Machine: *AArch64'")


# ---- sec1.c

# The compilers, with other variables, which of the tests they run, and what that needs.
MINGW = "x86_64-w64-mingw32-gcc"
PORTABLE = {
    "gcc": (["CC=gcc"], "text calls million", "gcc"),
    "clang": (["CC=clang"], "text calls million", "clang"),
    "musl": (["CC=musl-gcc", "CPPFLAGS=-static"], "text calls", "musl-gcc"),
    "windows": ([f"CC={MINGW}", f"RUN={WINE}"], "text calls million", f"{WINE} {MINGW}"),
}
for it in ("riscv64", "s390x"):
    variables = [f"CC={it}-linux-gnu-gcc", f"RUN=qemu-{it} -L /usr/{it}-linux-gnu"]
    PORTABLE[it] = variables, "text calls", f"qemu-{it} {it}-linux-gnu-gcc"


@pytest.mark.parametrize("variables, tests", rows(PORTABLE))
def test_c_without_a_warning(check, tmp_path, variables, tests):
    flags = "CFLAGS=-O1 -Wpedantic -Wconversion -Werror"
    words = ["check", f"BUILD={tmp_path}/build", "PROVED=sec1.c", f"TESTS={tests}", flags]
    check("make check", [*HERE, *words, *variables])
    if f"RUN={WINE}" in variables:
        call(["/usr/lib/wine/wineserver64", "-k"])


def linked(name, build):
    """Returns a shell's text that links a program of the tests with what is compiled so."""
    program = f"gcc -std=c11 -O1 -I{DIST} -o {name} {DIST}/tests/{name}.c other.o"
    return f"{build} -I{DIST} -c -o other.o && {program}"


@pytest.mark.parametrize("compiler", ["g++", pytest.param("clang++", marks=needs("clang++"))])
def test_c_as_cpp(check, compiler):
    build = f"{compiler} -x c++ -Wall -Wextra -Wconversion -Werror {DIST}/sec1.c"
    check("it is compiled", linked("text", build))
    check("its version and a text", ["./text"], prints="ok 200")


def test_c_without_functions_of_gcc(check, tmp_path):
    text = (DIST / "sec1.c").read_text()
    plain, number = re.subn("^#if defined __GNUC__ \\|\\| .*", "#if 0", text, flags=re.M)
    assert number
    (tmp_path / "plain.c").write_text(plain)
    check("it is compiled", linked("calls", "gcc -O0 plain.c"))
    check("calls.c passes over it", ["./calls"])


# ---- secrets


@pytest.fixture
def script(check, tmp_path):
    """Makes the archive with these variables, and returns the script that runs over it."""

    def make(*variables):
        check("make", [*HERE, f"BUILD={tmp_path}", *variables, f"{tmp_path}/{ARCHIVE}"])
        return [DIST / "tests/secrets.sh", tmp_path / ARCHIVE]

    return make


@pytest.mark.parametrize("compiler", COMPILERS)
def test_secrets(script, add, compiler):
    add(script(f"CC={compiler}"), "valgrind")


@needs("valgrind")
@pytest.mark.parametrize("compiler", COMPILERS)
def test_secrets_of_c(script, add, compiler):
    add(script(f"CC={compiler}", "PROVED=sec1.c"), COMPILERS=compiler, LEVELS="-O2")


# Instructions at the beginning of sec1_key_write, whose first argument is the private key, and what
# valgrind says of them.
LEAKS = {
    "a branch": (
        "\tcmpb\t$7, (%rdi)\n\tje\t.Lplanted",
        "Conditional jump or move depends on",
    ),
    # it is stored, since valgrind leaves out what nobody reads
    "an address": (
        "\tmovzbl\t(%rdi), %eax\n\tleaq\tsec1_key_write(%rip), %r11\n"
        "\tmovb\t(%r11,%rax), %r11b\n\tmovb\t%r11b, -1(%rsp)",
        "Use of uninitialised value of size 8",
    ),
}


@needs("valgrind")
@pytest.mark.parametrize("code, said", LEAKS.values(), ids=LEAKS)
def test_leak_is_found(script, check, tmp_path, code, said):
    text = (DIST / "sec1-x86_64.s").read_text()
    begin = re.search(r"^sec1_key_write:(?:\n.*)*?\n\tendbr64", text, re.M).end()
    planted = f"\n\ttestq\t%rsi, %rsi\n\tje\t.Lplanted\n{code}\n.Lplanted:"
    (tmp_path / "leak.s").write_text(text[:begin] + planted + text[begin:])
    check("it is found", script(f"PROVED={tmp_path}/leak.s"), refused=said)
