"""The packages for Rust, Python and JavaScript: each is packed, in a temporary folder and without a
network, and tested as it is installed.

    pytest-3 -n 4 tests/test_packages.py -k rust
"""

import functools
import http.server
import json
import os
import platform
import queue
import re
import shutil
import signal
import subprocess
import threading

import pytest
import wasm
from conftest import OFFLINE, TOP, blocks, call, lacking, lines_of, needs, rows

BINDINGS, DIST = TOP / "bindings", TOP / "dist"
MACHINE = platform.machine()
PROGRAMS = ["python3", "-B", TOP / "tests/dump/programs.py"]
PARTS = (DIST / "examples/p256.txt").read_text().rstrip("\n")
VERSION = re.search(r'^version = "(.*)"$', (BINDINGS / "rust/Cargo.toml").read_text(), re.M)[1]
MINGW, WINE = "x86_64-w64-mingw32-gcc", "/usr/lib/wine/wine64"
HOUR = 3600


@pytest.fixture(scope="module", autouse=True)
def target(tmp_path_factory):
    """Has no tool use a network, and the library be that of dist; returns where cargo builds, once
    for all tests, and without what only a debugger or a later build reads."""
    folder = tmp_path_factory.mktemp("target")
    variables = f"""{OFFLINE} CARGO_TARGET_DIR={folder} CARGO_INCREMENTAL=0
        CARGO_PROFILE_DEV_DEBUG=0 npm_config_cache={folder}/npm npm_config_fund=false
        npm_config_audit=false WINEDEBUG=-all WINEPREFIX={folder}/wine"""
    with pytest.MonkeyPatch.context() as patch:
        for name in ("SEC1_LIB_DIR", "SEC1_LIBRARY", "CC"):
            patch.delenv(name, raising=False)
        for it in variables.split():
            patch.setenv(*it.split("=", 1))
        yield folder


# What a package must not have.
LINKS = "find . -type l"
# Makes a repository of the package $0, and of what its links lead to, and a clone without links.
REPOSITORY = """mkdir $1/linked
cp -a --parents bindings/$0 $1/linked
rm -rf $1/linked/bindings/$0/target
realpath --relative-to=. $(find bindings/$0 -type l) | xargs cp --parents -t $1/linked
cd $1/linked
git init -q
git add -A
git -c user.name=t -c user.email=t@example.com commit -q -m .
git clone -q -c core.symlinks=false file://$PWD $1/unlinked"""


def repository(folder, package):
    """Makes a repository of a package, and of what its links lead to, and returns its clone without
    links, as git makes it on Windows: each is a file that has a path."""
    lines_of("bash", "-euo", "pipefail", "-c", REPOSITORY, package, folder, cwd=TOP)
    return folder / "unlinked"


@pytest.mark.parametrize("package", ["rust", "python", pytest.param("js", marks=needs("node"))])
def test_column_of_calls(check, package):
    check("it is that of the code", ["python3", "-B", BINDINGS / "calls.py", package])


# ---- Rust


@pytest.fixture(scope="module")
def workspace(tmp_path_factory):
    """Returns a copy of the workspace, with files in the place of the links of the crates."""
    folder = tmp_path_factory.mktemp("workspace") / "rust"
    shutil.copytree(BINDINGS / "rust", folder, ignore=shutil.ignore_patterns("target"))
    return folder


# How cargo finds the crate below.
BELOW = "--config 'patch.crates-io.bridgeacacia-sec1-sys.path=\"../sec1-sys\"'"
# Packs the crates one by one, since cargo 1.85 looks for the one below in the registry otherwise,
# and unpacks them in the folder $0, with the tests, which aren't packed.
PACK = f"""cargo package --locked --allow-dirty -p bridgeacacia-sec1-sys
cargo package --allow-dirty -p bridgeacacia-sec1 {BELOW}
for it in sec1 sec1-sys; do
    mkdir -p $0/$it
    crate=$CARGO_TARGET_DIR/package/bridgeacacia-$it-{VERSION}.crate
    tar xzf $crate -C $0/$it --strip-components=1
done
cp -r tests $0/sec1
sed -i 's/^autotests = false/autotests = true/' $0/sec1/Cargo.toml"""


@pytest.fixture(scope="module")
def packed(workspace, target):
    """Returns the folder of what is packed of both crates, each built from what is listed."""
    lines_of("bash", "-ec", PACK, target / "crates", cwd=workspace / "sec1")
    return target / "crates"


FULL = "test -s LICENSE-MIT -a -s LICENSE-APACHE"


def test_rust_is_packed(packed, check, target):
    check("the licences of sec1", FULL, folder=packed / "sec1")
    check("those of sec1-sys", f"{FULL} -a -f licences.txt", folder=packed / "sec1-sys")
    check("no link is packed", LINKS, prints="", folder=packed)
    names = f"for it in {target}/package/*.crate; do tar tzf $it; done"
    check("no test is packed", f"! ({names} | grep -E '/(tests|benches)/')")


# What passes of the packed crate; sec1.rs stands in for the assembly elsewhere, and the long tests
# are of the crate's own code.
PACKED = {
    "tests": "cargo test --features std,pem",
    "examples without std": "cargo test",
    "over sec1.rs": "SEC1_LIBRARY=rust cargo test --release --features std,pem --tests",
}
# And for aarch64, by AARCH64_RUSTC, where that has the standard library of this target: rustc of
# Debian's rustc-web does, with libstd-rust-web-dev:arm64.
TRIPLE, RUSTC = "aarch64-unknown-linux-gnu", os.environ.get("AARCH64_RUSTC", "rustc")
TOOLS = "qemu-aarch64", "aarch64-linux-gnu-gcc"
LIBRARIES = call(f"{RUSTC} --print target-libdir --target {TRIPLE}").stdout.strip()
if not lacking(*TOOLS, f"{LIBRARIES}/libstd-*.rlib"):
    PACKED["aarch64"] = (
        f"RUSTC={RUSTC} CARGO_TARGET_AARCH64_UNKNOWN_LINUX_GNU_LINKER={TOOLS[1]}"
        " CARGO_TARGET_AARCH64_UNKNOWN_LINUX_GNU_RUNNER='qemu-aarch64 -L /usr/aarch64-linux-gnu'"
        f" cargo test --features std,pem --tests --target {TRIPLE}"
    )


@pytest.mark.parametrize("command", PACKED.values(), ids=PACKED)
def test_rust_passes(packed, check, command):
    check("the packed crate", f"{command} {BELOW}", folder=packed / "sec1")


def test_rust_draws(packed, check, target):
    build = f"cargo build --quiet --example view --features std,pem {BELOW}"
    check("the example is built", build, folder=packed / "sec1")
    check("as a second reader", [*PROGRAMS, "--several", target / "debug/examples/view"])


REGISTRY = "/usr/share/cargo/registry"
TRAITS = " ".join(f"{REGISTRY}/{it}*" for it in ("serde-1", "subtle-2", "zeroize-1"))
DEBIAN = f"""--config 'source.crates-io.replace-with="debian"' \
    --config 'source.debian.directory="{REGISTRY}"'"""
# Runs the build script as cargo does for another processor.
SCRIPT = """cargo build --locked
set -- $CARGO_TARGET_DIR/debug/build/*bridgeacacia-sec1-sys*/build-script-build
export CARGO_CFG_TARGET_ARCH={0} CARGO_CFG_TARGET_POINTER_WIDTH={1} TARGET={0}gc-unknown-linux-gnu
CARGO_CFG_TARGET_ENDIAN=little CARGO_CFG_TARGET_OS=linux $1"""
BUILD = "cargo build --locked -p bridgeacacia-sec1-sys"
OF_RUST = 'cargo::rustc-cfg=sec1_library="rust"'
CLIPPY, DOC = "cargo clippy --locked", "RUSTDOCFLAGS='-D warnings' cargo doc --locked --no-deps"
# What ends well in the workspace, and what it needs.
WORKSPACE = {
    "traits": (f"cargo test --manifest-path traits/Cargo.toml --all-features {DEBIAN}", TRAITS),
    "clippy": (f"{CLIPPY} --all-targets --features std,pem -- -D warnings", "cargo-clippy"),
    "clippy with alloc": (f"{CLIPPY} --features alloc -- -D warnings", "cargo-clippy"),
    "clippy without alloc": (f"{CLIPPY} -- -D warnings", "cargo-clippy"),
    "layout": ("cargo fmt --check", "cargo-fmt"),
    "documents": (f"{DOC} --features std,pem", "cargo"),
    "documents without std": (DOC, "cargo"),
    "every feature": ("cargo build --locked --all-features", "cargo"),
    "unsafe code": ("grep -rl 'unsafe {' sec1*/src | diff - <(echo sec1/src/raw.rs)", "cargo"),
    "riscv64 has sec1.rs": (
        f"{SCRIPT.format('riscv64', 64)} | grep -x '{OF_RUST}' | diff - <(echo '{OF_RUST}')",
        "cargo",
    ),
}  # fmt: skip
# What is refused there, and what is said of it.
REFUSED = {
    SCRIPT.format("riscv32", 32):
        "libsec1 is for targets with pointers of 64 bits, not for riscv32",
    "SEC1_LIBRARY=x cargo build --locked": "SEC1_LIBRARY is x, not",
    f"SEC1_LIBRARY=installed SEC1_LIB_DIR=/none {BUILD}": "no libsec1.a in /none",
}  # fmt: skip


@pytest.mark.parametrize("command", rows(WORKSPACE))
def test_rust_workspace(workspace, check, command):
    check("the workspace", command, folder=workspace)


@pytest.mark.parametrize("command, said", REFUSED.items(), ids=REFUSED.values())
def test_rust_is_refused(workspace, check, command, said):
    check("the library", command, refused=said, folder=workspace)


def test_rust_over_an_installed_library(workspace, check, tmp_path):
    """Puts the library where pkg-config finds it."""
    text = (DIST / "packaging/sec1.pc.in").read_text()
    lines_of("cc", "-c", "-o", tmp_path / "library.o", DIST / f"sec1-{MACHINE}.s")
    for name, version in ("right", VERSION), ("other", "9.9.9"):
        (tmp_path / name).mkdir()
        lines_of("ar", "rcD", tmp_path / name / "libsec1.a", tmp_path / "library.o")
        found = text.replace("@VERSION@", version).replace("@LIBDIR@", str(tmp_path / name))
        (tmp_path / name / "sec1.pc").write_text(found)
    how = {"folder": workspace, "SEC1_LIBRARY": "installed"}
    command = "cargo test --locked -p bridgeacacia-sec1 --test wiping --features std,pem"
    check("it is found", command, PKG_CONFIG_PATH=tmp_path / "right", **how)
    how |= {"refused": "no library: install libsec1", "PKG_CONFIG_PATH": tmp_path / "other"}
    check("another version", BUILD, **how)


MANIFEST = '[package]\nname = "program"\nversion = "0.0.0"\nedition = "2024"\n\n[dependencies]\n'
MAIN = """
fn main() -> Result<()> {
    let key = std::fs::read("key.der").unwrap_or_default();
    for byte in compressed_public_key(&key)? {
        print!("{byte:02X}");
    }
    Ok(())
}
"""
# The compressed form of the point that README.md has, whose y is odd: what the program prints.
POINT = "03" + re.search(r"^ *public_key: 04(.{64}).*$", (TOP / "README.md").read_text(), re.M)[1]


def program(folder, dependencies=""):
    """Writes a program: the code that docs/DIFFERENCES.md has for the crate `sec1`."""
    (folder / "src").mkdir(parents=True)
    (folder / "Cargo.toml").write_text(MANIFEST + dependencies)
    (folder / "src/main.rs").write_text("".join(blocks("docs/DIFFERENCES.md", "rs")) + MAIN)
    key = bytes.fromhex((TOP / "crates/sec1_inspect/stdin").read_text())
    (folder / "key.der").write_bytes(key)


def test_rust_by_git(check, tell, tmp_path):
    clone = repository(tmp_path, "rust")
    tell("the source is there", (clone / "bindings/rust/sec1-sys/src/sec1.rs").is_file())
    check("it has no links", LINKS, prints="", folder=clone)
    build = "cargo build --locked --features std,pem"
    where = clone / "bindings/rust/sec1"
    check("the crate is built there, of sec1.rs", build, folder=where, SEC1_LIBRARY="rust")
    folder = tmp_path / "program"
    program(folder)
    add = "cargo add --quiet bridgeacacia-sec1 --rename sec1 --features alloc --git"
    # a git repository on this machine isn't the network
    what = {"folder": folder, "CARGO_NET_OFFLINE": "false"}
    check("cargo add --git", f"{add} file://{tmp_path}/linked", **what)
    check("the program runs over it", "cargo run --quiet", prints=POINT, **what)


@pytest.fixture(scope="module")
def by_path(tmp_path_factory, workspace):
    """Returns the folder of a program that has the line of README.md, with a path of its own."""
    line = blocks("bindings/rust/sec1/README.md", "toml")[0].replace("[dependencies]\n", "")
    path = f'path = "{workspace}/sec1", features = ["alloc"]'
    folder = tmp_path_factory.mktemp("by_path") / "program"
    program(folder, re.sub('git = "[^"]*"', path, line))
    return folder


# What is set of the profile `release`. Without any, the other one is taken.
PROFILES = {
    "dev": {},
    "off": {"LTO": "off"},
    "thin": {"LTO": "thin"},
    "fat": {"LTO": "fat", "CODEGEN_UNITS": 1},
    "small": {"LTO": "fat", "CODEGEN_UNITS": 1, "OPT_LEVEL": "z", "PANIC": "abort"},
}


@pytest.mark.parametrize("settings", PROFILES.values(), ids=PROFILES)
def test_rust_by_path(check, by_path, settings):
    command = f"cargo run --quiet {'--release' if settings else ''}"
    variables = {f"CARGO_PROFILE_RELEASE_{it}": settings[it] for it in settings}
    check("the program runs", command, prints=POINT, folder=by_path, **variables)


# ---- Python

SDIST = "python3 -B -c 'import build_wheel, sys; build_wheel.build_sdist(sys.argv[1])'"


@pytest.fixture(scope="module")
def sdist(tmp_path_factory):
    """Returns the source archive."""
    folder = tmp_path_factory.mktemp("sdist")
    lines_of("bash", "-c", f"{SDIST} {folder}", cwd=BINDINGS / "python")
    return next(folder.glob("bridgeacacia_sec1-*.tar.gz"))


@pytest.fixture(scope="module")
def source(sdist, tmp_path_factory):
    """Returns the folder of what the source archive has, with the tests, which it hasn't."""
    folder = tmp_path_factory.mktemp("source")
    lines_of("tar", "xzf", sdist, "-C", folder, "--strip-components=1")
    shutil.copytree(BINDINGS / "python/tests", folder / "tests")
    return folder


@pytest.fixture(scope="module")
def pip(tmp_path_factory):
    """Returns the path of pip in an environment of Python."""
    folder = tmp_path_factory.mktemp("environment")
    lines_of("python3", "-m", "venv", folder)
    return folder / "bin/pip"


@pytest.fixture
def wheel(pip, check):
    """Has pip make a wheel of a folder, or refuse it; returns the file, or what it says."""

    def make(to, package=BINDINGS / "python", **how):
        said = check("a wheel", [pip, "wheel", "--no-deps", "-w", to, package], **how)
        return next(iter(to.glob("*.whl")), said)

    return make


def test_python_source_archive(sdist, source, check, tmp_path):
    check("it is made again", f"{SDIST} {tmp_path}", folder=BINDINGS / "python")
    check("it has the same bytes", ["cmp", sdist, tmp_path / sdist.name])
    check("it has the licences", f"{FULL} -a -f licences.txt", folder=source)
    check("it has no links", LINKS, prints="", folder=source)
    check("it has no tests", f"! (tar tzf {sdist} | grep /tests)")


def test_python_of_the_source_archive(sdist, source, pip, check):
    # pip and a compiler, and nothing else of this machine: the kit isn't in /usr/bin
    alone = ["env", "-i", f"PATH={pip.parent}:/usr/bin:/bin", "PIP_NO_INDEX=1"]
    check("pip installs it by cc alone", [*alone, pip, "install", "--force-reinstall", sdist])
    tests = [pip.parent / "python", "-I", source / "tests/test_sec1.py"]
    check("the module passes the tests", tests)


def test_python_is_refused(wheel, tell, tmp_path):
    said = wheel(tmp_path, CC="none-such", refused="there is no C compiler none-such")
    tell(f"it says no more than that: {said}", "Traceback" not in said)
    wheel(tmp_path, SEC1_LIB_DIR="/none", refused="no libsec1.so in /none")


INSIDE = """import importlib.metadata, sec1
files = [str(file) for file in importlib.metadata.files("bridgeacacia-sec1")]
wanted = ["sec1/libsec1.so.0", "sec1/py.typed", "LICENSE-MIT", "LICENSE-APACHE", "licences.txt"]
assert all(any(file.endswith(name) for file in files) for name in wanted), files
assert sec1.EcPrivateKey.from_der(sec1.EcPrivateKey(b"\\1").to_der()).private_key == b"\\1"
"""
LEFT = r"find . -name __pycache__ -o -name '*.egg-info' -o -name build"


def test_python_wheel(wheel, pip, check, tell, tmp_path):
    file, python = wheel(tmp_path), pip.parent / "python"
    wanted = f"-none-manylinux_2_17_{MACHINE}.manylinux2014_{MACHINE}.whl"
    tell(f"{file} isn't for manylinux2014 (PEP 599)", file.name.endswith(wanted))
    check("pip installs it", [pip, "install", "--force-reinstall", file])
    inside = [python, "-I", "-c", INSIDE]
    check("it has the library, the types and the licences inside", inside)
    [folder] = lines_of(python, "-I", "-c", "import sec1; print(sec1.__path__[0])")
    text = "\n".join(lines_of("readelf", "-V", f"{folder}/libsec1.so.0"))
    versions = [[*map(int, it.split("."))] for it in re.findall(r"GLIBC_([\d.]+)", text)]
    tell(f"it needs glibc {max(versions)}", max(versions) <= [2, 17])
    check("it draws as a second reader", [*PROGRAMS, f"{python} -I -m sec1"])
    check("no file is left in the repository", LEFT, prints="", folder=BINDINGS / "python")


MYPY = "MYPYPATH=src mypy --strict --cache-dir=/dev/null"
WRONG = 'incompatible type "str"; expected "bytes"'


@pytest.mark.parametrize("path, said", [("src/sec1", None), ("wrong.py", WRONG)])
@needs("mypy")
def test_python_types(source, check, path, said):
    (source / "wrong.py").write_text('import sec1; sec1.EcPublicKey.from_der("text")')
    check("mypy", f"{MYPY} {path}", refused=said, folder=source)


def test_python_without_links(wheel, sdist, check, tell, tmp_path):
    """Makes the packages of a clone without links. pip before 21.3 copies the folder alone, so that
    its links lead nowhere."""
    clone = repository(tmp_path, "python")
    package, made, other = clone / "bindings/python", tmp_path / "made", tmp_path / "other"
    made.mkdir()
    path = (package / f"library/sec1-{MACHINE}.s").read_text()
    check("the clone has no links", LINKS, prints="", folder=clone)
    tell("the assembly is a path there", path == f"../../../dist/sec1-{MACHINE}.s")
    check("the source archive is made there", f"{SDIST} {made}", folder=package)
    check("it has the same bytes", ["cmp", sdist, made / sdist.name])
    check("the wheel has the same bytes", ["cmp", wheel(made, package), wheel(other)])
    (clone / "dist/sec1.h").unlink()
    wheel(made, package, refused="sec1.h is a link to ../../../dist/sec1.h, which isn't here")
    shutil.copytree(BINDINGS / "python", tmp_path / "alone", symlinks=True)
    wheel(made, tmp_path / "alone", refused="pip before 21.3 copies the folder")


def test_python_elsewhere(wheel, source, check, tell, tmp_path):
    """Makes the wheel as for a system that there is no assembly for, and runs its tests here."""
    compiler = tmp_path / "elsewhere"
    said = '[ "$1" = -dumpmachine ] && exec echo elsewhere-linux-gnu'
    compiler.write_text(f'#!/bin/sh\n{said}\nexec cc "$@"\n')
    compiler.chmod(0o755)
    file = wheel(tmp_path, CC=compiler)
    tell(f"{file} has the name of that system", file.name.endswith("_elsewhere.whl"))
    lines_of("python3", "-m", "zipfile", "-e", file, tmp_path / "there")
    tests = ["python3", "-s", source / "tests/test_sec1.py"]
    check("its module passes the tests", tests, PYTHONPATH=tmp_path / "there")


@needs(MINGW, cases=4)
def test_python_for_windows(wheel, check, tell, tmp_path):
    """Makes the wheel by mingw, and has a program read a key by its library under wine: there is no
    Python for Windows here."""
    file = wheel(tmp_path, CC=MINGW)
    tell(f"{file} has the name of that system", file.name.endswith("-py3-none-win_amd64.whl"))
    lines_of("python3", "-m", "zipfile", "-e", file, tmp_path)
    tell("it has a library", [*tmp_path.glob("sec1/*.dll")])
    if tell.lacks(1, WINE):
        return
    build = [MINGW, "-Wall", "-Wextra", f"-I{DIST}", "-o", "windows.exe"]
    lines_of(*build, BINDINGS / "python/tests/windows.c", cwd=tmp_path)
    said = "0: 32 at 7, 8 at 43, 65 at 56; cut: 1"
    shutil.copy(DIST / "examples/p256.der", tmp_path)
    check("its library reads a key", [WINE, "windows.exe", "p256.der"], prints=said)
    call(["/usr/lib/wine/wineserver64", "-k"])


# ---- JavaScript

HERE, NAME = "node_modules/bridgeacacia-sec1", "bridgeacacia-sec1"
NEW = "process.exit(parseInt(process.versions.node) < 18 ? 1 : 0)"
HAS_NODE = not lacking("node", "npm") and call(["node", "-e", NEW]).returncode == 0


def script(cases=1):
    """Skips a test of so many cases where there is no npm, or an older node."""
    return pytest.mark.skipif(not HAS_NODE, reason=f"without npm, or node 18; cases: {cases}")


@pytest.fixture(scope="module")
def clone(tmp_path_factory):
    """Returns a clone of the package without links; beside it is what was cloned, in `linked`."""
    return repository(tmp_path_factory.mktemp("clone"), "js")


def pack(package, to):
    """Has npm pack a package into a folder, and returns the file."""
    to.mkdir()
    lines_of("npm", "pack", "--pack-destination", to, cwd=package)
    return next(to.glob("*.tgz"))


@pytest.fixture(scope="module")
def tarball(clone):
    """Returns what npm packs."""
    return pack(clone / "../linked/bindings/js", clone / "../made")


@script(cases=8)
def test_js_is_packed(tarball, clone, check, tell, tmp_path):
    linked, there = clone / "../linked/bindings/js", clone / "bindings/js"
    check("it has the same bytes again", ["cmp", tarball, pack(linked, tmp_path / "again")])
    same = ["diff", "-r", "--no-dereference", BINDINGS / "js", linked]
    check("it leaves the folder as it was", same)
    check("a clone has no links", LINKS, prints="", folder=clone)
    tell("its module is a path", (there / "sec1.wasm").read_text() == "../../dist/sec1.wasm")
    check("a clone without links has them too", ["cmp", tarball, pack(there, tmp_path / "clone")])
    check("it leaves that", "git status --porcelain", prints="", folder=clone)
    (clone / "dist/sec1.wasm").rename(tmp_path / "sec1.wasm")
    said = "sec1.wasm leads to ../../dist/sec1.wasm, where nothing is"
    check("a path", "node links.js follow", refused=said, folder=there)
    tell("it has no tests", "package/tests" not in " ".join(lines_of("tar", "tzf", tarball)))


USES = """
const key = new EcPrivateKey(new Uint8Array(32).fill(7), Curve.fromName('P-256').identifier);
console.log(isSupported(), EcPrivateKey.fromDer(key.toDer()).equals(key), String(key.curve));
"""
# What it prints.
RAN = "true true 1.2.840.10045.3.1.7"
NAMES = "{ Curve, EcPrivateKey, isSupported }"
READ, WRITE = blocks("bindings/js/README.md", "js")[:2]
FILES = {
    "read.mjs": READ,
    "write.mjs": WRITE,
    "required.cjs": f"const {NAMES} = require('{NAME}');{USES}",
    "imported.mjs": f"import {NAMES} from '{NAME}';{USES}",
    "inside.mjs": f"import {NAMES} from '{NAME}/inline';{USES}",
    # rollup finds no package without a plugin
    "by-path.mjs": f"import {NAMES} from './{HERE}/inline.js';{USES}",
    "types.mts": (BINDINGS / "js/tests/types.ts").read_text(),
    "types.cts": f"import {{ Curve }} from '{NAME}'; export const name: string = Curve.name;",
    "wrong.mts": f"import {{ checkTree }} from '{NAME}'; checkTree('text');",
    "description.cjs": f"""for (const it of ['sec1.wasm', 'package.json'])
    require.resolve('{NAME}/' + it);
console.log(require('{NAME}/package.json').engines.node);""",
}


@pytest.fixture(scope="module")
def installed(tarball, tmp_path_factory):
    """Returns a folder in which npm installs what is packed, with its tests, and with FILES."""
    folder = tmp_path_factory.mktemp("installed")
    lines_of("npm", "install", tarball, cwd=folder)
    shutil.copytree(BINDINGS / "js/tests", folder / HERE / "tests")
    shutil.copy(DIST / "examples/p256.der", folder)
    for name, text in FILES.items():
        (folder / name).write_text(text)
    return folder


TSC = """tsc --strict --noEmit --target es2022 --lib es2022 --module nodenext
    --moduleResolution nodenext""".replace("\n", " ")
# A command over what is installed, how it ends if not just well, and what it needs.
INSTALLED = {
    "package": (f"npm ls {NAME}", {}, "npm"),
    "types, module and licences": (
        f"cd {HERE}; for it in index.d.ts sec1.wasm LICENSE-MIT LICENSE-APACHE licences.txt; do"
        f" test -f $it; done; {LINKS}",
        {"prints": ""}, "node",
    ),
    "first program of README.md": ("node read.mjs", {"prints": PARTS}, "node"),
    "second program": ("node write.mjs", {"prints": "121 138 0201\ntrue Truncated 1 1"}, "node"),
    "script that measures": (f"node {HERE}/tests/cost.js 2 | grep -c '|'", {"prints": "7"}, "node"),
    "required": ("node required.cjs", {"prints": RAN}, "node"),
    "imported": ("node imported.mjs", {"prints": RAN}, "node"),
    "inside": ("node inside.mjs", {"prints": RAN}, "node"),
    "module and description": ("node description.cjs", {"prints": ">=18"}, "node"),
    "types of each name": (f"{TSC} types.mts", {"prints": ""}, "tsc"),
    "types of what is required": (f"{TSC} types.cts", {"prints": ""}, "tsc"),
    "a text for bytes": (f"{TSC} wrong.mts", {"refused": "TS2345"}, "tsc"),
}  # fmt: skip


@script()
@pytest.mark.parametrize("command, ends", rows(INSTALLED))
def test_js(installed, check, command, ends):
    check("what is installed", command, folder=installed, **ends)


def ended(folder, *options):
    """Runs the tests of the package that is installed in a folder, and returns the lines of those
    that failed, and how many passed and failed."""
    lines = call(["node", *options, f"{HERE}/tests/test.js"], cwd=folder).stdout.splitlines()
    return [it for it in lines if it.startswith(("not ok", "# pass", "# fail"))]


@script()
def test_js_passes(installed):
    count = len(re.findall(r"^test\(", (BINDINGS / "js/tests/test.js").read_text(), re.M))
    assert ended(installed) == [f"# pass {count}", "# fail 0"]


@script()
def test_js_is_found_not_to_wipe(installed, tmp_path):
    """Leaves a page of the module's stack as it is."""
    copy, test = tmp_path / "copy", "wipes memory after each call that sees a private key"
    shutil.copytree(installed, copy, symlinks=True)
    library = copy / HERE / "library.js"
    text, right = library.read_text(), "memory.fill(0, STORED, end)"
    assert right in text
    library.write_text(text.replace(right, "memory.fill(0, STORED + 65536, end)"))
    assert ended(copy, "--test-name-pattern", test)[0].endswith(test)


def test_js_has_the_calls():
    """Compares what sec1.h declares with what the module has: not what the header says in C."""
    declared = set(re.findall(r"\b(sec1_\w+)\(", (DIST / "sec1.h").read_text()))
    found = {it for it in wasm.Module((DIST / "sec1.wasm").read_bytes()).exports if "sec1_" in it}
    in_c = "key_len_of key_write_of picture_show status_text version"
    assert declared ^ found == {f"sec1_{it}" for it in in_c.split()}


BUNDLERS = {
    "esbuild": "inside.mjs --bundle --format=iife --target=es2020 --outfile=esbuild.cjs",
    "rollup": "by-path.mjs --silent --format iife --file rollup.cjs",
    "webpack": "--mode production --entry ./inside.mjs -o . --output-filename webpack.cjs",
}


@script(cases=2)
@pytest.mark.parametrize("tool", BUNDLERS)
def test_js_bundled(installed, check, tell, tmp_path, tool):
    """Bundles a program with the module inside, and runs what is made where nothing else is."""
    if lacking(tool) or call([tool, "--version"]).returncode:
        # it may be there, but not for this node
        tell.skipped += 2
        return
    check("it is bundled", f"{tool} {BUNDLERS[tool]}", folder=installed)
    shutil.copy(installed / f"{tool}.cjs", tmp_path)
    check("what it made runs alone", f"node {tool}.cjs", prints=RAN)


@pytest.fixture(scope="module")
def engine(installed):
    """Runs what makes many calls of a module, by default of the package's, and returns its sum."""

    def total(command="node {}", module="sec1.wasm"):
        words = f"{command.format('tests/engines.js')} {module} tests/data/p256.der"
        return lines_of(*words.split(), "tests/data/containers.txt", cwd=installed / HERE)

    return total


@script()
@needs("jsc")
def test_js_engine_of_webkit(engine):
    assert engine("jsc -m {} --") == engine()


@script()
def test_js_other_constant_is_found(installed, engine, tmp_path):
    module, other = installed / HERE / "sec1.wasm", tmp_path / "other.wasm"
    # id-ecPublicKey with another last byte
    right = bytes.fromhex("2A8648CE3D0201")
    assert right in module.read_bytes()
    other.write_bytes(module.read_bytes().replace(right, right[:-1] + b"\2"))
    assert engine(module=other) != engine()


# What opens a page. WebKitGTK is in a window, which is told what to open, and stays until what it
# reads from is closed.
WINDOW = f"xvfb-run -a /usr/bin/python3 -B {TOP}/tests/web/webkit.py"
BROWSERS = {
    "chromium": (
        "chromium --headless --no-sandbox --disable-gpu --remote-debugging-port=0 "
        "--user-data-dir={room} {url}",
        "chromium",
    ),
    "firefox": ("firefox-esr --headless --no-remote --profile {room} {url}", "firefox-esr"),
    "webkit": (
        WINDOW,
        "xvfb-run xauth /usr/lib/python3/dist-packages/gi "
        "/usr/lib/*/girepository-1.0/WebKit2-4.1.typelib",
    ),
}


@pytest.fixture
def served(installed):
    """Returns a server's URL of the installed package, and a queue of the paths by which a page
    says what came of it."""
    told = queue.SimpleQueue()

    class Handler(http.server.SimpleHTTPRequestHandler):
        def log_message(self, *_):
            if self.path.startswith(("/read-and-wrote-keys-", "/failed-")):
                told.put(self.path)

    handler = functools.partial(Handler, directory=installed / HERE)
    with http.server.ThreadingHTTPServer(("127.0.0.1", 0), handler) as server:
        threading.Thread(target=server.serve_forever, daemon=True).start()
        yield f"http://127.0.0.1:{server.server_address[1]}", told
        server.shutdown()


@script()
@pytest.mark.parametrize("command", rows(BROWSERS))
def test_js_in_a_browser(engine, served, tmp_path, command):
    """Opens the page of the tests, which asks the server for a path when all went well."""
    url, told = served[0] + "/tests/page.html", served[1]
    words = command.format(room=tmp_path, url=url).split()
    variables = {"HOME": str(tmp_path), "WEBKIT_DISABLE_SANDBOX_THIS_IS_DANGEROUS": "1"}
    how = {"env": {**os.environ, **variables}, "start_new_session": True, "text": True}
    with (tmp_path / "said").open("w") as said:
        process = subprocess.Popen(words, stdin=subprocess.PIPE, stdout=said, stderr=said, **how)
    # where it ends by itself, nothing more is told
    threading.Thread(target=lambda: told.put(process.wait()), daemon=True).start()
    try:
        process.stdin.write(json.dumps({"open": url}) + "\n")
        process.stdin.flush()
        found = told.get(timeout=HOUR)
    finally:
        process.stdin.close()
        if command != WINDOW:
            os.killpg(process.pid, signal.SIGTERM)
        process.wait(HOUR)
    [total] = engine()
    assert found == "/read-and-wrote-keys-" + total.replace(" calls: ", "-")
