"""Builds the wheel, with the shared library in it, and the source archive. It needs Python's own modules and a C
compiler, so that `pip install .` works without a network.

The library is made of what is in library/ by `cc`, or by CC: for Linux on x86-64 and aarch64 of assembly, for all other
systems of 64 bits of sec1.c. It is for the system that the compiler makes programs for. On Windows Visual C++ is taken
where CC isn't set. If SEC1_LIB_DIR names a folder, the library there is taken as it is."""
import base64
import gzip
import hashlib
import io
import os
import pathlib
import platform
import re
import shlex
import subprocess
import sys
import sysconfig
import tarfile
import tempfile
import zipfile

HERE = pathlib.Path(__file__).resolve().parent
# Beside the module in the wheel, and in the source archive; of each folder what is in the repository.
LICENCES = ("LICENSE-APACHE", "LICENSE-MIT", "licences.txt")
SOURCES = ("pyproject.toml", "build_wheel.py", "README.md", *LICENCES, "library", "src")
# The options by which a compiler makes a shared library, by the system that it is for.
OPTIONS = {
    "linux": ["-nostartfiles", "-s", "-Wl,-z,relro,-z,now,-z,noexecstack,-z,defs,-z,text,-soname,libsec1.so"],
    "win32": ["-s", "-DSEC1_API=__declspec(dllexport)"],
}
OF_C = ["-O2", "-std=c99", "-fvisibility=hidden"]


def content(path):
    """The bytes of a file, or of the one that a link leads to. Where git makes no links, as on Windows, it writes a
    file in the place of one, which holds its path: that is followed."""
    if path.is_symlink() and not path.exists():
        raise SystemExit(
            f"{path.name} is a link that leads nowhere here: pip before 21.3 copies the folder of a package alone. "
            "Take a newer pip, or install the source archive, which README.md says how to make"
        )
    data = path.read_bytes()
    if not re.fullmatch(rb"(\.\./)+[\w./-]+", data):
        return data
    target = path.parent / data.decode()
    if not target.is_file():
        raise SystemExit(f"{path.name} is a link to {data.decode()}, which isn't here")
    return target.read_bytes()


def project(name):
    """The value of a line of pyproject.toml (Python 3.9 and 3.10 have no tomllib)."""
    text = (HERE / "pyproject.toml").read_text(encoding="utf-8")
    return re.search(rf'^{name} = "(.*)"$', text, re.MULTILINE).group(1)


def stem():
    """The name and the version, as the names of files begin with them."""
    return f"{project('name').replace('-', '_')}-{version()}"


def version():
    """The version of the module."""
    text = (HERE / "src/sec1/__init__.py").read_text(encoding="utf-8")
    return re.search(r'^__version__ = "(.*)"$', text, re.MULTILINE).group(1)


def said(command, **options):
    """What a command of the C compiler prints. If there is no such command, or it fails, the build ends."""
    try:
        return subprocess.run(command, stdout=subprocess.PIPE, text=True, check=True, **options).stdout.strip()
    except FileNotFoundError:
        reason = f"there is no C compiler {command[0]}: install one (Debian: apt-get install gcc), or name it in CC"
    except subprocess.CalledProcessError as error:
        reason = f"the library isn't built: status {error.returncode} of {command}"
    raise SystemExit(reason)


def target(compiler):
    """The system that a compiler makes programs for, as `sys.platform` names it, and its processor."""
    triple = said([*compiler, "-dumpmachine"])
    systems = {"win32": "mingw|windows", "darwin": "darwin|apple", "android": "android", "linux": "linux(-gnu|-musl)?$"}
    system = next((name for name, pattern in systems.items() if re.search(pattern, triple)), "other")
    return system, triple.split("-")[0]


def file_name(system):
    """The name of the shared library."""
    return {"darwin": "libsec1.dylib", "win32": "sec1.dll"}.get(system, "libsec1.so")


def by_visual_c(folder):
    """Compiles the library by Visual C++, where vswhere finds it."""
    programs = os.environ.get("ProgramFiles(x86)", "C:\\Program Files (x86)")
    where = pathlib.Path(programs, "Microsoft Visual Studio", "Installer", "vswhere.exe")
    place = where.is_file() and said([str(where), "-latest", "-products", "*", "-property", "installationPath"])
    if not place:
        raise SystemExit("there is no Visual C++: install its Build Tools, or name another C compiler in CC")
    setup = "vcvarsarm64" if platform.machine() == "ARM64" else "vcvars64"
    setup = pathlib.Path(place, "VC", "Auxiliary", "Build", f"{setup}.bat")
    out = file_name("win32")
    command = f'call "{setup}" >nul && cl -nologo -O2 "-DSEC1_API=__declspec(dllexport)" -LD sec1.c -Fe{out}'
    said(command, shell=True, cwd=folder)


def by_compiler(compiler, system, machine, folder):
    """Makes the library of the files in a folder by a compiler that takes the options of gcc."""
    source = folder / f"sec1-{machine}.s"
    of_c = []
    if system != "linux" or not source.is_file():
        # On Windows all code may lie anywhere.
        source, of_c = folder / "sec1.c", OF_C + ["-fPIC"] * (system != "win32")
    said([*compiler, "-shared", *of_c, *OPTIONS.get(system, []), "-o", str(folder / file_name(system)), str(source)])


def shared_library():
    """The bytes of the shared library, the system that it is for, and its processor."""
    compiler = shlex.split(os.environ.get("CC", "cc"), posix=os.name == "posix")
    system, machine = sys.platform, platform.machine()
    given = os.environ.get("SEC1_LIB_DIR")
    if given:
        path = pathlib.Path(given) / file_name(system)
        if not path.is_file():
            raise SystemExit(f"there is no {path.name} in {given}")
        return path.read_bytes(), system, machine
    if sys.maxsize < 1 << 32:
        raise SystemExit("the library is for systems with pointers of 64 bits, and this Python isn't")
    with tempfile.TemporaryDirectory() as folder:
        folder = pathlib.Path(folder)
        for path in (HERE / "library").iterdir():
            (folder / path.name).write_bytes(content(path))
        if system == "win32" and "CC" not in os.environ:
            by_visual_c(folder)
        else:
            system, machine = target(compiler)
            by_compiler(compiler, system, machine, folder)
        return (folder / file_name(system)).read_bytes(), system, machine


def platform_tag(library, system, machine):
    """The platforms that the library runs on. On Linux they are those of manylinux2014 if it needs no library but
    glibc, and none of its versions after 2.17 (PEP 599), otherwise Linux as this machine has it."""
    if system == "win32":
        return "win_arm64" if machine.lower() in ("arm64", "aarch64") else "win_amd64"
    if system == "darwin":
        return f"macosx_11_0_{machine.replace('aarch64', 'arm64')}"
    if system != "linux":
        return re.sub(r"\W", "_", sysconfig.get_platform())
    glibc = [tuple(map(int, found.split(b"."))) for found in re.findall(rb"\0GLIBC_([\d.]+)(?=\0)", library)]
    needed = set(re.findall(rb"\0([\w.+-]+\.so\.[\w.]+)(?=\0)", library))
    if glibc and max(glibc) <= (2, 17) and needed == {b"libc.so.6"}:
        return f"manylinux_2_17_{machine}.manylinux2014_{machine}"
    return f"linux_{machine}"


def metadata():
    """The METADATA of the wheel, and the PKG-INFO of the source archive."""
    head = [
        "Metadata-Version: 2.1",
        f"Name: {project('name')}",
        f"Version: {version()}",
        f"Summary: {project('description')}",
        f"Requires-Python: {project('requires-python')}",
        "License: Apache-2.0 OR MIT",
        "Classifier: License :: OSI Approved :: Apache Software License",
        "Classifier: License :: OSI Approved :: MIT License",
        "Classifier: Operating System :: OS Independent",
        "Classifier: Typing :: Typed",
        "Description-Content-Type: text/markdown",
    ]
    return ("\n".join(head) + "\n\n" + (HERE / "README.md").read_text(encoding="utf-8")).encode()


def build_wheel(wheel_directory, config_settings=None, metadata_directory=None):
    """Writes the wheel into a folder, and returns its name (PEP 517)."""
    info = f"{stem()}.dist-info"
    sources = sorted((HERE / "src/sec1").iterdir())
    files = {f"sec1/{path.name}": path.read_bytes() for path in sources if path.is_file()}
    library, system, machine = shared_library()
    platforms = platform_tag(library, system, machine)
    # Python takes no name for that of a module that ends in a number.
    files["sec1/" + file_name(system).replace(".so", ".so.0")] = library
    for name in LICENCES:
        files[f"{info}/licenses/{name}"] = content(HERE / name)
    files[f"{info}/METADATA"] = metadata()
    tags = "".join(f"Tag: py3-none-{one}\n" for one in platforms.split("."))
    files[f"{info}/WHEEL"] = f"Wheel-Version: 1.0\nGenerator: build_wheel\nRoot-Is-Purelib: false\n{tags}".encode()
    lines = []
    for path, data in files.items():
        digest = base64.urlsafe_b64encode(hashlib.sha256(data).digest()).rstrip(b"=").decode()
        lines.append(f"{path},sha256={digest},{len(data)}\n")
    files[f"{info}/RECORD"] = "".join([*lines, f"{info}/RECORD,,\n"]).encode()
    name = f"{stem()}-py3-none-{platforms}.whl"
    with zipfile.ZipFile(pathlib.Path(wheel_directory) / name, "w", zipfile.ZIP_DEFLATED) as archive:
        for path, data in files.items():
            entry = zipfile.ZipInfo(path)
            entry.external_attr = (0o755 if data is library else 0o644) << 16
            archive.writestr(entry, data, zipfile.ZIP_DEFLATED)
    return name


def source_files():
    """The files of the source archive, by their paths in it. A link is the file that it leads to."""
    files = {}
    for name in SOURCES:
        path = HERE / name
        for one in sorted(path.rglob("*")) if path.is_dir() else [path]:
            if not one.is_dir() and "__pycache__" not in one.parts:
                files[one.relative_to(HERE).as_posix()] = content(one)
    files["PKG-INFO"] = metadata()
    return files


def build_sdist(sdist_directory, config_settings=None):
    """Writes the source archive into a folder, and returns its name (PEP 517). It has the same bytes each time."""
    buffer = io.BytesIO()
    with tarfile.open(fileobj=buffer, mode="w", format=tarfile.PAX_FORMAT) as archive:
        for path, data in source_files().items():
            entry = tarfile.TarInfo(f"{stem()}/{path}")
            entry.size = len(data)
            archive.addfile(entry, io.BytesIO(data))
    name = f"{stem()}.tar.gz"
    with gzip.GzipFile(pathlib.Path(sdist_directory) / name, "wb", mtime=0) as file:
        file.write(buffer.getvalue())
    return name
