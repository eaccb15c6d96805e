"""Builds the wheel of linkwire (PEP 517): the package, and the shared library, which cc makes of the text in dist/.

Where there is no compiler, and an installed liblinkwire.so.0, the wheel has Python alone; where there is neither, the
build stops and says so. The wheel is tagged by what the compiler compiles for. An archive of sources has what the build
reads; `pip install -e` (PEP 660) puts the library beside the package. A wheel and an archive have the same bytes each
time, by the same compiler.
"""

import base64
import ctypes
import gzip
import hashlib
import io
import os
import re
import shutil
import subprocess
import sys
import tarfile
import tempfile
import zipfile

HERE = os.path.dirname(os.path.abspath(__file__))
# an archive of sources, or the repository
ROOT = HERE if os.path.exists(f"{HERE}/dist/liblinkwire.map") else os.path.dirname(HERE)
DIST = f"{ROOT}/dist"
LIBRARY = "liblinkwire.so.0"
PROCESSORS = {"amd64": "x86_64", "arm64": "aarch64"}


def metadata(key):
    with open(f"{HERE}/pyproject.toml", encoding="utf-8") as it:
        return re.search(rf'^{key} = "(.*)"$', it.read(), re.M)[1]


VERSION = metadata("version")
INFO = f"linkwire-{VERSION}.dist-info"


def stops(what):
    sys.exit(f"linkwire: {what}")


def is_installed():
    """Whether a library is there that the package finds without one of its own."""
    try:
        ctypes.CDLL(os.environ.get("LINKWIRE") or LIBRARY)
        return True
    except OSError:
        return False


def machine_of(cc):
    """The processor and the rest of what a compiler compiles for."""
    said = subprocess.run([*cc, "-dumpmachine"], capture_output=True, text=True, timeout=60)
    processor, _, rest = said.stdout.strip().partition("-")
    if said.returncode != 0 or not rest:
        stops(f"{' '.join(cc)} does not say by -dumpmachine what it compiles for: set CC to a C compiler")
    return PROCESSORS.get(processor, processor), rest


def text_for(cc):
    """The text in dist/ for what the compiler compiles for."""
    if not os.path.isdir(DIST):
        stops(f"there is no {DIST}: build it in a checkout, in the archive of a release, or of the archive of sources")
    processor, rest = machine_of(cc)
    if "linux" not in rest:
        stops(f"{' '.join(cc)} compiles for {processor}-{rest}: set CC to a compiler for Linux")
    text = f"{DIST}/{processor}/link_c.s"
    if not os.path.exists(text) or "x32" in rest:
        there = " and ".join(it for it in sorted(os.listdir(DIST)) if os.path.isdir(f"{DIST}/{it}"))
        stops(f"processors of {processor}-{rest} are not supported, only {there}. linkdump is C and runs there (make "
              "out/linkdump in a checkout): pass its lines to a machine that is")
    return text


def tag_of(built):
    """The tag of a wheel with this library: of the processor, and of musl where it is not of glibc."""
    processor, rest = machine_of(os.environ.get("CC", "cc").split())
    with open(built, "rb") as it:
        is_musl = "musl" in rest or b"\0libc.so.6\0" not in it.read()
    return f"py3-none-{'musllinux_1_1' if is_musl else 'linux'}_{processor}"


def library(folder):
    """The path of the shared library, built in this folder; nothing where there is no compiler, and one is installed.
    """
    cc = os.environ.get("CC", "cc").split()
    if shutil.which(cc[0]) is None:
        if is_installed():
            return None
        stops(f"there is no {cc[0]}, and no installed {LIBRARY}: install a C compiler (Debian: gcc and libc6-dev), or "
              "liblinkwire0, or name another compiler by CC")
    built = f"{folder}/{LIBRARY}"
    flags = [f"-Wl,-soname,{LIBRARY}", f"-Wl,--version-script={DIST}/liblinkwire.map", "-Wl,--build-id=none", "-s",
             *(f"-Wl,-z,{it}" for it in ("defs", "now", "relro", "noexecstack"))]
    done = subprocess.run([*cc, "-O2", "-fPIC", "-shared", *flags, "-o", built, text_for(cc), f"{DIST}/heap.c"],
                          capture_output=True, text=True, timeout=600)
    if done.returncode != 0:
        stops(f"{' '.join(cc)} fails: {done.stderr}")
    return built


def package():
    """Names and contents of the package's files."""
    for folder in "linkwatch", "linkwire":
        for name in sorted(os.listdir(f"{HERE}/{folder}")):
            if name.endswith((".py", ".typed")):
                yield f"{folder}/{name}", read(f"{HERE}/{folder}/{name}")


def read(path):
    with open(path, "rb") as it:
        return it.read()


def core_metadata():
    return (f"Metadata-Version: 2.1\nName: linkwire\nVersion: {VERSION}\nSummary: {metadata('description')}\n"
            f"License: MIT\nRequires-Python: {metadata('requires-python')}\n").encode()


def described(tag):
    """Names and contents of what tells of the package."""
    yield f"{INFO}/METADATA", core_metadata()
    yield f"{INFO}/entry_points.txt", b"[console_scripts]\nlinkwatch = linkwatch.__main__:main\n"
    yield f"{INFO}/LICENSE", read(f"{ROOT}/LICENSE")
    yield f"{INFO}/WHEEL", (f"Wheel-Version: 1.0\nGenerator: linkwire {VERSION}\n"
                            f"Root-Is-Purelib: {str(tag.endswith('any')).lower()}\nTag: {tag}\n").encode()


def write(path, files):
    """Writes a wheel, and in it the list of its files."""
    record = ""
    with zipfile.ZipFile(path, "w") as wheel:
        for name, content in files:
            digest = base64.urlsafe_b64encode(hashlib.sha256(content).digest()).rstrip(b"=").decode()
            record += f"{name},sha256={digest},{len(content)}\n"
            add(wheel, name, content)
        add(wheel, f"{INFO}/RECORD", f"{record}{INFO}/RECORD,,\n".encode())


def add(wheel, name, content):
    info = zipfile.ZipInfo(name, (1980, 1, 1, 0, 0, 0))
    info.external_attr = (0o100755 if name.endswith(LIBRARY) else 0o100644) << 16
    info.compress_type = zipfile.ZIP_DEFLATED
    wheel.writestr(info, content)


def build_wheel(wheel_directory, config_settings=None, metadata_directory=None):
    """The hook of PEP 517: writes a wheel to this folder, and returns its name."""
    files, tag = list(package()), "py3-none-any"
    with tempfile.TemporaryDirectory() as folder:
        built = library(folder)
        if built is not None:
            files.append((f"linkwire/{LIBRARY}", read(built)))
            tag = tag_of(built)
    name = f"linkwire-{VERSION}-{tag}.whl"
    write(os.path.join(wheel_directory, name), [*files, *described(tag)])
    return name


def build_editable(wheel_directory, config_settings=None, metadata_directory=None):
    """The hook of PEP 660: the wheel leads to this folder, and the library is put beside the package in it."""
    with tempfile.TemporaryDirectory() as folder:
        built = library(folder)
        if built is not None:
            shutil.copy(built, f"{HERE}/linkwire/{LIBRARY}.new")
            os.replace(f"{HERE}/linkwire/{LIBRARY}.new", f"{HERE}/linkwire/{LIBRARY}")
    tag = "py3-none-any"
    name = f"linkwire-{VERSION}-{tag}.whl"
    write(os.path.join(wheel_directory, name), [("linkwire.pth", f"{HERE}\n".encode()), *described(tag)])
    return name


def build_sdist(sdist_directory, config_settings=None):
    """The hook of PEP 517 for an archive of sources: what a build reads, in one folder."""
    texts = [f"dist/{it}/link_c.s" for it in sorted(os.listdir(DIST)) if os.path.isdir(f"{DIST}/{it}")]
    files = [("PKG-INFO", core_metadata()), *((it, read(f"{HERE}/{it}")) for it in ("backend.py", "pyproject.toml")),
             *package(), *((it, read(f"{ROOT}/{it}")) for it in [
                 "LICENSE", "dist/heap.c", "dist/liblinkwire.map", *texts])]
    top = f"linkwire-{VERSION}"
    with open(f"{sdist_directory}/{top}.tar.gz", "wb") as out, \
            gzip.GzipFile("", "wb", fileobj=out, mtime=0) as packed, \
            tarfile.open(fileobj=packed, mode="w", format=tarfile.PAX_FORMAT) as archive:
        for name, content in files:
            info = tarfile.TarInfo(f"{top}/{name}")
            info.size, info.mode, info.mtime = len(content), 0o644, 315532800  # 1980, as in wheels
            archive.addfile(info, io.BytesIO(content))
    return f"{top}.tar.gz"


def write_command(path):
    """Writes the command linkwatch, as pip makes it of the entry point."""
    with open(path, "w", encoding="utf-8") as it:
        it.write("#!/usr/bin/python3\nimport sys\nfrom linkwatch.__main__ import main\nsys.exit(main())\n")
    os.chmod(path, 0o755)


def main(first=".", folder=None):
    """`backend.py [FOLDER]` writes a wheel, and `--sdist FOLDER` an archive of sources; `--metadata FOLDER` writes what
    an installed package has beside it, `--command FILE` the command linkwatch."""
    if first == "--command":
        write_command(folder)
        return
    if first != "--metadata":
        print(build_sdist(folder) if first == "--sdist" else build_wheel(first))
        return
    os.makedirs(f"{folder}/{INFO}", exist_ok=True)
    name, content = next(described("py3-none-any"))
    with open(f"{folder}/{name}", "wb") as it:
        it.write(content)


if __name__ == "__main__":
    main(*sys.argv[1:])
