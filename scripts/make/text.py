"""Proves and builds the program or static library in the current folder for each processor of targets.txt, and writes
the assembly text that the compiler makes of it, as FOLDER/PROCESSOR/NAME.s: text.py FOLDER [JOBS]. What it built for
x86-64 stays as out/NAME.o, and of a library as out/libNAME.a. JOBS is in how many processes it proves. With
--by-rattle in the place of FOLDER the toolchain's own compiler makes the library, as out/libNAME.by-rattle.a."""
import importlib.machinery
import importlib.util
import itertools
import os
import re
import shlex
import shutil
import sys
import tempfile
from pathlib import Path

TARGETS = Path(__file__).with_name("targets.txt")
# Stands for the toolchain's clang, which is called with an empty environment, and has it write the text too. `-c` marks
# the call that makes the code. That of x86-64 optimizes the module first, as a call of its own does on aarch64: it is
# optimized once, and text and object are made of what comes of it, the same bytes in half the time. gas has no
# `.addrsig`. The marks for unwinding move no instruction on x86-64; on aarch64 they do, and are left out.
CLANG = """#!/bin/sh
# calls INPUT OUTPUT HOW: the call with another input and output, and other words in the place of -c
all=$*
calls() {{
    words=
    for word in $all; do
        case $word in
        module.bc) word=$1 ;;
        module.o) word=$2 ;;
        -c) word=$3 ;;
        esac
        words="$words $word"
    done
    {clang} $words
}}
text='-S -fno-addrsig -fno-verbose-asm {more}' as_it_is='-Xclang -disable-llvm-passes'
case " $* " in
*" -c "*" module.bc "*)
    calls module.bc {folder}/module.bc '-c -emit-llvm -Xclang -emit-llvm-uselists' &&
        calls {folder}/module.bc {folder}/text.s "$text $as_it_is" &&
        calls {folder}/module.bc module.o "-c $as_it_is"
    ;;
*" -c "*) calls '' {folder}/text.s "$text" && {clang} "$@" ;;
*) exec {clang} "$@" ;;
esac
"""
MORE = {"x86_64": "-fforce-dwarf-frame", "aarch64": ""}

QUOTED = re.compile(r'"([^"]*)"')
SECTION = re.compile(r'\s*\.section\s+"')
OTHER = re.compile(r"\s*\.(section|ascii|asciz|string|ident|file)\b")     # no names are quoted there


def plain(text):
    """The text under names that every assembler takes: `"link_msg::parse::<#25e2>"` becomes link_msg.parse.25e2. The
    marks for unwinding go into the section that is loaded, and not into one for debuggers."""
    names, taken = {}, set(re.findall(r"[\w.$]+", text, re.ASCII))

    def renamed(found):
        name = found[1]
        if name.startswith(".note."):
            return f'"{name}"'
        if name not in names:
            first = re.sub(r"[^\w.$]+", ".", name, flags=re.ASCII).rstrip(".")
            numbered = (f"{first}.{number}" for number in itertools.count(1))
            names[name] = next(it for it in itertools.chain([first], numbered) if it not in taken)
            taken.add(names[name])
        return names[name]

    for line in text.splitlines(keepends=True):
        if SECTION.match(line):
            line = QUOTED.sub(renamed, line, count=1)
        elif not OTHER.match(line):
            line = QUOTED.sub(renamed, line)
        if line.strip() != ".cfi_sections .debug_frame":
            yield line


def stand_in(toolchain, folder, arch):
    """Makes a toolchain in the folder whose clang keeps the text, and returns where the text will be."""
    (folder / "bin").mkdir()
    (folder / "lib").symlink_to(toolchain / "lib")
    for it in (toolchain / "bin").iterdir():
        (folder / "bin" / it.name).symlink_to(it)
    clang = folder / "bin/clang"
    clang.unlink()
    clang.write_text(CLANG.format(clang=shlex.quote(f"{toolchain}/bin/clang"), folder=shlex.quote(str(folder)),
                                  more=MORE[arch]))
    clang.chmod(0o755)
    return folder / "text.s"


def targets():
    """The flags by processor."""
    rows = [line.split() for line in TARGETS.read_text("utf-8").splitlines() if not line.startswith("#")]
    return {arch: ["--target", target, "--cpu", cpu] for arch, target, cpu in rows}


def command_of(kit):
    """The module of the toolchain's command."""
    sys.dont_write_bytecode = True
    loader = importlib.machinery.SourceFileLoader("rt", f"{kit}/bin/rt")
    command = importlib.util.module_from_spec(importlib.util.spec_from_loader("rt", loader))
    loader.exec_module(command)
    command.rtlib.guarded()
    return command


def build(command, crate, backend, toolchain, words, to):
    return crate.call(command.rtlib.RATTLE, "build", *crate.words(words), "--toolchain", str(toolchain),
                      "--backend", backend, *command.rtlib.KEPT, "-o", to)


def write_text(command, crate, arch, to, jobs):
    """Builds the crate for a processor, and writes its text."""
    with tempfile.TemporaryDirectory() as name:
        folder = Path(name)
        text = stand_in(Path(command.KIT) / "toolchain", folder, arch)
        built = f"out/lib{crate.name}.a" if crate.is_static else f"out/{crate.name}.o"
        status = build(command, crate, "llvm", folder, targets()[arch] + jobs,
                       built if arch == "x86_64" else f"{folder}/built")
        if status:
            return status
        (Path(to) / arch).mkdir(parents=True, exist_ok=True)
        (Path(to) / arch / f"{crate.name}.s").write_text("".join(plain(text.read_text("utf-8"))), "utf-8")
    return 0


def shares(command):
    """Whether this toolchain shares what was kept between the checkouts of a machine."""
    return all(hasattr(command, it) for it in ("places_of", "take_rlib", "adopt", "offer"))


def take_libraries(command, crate):
    """Takes what `rt lib` built of the libraries below, here or in another checkout, where one is not in its out/ and
    all are to be had: one that is taken from elsewhere does not go with those that are there."""
    if all(os.path.exists(f"{it.folder}/out/rlib/{it.name}.rlib/format") for it in crate.below()):
        return

    def is_kept(it):
        stamps = (command.rtlib.text_of(f"{at}/out/rlib/stamp") for at, _ in command.places_of(it))
        return it.is_built() or it.stamp() in stamps

    held = command.rtlib.lock(crate.below())
    if all(map(is_kept, crate.below())):
        all(it.is_built() or command.take_rlib(it) for it in crate.below())     # up to the first that is gone
    for it in held:
        os.close(it)


def main(to, *jobs):
    command = command_of(os.path.dirname(os.path.dirname(os.path.realpath(shutil.which("rt")))))
    here = os.getcwd()
    crates = command.rtlib.crates_below(os.path.dirname(os.path.dirname(here)))
    (crate,) = [it for it in crates if it.folder == here]
    if shares(command):
        take_libraries(command, crate)
    crate.held = command.rtlib.lock([crate])
    if shares(command):
        command.adopt(crate)
    os.makedirs("out", exist_ok=True)
    stamp = crate.stamp()
    jobs = [word for it in jobs for word in ("--jobs", it)]
    if to == "--by-rattle":
        status = build(command, crate, "rattle", f"{command.KIT}/toolchain", jobs, f"out/lib{crate.name}.by-rattle.a")
    else:
        status = next(filter(None, (write_text(command, crate, arch, to, jobs) for arch in targets())), 0)
    if shares(command):
        command.offer(crate, None if status else stamp)
    return status


if __name__ == "__main__":
    sys.exit(main(*sys.argv[1:]))
