#!/usr/bin/env python3
"""Counts what the programs, the calls of the library for C and of the crate take for a line, and compares the numbers
with those of tests/costs.txt.

    python3 scripts/measure/costs.py [ROW..]         compares: more than two in a thousand above fails, or below
    python3 scripts/measure/costs.py --make [ROW..]  prints the rows as they are

A ROW is WHAT/WORKLOAD, as linkwire/dumps; with none all are counted. --texts FOLDER counts over other texts than those
in dist/x86_64, and --rows FILE compares with other rows. JOBS in the environment is how many runs go side by side."""
import argparse
import concurrent.futures
import glob
import itertools
import os
import pathlib
import platform
import re
import shutil
import subprocess
import sys
import tempfile

import cost_lines
from shared import TOP, read, table

ARCH = "x86_64"
HERE, ROWS, TEXTS = f"{TOP}/scripts/measure/costs", f"{TOP}/tests/costs.txt", f"{TOP}/dist/{ARCH}"
CC = os.environ.get("CC", "cc").split()
LIBRARY, CRATE, DUMP = "link_c", "rust", "linkdump"
CALLS = re.findall(r'^    \{"(\w+)", \1\},$', read("scripts/measure/costs/calls.c"), re.M)
RUNS = [(listed, *(word.replace("*", call) for word in row)) for listed, row in table("scripts/measure/costs/runs.txt")
        for call in (CALLS if "*" in row[0] else [""])]
COUNTED = {what: (of, words.split()) for _, what, of, words in RUNS}
# what count.c counts, and what else the texts may call: where they call more, a cost may stand there that is not seen
WRAPPED = {"malloc", "calloc", "realloc", "free", "memcpy", "memmove", "memset", "memcmp", "bcmp"}
CALLED = WRAPPED | {"read", "write", "open", "close", "__sysv_signal"}
# as dist/Makefile links a program with errno.o
LINKED = ["-Wl,--wrap=main", "-Wl,--wrap=read", "-Wl,--wrap=write"]
# the first three are of one line, the others of the whole run
UNITS = ["instructions", "requests for memory", "steps of the C library", "bytes asked of the system",
         "bytes held at most"]
OF_A_LINE, OF_SYSTEM = 3, 3
WRAP = [f"-Wl,--wrap={name}" for name in sorted(WRAPPED)]
# a number is stored with two digits behind the point
MOST, LEAST, ROUNDED = 1.002, 0.998, 0.005


def stop(why):
    sys.exit(f"costs: {why}")


def link(texts, folder, names):
    """Builds these programs, and `calls` of the library, with what counts, and returns the functions of each text. The
    C library is linked as it is by default, that is dynamically: the requests of a static one would count too."""
    own = {}
    # without -fno-builtin a compiler may make calls of memcpy here, or leave some out
    for source in (f"{HERE}/count.c", f"{HERE}/calls.c", f"{TOP}/dist/heap.c", f"{TOP}/dist/errno.c"):
        subprocess.run([*CC, "-O2", "-fno-builtin", f"-I{TOP}/include", "-c", source], check=True, cwd=folder)
    for name in sorted(names - {CRATE, DUMP}):
        text = pathlib.Path(f"{texts}/{name}.s").read_text("utf-8")
        own[name] = set(re.findall(r"^\t\.type\t([\w.$]+),@function$", text, re.M))
        others = set(re.findall(r"\b(?!rattle_)([A-Za-z_]\w*)@(?:PLT|GOTPCREL)", text)) - own[name] - CALLED
        if others:
            stop(f"{name}.s calls what nothing counts: {', '.join(sorted(others))}")
        more = ["calls.o", "-o", "calls"] if name == LIBRARY else ["errno.o", *LINKED, "-o", name]
        subprocess.run([*CC, *WRAP, f"{texts}/{name}.s", "heap.o", "count.o", *more], check=True, cwd=folder)
    if DUMP in names:
        sources = sorted(glob.glob(f"{TOP}/programs/linkdump*.c"))
        words = ["-std=gnu11", "-D_GNU_SOURCE", "-DLINKDUMP_PCAP", "-O2", f"-I{TOP}/include", *WRAP, *sources]
        subprocess.run([*CC, *words, "count.o", "-lpcap", "-o", "linkdump"], check=True, cwd=folder)
    if CRATE in names:
        manifest = read("scripts/measure/costs/crate.toml").replace("TOP", TOP)
        pathlib.Path(f"{folder}/Cargo.toml").write_text(manifest, "utf-8")
        wraps = "\x1f".join(f"-Clink-arg={it}" for it in [*WRAP, f"{folder}/count.o"])
        subprocess.run(["cargo", "build", "-q", "--release", "--offline", "--target-dir", "target"], check=True,
                       cwd=folder, env={**os.environ, "CARGO_ENCODED_RUSTFLAGS": wraps})
        os.rename(f"{folder}/target/release/crate", f"{folder}/crate")
    return own


def instructions(path, own, program):
    """How many of callgrind's file are in these functions themselves; with none, in the program's own."""
    total, is_own = 0, False
    # the line behind `calls=` has what the called function took
    for line in re.sub(r"^calls=.*\n.*\n", "", pathlib.Path(path).read_text("utf-8"), flags=re.M).splitlines():
        word, _, name = line.partition("=")
        if word == ("fn" if own else "ob"):
            # '2 is a function that called itself
            is_own = re.sub(r"'\d+$", "", name) in (own or {program})
        elif is_own and line[:1].isdigit():
            total += int(line.split()[1])
    return total


def count(folder, what, workload, own):
    """What a run takes, by UNITS. These are the functions of its text."""
    of, runs = f"{folder}/{what}.{workload}", [word.format(workload) for word in COUNTED[what][1]]
    valgrind = ["valgrind", "--tool=callgrind", f"--callgrind-out-file={of}.out", "--error-exitcode=99",
                "--compress-strings=no", "--compress-pos=no"]
    valgrind += ["--toggle-collect=counted"] * (COUNTED[what][0] == CRATE)
    with open(f"{folder}/{workload}.lines", "rb") as lines:
        ran = subprocess.run([*valgrind, *runs], stdin=lines, stdout=subprocess.DEVNULL, stderr=subprocess.PIPE,
                             check=False, cwd=folder, env={**os.environ, "COSTS": f"{of}.txt"})
        lines.seek(0)
        number = lines.read().count(b"\n")
    if ran.returncode:
        stop(f"{what} {workload}: status {ran.returncode}: {ran.stderr.decode()}")
    numbers = [int(it) for it in pathlib.Path(f"{of}.txt").read_text("ascii").split()]
    taken = [instructions(f"{of}.out", own, os.path.realpath(os.path.join(folder, runs[0]))), *numbers]
    return [round(it / number, 2) for it in taken[:OF_A_LINE]] + taken[OF_A_LINE:]


def counted(texts, workloads, rows):
    """The numbers of these rows, several side by side."""
    jobs = int(os.environ.get("JOBS", len(os.sched_getaffinity(0))))
    with tempfile.TemporaryDirectory() as folder:
        own = link(texts, folder, {COUNTED[what][0] for what, _ in rows})
        for workload, text in workloads.items():
            lines = text.splitlines(keepends=True)
            middle = len(lines) // 2
            for end, part in {"lines": lines, "before": lines[:middle], "after": lines[middle:]}.items():
                pathlib.Path(f"{folder}/{workload}.{end}").write_bytes(b"".join(part))
        pathlib.Path(f"{folder}/events.pcap").write_bytes(cost_lines.capture(workloads["events"].split()))
        with concurrent.futures.ThreadPoolExecutor(jobs) as pool:
            runs = {row: pool.submit(count, folder, *row, own.get(COUNTED[row[0]][0], set())) for row in rows}
            return {row: run.result() for row, run in runs.items()}


def versions():
    """What the numbers of some columns and rows depend on: the C library, and the compilers of what has no text."""
    def said(words):
        ran = subprocess.run(words, check=False, capture_output=True, text=True) if shutil.which(words[0]) else None
        return ran.stdout.split("\n")[0] if ran and ran.returncode == 0 else "none"

    return {"libc": " ".join(platform.libc_ver()), "cc": said([*CC, "-dumpfullversion"]),
            "rustc": said(["rustc", "--version"]).partition(" (")[0],
            "libpcap": said(["pkg-config", "--modversion", "libpcap"])}


parser = argparse.ArgumentParser(usage="costs.py [--make] [--texts FOLDER] [--rows FILE] [WHAT/WORKLOAD ..]")
parser.add_argument("--make", action="store_true")
parser.add_argument("--texts")
parser.add_argument("--rows", default=ROWS)
parser.add_argument("wanted", nargs="*")
asked = parser.parse_args()
if not shutil.which("valgrind"):
    print("costs: skipped: valgrind is not installed")
    sys.exit()
machine = subprocess.run([*CC, "-dumpmachine"], check=True, capture_output=True, text=True).stdout.strip()
if machine.partition("-")[0] not in (ARCH, "amd64"):
    print(f"costs: skipped: the rows are for x86-64, and {CC[0]} compiles for {machine}")
    sys.exit()
if asked.texts is None:
    texts = {of for of, _ in COUNTED.values()} - {CRATE, DUMP}
    unfit = subprocess.run(["bash", f"{TOP}/scripts/make/sums.sh", "unfit", ARCH, *sorted(texts)], check=True,
                           capture_output=True, text=True).stdout.split()
    if unfit:
        stop(f"dist/ has other texts than those of the sources ({' '.join(unfit)}): make dist makes them anew")
workloads = cost_lines.workloads()
wanted = {tuple(row.split("/")) for row in asked.wanted}
groups = itertools.groupby(RUNS, lambda it: (it[0], it[2] == CRATE))
rows = [(what, workload) for (listed, _), group in groups for names in [[what for _, what, *_ in group]]
        for workload in (workloads if listed == "all" else listed.split()) for what in names
        if not wanted or (what, workload) in wanted]
if wanted - set(rows):
    stop(f"no such row: {', '.join(map('/'.join, sorted(wanted - set(rows))))}")
here = versions()
# the rows that are stored, and the versions that they were made by
lines = pathlib.Path(asked.rows).read_text("ascii").splitlines()
words = [line.split() for line in lines if not line.startswith("#")]
most = {(what, workload): [float(number) for number in numbers] for what, workload, *numbers in words}
was = dict(line.removeprefix("#: ").split("=", 1) for line in lines if line.startswith("#: "))
# what is not compared here: rows by their program, and columns
others = {name for name in here if was.get(name) != here[name]}
programs = [DUMP] * ("cc" in others or here["libpcap"] == "none") + [CRATE] * ("rustc" in others)
over = {what for what, (of, _) in COUNTED.items() if of in programs and not asked.make}
columns = [OF_SYSTEM] * ("libc" in others)
now = counted(os.path.abspath(asked.texts or TEXTS), workloads, [row for row in rows if row[0] not in over])
if asked.make:
    versions_ = [f"#: {name}={version}" for name, version in here.items()]
    rows = [" ".join(map(str, (*row, *numbers))) for row, numbers in now.items()]
    print(read("scripts/measure/costs/head.txt") + "\n".join(versions_ + rows))
    sys.exit()
at_most = {row: numbers for row, numbers in most.items() if (not wanted or row in wanted) and row[0] not in over}
found = [f"{'/'.join(row)}: {'is not counted' if row in at_most else 'has no row'}"
         for row in sorted(at_most.keys() ^ now.keys())]
for row in sorted(at_most.keys() & now.keys()):
    for at, (unit, most, number) in enumerate(zip(UNITS, at_most[row], now[row])):
        of = f"{number} {unit}{' a line' if at < OF_A_LINE else ''}"
        if at not in columns and number > most * MOST + ROUNDED:
            found.append(f"{'/'.join(row)}: {of}, and at most {most} are allowed")
        elif at not in columns and number < most * LEAST - ROUNDED:
            found.append(f"{'/'.join(row)}: {of}: lower the row, which has {most}")
if found:
    stop("\ncosts: ".join(found))
left = [*sorted(over), *(UNITS[it] for it in columns)]
tail = f"; passed over, of other versions: {', '.join(left)}" if left else ""
print(f"costs: {len(now)} rows hold{tail}")
