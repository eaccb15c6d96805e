#!/usr/bin/env python3
"""Turns one instruction of a text in dist/ at a time, and looks whether the runs of `make self-test` tell.

    mutants.py NAME [--count N] [--seed N] [--jobs N] [--least PERCENT] [--list]

NAME is a program, or link_c for the library's calls. With --least it fails where fewer than so many of a hundred are
told, of those that are executed and not alike; --list prints what becomes of each."""
import argparse
import collections
import functools
import itertools
import multiprocessing
import os
import random
import re
import resource
import subprocess
import sys
import tempfile
from pathlib import Path

TOP = Path(__file__).resolve().parents[2]
sys.path.append(f"{TOP}/scripts/test")
from shared import table

ROUND = {"e": "ne", "b": "ae", "a": "be", "l": "ge", "g": "le", "s": "ns"}
ROUND |= {other: one for one, other in ROUND.items()}
# a jump, a set or a move on a condition, and the letter of a size that may stand at the end of a move
CONDITION = re.compile(r"(j|set|(cmov))([abgl]e|n[es]|[abegls])((?(2)[qlw]?))")
BY_ONE = {"jb": "jbe", "jbe": "jb", "ja": "jae", "jae": "ja", "jl": "jle", "jle": "jl", "jg": "jge", "jge": "jg"}
# as dist/Makefile links a program
WRAPS = [f"-Wl,--wrap={name}" for name in ("main", "read", "write")]
PARTS = 8  # of the lines: a mutant runs those that come to it
LIBRARY = "liblinkwire.so.0"
TESTS = "calls", "lenient", "lists", "memory", "shown", "sizes", "state", "writer"
# The words of a command, in which TO is the program, the file it reads, the file it writes to if it is not looked at,
# and whether it calls the library, which it then preloads.
Run = collections.namedtuple("Run", "words reads writes preloads", defaults=[("TO",), "/dev/null", "", False])


def turned(word):
    """The opposite of a jump, a set or a move on a condition."""
    found = CONDITION.fullmatch(word)
    return found and found[1] + ROUND[found[3]] + found[4]


def sites(text):
    """Where a text can be changed: the line, how, and the function it is in."""
    found, function = [], None
    for at, line in enumerate(text):
        if label := re.match(r"([A-Za-z_][^ :\t]*):", line):
            function = label[1]
        word = (line.split() or [""])[0]
        ways = {"turned": turned(word), "by one": word in BY_ONE,
                "a number": re.search(r"\$-?\d+", line) and not word.startswith(".")}
        found += [(at, how, function) for how, is_possible in ways.items() if is_possible]
    return found


def changed(line, how, chance):
    word = line.split()[0]
    if how == "a number":
        return re.sub(r"\$(-?\d+)", lambda it: f"${int(it[1]) + chance.choice((-1, 1))}", line, count=1)
    return line.replace(word, turned(word) if how == "turned" else BY_ONE[word], 1)


def around(name, text, at, new, function):
    """A place as patterns of tests/second/alike.txt have it: its text, its function without the sum behind the name,
    four instructions or labels in front, what becomes of which, and four behind; without names of labels and
    registers. The sum comes last, for what is so in one of several functions of a name."""
    def plain(line):
        line = re.sub(r"\.LBB\d+_\d+|\.LJTI\d+_\d+", ".L", " ".join(line.split()))
        return re.sub(r"%[a-z]\w*", "%", line)

    def four(lines):
        return list(itertools.islice((plain(it) for it in lines if it.strip() and not it.startswith("\t.")), 4))

    function, *own = re.split(r"\.([0-9a-f]{16})(?:\.\d+)?$", function or "")
    return "; ".join([f"{name} {function}: ", *four(text[at - 1::-1])[::-1], f"[{plain(text[at])} -> {plain(new)}]",
                      *four(text[at + 1:]), *(f"of {it}" for it in own if it)])


def compiles(*command):
    return subprocess.run(["cc", *map(str, command)], capture_output=True, check=False).returncode == 0


def build(name, folder, text, to):
    """What is run of a text, at the path `to`; false where it does not assemble."""
    Path(f"{to}.s").write_text("\n".join(text))
    made = TOP / "out/dist"
    more = (*WRAPS, made / "errno.o")
    if name == "link_c":
        more = "-shared", f"-Wl,-soname,{LIBRARY},--version-script={TOP}/dist/liblinkwire.map"
    return compiles("-c", "-o", f"{to}.o", f"{to}.s") and compiles(
        "-o", to, f"{to}.o", f"{folder}/marks.o", made / "heap.o", *more)


def prepare(name, folder, text):
    """The lines, and the programs that call the library."""
    compiler = ["-std=gnu11", "-O2", f"-I{TOP}/include"]
    compiles(*compiler, "-DLINES_ALONE", "-o", f"{folder}/lines", TOP / "tests/second/lines.c")
    for it in ("all", "digits", "news", "more", "changes", "words", "mixed", "turns", "hosts", "worded"):
        with open(f"{folder}/{it}", "wb") as to:
            subprocess.run([f"{folder}/lines", it], stdout=to, check=True, cwd=TOP)
    subprocess.run(["split", "-d", "-n", f"l/{PARTS}", f"{folder}/all", f"{folder}/all."], check=True)
    compiles(*compiler, "-shared", "-fPIC", "-o", f"{folder}/watch.so", TOP / "tests/second/watch.c")
    compiles("-c", "-O2", "-fPIC", "-o", f"{folder}/marks.o", TOP / "scripts/measure/marks.c")
    if name == "linkdiff":
        streams, hosts = (path.read_bytes().splitlines(True)
                          for path in (TOP / "tests/second/streams.txt", Path(f"{folder}/hosts")))
        for it, part in (("streams", streams), ("old", streams[:450]), ("new", streams[450:]), ("first", hosts[:6000])):
            Path(f"{folder}/{it}").write_bytes(b"".join(part))
    if name == "link_c":
        build(name, folder, text, f"{folder}/{LIBRARY}")
        for it in ("lines", *TESTS):
            source = TOP / ("tests/second/lines.c" if it == "lines" else f"tests/c/{it}.c")
            compiles(*compiler, "-o", f"{folder}/test.{it}", source, f"{folder}/{LIBRARY}")


@functools.lru_cache
def runs(name, folder):
    """What `make self-test` runs of a program, or of the library, the short ones first."""
    if name == "link_c":
        sets = [("lines", it, what) for it in ("more", "mixed", "all") for what in ("calls", "held")]
        return [Run((f"{folder}/test.{it[0]}", *it[1:]), preloads=True) for it in (*((it,) for it in TESTS), *sets)]
    said = [line.split(" ")[2:] for line in (TOP / "tests/program/said.txt").read_text().split("\n")
            if line.startswith(f"$ {name} ")]
    short = [Run(reads=str(TOP / f"crates/{name}/stdin")), Run(("TO", "--version")),
             Run(reads=f"{folder}/digits", writes="/dev/full")]
    parts = {"all": [f"all.{it:02}" for it in range(PARTS)]}
    long = [Run(("TO", *" ".join(given).replace("{}", folder).split()), f"{folder}/{part}")
            for program, (sets, *given) in table("scripts/measure/mutants.txt") if program == name
            for it in sets.split() for part in parts.get(it, [it])]
    return [*short, *(Run(("TO", *it), str(TOP)) for it in said), *long,
            Run(("sh", "tests/second/watched.sh", name, "TO", folder, f"{folder}/watch.so"))]


def run(it, to, held, most=60):
    """Runs the program for so many seconds of the processor's time at most: its status, whether it writes what the file
    `held` has, if one is named, and the marks it left."""
    with open(f"{to}.seen", "wb") as seen:
        seen.truncate(1 << 20)
    limits = ["timeout", "-s", "KILL", "60", "prlimit", f"--cpu={most}", f"--as={3 << 30}", "--core=0"]
    words = ["env", f"LD_PRELOAD={to * it.preloads}", *(to if word == "TO" else word for word in it.words)]
    # it ends at the first byte that differs, and then the program's next write ends that
    compared = subprocess.Popen(["cmp", "-s", "-", held], stdin=subprocess.PIPE) if held else None
    source = os.open(it.reads, os.O_RDONLY)     # which may be a folder
    with compared.stdin if compared else open(it.writes or f"{to}.out", "wb") as out:
        status = subprocess.run([*limits, *words], stdin=source, stdout=out, stderr=subprocess.STDOUT, cwd=TOP,
                                check=False, env={"SEEN": f"{to}.seen", "PATH": os.environ["PATH"]}).returncode
    os.close(source)
    return status, not compared or compared.wait() == 0, b"" if held else Path(f"{to}.seen").read_bytes()


def answers(name, folder, text, lines):
    """Keeps what each run of the text as it is writes: its status, the seconds that another may take, and which of
    these lines it executes."""
    marked, last, wanted, to = [], 0, [], f"{folder}/marked"
    for number, at in enumerate(lines):
        marked += [*text[last:at], f"\tmovb $1, mutants_seen+{number}(%rip)"]
        last = at
    if not build(name, folder, marked + text[last:], to):
        sys.exit(f"mutants: {name}: the text with marks does not assemble")
    for at, it in enumerate(runs(name, folder)):
        before = resource.getrusage(resource.RUSAGE_CHILDREN).ru_utime
        status, _, seen = run(it, to, "")
        took = resource.getrusage(resource.RUSAGE_CHILDREN).ru_utime - before
        if not it.writes:
            os.rename(f"{to}.out", f"{folder}/wanted{at}")
        wanted.append((status, 1 + int(8 * took), {line for mark, line in zip(seen, lines) if mark}))
    return wanted


def attempt(name, folder, text, wanted, work):
    at, new, *_ = work
    with tempfile.TemporaryDirectory(dir=folder) as own:
        to = f"{own}/{name}"
        if not build(name, folder, [*text[:at], new, *text[at + 1:]], to):
            return "not built"
        # whether a run that comes to the place ends otherwise, or writes something else, than the text as it is
        is_told = any(run(it, to, "" if it.writes else f"{folder}/wanted{which}", most)[:2] != (status, True) for which,
                      (it, (status, most, there)) in enumerate(zip(runs(name, folder), wanted)) if at in there)
    return "told" if is_told else "kept"


def main():
    parser = argparse.ArgumentParser()
    parser.add_argument("name", choices=("linkwire", "linkstate", "linkshow", "linkdiff", "link_c"))
    for option, most in ("--count", 40), ("--seed", 7), ("--jobs", 2), ("--least", None):
        parser.add_argument(option, type=int, default=most)
    parser.add_argument("--list", action="store_true")
    given = parser.parse_args()
    os.chdir(TOP)
    if os.uname().machine != "x86_64":
        print("mutants: skipped: the texts that are changed are for x86_64")
        return
    name = given.name
    text = Path(f"dist/x86_64/{name}.s").read_text().split("\n")
    chance = random.Random(given.seed)
    picked = chance.sample(sites(text), given.count)
    with tempfile.TemporaryDirectory() as folder:
        prepare(name, folder, text)
        wanted = answers(name, folder, text, sorted({at for at, *_ in picked}))
        there = set().union(*(there for *_, there in wanted))
        # the patterns of tests/second/alike.txt, in which * is anything, and {a,b} one of the two
        alike = [re.escape(row.strip()).replace("\\*", ".*")
                 for row in Path("tests/second/alike.txt").read_text().splitlines() if row.startswith("  ")]
        alike = re.sub(r"\\{(.*?)\\}", lambda it: f"(?:{it[1].replace(',', '|')})", "|".join(alike))
        results, work = collections.Counter(), []

        def count(found, what):
            results[found] += 1
            if given.list:
                print(f"mutants: {name}: {found}: {what}", flush=True)
        for at, how, function in picked:
            new = changed(text[at], how, random.Random(chance.random()))
            what = f"{function}: {at + 1}: {' '.join(text[at].split())} -> {' '.join(new.split())}"
            fits = bool(re.search(alike, around(name, text, at, new, function)))
            if at in there:
                work.append((at, new, what, fits))
            else:
                count("never executed", what)
        with multiprocessing.Pool(given.jobs) as pool:
            tried = pool.imap(functools.partial(attempt, name, folder, text, wanted), work)
            for (*_, what, fits), found in zip(work, tried):
                results["told, and fits"] += fits and found == "told"
                count("alike" if fits and found == "kept" else found, what)
    told, kept = results["told"], results["kept"]
    print(f"mutants: {name}: seed {given.seed}: {told} of the {told + kept} that are executed and not alike are "
          f"told; {results['alike']} are alike, and {results['told, and fits']} of the told fit a pattern of those; "
          f"{results['never executed']} are never executed, {results['not built']} do not assemble")
    if given.least is not None and told * 100 < given.least * (told + kept):
        sys.exit(f"mutants: {name}: fewer than {given.least} of a hundred are told")


if __name__ == "__main__":
    main()
