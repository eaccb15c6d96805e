#!/usr/bin/env python3
"""Compares the programs, the library, the crate in rust/ and the package in python/ with the second reader, line by
line.

    check.py [--jobs N] [--lines FILE] [--only WORD,..] FOLDER LINES
    check.py --places
    check.py --store FOLDER LINES

FOLDER has the programs, and LINES is the program of lines.c. Without --lines it takes the lines that LINES makes of the
set `all`, or of that which --set names. --places prints tests/second/places.txt anew, of the tables; --store prints
tests/second/stored.txt, by what the second reader answers. What the lines reach is counted as the second reader sees
them, and printed. The last line is 'second: ok'."""
import argparse
import collections
import itertools
import json
import multiprocessing
import re
import subprocess
import sys
import zlib

import second

KEYS = {"wrong-length": ("got", "want"), "too-short": ("got", "need"), "frame-short": ("left",),
        "frame-over": ("length", "left"), "frame-under": ("length",), "not-utf8": (), "empty-list": ()}
CODES = {"too-short": -1, "frame-short": -2, "frame-over": -3, "frame-under": -4, "empty-list": -5, "wrong-length": -6,
         "not-utf8": -7, "unfit": -16, "empty-ports": -17}
SETS = "all", "digits", "more", "mixed"
ORDER = "got", "want", "need", "left", "length", "offset"


def words():
    parser = argparse.ArgumentParser()
    parser.add_argument("--jobs", type=int, default=2)
    parser.add_argument("--lines")
    parser.add_argument("--set", default="all")
    parser.add_argument("--only", default="linkwire,linkstate,linkstate-lenient,linkshow,linkshow-lenient,calls")
    parser.add_argument("--places", action="store_true")
    parser.add_argument("--store", action="store_true")
    parser.add_argument("--rust")
    parser.add_argument("--python", action="store_true")
    parser.add_argument("where", nargs="*")
    return parser.parse_args()


# ** the places and their rows, for lines.c

def shape(form):
    """Of a form a letter and a number, or the name of its table and whether that drops entries."""
    while isinstance(form, list) and len(form) == 1:
        form = form[0]
    if isinstance(form, str):
        if form in second.WORDS:
            return shape(second.WORDS[form])
        wide = {"u8": 1, "u16": 2, "u32": 4, "u64": 8, "i32": 4, "address": 16, "ext_mask": 4}.get(form)
        return ("n", wide) if wide else (form[0] if form in ("text", "event") else "b", 0)
    if form[0] == "as_form":
        return shape(form[3])
    if form[0] == "plain":
        return "r", second.record(form[1][-1].removesuffix("_of"))[0]
    if form[0] in ("list", "entries"):
        return "l", (form[0] == "entries", json.dumps(form[1]))
    return shape(form[1])


def print_places():
    tables, places, waiting = {}, [], []

    def table(key, rows):
        """The number of a table, which is printed with its rows where it is new."""
        if key in tables:
            return tables[key]
        tables[key] = len(tables)
        waiting.append((key, rows))
        return tables[key]

    def inner(drops, of):
        form = json.loads(of)
        return {1: (None, 1, None, form)} if drops else second.TABLES[form]

    def walk(number, key, rows, family, path):
        places.append(f"place {family} {number}" + "".join(f" {n}" for n in path))
        for n, row in rows.items():
            kind, of = shape(row[3]) if row[3] is not None else ("k", 0)
            if kind == "l" and (of, len(path), family) not in seen:
                seen.add((of, len(path), family))
                walk(table(of, inner(*of)), of, inner(*of), family, [*path, n])

    seen = set()
    for family, rows in second.MESSAGE.items():
        family = 99 if family is None else family
        walk(table((False, f"message of {family}"), rows), None, rows, family, [])
    print("# The tables of link messages and where each stands, as check.py --places makes them of crates/*/specs. A",
          "# row has a number and a form: n a number of so many bytes, r a record of so many, t text, e an event, b",
          "# bytes, k kept, l a list by that table. A place has a family, its table, and the numbers that lead there.",
          sep="\n")
    for key, rows in waiting:
        print(f"table {tables[key]} {int(key[0])}")
        for n, row in rows.items():
            kind, of = shape(row[3]) if row[3] is not None else ("k", 0)
            print(f"row {n} {kind} {table(of, inner(*of)) if kind == 'l' else of}")
    print(*places, sep="\n")
    print("# Tables of link data, for lines.c alone: of kinds of links (k), of ports (p), of what a family has under a",
          "# number (h), and of the ports of functions (v).", sep="\n")
    print_data()


SIZES = {"One": 1, "Two": 2, "Four": 4, "Eight": 8}
BASIC = {"U8": 1, "U16": 2, "U32": 4, "U64": 8, "I32": 4, "BE16": 2, "BE32": 4, "BE64": 8, "MAC": 6, "IPV4": 4,
         "IPV6": 16}
HELD = ("-", 7, 12, "BridgePort"), ("-", 7, 26, "BridgeSpec"), ("-", 10, 12, "Inet6")


def plain_size(text):
    """How many bytes a value has that link_info spells so."""
    if found := re.match(r"Plain::(?:Octets\((\d+)\)|\w+\(\s*Size::(\w+))", text):
        return int(found[1]) if found[1] else SIZES[found[2]]
    return BASIC[text.removeprefix("Plain::").upper()]


def data_form(text, members, tables):
    """The form of a style of link data, for lines.c: further ones are f for no bytes, a for values of one size one
    after the other, and p for such values as attributes. That of a list is the form of one attribute."""
    if each := re.fullmatch(r"Style::Each\(\s*Element::(.*?),?\s*\)", text, re.S):
        return data_form("MAC" if each[1] == "Plain(Plain::Mac)" else f"Style::{each[1]}", members, tables)
    if text in BASIC:
        return f"{'n' if BASIC[text] in SIZES.values() else 'b'} {BASIC[text]}"
    word, of = re.fullmatch(r"Style::(\w+)(?:\((.*)\))?", text, re.S).groups()
    if word in ("Bytes", "Flag", "Text"):
        return f"{ {'Bytes': 'b', 'Flag': 'f', 'Text': 't'}[word]} 0"
    if word in ("Record", "Nest"):
        return f"r {members[of]}" if word == "Record" else f"l {tables[of.removeprefix('Place::')]}"
    return f"{ {'Plain': 'n', 'Array': 'a', 'List': 'p'}[word]} {plain_size(of)}"


def print_data():
    """The tables of link data, which no second reader knows, from number 100 on, and whose they are."""
    folder = second.CRATES / "link_info/src"
    text = "".join(path.read_text() for path in sorted(folder.glob("tables/*.rt")))
    place = (folder / "place.rt").read_text()
    tables, members = {}, {}
    for name, _ in re.findall(r"Place::(\w+) => \w+::(\w+),", place):
        tables[name] = 100 + len(tables)
    for name, of in re.findall(r"const (\w+): &\[Member\] =\s*&\[(.*?)\];", text, re.S):
        members[name] = sum(map(plain_size, re.findall(r'Member\(\s*"[^"]*",\s*(Plain::\w+(?:\([^)]*\))?)', of)))
    inner = r"(?:[^()]|\((?:[^()]|\((?:[^()]|\([^()]*\))*\))*\))*?"
    for name, rows in re.findall(r"Place::(\w+) => \w+::(\w+),", place):
        print(f"table {tables[name]} 0")
        rows = re.search(rf"const {rows}: &\[Row\] =\s*&\[(.*?)\n?\];", text, re.S)[1]
        for number, form in re.findall(rf'Row\(\s*(\d+),\s*"[^"]*",\s*({inner}),?\s*\)', rows, re.S):
            print(f"row {number} {data_form(form.strip(), members, tables)}")
    for sort, constant in ("k", "KINDS"), ("p", "SLAVE_KINDS"):
        rows = re.search(rf"pub const {constant}: .*?\];", place, re.S)[0]
        for name, of in re.findall(r'KindRow\("(\w+)", Place::(\w+)\)', rows):
            print(f"kind {sort} {name} 0 0 {tables[of]}")
    for name, family, number, of in HELD:
        print(f"kind h {name} {family} {number} {tables[of]}")
    print(f"kind v - 0 0 {tables['Port']}")


# ** what each has to answer

def encoded(answer):
    return "ok " + answer[1].hex() if answer[0] == "ok" else answer[0]


def stated(answer):
    return "ok " + second.state(answer[1]).hex() if answer[0] == "ok" else answer[0]


def code(answer):
    return CODES[answer[1].cause[0] if answer[0] == "refused" else answer[0]]


def told(fault):
    """As lines.c tells a fault of linkshow."""
    values = dict(zip(KEYS[fault.cause[0]], fault.cause[1:]), offset=fault.at)
    return " ".join([fault.cause[0], *(f"{key} {values[key]}" for key in ORDER if key in values)])


class Said:
    """What the second reader says of a line: strictly, leniently, and what it refuses then."""
    def __init__(self, line):
        self.refused = []
        self.is_hex = second.is_hex(line)
        if self.is_hex:
            message = bytes.fromhex(line.decode())
            self.strict = self.lenient = second.answer(message)
            if self.strict[0] == "refused":
                self.lenient = second.answer(message, self.refused)
        else:
            self.strict = self.lenient = ("nothex",)
        self.encoded, self.stated = encoded(self.strict), stated(self.strict)
        self.encoded_leniently, self.stated_leniently = self.encoded, self.stated
        if self.lenient is not self.strict:
            self.encoded_leniently, self.stated_leniently = encoded(self.lenient), stated(self.lenient)

    def calls(self):
        """As lines.c tells the calls of the library."""
        texts = [text[3:] if text[:3] == "ok " else str(code(answer)) for text, answer in (
            (self.encoded, self.strict), (self.stated, self.strict),
            (self.encoded_leniently, self.lenient), (self.stated_leniently, self.lenient))]
        fault = self.strict[1] if self.strict[0] == "refused" else None
        number = code(self.strict) if fault else 0
        path = ",".join(str(n) for n in (fault.at, *fault.path)) if fault else ""
        return " ".join([str(number), str(number), path, *texts])

    def by(self, which):
        if which == "linkwire":
            return self.encoded
        if which.startswith("linkstate"):
            return self.stated_leniently if which.endswith("lenient") else self.stated
        if which == "calls":
            return self.calls() if self.is_hex else None
        if self.strict[0] == "refused":
            return told(self.strict[1])
        return "shown" if self.is_hex else "not-hex"


def shown(line, said, is_lenient):
    """What linkshow tells of faults, and what it has to: of a line that is refused leniently too, the strict one."""
    found = json.loads(line)
    faults = [found] if "fault" in found else found.get("refused", [])
    tell = [(it["fault"], *(it.get(key) for key in KEYS.get(it["fault"], ())), it.get("offset"), it.get("payload"))
            for it in faults]
    if not said.is_hex:
        return [it[0] for it in tell], ["not-hex"]
    if said.lenient[0] == "refused" or not is_lenient and said.strict[0] == "refused":
        return tell, [(*said.strict[1].cause, said.strict[1].at, None)]
    return tell, [(*fault.cause, fault.at, payload.hex()) for fault, payload in said.refused] if is_lenient else []


COMMANDS = {"linkwire": ["linkwire"], "linkstate": ["linkstate"], "linkstate-lenient": ["linkstate", "--lenient"],
            "linkshow": ["linkshow"], "linkshow-lenient": ["linkshow", "--lenient"]}


def answers(command, lines):
    run = subprocess.run(command, input=b"\n".join(lines) + b"\n", capture_output=True, timeout=300)
    found = run.stdout.split(b"\n")
    if run.returncode or len(found) != len(lines) + 1:
        return None
    return [it.decode() for it in found[:-1]]


def python_calls(messages, saids):
    """What the package in python/ says otherwise than it should."""
    import linkwire

    def by(call, *arguments):
        try:
            return call(*arguments).hex()
        except linkwire.Fault as fault:
            return fault.cause

    wrong = []
    for line, said in zip(messages, saids):
        message = bytes.fromhex(line.decode())
        for lenient, answer in ((False, said.strict), (True, said.lenient)):
            no = answer[1].cause[0] if answer[0] == "refused" else answer[0]
            for call, make in ((linkwire.canonical, encoded), (linkwire.state, stated)):
                want = make(answer)[3:] if answer[0] == "ok" else no
                found = by(call, message, lenient)
                if found != want:
                    wrong.append((f"python {call.__name__}", line, want, found))
    return wrong


def job(work):
    which, folder, rust, has_python, lines, called_by = work
    saids = [Said(line) for line in lines]
    wrong, kinds = [], collections.Counter()
    for line, said in zip(lines, saids):
        fault = said.strict[1] if said.strict[0] == "refused" else None
        kinds[(int(line[:2], 16) if fault and line[:2] in (b"00", b"07", b"0a") else 99, fault.path, fault.cause[0])
              if fault else said.strict[0]] += 1
    runs = {name: [f"{folder}/{COMMANDS[name][0]}", *COMMANDS[name][1:]] for name in which if name in COMMANDS}
    if rust:
        runs |= {"rust": [rust], "rust-state": [rust, "state"]}
    for name, command in runs.items():
        found = answers(command, lines)
        if found is None:
            wrong.append((name, b"", "an answer to each line", "another number, or it failed"))
            continue
        for line, said, answer in zip(lines, saids, found):
            if name.startswith("linkshow"):
                tell, want = shown(answer, said, name.endswith("lenient"))
            else:
                by = {"rust": "linkwire", "rust-state": "linkstate"}.get(name, name)
                tell, want = answer, said.by(by)
            if tell != want:
                wrong.append((name, line, want, tell))
    if called_by:
        wrong += [("calls", line, said.by("calls"), answer) for line, said, answer in zip(lines, saids, called_by)
                  if said.by("calls") != answer]
    if has_python:
        wrong += python_calls(lines, saids)
    return len(lines), wrong, kinds, second.REACHED


def batches(lines, calls, size=2000):
    while batch := [it.rstrip(b"\n") for it in itertools.islice(lines, size)]:
        yield batch, [it.decode().rstrip("\n") for it in itertools.islice(calls, size)] if calls else None


def rows_there():
    """How many rows and pairs of rows there are, of each table below each outermost one."""
    rows = pairs = 0
    for top in second.MESSAGE.values():
        seen, waiting = set(), [top]
        while waiting:
            table = waiting.pop()
            if id(table) in seen:
                continue
            seen.add(id(table))
            rows, pairs = rows + len(table), pairs + len(table) ** 2
            waiting += [row[2].table for row in table.values() if hasattr(row[2], "table")]
    return rows, pairs


def compare(given):
    folder, program = given.where
    made = subprocess.Popen([program, given.set], stdout=subprocess.PIPE) if not given.lines else None
    lines = made.stdout if made else open(given.lines, "rb")
    which = given.only.split(",")
    calls = None
    if "calls" in which and made and given.set != "digits":
        calls = subprocess.Popen([program, given.set, "calls"], stdout=subprocess.PIPE).stdout
    total, wrong, kinds = 0, [], collections.Counter()
    reached = {name: set() for name in second.REACHED}
    with multiprocessing.get_context("fork").Pool(given.jobs) as pool:
        work = ((which, folder, given.rust, given.python, batch, found) for batch, found in batches(lines, calls))
        for count, differing, answered, seen in pool.imap_unordered(job, work):
            total, wrong, kinds = total + count, wrong + differing, kinds + answered
            for name, more in seen.items():
                reached[name] |= more
    for name, line, want, found in wrong[:8]:
        print(f"second: {name}: {line.decode('latin1')[:400]}: {found!s:.200}; the second reader: {want!s:.200}")
    if wrong:
        sys.exit(f"second: {len(wrong)} answers differ: {dict(collections.Counter(it[0] for it in wrong))}")
    report(total, kinds, reached)


def report(total, kinds, reached):
    rows, pairs = rows_there()
    said = ", ".join(f"{kinds[it]} {it}" for it in sorted(k for k in kinds if isinstance(k, str)))
    faults = [it for it in kinds if not isinstance(it, str)]
    print(f"second: {total} lines: {said}, {sum(kinds[it] for it in faults)} refused")
    print(f"second: {len(reached['rows'])} of {rows} rows, {len(reached['pairs'])} of {pairs} pairs of rows, "
          f"{len(reached['sizes'])} sizes of payloads at rows, {len(faults)} causes at places")
    print("second: ok")


def store(given):
    """The sums of what has to be answered, as lines.c makes them of what is answered."""
    program = given.where[1]
    for name in SETS:
        sums = collections.defaultdict(lambda: [0, 0])
        lines = subprocess.Popen([program, name], stdout=subprocess.PIPE).stdout
        places = subprocess.Popen([program, name, "places"], stdout=subprocess.PIPE).stdout
        which = [it for it in given.only.split(",") if it != "linkshow-lenient" and (name != "digits" or it != "calls")]
        with multiprocessing.get_context("fork").Pool(given.jobs) as pool:
            work = ((which, batch) for batch, _ in batches(lines, None))
            for found in pool.imap(said_by, work):
                for answered in found:
                    place = int(next(places))
                    for what, text in zip(which, answered):
                        kind = sums[what, place, text.split(" ")[0] or "-"]
                        kind[0] += 1
                        kind[1] = zlib.crc32(text.encode() + b"\n", kind[1])
        for (what, place, kind), (count, crc) in sums.items():
            print(what, place, kind, count, f"{crc:08x}")


def said_by(work):
    which, lines = work
    return [[said.by(what) for what in which] for said in map(Said, lines)]


def main():
    given = words()
    if given.places:
        print_places()
    elif given.store:
        store(given)
    else:
        compare(given)


if __name__ == "__main__":
    main()
