"""Compares the numbers, names, sizes and orders of fields of this repository, and which attributes are lists, with the
files of the kernel. It fails on a difference for which kernel_names.txt has no reason; what is newer than the files is
told, and is no difference."""
import argparse
import fnmatch
import json
import os
import re
import sys
from collections import Counter, defaultdict

import kernel_shown
from kernel_files import Kernel, type_of, unpack
from kernel_names import ALONE, LEVELS, OWN_FIELDS, PLACES, REASONS, RECORDS, VALUES, VALUES_LEFT_OUT
from kernel_ours import BYTES, Repository, width
from shared import TOP

PACKAGE = "/usr/src/linux-source-6.12.tar.xz"
# what a name of the kernel has where its value counts, or runs down
COUNTS = re.compile(r"TIMER|STATS(?!_PAD|_MAX)|COUNT|_CNT|_N_|CHANGES|SEQ_NR|EVENT|CACHEINFO")


def plain(name):
    return re.sub(r"[-_]", "", name).lower()


class Report:
    """Counts what agrees, and keeps what is newer, what differs with a reason and what differs without, and what is
    compared with none of the files."""

    def __init__(self):
        self.counts, self.newer, self.reasoned, self.faults = Counter(), [], {}, []
        self.left = defaultdict(list)

    def compare(self, category, where, *facts):
        """Facts as (what, here, there): names may differ in case, dashes and underscores."""
        outcomes = {self.fact(where, *fact) for fact in facts}
        self.counts[category, "fault" if "fault" in outcomes else "reason" if "reason" in outcomes else "equal"] += 1

    def fact(self, where, what, here, there):
        same = here == there or what in ("name", "constant") and plain(here) == plain(there)
        ours, why = reason(where, what, there)
        if why is None and same:
            return "equal"
        if ours not in ("*", str(here)):
            self.faults.append(f"{where}: {what} {here}, in the kernel's files {there}")
            return "fault"
        self.reasoned.setdefault((why, what, here, plain(str(there))), (there, []))[1].append(where)
        return "reason"

    def same_names(self, word, here, known):
        self.faults += [f"{name}: no {word} that this script knows" for name in here if name not in known]
        self.faults += [f"{name}: no such {word} is here" for name in known if name not in here]

    def has(self, kind, name, listed):
        """Whether the kernel's files have a list at all."""
        return name in listed or self.fact(kind, "list", name, "none") == "equal"

    def is_newer(self, category, text):
        self.counts[category, "newer"] += 1
        self.newer.append(text)


def reason(where, what, there):
    """What has to be here where the kernel's files say this, and why; None twice if just the same."""
    for pattern, about, ours, theirs, why in REASONS:
        if about == what and fnmatch.fnmatchcase(where, pattern) and theirs in ("*", plain(str(there))):
            return ours, why
    return None, None


def compare_numbers(category, kind, numbers, theirs, report, has_all=True):
    """Named numbers against named numbers. A number may have several names there, and some may have no name here."""
    for variant, n in numbers.items():
        where = f"{kind}.{variant}"
        named = [m for name, m in theirs.items() if plain(name) == plain(variant)]
        names = [name for name, m in theirs.items() if m == n]
        if names and not named:
            report.compare(category, where, ("name", variant, names[0]))
        elif has_all and not named and n > max(theirs.values(), default=-1):
            report.is_newer(category, f"{where} = {n}")
        else:
            report.compare(category, where, ("number", n, n if n in named else next(iter(named), "none")))
    for name, n in theirs.items():
        if has_all and n not in numbers.values():
            report.compare(category, f"{kind}.{name}", ("value", "none", n))


def compare_records(ours, kernel, report):
    report.same_names("record", ours.records, RECORDS)
    names = {f"{kind}.{field.name}" for kind, (fields, _) in ours.records.items() for field in fields}
    report.faults += [f"{name}: no such field is here" for name in OWN_FIELDS if name not in names]
    for kind in filter(RECORDS.get, ours.records):
        (fields, size), known, headers = ours.records[kind], RECORDS[kind], kernel.headers
        if known.struct and report.has(kind, known.struct, kernel.structs):
            # names and types in their order; those after the last there are newer
            listed = list(kernel.structs[known.struct])
            for field in fields:
                where, type_ = f"{kind}.{field.name}", ("type", field.type, listed[0].type if listed else None)
                if reason(where, "field", "none")[0] == field.name:
                    report.compare("fields, yaml", where, ("field", field.name, "none"))
                elif listed:
                    report.compare("fields, yaml", where, ("name", field.name, listed.pop(0).name), type_)
                else:
                    report.is_newer("fields, yaml", where)
            report.compare("records, yaml", kind, *[("field", "none", there.name) for there in listed])
        if known.header.endswith("_"):
            # fields of one width by the numbers that an enum gives them, of which the first is that of the first field
            numbers, wide = headers.group(known.header), width(fields[0].type)
            own = [field.name for field in fields if f"{kind}.{field.name}" in OWN_FIELDS]
            for name in own:
                report.compare("fields, headers", f"{kind}.{name}", ("field", name, "none"))
            first = min(numbers.values(), default=0)
            here = {field.name: first + field.offset // wide for field in fields if field.name not in own}
            if report.has(kind, known.header, numbers and {known.header}):
                compare_numbers("fields, headers", kind, here, numbers, report)
            report.compare("records, headers", kind, ("size", size, wide * len(here)))
        elif report.has(kind, known.header, headers.structs):
            there, whole = headers.structs[known.header]
            theirs = [field for field in there if "pad" not in field.name]
            for field, there in zip(fields, theirs):
                report.compare("fields, headers", f"{kind}.{field.name}", ("name", field.name, there.name),
                               ("type", field.type, there.type), ("offset", field.offset, there.offset))
            report.compare("records, headers", kind, ("size", size, whole), ("fields", len(fields), len(theirs)))


def compare_values(ours, kernel, report):
    """The names of values and flags beside an enum, or beside a table of the code."""
    report.same_names("enum", ours.values, VALUES)
    for kind in filter(VALUES.get, ours.values):
        known, word = VALUES[kind], "flags" if kind in ours.flags else "enum values"
        is_code, theirs = known.header.endswith(".c"), {}
        if is_code:
            table = kernel.of_code(known.header).table(known.prefix)
            theirs = {name: kernel.headers.evaluate(number) for name, number in table}
        elif known.header in kernel.headers.names and known.prefix:
            theirs = kernel.headers.group(known.prefix, known.beside, known.header)
            theirs = {name: 1 << n for name, n in theirs.items()} if known.bits else theirs
            report.has(kind, known.prefix, theirs and {known.prefix})
        if theirs:
            compare_numbers(word + (", code" if is_code else ", headers"), kind, ours.values[kind], theirs, report,
                            known.all)
        if known.list and report.has(kind, known.list, kernel.lists):
            word += ", left out" if known.list in VALUES_LEFT_OUT else ", yaml"
            compare_numbers(word, kind, ours.values[kind], kernel.lists[known.list], report, known.all)


def compare_constants(ours, kernel, report):
    """The numbers of attributes by the kernel's names for them, and those that stand alone."""
    for (_, name), n in ours.constants.items():
        there = kernel.headers.number(name)
        places = sorted((it.prefix, it.beside or "") for it in PLACES.values() if name.startswith(it.prefix))
        if there is None and places and n > max(kernel.headers.group(*places[-1]).values(), default=-1):
            report.is_newer("constants, headers", f"{name} = {n}")
        else:
            report.compare("constants, headers", name, ("number", n, there))
    for file, around, name in ALONE:
        found = re.search(around, ours.code(file))
        there = kernel.headers.number(name)
        if found and not found.group(1)[0].isdigit():
            report.compare("constants, headers", name, ("constant", found.group(1), name))
        elif found and there is not None:
            report.compare("constants, headers", name, ("number", int(found.group(1), 0), there & 0xffff))
        elif not found:
            report.faults.append(f"{name}: not found in {file}")


def compare_names(ours, report):
    """The names that faults are told by: each is that of its constant, and each number of an attribute has one."""
    for crate in {crate for crate, _ in ours.constants if crate != "link_state"}:
        code = ours.code(crate + "/src/*.rt")
        rows = re.findall(r'\b([A-Z]\w+) => "(\w+)",', code)
        rows += re.findall(r'const NUMBER: u16 = (\w+);\s*const NAME: &\'static str = "(\w+)";', code)
        names = re.findall(r"\w+", " ".join(re.findall(r"\bkind_names!\(\w+;([\w\s,]*)\)", code)))
        lists = " ".join(re.findall(r"\brows! \{ \(\$\(\$call\)\*\)([^}]*)\}", code))
        names += re.findall(r"\w+ \w+\(\w+, (\w+)", lists)
        for constant, name in rows + list(zip(names, names)):
            report.compare("names of faults", constant, ("constant", constant, name))
        report.faults += [f"{it} has no name for faults" for of, it in ours.constants
                          if of == crate and (it, it) not in rows and it not in names and not it.startswith("IWEV")]


def compare_places(ours, kernel, report):
    report.same_names("place", ours.places, PLACES)
    for kind in filter(PLACES.get, ours.places):
        known, rows = PLACES[kind], ours.places[kind]
        group = kernel.headers.group(known.prefix, known.beside)
        listed, code = kernel.sets.get(known.set, {}), kernel.of_code(known.files)
        for row in rows:
            where, attribute = f"{kind}.{row.name}", listed.get(row.number, {})
            named = sorted((name for name, n in group.items() if n == row.number),
                           key=lambda name: plain(name) != plain(row.name))
            if not named and row.number > max(group.values(), default=-1):
                report.is_newer("rows, headers", f"{where} = {row.number}")
            else:
                fact = ("name", row.name, named[0]) if named else ("number", row.number, "none")
                report.compare("rows, headers", where, fact)
            is_list = attribute.get("multi-attr", False)
            report.compare("lists, yaml", where, ("list", *(("no", "yes")[it] for it in (row.is_list, is_list))))
            compare_form(where, row, named, (known, attribute, code, ours), report)
        numbers = {row.number for row in rows}
        for name, n in group.items() if known.whole else ():
            if n not in numbers:
                report.compare("rows, headers", f"{kind}.{known.prefix}{name}", ("row", "none", n))
        for n, attribute in () if known.whole else listed.items():
            if attribute["type"] != "pad" and n not in numbers:
                report.compare("rows, yaml", kind, ("line", "none", attribute["name"]))


def compare_form(where, row, named, beside, report):
    """The form beside rt_link.yaml, and beside the code."""
    (known, attribute, code, ours), form = beside, row.form
    if attribute:
        constant = next((it for it in named if plain(it) == plain(attribute["name"])), None)
        facts = [("constant", constant, attribute["name"]) if constant else ("name", row.name, attribute["name"])]
        # a form as rt_link.yaml describes one
        here = f"nest {PLACES[form.place].set or form.place}" if form.word == "nest" else \
            f"struct {RECORDS[form.record].struct or form.record}" if form.word == "struct" else form.word
        facts += [("form", here, described(attribute, known.files))] if here != "kept" else []
        report.compare("rows, left out" if "left out" in attribute else "rows, yaml", where, *facts)
    puts = set().union(*(code.puts.get(known.prefix + it, set()) for it in named))
    taken = next((code.policies[known.prefix + it] for it in named if known.prefix + it in code.policies), None)
    if puts:
        here = put(form, ours)
        report.compare("rows, code", where, ("put", here, here if here in puts else "/".join(sorted(map(str, puts)))))
    elif taken is not None:
        is_struct = form.word == "struct" and str(taken).startswith("struct ")
        here = "nest" if taken == "nest" and form.word.startswith("list ") else \
            "struct " + RECORDS[form.record].header if is_struct else ours.size(form)
        report.compare("rows, code", where, ("taken", here, taken))
    if not (attribute or puts or taken is not None):
        report.left["forms"].append(where)


def described(attribute, has_hints):
    kind, hint = attribute["type"], attribute.get("display-hint")
    if kind == "indexed-array":
        return "list " + (hint or attribute["sub-type"])
    if has_hints and hint in BYTES:
        return hint
    if "struct" in attribute:
        return "struct " + attribute["struct"]
    return "nest " + attribute["nested-attributes"] if kind == "nest" else type_of(attribute)


def put(form, ours):
    """A form as the code puts one."""
    if form.word == "struct":
        known = RECORDS.get(form.record)
        return "struct " + known.header if known else ours.size(form)
    return 6 if form.word == "mac" else "nest" if form.word.startswith("list ") else form.word


def compare_kinds(ours, kernel, report):
    """The place of each kind beside rt_link.yaml, which has the attribute set of some, and the code that has it."""
    for call, message in (("of_kind", "linkinfo-data-msg"), ("of_slave_kind", "linkinfo-member-data-msg")):
        for kind, there in kernel.messages.get(message, {}).items():
            place = ours.kinds.get((call, kind))
            here = PLACES[place].set if place in PLACES else "none"
            report.compare("row kinds, yaml", f"{call}.{kind}", ("set", here, there))
    theirs = defaultdict(list)
    for place, known in PLACES.items():
        for kind in kernel.of_code(known.files).kinds:
            theirs[kind].append(place)
    for (call, kind), place in ours.kinds.items():
        if there := theirs[kind]:
            here = place if place not in there else there[0]
            report.compare("row kinds, code", f"{call}.{kind}", ("place", here, there[0]))
        else:
            report.left["kinds"].append(f"{call}.{kind}")


def compare_levels(ours, kernel, report):
    """The rows of the state encoding: each number is of the enum that its level has, a part of a record has the
    offsets of its fields, and of what counts by its name there is a row, or a reason why there is none."""
    report.same_names("level", ours.levels, LEVELS)
    for level in filter(LEVELS.get, ours.levels):
        place, rows = PLACES[LEVELS[level]], ours.levels[level]
        group = kernel.headers.group(place.prefix, place.beside)
        numbers = {n for n, _ in rows}
        for n, action in rows:
            name = next((place.prefix + it for it, m in group.items() if m == n), str(n))
            facts = [("row", n, n if name != str(n) else "none")]
            if part := re.fullmatch(r"ClearPart (\d+ \d+)", action):
                fields = {field.name: field.offset for field in kernel.headers.structs["ifla_cacheinfo"][0]}
                facts.append(("part", part[1], f"{fields['tstamp']} {fields['retrans_time']}"))
            report.compare("states, headers", f"{level}.{name}", *facts)
        for name in (place.prefix + it for it, n in group.items() if n not in numbers):
            if COUNTS.search(name):
                report.compare("states, headers", f"{level}.{name}", ("row", "none", name))


def compare(ours, files):
    kernel, report = Kernel(files), Report()
    if not kernel.yaml:
        print(f"kernel_tables: skipped: no rt_link.yaml in {files}")
    kernel_shown.compare_shown(ours, kernel.yaml and kernel.headers, report)
    compare_names(ours, report)
    for step in (compare_constants, compare_places, compare_kinds, compare_records, compare_values, compare_levels):
        if kernel.yaml:
            step(ours, kernel, report)
    for category in sorted({category for category, outcome in report.counts}):
        equal, newer, reasoned, faults = (report.counts[category, it] for it in ("equal", "newer", "reason", "fault"))
        print(f"{category:22} {equal + newer + reasoned + faults:3}: {equal:3} equal, {newer:2} newer, "
              f"{reasoned:3} otherwise with a reason, {faults} without")
    print("newer than the kernel's files:", ", ".join(dict.fromkeys(report.newer)) or "none")
    for why in dict.fromkeys(key[0] for key in report.reasoned):
        print("otherwise, since:", why)
        for (other, what, here, _), (there, places) in report.reasoned.items():
            # many fields of one record are one word
            records = Counter(place.split(".")[0] for place in set(places))
            named = [place if records[it] <= 6 else f"{it}.* ({records[it]})"
                     for place in places for it in [place.split(".")[0]]]
            if other == why:
                print(f"    {what} {here}, there {there}: {', '.join(dict.fromkeys(named))}")
    for what, where in report.left.items():
        print(f"{what} that are compared with none of the files: {', '.join(where)}")
    for fault in report.faults:
        print(f"kernel_tables: {fault}", file=sys.stderr)
    print("kernel_tables:", f"{len(report.faults)} differences without a reason" if report.faults else "ok")
    return int(bool(report.faults))


parser = argparse.ArgumentParser(description=__doc__, formatter_class=argparse.RawDescriptionHelpFormatter)
parser.add_argument("kernel", nargs="?", default=os.environ.get("KERNEL") or PACKAGE, help="the kernel's files")
parser.add_argument("--tree", default=TOP, help="another tree of this repository")
parser.add_argument("--json", action="store_true", help="print the tables as JSON, and compare nothing")
parser.add_argument("--unpack", metavar="FOLDER", help="only unpack the files that are read, for more than one run")
given = parser.parse_args()
if given.unpack:
    unpack(given.kernel, given.unpack)
elif given.json:
    # the rows of places, the fields of records, values and flags, and what the state encoding clears
    ours = Repository(given.tree)
    rows = [{"place": place, "number": it.number, "name": it.name, "form": it.form._asdict(), "list": it.is_list}
            for place, listed in ours.places.items() for it in listed]
    records = [{"record": kind, "size": size, "fields": [field._asdict() for field in fields]}
               for kind, (fields, size) in ours.records.items()]
    values = [{"type": kind, "flags": kind in ours.flags, "values": numbers} for kind, numbers in ours.values.items()]
    numbers = {name: n for (_, name), n in ours.constants.items()}
    print(json.dumps({"rows": rows, "records": records, "values": values, "constants": numbers,
                      "states": ours.levels}, indent=1))
else:
    sys.exit(compare(Repository(given.tree), given.kernel))
