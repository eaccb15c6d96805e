#!/usr/bin/env python3
"""Compares what linkshow says of kernels' links with what the same machines said of themselves, by kernel_fields.txt.

    KERNELS=FOLDER python3 scripts/test/kernel_truth.py [PROGRAM]
    python3 scripts/test/kernel_truth.py --live [PROGRAM [LINKDUMP]]

With --live the kernel at hand is asked, in a network namespace, and what has no row is let be. Each list of ip has as
many members as ours. Fields that are not covered are counted and named, each below its reason."""
import glob
import ipaddress
import json
import os
import re
import shlex
import shutil
import subprocess
import sys
from collections import Counter, defaultdict, namedtuple
from pathlib import Path

from shared import TOP, answers, digits_of, kernels, read, table

# ip's objects by kind, how it names the kind, and our objects
PARTS = {"data": ("linkinfo.info_data.", "info_kind", "linkinfo.data."),
         "slave-data": ("linkinfo.info_slave_data.", "info_slave_kind", "linkinfo.slave-data."),
         "xstats": ("linkinfo.info_xstats.", "info_kind", "linkinfo.xstats.")}
MISSING = type("Missing", (), {"__repr__": lambda _: "none"})()
Row = namedtuple("Row", "ours how args")
# our messages of two dumps by the numbers of their links, each as its nodes, and the names of these
Links = namedtuple("Links", "first last names")
# what is around a value: our first message, the names of links, the nodes of ip's object, and the value's path there
World = namedtuple("World", "first names said path", defaults=({}, ""))


def read_table(path):
    """Rows by where they are, as ("ip", None) or ("data", "vlan"), and by field."""
    rows = defaultdict(dict)
    for section, (field, ours, *rest) in table(path):
        where, *kinds = section.split()
        words = [" ".join(rest)] if ours == "-" else " ".join(rest).split() or ["same"]
        if ours != "-" and words[0] not in (*HOW, *SETS, *ABSENT, "timer"):
            sys.exit(f"{path}: {field}: no translation {words[0]}")
        for place in [(where, kind) for kind in kinds or [None]]:
            if field in rows[place]:
                sys.exit(f"{path}: a second row of {field}")
            rows[place][field] = Row(ours, words[0], words[1:])
    return rows


# ** translations: of both sides to what has to be equal; numbers may move

def mapping(args):
    return dict(word.split("=", 1) for word in args)


def words(theirs, ours, _, args):
    """A name of theirs that we have otherwise, as another name or as a number; one without a name is [NUMBER]."""
    text = "null" if theirs is None else str(theirs).strip("[]")
    text = mapping(args).get(text, text)
    return (int(text, 0) if isinstance(ours, int) and re.fullmatch(r"-?\d+", text) else text), ours


def address(theirs, ours, world, _):
    """A hardware address by the link's type, as ip writes it; seven bytes of AX.25 are a call sign."""
    octets, kind = bytes.fromhex(ours.replace(":", "")), world.first.get("ifi-type")
    if kind in (3, 0) and len(octets) == 7:
        sign = "".join(chr(it >> 1) for it in octets[:6]).strip()
        return theirs, f"{sign}-{octets[6] >> 1 & 15}" if any(octets) else "*"
    if kind == 270:
        return theirs, octets.hex()
    if len(octets) in (4, 16) and kind in (768, 769, 776, 778, 823):
        return theirs, str(ipaddress.ip_address(octets))
    return theirs, ours


def octets(theirs, ours, *_):
    """Bytes with colons or without; of an address that is kept whole, with zeros after it, the beginning."""
    theirs, ours = theirs.strip(), ours if ours is not MISSING else ""
    if ":" not in ours and theirs:
        size = len(theirs.replace(":", ""))
        return theirs.replace(":", ""), ours[:size] if not ours[size:].strip("0") else ours
    return theirs, ours


def bridge_id(theirs, ours, *_):
    both = theirs.replace(".", ":"), f"{ours['prio']:x}:{ours['addr']}"
    return tuple([int(it, 16) for it in text.split(":")] for text in both)


def nanoseconds(theirs, ours, *_):
    """ip takes the hundredths of seconds of these timers for nanoseconds, and writes three digits."""
    number, unit = re.fullmatch(r"([\d.e+-]+)(ns|us|ms|s)?", str(theirs)).groups()
    value = float(number) * {None: 1, "ns": 1, "us": 1e3, "ms": 1e6, "s": 1e9}[unit]
    return value, float(f"{ours:.3g}")


def is_set(name, ours):
    return isinstance(ours, list) and name in ours


def flag_bits(theirs, ours, _, args):
    """The bits of a number that have a name in the row, where '-' stands for one that is not compared."""
    bits = {name: 1 << n for n, name in enumerate(args) if name != "-"}
    return int(theirs, 0) & sum(bits.values()), sum(bits.get(name, 0) for name in ours)


# the numbers of programs at a link, by the modes that ip has
PROGRAMS = {1: "drv-prog-id", 2: "skb-prog-id", 3: "hw-prog-id"}
HOW = {
    "words": words, "address": address, "octets": octets, "bridge-id": bridge_id, "flag-bits": flag_bits,
    "nanoseconds": nanoseconds,
    "same": lambda theirs, ours, *_: (
        int(theirs, 0) if isinstance(ours, int) and isinstance(theirs, str) and theirs else theirs, ours),
    # a number of ours that they name; two numbers can have one name
    "named": lambda theirs, ours, _, args: (
        theirs, {int(number, 0): name for number, name in mapping(args).items()}.get(ours, ours)),
    # the name of a link, where we have its number; 0 is none
    "device": lambda theirs, ours, world, _: (theirs, world.names.get(ours) if ours not in (0, MISSING) else None),
    "dashes": lambda theirs, ours, *_: (theirs.lower().replace(" ", "-").replace("_", "-"), ours),
    "yes": lambda theirs, ours, *_: (bool(theirs), ours is not MISSING and bool(ours)),
    "there": lambda theirs, ours, *_: (theirs in (True, None), ours is not MISSING),
    "bit": lambda theirs, ours, _, args: (bool(theirs), is_set(args[0], ours)),
    "no-bit": lambda theirs, ours, _, args: (bool(theirs), not any(is_set(it, ours) for it in args)),
    "bit-number": lambda theirs, ours, _, args: (int(theirs), int(is_set(args[0], ours))),
    "mask": lambda theirs, ours, _, args: (bool(theirs), bool(ours is not MISSING and ours & int(args[0]))),
    "hexadecimal": lambda theirs, ours, *_: (int(str(theirs).replace(":", ""), 16), ours),
    "dotted": lambda theirs, ours, *_: (int(ipaddress.IPv4Address(theirs)), ours),
    "traffic-class": lambda theirs, ours, *_: (int(theirs, 16), ours >> 20 & 0xff),
    "flow-label": lambda theirs, ours, *_: (int(theirs, 16), ours & 0xfffff),
    "thousandths": lambda theirs, ours, *_: (round(float(theirs) * 1000), ours),
    "milliseconds": lambda theirs, ours, *_: (int(theirs) * 1000, ours),
    "signed": lambda theirs, ours, *_: ((int(theirs) + (1 << 31)) % (1 << 32) - (1 << 31), ours),
    "first-line": lambda theirs, ours, *_: (theirs, ours.split("\n")[0]),
    "text": lambda theirs, ours, *_: (theirs, bytes.fromhex(ours).rstrip(b"\0").decode()
                                      if re.fullmatch("([0-9a-f]{2})+", ours) else ours),
    "cut": lambda theirs, ours, *_: (theirs, ours[:62] if len(theirs) == 62 else ours),
    "count": lambda theirs, ours, *_: (int(theirs), 0 if ours is MISSING else len(ours.split(":"))),
    "link": lambda theirs, ours, world, _: (int(theirs), world.first["ifi-index"] if ours is MISSING else ours),
    "zero": lambda theirs, ours, *_: (0, 0 if ours is MISSING else ours),
    "empty": lambda theirs, ours, *_: ([], [] if ours is MISSING else ours),
    "absent": lambda theirs, ours, *_: (MISSING, ours),
    "program-mode": lambda theirs, ours, *_: (True, PROGRAMS[theirs] in ours),
    "program-id": lambda theirs, ours, world, _: (
        theirs, ours.get(PROGRAMS[world.said[world.path.removesuffix("prog.id") + "mode"]])),
}
# those that can do without our member, and those that ip names only where they are set
ABSENT = "yes there bit no-bit bit-number mask device count link zero empty absent octets flags".split()
NAMED_IF_SET = "bit mask there".split()

# ** lists that are sets: what ip has to have of ours

def flags(ours, args):
    """Names as ip has them, in small letters and with dashes, or as the row says."""
    theirs = {mine: name for name, mine in mapping(args).items()}
    return {theirs.get(it, str(it)) for it in (ours if isinstance(ours, list) else [])}


SETS = {
    "flags": flags,
    # ip names what runs only where it does not
    "link-flags": lambda ours, args: flags(ours, args) - {"running"} | {
        it for it in ["no-carrier"] if "up" in ours and "running" not in ours},
    "bits": lambda ours, names: {it for n, it in enumerate(names or map(str, range(32))) if ours >> n & 1},
}


def nodes(it, path=""):
    """Each object, list and value by its path, as a.b[0].c; that of all is empty."""
    yield path, it
    if isinstance(it, dict):
        for name, value in it.items():
            yield from nodes(value, f"{path}.{name}" if path else name)
    elif isinstance(it, list):
        for n, value in enumerate(it):
            yield from nodes(value, f"{path}[{n}]")


def numbered(path, places=()):
    """The path of our member, where each list takes the next of the places."""
    left = iter(places)
    return re.sub(r"\[\]", lambda _: f"[{next(left, 0)}]", path)


class Report:
    """How often what is right, wrong, or not covered, by kernel, source and kind of field; of what is not covered why,
    and what is wrong."""

    def __init__(self, strict):
        self.strict, self.release, self.found = strict, "live", defaultdict(Counter)
        self.left, self.wrong = defaultdict(Counter), defaultdict(list)

    def says(self, is_right, source, kind, who, theirs, *ours):
        self.found[self.release, source, "right" if is_right else "wrong"][kind] += 1
        if not is_right:
            self.wrong[f"{source} {kind}"].append((who, theirs) + ours)

    def not_covered(self, source, kind, why):
        self.found[self.release, source, "left"][kind] += 1
        self.left[source, why][kind] += 1

    def row(self, rows, place, field, source, kind, who, theirs):
        """The row of a field; nothing where there is none, or it says why messages have no such member."""
        row = rows[place].get(field)
        if row is None and self.strict:
            self.says(False, source, kind, who, "no row", theirs)
        elif row is None or row.ours == "-":
            self.not_covered(source, kind, row.how if row else "a field without a row")
        return row if row and row.ours != "-" else None

    def show(self, name, releases):
        for source in ("ip", "sysfs", "proc"):
            right, wrong, left = (sum((self.found[release, source, outcome] for release in releases), Counter())
                                  for outcome in ("right", "wrong", "left"))
            count = (right + wrong + left).total()
            if count:
                print(f"{name}: {source}: {right.total()} values of {count} right "
                      f"({100 * right.total() / count:.2f} %), {wrong.total()} wrong; "
                      f"{len(right)} kinds of fields of {len(right + wrong + left)}")

    def finish(self):
        """Prints what is not covered, by its reason, and what is wrong, of all."""
        for (source, why), kinds in sorted(self.left.items()):
            print(f"not covered: {source}: {why}:\n    {kinds.total()} values of {len(kinds)} kinds:", *sorted(kinds))
        for where, found in sorted(self.wrong.items()):
            print(f"kernel_truth: wrong: {where}, {len(found)} times:", *map(repr, found[:3]), file=sys.stderr)
        return 1 if self.wrong else print("kernel_truth: ok")


def between(it, first, last):
    """Equal to one, or a number that lies between."""
    are_numbers = all(type(x) in (int, float) for x in (it, first, last))
    return it in (first, last) or are_numbers and min(first, last) <= it <= max(first, last)


def agrees(row, theirs, ours, world):
    """Whether theirs, asked once or twice, lies between the two of ours, or the first of ours between theirs; a timer
    runs down, and may have begun anew meanwhile. What is not of the form that is translated is not."""
    try:
        if row.how == "timer":
            now, (first, last) = round(theirs[0] * 100), ours
            return last <= now <= first or first < last and (now >= last or now <= first)
        found = [HOW[row.how](it, ours[0], world, row.args) for it in theirs]
        later = HOW[row.how](theirs[0], ours[1], world, row.args)[1] if ours[1] is not MISSING else found[0][1]
        return between(found[0][1], found[0][0], found[-1][0]) or between(found[0][0], found[0][1], later)
    except (AttributeError, KeyError, TypeError, ValueError):
        return False


def label(place, field):
    return field if place[1] is None else f"{place[0]}<{place[1]}>.{field}"


def compare_link(rows, link, links, who, report):
    first, last = (it.get(link["ifindex"]) for it in (links.first, links.last))
    if first is None or last is None:
        return report.says(False, "ip", "ifindex", who, link["ifindex"], "not in both dumps")
    # the parts of the table that the link has: each with how its paths begin in ip's object, and in ours
    seen, said, info = set(), dict(nodes(link)), link.get("linkinfo", {})
    parts = [((part, info.get(kind)), theirs, ours) for part, (theirs, kind, ours) in PARTS.items()]
    parts.append((("ip", None), "", ""))
    for path, theirs in said.items():
        if isinstance(theirs, (dict, list)) and theirs:
            continue
        place, begin, prefix = next(it for it in parts if path.startswith(it[1]))
        field = re.sub(r"\[\d+\]", "[]", path[len(begin):]) + ("{}" if theirs == {} else "[]" if theirs == [] else "")
        seen.add((place, field))
        kind = label(place, field)
        row = report.row(rows, place, field, "ip", kind, who, theirs)
        if row:
            row = row._replace(ours=numbered(prefix + row.ours, re.findall(r"\[(\d+)\]", path)))
            if "fault" in first and row.ours not in first:
                report.not_covered("ip", kind, f"the message is refused: {first['fault']} at {first.get('at')}")
            else:
                compare_value(row, kind, theirs, (first, last), World(first, links.names, said, path), who, report)
    # what ip names only where it is set, and has not named, is not set
    for place, _, prefix in parts if "fault" not in first and report.strict else ():
        is_there = not prefix or isinstance(first.get(prefix[:-1]), dict)
        for field, row in rows.get(place, {}).items() if is_there else ():
            ours = first.get(numbered(prefix + row.ours), MISSING)
            if row.ours != "-" and row.how in NAMED_IF_SET and (place, field) not in seen \
                    and HOW[row.how](True, ours, None, row.args)[1]:
                report.says(False, "ip", label(place, field), who, "not named", ours)


def compare_value(row, kind, theirs, messages, world, who, report):
    """One value; where it is the first of a list, how long the list is too."""
    found = [it.get(row.ours, MISSING) for it in messages]
    (list_there, _, place), (list_here, _, _) = world.path.rpartition("["), row.ours.rpartition("[")
    sizes = [len(it) if isinstance(it, list) else 0 for it in (world.said.get(list_there), messages[0].get(list_here))]
    if row.how in SETS:
        there = world.said[re.sub(r"\[\d+\]$", "", world.path)]
        there = there if isinstance(there, list) else [there]
        sets = [SETS[row.how](it, row.args) for it in found if it is not MISSING]
        # whether a master is down ip looks up
        names = {it.lower().replace("_", "-") if "flags" in row.how else it for it in there} - {"m-down"}
        report.says(names in sets, "ip", kind, who, there, *sets)
    elif found[0] is MISSING and row.how not in ABSENT:
        report.says(False, "ip", kind, who, theirs, MISSING)
    elif place.startswith("0]") and list_here and sizes[0] != sizes[1]:
        report.says(False, "ip", kind, who, f"{sizes[0]} members", sizes[1])
    else:
        report.says(agrees(row, [theirs], found, world), "ip", kind, who, theirs, *found)


def text_of(path):
    """What a file has; of a link the name of what it leads to, and None where it cannot be read."""
    path = Path(path)
    try:
        return path.readlink().name if path.is_symlink() else path.read_text("utf-8", "surrogateescape")
    except OSError:
        return None


def of_file(source, path):
    """What a file of FOLDER says, by link and field; names are bytes, and are kept where they are no UTF-8."""
    found = {}
    for line in filter(None, (text_of(path) or "").split("\n")):
        kind, name, *rest = ["sysfs"] * (source == "sysfs") + line.split("\t")
        rest = "\t".join(rest[1:]).split() if kind == "snmp6" else rest
        if len(rest) == 2:
            found[name, rest[0] if kind == "sysfs" else f"{kind} {rest[0]}"] = rest[1]
    return found


def of_machine(rows):
    """What sysfs and /proc say here of the links, by the fields of the table."""
    found = {"sysfs": {}, "proc": {}}
    for name in os.listdir("/sys/class/net"):
        counts = dict(map(str.split, (text_of(f"/proc/net/dev_snmp6/{name}") or "").splitlines()))
        for source, field in [(source, field) for source in found for field in rows[source, None]]:
            kind, _, rest = field.partition(" ")
            path = f"/proc/sys/net/{kind}/conf/{name}/{rest}" if rest else f"/sys/class/net/{name}/{field}"
            text = counts.get(rest) if kind == "snmp6" else text_of(path)
            if text is not None:
                found[source][name, field] = text.rstrip("\n")
    return found


def compare_files(rows, source, files, links, who, report):
    """What sysfs or /proc said before the first dump and after the second; ours lies between."""
    before, after = files
    named = {it.get("ifname"): n for n, it in links.first.items() if "fault" not in it}
    for (name, field), theirs in before.items():
        whose = f"{who} {name}"
        if name not in named or theirs == "" and source == "sysfs":
            continue
        row = report.row(rows, (source, None), field, source, field, whose, theirs)
        if not row:
            continue
        first, last = (it.get(named[name], {}) for it in (links.first, links.last))
        parent, ours = first.get(row.ours.rpartition(".")[0], MISSING), first.get(row.ours, MISSING)
        if parent is MISSING or ours is MISSING and row.how not in ABSENT:
            if parent is not MISSING and theirs not in ("0", ""):
                report.not_covered(source, field, "the kernel leaves it out of the message")
        elif isinstance(parent, list):
            report.not_covered(source, field, "the names of these counters are not known of this kernel")
        else:
            both = theirs, after.get((name, field), theirs)
            world, ours = World(first, links.names), (ours, last.get(row.ours, MISSING))
            report.says(agrees(row, both, ours, world), source, field, whose, both, ours)


def compare(rows, program, dumps, release, said, files, who, report):
    """One moment of one kernel: the lines of two dumps, what ip said, and sysfs and /proc before and after. Of a
    message that is refused what stands in front of the fault counts too."""
    shown = [map(json.loads, answers(program, lines, "--kernel", release)) for lines in dumps]
    first, last = ({it["ifi-index"]: dict(nodes({**it.get("before", {}), **it})) for it in dump if "ifi-index" in it}
                   for dump in shown)
    links = Links(first, last, {n: it.get("ifname") for n, it in first.items()})
    for link in said:
        compare_link(rows, link, links, f"{who} {link['ifname']}", report)
    for source, both in files.items():
        compare_files(rows, source, both, links, who, report)
    return links


def ran(*words):
    return subprocess.run(words, stdin=subprocess.DEVNULL, capture_output=True, check=False)


def live(program, linkdump, rows):
    """The kernel at hand, in a namespace of its own, in which this runs once more."""
    if "--inside" not in sys.argv:
        mounts = ["unshare", "-rmn", "sh", "-c", "mount -t sysfs sysfs /sys && exec \"$@\"", "sh"]
        if not shutil.which("ip") or not shutil.which("unshare") or ran(*mounts, "true").returncode:
            return print("kernel_truth: skipped: live: no network namespace with a sysfs, or no ip")
        again = [sys.executable, os.path.abspath(__file__), "--live", "--inside", program, linkdump]
        return subprocess.run([*mounts, *again], check=False).returncode
    commands = [it for it in read("tests/live/links.txt").splitlines() if it[0] != "#"]
    refused = [it for it in commands if ran("ip", *shlex.split(it)).returncode]
    kinds = sorted(set(re.findall(r"^.*? (?:type|mode) (\w+)", "\n".join(refused), re.M)))
    print("kernel_truth: skipped: live: this kernel or its ip makes none of:", *kinds or ["none"])
    before, report = of_machine(rows), Report(False)
    first, said, last = (ran(*words).stdout.decode() for words in (
        (linkdump, "--plain"), ("ip", "-s", "-s", "-j", "-d", "link", "show"), (linkdump, "--plain")))
    after, dumps, said = of_machine(rows), (first.split(), last.split()), json.loads(said, strict=False)
    files = {source: (it, after[source]) for source, it in before.items()}
    links = compare(rows, program, dumps, os.uname().release, said, files, "here", report)
    if not said or len(said) != len(links.first):
        report.says(False, "ip", "links", "a namespace", len(said), len(links.first))
    found = sorted({it["linkinfo.kind"] for it in links.first.values() if "linkinfo.kind" in it})
    print(f"kernel_truth: live: {len(said)} links, of the kinds:", *found)
    report.show("live", ["live"])
    return report.finish()


arguments = [it for it in sys.argv[1:] if not it.startswith("--")]
show, dump = arguments + [f"{TOP}/out/{it}" for it in ("linkshow", "linkdump")[len(arguments):]]
fields = read_table("scripts/test/kernel_fields.txt")
if "--live" in sys.argv:
    sys.exit(live(show, dump, fields))
told, releases = Report(True), []
for told.release, out in kernels("kernel_truth"):
    releases.append(told.release)
    for file in sorted(glob.glob(f"{out}/truth-*.json")):
        moment = os.path.basename(file)[len("truth-"):-len(".json")]
        before_after = {source: [of_file(source, f"{out}/{source}-{moment}{end}") for end in ("-a.txt", "-b.txt")]
                        for source in ("sysfs", "proc")}
        both = [digits_of(text_of(f"{out}/truth-{moment}{end}")) for end in (".hex", ".hex2")]
        compare(fields, show, both, told.release, json.loads(text_of(file), strict=False), before_after,
                f"{told.release} {moment}", told)
    told.show(told.release, releases[-1:])
if len(releases) > 1:
    told.show("all kernels", releases)
sys.exit(told.finish() if releases else 0)
