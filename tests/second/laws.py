#!/usr/bin/env python3
"""Holds linkdiff to the five laws of docs/LINKDIFF.md over streams that a seed makes, and to told.py, a model of the
rules of that page.

    laws.py [--streams N] [--seed N] [--slips] FOLDER
    laws.py --store

FOLDER has linkdiff and linkshow. A hundred streams, each of a host of its own, are given to a call: strictly and
leniently, with and without --counters. Each call is run as it is, with --changes-only, host after host, and of one host
alone; some of the lines as two files; and two dumps of each host as two files and as one stream. --slips has three
wrong programs told. --store prints tests/second/streams.txt anew, some short streams. The last line is 'laws: ok'."""
import argparse
import collections
import json
import os
import random
import re
import subprocess
import sys
import tempfile

import streams
import told

OPTIONS = [], ["--lenient"], ["--counters"], ["--counters", "--lenient"]
EACH, TURN = 100, 20                            # streams a call, and calls with the same messages and options
DUMPS, FILES = 40, 10                           # hosts a call in two dumps, and in two files
TIME = re.compile(rb'"time":"([0-9]+)"')
# the path of a VLAN or of a range of VLANs, up to its number, and what stands behind it
VLANS = re.compile(r"((?:.*\.)?af-spec\.vlan-(?:tunnel-)?info\[vid)=([0-9]+)(?:-([0-9]+))?\](?:\.(id|flags))?")
# the path of a list of VLANs, and the numbers of flags
VLAN_LIST = re.compile(r"(?:.*\.)?af-spec\.vlan-(?:tunnel-)?info")
FLAGS = {"range-begin": told.BEGIN, "range-end": told.END, **{name: bit for bit, name in told.VLAN_FLAGS.items()}}
# paths that releases name differently
ORDERED = re.compile(r"(?:.*\.)?(?:inet6|protinfo)\.(?:.*\.)?stats(?:\.|$)")


class Broken(Exception):
    """What does not hold: the law, and what was found."""


def breaks(law, *what):
    raise Broken("\n  ".join([f"{law}:", *[it.decode(errors="replace") if isinstance(it, bytes) else str(it)
                                           for it in what]]))


def compare(law, found, wanted):
    if found != wanted:
        for one, other in zip([*found, b"nothing"], [*wanted, b"nothing"]):
            if one != other:
                breaks(law, one, "and not", other)


def by_time(lines):
    """What is told, by the word time= of the line that brings it."""
    out = collections.defaultdict(list)
    for it in lines:
        out[int(TIME.search(it)[1])].append(it)
    return out


def joined(lines):
    return b"".join(it + b"\n" for it in lines)


# ** the laws of one host

class Link:
    """An interface that is there: its last message, what `kernel=` says of it, its leaves, which are those of its first
    message with the changes that are told since, and the paths that are left aside."""
    __slots__ = "last", "kernel", "leaves", "aside", "is_mixed"

    def __init__(self, line, is_all):
        self.last, self.kernel, self.is_mixed, self.aside = line.message, line.kernel, False, set()
        self.leaves = dict(leaves(line, is_all))

    def sees(self, line, is_all):
        """What a line is shown by is taken into account."""
        shown = line.message.shown[line.kernel]
        self.is_mixed |= self.kernel != line.kernel
        self.aside |= set() if is_all else shown.counters

    def is_aside(self, path):
        return path in self.aside or self.is_mixed and ORDERED.match(path)


def vlan_leaves(path, vlans):
    return {f"{path}={vid}].{name}": it for vid, said in vlans.items() for name, it in told.members(vid, said).items()}


def text_leaves(path, texts):
    """The leaves of a list of texts: each one, with how many of it stand in front."""
    before, out = collections.Counter(), {}
    for it in texts:
        text = told.text_of(it)
        out[f"{path}[]{text}#{before[text]}"] = it
        before[text] += 1
    return out


def leaves(line, is_all):
    """The leaves of a message: of a list of VLANs the flags of each, and the ids of tunnels; of a list each text."""
    shown, out = line.message.shown[line.kernel], {}
    for path, value in (shown.leaves if is_all else shown.settings).items():
        if isinstance(value, told.Vlans):
            out.update(vlan_leaves(path, value))
        elif isinstance(value, told.Texts):
            out.update(text_leaves(path, value))
        else:
            out[path] = value
    return out


def is_list_of_objects(value):
    return isinstance(value, list) and any(isinstance(it, dict) for it in value)


def inside(path, value):
    """The leaves that a change stands for: those inside a value or a list that is told as a whole, or the one that it
    tells. Of VLANs these are those of each: the ids of a range go along with its VLANs."""
    out = []
    if told.TEXTS.fullmatch(path) and isinstance(value, list):
        return text_leaves(path, value)
    if VLAN_LIST.fullmatch(path) and is_list_of_objects(value):
        vlans = [(it["vid"], sum(FLAGS.get(one, one) for one in it["flags"]), it.get("id")) for it in value]
        return vlan_leaves(f"{path}[vid", told.vlans_in(vlans))
    if (it := VLANS.fullmatch(path)) is None:
        told.under(path, value, out, {})
        return dict(out)
    first, last = int(it[2]), int(it[3] or it[2])
    members = {it[4]: value} if it[4] else {name: value[name] for name in ("id", "flags") if name in value}
    if not it[4]:
        ends = {"vid-end": last, **({"id-end": value["id"] + last - first} if "id" in value else {})}
        if value != {**members, "vid": first, **(ends if last > first else {})}:
            breaks("leading there", f"{path} has the value {value}")
    return {f"{it[1]}={vid}].{name}": one + vid - first if name == "id" else one
            for vid in range(first, last + 1) for name, one in members.items()}


def counts_as_message(line):
    """Whether it says what an interface is."""
    it = line.message
    return (it is not None and it.text is not None and line.kind not in (b"get", b"set", b"del")
            and not it.is_wireless)


class Laws:
    """Holds what is told of the lines of one host to alternating, leading there and nothing from nothing."""

    def __init__(self, options, counts):
        self.is_all, self.counts, self.up, self.refused = "--counters" in options, counts, {}, set()

    def take(self, line, written):
        found = [json.loads(it) for it in written]
        self.nothing(line, found)
        for it in found:
            if "change" in it and it["change"] != "lost":
                self.alternates(line, it)
        it = line.message
        if it is not None and it.key is not None and it.text is None and line.kind not in (b"get", b"set"):
            self.refused.add(it.key)
        if counts_as_message(line):
            self.leads(line, self.up[it.key])
            self.refused.discard(it.key)

    def alternates(self, line, it):
        key, change = (it["ifi-family"], it["ifi-index"] % 2 ** 32), it["change"]
        self.counts[change] += 1
        if change == "gone":
            is_own = line.kind == b"del" and line.message.text is not None and line.message.key == key
            if key not in self.up and not (is_own and (key[0] == 0 or key in self.refused)):
                breaks("alternating", "gone, and not there", it)
            self.counts["gone, and not there"] += key not in self.up
            self.up.pop(key, None)
            self.refused.discard(key)
        elif (key in self.up) != (change == "changed"):
            breaks("alternating", f"{change}, and {'there' if key in self.up else 'not there'}", it)
        elif change == "new":
            self.up[key] = Link(line, self.is_all)
        else:
            self.apply(it, self.up[key], line)

    def apply(self, it, link, line):
        """The changes as they are told, of which each old value was there."""
        rows = it["changes"]
        link.sees(line, self.is_all)
        if [row["path"] for row in rows] == ["state"]:
            self.counts["changed in nothing shown"] += 1
            return
        for row in rows:
            if row["path"].endswith("[]"):
                self.text(row, link)
                continue
            old, new = (inside(row["path"], row[side]) if side in row else {} for side in ("old", "new"))
            if len(row) == 3 and (told.TEXTS.fullmatch(row["path"]) and isinstance(row["old"], list)
                                  and isinstance(row["new"], list) or is_list_of_objects(row["old"])):
                self.counts["lists in another order"] += 1
                if old != new or row["old"] == row["new"]:
                    breaks("leading there", "a list that is told whole has other values", it)
            is_whole = row["path"][-1] == "]" and len(row) == 2
            self.counts["told of a range"] += bool((found := VLANS.fullmatch(row["path"])) and found[3])
            within = [it for it in link.leaves if is_whole and it.startswith(row["path"] + ".")]
            for path in {*old, *new, *within}:
                was = link.leaves.pop(path, None)
                if was != old.get(path) and not link.is_aside(path):
                    breaks("leading there", f"{path}: old is not {was}", it)
            link.leaves.update(new)
            self.counts["told as a whole"] += is_whole

    def text(self, row, link):
        """A text comes to a list, or goes: of equal ones the last."""
        self.counts["texts told"] += 1
        front = f"{row['path']}{told.text_of(row.get('old', row.get('new')))}#"
        count = sum(it.startswith(front) for it in link.leaves)
        if "new" in row:
            link.leaves[f"{front}{count}"] = row["new"]
        elif link.leaves.pop(f"{front}{count - 1}", None) is None:
            breaks("leading there", f"{front} is not there", row)

    def leads(self, line, link):
        """The leaves that are reached are those of this message."""
        wanted = leaves(line, self.is_all)
        link.sees(line, self.is_all)
        link.last, link.kernel = line.message, line.kernel
        self.counts["leaves held"] += 1
        if wanted == link.leaves:
            return
        for path in {*wanted, *link.leaves}:
            if wanted.get(path) != link.leaves.get(path) and not link.is_aside(path):
                breaks("leading there", f"{path} is {link.leaves.get(path)}, and not {wanted.get(path)}")

    def nothing(self, line, found):
        it, changes = line.message, [one.get("change") for one in found]
        if counts_as_message(line):
            self.news(self.up.get(it.key), it, changes, found)
        elif it is not None and it.text is None:
            if changes[:1] != [None] or line.kind != b"del" and len(changes) != 1:
                breaks("nothing from nothing", "a refused line has its fault", found)
        elif it is None and line.kind == b"lost":
            if changes != ["lost"]:
                breaks("nothing from nothing", "lost", found)
        elif {*changes} - {"gone"} or changes and line.kind not in (b"del", b"done"):
            breaks("nothing from nothing", "a line that is no news", found)
        if it is not None and line.kind == b"del" and it.key in self.up and "gone" not in changes:
            breaks("alternating", "a type=del ends what is there", found)

    def news(self, link, it, changes, found):
        if link is None:
            if changes != ["new"]:
                breaks("nothing from nothing", "what is not there is new", found)
        elif link.last.text == it.text:
            self.counts["nothing told"] += 1
            if changes:
                breaks("nothing from nothing", "the encodings do not differ", found)
        elif changes != ["changed"] and (changes[-1:] != ["new"] or {*changes[:-1]} != {"gone"}):
            breaks("nothing from nothing", "the encodings differ", found)


# ** the laws of runs

def hold_streams(linkdiff, options, known, lines, counts):
    """The laws over lines of many hosts, in one run and in others."""
    parsed = [told.Line(it, known) for it in lines]
    found = told.said(linkdiff, options, joined(lines))
    at, model, laws, wanted = by_time(found), told.Model(options), {}, []
    for time, line in enumerate(parsed):
        own = laws.setdefault(line.host, Laws(options, counts))
        try:
            own.take(line, at.get(time, []))
        except Broken as e:
            raise Broken("\n  ".join([str(e), "of the last of", *[it.decode(errors="replace") for it, other in zip(
                lines[:time + 1], parsed) if other.host == line.host]])) from None
        wanted += model.take(line)
    hold_apart(linkdiff, options, lines, parsed, at)
    compare("the model", found, [it.encode() for it in wanted])
    left = set(model.first)
    compare("nothing from nothing: --changes-only", told.said(linkdiff, [*options, "--changes-only"], joined(lines)),
            [it.encode() for it in wanted if it not in left])
    counts["lines"] += len(lines)
    counts["left out by --changes-only"] += len(left)


def hold_apart(linkdiff, options, lines, parsed, at):
    """What is told of a host stays where hosts come one after another, and where it is alone."""
    order = sorted(range(len(lines)), key=lambda it: parsed[it].host)
    host = parsed[order[len(order) // 2]].host
    for some in order, [time for time in order if parsed[time].host == host]:
        compare("apart", told.said(linkdiff, options, joined(lines[it] for it in some)),
                [it for time in some for it in at.get(time, [])])


# ** two files

def of_files(linkdiff, options, old, new):
    with tempfile.TemporaryDirectory() as folder:
        names = [f"{folder}/old", f"{folder}/new"]
        for name, lines in zip(names, (old, new)):
            with open(name, "wb") as it:
                it.write(joined(lines))
        ran = subprocess.run([linkdiff, *options, *names], capture_output=True, check=True)
    return ran.stdout.split(b"\n")[:-1]


def hold_files(linkdiff, options, known, old, new, counts):
    """Holds what two files tell to the model; returns that without faults, and what their lines are."""
    found, sides, wanted = of_files(linkdiff, options, old, new), [], []
    parsed = [[told.Line(it, known) for it in lines] for lines in (old, new)]
    for lines in parsed:
        sides.append(told.Model(options, False))
        for it in lines:
            wanted += sides[-1].take(it)
    faults = len(wanted)
    wanted += told.compared(*sides, "--counters" in options)
    compare("the model of two files", found, [it.encode() for it in wanted])
    counts["told of files"] += len(wanted) - faults
    return found[faults:], parsed


def told_of(lines):
    """What lines tell of each interface, without their words."""
    out = collections.defaultdict(list)
    for it in lines:
        if b'"change":' in it:
            one = json.loads(it)
            key = one.get("host", "").encode(), one["ifi-family"], one["ifi-index"] % 2 ** 32
            out[key].append(it[it.index(b'"change":'):])
    return out


class Dump:
    """What a file has of a host: by the interface its message, and the families of which the dump is whole."""

    def __init__(self):
        self.messages, self.whole, self.begin = {}, set(), None

    def take(self, line):
        it, name = line.message, (line.words.get(b"seq"), line.words.get(b"port"))
        if it is not None and it.key is not None and (it.text is None or not it.is_wireless):
            self.messages[it.key] = it
        if it is not None and it.key is None or it is None and line.kind == b"begin":
            self.begin = name if it is None else None
        if line.kind == b"done" and self.begin == name and b"family" in line.words:
            self.whole.add(int(line.words[b"family"]))


def why_apart(old, new, key):
    """Why a stream may tell something else of an interface than two files, or None."""
    was, now = old.messages.get(key), new.messages.get(key)
    if was is not None and was.text is None:
        return "refused in OLD"
    if key[0] in told.PARTS:
        if now is not None and now.text is None:
            return "a part that is refused in NEW"
        if key[0] not in old.whole & new.whole:
            return "a part without a whole dump of its family"
        order = list(new.messages)
        if key in order and (0, key[1]) in order and order.index(key) < order.index((0, key[1])):
            return "a part before its interface"
    return None


def is_as_said(why, key, files, stream):
    """Whether what both tell of an interface is what the page says of the exceptions, of which two may hold."""
    files, stream = ([json.loads("{" + it.decode())["change"] for it in lines] for lines in (files, stream))
    if why == "refused in OLD" and not files and stream == ["new"]:
        return True
    return (why is not None and key[0] in told.PARTS and stream[-1:] == ["gone"]
            and files in ([], ["new"], ["gone", "new"]))


def hold_two_ways(linkdiff, options, known, pairs, counts):
    """Two dumps of each host tell as files what they tell one after the other."""
    old, new = ([it for pair in pairs for it in pair[side]] for side in (0, 1))
    old, new = streams.timed(old, 0), streams.timed(new, len(old))
    found, parsed = hold_files(linkdiff, options, known, old, new, counts)
    files = told_of(found)
    host = parsed[0][len(old) // 2].host
    alone = [[it for it, line in zip(lines, of) if line.host == host] for lines, of in zip((old, new), parsed)]
    compare("apart, of two files", [it for it in of_files(linkdiff, options, *alone) if b'"change":' in it],
            [it for it in found if b'"host":"' + host + b'"' in it])
    stream = told_of(told.said(linkdiff, [*options, "--changes-only"], joined(old + new)))
    dumps = collections.defaultdict(lambda: (Dump(), Dump()))
    for side, lines in enumerate(parsed):
        for line in lines:
            dumps[line.host][side].take(line)
    for host, sides in dumps.items():
        for key in {*sides[0].messages, *sides[1].messages}:
            one, other = files.get((host, *key), []), stream.get((host, *key), [])
            why = why_apart(*sides, key)
            if one != other:
                counts[f"two ways, {why}: not alike"] += 1
                if not is_as_said(why, key, one, other):
                    lines = [it for it in old + new if told.Line(it, known).host == host]
                    breaks("two ways", why, key, *one, "as files, and in a stream", *other, "of", *lines)
            counts["two ways, and told" if one else "two ways"] += why is None


# ** all

def hold(linkdiff, linkshow, count, seed):
    """Holds a program to the laws over so many streams; returns what was counted."""
    rng, counts, names = random.Random(seed), collections.Counter(), [None, *[b"h%d" % at for at in range(1, EACH)]]
    calls = -(-count // EACH)
    turn = min(TURN, -(-calls // len(OPTIONS)))
    for call in range(calls):
        if call % (turn * len(OPTIONS)) == 0:
            pool = streams.Pool(rng)
        if call % turn == 0:
            options = OPTIONS[call // turn % len(OPTIONS)]
            known = told.messages(linkshow, options, pool.all, streams.KERNELS)
            known.update({it.upper(): message for it, message in known.items()})
            pool.calm = {key: [it for it in row if known[it].text] or row for key, row in pool.by_key.items()}
        try:
            lines = streams.merged(rng, [streams.stream(rng, pool, it) for it in names])
            hold_streams(linkdiff, options, known, lines, counts)
            both = [streams.merged(rng, [streams.stream(rng, pool, it) for it in names[:FILES]]) for _ in range(2)]
            if call % 3 == 0:
                both = [[it for it in lines if b"=begin" not in it and b"=done" not in it] for lines in both]
            hold_files(linkdiff, options, known, *both, counts)
            hold_two_ways(linkdiff, options, known,
                          [streams.two_dumps(rng, pool, it) for it in names[1:DUMPS + 1]], counts)
        except Broken as e:
            raise Broken(f"{' '.join(['linkdiff', *options])}, call {call} of seed {seed}: {e}") from None
    return counts


def hold_stored(linkdiff, linkshow):
    """Holds the program to the laws over the streams that are stored."""
    with open(os.path.join(os.path.dirname(__file__), "streams.txt"), "rb") as it:
        lines = it.read().split(b"\n")[:-1]
    digits = [re.sub(rb".* ", b"", it) for it in lines]
    for options in OPTIONS:
        known = told.messages(linkshow, options, [*digits, b""], streams.KERNELS)
        hold_streams(linkdiff, options, known, lines, collections.Counter())
        hold_files(linkdiff, options, known, lines[:450], lines[450:], collections.Counter())


# ** slips

SLIP = """#!/usr/bin/env python3
import re, subprocess, sys
LINKDIFF, SLIP = {linkdiff!r}, {slip!r}
lines, moved = [] if sys.argv[-1][-3:] == "new" else sys.stdin.buffer.read().splitlines(True), dict()
for at, it in enumerate(lines):
    host = re.search(b" host=h([0-9]*[02468]) ", it)
    if SLIP == "two hosts are one" and host:
        moved[it.split(b" ")[0][5:]] = host[1]
        lines[at] = it.replace(host[0], b" host=h%d " % (int(host[1]) + 1), 1)
ran = subprocess.run([LINKDIFF, *sys.argv[1:]], input=b"".join(lines), stdout=subprocess.PIPE, check=True)
out = ran.stdout.splitlines(True)
if SLIP == "the last gone is not told":
    gone = [at for at, it in enumerate(out) if b'"change":"gone"' in it]
    out = out[:gone[-1]] + out[gone[-1] + 1:] if gone else out
if SLIP == "one new is told twice":
    new = [at for at, it in enumerate(out) if b'"change":"new"' in it]
    out = out[:new[0]] + out[new[0]:new[0] + 1] + out[new[0]:] if new else out
for at, it in enumerate(out):
    time = re.search(b'"time":"([0-9]+)"', it)
    if time and time[1] in moved:
        out[at] = re.sub(b'"host":"h[0-9]+"', b'"host":"h%s"' % moved[time[1]], it, count=1)
sys.stdout.buffer.write(b"".join(out))
"""


def hold_slips(linkdiff, linkshow):
    """Looks that three wrong programs are told."""
    for slip in "the last gone is not told", "one new is told twice", "two hosts are one":
        with tempfile.TemporaryDirectory() as folder:
            wrong = f"{folder}/linkdiff"
            with open(wrong, "w", encoding="ascii") as it:
                it.write(SLIP.format(linkdiff=os.path.abspath(linkdiff), slip=slip))
            os.chmod(wrong, 0o755)
            try:
                hold(wrong, linkshow, EACH, 1)
            except Broken as e:
                print(f"laws: {slip}: told by {str(e).splitlines()[0].split(': ')[1].rstrip(':')}")
            else:
                sys.exit(f"laws: {slip}: not told")


def stored():
    """Prints streams of messages with few attributes."""
    rng = random.Random(1)
    pool = streams.Pool(rng, ("name", "mtu", "state", "info", "carrier", "alias", "unknown"))
    names = [None, *[b"h%d" % at for at in range(1, 80)]]
    for it in streams.merged(rng, [streams.stream(rng, pool, name) for name in names]):
        sys.stdout.buffer.write(it + b"\n")


def main():
    parser = argparse.ArgumentParser()
    parser.add_argument("--streams", type=int, default=4000)
    parser.add_argument("--seed", type=int, default=1)
    parser.add_argument("--slips", action="store_true")
    parser.add_argument("--store", action="store_true")
    parser.add_argument("folder", nargs="?", default="out")
    words = parser.parse_args()
    if words.store:
        stored()
        return
    linkdiff, linkshow = words.folder + "/linkdiff", words.folder + "/linkshow"
    if words.slips:
        hold_slips(linkdiff, linkshow)
    else:
        try:
            hold_stored(linkdiff, linkshow)
            counts = hold(linkdiff, linkshow, words.streams, words.seed)
        except Broken as e:
            sys.exit(f"laws: {e}")
        for name, count in sorted(counts.items()):
            print(f"laws: {name}: {count}")
    print("laws: ok")


if __name__ == "__main__":
    main()
