"""The rules of `Watch` beside the program linkdiff: over the same 100,000 made lines both tell the same, line for line.

    python3 tests/python/rules.py [LINKDIFF [LINES [SEED]]]

`watch` is the package's own code, and linkdiff is proved; this is what holds them together. The lines are those of
hosts that lose messages, and of every odd sort: damaged, cut, refused, requests, words alone, names twice, kinds that
turn, announcements of wireless drivers. What linkdiff writes and what `Watch` returns are compared as JSON, members in
their order, with each option; of a fault all but what stands in front of it, which is linkshow's. A host has one
release, since `Watch` takes both messages by that of the later line, and linkdiff each by its own.
"""

import json
import multiprocessing
import os
import random
import subprocess
import sys
import tempfile

import linkwire
from linkwire import numbers

TOP = os.path.dirname(os.path.dirname(os.path.dirname(os.path.abspath(__file__))))
sys.path.insert(0, f"{TOP}/tests/linkdump")
sys.dont_write_bytecode = True
import hosts  # noqa: E402

OPTIONS = ((), ("lenient",), ("counters",), ("changes_only",), ("lenient", "changes_only"))
TYPES = ["type=new"] * 12 + ["type=del"] * 2 + ["type=get", "type=set", "type=x", ""]


def attribute(number, value):
    return linkwire.build([(number, value)])[16:]


def info(*parts):
    return attribute(numbers.IFLA_LINKINFO, list(parts))


PARTS = [
    attribute(numbers.IFLA_MTU, linkwire.u32(1500)), attribute(numbers.IFLA_MTU, linkwire.u32(9000)),
    attribute(numbers.IFLA_MASTER, linkwire.u32(3)), attribute(numbers.IFLA_IFALIAS, "alias"),
    attribute(numbers.IFLA_OPERSTATE, linkwire.u8(6)), attribute(numbers.IFLA_IFNAME, "second"),
    attribute(numbers.IFLA_EVENT, linkwire.u32(1)), attribute(numbers.IFLA_EVENT, b"\0\0\0"),
    info((numbers.IFLA_INFO_KIND, "veth")), info((numbers.IFLA_INFO_KIND, "bridge")),
    info((numbers.IFLA_INFO_KIND, "veth"), (numbers.IFLA_INFO_KIND, "dummy")), info(),
    info((numbers.IFLA_INFO_SLAVE_KIND, "bridge")), info((numbers.IFLA_INFO_KIND, b"")),
    attribute(numbers.IFLA_WIRELESS, bytes(8)),
    *(attribute(numbers.IFLA_PROP_LIST | numbers.NLA_F_NESTED, [(numbers.IFLA_ALT_IFNAME, it) for it in some])
      for some in (["other"], "ab", "ba", "aab")),
    *(info((numbers.IFLA_INFO_KIND, "bond"), (numbers.IFLA_INFO_DATA, [(8, it)]))
      for it in ([(0, bytes(4)), (1, b"addr")], [(0, b"addr"), (1, bytes(4))], [], b"ab"))]
REFUSED = [
    attribute(numbers.IFLA_IFALIAS, b"\xe9"), attribute(numbers.IFLA_IFALIAS, b"\xe8"),
    attribute(numbers.IFLA_IFNAME, b"\xe9"), attribute(numbers.IFLA_PROTINFO, b""), attribute(numbers.IFLA_MTU, b"\1"),
    attribute(numbers.IFLA_CARRIER_CHANGES, b"\1"), attribute(numbers.IFLA_VF_PORTS, [(9, b"")]),
    info((numbers.IFLA_INFO_KIND, b"\xe9")), attribute(numbers.IFLA_IFALIAS, b"a" * 65531), b"\7\0\1", b"\xff\xff\1\0"]


def message(chance):
    """A message of one of few links, of which one in eight is refused, and one in fifty is damaged or cut."""
    made = bytearray(linkwire.build([(numbers.IFLA_IFNAME, f"e{chance.randrange(3)}")],
                                    family=chance.choice((0, 0, 0, 0, 7, 10)), index=chance.randrange(1, 7)))
    for _ in range(chance.choice((0, 1, 1, 2, 2, 3, 4))):
        made += chance.choice(PARTS)
    if chance.random() < .3:
        made += attribute(numbers.IFLA_CARRIER_CHANGES, linkwire.u32(chance.randrange(9)))
    if chance.random() < .12:
        made += chance.choice(REFUSED)
    if chance.random() < .02:
        made[chance.randrange(8, len(made))] = chance.randrange(256)
    return bytes(made[:chance.randrange(len(made) + 1)] if chance.random() < .01 else made)


class Odd:
    """Lines of any sort, of three hosts, whose dumps begin and end now and then."""

    def __init__(self, chance):
        self.chance, self.turn, self.stored = chance, 0, stored()

    def line(self):
        chance, sort = self.chance, self.chance.random()
        host, release = chance.choice((("", ""), ("host=a ", "kernel=6.1.0 "), ("host=b ", "kernel=6.18.0 ")))
        if sort < .04:
            self.turn += 1
            return f"{host}type=begin seq={self.turn} port=1"
        if sort < .1:
            turn = self.turn if chance.random() < .9 else 1
            return f"{host}type=done seq={turn} port=1 family={chance.choice((0, 0, 7, 10, 'x'))}"
        if sort < .13:
            return host + chance.choice(("type=lost", "links=4", "type=get", "type=new 0",
                                         f"{chance.choice(TYPES)} zz"))
        digits = (chance.choice(self.stored) if chance.random() < .02 else message(chance)).hex()
        return f"{host}{chance.choice(TYPES)} {release}{chance.choice(('', '', 'ok '))}".lstrip() + digits


def stored():
    with open(f"{TOP}/tests/kernels/messages.txt", encoding="utf-8") as it:
        return [bytes.fromhex(line) for line in it if not line.startswith("#")]


def made(count, seed):
    """So many lines: of hosts that lose messages, in blocks between lines of any sort. Each has a time of its own."""
    odd, turn, lines = Odd(random.Random(seed)), seed, []
    while len(lines) < count:
        lines += [" ".join(word for word in line.split(" ") if not word.startswith("time="))
                  for _, line, _ in hosts.made(turn)]
        lines += [odd.line() for _ in range(12000)]
        turn += 1
    return [f"time={at} {line}" for at, line in enumerate(lines[:count])]


def words_of(line):
    """The words that linkdiff repeats, in its order."""
    words = dict(reversed([word.partition("=")[::2] for word in line.split(" ") if "=" in word]))
    return {name: words[name] for name in ("type", "time", "host") if name in words}


def told(line, event):
    """The line of linkdiff that tells of an event."""
    found = words_of(line)
    if event.change == "fault":
        shown = {"fault": event.fault.cause}
        if event.fault.cause not in ("unfit", "empty-ports"):  # of which a message has no canonical encoding
            shown = linkwire.show(event.message)  # the first fault, which may be one that lenient reading passes over
        return {**found, **{key: value for key, value in shown.items() if key != "before"}}
    found["change"] = event.change
    if event.ifindex is not None:
        found.update({"ifi-family": event.family, "ifi-index": event.ifindex})
        if event.ifname is not None:
            found["ifname"] = event.ifname
    if event.change == "changed":
        found["changes"] = [{name: value for name, value in it._asdict().items() if value is not None or name == "path"}
                            for it in event.changes]
    return found


def watched(lines, words):
    """What `Watch` tells, in lines."""
    watch = linkwire.Watch(**{it: True for it in words})
    for line in lines:
        try:
            for event in watch.line(line):
                assert (event.host, event.time) == tuple(words_of(line).get(it, "") for it in ("host", "time")), line
                yield line, told(line, event)
        except ValueError:
            yield line, {**words_of(line), "fault": "not-hex"}


def differ(program, path, words):
    """How many lines both tell with these options; the first place where they differ ends it."""
    options = ["--" + it.replace("_", "-") for it in words]
    with open(path, encoding="utf-8") as it:
        lines = it.read().splitlines()
    with open(path, "rb") as it, subprocess.Popen([program, *options], stdin=it, stdout=subprocess.PIPE) as ran:
        count, changes = 0, set()
        for line, own in watched(lines, words):
            wanted = json.loads(ran.stdout.readline() or b"{}")
            wanted.pop("before", None)
            changes.add(own.get("change", "fault"))
            one, other = (json.dumps(it, ensure_ascii=False) for it in (own, wanted))
            if one != other:
                ran.kill()
                return f"rules: {' '.join(options)}: of the line\n{line}\nWatch tells\n{one}\nand linkdiff\n{other}\n"
            count += 1
        rest = ran.stdout.readline()
    if rest or ran.returncode != 0:
        return f"rules: {' '.join(options)}: linkdiff ends with {ran.returncode}, and tells besides {rest!r}"
    if changes != {"new", "gone", "changed", "lost", "fault"}:
        return f"rules: {' '.join(options)}: it tells {changes} alone"
    return count


def link(*attributes, family=0, index=5):
    return (linkwire.build(family=family, index=index) + b"".join(attributes)).hex()


VETH, DUMMY, FAULT = PARTS[8], info((numbers.IFLA_INFO_KIND, "dummy")), REFUSED[0]
BEGIN, DONE = "type=begin seq=1 port=1", "type=done seq=1 port=1 family=0"
# lines, what is told of each, and of the last one with changes_only too, before the first whole dump
CASES = (
    # the last kind of the last list counts, and it stays known over a message that names none
    ([link(PARTS[10]), link(VETH)], ["new", "gone new"]), ([link(PARTS[10]), link(DUMMY)], ["new", "changed"]),
    ([link(VETH + DUMMY), link(DUMMY)], ["new", "changed"]),
    ([link(DUMMY), link(VETH + PARTS[12])], ["new", "changed"]),
    ([link(VETH), link(PARTS[0]), link(DUMMY)], ["new", "changed", "gone new"]),
    ([link(VETH), link(FAULT), link(DUMMY)], ["new", "fault", "gone new"]),
    ([link(VETH), f"type=del {link()}", link(DUMMY)], ["new", "gone", "new"]),
    ([link(VETH), link(index=5, family=7), link(DUMMY)], ["new", "new", "gone gone new"]),
    # one that went is gone once, also where all of it was refused
    ([link(FAULT, family=7), f"type=del {link(family=7)}", f"type=del {link(family=7)}"], ["fault", "gone", ""]),
    ([link(FAULT), f"type=del {link()}"], ["fault", "gone"]),
    ([link(FAULT, family=7), f"type=del {link(FAULT, family=7)}"], ["fault", "fault"]),
    # a request is no link of a dump; what cannot be read may be one
    ([link(), BEGIN, "type=get zz", "type=set 0", "type=get 0000", "type=set 00", DONE],
     ["new", "", "fault", "fault", "fault", "fault", "gone"]),
    ([link(), BEGIN, "type=new zz", DONE], ["new", "", "fault", ""]),
    ([link(), BEGIN, "0000", DONE], ["new", "", "fault", ""]))


def cases():
    """The table above, and that hosts of which nothing is known are forgotten."""
    for lines, wanted in CASES:
        own, alone = linkwire.Watch(), linkwire.Watch(changes_only=True)
        found = [told_of(own, line) for line in lines]
        if found != wanted or wanted[-1] == "gone new" and [told_of(alone, it) for it in lines][-1] != "gone new":
            sys.exit(f"rules: of {lines} it tells {found}, and not {wanted}")
    watch = linkwire.Watch()
    for at in range(1000):
        for line in link(), f"type=del {link()}", f"type=del {link()}", "type=new zz", "type=lost", DONE:
            told_of(watch, f"host=h{at} {line}")
    if watch.hosts():
        sys.exit(f"rules: {len(watch.hosts())} hosts are kept of which nothing is known")


def told_of(watch, line):
    try:
        return " ".join(it.change for it in watch.line(line))
    except ValueError:
        return "fault"


def main(program=f"{TOP}/out/linkdiff", count="100000", seed="1"):
    cases()
    with tempfile.TemporaryDirectory() as folder:
        path = f"{folder}/lines"
        with open(path, "w", encoding="utf-8") as it:
            it.writelines(line + "\n" for line in made(int(count), int(seed)))
        with multiprocessing.Pool(min(len(OPTIONS), os.cpu_count() or 1)) as pool:
            found = pool.starmap(differ, [(program, path, words) for words in OPTIONS], 1)
    for it in found:
        if isinstance(it, str):
            sys.exit(it)
    print(f"python: Watch tells what linkdiff tells of {count} lines, with each option: {', '.join(map(str, found))}")


if __name__ == "__main__":
    main(*sys.argv[1:])
