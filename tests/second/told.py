"""A model of linkdiff by the rules of docs/LINKDIFF.md, over what the second reader says of messages and linkshow shows
of them: messages() knows the messages of lines, and Model says what each line is to be told."""
import collections
import json
import re
import subprocess
import sys

import second

WORD = re.compile(rb"([^= \t]+)=([^ \t]*)(?:[ \t]+|\Z)")
NUMERAL = re.compile(rb"\+?([0-9]+)")
# what linkshow escapes beside what JSON asks for: controls, and what ends a line or turns the direction of a text
HIDDEN = re.compile("[\x7f-\x9f\u061c\u200e\u200f\u2028-\u202e\u2066-\u2069]")
ENCODE = json.JSONEncoder(separators=(",", ":"), ensure_ascii=False).encode
IFNAME, WIRELESS, LINKINFO, EVENT = 3, 11, 18, 44
# the counters of IPv6 in IFLA_PROTINFO: their record may be shorter than its names
IPV6 = re.compile(r"(repeated\.[0-9]+\.)?protinfo\.(repeated\.[0-9]+\.)?(icmp6-)?stats(\.|$)")
PARTS = 7, 10
# the lists whose values are told by a number that each of them says, with the name of that number
FUNCTIONS = "vfinfo-list.info"
KEYS = {"mst.entry": "msti", "egress-qos.mapping": "from", "ingress-qos.mapping": "from", FUNCTIONS: "vf",
        "vf-ports.port": "vf"}
# the lists of VLANs in the settings of a bridge's port, which are told VLAN by VLAN, by their numbers there
BRIDGE, SPEC = 7, 26
VLANS = {2: "vlan-info", 3: "vlan-tunnel-info"}
BEGIN, END = 8, 16
VLAN_FLAGS = {1: "master", 2: "pvid", 4: "untagged", 32: "brentry", 64: "only-opts"}
# the list of what is kept as it is, of any object, and the number that it is told by
OTHER, NUMBER = "other", "number"
# the lists of texts, which are their own keys
TEXTS = re.compile(r"(.*\.)?(prop-list\.alt-ifname|macaddr-data\.macaddr|arp-ip-target|ns-ip6-target)")
# the attributes of a function of which a state clears something
MOVING = "stats", "broadcast"


def said(program, options, text):
    """The lines that a program writes when it reads this text."""
    ran = subprocess.run([program, *options], input=text, capture_output=True, check=False)
    if ran.returncode or ran.stderr:
        sys.exit(f"{program} {' '.join(options)} ends with status {ran.returncode}: {ran.stderr.decode()}")
    return ran.stdout.split(b"\n")[:-1]


def text_of(value):
    return HIDDEN.sub(lambda it: f"\\u{ord(it[0]):04x}", ENCODE(value))


# ** what a message is

def pieces(b):
    """The frames of a list, each with its padding; a damaged one has as many bytes as it says, or as are left."""
    at = 0
    while at < len(b):
        left = len(b) - at
        size = left if left < 4 else min(max((b[at] | b[at + 1] << 8) + 3 & ~3, 4), left)
        yield b[at:at + size]
        at += size


def number(frame):
    return (frame[2] | frame[3] << 8) & 0x3fff if len(frame) >= 4 else None


def last(b, wanted):
    """The payload of the last frame of a number; None where there is none, or it is damaged."""
    found = None
    for it in pieces(b):
        if number(it) == wanted:
            size = it[0] | it[1] << 8
            found = it[4:size] if 4 <= size <= len(it) else None
    return found


def kind_in(text):
    """The kind that a message names: the last IFLA_INFO_KIND of the last IFLA_LINKINFO, up to a NUL."""
    info = last(text[16:], LINKINFO)
    kind = None if info is None else last(info, 1)
    return None if kind is None or kind[:1] == b"\0" else kind.split(b"\0")[0]


def name_in(text):
    found = None
    for it in pieces(text[16:]):
        if number(it) == IFNAME:
            try:
                found = second.text(it[4:it[0] | it[1] << 8])[0][:-1].decode()
            except second.Fault:
                pass
    return found


class Message:
    """What is to be known of digits that spell bytes: the interface, what is compared, and what is shown of that. Of
    what is refused `text` is None, and of bytes without a header, and of no bytes, `key` is None too."""

    def __init__(self, digits, is_lenient, is_all):
        self.digits, self.text, self.key, self.shown, self.faults = digits, None, None, {}, {}
        if not second.is_hex(digits):
            return
        b = bytes.fromhex(digits.decode())
        if len(b) < 16:
            return
        self.key = b[0], int.from_bytes(b[4:8], "little")
        frames = list(pieces(b[16:]))
        less = [it for it in frames if not (len(it) == 8 and it[:2] == b"\x08\0" and number(it) == EVENT)]
        numbers = {number(it) for it in frames} - {None}
        self.is_wireless = WIRELESS in numbers and numbers <= {WIRELESS, IFNAME}
        word, *found = second.answer(b[:16] + b"".join(less), [] if is_lenient else None)
        self.word = word
        if word == "ok":
            self.text = found[0] if is_all else second.state(found[0])
            self.kind, self.name = kind_in(self.text), name_in(self.text)
            self.which = f'"ifi-family":{b[0]},"ifi-index":{int.from_bytes(b[4:8], "little", signed=True)}'
            self.head = self.which + named(self.name)


def named(name):
    return "" if name is None else f',"ifname":{text_of(name)}'


class Shown:
    """What is shown of a message: the value at each path, in order; the paths that are counters, which a state passes
    over; the values at the others; and in `whole` the values of lists that have a label, whatever stands inside, and
    the lists that are told whole where they differ in nothing but their order."""

    def __init__(self, text, page, filled):
        page, self.whole = json.loads(page), {}
        self.leaves = dict(leaves_of(page, vlan_lists(page, text), self.whole))
        filled = json.loads(filled)
        others = dict(leaves_of(filled, vlan_lists(filled, second.filled(text)), {}))
        self.counters = {path for path, value in self.leaves.items()
                         if path not in others or others[path] != value or IPV6.match(path)}
        # a refused attribute in which a state clears some of the bytes is told, with the others
        self.counters -= {path for path in self.counters
                          if path.startswith("refused.") and self.leaves[path].strip("0")}
        # of an attribute that is kept as it is all is passed over
        self.kept = {path.removesuffix(".payload") for path in self.counters if path.endswith(".payload")}
        self.counters |= {path for path in self.leaves if path.rpartition(".")[0] in self.kept}
        self.settings = {path: value for path, value in self.leaves.items() if path not in self.counters}
        self.named = named(page.get("ifname"))

    def beside(self, other, is_all):
        """The leaves as they are told beside another message: a value whose label is in no list there is one leaf."""
        out = {}
        for path, value in self.leaves.items():
            alone = next((it for it in labels_in(path) if it not in other.whole), None)
            if not is_all and path in self.counters and (alone is None or is_kept(alone)):
                continue
            if alone is None:
                out[path] = value
            else:
                out[alone] = self.whole[alone] if is_all else settled(alone, self.whole[alone])
        return out

    def lists(self, is_all):
        """The lists that are told whole, each with its value: a state is without what it passes over."""
        out = {}
        for path, value in self.whole.items():
            if path[-1] != "]":
                parts = zip(labels(path, value), value)
                out[path] = value if is_all else [settled(path + label, it) for label, it in parts
                                                  if path + label not in self.kept]
        return out


def labels_in(path):
    """The paths in front of a path, and the path itself, that end with a label."""
    return [path[:it.end()] for it in re.finditer(r"\]", path)]


def is_kept(path):
    """Whether a path that ends with a label is that of an attribute that is kept as it is."""
    return re.fullmatch(r"(.*\.)?other\[[^]]*\]", path) is not None


def settled(path, value):
    """A value as a state tells it as a whole: a function without the attributes that move by themselves."""
    if not isinstance(value, dict) or not path.rpartition("[")[0].endswith(FUNCTIONS):
        return value
    out = {name: it for name, it in value.items() if name not in MOVING}
    if "repeated" in out:
        out["repeated"] = [it for it in out["repeated"] if not {*it} & {*MOVING}]
    return {name: it for name, it in out.items() if name != "repeated" or it}


def leaves_of(page, vlans, whole):
    """Each path that holds no other, and its value; of each refused attribute the bytes. A list of VLANs that a kernel
    writes so is one leaf here, Vlans, and a list of texts one, Texts. Of values with labels `whole` gets all, and it
    gets the lists whose order is told."""
    if "refused" in page:
        page["refused"] = raw([(name_of(it), it["payload"]) for it in page["refused"]])
    out = []
    under("", page, out, whole, vlans)
    return out


def name_of(refusal):
    """The kernel's name of the attribute that is refused, in small letters; if a fault stands inside it, linkshow says
    its own name of it."""
    return f"ifla_{refusal['in'].replace('-', '_')}" if "in" in refusal else refusal["at"].lower()


def raw(refused):
    """The bytes of refused attributes as members: of each name the last, and those before it in a list behind."""
    last = {name: at for at, (name, _) in enumerate(refused)}
    members = {name: it for at, (name, it) in enumerate(refused) if last[name] == at}
    earlier = [{name: it} for at, (name, it) in enumerate(refused) if last[name] != at]
    return {**members, "repeated": earlier} if earlier else members


def under(path, value, out, whole, vlans=()):
    """A list that holds an object or a list is told value by value; any other one is a value."""
    parts = []
    if path in vlans:
        whole[path] = value
        out.append((f"{path}[vid", vlans[path]))
        return
    if isinstance(value, dict):
        parts = [(f"{path}.{name}" if path else name, it) for name, it in value.items()]
    elif isinstance(value, list) and any(isinstance(it, (dict, list)) for it in value):
        parts = [(path + label, it) for label, it in zip(labels(path, value), value)]
        if parts[0][0][-1] == "]":
            whole.update([(path, value), *parts])
    elif isinstance(value, list) and TEXTS.fullmatch(path):
        whole[path] = value = Texts(value)
    if not parts and path:
        out.append((path, value))
    for at, it in parts:
        under(at, it, out, whole, vlans)


def labels(path, values):
    """What stands behind the path of a list for each of its values: the number that it says, or its place."""
    *_, of, name = ["", *path.split(".")]
    key = NUMBER if name == OTHER else KEYS.get(f"{of}.{name}")
    if key is None:
        return [f".{at}" for at in range(len(values))]
    before, out = {}, []
    for it in values:
        number = number_in(path, key, it)
        again = before.get(number, 0)
        before[number] = again + 1
        named = key if number is None else f"{key}={number}"
        out.append(f"[{named}#{again}]" if again or number is None else f"[{named}]")
    return out


def number_in(path, key, value):
    """The number that a value says: a function says it in the first of its records."""
    if not isinstance(value, dict):
        return None
    if path.endswith(FUNCTIONS):
        value = next((it for it in value.values() if isinstance(it, dict) and key in it), {})
    number = value.get(key)
    return number if isinstance(number, int) else None


def messages(linkshow, options, texts, kernels):
    """The messages that these digits spell, as linkdiff compares them with these options."""
    lenient, is_all = ["--lenient"] if "--lenient" in options else [], "--counters" in options
    found = [Message(it, bool(lenient), is_all) for it in dict.fromkeys(texts)]
    for kernel in kernels:
        front = b"" if kernel is None else b"kernel=" + kernel + b" "
        asked = []
        for it in found:
            if it.text is None:
                asked.append(front + it.digits)
            else:
                asked += [front + it.text.hex().encode(), front + second.filled(it.text).hex().encode()]
        answers = iter(said(linkshow, lenient, b"".join(it + b"\n" for it in asked)))
        skipped = '"kernel":' + text_of((kernel or b"").decode()) + ","
        for it in found:
            page = next(answers).decode().replace(skipped, "", 1)
            if it.text is None:
                it.faults[kernel] = page[1:]
                if it.key is not None and it.word != "refused":
                    it.faults[kernel] = f'"fault":"{it.word}"}}'
            else:
                it.shown[kernel] = Shown(it.text, page, next(answers))
    return {it.digits: it for it in found}


# ** VLANs of a bridge's port

class Vlans(dict):
    """What a list says of its VLANs, in order: by the VLAN its flags, and of a tunnel how far its id is ahead of it."""


def vlan(payload):
    """The VLAN of a record, its flags, and no id."""
    return (payload[2] | payload[3] << 8, payload[0] | payload[1] << 8, None) if len(payload) == 4 else None


def tunnel(payload):
    """The VLAN of a tunnel, its flags and its id: each stands once, and nothing else."""
    try:
        found = sorted((kind & 0x3fff, it) for _, kind, it in second.each(payload))
    except second.Fault:
        return None
    if [(number, len(it)) for number, it in found] != [(1, 4), (2, 2), (3, 2)]:
        return None
    id_, vid, flags = (int.from_bytes(it, "little") for _, it in found)
    return vid, flags, id_


def vlans_in(values):
    """What values say, each None or a VLAN with flags and an id; None where no kernel writes such a list. VLANs ascend.
    One that begins a range is followed by its end, of which the same is said."""
    out, above, begun = Vlans(), -1, None
    for it in values:
        if it is None:
            return None
        vid, flags, id_ = it
        ends, said = flags & (BEGIN | END), (flags & ~(BEGIN | END), None if id_ is None else id_ - vid)
        if vid <= above or ends != (0 if begun is None else END) and (begun is not None or ends != BEGIN):
            return None
        if begun is not None and said != out[above]:
            return None
        out.update(dict.fromkeys(range(vid if begun is None else begun, vid + 1), said))
        above, begun = vid, vid if ends == BEGIN else None
    return out if begun is None else None


def vlan_lists(page, text):
    """The lists of VLANs of a message that are as kernels write them, by their paths."""
    if text[0] != BRIDGE:
        return {}
    paths = [f"repeated.{at}.af-spec" for at, it in enumerate(page.get("repeated", ())) if "af-spec" in it]
    specs, out = [], {}
    for _, kind, payload in second.each(text[16:]):
        try:
            if kind & 0x3fff == SPEC:
                second.member(second.top(text), kind, payload)
                specs.append(payload)
        except second.Fault:                    # it is refused
            pass
    for path, spec in zip([*paths, "af-spec"], specs):
        for which, name in VLANS.items():
            found = vlans_in([tunnel(it) if which == 3 else vlan(it) for _, kind, it in second.each(spec)
                              if kind & 0x3fff == which])
            if found:
                out[f"{path}.{name}"] = found
    return out


def members(vid, said):
    """The id of a VLAN's tunnel, if it is one, and its flags."""
    flags, ahead = said
    names = [name for bit, name in VLAN_FLAGS.items() if flags & bit]
    rest = flags & ~sum(VLAN_FLAGS)
    return {**({} if ahead is None else {"id": vid + ahead}), "flags": names + [rest] * (rest > 0)}


def vlan_value(first, last, said):
    """VLANs of which the same is said, as one value."""
    out = {**members(first, said), "vid": first}
    if last > first:
        out.update({f"{name}-end": it for name, it in members(last, said).items() if name == "id"})
        out["vid-end"] = last
    return out


def pieces_of(own, others):
    """The VLANs of a list of which another one does not say the same: the first and the last one of each piece, what is
    said of them, and what the other list says. VLANs next to each other are one piece if that is the same."""
    out = []
    for vid, said in own.items():
        beside = others.get(vid)
        if beside != said and out and out[-1][1:] == [vid - 1, said, beside]:
            out[-1][1] = vid
        elif beside != said:
            out.append([vid, vid, said, beside])
    return out


def vlan_rows(path, own, others, is_old):
    """What a list tells beside another one: the old one what went and what turned, the new one what came."""
    for first, last, said, beside in pieces_of(own, others):
        at = f"{path}={first}]" if first == last else f"{path}={first}-{last}]"
        if beside is None:
            value = text_of(vlan_value(first, last, said))
            yield (at, value, None) if is_old else (at, None, value)
        elif is_old:
            was, now = members(first, said), members(first, beside)
            yield from ((f"{at}.{name}", text_of(was[name]), text_of(now[name])) for name in was
                        if was[name] != now[name])


# ** what changed

class Texts(list):
    """A list of texts."""


def text_rows(path, own, others, is_old):
    """The texts that stand more often in a list than in another one; of equal ones the later are told."""
    left = collections.Counter(map(text_of, others))
    for it in map(text_of, own):
        left[it] -= 1
        if left[it] < 0:
            yield (f"{path}[]", it, None) if is_old else (f"{path}[]", None, it)


def rows_of(own, others, is_old):
    """What the leaves of one message tell beside those of the other one."""
    for path, value in own.items():
        if isinstance(value, Vlans):
            yield from vlan_rows(path, value, others.get(path, {}), is_old)
        elif isinstance(value, Texts) and (isinstance(others[path], Texts) if path in others else value):
            yield from text_rows(path, value, others.get(path, ()), is_old)
        elif path not in others:
            yield (path, text_of(value), None) if is_old else (path, None, text_of(value))
        elif is_old and others[path] != value:
            yield path, text_of(value), text_of(others[path])


def orders(old, new):
    """The lists that both messages have, and that they write in different ways."""
    both = [(path, text_of(value), text_of(new[path])) for path, value in old.items() if path in new]
    return [it for it in both if it[1] != it[2]]


def changes(old, new, is_all):
    """The list `changes` of two messages, each with how it is shown."""
    (was, before), (now, after) = old, new
    olds, news = before.beside(after, is_all), after.beside(before, is_all)
    rows = [*rows_of(olds, news, True), *rows_of(news, olds, False)]
    out = rows or orders(before.lists(is_all), after.lists(is_all)) or [
        ("state", f'"{was.text.hex()}"', f'"{now.text.hex()}"')]
    return "[" + ",".join(
        f'{{"path":{text_of(path)}' + ("" if one is None else f',"old":{one}')
        + ("" if other is None else f',"new":{other}') + "}" for path, one, other in out) + "]"


# ** lines

def front_member(name, value):
    if value.isalnum():
        return f'"{name.decode()}":"{value.decode()}",'
    try:
        value = value.decode()
    except UnicodeDecodeError:
        value = value.hex()
    return f'"{name.decode()}":{text_of(value)},'


class Line:
    """The words in front of a line, and what follows them: `message` is None where words stand alone."""
    __slots__ = "words", "message", "host", "kernel", "kind", "front"

    def __init__(self, line, known):
        self.words, at = {}, 0
        while it := WORD.match(line, at):
            self.words.setdefault(it[1], it[2])
            at = it.end()
        digits = line[at:]
        self.message = None
        if digits or not at:
            self.message = known[digits[3:] if digits[:3] == b"ok " else digits]
        self.host = self.words.get(b"host", b"")
        self.kernel, self.kind = self.words.get(b"kernel"), self.words.get(b"type")
        self.front = ""
        for name in (b"type", b"time", b"host"):
            if name in self.words:
                self.front += front_member(name, self.words[name])

    def told(self, change, head):
        return f'{{{self.front}"change":"{change}",{head}}}'


class Seen:
    """What is known of an interface: its last line, its last accepted message and that line's `kernel=`, its kind, and
    the words of that line."""
    __slots__ = "at", "last", "kernel", "kind", "line"

    def __init__(self, at):
        self.at, self.last, self.kernel, self.kind, self.line = at, None, None, None, None


class Host:
    def __init__(self):
        self.seen, self.run, self.whole = {}, None, set()


class Model:
    """What is known of each host after some lines. `is_told` is false of a file, of which faults alone are written.
    `first` has the lines `new` that --changes-only leaves out."""

    def __init__(self, options, is_told=True):
        self.is_all, self.is_told = "--counters" in options, is_told
        self.hosts, self.at, self.has_dumps, self.first, self.found = {}, 0, False, [], {}

    def take(self, line):
        """What is written of a line: its fault, and what it tells."""
        self.at += 1
        host, it = self.hosts.setdefault(line.host, Host()), line.message
        if it is None:
            return self.words(host, line)
        is_request = line.kind in (b"get", b"set")
        if it.text is None:
            if not is_request:
                gone = self.refused(host, line, it)
            return [f"{{{line.front}{it.faults[line.kernel]}"] + ([] if is_request else gone)
        if is_request or (line.kind != b"del" and it.is_wireless):
            return []
        return self.went(host, line, it) if line.kind == b"del" else self.accepted(host, line, it)

    def words(self, host, line):
        name = line.words.get(b"seq", b"") + b" " + line.words.get(b"port", b"")
        if line.kind == b"begin":
            host.run, self.has_dumps = (name, self.at), True
        elif line.kind == b"lost":
            return [f'{{{line.front}"change":"lost"}}'] if self.is_told else []
        elif line.kind == b"done":
            family = NUMERAL.fullmatch(line.words.get(b"family", b""))
            if family and int(family[1]) < 256:
                self.has_dumps = True
                if host.run and host.run[0] == name:
                    host.whole.add(int(family[1]))
                    return self.ended(host, line, host.run[1], int(family[1]))
        return []

    def ended(self, host, line, begin, family):
        """A whole dump ends what had no line since it began."""
        def is_since(key):
            return key in host.seen and host.seen[key].at >= begin

        missed = [key for key in host.seen if not is_since(key) and (
            key[0] == family or family == 0 and key[0] in PARTS and not is_since((0, key[1])))]
        return self.take_out(host, line, missed)

    def take_out(self, host, line, keys):
        out = []
        for key in sorted(keys):
            seen = host.seen.pop(key, None)
            if seen and seen.last and self.is_told:
                out.append(line.told("gone", seen.last.head))
        return out

    def refused(self, host, line, it):
        if it.key is None:
            host.run = None
            return []
        if line.kind == b"del":
            return self.take_out(host, line, ends_with(it.key))
        host.seen.setdefault(it.key, Seen(self.at)).at = self.at
        return []

    def went(self, host, line, it):
        own = []
        if (it.key in host.seen or it.key[0] == 0) and self.is_told:
            own = [line.told("gone", it.head)]
        host.seen.pop(it.key, None)
        return own + self.take_out(host, line, ends_with(it.key))

    def accepted(self, host, line, it):
        seen, out = host.seen.get(it.key), []
        is_other = bool(seen) and None not in (seen.kind, it.kind) and seen.kind != it.kind
        if is_other:
            out = self.take_out(host, line, ends_with(it.key))
        seen = host.seen.setdefault(it.key, Seen(self.at))
        if seen.last is None:
            out += [line.told("new", it.head)] * self.is_told
            if not is_other and it.key[0] not in host.whole:
                self.first += out
        elif seen.last.text != it.text and self.is_told:
            out.append(self.changed(line, seen, it))
        seen.at, seen.last, seen.kernel, seen.line = self.at, it, line.kernel, line
        seen.kind = it.kind if it.kind is not None else seen.kind
        return out

    def changed(self, line, old, new):
        after, both = new.shown[line.kernel], (old.last, old.kernel, new, line.kernel)
        if both not in self.found:
            self.found[both] = changes((old.last, old.last.shown[old.kernel]), (new, after), self.is_all)
        found = self.found[both]
        return line.told("changed", f'{new.which}{after.named},"changes":{found}')


def ends_with(key):
    """The interfaces that end with one: its parts, where it is of AF_UNSPEC."""
    return [key] + [(part, key[1]) for part in PARTS if key[0] == 0]


# ** two files

def compared(old, new, is_all):
    """What two files tell, by the models at their ends: the lines, in order."""
    out = []
    for name in sorted(new.hosts):
        out += came_or_changed(old, new, name, is_all)
    for name in sorted(old.hosts):
        before, after = old.hosts[name], new.hosts.get(name, Host())
        for key, seen in sorted(before.seen.items()):
            if seen.last and key not in after.seen and (not new.has_dumps or key[0] in after.whole):
                out.append(seen.line.told("gone", seen.last.head))
    return out


def are_two(before, after, key):
    was, now = before.seen.get(key), after.seen.get(key)
    return bool(was and now and was.last and now.last) and None not in (was.kind, now.kind) and was.kind != now.kind


def came_or_changed(old, new, name, is_all):
    before, after = old.hosts.get(name, Host()), new.hosts[name]
    for key, now in sorted(after.seen.items()):
        was = before.seen.get(key)
        if now.last is None or was and was.last is None:
            continue
        if was is None:
            if not old.has_dumps or key[0] in before.whole:
                yield now.line.told("new", now.last.head)
        elif are_two(before, after, key) or key[0] in PARTS and are_two(before, after, (0, key[1])):
            yield was.line.told("gone", was.last.head)
            yield now.line.told("new", now.last.head)
        elif was.last.text != now.last.text:
            yield new.changed(now.line, was, now.last)
