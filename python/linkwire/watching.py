"""Which links came, went or changed: what linkdiff(1) says of lines, as values."""

import functools
import json
import struct
import sys
import time as clock
from datetime import datetime
from typing import Any, Dict, FrozenSet, Iterable, List, NamedTuple, Optional, Sequence, Set, Tuple

from .messages import (HEADER_SIZE, Bytes, Change, Fault, attributes, canonical, diff, is_chosen, pick, show_json,
                       state, text)
from .numbers import IFLA_EVENT, IFLA_IFNAME, IFLA_INFO_KIND, IFLA_LINKINFO, IFLA_WIRELESS

AF_UNSPEC, AF_BRIDGE, AF_INET6 = 0, 7, 10

Key = Tuple[int, int]  # family and index


class Event(NamedTuple):
    """What happened to a link.

    change: `new`, `gone` or `changed`; `lost`, where messages were lost, and what came, went or changed meanwhile
        follows with the next dump; or `fault`, where a message is refused, whose link is there all the same. With
        `dumps` also `done`, behind the last event of a dump that was whole, of its family; and `again`, where by then
        all families are whole again that were so before messages were lost.
    host: the machine, as `Watch` was given it; empty where it was given none.
    family, ifindex, ifname: of the link, its new name; None where they are not known.
    changes: where it changed, what did.
    message: the new message, or the last one where it went; the refused bytes of a fault.
    fault: the `Fault`.
    time: the word `time=` of the line, as it stands there; of what the kernel said when it was told, in UTC, as
        linkdump(1) writes it.
    is_first: of `new`, whether `changes_only` leaves it out: the link may have been there before.
    """

    change: str
    host: str
    family: Optional[int] = None
    ifindex: Optional[int] = None
    ifname: Optional[str] = None
    changes: Sequence[Change] = ()
    message: bytes = b""
    fault: Optional[Fault] = None
    time: str = ""
    is_first: bool = False

    def __repr__(self) -> str:
        """Without the message, which is long."""
        return "Event(" + ", ".join(f"{name}={value!r}" for name, value in zip(self._fields, self)
                                    if name != "message" and value not in ("", None, ()) and value is not False) + ")"

    @property
    def when(self) -> Optional[datetime]:
        """Its time, in UTC; None where that is not as linkdump(1) writes it."""
        return _when(self.time)

    def json(self, line: str = "") -> str:
        """The line of linkdiff(1), in ASCII.

        line: that was read, of whose words `type=`, `time=` and `host=` stand there; without it its own time and host.
        """
        own = {name: it for name, it in (("time", self.time), ("host", self.host)) if it}
        words = _parted(line)[0] if line else own
        found: Dict[str, Any] = {name: _utf8(words[name]) for name in ("type", "time", "host") if name in words}
        if self.fault is not None:
            found.update(json.loads(show_json(self.message, "running", True)))
        else:
            changes = [_there(it._asdict()) for it in self.changes] if self.change == "changed" else None
            found.update(_there({"change": self.change, "ifi-family": self.family, "ifi-index": self.ifindex,
                                 "ifname": self.ifname, "changes": changes}))
        return json.dumps(found, separators=(",", ":"))


@functools.lru_cache(maxsize=1)  # what comes at once has one time
def _when(time: str) -> Optional[datetime]:
    try:
        return datetime.strptime(time[:26].rstrip("Z") + "+0000", "%Y-%m-%dT%H:%M:%S.%f%z")
    except ValueError:
        return None


def _there(members: Dict[str, Any]) -> Dict[str, Any]:
    return {name: it for name, it in members.items() if it is not None}


def _utf8(word: str) -> str:
    """The word, in hexadecimal where it was no UTF-8."""
    raw = word.encode("utf-8", "surrogateescape")
    return word if raw == word.encode("utf-8", "replace") else raw.hex()


class Line(NamedTuple):
    """A line as linkdump(1) writes it: its words, the first of each key, and the message, or None: words alone."""

    words: Dict[str, str]
    message: Optional[bytes]


def utc() -> str:
    """Now, as linkdump(1) writes it."""
    now = clock.time_ns()
    return clock.strftime("%Y-%m-%dT%H:%M:%S", clock.gmtime(now // 10**9)) + f".{now % 10**9:09}Z"


def _parted(line: str) -> Tuple[Dict[str, str], str]:
    """The words in front of a line, and what follows them."""
    words: Dict[str, str] = {}
    digits = line.rstrip("\r\n").replace("\t", " ")
    while True:
        word, _, rest = digits.partition(" ")
        name, sign, value = word.partition("=")
        if not name or not sign:
            break
        words.setdefault(name, value)
        digits = rest.lstrip(" ")
    return words, digits


def read_line(line: str) -> Line:
    """Takes a line of linkdump(1), or of linkstate(1), apart: `key=value` words, a word `ok`, and hexadecimal digits.

    Raises ValueError where something else stands there.
    """
    words, digits = _parted(line)
    if not digits and words:
        return Line(words, None)
    if digits.startswith("ok "):
        digits = digits[3:]
    try:
        message = bytes.fromhex(digits)
    except ValueError:
        message = b""
    if 2 * len(message) != len(digits):  # it passes over blanks
        raise ValueError(f"neither words alone nor hexadecimal digits: {digits[:40]!r}")
    return Line(words, message)


def _name(message: bytes) -> Optional[str]:
    """The name that a message has, the last one of several; one that is refused is none."""
    found = pick(message, IFLA_IFNAME, last=True).get(IFLA_IFNAME)
    if found is None:
        return None
    try:
        return text(found)
    except UnicodeDecodeError:
        return _name_of_several(message)


def _name_of_several(message: bytes) -> Optional[str]:
    name = None
    for it in attributes(message):
        if it.number == IFLA_IFNAME:
            try:
                name = text(it.payload)
            except UnicodeDecodeError:
                pass
    return name


def kind_of(message: bytes) -> Optional[bytes]:
    """The kind that a message names: the last IFLA_INFO_KIND of the last IFLA_LINKINFO; an empty one is none, and so is
    one that ends behind its list."""
    info = bytes(pick(message, IFLA_LINKINFO, last=True).get(IFLA_LINKINFO, b""))
    found, at = None, 0
    while len(info) - at >= 4:
        size, number = struct.unpack_from("=HH", info, at)
        if number & 0x3FFF == IFLA_INFO_KIND:
            found = info[at + 4:at + size] if 4 <= size <= len(info) - at else None
        at += max(size + 3 & ~3, 4)
    return None if found is None or found[:1] == b"\0" else found.split(b"\0")[0]


def _without_event(message: bytes) -> bytes:
    """Without IFLA_EVENT, which says why a message was announced."""
    if IFLA_EVENT not in message:
        return message
    kept, at = [message[:HEADER_SIZE]], HEADER_SIZE
    try:
        for it in attributes(message):
            end = at + 4 + (len(it.payload) + 3 & ~3)
            if it.number != IFLA_EVENT or len(it.payload) != 4:
                kept.append(message[at:end])
            at = end
    except Fault:
        return message
    return b"".join(kept)


def _is_wireless_alone(message: bytes) -> bool:
    """Whether a message has no attributes but a name and what a wireless driver announces."""
    if IFLA_WIRELESS not in message:
        return False
    try:
        found = {it.number for it in attributes(message)}
    except Fault:
        return False
    return IFLA_WIRELESS in found <= {IFLA_WIRELESS, IFLA_IFNAME}


class _Seen:
    """Of a link the place of its last line, the last message that was not refused, and the last kind that one named."""

    __slots__ = "at", "message", "encoding", "kind"

    def __init__(self) -> None:
        self.at = 0
        self.message: Optional[bytes] = None
        self.encoding = b""
        self.kind: Optional[bytes] = None


class _Host:
    __slots__ = "known", "begun", "whole", "lost_at", "missing"

    def __init__(self) -> None:
        self.known: Dict[Key, _Seen] = {}
        self.begun: Optional[Tuple[str, int]] = None
        self.whole: Set[int] = set()
        self.lost_at = 0  # the place of the last loss, where not all is whole again
        self.missing: Set[int] = set()  # the families that are not, of those that were

    def is_empty(self) -> bool:
        """Whether nothing is known: it is as a host of which nothing was said."""
        return not (self.known or self.begun or self.whole or self.lost_at)


class Watch:
    """The rules of linkdiff(1) over the messages of any number of hosts: what is known of each link, and what the next
    message says of it. It reads no socket: `Links.watch` does.

    counters: compares what moves by itself too.
    changes_only: leaves out `new` before the first whole dump of a host and family.
    kernel: the release that the messages are of; a word `kernel=` of a line is another one, of both messages that are
        compared with it.
    lenient: an attribute that is refused hides none of the others; there is a `fault` only where `canonical` raises it
        with lenient.
    dumps: tells `done` too, where a dump was whole, and `again`, where all is whole again after a loss; linkdiff has
        no lines of these.

    Each call returns what happened, in turn, and raises MemoryError, and NotImplementedError where the library lacks
    `linkwire_diff` or lenient reading. Their `time` is that of the events.
    """

    def __init__(self, counters: bool = False, changes_only: bool = False, kernel: Optional[str] = None,
                 lenient: bool = False, dumps: bool = False) -> None:
        self._counters, self._changes_only = is_chosen("counters", counters), is_chosen("changes_only", changes_only)
        self._lenient, self._dumps = is_chosen("lenient", lenient), is_chosen("dumps", dumps)
        self._kernel = kernel
        self._hosts: Dict[str, _Host] = {}
        self._at, self._now = 0, ""

    def _of(self, host: str) -> _Host:
        found = self._hosts.get(host)
        if found is None:
            found = self._hosts[host] = _Host()
        return found

    def begin(self, dump: str, host: str = "") -> List[Event]:
        """A dump begins, of this number or name: a link of which nothing comes before its `done` went."""
        self._at += 1
        self._of(host).begun = dump, self._at
        return []

    def done(self, dump: str, family: int, host: str = "", time: str = "") -> List[Event]:
        """The dump ended, and had all links of the family. One that did not begin ends nothing."""
        self._at, self._now = self._at + 1, time
        it = self._of(host)
        if it.begun is None or it.begun[0] != dump:
            self._drop(host)
            return []
        since = it.begun[1]
        families = (AF_UNSPEC, AF_BRIDGE, AF_INET6) if family == AF_UNSPEC else (family,)
        missed = [key for key, seen in it.known.items() if key[0] in families and seen.at < since
                  and self._last(it, (family, key[1])) < since]
        it.whole.add(family)
        told = self._end(host, it, sorted(missed))
        return told + self._whole(host, it, family, since) if self._dumps else told

    def _whole(self, host: str, it: _Host, family: int, since: int) -> List[Event]:
        told = [Event("done", host, family, time=self._now)]
        if it.lost_at and since > it.lost_at:
            it.missing.discard(family)
            if not it.missing:
                it.lost_at = 0
                told.append(Event("again", host, time=self._now))
        return told

    @staticmethod
    def _last(it: _Host, key: Key) -> int:
        seen = it.known.get(key)
        return 0 if seen is None else seen.at

    def lost(self, host: str = "", time: str = "") -> List[Event]:
        """Messages were lost."""
        self._at, self._now = self._at + 1, time
        if self._dumps:
            it = self._of(host)
            it.lost_at, it.missing = self._at, set(it.whole)
        return [Event("lost", host, time=time)]

    def blind(self, host: str = "") -> List[Event]:
        """Something came that cannot be read: the dump that runs ends nothing."""
        self._at += 1
        self._of(host).begun = None
        self._drop(host)
        return []

    def _drop(self, host: str) -> None:
        """Forgets a host of which nothing is known: many may come and go."""
        if self._hosts[host].is_empty():
            del self._hosts[host]

    def _end(self, host: str, it: _Host, keys: Iterable[Key]) -> List[Event]:
        told = []
        for key in keys:
            seen = it.known.pop(key, None)
            if seen is not None and seen.message is not None:
                told.append(self._event("gone", host, key, seen.message))
        return told

    def _event(self, change: str, host: str, key: Key, message: bytes, changes: Sequence[Change] = ()) -> Event:
        return Event(change, host, *key, _name(message), changes, message, None, self._now)

    def _fault_of(self, host: str, key: Tuple[Optional[int], Optional[int]], message: bytes,
                  fault: Optional[Fault]) -> Event:
        return Event("fault", host, *key, message=message, fault=fault, time=self._now)

    @staticmethod
    def _parts(key: Key) -> List[Key]:
        return [(AF_BRIDGE, key[1]), (AF_INET6, key[1])] if key[0] == AF_UNSPEC else []

    def message(self, message: Bytes, is_gone: bool = False, host: str = "", kernel: Optional[str] = None,
                time: str = "") -> List[Event]:
        """A message of a link (RTM_NEWLINK), or that it went (RTM_DELLINK)."""
        message, self._now = bytes(memoryview(message)), time
        if len(message) < HEADER_SIZE:
            self.blind(host)
            return [self._fault_of(host, (None, None), message, self._fault(message))]
        self._at += 1
        key = message[0], int.from_bytes(message[4:8], sys.byteorder, signed=True)
        it = self._of(host)
        if is_gone:
            told = self._go(host, it, key, message)
        elif _is_wireless_alone(message) and self._fault(message) is None:
            told = []
        else:
            told = self._come(host, it, key, message, kernel or self._kernel)
        self._drop(host)
        return told

    def _go(self, host: str, it: _Host, key: Key, message: bytes) -> List[Event]:
        try:
            self._encoding(_without_event(message))
        except Fault:
            told = [self._fault_of(host, key, message, self._fault(message))]
            return told + self._end(host, it, [key, *self._parts(key)])
        told = []
        if it.known.pop(key, None) is not None or key[0] == AF_UNSPEC:
            told.append(self._event("gone", host, key, message))
        return told + self._end(host, it, self._parts(key))

    def _encoding(self, message: bytes) -> bytes:
        return canonical(message, self._lenient) if self._counters else state(message, self._lenient)

    def _fault(self, message: bytes) -> Optional[Fault]:
        try:
            canonical(message, self._lenient)
        except Fault as fault:
            return fault
        return None

    def _come(self, host: str, it: _Host, key: Key, message: bytes, kernel: Optional[str]) -> List[Event]:
        seen = it.known.get(key)
        if seen is None:
            seen = it.known[key] = _Seen()
        seen.at = self._at
        given, message = message, _without_event(message)
        try:
            encoding = self._encoding(message)
        except Fault:
            return [self._fault_of(host, key, given, self._fault(given))]
        if seen.message is not None and seen.encoding == encoding:
            seen.message = message
            return []
        kind, told = kind_of(encoding), []
        is_other = None not in (kind, seen.kind) and kind != seen.kind
        if is_other:
            told = self._end(host, it, [key, *self._parts(key)])
            seen = it.known[key] = _Seen()
            seen.at = self._at
        if seen.message is not None:
            changes = diff(seen.message, message, kernel, self._counters, self._lenient)
            told.append(self._event("changed", host, key, message, changes))
        else:
            new = self._event("new", host, key, message)._replace(is_first=not is_other and key[0] not in it.whole)
            told += [] if new.is_first and self._changes_only else [new]
        seen.message, seen.encoding, seen.kind = message, encoding, seen.kind if kind is None else kind
        return told

    def line(self, line: str) -> List[Event]:
        """A line of linkdump(1), of which `host=`, `type=`, `time=`, `kernel=`, `seq=`, `port=` and `family=` count.

        Raises ValueError where it is none, after which the dump of its host that runs ends nothing."""
        try:
            words, message = read_line(line)
        except ValueError:
            words = _parted(line)[0]
            if words.get("type") not in ("get", "set"):  # which are no links of a dump
                self.blind(words.get("host", ""))
            raise
        host, what, self._now = words.get("host", ""), words.get("type"), words.get("time", "")
        if message is not None:
            if what in ("get", "set"):  # a request
                fault = self._fault(message)
                return [] if fault is None else [self._fault_of(host, (None, None), message, fault)]
            return self.message(message, what == "del", host, words.get("kernel"), self._now)
        dump = f"{words.get('seq')} {words.get('port')}"
        if what == "begin":
            return self.begin(dump, host)
        if what == "done" and words.get("family", "").isdigit():
            return self.done(dump, int(words["family"]), host, self._now)
        return self.lost(host, self._now) if what == "lost" else []

    def links(self, host: str = "") -> Dict[Key, bytes]:
        """The last message of each link that is there, by family and index; of refusals alone there is none."""
        known = self._hosts[host].known if host in self._hosts else {}
        return {key: seen.message for key, seen in known.items() if seen.message is not None}

    def hosts(self) -> List[str]:
        """The hosts of which something is known."""
        return list(self._hosts)

    def whole(self, host: str = "") -> FrozenSet[int]:
        """The families of a host of which a dump was whole."""
        return frozenset(self._hosts[host].whole if host in self._hosts else ())

    def compared(self, new: "Watch", host: str = "", came: bool = True, went: bool = True) -> List[Event]:
        """What another watch knows of a host and this one does not, as one tells it that first knew this.

        came, went: whether this one knew all links of the host, and whether the other one does; without, each link that
            only the other one has is `is_first`, and none that only this one has is told.
        """
        watch, there = Watch(self._counters, False, self._kernel, self._lenient), new.links(host)
        watch.begin("old", host)
        for message in self.links(host).values():
            watch.message(message, host=host)
        for family in {family for family, _ in there} if came else ():
            watch.done("old", family, host)
        watch.begin("new", host)
        told = [it for message in there.values() for it in watch.message(message, host=host)]
        return told + (watch.done("new", AF_UNSPEC, host) if went else [])
