"""Messages as bytes: checked, encoded, shown, compared, taken apart and built."""

import collections
import ctypes
import functools
import hashlib
import itertools
import json
import os
import re
import struct
import sys
from typing import Any, Dict, Iterable, Iterator, List, NamedTuple, NoReturn, Optional, Tuple, Union

from . import numbers
from ._library import CAUSES, OUT_OF_MEMORY, Path, Refused, encoding_of, library, text_of

HEADER_SIZE = 16
CANONICAL_FORM: int = library.linkwire_canonical_form()
STATE_FORM: int = library.linkwire_state_form()
_HAS_LENIENT = "linkwire_lenient_form" not in library.lacks
LENIENT_FORM: int = library.linkwire_lenient_form() if _HAS_LENIENT else 0  # of a library that reads none leniently

Bytes = Union[bytes, bytearray, memoryview]

# by whether a message is read leniently: what a key begins with, and what writes and measures an encoding
_FORMS = f"{CANONICAL_FORM}.{STATE_FORM}:", f"L{LENIENT_FORM}.{STATE_FORM}:"
_LENGTH = library.linkwire_canonical_len, library.linkwire_canonical_lenient_len
_CANONICAL = library.linkwire_canonical, library.linkwire_canonical_lenient
_STATE = library.linkwire_state, library.linkwire_state_lenient
_NAMES = {number: name for name, number in vars(numbers).items() if name.startswith("IFLA_")
          and not name.startswith("IFLA_INFO_")}
_LENIENT, _COUNTERS = 1, 2  # LINKWIRE_LENIENT, LINKWIRE_COUNTERS


class Fault(ValueError):
    """Why bytes are no message, or have no canonical encoding.

    cause: as linkshow(1) names it: `too-short`, `frame-short`, `frame-over`, `frame-under`, `empty-list`,
        `wrong-length`, `not-utf8`; of a message that has no canonical encoding `unfit` or `empty-ports`.
    offset: in bytes from the start of the message, of the innermost attribute at fault; None where the bytes are a
        message.
    path: the numbers of the attributes that lead there, the outermost first; at most four.
    message: the bytes.
    """

    def __init__(self, cause: str, offset: Optional[int], path: Tuple[int, ...], message: bytes) -> None:
        self.cause, self.offset, self.path, self.message = cause, offset, path, message
        text = {it: phrase for it, phrase in CAUSES.values()}.get(cause, cause)
        if offset is not None:
            text += f", at byte {offset}"
        if path:
            text += " in " + " ".join([_NAMES.get(path[0], str(path[0])), *map(str, path[1:])])
        super().__init__(text)

    def __reduce__(self) -> Tuple[Any, ...]:
        return type(self), (self.cause, self.offset, self.path, self.message)

    @property
    def before(self) -> Dict[str, Any]:
        """What the message says in front of the fault, as `show` has it: members of the outermost list."""
        found: Dict[str, Any] = show(self.message).get("before", {})
        return found


class Change(NamedTuple):
    """A member that differs: its path in what `show` returns. `old` is None where it came, `new` where it went. A value
    of a list that paths name by a number comes and goes whole: the path ends with its label, `other[number=70]`, and
    the value is the dict that `show` has. VLANs that come or go together are one change, with the path
    `af-spec.vlan-info[vid=10-20]`, the dict of the first one, and its `vid-end`. Of a list of texts each that comes or
    goes is a change, `prop-list.alt-ifname[]`: such a path comes as often as texts do."""

    path: str
    old: Any
    new: Any


def _pickled(kind: Any, number: Optional[int], flags: int, payload: bytes, *rest: Any) -> Any:
    return kind(number, flags, memoryview(payload), *rest)


class Attribute(NamedTuple):
    """An attribute: its number, its two flag bits (0x8000 and 0x4000), and its payload, a view of the message."""

    number: int
    flags: int
    payload: memoryview

    def __reduce__(self) -> Tuple[Any, ...]:
        return _pickled, (type(self), self.number, self.flags, bytes(self.payload))


class Refusal(NamedTuple):
    """An attribute of the outermost list that is refused, where others are read.

    number, flags, payload: its own, as those of `Attribute`. Of bytes behind the attributes that are none the number is
        None, and the payload all of them.
    fault: the cause, as `Fault` has it.
    offset, path: of the innermost attribute at fault, as `Fault` has them.
    """

    number: Optional[int]
    flags: int
    payload: memoryview
    fault: str
    offset: int
    path: Tuple[int, ...]

    def __reduce__(self) -> Tuple[Any, ...]:
        return _pickled, (type(self), self.number, self.flags, bytes(self.payload), *self[3:])


def is_chosen(name: str, value: bool) -> bool:
    """This value of a parameter, which is True or False."""
    if value is not True and value is not False:
        raise TypeError(f"{name} is True or False, and not {value!r}")
    return value


def _own(message: Bytes) -> bytes:
    return message if type(message) is bytes else bytes(memoryview(message))


def _refuse(number: int, message: bytes, lenient: bool = False) -> NoReturn:
    """Raises what a number below zero says of the message."""
    if number == OUT_OF_MEMORY:
        raise MemoryError("linkwire")
    cause, path = CAUSES.get(number, (str(number), ""))[0], Path()
    if lenient and len(message) >= HEADER_SIZE:
        collections.deque(attributes(message), 0)  # raises where one does not fit, which strictly may be another fault
        raise Fault(cause, None, (), message)
    if library.linkwire_fault_path(message, len(message), ctypes.byref(path)) == number:
        raise Fault(cause, path.at, tuple(path.numbers[: path.depth]), message)
    raise Fault(cause, None, (), message)


_check = library.linkwire_check


def check(message: Bytes) -> None:
    """Returns where the bytes are a message; else raises `Fault`, the first one, front to back."""
    if type(message) is not bytes:
        message = _own(message)
    number = _check(message, len(message))
    if number < 0:
        _refuse(number, message)


def _encoded(calls: Tuple[Any, Any], message: Bytes, lenient: bool) -> bytes:
    message = _own(message)
    is_chosen("lenient", lenient)
    length, encoding = encoding_of(calls[lenient], _LENGTH[lenient], message)
    if encoding is None:
        _refuse(length, message, lenient)
    return encoding


def canonical(message: Bytes, lenient: bool = False) -> bytes:
    """The canonical encoding: two byte strings mean the same message exactly where theirs are equal.

    lenient: an attribute of the outermost list that is refused is kept as it is. Where none is, the encoding is the
        same. Encodings of the two readings have numbers of their own, CANONICAL_FORM and LENIENT_FORM.

    Raises `Fault`; with lenient only where the header is too short, where an attribute does not fit, `unfit` and
    `empty-ports`. The calls that have it raise NotImplementedError where the library has no lenient reading.
    """
    return _encoded(_CANONICAL, message, lenient)


def state(message: Bytes, lenient: bool = False) -> bytes:
    """The state encoding: the canonical one in which what an idle kernel moves by itself is zero. Takes lenient, and
    raises `Fault`, as `canonical` does."""
    return _encoded(_STATE, message, lenient)


def key(message: Bytes, lenient: bool = False) -> str:
    """The key of a link's state: `CANONICAL.STATE:`, the numbers of the two forms, and the SHA-256 of the state
    encoding. It stays the same while settings and state do, whatever the counters count.

    lenient: as for `canonical`. The key begins with `LLENIENT.STATE:`, the number of the lenient form in the place of
        the canonical one: a store has keys of one sort, of all links.

    Raises `Fault`, as `canonical` does.
    """
    digest = hashlib.sha256(_encoded(_STATE, message, lenient)).hexdigest()
    return _FORMS[lenient] + digest


def _refuse_one(number: int, old: bytes, new: bytes, lenient: bool = False) -> NoReturn:
    """Raises what a number below zero says of two messages: of the first that is refused."""
    if number != OUT_OF_MEMORY:
        canonical(old, lenient)
        canonical(new, lenient)
    raise MemoryError("linkwire")


def _same(call: Any, a: bytes, b: bytes) -> bool:
    answer: int = call(a, len(a), b, len(b))
    if answer < 0:
        _refuse_one(answer, a, b)
    return answer == 1


def same_message(a: Bytes, b: Bytes, lenient: bool = False) -> bool:
    """Whether both mean the same message. Takes lenient as `canonical` does, and raises what that raises, of the first
    that is refused, and MemoryError."""
    if is_chosen("lenient", lenient):
        return canonical(a, True) == canonical(b, True)
    return _same(library.linkwire_same_message, _own(a), _own(b))


def same_state(a: Bytes, b: Bytes, lenient: bool = False) -> bool:
    """Whether both have one state encoding. Takes lenient as `canonical` does, and raises what that raises, of the
    first that is refused, and MemoryError."""
    if is_chosen("lenient", lenient):
        return state(a, True) == state(b, True)
    return _same(library.linkwire_same_state, _own(a), _own(b))


def refusals(message: Bytes) -> Iterator[Refusal]:
    """The attributes of the outermost list that are refused, and that lenient reading keeps as they are, in turn.

    The last one may be bytes behind the attributes that are none: of such a message lenient reading refuses all. Raises
    `Fault` of a header that is too short, where the first is asked for, and NotImplementedError where the library has
    no lenient reading.
    """
    message = _own(message)
    view, at, found = memoryview(message), ctypes.c_size_t(0), Refused()
    while True:
        answer = library.linkwire_refusal_next(message, len(message), ctypes.byref(at), ctypes.byref(found))
        if answer <= 0:
            break
        kind, start, path = found.attribute.kind, found.attribute.payload, found.path
        told = CAUSES[found.fault][0], path.at, tuple(path.numbers[: path.depth])
        if found.is_attribute:
            yield Refusal(kind & 0x3FFF, kind & 0xC000, view[start : start + found.attribute.payload_len], *told)
        else:
            yield Refusal(None, 0, view[found.offset :], *told)
    if answer < 0:
        _refuse(answer, message)


@functools.lru_cache(maxsize=64)
def _order(kernel: Optional[str]) -> int:
    """The order of the counters of IPv6 in a kernel, as a number of linkwire.h."""
    if kernel is None:
        return 0
    release = (os.uname().release if kernel == "running" else kernel).encode()
    found: int = library.linkwire_order(release, len(release))
    return found


def _flags(lenient: bool, counters: bool = False) -> int:
    if is_chosen("lenient", lenient) and not _HAS_LENIENT:  # an older library passes over flags that it does not know
        library.linkwire_lenient_form()
    return _LENIENT * lenient + _COUNTERS * is_chosen("counters", counters)


def show_json(message: Bytes, kernel: Optional[str] = None, lenient: bool = False) -> bytes:
    """What `show` reads: the line of linkshow(1), without its end. It takes and raises what `show` does."""
    message = _own(message)
    length, text = text_of(library.linkwire_show, message, len(message), _order(kernel), _flags(lenient))
    if text is None:
        _refuse(length, message)
    return text


def show(message: Bytes, kernel: Optional[str] = None, lenient: bool = False) -> Dict[str, Any]:
    """What linkshow(1) answers: members by the names of the kernel's `rt_link.yaml`. An attribute that may come many
    times, as `vlan-info` of `af-spec`, is a list, also if it comes once; linkshow(1) has a table of all.

    kernel: the release that the message is of, as `6.12.0-47`, or `running`. It decides the order of the counters of
        IPv6; without it they are a list of numbers.
    lenient: attributes of the outermost list that are refused hide none of the others: the last member, `refused`, is
        a list of them, each with `at`, `fault`, `offset` and, in hexadecimal, `payload`; `in` names the attribute where
        the fault is deeper.

    Bytes that are no message are no exception here: `fault`, `at`, `offset`, `before` are what linkshow says of them;
    with lenient only those whose header is too short, or of which an outermost attribute does not fit. Raises
    MemoryError, and NotImplementedError where the library lacks the call or lenient reading.
    """
    return _objects([show_json(message, kernel, lenient)])[0]


def show_all(messages: Iterable[Bytes], kernel: Optional[str] = None, lenient: bool = False
             ) -> Iterator[Dict[str, Any]]:
    """What `show` returns of each in turn: of many faster, and with each name once in memory."""
    rest = iter(messages)
    while True:
        some = [show_json(it, kernel, lenient) for it in itertools.islice(rest, 256)]
        if not some:
            return
        yield from _objects(some)


_CONF = b'"conf":{'


@functools.lru_cache(maxsize=256)
def _settings(text: bytes) -> Dict[str, Any]:
    found: Dict[str, Any] = json.loads(b"{" + text + b"}")
    return found


def _objects(texts: List[bytes]) -> List[Dict[str, Any]]:
    """What these texts say. The settings of IPv4 and IPv6 are half of a text, and most links have those of another one:
    they are read once, and copied."""
    short: List[bytes] = []
    settings: List[List[bytes]] = []
    for text in texts:
        first, *others = text.split(_CONF)  # no text holds this: a quote in it has a backslash in front
        cut = [it.partition(b"}") for it in others]  # they are numbers alone
        settings.append([inner for inner, _, _ in cut])
        short.append(b'"conf":null'.join([first, *(rest for _, _, rest in cut)]))
    found = json.loads(f"[{b','.join(short).decode()}]")
    return [it if _fill(it, inner) else json.loads(text.decode()) for it, inner, text in zip(found, settings, texts)]


def _fill(found: Dict[str, Any], settings: List[bytes]) -> bool:
    """Puts settings in their places; false where these are not as many."""
    places: List[Any] = []
    for name in "protinfo", "af-spec":
        it = found.get(name)
        places += [it] if name == "protinfo" else it.values() if isinstance(it, dict) else []
    places = [it for it in places if isinstance(it, dict) and it.get("conf", 0) is None]
    for place, text in zip(places, settings):
        place["conf"] = _settings(text).copy()
    return len(places) == len(settings)


def diff(old: Bytes, new: Bytes, kernel: Optional[str] = None, counters: bool = False,
         lenient: bool = False) -> List[Change]:
    """What changed from one message to another, as linkdiff(1) tells it; an empty list where the states are equal.
    IFLA_EVENT, which announcements alone have, is left out of both first. VLANs have their numbers in the path,
    `af-spec.vlan-info[vid=10-20].flags`; linkdiff(1) says how paths name the values of lists. Where nothing else
    differs, lists in another order are told whole.

    kernel, lenient: as for `show`, of both messages.
    counters: compares the canonical encodings, so that what moves by itself is there too.

    Raises `Fault`, of the first that has one, as `canonical` does, MemoryError, and NotImplementedError where the
    library has no `linkwire_diff`, or no lenient reading.
    """
    old, new = _own(old), _own(new)
    length, text = text_of(library.linkwire_diff, old, len(old), new, len(new), _order(kernel),
                           _flags(lenient, counters))
    if text is None:
        _refuse_one(length, old, new, lenient)
    changes = json.loads(text.decode()) if text else []
    return [Change(it["path"], it.get("old"), it.get("new")) for it in changes]


_FRAME = struct.Struct("=HH").unpack_from
_KINDS = ("frame-short", "frame-over", "frame-under")


def _bytes_of(message: Bytes) -> memoryview:
    """A view of the bytes, whatever the items of another view are."""
    view = memoryview(message)
    if type(message) is bytes:
        return view
    if view.format == "B" and view.ndim == 1 and view.c_contiguous:
        return view
    return view.cast("B") if view.c_contiguous else memoryview(view.tobytes())


def attributes(message: Bytes, start: int = HEADER_SIZE) -> Iterator[Attribute]:
    """The attributes of a message in turn; of a list in a payload, with 0 for `start`.

    Raises `Fault` (`frame-short`, `frame-over`, `frame-under`) where the next one does not fit, after those in front
    of it. Nothing else is looked at: `check` first what comes from others.
    """
    view = _bytes_of(message)
    at, end = start, len(view)
    while at < end:
        size, kind = _FRAME(view, at) if end - at >= 4 else (end - at, 0)
        if size < 4 or size > end - at:
            cause = _KINDS[0] if end - at < 4 else _KINDS[1] if size >= 4 else _KINDS[2]
            raise Fault(cause, at, (), bytes(view))
        yield Attribute(kind & 0x3FFF, kind & 0xC000, view[at + 4 : at + size])
        at += (size + 3) & ~3


def pick(message: Bytes, *numbers: int, start: int = HEADER_SIZE, last: bool = False) -> Dict[int, memoryview]:
    """The payloads of attributes, by number; of one that comes twice the first, and nothing of one that does not come.

    last: of one that comes twice the last, as the kernel and `show` have it.

    It looks no further than it has to, and raises what `attributes` raises.
    """
    view = _bytes_of(message)
    at, end = start, len(view)
    found: Dict[int, memoryview] = {}
    left = len(view) if last else len(numbers)
    while end - at >= 4 and len(found) < left:
        size, kind = _FRAME(view, at)
        if size < 4 or size > end - at:
            break
        if kind & 0x3FFF in numbers:
            if last or kind & 0x3FFF not in found:
                found[kind & 0x3FFF] = view[at + 4 : at + size]
        at += (size + 3) & ~3
    if at < end and len(found) < left:
        next(attributes(view, at))  # which does not fit
    return found


def text(payload: Bytes) -> str:
    """A text of a payload, without the NUL at its end. Raises UnicodeDecodeError; none does that `check` accepts."""
    found = _own(payload)
    return (found[:-1] if found[-1:] == b"\0" else found).decode()


def number(payload: Bytes) -> int:
    """The number of a payload, in host order."""
    return int.from_bytes(payload, sys.byteorder)


def _packed(form: str, width: str, value: int) -> bytes:
    try:
        return struct.pack(form, value)
    except struct.error:
        raise ValueError(f"{value!r} is no {width}") from None


def u8(value: int) -> bytes:
    """A number of one byte, as the payload of an attribute. Raises ValueError where it has no room, as the rest do."""
    return _packed("=B", "u8", value)


def u16(value: int) -> bytes:
    """A number of two bytes, in host order."""
    return _packed("=H", "u16", value)


def be16(value: int) -> bytes:
    """A number of two bytes in network order, as IFLA_VLAN_PROTOCOL and ports have it."""
    return _packed(">H", "be16", value)


def u32(value: int) -> bytes:
    """A number of four bytes, in host order."""
    return _packed("=I", "u32", value)


def be32(value: int) -> bytes:
    """A number of four bytes in network order."""
    return _packed(">I", "be32", value)


def u64(value: int) -> bytes:
    """A number of eight bytes, in host order."""
    return _packed("=Q", "u64", value)


def mac(address: str) -> bytes:
    """The bytes of an address as `02:00:00:00:00:01` or `02-00-00-00-00-01`, as IFLA_ADDRESS has it: six, or eight or
    twenty as other devices have. Raises ValueError where it is none."""
    found = re.fullmatch("[0-9A-Fa-f]{2}(?:([:-])[0-9A-Fa-f]{2}(?:\\1[0-9A-Fa-f]{2})*)?", address)
    if found is None or len(address) not in (17, 23, 59):
        raise ValueError(f"{address!r} is no address of 6, 8 or 20 bytes")
    return bytes.fromhex(address.replace(found[1], ""))


# the attributes of a list that are texts, by the numbers that lead to it; what a kind of device has is not known here
_TEXTS: Dict[Tuple[int, ...], Tuple[int, ...]] = {
    (): (numbers.IFLA_IFNAME, numbers.IFLA_QDISC, numbers.IFLA_IFALIAS, numbers.IFLA_PHYS_PORT_NAME,
         numbers.IFLA_ALT_IFNAME, numbers.IFLA_PARENT_DEV_NAME, numbers.IFLA_PARENT_DEV_BUS_NAME),
    (numbers.IFLA_PROP_LIST,): (numbers.IFLA_ALT_IFNAME,),
    (numbers.IFLA_LINKINFO,): (numbers.IFLA_INFO_KIND, numbers.IFLA_INFO_SLAVE_KIND),
}

# a list holds pairs of a number and a value again
Value = Union[bytes, bytearray, memoryview, str, List[Any]]


def _payload(value: Value, path: Tuple[int, ...]) -> bytes:
    if isinstance(value, str):
        if path[:-1] in _TEXTS and path[-1] not in _TEXTS[path[:-1]] and (path[1:] or path[0] in _NAMES):
            name = " ".join([_NAMES.get(path[0], str(path[0])), *map(str, path[1:])])
            raise TypeError(f"{name} is no text, as {value!r} is: bytes, which mac, u32 and the like make")
        return value.encode() + b"\0"
    if isinstance(value, list):
        return b"".join(_frame(kind, it, path) for kind, it in value)
    if isinstance(value, int):
        raise TypeError(f"{value!r} has no width: u8, u16, be16, u32, be32 or u64")
    return _own(value)


def _frame(kind: int, value: Value, path: Tuple[int, ...] = ()) -> bytes:
    payload = _payload(value, (*path, kind & 0x3FFF))
    if len(payload) > 65531:
        raise ValueError(f"attribute {kind & 0x3FFF} would have {len(payload)} bytes, and 65531 are the most")
    return u16(4 + len(payload)) + u16(kind) + payload + bytes(-len(payload) % 4)


def build(attributes: Iterable[Tuple[int, Value]] = (), *, family: int = 0, index: int = 0, flags: int = 0,
          change: int = 0, link_type: int = 0) -> bytes:
    """A message: the header and attributes, pairs of a number and a value.

    A text is written with a NUL behind it, bytes as they are, a list as a nest. A number has a width: `u32(1400)`, and
    an address is `mac("02:00:00:00:00:01")`. The number of a nest is written as it is given: with NLA_F_NESTED where
    the kernel demands it.

    Raises ValueError where a number or a value has no room, TypeError at a value of another type, and at a str where
    linux/if_link.h has no text. What is in the data of a kind is not looked at.
    """
    try:
        header = struct.pack("=BxHiII", family, link_type, index, flags, change)
    except struct.error as error:
        raise ValueError(f"the header: {error}") from None
    return header + b"".join(_frame(kind, value) for kind, value in attributes)
