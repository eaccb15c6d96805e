"""Texts for people: no character of them gets through that a terminal would obey, or would not show."""

import itertools
import re
import unicodedata
from typing import Any, Callable, Iterable, Iterator, List, Mapping, Tuple

from .messages import Change
from .views import Told, flat, is_whole, list_of

_SHORT = {"ifi-flags": "flags", "operstate": "state", "ifname": "name", "ifalias": "alias", "txqlen": "qlen",
          "prop-list.alt-ifname": "altname"}
_LISTS = {"prop-list.alt-ifname"}  # of one in another order all is told
_SETS = {"ifi-flags", "port.vlan", *_LISTS}
_TEXTS = {"lost": "messages of the kernel: all links are asked for again",
          "again": "all is known: what changed meanwhile is told above"}
_QUOTED = set(' ",()[]→;')
# the label of a value of a list: behind which list, the name of the number that it says, that number, and the last one
# of a range
_LABEL = re.compile(r"(.*)\[(([a-z]+)(?:=([0-9]+)(?:-([0-9]+))?)?[^]]*)\]")


def escaped(text: str, encoding: str = "utf-8") -> str:
    """The text with an escape for each backslash, and for each character that is not encodable or not printable: of the
    categories C and Z of Unicode, but for the blank. Controls of writing direction are in C."""
    text = text.replace("\\", "\\\\")
    if text.isascii() and text.isprintable():
        return text
    return "".join(it if it.isprintable() and it.encode(encoding, "ignore") else
                   f"\\u{ord(it):04x}" if ord(it) < 0x10000 else f"\\U{ord(it):08x}" for it in text)


def width(text: str) -> int:
    """How many columns an escaped text takes; colours, which may be put around it, take none."""
    if text.isascii() and "\x1b" not in text:
        return len(text)
    return sum(0 if unicodedata.category(it) in ("Mn", "Me") else 2 if unicodedata.east_asian_width(it) in "WF" else 1
               for it in re.sub("\x1b\\[[0-9;]*m", "", text))


def _ranges(vlans: Iterable[Tuple[int, str]]) -> Iterator[str]:
    """VLANs as `10-20(untagged)`: neighbours are as far apart in number as in place."""
    for (_, flags), run in itertools.groupby(enumerate(sorted(vlans)), lambda it: (it[1][0] - it[0], it[1][1])):
        numbers = [vid for _, (vid, _) in run]
        yield "-".join(map(str, sorted({numbers[0], numbers[-1]}))) + (f"({flags})" if flags else "")


class Words:
    """How changes are written, as linkwatch(1) has it.

    encoding: of the output; a character that it lacks is escaped.
    is_whole: texts of more than 64 characters are whole; else they are cut, and their length stands behind.
    mark: what is done to the new value behind an arrow, such as to colour it.
    """

    def __init__(self, encoding: str = "utf-8", is_whole: bool = False, mark: Callable[[str], str] = str) -> None:
        self._encoding, self._is_whole, self._mark = encoding, is_whole, mark
        self._arrow = "→" if "→".encode(encoding, "ignore") else "->"

    def name(self, text: str) -> str:
        """A name: a blank is escaped too, so that a forged name cannot look like the rest of a line."""
        return escaped(text, self._encoding).replace(" ", "\\u0020")

    def value(self, value: Any) -> str:
        """A number, a text (quoted where it could be read as something else), a list, an object as `(to 4,from 3)`, or
        `none`."""
        if isinstance(value, list):
            return "[" + " ".join(map(self.value, value)) + "]"
        if isinstance(value, dict) and value:
            return self._object(flat(value))
        if not isinstance(value, str):
            return "none" if value is None else escaped(str(value), self._encoding)
        is_cut = not self._is_whole and len(value) > 64
        text = escaped(f"{value[:60]}...{len(value)}" if is_cut else value, self._encoding)
        is_bare = text not in ("", "none") and self._arrow not in text and not _QUOTED & set(text)
        return text if is_bare else '"' + text.replace('"', '\\"') + '"'

    def _object(self, members: Mapping[str, Any]) -> str:
        return "(" + ",".join(f"{escaped(name, self._encoding)} {self.value(it)}" for name, it in members.items()) + ")"

    def _moved(self, it: Change) -> Tuple[str, str]:
        """Of a value of a list that came or went the list, and its label, with what it says beside that; a text of a
        list has no label."""
        if list_of(it):
            value = self.value(it.new if it.old is None else it.old)
            return self._member(list_of(it)), ("+" if it.old is None else "-") + value
        found = _LABEL.fullmatch(it.path)
        if found is None:
            return "", ""
        of, label, key, number, last = found.groups()
        there = it.new if it.old is None else it.old
        said = {name: one for name, one in flat(there).items() if not isinstance(one, int) or (
            name.rpartition(".")[2], str(one)) not in ((key, number), (f"{key}-end", last))}
        return self._member(of), ("+" if it.old is None else "-") + label + (self._object(said) if said else "")

    def _member(self, path: str) -> str:
        return escaped(_SHORT.get(path, path[5:] if path.startswith("port.") else path), self._encoding)

    def change(self, it: Change, is_new: bool = False) -> str:
        """`member old → new`; of a set or a list of texts what came and went, as `flags +up` or `altname +name`; of a
        value of a list its label, as `data.egress-qos.mapping +from=3(to 4)`; where the link is new `member value`."""
        member = self._member(it.path)
        if is_whole(it) or list_of(it):
            return " ".join(self._moved(it))
        if is_new:
            return f"{member} {self.value(it.new)}"
        if it.path not in _SETS or it.path in _LISTS and sorted(it.old or ()) == sorted(it.new or ()):
            return f"{member} {self.value(it.old)} {self._arrow} {self._mark(self.value(it.new))}"
        parts, old, new = [member], it.old or (), it.new or ()
        for sign, some, others in ("-", old, new), ("+", new, old):
            moved = [one for one in some if one not in others]
            parts += [sign + one for one in (_ranges(moved) if it.path == "port.vlan" else map(self.value, moved))]
        return " ".join(parts)

    def told(self, told: Told) -> List[str]:
        """What is told behind the name of the link, and behind `new` and the like: each change, or a text."""
        if told.what == "fault" or told.what in _TEXTS:
            return [escaped(_TEXTS.get(told.what, str(told.event.fault)), self._encoding)]
        parts: List[str] = []
        before = ""
        for it in told.changes:
            of, element = self._moved(it) if is_whole(it) or list_of(it) else ("", "")
            if of and of == before:  # of one list its name stands once
                parts[-1] += f" {element}"
            else:
                parts.append(self.change(it, told.what == "new"))
            before = of
        if told.port_of:
            parts[0] = f"port of {self.name(told.port_of)}: {parts[0]}"
        return parts
