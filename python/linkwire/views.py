"""What events say to people: names in the place of indices, each change once, of the links that are asked for."""

import fnmatch
import json
import re
import time
from typing import Any, Dict, FrozenSet, Iterable, Iterator, List, Mapping, NamedTuple, Optional, Sequence, Tuple

from .messages import Bytes, Change, show
from .watching import AF_BRIDGE, AF_UNSPEC, Event

_INDICES = {"master", "link", "port.backup-port", "data.link", "data.active-slave", "data.primary"}
# what seldom matters: how paths begin, behind which stands a $
_HIDDEN = ("qdisc$", "carrier$", "promiscuity$", "allmulti$", "min-mtu$", "max-mtu$", "headroom$", "tailroom$",
           "tso-max-size$", "state$", "linkinfo.slave-kind$", "af-spec$", "af-spec.", "data.root-id.",
           "data.bridge-id.", "data.bc-queue-len-used", "port.root-id.", "port.bridge-id.", "port.designated-",
           "port.id", "port.no", "port.queue-id", "port.perm-hwaddr")
_HIDDEN_FLAGS = {"running", "lower-up"}
# what is known of a new link, and what is told of it
_KNOWN = "ifname", "prop-list", "master", "link-netnsid", "linkinfo", "protinfo", "mtu", "operstate", "address"
_FIRST = "linkinfo.kind", "mtu", "operstate", "address", "master"
# how paths begin in events, and here
_PLACES = ("linkinfo.slave-data.", "port."), ("linkinfo.data.", "data."), ("protinfo.", "port.")
# lists of texts, of which each that comes or goes is a change, whose path is that of the list and []
_TEXTS = re.compile(r"(?:.*\.)?(?:prop-list\.alt-ifname|macaddr-data\.macaddr|arp-ip-target|ns-ip6-target)")
# VLANs of a bridge's port: their list, the first and the last one, and which member is told of them
_VLANS = re.compile(r"((?:.*\.)?af-spec\.vlan-(?:tunnel-)?info)\[vid=([0-9]+)(?:-([0-9]+))?\](?:\.(id|flags))?")


class Told(NamedTuple):
    """What an event says of a link: `what` is `new`, `gone`, `changed`, `fault`, `lost` or `again`.

    name: of the link; `if7` where none is known, and empty where the event is of no link.
    port_of: the name of the bridge, or the like, of whose port the settings are that changed; else empty.
    changes: of a new link what is worth saying. Paths are those of `diff`, but for `data.` of what is in
        `linkinfo.data`, `port.` of a port's settings, and `port.vlan`, whose values are those of `vlans`.
    """

    event: Event
    what: str
    name: str
    port_of: str = ""
    changes: Sequence[Change] = ()


def is_whole(it: Change) -> bool:
    """Whether a change is that of a value of a list that came or went, whose label the other message has not."""
    return it.path.endswith("]") and isinstance(it.new if it.old is None else it.old, dict) and None in (it.old, it.new)


def list_of(it: Change) -> str:
    """The path of the list, where a change is that of a text that came to a list or went; else empty."""
    return it.path[:-2] if it.path.endswith("[]") else ""


def _is_order(it: Change) -> bool:
    """Whether a list is told whole, of which nothing but the order of its values differs, or how it is written."""
    if not isinstance(it.old, list) or not isinstance(it.new, list):
        return False
    if _TEXTS.fullmatch(it.path):
        return sorted(map(json.dumps, it.old)) == sorted(map(json.dumps, it.new))
    return any(isinstance(one, dict) for one in it.old)


def vlans(message: Bytes) -> FrozenSet[Tuple[int, str]]:
    """The VLANs that a message of AF_BRIDGE lists, also those inside ranges: the number, and `pvid`, `untagged`, both
    with a comma between, or nothing. An element that is damaged is passed over. The end of a range that does not stand
    right behind its beginning is one VLAN."""
    found, first = set(), 0
    for it in show(message, lenient=True).get("af-spec", {}).get("vlan-info", ()):
        begin, first = first, 0
        if not isinstance(it, dict):  # it is damaged
            continue
        flags, vid = it["flags"], it["vid"]
        told = ",".join(one for one in flags if one in ("pvid", "untagged"))
        if "range-begin" in flags:
            first = vid
        else:
            start = begin if "range-end" in flags and 0 < begin <= vid else vid
            found |= {(at, told) for at in range(start, vid + 1)}
    return frozenset(found)


def _places(path: str, values: Sequence[Any]) -> Iterator[str]:
    """The paths of the values of a list inside a value: what is kept there as it is has labels by its number."""
    again: Dict[int, int] = {}
    for place, it in enumerate(values):
        if path.endswith(".other"):
            count = again[it["number"]] = again.get(it["number"], -1) + 1
            yield f"{path}[number={it['number']}" + (f"#{count}]" if count else "]")
        else:
            yield f"{path}.{place}"


def _leaves(path: str, value: Any) -> Dict[str, Any]:
    """What stands inside a value that is told as a whole, by the paths at which `diff` tells it one by one."""
    parts: Iterable[Tuple[str, Any]] = ()
    if isinstance(value, dict):
        parts = [(f"{path}.{name}", it) for name, it in value.items()]
    elif isinstance(value, list) and any(isinstance(it, (dict, list)) for it in value):
        parts = zip(_places(path, value), value)
    found = {name: leaf for part, it in parts for name, leaf in _leaves(part, it).items()}
    return found or {path: value}


def _whole(path: str, leaves: Mapping[str, Any]) -> Any:
    """The value that has these leaves."""
    if path in leaves:
        return leaves[path]
    inside: Dict[str, Dict[str, Any]] = {}
    for name, leaf in leaves.items():
        inside.setdefault(f"{path}.{name[len(path) + 1:].partition('.')[0]}", {})[name] = leaf
    found: Dict[str, Any] = {}
    for part, some in inside.items():
        name, label, _ = part.rpartition(".")[2].partition("[")
        it = _whole(part, some)
        found[name] = [*found.get(name, ()), it] if label else it
    return list(found.values()) if all(map(str.isdigit, found)) else found


def flat(value: Any, path: str = "") -> Dict[str, Any]:
    """The values of what `show` returns by their paths, as `diff` has them, but that a list of objects is one value."""
    if not isinstance(value, dict):
        return {path[:-1]: value}
    return {name: it for key, one in value.items() for name, it in flat(one, f"{path}{key}.").items()}


class View:
    """What the events of a `Watch`, or of a stream, say to people. It has `dumps` where losses matter, and not
    `changes_only`.

    Indices have names. VLANs are sets. A setting of a bridge's port is told once, though two families announce it. Of a
    link that is there at first nothing is told, nor of the settings with which a port begins or ends.

    names: tells of links that have or had one of these names, alternative names or patterns; with a bridge also of the
        settings of its ports, and of links that join and leave it. Without names it tells of all links.
    details: tells what seldom matters too, other families, and settings with which a port begins or ends.
    """

    def __init__(self, names: Sequence[str] = (), details: bool = False) -> None:
        self._patterns, self._details, self._unmet = names, details, list(names)
        # by host and index: values by their paths, and beside them `names` and `selected`
        self._links: Dict[Tuple[str, int], Dict[str, Any]] = {}

    def name(self, index: Optional[int], host: str = "") -> str:
        """The name of a link, or `if7` where none is known."""
        return self._links.get((host, index or 0), {}).get("ifname") or f"if{index}"

    def matches(self, names: Iterable[str]) -> bool:
        """Whether one of the names is asked for."""
        return not self._patterns or any(fnmatch.fnmatchcase(name, it) for name in names for it in self._patterns)

    def selects(self, *indices: Optional[int], host: str = "") -> bool:
        """Whether one of these links is there, and has or had a name that is asked for."""
        return any(self._links.get((host, it or 0), {}).get("selected") for it in indices)

    def missing(self, ever: bool = False) -> List[str]:
        """The names that are asked for and that no link has; with `ever`, those that no link had before either."""
        if ever:
            return list(self._unmet)
        there = [name for it in self._links.values() for name in it["names"]]
        return [it for it in self._patterns if not fnmatch.filter(there, it)]

    def learn(self, links: Mapping[Tuple[int, int], bytes], host: str = "") -> None:
        """Takes what `Watch.links` has: links that are there, of which nothing is told."""
        for (family, index), message in links.items():
            self.told(Event("new", host, family, index, message=message, is_first=True))

    def told(self, event: Event) -> Optional[List[Told]]:
        """What an event says; None where it is of a link that is not asked for."""
        key, was_selected, found = (event.host, event.ifindex or 0), self._is_selected(event), []
        if event.ifname:
            self._meet([event.ifname])
        if event.change in ("new", "changed"):
            found = self._came(event)
        elif event.change == "gone" and event.family != AF_UNSPEC:  # that of family 0 tells that it left, or went
            for path in [it for it in self._links.get(key, ()) if it.startswith("port.") and event.family == AF_BRIDGE]:
                del self._links[key][path]
        elif was_selected and event.change != "done":
            name = self._links.get(key, {"ifname": event.ifname}).get("ifname") or f"if{event.ifindex}"
            found = [Told(event, event.change, "" if event.ifindex is None else name)]
        if event.change == "gone" and event.family == AF_UNSPEC:
            self._links.pop(key, None)
        return found if was_selected or found or self._is_selected(event) else None

    def _meet(self, names: Sequence[str]) -> None:
        """Takes the names of a link: what is asked for and is one of these is met."""
        self._unmet = [it for it in self._unmet if not fnmatch.filter(names, it)]

    def _is_selected(self, event: Event) -> bool:
        """Whether an event is of a link that is asked for, of a port of one, or of no link."""
        it = self._links.get((event.host, event.ifindex or 0))
        if event.ifindex is None or it is None:
            return event.ifindex is None or self.matches([event.ifname or ""])
        masters = [it.get("master")] if event.family == AF_BRIDGE else []
        return self.selects(event.ifindex, *masters, host=event.host)

    def _came(self, event: Event) -> List[Told]:
        """What is told of a link that is new, or changed."""
        host, index, is_new = event.host, event.ifindex or 0, (event.change, event.family) == ("new", AF_UNSPEC)
        it = self._links.setdefault((host, index), {})
        before = it.get("master") or 0
        items = self._taken(it, event)
        master = it.get("master") or 0
        it["names"] = [it.get("ifname") or "", *(it.get("prop-list.alt-ifname") or ())]
        self._meet(it["names"])
        it["selected"] = it.get("selected") or self.matches(it["names"])
        moves = [at for one in items if one.path == "master" for at in (one.old, one.new)]
        shown, told = list(self._shown(items, host, it.get("link-netnsid") is not None)), []
        own, port = ([one for one in shown if one.path.startswith("port.") is of_port] for of_port in (False, True))
        name, of = self.name(index, host), self.name(master or before, host) if master or before else ""
        if (own or is_new) and not event.is_first and self.selects(index, *moves, host=host):
            told.append(Told(event, "new" if is_new else "changed", name, "", own))
        is_set = self._details or before == master and any(one.new is not None for one in port)
        if port and is_set and self.selects(index, before, master, host=host):
            told.append(Told(event, "changed", name, of, port))
        return told

    def _taken(self, it: Dict[str, Any], event: Event) -> List[Change]:
        """What an event changes; what comes in both families is no change when it comes again."""
        is_new, is_bridge, changes, items = event.change == "new", event.family == AF_BRIDGE, event.changes, []
        if event.family not in (AF_UNSPEC, AF_BRIDGE):
            return list(changes) if self._details else []
        if is_new:
            message = show(event.message, lenient=True)
            there = flat({name: message.get(name) for name in _KNOWN})
            changes = [Change(path, None, new) for path, new in there.items()]
            it["ifname"] = it.get("ifname") or there["ifname"]
        if is_bridge:
            changes = [*changes, Change("protinfo.vlan", None, vlans(event.message))]
            it.setdefault("port.vlan", changes[-1].new if is_new else frozenset())
        for path, old, new in changes:
            if is_bridge and ("vlan-info" in path or not path.startswith(("protinfo.", "af-spec."))):
                continue  # the message of family 0 tells it, or the VLANs do
            for start, place in _PLACES:
                path = path.replace(start, place)
            if path.endswith("[]"):
                texts = it[path[:-2]] = [*(it.get(path[:-2]) or ()), *([] if new is None else [new])]
                if old in texts:
                    texts.remove(old)
                items.append(Change(path, old, new))
                continue
            if is_new:
                old = it.setdefault(path, new)
            elif path.startswith("port.") and ("[" in path or _is_order(Change(path, old, new))):  # at first one list
                old = new if it.get(path, old) == new else old
            elif path.startswith("port."):
                old = it.get(path)
            if old != new:
                for one in [one for one in it if path.endswith("]") and one.startswith(f"{path}.")]:
                    del it[one]
                it[path] = new
                items.append(Change(path, old, new))
        if is_new and not is_bridge:
            items = [Change(path.rpartition(".")[2], None, it[path]) for path in _FIRST if it.get(path)]
        return items

    def _shown(self, items: Iterable[Change], host: str, is_far: bool) -> Iterator[Change]:
        """Changes with names in the place of indices, of which 0 is none; and without what seldom matters."""
        for path, old, new in items:
            if path == "ifi-flags" and not self._details:
                old, new = ([one for one in flags or () if one not in _HIDDEN_FLAGS] for flags in (old, new))
            if not self._details and (old == new or f"{path}$".startswith(_HIDDEN)
                                      or _is_order(Change(path, old, new))):
                continue
            if path in _INDICES:
                old, new = (it or None if not it or not isinstance(it, int) else f"if{it}" if is_far and path == "link"
                            else self.name(it, host) for it in (old, new))
            yield Change(path, old, new)


def _labelled(path: str) -> List[str]:
    """What a path goes through that has a label, from the front."""
    return [path[:it.end()] for it in re.finditer("]", path)]


def _of_vlan(value: Any, at: int, is_id: bool) -> Any:
    """What a value of VLANs says of the one that is so far behind the first: ids go along with VLANs."""
    if isinstance(value, dict):
        return {name: it + at if name in ("id", "vid") else it for name, it in value.items()
                if name not in ("id-end", "vid-end")}
    return value + at if is_id and value is not None else value


def _each(it: Change) -> Iterator[Change]:
    """The changes of a range VLAN by VLAN, and any other one as it is."""
    found = _VLANS.fullmatch(it.path)
    if found is None or found[3] is None:
        yield it
        return
    of, first, last, name = found.groups()
    for at in range(int(last) - int(first) + 1):
        old, new = (_of_vlan(value, at, name == "id") for value in (it.old, it.new))
        yield Change(f"{of}[vid={int(first) + at}]" + (f".{name}" if name else ""), old, new)


def _range(of: str, first: int, last: int, some: Mapping[str, Change]) -> Iterator[Change]:
    """The changes of a VLAN as those of all VLANs from it to the last one."""
    def whole(value: Any) -> Any:
        if not isinstance(value, dict):
            return value
        ends = {"id-end": value["id"] + last - first} if "id" in value else {}
        return {**value, **ends, "vid-end": last}

    for name, it in some.items():
        path = f"{of}[vid={first}-{last}]" + (f".{name}" if name else "")
        yield it if first == last else Change(path, whole(it.old), whole(it.new))


def _ranges(of: str, vlans: Mapping[int, Mapping[str, Change]]) -> Iterator[Change]:
    """The changes of VLANs of a list: those next to each other that changed alike are one."""
    runs: List[Tuple[int, int, Dict[str, Any]]] = []
    for vid, some in sorted(vlans.items()):
        alike = {name: [_of_vlan(value, -vid, name == "id") for value in (it.old, it.new)] for name, it in some.items()}
        if runs and runs[-1][1:] == (vid - 1, alike):
            runs[-1] = runs[-1][0], vid, alike
        else:
            runs.append((vid, vid, alike))
    for first, last, _ in runs:
        yield from _range(of, first, last, vlans[first])


def _joined(changes: Iterable[Change]) -> List[Change]:
    """The changes, of which those of VLANs stand in ranges, at the place of the first one of their list."""
    found: List[List[Change]] = []
    places: Dict[str, List[Change]] = {}
    lists: Dict[str, Dict[int, Dict[str, Change]]] = {}
    for it in changes:
        vlan = _VLANS.fullmatch(it.path)
        if vlan is None or vlan[1] not in places:
            found.append([] if vlan else [it])
        if vlan:
            places.setdefault(vlan[1], found[-1])
            lists.setdefault(vlan[1], {}).setdefault(int(vlan[2]), {})[vlan[4] or ""] = it
    for of, vlans_of in lists.items():
        places[of] += _ranges(of, vlans_of)
    return [it for some in found for it in some]


def _of_either(gone: Sequence[Any], value: Any) -> Any:
    """A value on the side where these texts were: their list, where it is no other value."""
    return [*gone] or value if value is None or isinstance(value, list) else value


class _Held:
    """The changes of a link that are held: `told` is the first of them, `moved` has the values of lists that came or
    went, and whether each was there at first, and now; `texts` how many more of each text a list has now than at first;
    and `orders` the lists that were told whole."""

    def __init__(self, told: Told) -> None:
        self.told = told
        self.changes: Dict[str, Change] = {}
        self.moved: Dict[str, Tuple[bool, bool]] = {}
        self.texts: Dict[str, Dict[Any, int]] = {}
        self.orders: Dict[str, Change] = {}

    def add(self, change: Change) -> None:
        path, old, new = change
        if _is_order(change):
            self.orders[path] = Change(path, self.orders.get(path, change).old, new)
        elif path.endswith("[]"):
            self._text(path[:-2], [] if old is None else [old], [] if new is None else [new])
        elif _TEXTS.fullmatch(path) and (isinstance(old, list) or isinstance(new, list)):
            self._add(Change(path, *([] if isinstance(it, list) else it for it in (old, new))))
            self._text(path, *(it if isinstance(it, list) else [] for it in (old, new)))
        else:
            for it in _each(change):
                self._add(it)

    def _text(self, path: str, old: Sequence[Any], new: Sequence[Any]) -> None:
        """Texts of a list go, and come."""
        counts = self.texts.setdefault(path, {})
        for some, way in (old, -1), (new, 1):
            for it in some:
                counts[it] = counts.get(it, 0) + way
        self.changes.setdefault(path, Change(path, None, None))

    def _of_texts(self, it: Change) -> List[Change]:
        """What is told of a list of texts."""
        counts = self.texts[it.path].items()
        gone, came = ([text for text, count in counts for _ in range(way * count)] for way in (-1, 1))
        found = [Change(f"{it.path}[]", text, None) for text in gone]
        found += [Change(f"{it.path}[]", None, text) for text in came]
        if any(one is not None and not isinstance(one, list) for one in it[1:]):  # at first or now it is no list
            found = [Change(it.path, _of_either(gone, it.old), _of_either(came, it.new))]
        return [one for one in found or [it] if one.old != one.new]

    def _in_order(self) -> List[Change]:
        """The lists whose order changed, and nothing else meanwhile."""
        moved = *self.changes, *self.texts
        return [it for path, it in self.orders.items() if it.old != it.new and not any(
            one == path or one.startswith((f"{path}[", f"{path}.")) for one in moved)]

    def _add(self, it: Change) -> None:
        if is_whole(it):
            was = self.moved.get(it.path, (it.new is None, True))[0]
            self.moved[it.path] = was, it.old is None
            leaves = _leaves(it.path, it.new if it.old is None else it.old).items()
            some = [Change(path, None, leaf) if it.old is None else Change(path, leaf, None) for path, leaf in leaves]
        else:
            some = [it]
        for one in some:
            self.changes[one.path] = Change(one.path, self.changes.get(one.path, one).old, one.new)

    def release(self) -> Told:
        """All of it, as one: a value of a list that came or went meanwhile is whole, and VLANs are in ranges. Lists in
        another order are told where there is nothing else."""
        changes: List[Change] = []
        inside: Dict[str, Tuple[int, Dict[str, Any]]] = {}  # of each value its place, and its leaves
        for it in self.changes.values():
            if it.path in self.texts:
                changes += self._of_texts(it)
                continue
            path = next((one for one in _labelled(it.path) if len({*self.moved.get(one, ())}) == 2), "")
            was = self.moved.get(path, (True, True))[0]
            if it.old == it.new:
                continue
            if path and (it.new if was else it.old) is None:
                place, leaves = inside.setdefault(path, (len(changes), {}))
                leaves[it.path] = it.old if was else it.new
                if place < len(changes):
                    continue
            changes.append(it)
        for path, (place, leaves) in inside.items():
            value = _whole(path, leaves)
            changes[place] = Change(path, value, None) if self.moved[path][0] else Change(path, None, value)
        return self.told._replace(changes=_joined(changes) or self._in_order())


class Settling:
    """Holds what changes of links for so many seconds, so that the changes of a link become one. What is as it was by
    then is not told, such as a name of a list that came and went, and with 0 seconds nothing is held."""

    def __init__(self, seconds: float) -> None:
        self._seconds, self._end = seconds, 0.0
        self._held: Dict[Tuple[str, Optional[int], bool], _Held] = {}

    def add(self, told: Told) -> List[Told]:
        """What is to be told now: nothing, or what is no change, behind all that was held."""
        if told.what != "changed" or not self._seconds:
            return [*self.release(), told]
        self._end = self._end if self._held else time.monotonic() + self._seconds
        key = told.event.host, told.event.ifindex, bool(told.port_of)
        held = self._held.setdefault(key, _Held(told))
        held.told = told._replace(event=held.told.event)
        for it in told.changes:
            held.add(it)
        return []

    def due(self) -> Optional[float]:
        """Seconds until what is held is to be released; None where nothing is."""
        return max(0.0, self._end - time.monotonic()) if self._held else None

    def release(self) -> List[Told]:
        """What was held."""
        held, self._held = self._held.values(), {}
        return [it for it in (one.release() for one in held) if it.changes]
