"""The table of --rates: bytes, packets and errors a second, by link."""

import json
import os
import struct
import time
from datetime import datetime, timezone
from typing import Dict, List, NamedTuple, Optional, Sequence, Tuple

from linkwire import Links, attributes, number, pick
from linkwire.numbers import IFLA_ALT_IFNAME, IFLA_IFNAME, IFLA_PROP_LIST, IFLA_STATS64

from .options import Options
from .printing import UTC, Output

# the first of struct rtnl_link_stats64, and the columns of the table
COUNTERS = "rx-packets", "tx-packets", "rx-bytes", "tx-bytes", "rx-errors", "tx-errors"
HEAD = "NAME", "IN B/s", "OUT B/s", "IN pkt/s", "OUT pkt/s", "IN err/s", "OUT err/s"
COLUMNS = 2, 3, 0, 1, 4, 5
FIRST_SIX = struct.Struct("=6Q")
NARROWEST = 9
HOME, TO_END_OF_LINE, TO_END = "\x1b[H", "\x1b[K", "\x1b[J"


class Link(NamedTuple):
    """The names of a link, and its counters, or what each counts in a second, in the order of COUNTERS."""

    names: List[str]
    values: Tuple[float, ...]


def counted(messages: Sequence[bytes]) -> Dict[int, Link]:
    """The counters of links, by their indices."""
    found = {}
    for message in messages:
        it, index = pick(message, IFLA_IFNAME, IFLA_STATS64, IFLA_PROP_LIST), number(message[4:8])
        payloads = [it[IFLA_IFNAME]] if IFLA_IFNAME in it else []
        payloads += [one.payload for one in attributes(it.get(IFLA_PROP_LIST, b""), 0) if one.number == IFLA_ALT_IFNAME]
        names = [bytes(one).rstrip(b"\0").decode("utf-8", "surrogateescape") for one in payloads]
        if len(it.get(IFLA_STATS64, b"")) >= FIRST_SIX.size:
            found[index] = Link(names or [f"if{index}"], FIRST_SIX.unpack_from(it[IFLA_STATS64]))
    return found


def rates(old: Dict[int, Link], new: Dict[int, Link], seconds: float) -> Dict[int, Link]:
    """What links did between two looks; without those that came, and those whose counters were set back."""
    found = {}
    for index, it in new.items():
        moved = [b - a for a, b in zip(old[index].values, it.values)] if index in old else [-1.0]
        if min(moved) >= 0:
            found[index] = Link(it.names, tuple(one / seconds for one in moved))
    return found


def short(value: float) -> str:
    """A number in at most five characters: 1500 is 1.5k."""
    for unit in "", "k", "M", "G", "T", "P", "E":
        if value < 999.5:
            break
        value /= 1000
    return f"{value:.3g}{unit}"


def table(found: Dict[int, Link], output: Output, rows: Optional[int]) -> List[str]:
    """The lines of a table; of so many rows at most, those of the busiest."""
    busiest = set(sorted(found, key=lambda it: -sum(found[it].values[2:4]))[:rows])
    cells = [[output.words.name(it.names[0]), *(short(it.values[at]) for at in COLUMNS)]
             for index, it in found.items() if index in busiest]
    cells = [[name, *(it.rjust(NARROWEST) for it in numbers)] for name, *numbers in [HEAD, *cells]]
    lines = ["  ".join(it) for it in output.aligned(cells)]
    more = len(found) - len(busiest)
    return lines + ([f"and {more} more"] if more else [])


def json_lines(found: Dict[int, Link], at: str, seconds: float) -> List[str]:
    """A line of JSON for each link."""
    lines = []
    for index, it in found.items():
        head = {"time": at, "seconds": round(seconds, 6), "ifi-index": index, "ifname": it.names[0]}
        values = {name: round(value, 3) for name, value in zip(COUNTERS, it.values)}
        lines.append(json.dumps({**head, **values}, separators=(",", ":")))
    return lines


def show(found: Dict[int, Link], seconds: float, options: Options, output: Output) -> None:
    """Writes a table: over the last one on a terminal, else below it, behind a time."""
    now = datetime.now(timezone.utc)
    if options.json:
        lines = json_lines(found, now.strftime(UTC), seconds)
    elif output.is_terminal:
        rows = max(1, (os.get_terminal_size().lines or 24) - 3)
        lines = [f"{it}{TO_END_OF_LINE}" for it in table(found, output, rows)]
    else:
        lines = [*filter(None, [output.stamp(now)]), *table(found, output, None), ""]
    is_drawn = output.is_terminal and not options.json
    output.out.write(HOME * is_drawn + "".join(f"{it}\n" for it in lines) + TO_END * is_drawn)


def watch_rates(options: Options, output: Output) -> None:
    """Shows rates each so many seconds, until --for or --count is over or nobody reads standard output."""
    left = options.count
    with Links(options.netns) as links:
        old, last = counted(links.dump()), time.monotonic()
        due, end = last, last + options.end
        if output.is_terminal and not options.json:
            output.out.write(HOME + TO_END)
        while left > 0 and due < end:
            due += options.rates
            while time.monotonic() < due:
                output.wait(due - time.monotonic())
            new, now = counted(links.dump()), time.monotonic()
            found = rates(old, {at: it for at, it in new.items() if output.view.matches(it.names)}, now - last)
            show(found, now - last, options, output)
            old, last, due, left = new, now, max(due, now - options.rates), left - 1
