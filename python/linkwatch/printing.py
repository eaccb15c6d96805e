"""Lines on standard output: as wide as the terminal is, in colours where it has them."""

import os
import select
import sys
from datetime import datetime
from typing import Iterable, List, Optional, Sequence, TextIO

from linkwire import Event, Settling, Told, View, Words, escaped, width

from .options import Options

SGR = {"time": "2", "name": "36", "value": "1", "new": "32", "gone": "31", "lost": "1;33", "again": "32",
       "fault": "1;31", "up": "32", "down": "31", "lowerlayerdown": "31"}
UTC = "%Y-%m-%dT%H:%M:%S.%fZ"
NAME_WIDTH = 15


def says(text: str) -> None:
    """Writes a line to standard error."""
    if sys.stderr is not None:
        print(f"linkwatch: {escaped(text)}", file=sys.stderr)


class Output:
    """Where lines go, of what the options ask for and in their form."""

    def __init__(self, options: Options, out: TextIO) -> None:
        self.options, self.out, self.is_terminal, self.written = options, out, out.isatty(), 0
        self.view, self.settling = View(options.names, options.details), Settling(options.settle)
        self.words = Words(out.encoding or "ascii", options.details, lambda it: self.paint("value", it))
        self.poll = select.poll()
        self.poll.register(1, 0)  # an error is told in any case
        is_plain = os.environ.get("NO_COLOR") or os.environ.get("TERM") == "dumb" or not self.is_terminal
        self.has_colours = options.color == "always" or options.color == "auto" and not is_plain

    def stamp(self, when: Optional[datetime]) -> str:
        """A time, as --time asks for it; dashes where there is none."""
        form = self.options.time
        if form == "none" or when is None:
            return "" if form == "none" else "-" * 12
        return when.strftime(UTC) if form == "utc" else when.astimezone().strftime("%H:%M:%S.%f")[:12]

    def paint(self, kind: str, text: str) -> str:
        """The text in the colour of its kind, if that has one."""
        return f"\x1b[{SGR[kind]}m{text}\x1b[0m" if self.has_colours and text and kind in SGR else text

    def aligned(self, rows: Sequence[Sequence[str]]) -> List[List[str]]:
        """Cells as wide as the widest of their column; below the head, those of the first one are names."""
        widths = [max(map(width, column)) for column in zip(*rows)]
        cells = [[cell + " " * (size - width(cell)) for cell, size in zip(it, widths)] for it in rows]
        return cells[:1] + [[self.paint("name", name), *rest] for name, *rest in cells[1:]]

    def write(self, line: str) -> None:
        """Writes a line, and ends the command after as many as --count asks for."""
        self.out.write(line + "\n")
        self.written += 1
        if self.written >= self.options.count:
            sys.exit()

    def wait(self, *seconds: Optional[float]) -> None:
        """Waits the shortest of these times, or until `poll` has something; ends the command if nobody reads it."""
        ready = dict(self.poll.poll(1000 * max(0.0, min(it for it in seconds if it is not None))))
        if ready.get(1, 0) & (select.POLLERR | select.POLLHUP | select.POLLNVAL):
            sys.exit()

    def tell(self, event: Event, line: str = "") -> None:
        """Writes what an event of a line says, or holds it for --settle."""
        told = [] if self.options.json and self.view.matches(()) else self.view.told(event)  # where all are asked for
        if not self.options.json:
            self.lines(one for it in told or () for one in self.settling.add(it))
        elif told is not None and not event.is_first and event.change not in ("done", "again"):
            self.write(event.json(line))

    def lines(self, lines: Iterable[Told]) -> None:
        """Writes what is told, a line each; on a terminal a change that does not fit begins a row under the first."""
        for told in lines:
            host = f"{self.words.name(told.event.host)}/" if told.event.host else ""
            name = host + self.words.name(told.name)
            parts = (("time", self.stamp(told.event.when), "  "),
                     ("name", name + " " * (NAME_WIDTH - width(name)), "  "),
                     (told.what, "" if told.what == "changed" else told.what, " "))
            head = "".join(self.paint(kind, text) + blanks for kind, text, blanks in parts if text)
            room = (os.get_terminal_size().columns or 80) - width(head) if self.is_terminal else 0
            rows: List[str] = []
            for part in ",\n".join(self.words.told(told)).split("\n"):  # each but the last has its comma
                if rows and (not self.is_terminal or width(f"{rows[-1]} {part}") <= room):
                    rows[-1] += " " + part
                else:
                    rows.append(part)
            self.write((head + ("\n" + " " * width(head)).join(rows)).rstrip())
