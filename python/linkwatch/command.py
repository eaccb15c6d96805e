"""What the command does with events of the running kernel, of a recording, or of the ends of two of them."""

import io
import json
import select
import sys
import time
from typing import Iterator, List, Optional, Set, Tuple

from linkwire import Event, Links, Settling, Watch, __version__, flat, number, read_line, show

from .options import HELP, Options
from .printing import Output, says
from .rates import watch_rates

TABLE = {"NAME": "ifname", "INDEX": "ifi-index", "KIND": "linkinfo.kind", "MASTER": "master", "STATE": "operstate",
         "MTU": "mtu", "ADDRESS": "address"}


def live(options: Options, output: Output) -> None:
    """Tells what the kernel announces, until --for is over or nobody reads standard output."""
    end, settling, waited_for = time.monotonic() + options.end, output.settling, options.names
    with Links(options.netns) as links, links.watch(every=options.every, lenient=True, dumps=True) as stream:
        output.poll.register(stream, select.POLLIN)
        while time.monotonic() < end:
            output.wait(options.every, stream.due(), settling.due(), end - time.monotonic())
            for event in stream.ready(.02):  # seconds, after which what came is written, though there be more
                output.tell(event)
                if event.change == "done" and waited_for:
                    waited_for = []
                    for name in output.view.missing():
                        says(f"no link {name} now: it is waited for")
            if settling.due() == 0:
                output.lines(settling.release())


def lines_of(path: str, watch: Watch, is_strict: bool) -> Iterator[Tuple[List[Event], str]]:
    """The events of each line of a file, or of standard input, and the line; of others a message, or ValueError."""
    with open(path if path != "-" else 0, encoding="utf-8", errors="surrogateescape", newline="\n") as source:
        for row, line in enumerate(source, 1):
            try:
                yield watch.line(line), line
            except ValueError as error:
                if is_strict:
                    raise ValueError(f"{path}: line {row}: {error}") from None
                says(f"line {row}: {error}")


def recorded(options: Options, output: Output) -> int:
    """Tells what lines of linkdump(1) say, as they come."""
    for events, line in lines_of(options.read, Watch(lenient=True, dumps=True), False):
        for event in events:
            output.tell(event, line)
    return 0


def ended(path: str) -> Tuple[Watch, Set[str]]:
    """What a file leaves at its end, and the hosts of which it has all links: a whole dump, or lines of none."""
    watch = Watch(lenient=True)
    words = [read_line(line).words for _, line in lines_of(path, watch, True)]
    asked = {it.get("host", "") for it in words if it.get("type") in ("begin", "done")}
    return watch, {host for host in watch.hosts() if 0 in watch.whole(host) or host not in asked}


def compared(options: Options, output: Output) -> int:
    """Tells how the ends of two recordings differ. Returns 1 if they do, and 2 if that cannot be told."""
    (old, all_old), (new, all_new) = map(ended, options.diff)
    options.time, output.settling, status = "none", Settling(0), 0
    for host in sorted({*old.hosts(), *new.hosts()}):
        for path, whole, what in zip(options.diff, (all_old, all_new), ("came", "went")):
            if host not in whole:
                says(f"{path}: no whole dump{f' of {host}' if host else ''}: what {what} is not told")
                status = 2
        output.view.learn(old.links(host), host)
        for event in old.compared(new, host, host in all_old, host in all_new):
            output.tell(event)
    return status or min(1, output.written)


def once(options: Options, output: Output) -> int:
    """Writes the links that are there. What one is stacked on stands behind its name."""
    with Links(options.netns) as links:
        there = [Event("new", "", 0, number(it[4:8]), message=it, is_first=True) for it in links.dump()]
    chosen = [show(it.message, "running", True) for it in there if output.view.told(it) is not None]
    for it in chosen if options.json else ():
        output.write(json.dumps(it, separators=(",", ":")))
    rows, named = [list(TABLE)], output.view.name
    for it in map(flat, chosen):
        below = it.get("link", 0)
        if below not in (0, it["ifi-index"]):  # which is not of this namespace if it has a link-netnsid
            it["ifname"] = it.get("ifname", "-") + "@" + (f"if{below}" if "link-netnsid" in it else named(below))
        it["master"] = named(it["master"]) if it.get("master") else "-"
        it["operstate"] = it.get("operstate", "-") if "up" in it["ifi-flags"] else "off"
        rows.append([output.words.name(str(it.get(path, "-"))) for path in TABLE.values()])
    for cells in () if options.json else output.aligned(rows):
        cells[4] = output.paint(cells[4].rstrip(), cells[4])
        output.write("  ".join(cells).rstrip())
    return 0


def run(arguments: Optional[List[str]] = None) -> int:
    """Runs the command, and returns its exit status: linkwatch(1) says which there are."""
    try:
        if not isinstance(sys.stdout, io.TextIOWrapper):
            raise ValueError("standard output is closed")
        sys.stdout.reconfigure(line_buffering=True)
        options = Options(sys.argv[1:] if arguments is None else arguments)
        output = Output(options, sys.stdout)
        tasks = {"live": live, "once": once, "read": recorded, "diff": compared, "rates": watch_rates}
        text = HELP if options.help else f"linkwatch {__version__}\n" if options.version else ""
        sys.stdout.write(text)
        status = None if text else tasks[options.task](options, output)  # None: names are not looked for
        output.lines(output.settling.release())
        for name in [] if status is None else output.view.missing(ever=True):
            says(f"no link {name}")
            status = 2 if options.task == "diff" else 1
        return status or 0
    except (OSError, ValueError) as error:
        file, why = (getattr(error, it, None) for it in ("filename", "strerror"))
        says(f"{file}: {why}" if file is not None else why or str(error))
    sys.stdout = open("/dev/null", "w", encoding="utf-8")  # what could not be written is not tried again at the end
    return 2
