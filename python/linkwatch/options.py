"""The arguments of the command."""

import re
from contextlib import suppress
from typing import Any, Callable, Dict, List, Optional, Tuple

HELP = """usage: linkwatch [OPTION ..] [NAME ..]
       linkwatch --once [NAME ..]
       linkwatch --read FILE [NAME ..]
       linkwatch --diff OLD NEW [NAME ..]
       linkwatch --rates [SECONDS] [NAME ..]

Shows which network interfaces come, go or change, one change on a line. NAME is a name, an alternative name or a
pattern such as 'veth*'. An interface that was selected stays selected when it is renamed.

  --once            a table of the interfaces that are there now
  --read FILE       reads lines that linkdump(1) wrote; - is standard input
  --diff OLD NEW    tells how two such files differ: the exit status is 0 if they do not, 1 if they do
  --rates [SECONDS] a table of bytes, packets and errors a second, made anew so often (1)
  --json            writes JSON: the lines of linkdiff(1), with --once those of linkshow(1)
  --details         shows settings that seldom matter too, and long texts whole
  --every SECONDS   asks for all interfaces again so often (60), as the kernel does not announce every change
  --for SECONDS     ends after so long
  --count N         ends after N lines, or tables of --rates
  --settle SECONDS  waits so long, and tells the changes of an interface in one line
  --netns NAME      watches another network namespace: a name of ip-netns(8), or a path
  --time FORM       clock (local time), utc or none
  --color WHEN      auto, always or never
  -h, --help        this text
  --version         the version

The manual page linkwatch(1) says the rest.
"""

# of the word that the help has behind an option: what makes a value of a text, whether it fits, and what it is
VALUES: Dict[str, Tuple[Callable[[str], Any], Optional[Callable[[Any], bool]], str]] = {
    "FILE": (str, None, "a file"),
    "NAME": (str, None, "a name or a path"),
    "OLD": (str, None, "two files"),
    "SECONDS": (float, lambda it: bool(0 < it <= 1e6), "a number of seconds above 0"),  # poll(2) waits no longer
    "N": (int, lambda it: bool(it > 0), "a number from 1 on"),
    "FORM": (str, ("clock", "utc", "none").__contains__, "clock, utc or none"),
    "WHEN": (str, ("auto", "always", "never").__contains__, "auto, always or never"),
}
OPTIONS: Dict[str, str] = {"-h": "", "--help": "", **dict(re.findall(r"^  (--[a-z]+) +\[?([A-Z]*)\b", HELP, re.M))}
KEPT_AS = {"-h": "help", "--for": "end"}


class Options:
    """What the arguments ask for. Options and names come in any order; after `--` all are names. Raises ValueError."""

    json = details = help = version = False
    every, end, settle, rates, count = 60.0, float("inf"), 0.0, 0.0, float("inf")
    time, color, read, netns, diff = "clock", "auto", "", None, ("", "")

    def __init__(self, words: List[str]) -> None:
        self.names: List[str] = []
        rest = words[::-1]
        while rest:
            word = rest.pop()
            if word == "--":
                self.names, rest = self.names + rest[::-1], []
            elif word == "-" or not word.startswith("-"):
                self.names.append(word)
            elif word not in OPTIONS:
                raise ValueError(f"there is no option {word}")
            elif word == "--diff":
                self.diff = _value(word, rest), _value(word, rest)
            elif word == "--rates" and not "".join(rest[-1:]).replace(".", "", 1).isdecimal():
                self.rates = 1.0
            else:
                setattr(self, KEPT_AS.get(word, word[2:]), not OPTIONS[word] or _value(word, rest))
        self.task, *others = [it for it in ("once", "read", "diff", "rates") if it in vars(self)] or ["live"]
        if others:
            raise ValueError("only one of --once, --read, --diff and --rates")
        if self.diff == ("-", "-"):
            raise ValueError("--diff: only one of the files can be standard input")


def _value(word: str, rest: List[str]) -> Any:
    """What an option has for its value, taken from the end of the arguments that are left."""
    make, fits, what = VALUES[OPTIONS[word]]
    text = rest.pop() if rest else None
    with suppress(ValueError):
        if text is not None and (fits is None or fits(make(text))):
            return make(text)
    raise ValueError(f"{word}: {what}" + (" is missing" if text is None else f", not {text}"))
