#!/usr/bin/env python3
"""Makes of each form in forms.txt what stands there: of what is refused it has to say which form, and where."""
import re
import sys
from collections import Counter
from pathlib import Path

import derives
import erase
import keys
import memory
import paths
import rules
import surface
import typed
from source import Source, Unknown

FORM = re.compile(r"^== (.*)\n([\s\S]*?)^--\n([\s\S]*?)(?=^== |\Z)", re.M)


def said(make, text):
    """What is made of a source, or why it is refused."""
    try:
        return make(text)
    except (Unknown, ValueError) as error:
        return str(error).removeprefix("a.rt:") + "\n"


def made(text, crate, what):
    mode = erase.Mode(what)
    mode.public, mode.memory_names = {"LinkMessage"}, {"text"}
    return erase.erase("a.rt", text, crate, mode)


def put_all(text):
    """What is said of rows that would make two types of a name."""
    maker = typed.Maker()
    for line in text.splitlines():
        maker.put("One", ("named", ": u8;", [line]))
    return ""


def by(rewrite):
    """What one rewrite, or a table of rules, makes of a source."""
    def made(text):
        s = Source("a.rt", text)
        if callable(rewrite):
            rewrite(s)
        else:
            rules.apply(s, rewrite)
        return s.rust()
    return made


MAKES = {
    "refused": lambda text: made(text, "link_msg", "crate"),
    "refused in tests": lambda text: made(text, "message_diff", "tests"),
    "made in tests": lambda text: made(text, "message_diff", "tests"),
    "refused types": put_all,
    "refused members": lambda text: keys.inner("link_nest", text, "LinkXdp", "A member of IFLA_XDP."),
    "names of a format": lambda text: " ".join(derives.names_in(text)) + "\n",
    "let_else": by("older"), "reserved": by("reserved"), "narrowing": by("narrowing"),
    "hide_calls": by(surface.hide_calls), "other_names": by(surface.other_names),
    "inline_optimized": by("crate"), "unwrap_functions": by(memory.unwrap_functions),
    "without memory": by(lambda s: memory.memory(s, set())),
    "derives": by(lambda s: derives.derives(s, is_crate=True)),
    "paths": by(lambda s: paths.paths(s, "line_filter", [], is_program=False, is_crate=False)),
}

forms = FORM.findall(Path(__file__).with_name("forms.txt").read_text("utf-8"))
wrong = [(text, it) for what, text, wanted in forms for it in [said(MAKES[what], text)] if it != wanted]
if wrong:
    sys.exit("\n".join(f"{text}made into:\n{it}" for text, it in wrong))
counts = Counter(what for what, _, _ in forms)
print(f"erase: forms as in forms.txt: {', '.join(f'{n} {what}' for what, n in counts.items())}")
