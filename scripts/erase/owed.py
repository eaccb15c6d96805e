"""What calls require of a Rust user: checked where they begin, told in the docs, and listed."""
import re

import words
from rules import TABLES
from source import named
from surface import CALL, public_name

OWED = {text: new.split("  ") for text, new in TABLES["owed"]}


def conditions(s, public):
    """What calls that a user sees require, by their names: rows of OWED."""
    found, call = {}, None
    for it in s.find(r"/\bpub fn (?P<name>\w+)|\bfn\b|\||(?P<owed>\brequires\b\s*\w*/ {$text..} /)/"):
        call = call if it["owed"] else it
        name = it["owed"] and call["name"] and public_name(s, call, public)
        text = " ".join((it["text"] or "").split())
        if name and text not in OWED:
            s.fail(it.start(), f"a condition without words for a user: {text}")
        if name:
            found.setdefault(name, []).append(OWED[text])
    return found


def check(s, found, public):
    """The checks, at the start of each body."""
    def put(call):
        checks = [check for _, check in found.get(public_name(s, call, public), ())]
        return f"{call[0]}\n" + "\n".join(checks) if checks else None
    s.put(CALL + r" /[^{;]*\{./", put)


def told(call, found, example):
    """Paragraphs for the docs of a call: of what a Result tells, where the call panics, and of its example."""
    wheres = list(dict.fromkeys(where for where, _ in found))
    panics = [["# Panics"], ["Where " + ", or ".join(wheres) + "."]] if wheres else []
    is_result = re.match(r"->\s*Result\b", call["to"])
    return [[]] * bool(is_result) + panics + ([example] if example else [])


def written(s):
    """The calls of a file that is written by hand which say in their docs where they panic."""
    for block in s.find(words.BLOCK):
        said = words.paragraphs(words.lines_of(s, block["docs"]))
        call = re.search(r"(\).\s)?\bfn (\w+)", s.text[block.end():])
        if ["# Panics"] in said and not call[1]:                # not pub(crate)
            where = " ".join(said[said.index(["# Panics"]) + 1]).removesuffix(".").removeprefix("Where ")
            yield f"{named(s.around(block.start()))}::{call[2]}: where {where}"
