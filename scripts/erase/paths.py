"""Crates become modules of one package, and parts of Rattle's std are ours."""
import re

from rules import TABLES, WORDS
from source import PAIR

PACKAGE = "linkwire"
# Names that the crate has of Rust's alloc, as core has them not, where a file or its docs speak of them.
OF_ALLOC = {"String": "string::String", "Vec": "vec::Vec"}
USE = "@ use /(?P<tree>[^;]*)/ ;"
# The names that an import brings.
NAME = re.compile(r"\b\w+(?=\s*(?:[,}]|$))")
# The first name of a path, with the next one or a group of them.
HEAD = (rf"/(?<!::)(?<!\.)\b(?P<head>[a-z]\w*)(?=\s*::\s*(?:(?P<item>(?P<part>\w+)(?P<more>::\w+)?)"
        rf"|\{{{PAIR}(?P<group>[^{{}}]*)\}})?)/")


def drop_names(s, is_gone):
    """Names of imports of which a function says so, by the name and the word `pub`; and an import without any."""
    def put(found):
        item, tree = found["item"], found["tree"]
        names, pub = NAME.findall(tree), "".join(re.findall(r"\bpub\b\S*", item))
        gone = [name for name in names if is_gone(name, pub)]
        if gone == names:
            return "" if names else None
        for name in gone:
            tree, count = re.subn(rf"\b{name}\b\s*,[^\S\n]*|,\s*\b{name}\b(?=\s*\}})", "", tree)
            if not count:
                s.fail(found.end("item"), "a name of an import that cannot be dropped")
        return f"{item}use {tree};" if gone else None
    s.put(USE, put)


def spoken(s):
    """The names that are spoken of outside imports."""
    return set(re.findall(r"\b[^\W\d]\w*", re.sub(r"\buse [^;]*;", "", s.text)))


def paths(s, crate, crates, is_program, is_crate):
    """`crate::`, the names of the other crates, and the parts of std that are ours."""
    root = PACKAGE if is_program else "crate"
    # a module of its own has the name first
    crates = set(crates) - {found["x"] for found in s.find("mod $x")}
    ours = {*WORDS["STD_OF_OURS"], *WORDS["OF_CRATE" if is_crate else "OF_TESTS"]}
    s.refuse("( in crate", "pub(in ..)")

    def put(found):
        head, part = found["head"], found["part"]
        if head == "crate":
            return None if is_program or part == "rattle" else f"crate::{crate}"
        if head in crates:
            return f"{root}::{head}"
        if head in WORDS["CRATES_OF_OURS"]:
            return f"{root}::rattle::{head}"
        if head != "std":
            return None
        if found["group"] and not ours.issuperset(re.split(r",\s*", found["group"].strip())):
            s.fail(found.start(), "a group of parts of std: write one `use` for each")
        is_method = part == "str" and found["more"]
        if found["group"] or found["item"] in WORDS["ITEMS_OF_OURS"] or part in ours and not is_method:
            return f"{root}::rattle"
        if is_crate and part not in WORDS["IN_CORE"]:
            s.fail(found.start(), "a part of std that core has not")
        return "core" if is_crate else None
    s.put(HEAD, put)


def ours(s, is_program, is_crate):
    found = {}
    for what, there in TABLES["ours"] + TABLES["ours_of_crate" if is_crate else "ours_of_tests"]:
        module, _, name = what.partition(" ")
        if any(s.find(f"/{there}/")):
            found.setdefault(module, []).append(name)
    for module, names in found.items():
        names = sorted(names) if module == "prelude" else names
        group = names[0] if len(names) == 1 else "{" + ", ".join(names) + "}"
        yield f"{PACKAGE if is_program else 'crate'}::rattle::{module}::{group}"
