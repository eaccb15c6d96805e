#!/usr/bin/env python3
"""The public items of the crate in rust/: each with its variants, fields and calls, and the traits that it has.

    python3 scripts/test/rust_items.py DOC [FILE]   DOC is the folder of the crate that `cargo doc` made

With FILE, as rust/items.txt, what differs from the list there is printed, and the exit status is then 1."""
import difflib
import html
import re
import sys
import textwrap
from pathlib import Path

OWN = re.compile(r'id="(?:variant|structfield|(?:ty)?method|associated(?:constant|type))\.((?:(?!\.field\.)[^"])+)"')
FIELD = re.compile(r'id="variant\.(\w+)\.field\.(\w+)"')
TRAIT = re.compile(r'id="impl-([^"]+)"')
CALL = re.compile(r'<section id="(?:ty)?method\.(\w+)"(.*?)(?=<section |$)', re.S)
OTHERS = re.compile(r'id="(?:trait-implementations|foreign-impls|implementors)"')
EXAMPLE = re.compile(r"example-wrap|has an example|have examples")


def parts(text):
    """The ids of an item's page: its own, and the traits that are implemented for it."""
    text = text.split('id="synthetic-implementations"')[0].split('id="implementors"')[0]
    own, _, traits = text.partition('id="trait-implementations"')
    names = [*OWN.findall(own), *map(".".join, FIELD.findall(own))]
    found = {re.sub(r"(-for-|%3C).*", "", html.unescape(one)) for one in TRAIT.findall(traits)}
    return list(dict.fromkeys(names)), sorted(found - {"StructuralPartialEq"})


def pages(folder):
    """The pages of items, in the order of their paths: the kind, the path and the text of each."""
    folder = Path(folder)
    for path in sorted(folder.rglob("*.html"), key=lambda it: (str(it.parent), it.name)):
        match = re.fullmatch(r"(struct|enum|fn|constant|trait|type|macro)\.(\w+)\.html", path.name)
        text = path.read_text("utf-8") if match else ""
        if match and 'http-equiv="refresh"' not in text[:2000]:     # a page that only leads to another
            yield match[1], "::".join([*path.relative_to(folder).parent.parts, match[2]]), text


def items(folder):
    lines = []
    for kind, path, text in pages(folder):
        names, traits = parts(text)
        lines.append(f"{kind} {path}")
        for words in (" ".join(names), "has " + " ".join(traits) if traits else ""):
            lines += textwrap.wrap(words, 116, initial_indent="  ", subsequent_indent="    ")
    return lines


doc, *kept = sys.argv[1:]
found = items(doc)
if not kept:
    sys.exit(print(*found, sep="\n"))
lines = Path(*kept).read_text("utf-8").splitlines()
told = [*difflib.unified_diff(lines, found, *kept, "what is public", lineterm="", n=1)]
for kind, path, text in pages(doc):
    calls = [(path, text)]
    if kind not in ("fn", "macro"):
        calls = [(f"{path}::{name}", docs) for name, docs in CALL.findall(OTHERS.split(text)[0])]
    told += [f"{name}: no example, and no link to one" for name, docs in calls if not EXAMPLE.search(docs)]
sys.exit("\n".join(told) or 0)
