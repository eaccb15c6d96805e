#!/usr/bin/env python3
"""Prints what second tables lack of the first ones, a line each; there `..` stands for what only its writer knows.

    python3 scripts/test/rows.py"""
import glob
import re
import sys

from kernel_shown import NAMES, tables
from shared import TOP, read

PLACE = re.compile(r"pub enum (\w+) \{.*?rows! \{ \(\$\(\$call\)\*\)([^}]*)\}", re.S)
ROW = re.compile(r"(\w+) (\w+)\((\w+), (\w+)")
OUTER = re.compile(r"^ +(?:held|plain|mask) (\w+)\(\w+ => (IFLA_\w+)", re.M)
HEADLINE, LAWS = "crates/link_headline/specs/Kernel.antt", "tests/c/laws.c"
TYPES = "crates/link_vals/src/link_layer_type.rt"
NUMBERS, HEADER, PYTHON = "crates/link_msg/src/numbers.rt", "include/linkwire.h", "python/linkwire/numbers.py"


def read_all(pattern):
    return "\n".join(map(read, sorted(glob.glob(pattern, root_dir=TOP))))


def rows():
    """Of each row its enum, variant, how it is held, what of, and its constant; and the tests of its copy."""
    for crate in ("link_vf", "link_nest", "link_afspec"):
        for path in sorted(glob.glob(f"crates/{crate}/src/*.rt", root_dir=TOP)):
            for enum, body in PLACE.findall(read(path)):
                for how, variant, held, constant in ROW.findall(body):
                    yield enum, variant, how, held, constant, "place_tests"
    for variant, constant in OUTER.findall(read("crates/link_msg/src/attribute.rt")):
        yield "LinkAttribute", variant, "..", "..", constant, "attribute_tests"


def of_header(name):
    """The names that a function of the header has, with their numbers where it has these."""
    list_ = rf"\blinkwire_{name}\(.*?\bnames\[\] = \{{\n(.*?)\n    \}};"
    body = re.search(list_, read(HEADER), re.S)
    pairs = re.findall(r'\{(\d+), "([^"]*)"\}', body[1])
    return [(int(number), text) for number, text in pairs] or re.findall(r'"([^"]*)"', body[1])


def listed(name):
    """The names of a table of frame_shown, in the order of their numbers or bits."""
    found = dict(tables(read_all(f"crates/{NAMES}")))[name]
    assert all(len(row) == 1 or row[0] == 1 << at for at, row in enumerate(found)), name
    return [row[-1] for row in found]


lacking = []
numbers = dict(re.findall(r"pub const (\w+): u16 = (\w+);", read_all("crates/*/src/numbers.rt")))
headline, laws = read(HEADLINE), read(LAWS)
copies = {crate: read_all(f"crates/{crate}/src/copies*.rt") for crate in ("place_tests", "attribute_tests")}
for enum, variant, how, held, constant, tests in rows():
    if f"{enum}::{variant}(" not in copies[tests]:
        lacking.append(f"crates/{tests}/src/copies*.rt: no line of {enum}::{variant}(..),")
    if not re.search(rf"\.{variant}\b", headline):
        lacking.append(f"{HEADLINE}: no line of row {numbers[constant]} ({how} {held}) ...{variant}")
    if not re.search(rf"\b{constant}\b", laws):
        lacking.append(f"{LAWS}: no line of {{{constant}, .., 0, ..}},")

numbers = re.findall(r"^pub const (IFLA_\w+): u16 = (\d+);", read(NUMBERS), re.M)
assert len(numbers) > 60, "numbers"
header = dict(enumerate(of_header("name")))
python = set(re.findall(r"^(IFLA_\w+) = (\d+)$", read(PYTHON), re.M))
for name, number in numbers:
    if header.get(int(number)) != name:
        lacking.append(f"{HEADER}: linkwire_name lacks {name}, {number}")
    if (name, number) not in python:
        lacking.append(f"{PYTHON}: the list lacks {name}, {number}")

# hardware types, in the order of their numbers
kinds = {kind: int(number) for kind, number in re.findall(r"LinkLayerType::(\w+) => (\d+),", read(TYPES))}
names = dict(re.findall(r'LinkLayerType::(\w+) => "([^"]*)",', read(TYPES.replace(".rt", "/names.rt"))))
assert kinds.keys() == names.keys() and len(kinds) > 60, "numbers and names"
types = sorted((number, names[kind].lower()) for kind, number in kinds.items())
for name, wanted in (("operstate", listed("OPERSTATES")), ("linkmode", listed("LINK_MODES")),
                     ("flag", listed("LINK_FLAGS")), ("type", types)):
    if of_header(f"{name}_name") != wanted:
        lacking.append(f"{HEADER}: linkwire_{name}_name: the names are {wanted}")
sys.exit("\n".join(f"rows: {it}" for it in lacking) or 0)
