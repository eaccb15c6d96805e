#!/usr/bin/env python3
"""Fills in the values over borrowed bytes of crates/link_view, `borrowed` and the files of `nest`, `afspec` and `vf`,
of the rows of `LinkAttribute`, of those of the enums of inner lists, each in its file, and of the lines of their
tables. What else is written of an enum of an inner list is made of what stands there of the first one, with other
names. The proof refuses a row that does not fit its table."""
import re
from functools import lru_cache, partial

import keys
from rules import TABLES

VIEW = keys.CRATES / "link_view"
READ = dict(TABLES["arms"])
HELD = {held: new.split("  ") for held, new in TABLES["borrowed"]}
OTHER = keys.Row("", "Other", "DefaultNla", "", "", "")
# What is written of an enum: what is said of it, its variants, the places it opens, and the arms.
BLOCK = re.compile(r"""^/// (.*)
#\[derive\(Drop\)\]
pub enum Borrowed(\w+)<'a> \{
([\s\S]*?)
\}

impl<'a> [\s\S]*?unfolding\(([\s\S]*?)\)\)\]
[\s\S]*?
    \{
([\s\S]*?)
    \}
[\s\S]*?^\}
""", re.M)


@lru_cache(maxsize=None)
def table_of(crate):
    return (keys.CRATES / crate / "specs" / "Tables.antt").read_text("utf-8")


def is_list(held):
    return held == "LinkVfPort" or held.startswith("List<") and held != "List<LinkExtentMask>"


def arm(enum, row):
    """What is made of a payload."""
    if is_list(row.held):
        form = "some!({}, payload)" if row.how == "some" else "Ok({}(payload))"
    elif "filled up with" in row.said and row.held not in READ:
        form = f"Ok({{}}({row.held}::read_padded(payload)))"
    else:
        form = READ.get(row.held, f"borrow!({{}}, {row.held}::parse(payload))")
    return form.format(f"{enum}::{row.name}")


def variants(rows):
    """What variants hold over borrowed bytes, of a list its payload."""
    held = [HELD.get("Bytes" if is_list(row.held) else row.held, (row.held,))[0] for row in rows]
    return [f"    {row.name}({one})," for row, one in zip(rows, held)] + ["    Other(NlaBuffer<'a>),"]


def stands(owned, variant, type_, row, reader):
    name, held = row.name, row.held
    if is_list(held):
        line = f"{owned} ({variant}.{name} v) = {reader} v.now >>= λ vs. Ok ({type_}.{name} vs)"
        return line if len(line) < 119 else line.replace(" = ", " =\n    ", 1)
    return f"{owned} ({variant}.{name} v) = Ok ({type_}.{name} {HELD.get(held, (held, 'v'))[1]})"


def between(text, expression, lines):
    """The text with these lines in the place of the group of this expression."""
    found = re.search(expression, text, re.M)
    if not found:
        raise ValueError(f"borrowed.py: there is no {expression}: write it as those beside it")
    return text[:found.start(1)] + "\n".join(lines) + text[found.end(1):]


def attributes(text):
    rows, families, arms, other = list(keys.rows()), {}, [], "_ => Ok(BorrowedAttribute::Other(frame)),"
    for row in rows:
        made = arm("BorrowedAttribute", row)
        if row.family != "any":
            family = "_" if row.family == "rest" else f"AddressFamily::{row.family}"
            families.setdefault(row.number, []).append(f"{family} => {made},")
        elif row.how == "sized":
            arms.append(f"{row.number} => match payload.len() {{ 2 => {made}, {other} }},")
        else:
            arms.append(f"{row.number} => {made},")
    text = between(text, r"^pub enum BorrowedAttribute<'a> \{\n([\s\S]*?)\n\}", variants(rows))
    for number, ones in families.items():
        name = number.removeprefix("IFLA_").lower().replace("protinfo", "proto_info")
        arms.append(f"{number} => {name}_of(frame, family),")
        text = between(text, rf"^fn {name}_of<[\s\S]*?    match family \{{\n([\s\S]*?)\n    \}}\n", ones)
    arms.append(other)
    return between(text, r"^pub\(crate\) fn read_frame<[\s\S]*?    match kind \{\n([\s\S]*?)\n    \}\n", arms)


def attribute_specs(text):
    # by variant the reader of its list, as the table names it
    reader = {variant: f"{name}.grammar.reads" if line == "written" else f"{name}.codec.grammar.reads"
              for line, name, variant in re.findall(
                  r"^    (?:& )?(line|line_where|written) .*?(\w+) Attributes\.(\w+)", table_of("link_msg"), re.M)}
    lines = [stands("owned", "Borrowed", "Attributes", row, reader.get(row.name))
             for row in [*keys.rows(), OTHER]]
    return between(text, r"^abbrev pub owned : .*\n([\s\S]*?)\n\Z", lines)


def inner(crate):
    """The enums of a crate: its name, what is said of it, and its rows."""
    for source in keys.sources(crate):
        for enum, said in keys.enums(source):
            yield enum, said, list(keys.inner_rows(source, enum))


def place_of(crate, enum):
    return re.search(rf"^unfoldable pub (\w+) : Place {enum}$", table_of(crate), re.M)[1]


def module_of(crate):
    return crate.removeprefix("link_")


def file_of(crate, enum):
    return f"src/{module_of(crate)}/{keys.snake(enum)}.rt"


def names(crate, enum):
    """The names of an enum in what is written of it."""
    return place_of(crate, enum), f"owned_{keys.snake(enum)}", enum, f"specs.{module_of(crate).capitalize()}."


def member(crate, enum, said, rows, there):
    """The file of an enum: behind its imports what is in that of the first, with other names, and what rows make."""
    first = keys.INNER[0], next(inner(keys.INNER[0]))[0]
    found = BLOCK.search((VIEW / file_of(*first)).read_text("utf-8"))
    ends = [found.start(), *map(found.end, range(1, 6))], [*map(found.start, range(1, 6)), found.end()]
    text = "\0".join(found.string[start:end] for start, end in zip(*ends))
    for one, other in zip(names(*first), names(crate, enum)):
        text = text.replace(one, other)
    opened = [f"{crate}::specs::Tables::{place_of(crate, enum)}"]
    opened += ["nla_wire::specs::Grammar::unless_empty"] * any(row.how == "some" for row in rows)
    arms = [f"{row.number} => {arm('Borrowed' + enum, row)}," for row in rows]
    other = f"Ok(Borrowed{enum}::Other(frame))"
    body = ["let payload = frame.value();", "match kind {", *arms, f"_ => {other},", "}"] if rows else [other]
    said = f"{said.split(' (linux/')[0].rstrip('.')} over borrowed bytes: a variant for each of `{enum}`."
    for part in (said, enum, "\n".join(variants(rows)), ", ".join(opened), "\n".join(body)):
        text = text.replace("\0", part, 1)
    text = text if rows else re.sub(r"\bkind\b", "_kind", text, count=2)     # `read` looks at none
    return between(there, r"^(/// [\s\S]*)\Z", [text])


def member_specs(crate, text):
    for enum, _, rows in inner(crate):
        snake, lines = keys.snake(enum), []
        for row in [*rows, OTHER]:
            reader = ""
            if is_list(row.held):
                place = place_of(crate, re.fullmatch(r"List<(\w+)>", row.held)[1])
                listed = f"(list {place}.grammar)"
                reader = (f"(not_empty {listed})" if row.how == "some" else listed) + ".reads"
            lines.append(stands(f"owned_{snake}", f"Borrowed{enum}Of", f"{enum}Of", row, reader))
        text = between(text, rf"^abbrev pub owned_{snake} : .*\n([\s\S]*?)\n(?:\n|\Z)", lines)
    return text


def squeezed(text):
    """A text without its layout, which is that of `rt fmt`."""
    return re.sub(r"\s|,\s*(?=[)\]}])", "", text)


def stale():
    """The files that are not what is made of the rows, each with its text."""
    makes = {file_of(crate, one[0]): partial(member, crate, *one) for crate in keys.INNER for one in inner(crate)}
    for it in {str(path.relative_to(VIEW)) for path in VIEW.glob("src/*/*")} ^ makes.keys():
        raise ValueError(f"borrowed.py: {it} and an enum of its name are not both there")
    makes |= {"src/borrowed.rt": attributes, "specs/Borrowed.antt": attribute_specs}
    for crate in keys.INNER:
        makes[f"specs/{module_of(crate).capitalize()}.antt"] = partial(member_specs, crate)
    for path, make in makes.items():
        there = VIEW / path
        before = there.read_text("utf-8")
        text = make(before)
        if squeezed(before) != squeezed(text):
            yield there, text


def main():
    for there, text in stale():
        there.write_text(text, "utf-8")
        print(f"borrowed.py: made {there.relative_to(keys.CRATES.parent)}: run `rt fmt` in crates/link_view")


if __name__ == "__main__":
    main()
