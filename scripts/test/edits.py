#!/usr/bin/env python3
"""Takes a list of edits apart into the files that `rt must-fail` reads; scripts/README.md has the form of a list.

    python3 scripts/test/edits.py edits/CRATE.txt FOLDER [WORDS]    with WORDS those whose names have these words
    python3 scripts/test/edits.py --fit                             which edits, or lines of the table, do not fit
    python3 scripts/test/edits.py --table                           makes the table of edits/README.md
    python3 scripts/test/edits.py --apply FILE.edit CRATE           makes an edit in the folder of a crate"""
import re
import sys
from pathlib import Path

TOP = Path(__file__).resolve().parents[2]
PAGE = TOP / "edits/README.md"
MADE = re.compile(r"(?<=<!-- made by scripts/test/edits.py --table -->\n).*?(?=<!-- made: end -->\n)", re.S)
TABLE = "| edit | stands in | goal that stays open | tried in |\n|---|---|---|---|\n"
NO_GOAL = "?"
FIRST = "== the first to try\n"
GROUP = re.compile(r"== \S.*\n")
EDIT = re.compile(r"(?!file:|old:|new:|[#=])(?=.*[a-zA-Z0-9]).{1,120}\n"
                  r"(file: (src|specs|proofs)/\S+\n(old: .*\S.*\nnew:( .*)?\n)+)+")
FORM = "an edit below a group is its headline, and then lines 'file: PATH' with pairs of lines 'old: TEXT', 'new: TEXT'"


def name_of(headline):
    return "_".join(re.findall(r"[a-z0-9]+", headline.lower()))


def lines_of(edit):
    return Path(edit).read_text("utf-8").rstrip("\n").split("\n")


def read(path):
    """Returns the edits of a list, as group, headline and lines, or stops and says which is not of the form."""
    text, edits, groups, faults = Path(path).read_text("utf-8") + "\n", {}, [], []
    for found in re.finditer(r"(?:.+\n)+", text):
        paragraph = found[0].replace("\n" + " " * 8, " ")
        where = f"{path}:{text.count(chr(10), 0, found.start()) + 1}"
        if GROUP.fullmatch(paragraph):
            if paragraph in groups:
                faults.append(f"{where}: there is another group of this title")
            groups.append(paragraph)
        elif groups or not re.fullmatch("(#.*\n)+", paragraph):
            headline, *lines = paragraph.rstrip("\n").split("\n")
            if not groups or not EDIT.fullmatch(paragraph):
                faults.append(f"{where}: {FORM}")
            if name_of(headline) in edits:
                faults.append(f"{where}: another edit has a headline in these words: {headline}")
            edits[name_of(headline)] = groups[-1] if groups else "", headline, lines
    if not {*groups} <= {group for group, *_ in edits.values()}:
        faults.append(f"{path}: a group has no edit")
    if faults or not edits:
        sys.exit("\n".join(faults) or f"{path}: it has no edit")
    return [*edits.values()]


def lists():
    """Yields where the edits of the gate, and those of the lists, stand, the folder of their crate, and the edits as
    group, headline and lines."""
    for folder in sorted(TOP.glob("crates/*/must-fail")):
        yield folder, folder.parent, [("", f"`{it.stem}`", lines_of(it)) for it in sorted(folder.glob("*.edit"))]
    for path in sorted(TOP.glob("edits/*.txt")) + sorted(TOP.glob("tests/edits/*.txt")):
        yield path, TOP / "crates" / path.stem, read(path)


def pairs_of(lines, crate):
    """Yields of each pair of an edit the file, the old text and the new one."""
    path, old = crate, ""
    for line in lines:
        key, _, text = line.partition(":")
        if key == "file":
            path = crate / text[1:]
        elif key == "old":
            old = text[1:]
        else:
            yield path, old, text[1:]


def edited(lines, crate):
    """Returns the texts of the files that an edit changes, by their path, and why it cannot be applied, or None."""
    texts = {}
    for path, old, new in pairs_of(lines, crate):
        if not path.is_file():
            return texts, f"there is no file {path.relative_to(crate)}"
        text = texts[path] if path in texts else path.read_text("utf-8")
        if text.count(old) != 1:
            return texts, f"this text is in {path.relative_to(crate)} {text.count(old)} times, and not once: " \
                f"{old.strip()[:80]}"
        texts[path] = text.replace(old, new)
    return texts, None


def owner(text, at):
    """Returns the function, the named type or the macro of a file in which a place of it stands, as `Type::name` or
    `name`."""
    head = text[:at] + text[at:].partition("\n")[0]
    items = re.findall(r"^( *)(?:pub(?:\(\w+\))? )?(?:const )?(?:final )?(?:fn|type|macro_rules!) (\w+)", head, re.M)
    if not items:
        return ""
    indent, name = items[-1]
    blocks = re.findall(r"^(?:pub )?(?:impl|trait)\b(?:<.*?>)? (?:[\w<>':, ]+ for )?(\w+)", head, re.M)
    return f"{blocks[-1]}::{name}" if indent and blocks else name


def page_as_made():
    """Returns the page of edits as it is, and as it is with its table made anew, with the goals that it has: a row for
    each edit that the gate and `make check` try, and for those that lists have to be tried first."""
    page, table = PAGE.read_text("utf-8"), TABLE
    rows = [[it.strip() for it in row.strip("|").split(" | ")] for row in page.split("\n") if row.count(" | ") == 3]
    goals = {(where.strip("`"), edit): goal for edit, _, goal, where in rows}
    for path, crate, edits in lists():
        where = crate.name if path.is_dir() else "tests/edits" if path.parts[-3] == "tests" else f"edits/{crate.name}"
        for group, headline, lines in edits:
            if group == FIRST or not where.startswith("edits/"):
                sources = [(it.read_text("utf-8"), old) for it, old, _ in pairs_of(lines, crate) if it.is_file()]
                names = sorted({owner(text, text.find(old)) for text, old in sources} - {""})
                table += f"| {headline} | {', '.join(f'`{it}`' for it in names)} | " \
                    f"{goals.get((where, headline), NO_GOAL)} | `{where}` |\n"
    return page, MADE.sub(lambda _: table, page)


def fit():
    """Prints in what the page of edits is not as it is made, and which edits do not fit; returns whether there are."""
    page, made = page_as_made()
    told = [f"edits/README.md: no goal: {row}" for row in made.split("\n") if f" | {NO_GOAL} | " in row]
    told += ["edits/README.md: it is not as 'python3 scripts/test/edits.py --table' makes it"] * (page != made)
    count = len(told)
    for path, crate, edits in lists():
        bad = [f"{crate.name}: {headline}: {why}" for _, headline, lines in edits if (why := edited(lines, crate)[1])]
        told += [*bad, f"{path.relative_to(TOP)}: {len(edits)} edits, {len(bad)} do not fit"]
        count += len(bad)
    print(*told, sep="\n")
    return int(count > 0)


def main(words):
    if words == ["--fit"]:
        return fit()
    if words == ["--table"]:
        return PAGE.write_text(page_as_made()[1], "utf-8") and None
    if words[:1] == ["--apply"] and len(words) == 3:
        texts, why = edited(lines_of(words[1]), Path(words[2]))
        for path, text in {} if why else texts.items():
            path.write_text(text, "utf-8")
        return why and f"{words[1]}: {why}"
    if len(words) not in (2, 3) or words[0].startswith("-"):
        return __doc__
    path, folder, *wanted = words
    folder = Path(folder)
    folder.mkdir(parents=True, exist_ok=True)
    for _, headline, lines in read(path):
        file = folder / f"{name_of(headline)}.edit"
        if file.exists():
            sys.exit(f"{path}: there is a file of this name already, so word the headline anew: {headline}")
        file.write_text("\n".join(lines) + "\n", "utf-8")
    for file in folder.glob("*.edit"):
        if f"_{name_of(''.join(wanted))}" not in f"_{file.name}":
            file.unlink()
    return None


if __name__ == "__main__":
    sys.exit(main(sys.argv[1:]))
