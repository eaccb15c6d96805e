"""The words of the docs: what the crate has not, and what a Rust user looks for."""
import re
import textwrap
from pathlib import Path

from rules import TABLES
from source import PAIR, letters
from surface import CALL, public_name

WIDTH = 120
# Sentences about what only Rattle has.
SAID = [(re.compile(pattern), text) for pattern, text in TABLES["said"]]
LEFT = re.compile(r"OutOfMemory|for the proof|\bclause\b|growth_per_byte|small_enough")
DOCS = "|".join(rf"[{marks}](?:[^\S\n]*\n[^\S\n]*[{marks}])*" for marks in map(letters, ("doc", "innerdoc")))
# The lines of docs, and the call that stands behind them and its attributes.
BLOCK = rf"/(?P<docs>{DOCS})(?=\s*(?:#\[(?P<q>{PAIR}).*?\](?P=q)\s*)*{CALL[1:-1]}|)/"

REFUSES = re.compile(r"(?<=\. )Refuses (?:[^.]|\.(?! [A-Z]|$))*\.")
EXAMPLE = re.compile(r"^## (\S+)\n\n(?:Besides: ([^`]+)\.\n\n)?```rust\n(.*?)\n```$", re.M | re.S)


def examples():
    """The examples of examples.md: by the name of a public call, without its module, the paragraph of docs that has its
    own, or that says which call's it stands in too."""
    text, found = Path(__file__).with_name("examples.md").read_text("utf-8"), {}
    parts = EXAMPLE.findall(text)
    if len(parts) != text.count("\n## "):
        raise ValueError("examples.md: a part has another form")
    for name, besides, code in parts:
        link = f"[`{name.removeprefix('info::')}`](crate::{name}) has an example."
        shown = [(name, ["```", *code.split("\n"), "```"])]
        for one, paragraph in shown + [(other, [link]) for other in besides.replace(",", " ").split()]:
            if found.setdefault(one.removeprefix("info::"), paragraph) is not paragraph:
                raise ValueError(f"examples.md: {one} has two examples")
    return found


def lines_of(s, block):
    return [s.held[it][3:].removeprefix(" ") for it in block if it in s.held]


def paragraphs(lines):
    """Lines of docs as paragraphs, each a list of lines; what is fenced, or a list, is one for itself."""
    found, fenced = [[]], False
    for line in lines:
        if line.strip() == "" and not fenced:
            found.append([])
            continue
        fenced ^= line.strip().startswith("```")
        found[-1].append(line)
    return [one for one in found if one]


def said(paragraph):
    """A paragraph in the crate's words."""
    text = " ".join(line.strip() for line in paragraph)
    new = text
    for pattern, instead in SAID:
        new = pattern.sub(instead, new)
    return paragraph if new == text else [new] if new.strip() else []


def docs(s, told, public):
    """The docs in the crate's words. `told` says paragraphs for a call that a user sees, by its name."""
    seen = set()

    def put(found):
        name = found["name"] and public_name(s, found, public)
        seen.add(name)
        before = paragraphs(lines_of(s, found["docs"]))
        made = [one for one in map(said, before) if one]
        made = with_told(made, told(name, found)) if name else made
        left = LEFT.search(" ".join(" ".join(one) for one in made))
        if left:
            s.fail(found.start(), f"words of Rattle in docs: {left.group()}")
        return None if made == before else written(s, found, made)
    s.put(BLOCK, put)
    for found in s.find(CALL):
        name = public_name(s, found, public)
        if name and name not in seen and told(name, found):
            s.fail(found.start(), "a call that a user sees has no docs")


def written(s, found, paragraphs_):
    """The docs as lines, from the place on where they begin."""
    mark = s.held[found["docs"][0]][:3]
    indent = re.sub(r"[\f\v]", "", s.text[s.text.rfind("\n", 0, found.start()) + 1:found.start()])
    lines, width = [], WIDTH - len(indent) - 4
    for one in paragraphs_:
        if len(one) == 1 and not one[0].startswith(("#", "```", "|", " ")):
            one = textwrap.wrap(one[0], width, break_long_words=False, break_on_hyphens=False)
        lines += [""] * bool(lines) + one
    return f"\n{indent}".join(f"{mark} {line}".rstrip() for line in lines)


def refusal_last(found):
    """A sentence that says what is refused, within a paragraph, is a paragraph behind all."""
    if any(one[0].startswith("Refuses") for one in found):
        return found
    for n, one in enumerate(found):
        text = " ".join(line.strip() for line in one)
        sentence = REFUSES.search(text)
        if sentence and not one[0].startswith(("```", "- ", "|")):
            rest = text[:sentence.start()] + text[sentence.end():].removeprefix(" ")
            return found[:n] + [[rest.strip()]] + found[n + 1:] + [[sentence[0].strip()]]
    return found


def with_told(found, told):
    """The paragraph that says what is refused goes under its heading, a link to an example above the headings; what
    else is told comes after all."""
    if [] in told:                                      # the mark of a call that returns a Result
        found = refusal_last(found)
        at = next((n for n, one in enumerate(found) if one[0].startswith("Refuses")), None)
        refused = ["The first fault: its cause, and where it is."] if at is None else found[at]
        at = len(found) if at is None else at
        found = [*found[:at], ["# Errors"], refused, *found[at + 1:]]
    at = next((n for n, one in enumerate(found) if one[0].startswith("# ")), len(found))
    links = [one for one in told if one and one[0].startswith("[")]
    return found[:at] + links + found[at:] + [one for one in told if one and one not in links]
