"""What is dropped and replaced in each source: the tables of rules.txt, and what functions make of a form."""
import re
from collections import defaultdict
from pathlib import Path

from source import PAIR


def read():
    """The tables by their names, each a list of forms and of what stands for them; and the lists of words."""
    tables, parts, words = defaultdict(list), {"PAIR": PAIR, "LETTERS": PAIR[1:-1]}, {}
    text = re.sub(r"^--.*\n", "", Path(__file__).with_name("rules.txt").read_text("utf-8"), flags=re.M)
    for name, rows in re.findall(r"^\[(\w+)\]\n((?:.+\n)+)", text, re.M):
        for row in rows.replace("\n    ", " ").splitlines():
            what, _, new = map(str.strip, re.sub("<([A-Z]+)>", lambda it: parts[it[1]], row).partition("==>"))
            if name == "words":
                words[what] = new.split()
            if name in ("words", "parts"):
                parts[what] = "|".join(words.get(what, [new]))
            else:
                tables[name].append((what, new.replace(r"\n", "\n").replace(r"\_", " ")))
    return tables, words


TABLES, WORDS = read()


def as_match(found):
    """`let PATTERN = value else { .. };` as a `match`."""
    pattern, indent = found["x"].strip(), re.search(r" *$", found.string[:found.start()])[0]
    names = re.findall(r"(?<![.\w])(?<!::)([a-z]\w*)(?!\w|\s*[({:])", pattern)
    bound = names[0] if len(names) == 1 else f"({', '.join(names)})"
    line = found["body"].strip().removesuffix(";")
    body = "{" + found["body"].replace("\n", "\n    ") + "}" if re.search(r"[\n;]", line) else line + ","
    return "\n".join([f"let {bound} = " * (bound != "()") + f"match {found['y'].strip()} {{",
                      f"{indent}    {pattern} => {bound},", f"{indent}    _ => {body}", f"{indent}}};"])


def closed(arm):
    """The arm of a range without its end, with the last number of the range."""
    base = hex if arm["end"].startswith("0x") else str
    return f"{arm['front']}..={base(int(arm['end'], 0) - 1)} =>"


# What Rust 1.63 has not, which Debian 12 has; not `if let`, and `let x = if .. {} else {}`.
TABLES["older"] = [
    (r"/(?<!if )(?<!while )\blet\b/ $x.. /=(?!=)/ $y.. /(?<!\}.)\s\belse\b/ {$body..} ;", as_match),
    (r"/(?P<front>\n +\w+)\.\.(?P<end>\w+) =>/", closed),
]


def apply(s, *tables):
    """Puts what stands for each form, a text or what a function makes of it, and refuses what is refused."""
    for what, new in (row for table in tables for row in TABLES[table]):
        if not callable(new) and new.startswith("!"):
            s.refuse(what, new[1:])
        else:
            s.put(what, new)
