"""A source as text in which forms are found and replaced. Each comment and each text is one letter in it, and behind
each bracket stands a letter that it shares with its partner alone, so that an expression finds what a bracket encloses.

Where something is dropped a mark stays, and for each of its lines another: so a line of a source keeps its number."""
import functools
import re

TOKEN = re.compile(r"""
    (?P<ws>\s+)
    | (?P<innerdoc>//![^\n]*) | (?P<doc>///(?!/)[^\n]*) | (?P<line>//[^\n]*) | (?P<block>/\*.*?\*/)
    | (?P<abi>"C")
    | (?P<str>[bc]?"(?:\\.|[^"\\])*" | (?:br|cr|r)(?P<marks>\#*)".*?"(?P=marks))
    | (?P<char>b?'(?:\\.[^']*|.)') | (?P<life>'\w+)
    | (?P<num>\d(?:\w|(?<!\.)\.(?=\d))*) | (?P<id>[^\W\d]\w*)
    | (?P<pair>[()\[\]{}][\U000a0000-\U000affff]?)
    | (?P<p>.)
    """, re.X | re.S)
# The first letter of each kind: these stand for nothing else.
FIRST = {"doc": 0x40000, "innerdoc": 0x50000, "line": 0x60000, "block": 0x70000, "str": 0x80000, "char": 0x90000,
         "pair": 0xa0000}
CLOSE = {"(": ")", "[": "]", "{": "}"}
DROPPED, LINE = "\f", "\v"
EMPTY = re.compile(r"\n[^\S\n]*\f[^\S\n]*(?=\n)")


def letters(*kinds):
    return "".join(f"{chr(FIRST[kind])}-{chr(FIRST[kind] + 0xffff)}" for kind in kinds)


DOC, PAIR = f"[{letters('doc')}]", f"[{letters('pair')}]"
BALANCED = rf"[(\[{{](?P<r%s>{PAIR})(?:.*?)[)\]}}](?P=r%s)"
# What is in brackets is never given back, as what a look ahead found is not.
RUN = rf"(?:[^()\[\]{{}};]|(?=(?P<q%s>{BALANCED}))(?P=q%s))*?"
# Space without a blank line, but for one that stood in the place of something.
NEAR = r"(?:[^\S\n]|\n(?![^\S\n\f\v]*\n))*"
ITEM = (rf"(?P<item>(?:(?:{DOC}|#\[(?P<r%s>{PAIR}).*?\](?P=r%s)"
        rf"|pub\b(?:\({PAIR}\w+\){PAIR})?|unsafe\b|const\b){NEAR})*)")
PART = re.compile(r"/.+?/|\$\w+\.\.|\$\w+|\.\.|\w+|\S")


class Unknown(Exception):
    """A form that no rewrite knows, with its file and line."""


@functools.lru_cache(maxsize=None)
def form(text):
    """The expression of a form: words and signs, with any space between. `..` is anything, `$x` a name and `$x..`
    anything by a name, whose brackets are closed and, but for all that a bracket encloses, without a semicolon; `@` is
    what belongs to an item in front of it: docs, attributes and words; and `/../` is an expression as it stands."""
    made, open_, known = [], [], set()
    parts = PART.findall(text)
    for at, part in enumerate(parts):
        is_run = part.endswith("..")
        if made and not is_run and not parts[at - 1].endswith(("..", "@")) and not part.startswith(("/(?=", "/(?!")):
            made.append(r"\s*")
        if part.startswith("/") and part != "/":
            made.append(part[1:-1])
        elif part == "@":
            made.append(ITEM.replace("%s", str(at)))
        elif is_run:
            is_all = parts[at - 1] in CLOSE and parts[at + 1] in CLOSE.values()
            run = ".*?" if is_all else RUN.replace("%s", str(at))
            made.append(f"(?P<{part[1:-2]}>{run})" if part != ".." else run)
        elif part[0] == "$" and part != "$":
            made.append(f"(?P={part[1:]})" if part in known else rf"\b(?P<{part[1:]}>\w+)\b")
            known.add(part)
        elif part in CLOSE:
            made.append(f"{re.escape(part)}(?P<b{at}>{PAIR})")
            open_.append(at)
        elif part in CLOSE.values():
            made.append(f"{re.escape(part)}(?P=b{open_.pop()})" if open_ else f"{re.escape(part)}{PAIR}")
        else:
            made.append(rf"\b{part}\b" if re.fullmatch(r"\w+", part) else re.escape(part))
    return re.compile("".join(made), re.S)


@functools.lru_cache(maxsize=None)
def words(text):
    """The words of a form, without which it stands nowhere."""
    return [part for part in PART.findall(text) if re.fullmatch(r"\w{2,}", part)]


def lines(text):
    return text.count("\n") + text.count(LINE)


@functools.lru_cache(maxsize=8)
def blocks(text):
    """Each `impl` and `trait` of a text, the last first: the words in front of its brace, and where the braces are."""
    found = re.finditer(rf"\b((?:impl|trait)\b[^{{}};]*)\{{({PAIR})", text)
    return [(it[1], it.end(), text.index("}" + it[2], it.end())) for it in found][::-1]


def named(head):
    """What is named behind an `impl` or `trait`."""
    return re.match(r"\w+\s*(?:<(?:[^<>]|<[^<>]*>)*>)?\s*(\w+)", head)[1]


def filled(text, found):
    """A text with the parts of a form in the place of their names."""
    names = "|".join(sorted(found.re.groupindex, reverse=True))
    return re.sub(rf"\$({names})", lambda it: found[it[1]] or "", text) if names else text


class Source:
    """A source in which forms are replaced, one after the other."""

    def __init__(self, path, text):
        self.path, self.held, self.pairs, self.text = path, {}, 0, ""
        self.text = self.take(text)

    def take(self, text):
        """Rust or Rattle as the text of a source has it; what stands so already stays."""
        made, open_ = [], []
        for found in TOKEN.finditer(text):
            kind, part = found.lastgroup, found.group()
            if kind == "pair" and len(part) == 1:
                if part in CLOSE:
                    open_.append((part, self.pairs))
                    self.pairs += 1
                elif not open_ or CLOSE[open_[-1][0]] != part:
                    self.text = text
                    self.fail(found.start(), "brackets do not match")
                part += chr(FIRST[kind] + (open_[-1] if part in CLOSE else open_.pop())[1])
            elif kind in FIRST and kind != "pair":
                self.held[chr(FIRST[kind] + len(self.held))] = part
                part = chr(FIRST[kind] + len(self.held) - 1)
            made.append(part)
        return "".join(made)

    def fail(self, at, why):
        raise Unknown(f"{self.path}:{lines(self.text[:at]) + 1}: {why}")

    def plain(self, text):
        """What stands in a source for a part of this text."""
        text = re.sub(PAIR, "", text)
        return re.sub(f"[{letters('doc', 'innerdoc', 'line', 'block', 'str', 'char')}]",
                      lambda it: self.held[it[0]], text)

    def find(self, what):
        return form(what).finditer(self.text) if all(word in self.text for word in words(what)) else ()

    def replaced(self, text, what, new=""):
        """A text with something in the place of each such form, until none is left: a text in which `$x` is the part of
        that name, or what a function says of it, None to leave it as it is."""
        def put(found):
            made = new(found) if callable(new) else filled(new, found)
            if made is None:
                return found[0]
            made = self.take(made)
            return made + DROPPED * (not made.strip()) + LINE * (lines(found[0]) - lines(made))
        while all(word in text for word in words(what)):
            text, before = form(what).sub(put, text), text
            if text == before or callable(new):
                return before if text == before else text
        return text

    def put(self, what, new=""):
        text = self.replaced(self.text, what, new)
        if text is not self.text:
            self.text = EMPTY.sub(lambda it: LINE * lines(it[0]), text)

    def refuse(self, what, why):
        """Refuses each such form; `$x` in the words is its part of that name."""
        for found in self.find(what):
            at = found.end("item") if "item" in found.groupdict() else found.start()
            self.fail(at, self.plain(filled(why, found)))

    def outer(self, at):
        """The innermost bracket around a place, or None."""
        open_ = []
        for it in re.finditer(r"[()\[\]{}]", self.text[:at]):
            open_ = open_ + [it[0]] if it[0] in CLOSE else open_[:-1]
        return open_[-1] if open_ else None

    def around(self, at):
        """The innermost `impl` or `trait` around a place: what stands between that word and its brace; or None."""
        return next((head for head, start, end in blocks(self.text) if start < at < end), None)

    def owner(self, at):
        """The type of the inherent impl around a place, or None."""
        head = self.around(at)
        return None if head is None or head.startswith("trait") or re.search(r"\bfor\b", head) else named(head)

    def rust(self):
        """The text; no blank line stands beside another, or beside the brace of a block."""
        text = re.sub(r"[^\S\n]+$|[\f\v]", "", self.text, flags=re.M)
        for what, new in ((r"\n{3,}", "\n\n"), (rf"(\{{{PAIR})\n\n", r"\1\n"), (r"\n\n( *\})", r"\n\1")):
            text = re.sub(what, new, text)
        return self.plain(text.strip("\n") + "\n")
