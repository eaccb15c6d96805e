#!/usr/bin/env python3
"""Holds docs/HEADLINE.md to the crates and to the programs: how many definitions the headline stands on, by the `use`
lines of the specs from `Headline` on, how many constants its tables pin, and what the programs answer to the bytes of
its examples.

    python3 scripts/test/headline.py [LINKWIRE LINKSHOW]
    python3 scripts/test/headline.py --list     prints the definitions, the headline first, and runs nothing"""
import re
import sys

from shared import answers, read

PAGE = "docs/HEADLINE.md"
START = "link_headline.specs.Headline", "Headline"
# what the headline says all of, so that nobody has to read how it is made
PINNED = "link_headline.specs.Values"
# fields of records, and numbers of enums and flags
LISTS = "link_vals", "link_recs", "link_vfrec"
NUMBERS = "link_msg", "link_vf", "link_nest", "link_afspec"
ITEM = re.compile(r"^(?:abbrev |unfoldable )?(?:pub )?(?:(?:record|data) )?([^\s:]+) (?=.*:)(?![^:]*=)")
USE = re.compile(r"^use Rattle\.(\S+?)(?: as (\S+)|\.\{(.*)\})?$", re.M)
NAME = re.compile(r"[^\s(){},;:λ→×]+")
# comments, and the fields `reads`, which no other line may cite
UNREAD = re.compile(r" *--[^\n]*|^\s*pub reads :[^\n]*\n|\breads = [^;{}]*;?", re.M)
BLOCK = re.compile(r"^```bytes\n([\s\S]*?)^```$", re.M)


def fails(what):
    sys.exit(f"headline: {PAGE}: {what}")


class Module:
    """A file of specs: its definitions, and where the names that it uses stand."""

    def __init__(self, name):
        crate, _, rest = name.partition(".")
        text = read(f"crates/{crate}/{rest.replace('.', '/')}.antt")
        self.names, self.others, self.items = {}, {}, {}
        for path, alias, listed in USE.findall(text):
            if alias:
                self.others[alias] = path
            for it in filter(None, re.split(r",\s*", listed)):
                there, _, here = it.partition(" as ")
                self.names[here or there] = path, there
        current = None
        for line in text.splitlines():
            found = not line.startswith(("use ", "--", "infix", " ")) and ITEM.match(line)
            current = found[1] if found else current
            if current and not line.startswith(("use ", "--")):
                self.items[current] = self.items.get(current, "") + line + "\n"
        self.names.update({it: (name, it) for it in self.items})


def walk(starts, is_left_out):
    """What one reads from these definitions on: module, name and the lines of each definition."""
    modules, found, todo = {}, {}, list(starts)
    while todo:
        module, name = todo.pop(0)
        if (module, name) in found or ".declared." in module or is_left_out(module, name):
            continue
        there = modules.setdefault(module, Module(module))
        if name not in there.items:
            sys.exit(f"headline: {module} has no {name}")
        body = UNREAD.sub("", there.items[name])
        if re.search(r"\.reads\b", body):
            sys.exit(f"headline: {name} of {module} cites a reader")
        found[module, name] = sum(bool(line.strip()) for line in body.splitlines())
        # where each name stands that the lines of the definition cite
        for first, _, rest in (it.partition(".") for it in NAME.findall(body)):
            if first in there.others and rest:
                todo.append((there.others[first], rest.split(".")[0]))
            elif first in there.names:
                todo.append(there.names[first])
    return found


def of_headline():
    return walk([START], lambda module, _: module.startswith(("std.", "bitflags.")) or module == PINNED)


def size(found):
    """So many definitions, as the pages have it."""
    return f"{len(found)} definitions of {sum(found.values())} lines"


def hold_words(fails, page, sentences):
    plain = " ".join(page.split())
    for it in sentences:
        if it not in plain:
            fails(f"it does not say '{it}'")


def spelled(text):
    """The hexadecimal digits that an example stands for."""
    text = text.replace("H", "00" * 16)
    while "*" in text:
        text = re.sub(r"(\d+)\*\(([^()]*)\)", lambda it: it[2] * int(it[1]), text)
    return "".join(text.split())


def hold(line, linkwire, linkshow):
    """Looks whether the programs answer an example as it says."""
    given, arrow, wanted = line.partition(" -> ")
    if not arrow:
        fails(f"'{line}' has no answer")
    digits, (word, _, rest) = spelled(given), wanted.strip().partition(" ")
    found, shown = (answers(program, [digits])[0].decode() for program in (linkwire, linkshow))
    if word == "refused":
        fault = re.match(r'\{"fault":"([^"]*)"', shown)
        wanted, found = f"refused {rest}", f"{found} {fault[1] if fault else 'with no fault'}"
    elif word == "ok":
        wanted = f"ok {spelled(rest) or digits}"
    if found != wanted:
        fails(f"'{line}': the answer is {found}")


def show(found):
    """Prints the definitions, a file a line."""
    for module in dict.fromkeys(module for module, _ in found):
        names = [f"{name} {lines}" for (there, name), lines in found.items() if there == module]
        print(f"crates/{module.replace('.', '/')}.antt: {', '.join(names)}")


def main(linkwire="out/linkwire", linkshow="out/linkshow"):
    page, found = read(PAGE), of_headline()
    listed = {it: lines for it, lines in found.items() if it[0].split(".")[0] in LISTS}
    rest = {it: lines for it, lines in found.items() if it not in listed}
    numbers = {it: len(re.findall(r"^pub const \w+: u16 = ", read(f"crates/{it}/src/numbers.rt"), re.M))
               for it in NUMBERS}
    counted = [f"{size(rest)} in {len({module for module, _ in rest})} files", size(listed),
               f"{sum(numbers.values())} constants ({', '.join(f'{n} of `{it}`' for it, n in numbers.items())})"]
    hold_words(fails, page, counted)
    lines = [it for block in BLOCK.findall(page) for it in block.replace("->\n", "->").splitlines()
             if it and it[0] != "#"]
    for it in lines:
        hold(it, linkwire, linkshow)
    print(f"headline: {len(lines)} examples, {'; '.join(counted)}\nheadline: ok")


if __name__ == "__main__":
    show(of_headline()) if sys.argv[1:] == ["--list"] else main(*sys.argv[1:])
