#!/usr/bin/env python3
"""Lists the functions of the crates that no test names, in which no edit stands, and that nothing calls which is named.
Names are words: a function is named too where another one of its name is."""
import re
import sys
from collections import defaultdict

from edits import TOP, lists, owner, pairs_of

FUNCTION = re.compile(r'^( *)(?:pub(?:\(\w+\))? )?(?:const |final |unsafe )*(?:extern "C" )?fn (\w+)', re.M)
TESTS = ["crates/*_tests/src/*.rt", "crates/diff_checks/src/*.rt", "crates/*/src/tests/**/*.rt",
         "crates/*/src/tests.rt", "tests/**/*.c", "rust/tests/*.rs", "bench/*.[ch]"]


def functions(path):
    """Yields the name and the text of each function of a file, and of what stands outside of them, which is ""."""
    text = path.read_text("utf-8")
    outside, at = "", 0
    for it in FUNCTION.finditer(text):
        found = re.compile(rf"^{it[1]}\{{?\}}$", re.M).search(text, it.end())
        end = found.end() if found else len(text)
        outside, at = outside + text[at:it.start()], end
        yield it[2], text[it.end():end]
    yield "", outside + text[at:]


tests = {path for form in TESTS for path in TOP.glob(form)}
named = {word for path in tests for word in re.findall(r"\w+", path.read_text("utf-8"))} | {"", "main"}
edited = {(path, owner(text, text.find(old)).split("::")[-1]) for _, crate, edits in lists() for _, _, lines in edits
          for path, old, _ in pairs_of(lines, crate) if path.is_file() and old in (text := path.read_text("utf-8"))}
ours = [path for path in sorted(TOP.glob("crates/*/src/**/*.rt")) if path not in tests and path.stem != "laws"]
calls = defaultdict(set)
left, todo = set(), []
for path in ours:
    for name, text in functions(path):
        calls[name].update(re.findall(r"\w+", text))
        if name in named or (path, name) in edited:
            todo.append(name)
        elif not text.endswith("{}"):
            left.add((path, name))
seen = set()
while todo:
    name = todo.pop()
    if name not in seen:
        seen.add(name)
        todo += calls[name] & calls.keys()
left = [f"{path.relative_to(TOP)}: {name}" for path, name in sorted(left) if name not in seen]
print("\n".join(left) or f"functions: each of {len(seen)} names is reached by a test or an edit")
sys.exit(bool(left))
