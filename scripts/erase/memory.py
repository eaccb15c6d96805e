"""The crate's memory: no call fails for memory alone, and `Vec` and `String` are Rust's."""
import re

import paths
import rules
from source import PAIR

TYPES = {"List": "Vec", "Text": "String", "Bytes": "Vec<u8>"}
GROWS = "append|extend_from_slice|push|push_str|reserve|resize"
# A function that fails for memory alone, and its body.
FAILS = (r"/(?P<call>\bfn (?P<name>\w+)/ (..) /)/ - > Result < /(?P<type>[^{};]*?)/ , AllocError > "
         r"/(?P<more>[^{};]*)(?P<body>/ {..} /|;)/")


def unwrap_functions(s):
    """Those functions return their values, `Ok(value)` is the value."""
    def put(found):
        body = found["body"]
        for what, new in rules.TABLES["values"]:
            body = s.replaced(body, what, new)
        wrong = re.search(rf"\bErr\(({PAIR})(?!.*?\)\1\s*=)", body, re.S)
        if wrong:
            s.fail(found.start("body") + wrong.start(),
                   "a function that fails for memory alone gives an error of its own")
        type_ = "" if re.fullmatch(rf"\({PAIR}\){PAIR}", found["type"]) else f" -> {found['type']}"
        return f"{found['call'].rstrip()}{type_} {found['more']}{body}"
    s.put(FAILS, put)


def memory(s, names):
    """All of it. `names` are the functions of the whole package that fail for memory alone."""
    paths.drop_names(s, lambda name, _: name in rules.WORDS["GONE"])
    rules.apply(s, "memory")
    unwrap_functions(s)
    rules.apply(s, "makers")
    # calls of them, and those that make memory or room: nothing is asked of what they return
    calls = rf"(?<!fn )\b(?:{'|'.join(names) or '!'})"
    for found in s.find(rf"/{calls}/ (..) /(?!\s*\?)/"):
        # what a function that fails for memory alone returns
        if not (s.text[found.end():].lstrip()[0] in ",}" and s.outer(found.start()) == "{"):
            s.fail(found.start(), "a call that fails for memory alone is not asked at once whether it failed")
    s.put(rf"/(?P<call>(?:{calls}|\.\s*(?:{GROWS}))/ (..) /)\s*\?/", "$call")
    rules.apply(s, "own_types")
    enums = [range(*it.span("x")) for it in s.find("enum /\\w+/ {$x..}")]
    # but for variants of their names
    s.put(r"/(?<!::)\b(?P<type>List|Text|Bytes)\b(?!\s*\()/",
          lambda it: None if any(it.start() in enum for enum in enums) and s.outer(it.start()) == "{"
          else TYPES[it["type"]])
    rules.apply(s, "allocators")
