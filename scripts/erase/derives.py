"""What is derived: `Drop` goes, thiserror's `Error` is written out, and a Rust user's traits come."""
import re

from rules import WORDS
from source import DOC, PAIR, letters

# `Debug` of these is written by hand: it names the flags.
FLAG_SETS = {"LinkFlags", "Inet6IfaceFlags"}
SERDE = '#[cfg_attr(feature = "serde", derive(serde::Serialize, serde::Deserialize))]'
ORDER = ["Clone", "Copy", "Debug", "Default", "PartialEq", "Eq", "PartialOrd", "Ord", "Hash"]
# These are empty lists by default, as in netlink-packet-route.
EMPTY = {"LinkVfInfo", "LinkVfPort"}

ATTRIBUTES = rf"(?:\s*(?:#\[(?P<%s>{PAIR}).*?\](?P=%s)|{DOC}))*\s*"
BODY = rf"(?:\{{(?P<p>{PAIR})(?P<named>.*?)\}}(?P=p)|\((?P<q>{PAIR})(?P<listed>.*?)\)(?P=q))?"
TYPE = (rf"/#\[{PAIR}derive\({PAIR}(?P<names>[^()]*)\){PAIR}\]{PAIR}(?P<more>" + ATTRIBUTES.replace("%s", "a")
        + rf"(?:pub\b\s*(?:\({PAIR}\w+\){PAIR})?\s*)?)(?P<kind>enum|struct) (?P<type>\w+)(?P<front>[^{{(;]*)"
        + rf"{BODY};?/")
VARIANT = re.compile("(?P<more>" + ATTRIBUTES.replace("%s", "a") + rf")(?P<type>[A-Z]\w*)\s*{BODY}\s*(?:,|\Z)", re.S)
MESSAGE = rf"#\[{PAIR}error\({PAIR}([{letters('str')}])?"


def derives(s, is_crate):
    """Takes `Drop` and `Error` out of derives, and writes what thiserror's derive would."""
    def put(found):
        had = [name.strip() for name in found["names"].split(",")]
        kept = [name for name in had if name not in ("Drop", "Error")]
        more = ""
        if is_crate:
            kept = wanted(s, found["type"], had, kept)
            more = stored(s, found, kept)
        if kept == had and not more:
            return None
        text = (f"#[derive({', '.join(kept)})]" if kept else "\f") + more
        text += found[0][found.start("more") - found.start():]
        return s.replaced(text, "# [ error (..) ]") + shown(s, found) if "Error" in had else text
    s.put(TYPE, put)


def stored(s, found, kept):
    """A value of a message can be stored, by the feature `serde`, if it does not borrow."""
    name = found["type"]
    is_stored = "Eq" in kept and name not in WORDS["NOT_STORED"] and not found["front"].startswith("<")
    keeps_others = found["kind"] == "enum" and re.search(r"\bOther\b", found["named"])
    if is_stored and keeps_others and name not in WORDS["GROWS"]:
        s.fail(found.start("type"), f"{name} keeps others, and is not in GROWS of rules.txt")
    return f"\n{SERDE}" * is_stored + "\n#[non_exhaustive]" * (name in WORDS["GROWS"])


def wanted(s, name, had, kept):
    """What a Rust user expects: each type is `Clone`, and one with `Eq` has `Hash`."""
    kept = {*kept, *["Clone"] * (not any(s.find(f"Clone for {name}")))}
    kept |= {*["PartialEq", "Eq"] * (name in WORDS["COMPARED"])}
    kept |= {one for one, is_kept in (("Hash", "Eq" in kept), ("Default", name in EMPTY)) if is_kept}
    kept -= {"Debug"} if name in FLAG_SETS else set()
    return [one for one in ORDER if one in kept] + [one for one in had if one in kept and one not in ORDER]


def names_in(fmt):
    """What a format names: `{name:..}` and `{0}`."""
    return re.findall(r"\{(\w*)[^{}]*\}", fmt.replace("{{", "").replace("}}", ""))


def arm(s, name, it, base):
    """The arm of a variant, or of a struct, that writes its message `#[error("..")]`."""
    message = re.search(MESSAGE, it["more"])
    if not message:
        s.fail(base + it.start("type"), "no message of an error")
    if not message[1] or it["more"][message.end()] != ")":
        s.fail(base + it.start("more") + message.start(), "a message that is more than one text")
    fmt = s.held[message[1]]
    used = names_in(fmt)
    if it["named"] is not None:
        rest = [".."] * (len(set(used)) < len(re.findall(r"\w+\s*:(?!:)", it["named"])))
        return f"{name} {{ {', '.join([*dict.fromkeys(used), *rest])} }} => write!(f, {fmt}),"
    if it["listed"] is not None:
        count = len([one for one in it["listed"].split(",") if one.strip()])
        binds = ", ".join(f"field{at}" if str(at) in used else "_" for at in range(count))
        return f"{name}({binds}) => write!(f, {re.sub(r'{(?=[0-9])', '{field', fmt)}),"
    return f"{name} => write!(f, {fmt})," if used else f"{name} => f.write_str({fmt}),"


def shown(s, found):
    """`Display` from the messages, and `Error`, after the type."""
    type_ = found["type"]
    if found["front"].startswith("<"):
        s.fail(found.start("type"), "a derived error with parameters")
    if found["kind"] == "struct":
        binds, writes = arm(s, type_, found, 0).removesuffix(",").split(" => ")
        lines = f"        let {binds} = self;\n        {writes}"
    else:
        arms = (arm(s, f"{type_}::{it['type']}", it, found.start("named")) for it in VARIANT.finditer(found["named"]))
        lines = "\n".join(["        match self {", *(" " * 12 + one for one in arms), "        }"])
    return (f"\n\nimpl core::fmt::Display for {type_} {{\n"
            "    fn fmt(&self, f: &mut core::fmt::Formatter<'_>) -> core::fmt::Result {\n"
            f"{lines}\n    }}\n}}\n\n"
            f'#[cfg(feature = "std")]\nimpl std::error::Error for {type_} {{}}')
