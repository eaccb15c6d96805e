"""What of the crates a Rust user sees: the names that the top crates give again, and their calls."""
import re

from paths import drop_names
from rules import WORDS
from source import PAIR

# Calls for which the crate has one by hand, which calls them: the names that they have then.
BY_HAND = {"Info::set": "set_value"}
# Calls with the names of those of the crate's traits `Emitable`, `Parseable` and `ParseableParametrized`: as these are
# hidden, a user who has not named the trait would be told that the call is private.
OF_TRAITS = {"buffer_len": "encoded_len", "emit": "encode_into"}
OF_TYPES = {("DefaultNla", "parse"): "of_frame", ("LinkAttribute", "parse_with_param"): "of_frame_with_param"}
# A function that is public, what it is given, and what it returns.
CALL = rf"/\bpub fn (?P<name>\w+)(?=[^(]*\((?P<pair>{PAIR})(?P<given>.*?)\)(?P=pair)\s*(?P<to>(?:->\s*[^\s{{]+)?))/"
TRAITS = "|".join(OF_TRAITS)


def hide_names(s):
    """The names that serve the crates below are not given again, and those that are need no path."""
    drop_names(s, lambda name, pub: pub == "pub" and (name.startswith("Borrowed") or name in WORDS["HIDDEN_NAMES"]))
    s.put("pub mod", "pub(crate) mod")


def hide_calls(s):
    """`pub fn` of those calls is `pub(crate) fn`."""
    def hidden(found):
        type_, name = s.owner(found.start()), found["name"]
        of_type = f"{type_}::{name}"
        serves = {name, of_type}.intersection([*WORDS["HIDDEN_CALLS"], *BY_HAND]) or "NlaBuffer" in found["given"]
        return f"pub(crate) fn {BY_HAND.get(of_type, name)}" if type_ and serves else None
    s.put(CALL, hidden)


def other_names(s):
    """Other names for the calls that would hide those of the crate's traits, where they are declared and called."""
    s.put(rf"/(?:(?<=\bfn )|(?<=\.)|(?<=::))(?P<name>{TRAITS})\b/", lambda found: OF_TRAITS[found["name"]])
    for (type_, name), other in OF_TYPES.items():
        s.put(rf"/\b{type_}::{name}\b/", f"{type_}::{other}")
        s.put(f"fn {name}", lambda found: f"fn {other}" if s.owner(found.start()) == type_ else None)


def public_name(s, found, public):
    """The name of a call, as a user writes it, where a user sees it; else None."""
    type_, name = s.owner(found.start()), found["name"]
    if type_ is not None:
        return f"{type_}::{name}" if type_ in public else None
    return name if s.around(found.start()) is None and name in public else None


def must_use(s, public):
    """Calls that a user sees are `#[must_use]` where they only return something that rustc does not warn of by itself,
    and change nothing that they are given."""
    def only_returns(found):
        is_told = re.search(r"(?:&\s*|'\w+\s+)mut\b", found["given"]) or re.match(r"->\s*Result\b|$", found["to"])
        return None if is_told or not public_name(s, found, public) else f"#[must_use]\n{found[0]}"
    s.put(CALL, only_returns)
