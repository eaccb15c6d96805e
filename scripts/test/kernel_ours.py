"""What the repository says, for kernel_tables.py: the tables of link_headline and the records and values below them, as
tests/second reads them, the rows of link_info, and the numbers of the constants."""
import os
import re
import sys
from collections import namedtuple
from pathlib import Path

from kernel_names import ROWS
from shared import TOP

sys.path += [f"{TOP}/scripts/erase", f"{TOP}/tests/second"]
import typed

# a form: a word as u32, be16, ipv4, string, struct, nest; names of values or flags, the record or the place inside; and
# the type of the value, where that is not the word's own
Form = namedtuple("Form", "word names record place value", defaults=(None, None, None, None))
# an attribute that is a list comes any number of times, once for each value
Row = namedtuple("Row", "number name form is_list", defaults=(False,))
# a field of a record: the type is u8 to u64, s8 to s64, be16, or as 32 bytes
Field = namedtuple("Field", "name offset type")

FORMS = {name: Form(word, value="".join(value) or None) for name, word, *value in ROWS["forms of specs"]}
WORDS, ORDERS = dict(ROWS["forms of link_info"]), dict(ROWS["orders"])
BYTES = {"mac": 6, "ipv4": 4, "ipv6": 16}
# the crates whose constants are the kernel's
CRATES = "link_nest", "link_vf", "link_afspec", "link_msg", "link_state"


def unread(what):
    """Ends where something of the repository is not in the form that is read here."""
    sys.exit(f"kernel_tables: {what}")


def width(word):
    """The bytes of a word as u32, be16, mac or 32 bytes; others stand for themselves."""
    found = re.fullmatch(r"(?:u|be|s)(\d+)|(\d+) bytes", word)
    return BYTES.get(word, word) if not found else int(found[1]) // 8 if found[1] else int(found[2])


class Repository:
    """Places, records, values, flags and levels of the state encoding by their names, and the numbers of constants."""

    def __init__(self, top):
        self.crates = Path(top, "crates")
        os.environ["CRATES"] = str(self.crates)
        import second
        self.second = second
        self.places, self.records, self.values, self.flags, self.kinds = {}, {}, {}, set(), {}
        self.read_values()
        self.read_records()
        self.read_places()
        # the rows of the places that linkshow shows as lists
        code = self.code("frame_shown/src/tables/*.rt")
        shown = re.findall(r'"([\w-]+)",\s*Form::List\(\s*List::(?:Listed|Entries)\(', code)
        names = {name.replace("-", "") for name in shown}
        nests = {row.form.place for rows in self.places.values() for row in rows if row.name.lower() in names}
        for place in nests & self.places.keys():
            self.places[place] = [row._replace(is_list=True) for row in self.places[place]]
        self.read_link_info()
        self.levels = second.ROWS
        self.constants = {(crate, name): int(n, 0) for crate in CRATES for name, n in re.findall(
            r"pub const (\w+): u\d+ = (\w+);", self.code(crate + "/src/numbers.rt"))}

    def texts(self, pattern):
        for path in sorted(self.crates.glob(pattern)):
            text = path.read_text("utf-8")
            yield re.sub(r"--[^\n]*", "", text) if path.suffix == ".antt" else text

    def code(self, pattern):
        return "\n".join(self.texts(pattern))

    def read_values(self):
        for text in self.texts("link_vals/specs/*Table.antt"):
            for name, kind in re.findall(r"^.*?\b(\w+)_number : (\w+) → ℕ$", text, re.M):
                rows = re.findall(rf"^{name}_number (\w+) = (\w+)$", text, re.M)
                self.values[kind] = {variant: int(n, 0) for variant, n in rows}
            for name, kind in re.findall(r"^.*?\b(\w+)_of : ℕ → (\w+)$", text, re.M):
                rows = re.findall(r'\(codes "(\w+)", (\w+)\)', text)
                if f"{name}_named" in text:
                    self.flags.add(kind)
                    self.values[kind] = {flag: int(bits, 0) for flag, bits in rows if flag}

    def read_records(self):
        self.prefixes = {}
        for text in [*self.second.RECORDS, *self.texts("link_msg/specs/Header.antt")]:
            for prefix, kind, body in re.findall(r"^.*?\b(\w+)_of : List ℕ → (\w+)\n\1_of \w+ =\s+(.*?)(?=\n\n|\Z)",
                                                 text, re.M | re.S):
                fields = sorted(self.fields(kind, body, text), key=lambda it: it.offset)
                order = re.search(rf"^{prefix}_(?:members|bytes) v =\s+(.*?)(?=\n\n|\Z)", text, re.M | re.S).group(1)
                written = list(dict.fromkeys(re.findall(r"\bv\.(\w+)", order)))
                if written != [it.name for it in fields]:
                    unread(f"{kind}: fields are read otherwise than they are written, as {' '.join(written)}")
                size = 16 if kind == "LinkHeader" else self.second.record(prefix)[0]
                self.records[kind], self.prefixes[prefix] = (fields, size), kind

    @staticmethod
    def fields(kind, body, text):
        """The fields of a record, each with its offset: of several widths, or of one by a function of their number."""
        one = re.match(r"\w+ \(λ i\. (\w+_at w\d+ payload) \((\d+) \* i\)\)", body)
        rows = [(name, f"{one[1]} {int(one[2]) * int(i)}") for name, i in re.findall(r"(\w+) = field (\d+);", text)] \
            if one else re.findall(r"(\w+) = ([^;}]+)[;}]", body.partition("{")[2])
        for name, it in rows:
            number = re.search(r"\b(number|be_number|signed)_at w(\d+) \w+ (\d+)", it)
            octets = re.search(r"\b(?:slice_index \w+ (\d+)|zero_filled (\d+) (?:\(drop (\d+) \w+\)|\w+))", it)
            if number:
                yield Field(name, int(number[3]), ORDERS[number[1]] + number[2])
            elif octets:
                at, count, after = octets.groups()
                yield Field(name, int(at or after or 0), count + " bytes" if count else "u8")
            else:
                unread(f"{kind}.{name}: how it is read: {it}")

    def read_places(self):
        second = self.second
        self.tables = dict(re.findall(r"^abbrev pub (\w+) : (?:Table|Form) (\w+)$", second.KERNEL, re.M))
        for table, rows in re.findall(r"^(\w+) = record \{\s*rows =\s*([^;]*?);\s*other", second.KERNEL, re.M):
            if "++" not in rows:
                self.places[self.tables[table]] = list(map(self.row, second.conses(rows)))
        for name, words in second.WORDS.items():
            place = self.tables[name]
            self.places[place] = [Row(1, place, self.form(words))]
        by_family = [second.words(row) for rows in second.BY_FAMILY.values() for row in rows.values()]
        self.places["LinkAttribute"] = list(map(self.row, second.conses(re.search(
            r"^rows =\n(.*?)\[\]", second.KERNEL, re.M | re.S).group(1)) + by_family))

    def row(self, words):
        number, *form, name = words[2:] if words[0] == "row_of_size" else words[1:]
        return Row(int(number), name.split(".")[-1], self.form(form) if form else Form("kept"))

    def form(self, words):
        while isinstance(words, list) and len(words) == 1:
            words = words[0]
        if isinstance(words, str):
            return FORMS[words] if words in FORMS else self.form(self.second.WORDS[words])
        if words[0] == "as_form" and words[1] != "truth_of":
            return self.form(words[3])._replace(value=words[1].removesuffix("_of").title().replace("_", ""))
        if words[0] == "plain":
            return Form("struct", record=self.prefixes[words[1][-1].removesuffix("_of")])
        if words[0] in ("list", "entries"):
            return Form("nest", place=self.tables[words[1]])
        return self.form(words[3 if words[0] == "as_form" else 1])

    def read_link_info(self):
        folder = self.crates / "link_info/src"
        found = {"%s.%s" % key: value for key, value in typed.tables(folder).items() if key[0] != "mod" and value}
        self.keys = {id(value): key for key, value in found.items()}
        for key, value in found.items():
            if isinstance(value, list) and isinstance(value[0][1], tuple):
                self.records[key] = self.members(value)
            elif isinstance(value, list) and len(value[0]) == 2:
                self.values[key] = {name: number for number, name in value}
                if len(self.values[key]) != len(value):
                    unread(f"{key}: a name comes twice")
        text = typed.read("place.rt", folder)
        for place, file, table in re.findall(r"Place::(\w+) => (\w+)::(\w+),", text):
            self.places[place] = [Row(number, name, self.style(typed.of_one(it)), it[0] == "Each")
                                  for number, name, it in found[f"{file}.{table}"]]
        for call, table in (("of_kind", "KINDS"), ("of_slave_kind", "SLAVE_KINDS")):
            body = re.search(r"\bconst %s: [^=]*= &\[(.*?)\];" % table, text, flags=re.S)
            for kind, place in re.findall(r'KindRow\("(\w+)", Place::(\w+)\)', body.group(1)):
                self.kinds[call, kind] = place

    def members(self, rows):
        """A record: its fields one after the other, and its size."""
        fields, end = [], 0
        for name, plain in rows:
            word = self.plain(plain).word
            fields.append(Field(name, end, f"{BYTES[word]} bytes" if word in BYTES else word))
            end += width(word)
        return fields, end

    def style(self, style):
        """The form of a row."""
        kind = style[0]
        if kind == "Record":
            return Form("struct", record=self.keys[id(style[1])])
        if kind == "Nest":
            return Form("nest", place=style[1])
        form = self.plain(style if kind in WORDS else style[1])
        return form._replace(word=f"{kind.lower()} {form.word}") if kind in ("Array", "List") else form

    def plain(self, plain):
        kind = plain[0]
        if kind in WORDS:
            return Form(WORDS[kind])
        if kind == "Octets":
            return Form(f"{plain[1]} bytes")
        return Form(f"{ORDERS[kind]}{8 * plain[1]}", self.keys[id(plain[2])] if len(plain) > 2 else None)

    def size(self, form):
        """How many bytes a form has, or its word."""
        return self.records[form.record][1] if form.word == "struct" else width(form.word)
