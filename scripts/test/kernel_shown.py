"""The tables of frame_shown, in which a name and a form that linkshow shows stand once, beside the specs, for
kernel_tables.py: number, name and form of each attribute, names of flags and values, fields of records. A number that
no spec has is kept, and its name stands beside the kernel's headers."""
import ast
import fnmatch
import re

from kernel_names import OWN_FIELDS, PLACES, REASONS, ROWS

NAMES = "frame_shown/src/tables/*.rt"
SPELLED = re.compile(r"\b(?:Form|Field)::\w+(?:\((?:[^()]|\([^()]*\))*\))?")
FORMS, FIELDS = dict(ROWS["forms shown"]), dict(ROWS["fields shown"])


def tables(code):
    """The rows of each constant, each of one word or more: numbers, names, and forms as they are spelled."""
    for name, body in re.findall(r"pub const (\w+): \[[^;]*; \d+\] =\s*(\[.*?\]);", code, re.S):
        body = SPELLED.sub(lambda it: repr(re.sub(r"\s|,(?=\s*\))", "", it[0])), body)
        yield name, [it if isinstance(it, tuple) else (it,) for it in ast.literal_eval(body)]


def kernel_name(where):
    """The kernel's name for what netlink-packet-route has perhaps another one."""
    own = where.split(".")[1]
    return next((theirs for pattern, what, here, theirs, _ in REASONS
                 if what == "name" and here in ("*", own) and fnmatch.fnmatchcase(where, pattern)), own)


def compare_places(kind, rows, ours, headers, report):
    """Rows of a place as number, name and form; of the outermost place as name and form."""
    place, by_number = PLACES[kind], {}
    for row in ours.places[kind]:
        by_number.setdefault(row.number, []).append(row)
    kept = headers.group(place.prefix, place.beside) if headers else {}
    shown = {row[0] if len(row) == 3 else at: row[-2:] for at, row in enumerate(rows) if row[-2]}
    for number, (name, form) in shown.items():
        found = by_number.get(number, [])
        there = [kernel_name(f"{kind}.{it.name}") for it in found[:1]] or [it for it, n in kept.items() if n == number]
        # the form that is shown of the row's, by its type or that of its value
        of, shows = found[0].form if len(found) == 1 else None, "own"
        if of and (of.value in FORMS.values() or not of.value and of.word not in ("nest", "struct")):
            shows = of.value or of.word
        report.compare("names shown", f"{kind}.{name}", ("name", name, (there or [name])[0]),
                       ("form", FORMS.get(form, "own"), shows))
    for number in by_number.keys() - shown.keys():
        report.compare("names shown", f"{kind}.{by_number[number][0].name}", ("row", "none", number))


def compare_names(kind, rows, ours, report):
    """Names by their numbers or bits, or those of fields, in their order."""
    named = enumerate(it.name for it in ours.records[kind][0]) if kind in ours.records else \
        ((n, it) for it, n in ours.values[kind].items())
    theirs = {n: kernel_name(f"{kind}.{it}") for n, it in named if f"{kind}.{it}" not in OWN_FIELDS}
    is_numbered = len(rows[0]) == 2
    here = dict(rows) if is_numbered else {n: name for n, (name, *_) in enumerate(rows) if name}
    for n in here.keys() | {n for n in theirs if is_numbered or n < len(rows)}:
        name = here.get(n, "none")
        report.compare("names shown", f"{kind}.{name}", ("name", name, theirs.get(n, "none")))


def compare_shown(ours, headers, report):
    known = dict(ROWS["shown"])
    found = dict(tables(ours.code(NAMES)))
    del found["KERNEL_NAMES"]   # those of MESSAGE in another spelling, as the proof says
    report.same_names("table of frame_shown", found, known)
    for table in filter(known.get, found):
        kind, rows = known[table], found[table]
        if kind in ours.places:
            compare_places(kind, rows, ours, headers, report)
        elif rows[0][-1] in FIELDS:
            # fields of a record as name, place and what stands there
            fields = ours.records[kind][0]
            for (name, place, field), there in zip(rows, fields):
                report.compare("names shown", f"{kind}.{name}", ("name", name, kernel_name(f"{kind}.{there.name}")),
                               ("place", place, there.offset), ("form", FIELDS[field], there.type))
            report.compare("names shown", kind, ("fields", len(rows), len(fields)))
        else:
            compare_names(kind, rows, ours, report)
