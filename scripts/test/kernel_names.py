"""Reads kernel_names.txt, for kernel_tables.py."""
from collections import defaultdict, namedtuple

from shared import table

Place = namedtuple("Place", "set prefix beside whole files", defaults=("",))
Record = namedtuple("Record", "struct header")
Values = namedtuple("Values", "header prefix beside list all bits", defaults=(False,))

ROWS = defaultdict(list)
for section, words in table("scripts/test/kernel_names.txt"):
    ROWS[section].append([{"-": None, "all": True, "some": False}.get(it, it) for it in words])


def by_name(section, form):
    return {name: form(*words) for name, *words in ROWS[section]}


PLACES, RECORDS, VALUES = by_name("places", Place), by_name("records", Record), by_name("values", Values)
LEVELS, OWN_FIELDS = dict(ROWS["levels"]), by_name("own fields", lambda *sizes: sizes)
ALONE = [(file, around, name) for name, file, around in ROWS["alone"]]
LEFT_OUT, VALUES_LEFT_OUT = defaultdict(dict), defaultdict(dict)
for set_, number, *attribute in ROWS["left out"]:
    LEFT_OUT[set_][int(number)] = attribute
for list_, value, number in ROWS["values left out"]:
    VALUES_LEFT_OUT[list_][value] = int(number)

OWN = "a reserved field at the end is this project's own, and in no kernel"
REASONS = [(where, *words) for places, *words in ROWS["reasons"] for where in places.split()]
for where, sizes in OWN_FIELDS.items():
    kind, field = where.split(".")
    REASONS += [(where, "field", field, "none", OWN), (kind, "size", *sizes, OWN)]
REASONS += [(where, "name", where.split(".")[1], name, "so named in netlink-packet-route")
            for where, name in ROWS["renamed"]]
