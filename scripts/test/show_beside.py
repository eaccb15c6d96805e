#!/usr/bin/env python3
"""Compares what linkshow says of lines with what is shown of them where their values are read and written again.

    python3 scripts/test/show_beside.py BESIDE LINKSHOW"""
import random
import sys

from damaged import LONG, damaged, made, sources
from shared import answers, compare, kernel_messages

# the words of each program for each order of the counters of IPv6, and for lenient reading
WAYS = [((), ()), (("before",), ("--kernel", "6.12")), (("since",), ("--kernel", "6.16")),
        (("lenient",), ("--lenient",))]
MADE_LINES = 200
REFUSED = b'{"fault":"refused"'
NOT_HEX = b'{"fault":"not-hex"}'


def wanted_of(shown):
    """Returns what beside has to write where linkshow writes this."""
    if shown.startswith(b'{"fault":') and shown != NOT_HEX:
        _, comma, before = shown.partition(b',"ifi-family":')
        return REFUSED + comma + (before or b"}")
    accepted, comma, _ = shown.rpartition(b',"refused":[')
    return accepted + b"}" if comma else shown


beside, show = sys.argv[1:]
chance = random.Random(3)
whole = sources() + [digits for _, digits in kernel_messages()] + LONG + made(MADE_LINES)
lines = whole + [damaged(chance, line) for line in whole for _ in range(2 if len(line) < 20_000 else 1)]
# linkshow takes what stands in front of a blank as words
lines = [line for line in lines if " " not in line and "=" not in line]
refused = 0
for ours, theirs in WAYS:
    shown = answers(show, lines, *theirs)
    wanted = [wanted_of(answer) for answer in shown]
    compare(f"show_beside: {' '.join(ours)}", lines, answers(beside, lines, *ours), wanted)
    refused = max(refused, sum(answer.startswith(b'{"fault":') for answer in wanted))
print(f"show_beside: {len(lines)} lines, of which {refused} are no messages, in each of {len(WAYS)} ways")
print("show_beside: ok")
