#!/usr/bin/env python3
"""Messages of real kernels, and what the programs answer: tests/kernels.

    python3 scripts/test/kernel_messages.py            runs the programs of out/, and compares
    python3 scripts/test/kernel_messages.py --write    stores what they answer"""
import os
import sys
from pathlib import Path

from shared import TOP, answers, compare, joined, kernel_messages, read

STORED = "tests/kernels/%s.txt"


listed = kernel_messages()
for name in ("linkwire", "linkstate", "linkshow"):
    path = f"{TOP}/out/{name}"
    if not os.access(path, os.X_OK):
        print(f"kernel_messages: skipped: {name} is not built")
        continue
    lines = [f"kernel={kernel} {digits}" if name == "linkshow" else digits for kernel, digits in listed]
    found = [answer.decode().replace(f'"kernel":"{kernel}",', "", 1).replace(digits, "=")
             for answer, (kernel, digits) in zip(answers(path, lines), listed)]
    if "--write" in sys.argv:
        Path(TOP, STORED % name).write_bytes(joined(found))
    compare(f"kernel_messages: {name}", lines, found, read(STORED % name).split("\n")[:-1])
    print(f"kernel_messages: {name}: {len(listed)} answers as stored")
print("kernel_messages: ok")
