#!/usr/bin/env python3
"""Compares the sizes that README.md and docs/C.md give for the library on x86-64 with what is linked of it:
pages.py ARCHIVE. Compilers and linkers differ: a twentieth more or less passes."""
import os
import platform
import re
import subprocess
import sys
import tempfile
from pathlib import Path

TOP = Path(__file__).resolve().parents[2]
MOST_APART = 0.05
CALLS = "int {0}(void);\nint main(void) {{ return {0}(); }}\n"
CC = os.environ.get("CC", "cc").split()


def size_of(folder, library, call, *words):
    """Links a program that makes this call, and returns the kilobytes that are left of it when it is stripped."""
    source, program = folder / "it.c", folder / "it"
    source.write_text(CALLS.format(call), "utf-8")
    subprocess.run([*CC, "-O2", "-s", "-o", program, source, library, *words], check=True, timeout=60)
    return program.stat().st_size / 1000


def main(library):
    if platform.machine() != "x86_64":
        return print("sizes in pages: skipped, this is no x86_64")
    page, readme = (TOP / "docs/C.md").read_text("utf-8"), (TOP / "README.md").read_text("utf-8")
    with tempfile.TemporaryDirectory() as name:
        folder = Path(name)
        whole = size_of(folder, library, "linkwire_check")
        rows = [(rf"\| `{call}` \| (\d+) \|", page, size_of(folder, library, call, "-Wl,--gc-sections"))
                for call in ("linkwire_check", "linkwire_show", "linkwire_diff")]
        rows += [(r"\| any, without `--gc-sections` \| (\d+) \|", page, whole),
                 (r"the library for x86-64 has (\d+) kB when stripped", readme, whole)]
    bad = [f"{form}: {found[0]} kB, and {size:.0f} when linked" for form, text, size in rows
           for found in [re.findall(form, text) or ["no"]]
           if found[0] == "no" or abs(int(found[0]) / size - 1) > MOST_APART]
    return "\n".join(["sizes in pages:", *bad]) if bad else print("sizes in pages: as they are linked")


if __name__ == "__main__":
    sys.exit(main(*sys.argv[1:]))
