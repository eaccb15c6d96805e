#!/usr/bin/env python3
"""Compares each place that has a version, or the number of a form, with include/linkwire.h, which says what they are,
and each that names the toolchain with dist/SUMS. The places are those of versions.txt.

    python3 scripts/release/version.py"""
import fnmatch
import os
import re
import subprocess
import sys

sys.path.append(f"{os.path.dirname(os.path.dirname(os.path.abspath(__file__)))}/test")
from shared import TOP, read, table

HEADER, SUMS = "include/linkwire.h", "dist/SUMS"
PLACES = [(files, constant, re.compile(form, re.M))
          for _, (files, constant, form) in table("scripts/release/versions.txt")]
# a program that says its version, anywhere but in what tells of older ones
ANYWHERE = re.compile(r"\blink(?:wire|show|state|dump|diff|watch)[ -]v?(\d+\.\d+\.\d+)")
OLDER = {"CHANGELOG.md", "docs/DECISIONS.md"}

wanted = dict(re.findall(r'^#define LINKWIRE_(\w+) "?([\d.]+)"?$', read(HEADER), re.M))
wanted["TOOLCHAIN"] = re.search(r"^# toolchain (.*)$", read(SUMS), re.M)[1]
listed = subprocess.run(["git", "ls-files"], cwd=TOP, check=True, capture_output=True, text=True, timeout=60).stdout
texts = {it: read(it) for it in listed.splitlines() if os.path.isfile(f"{TOP}/{it}") and not it.endswith(".s")}
places = [(file, constant, form.findall(texts.get(file, "")) or ["none"])
          for files, constant, form in PLACES for file in fnmatch.filter(texts, files) or [files]]
places += [(file, "VERSION", ANYWHERE.findall(text)) for file, text in texts.items() if file not in OLDER]
wrong = {f"{file}: {constant} is {it}, not {wanted[constant]}"
         for file, constant, found in places for it in found if it != wanted[constant]}
if wrong:
    sys.exit("\n".join(sorted(wrong)))
count = sum(len(found) for *_, found in places)
print(f"version: {count} places are as {HEADER} and {SUMS} have it: {wanted['VERSION']}")
