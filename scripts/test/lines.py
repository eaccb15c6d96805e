#!/usr/bin/env python3
"""Prints each line of more than 120 characters that git tracks, but for tables and what programs write or read."""
import re
import subprocess
import sys

MADE = (r"dist/.*|rust/(capi/)?src/generated/.*|crates\.txt|(bench|tests)/.*\.txt|edits/plants\.md|"
        r"crates/.*/(std(in|out)|must-fail/.*)")
files = subprocess.run(["git", "ls-files"], check=True, capture_output=True, text=True, timeout=60).stdout.split("\n")
lines = [(f"{it}:{at}", it, line.rstrip("\n")) for it in files if it and not re.fullmatch(MADE, it)
         for at, line in enumerate(open(it, encoding="utf-8", errors="replace"), 1)]
sys.exit("\n".join(f"{place}: {len(line)} characters" for place, it, line in lines
                   if len(line) > 120 and not (it.endswith(".md") and line.lstrip()[:1] in ("|", "{"))) or 0)
