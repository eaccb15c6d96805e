"""What the messages that are made here are made of, and how they are written."""

import struct
import sys
from pathlib import Path

sys.dont_write_bytecode = True


def frame(kind, payload):
    """An attribute: length, kind, payload, padding."""
    return struct.pack("<HH", 4 + len(payload), kind) + payload + bytes(-len(payload) % 4)


def u32(*values):
    return struct.pack(f"<{len(values)}I", *values)


def head(family, index, flags):
    return struct.pack("<BBHiII", family, 0, 1, index, flags, 0)


def write_files(files):
    """Writes the lines of each file into the folder that the script is given."""
    if len(sys.argv) != 2:
        sys.exit(f"usage: {Path(sys.argv[0]).name} FOLDER")
    folder = Path(sys.argv[1])
    folder.mkdir(parents=True, exist_ok=True)
    for name, rows in files.items():
        with open(folder / name, "wb") as out:
            out.writelines(row + b"\n" for row in rows)
