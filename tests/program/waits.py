#!/usr/bin/env python3
"""Programs wait where their standard input and output do not block: waits.py FOLDER PROGRAM..

What a slow reader of a pipe gets is what a file gets, whole; and where the reader goes, or nothing can be read, the
program ends as it does with files that block."""

import os
import subprocess
import sys
import threading
import time

TOP = os.path.join(os.path.dirname(os.path.abspath(__file__)), "..", "..")
PIPE = 1 << 16


def lines_for(program):
    """Stored lines, so often that the answers are many pipes full, and the answers."""
    text = b""
    for name in "linkshow", "linkdiff":
        folder = next(it for it in ("crates", "tests") if os.path.exists(f"{TOP}/{it}/{name}/stdin"))
        with open(f"{TOP}/{folder}/{name}/stdin", "rb") as file:
            text += file.read()
    while True:
        answers = subprocess.run([program], input=text, stdout=subprocess.PIPE, check=True).stdout
        if len(answers) > 6 * PIPE:
            return text, answers
        text *= 2


def pipe():
    """A pipe, neither end of which blocks."""
    ends = os.pipe()
    for it in ends:
        os.set_blocking(it, False)
    return ends


def starts(program):
    """The program between two pipes: it, what it reads of, and what it writes to."""
    lines, given = pipe()
    answers, written = pipe()
    run = subprocess.Popen([program], stdin=lines, stdout=written, stderr=subprocess.PIPE)
    os.close(lines)
    os.close(written)
    os.set_blocking(given, True)
    os.set_blocking(answers, True)
    return run, given, answers


def gives(file, text):
    """Gives the text in parts, with pauses in which the program has nothing to read; its reader may go."""
    try:
        for at in range(0, len(text), len(text) // 4):
            time.sleep(0.05)
            part = memoryview(text)[at:at + len(text) // 4]
            while part:
                part = part[os.write(file, part):]
    except BrokenPipeError:
        pass
    os.close(file)


def ends(name, run, status, said):
    """It ends by itself, with this status and this on standard error."""
    _, error = run.communicate(timeout=60)
    if (run.returncode, error) != (status, said):
        sys.exit(f"waits: {name}: status {run.returncode}, {error.decode()!r}, and not {status}, {said.decode()!r}")


def reads_slowly(name, program):
    """Both pipes run full and empty in turn."""
    text, wanted = lines_for(program)
    run, given, answers = starts(program)
    giver = threading.Thread(target=gives, args=(given, text))
    giver.start()
    found = b""
    while part := os.read(answers, PIPE // 2):
        found += part
        time.sleep(0.01)
    giver.join()
    os.close(answers)
    ends(name, run, 0, b"")
    if found != wanted:
        sys.exit(f"waits: {name}: {len(found)} bytes are not those of a file, {len(wanted)}")


def goes(name, program):
    """The reader goes while the program waits for it."""
    run, given, answers = starts(program)
    giver = threading.Thread(target=gives, args=(given, lines_for(program)[0]))
    giver.start()
    time.sleep(0.5)
    os.close(answers)
    ends(name, run, 1, f"{name}: write failed\n".encode())
    giver.join()


for it in sys.argv[2:]:
    reads_slowly(it, f"{sys.argv[1]}/{it}")
    goes(it, f"{sys.argv[1]}/{it}")
print("waits: a slow reader, a slow writer and a reader that goes: ok")
