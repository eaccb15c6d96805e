"""Runs what docs/PYTHON.md and docs/FLEET.md show: each block of a file is written, and each command run in turn.

    python3 tests/python/pages.py PAGE..

Marks in front of blocks are `file: NAME`, for a file, `not run: WHY`, and `runs: python`, for commands; after `runs:
python, with MODULE` they are skipped where python3 lacks that. They are run in one folder a page, in which the examples
are too, each block in a network namespace with a bridge and a pair of veth. Each line that stands below a command is
one of those that it prints. The programs, and the python3 that has the package, are on the path.
"""

import glob
import os
import re
import subprocess
import sys
import tempfile

TOP = os.path.dirname(os.path.dirname(os.path.dirname(os.path.abspath(__file__))))
LINKS = "ip link set lo up && ip link add br0 type bridge && ip link add veth0 mtu 9000 type veth peer name veth1"
BLOCK = re.compile(r"^<!-- ([^\n]*) -->\n```(\w*)\n([\s\S]*?)^```$", re.M)
COMMAND = re.compile(r"^[$#] ((?:.*\\\n)*.*)\n((?:(?![$#] ).*\n)*)", re.M)


def wrong(folder, commands):
    """Runs commands in one namespace; returns what is not as it stands there, or nothing."""
    script = f"set -e\n{LINKS}\nset +e\n" + "".join(f"{{ {command}\n}}; echo ==={at}=== $?\n"
                                                    for at, (command, _) in enumerate(commands))
    done = subprocess.run(["unshare", "-n", "bash", "-c", script], cwd=folder, capture_output=True, text=True,
                          timeout=600, check=False, stdin=subprocess.DEVNULL)
    at = 0
    for number, (command, wanted) in enumerate(commands):
        end = re.search(rf"^==={number}=== (\d+)\n", done.stdout, re.M)
        if end is None or end[1] not in ("0", "124"):  # timeout(1) ends what goes on
            return f"{command}\nfails: {done.stdout[at:]}{done.stderr}"
        found = [line.rstrip() for line in done.stdout[at:end.start()].splitlines()]
        for line in wanted.splitlines():
            if line.rstrip() not in found:
                return f"{command}\ndoes not print\n{line}\nbut\n{done.stdout[at:end.start()]}{done.stderr}"
        at = end.end()
    return None


def slower(command, times):
    return re.sub(r"\b(sleep|timeout) (\d+)\b", lambda it: f"{it[1]} {int(it[2]) * times}", command)


def run(page, folder, shown):
    """Runs the commands of a block; where the machine is busy, once more with longer waits. Returns how many."""
    commands = COMMAND.findall(shown)
    for times in 1, 4, 16:
        what = wrong(folder, [(slower(command, times), wanted) for command, wanted in commands])
        if what is None:
            return len(commands)
    sys.exit(f"pages: {page}: {what}")


def hold(page):
    with open(f"{TOP}/{page}", encoding="utf-8") as it:
        text = it.read()
    count = 0
    with tempfile.TemporaryDirectory() as folder:
        for it in glob.glob(f"{TOP}/examples/*.py"):
            os.symlink(it, f"{folder}/{os.path.basename(it)}")
        for mark, _, shown in BLOCK.findall(text):
            kind, _, rest = mark.partition(": ")
            if kind == "file":
                with open(f"{folder}/{rest}", "w", encoding="utf-8") as it:
                    it.write(shown)
            elif mark.startswith("runs: python"):
                module = rest.partition("python, with ")[2]
                if module and subprocess.run(["python3", "-c", f"import {module}"], capture_output=True).returncode:
                    print(f"pages: {page}: skipped: python3 has no {module}")
                else:
                    count += run(page, folder, shown)
    print(f"pages: {page}: {count} commands are run")


def main():
    tried = subprocess.run(["unshare", "-n", "sh", "-c", LINKS], capture_output=True, timeout=60, check=False)
    if tried.returncode != 0:
        print("pages: skipped: no right to make a namespace, or no links in it")
        return
    for page in sys.argv[1:]:
        hold(page)


main()
