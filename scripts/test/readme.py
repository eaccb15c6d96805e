"""Holds the pages that users meet first to what they show, by the marks that scripts/README.md has.

    python3 scripts/test/readme.py [LIBRARY FOLDER..]

LIBRARY is the static one, and the folders are those of the programs; without them it is what 'make build lib' left in
out/. The last line is 'readme: ok'."""
import glob
import os
import re
import subprocess
import sys
import tempfile
from collections import Counter
from pathlib import Path

from shared import TOP, read

PAGES = "README.md", "docs/USING.md", "docs/C.md", "docs/PYTHON.md", "docs/FLEET.md", "docs/CONTRIBUTING.md"
COMPILES = "cc -std=c11 -Wall -Wextra -Wpedantic -Wconversion -Wshadow -Werror -fsyntax-only"
# what a command in the text of a page begins with; one word alone is a name
PROGRAM = re.compile(
    r"(?:apt-get|cargo|cut|link(?:diff|dump|show|state|watch|wire)|make|parallel|pip|python3|rt|scripts/\S+) ")
SECTIONS = "NAME", "SYNOPSIS", "DESCRIPTION", "OPTIONS", "EXIT STATUS", "EXAMPLES", "SEE ALSO"
LINKS = "ip link set lo up && ip link add br0 type bridge && ip link add veth0 mtu 9000 type veth peer name veth1"

BY_PAGES = re.compile(r"runs: python\b|file: ")
BLOCK = re.compile(r"^(?:<!-- ([^\n]*) -->\n)?```(\w*)\n([\s\S]*?)^```$", re.M)
MAN_BLOCK = re.compile(r'^(?:\.\\" ([^\n]*)\n)?\.nf\n([\s\S]*?)^\.fi$', re.M)
COMMAND = re.compile(r"^[$#] (.*)\n((?:(?![$#] ).*\n)*)", re.M)
NAMED = re.compile(r"<!-- named, not run: (.*?) -->", re.S)
WRITES = re.compile(r" >>?\w")
SPAN = re.compile(r"`([^`]+)`")
MAN_SPAN = re.compile(r'(?:^\.B (?=[^"])|^\.BR? "|\\fB)(.+?)(?:"|\\f|$)', re.M)
SYNOPSIS = re.compile(r"^\.SH SYNOPSIS\n[\s\S]*?(?=^\.SH )", re.M)


class Page:
    """What a page shows, and the path of the programs; `counts` says of all pages how much of it was run."""
    counts = Counter()

    def __init__(self, name, library, path):
        self.name, self.library, self.path, self.commands = name, library, path, []
        self.text, self.in_man = read(name), name.startswith("man/")
        self.listed = [" ".join(it.split()) for found in NAMED.findall(self.text) for it in found.split(";")]

    def fails(self, what):
        sys.exit(f"readme: {self.name}: {what}")

    def output(self, command, folder=TOP, prefix=()):
        done = subprocess.run([*prefix, "sh", "-c", command], capture_output=True, text=True, timeout=60, check=False,
                              cwd=folder, env=self.path, stdin=subprocess.DEVNULL)
        if done.returncode != 0:
            self.fails(f"{command}\nends with status {done.returncode}: {done.stderr}")
        return done.stdout

    def prints(self, command, wanted, folder):
        found = self.output(command, folder)
        if found != wanted:
            self.fails(f"{command}\nprints\n{found}and not\n{wanted}")

    def shell(self, commands):
        """Commands in turn: in a folder of their own where one of them writes a file."""
        with tempfile.TemporaryDirectory() as folder:
            where = folder if any(WRITES.search(command) for command, _ in commands) else TOP
            for command, wanted in commands:
                self.prints(command, wanted, where)
                self.counts["run"] += 1

    def namespace(self, commands):
        for flag in "-n", "-rn":
            unshare = ["unshare", flag]
            tried = subprocess.run([*unshare, "sh", "-c", f"{LINKS} && jq --version"], capture_output=True, timeout=60,
                                   check=False)
            if tried.returncode == 0:
                break
        else:
            return print(f"readme: {self.name}: skipped: no right to make a namespace with links, or no jq")
        for command, wanted in commands:
            found = self.output(f"{LINKS} && {command}", prefix=unshare).splitlines()
            for line in wanted.splitlines():
                if line not in map(str.rstrip, found):
                    self.fails(f"{command}\ndoes not print\n{line}\nbut\n{found}")
            self.counts["run"] += 1

    def compiles(self, source, command="", wanted=""):
        """A program in C; where a command runs it, by a pkg-config that names the library as it was built."""
        with tempfile.TemporaryDirectory() as folder:
            Path(folder, re.search(r"[a-z]+[.]c", command or "part.c")[0]).write_text(source, "utf-8")
            Path(folder, "pkg-config").write_text(f"#!/bin/sh\necho -I{TOP}/include {self.library}\n", "utf-8")
            Path(folder, "pkg-config").chmod(0o755)
            self.output(f"{COMPILES} -I{TOP}/include *.c", folder)
            if command:
                self.prints(f"PATH=.:$PATH; {command}", wanted, folder)
        self.counts["compiled" if command else "only compiled"] += 1

    def hold(self):
        """Does what the mark of each block says; behind a program stands what it prints."""
        blocks = iter([(mark, plain(shown)) for mark, shown in MAN_BLOCK.findall(self.text)] if self.in_man else
                      [(mark, shown) for mark, _, shown in BLOCK.findall(self.text)])
        for mark, shown in blocks:
            commands, (kind, _, rest) = COMMAND.findall(shown), mark.partition(": ")
            following = next(blocks, ("", ""))[1] if mark in ("runs: c", "runs: rust") else ""
            if mark == "runs: c":
                (command, wanted), = COMMAND.findall(following)
                self.compiles(shown, command, wanted)
            elif mark == "compiles: c":
                self.compiles(read("scripts/test/part.c.in") % shown)
            elif mark in ("runs: shell", "runs: namespace"):
                (self.shell if rest == "shell" else self.namespace)(commands)
            elif kind == "stands in":
                self.counts["parts"] += 1
                if shown not in read(rest):
                    self.fails(f"{rest} has not what stands here")
            elif kind == "not run":
                self.counts["not run"] += len(commands)
            elif mark != "runs: rust" and not BY_PAGES.match(mark) and (mark or commands):
                self.fails(f"a block has the mark {mark}:\n{shown}")
            self.commands += [command for command, _ in commands]
        if self.name.endswith(".1") and tuple(re.findall(r"^\.SH (.*)$", self.text, re.M)) != SECTIONS:
            self.fails(f"the sections are not {', '.join(SECTIONS)}")

    def named(self, pages):
        """Looks at the commands that stand in the text, by the blocks and lists of these pages."""
        if self.in_man:
            texts = MAN_SPAN.findall(SYNOPSIS.sub("", MAN_BLOCK.sub("", self.text)))
        else:
            text = NAMED.sub("", BLOCK.sub("", self.text))
            if re.search(r"^ {4,}[$#]? ?(?:make|rt|echo|cd) ", text, re.M):
                self.fails("a command stands in no block")
            texts = SPAN.findall(text)
        spans = {" ".join((plain(it) if self.in_man else it).split()) for it in texts}
        found = {it for it in spans if " " in it and " = " not in it and PROGRAM.match(it)}
        for command in sorted(found.difference(*(it.listed for it in pages))):
            if not any(command in it for page in pages for it in page.commands):
                self.fails(f"'{command}' is neither run nor listed as not run")
        for command in sorted(set(self.listed) - found):
            self.fails(f"'{command}' is listed as not run, and stands nowhere")
        targets = re.findall(r"^([a-z-]+):", self.output("make -s help"), re.M)
        for command in found:
            target = re.match(r"make ([a-z-]+)", command)
            if target and target[1] not in targets:
                self.fails(f"'{command}' names no target of make")
        self.counts["not run"] += len(self.listed)


def plain(shown):
    """The text of a block of a manual page."""
    letters = {"\\-": "-", "\\(dq": '"', "\\(aq": "'", "\\(->": "→", "\\e": "\\"}
    return re.sub(r"\\(?:\(..|.)", lambda it: letters.get(it[0], it[0]), shown)


library, *programs = sys.argv[1:] or ["out/liblinkwire.a"]
if not os.path.exists(library):
    sys.exit(f"readme: there is no {library}: run 'make build lib' first")
folders = map(os.path.abspath, programs or ["out"])
path = {name: value for name, value in os.environ.items() if not name.startswith(("MAKE", "MFLAGS"))}
path["PATH"] = os.pathsep.join([*folders, os.environ["PATH"]])
names = *PAGES, *sorted(glob.glob("man/*.[1-9]", root_dir=TOP))
pages = [Page(name, os.path.abspath(library), path) for name in names]
for page in pages:
    page.hold()
for page in pages:
    page.named(pages if page.in_man else [page])
told = ("{run} commands are run, {compiled} programs in C compiled and run, {only compiled} only compiled, "
        "{parts} parts stand in their files; {not run} commands are marked as not run")
print(f"readme: {len(pages)} pages:", told.format_map(Page.counts))
print("readme: ok")
