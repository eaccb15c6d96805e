#!/usr/bin/env python3
"""What linkdiff tells of the lines that a model takes too."""

import json
import re
import subprocess
import tempfile

from model import UNSPEC, Model

TIME = re.compile(r"\btime=\S+")


def is_told(line, own, told):
    """Whether linkdiff tells what the model does. That an interface went it tells where nothing was known of it too."""
    return own == told or " type=del " in line and [it for it in own if it in told or it[1][1] != UNSPEC] == told


def only(one, other):
    """Returns of which interfaces one model has a message and the other has nothing, where that says what there is."""
    return sorted(key for key, seen in one.known.items() if seen.message and key not in other.known and
                  (not other.has_dumps or key[:2] in other.whole))


def differ_as_files(linkdiff, old, new):
    """Returns what came and went by linkdiff from the lines of one file to those of another, and what by the model."""
    models = Model(), Model()
    with tempfile.TemporaryDirectory() as folder:
        for name, lines, model in zip(("old", "new"), (old, new), models):
            with open(f"{folder}/{name}", "w", encoding="utf-8") as it:
                it.writelines(line + "\n" for line in lines)
            for line in lines:
                model.take(line)
        ran = subprocess.run([linkdiff, f"{folder}/old", f"{folder}/new"], capture_output=True, check=True, timeout=600)
    found = {"new": [], "gone": []}
    for it in map(json.loads, ran.stdout.splitlines()):
        key = it.get("host", ""), it.get("ifi-family"), it.get("ifi-index")
        if it.get("change") in found and not all(key in model.known for model in models):
            found[it["change"]].append(key)
    return found, {"new": only(models[1], models[0]), "gone": only(*models)}


class Told:
    """linkdiff, which is given one line after another, and what the model tells of them."""

    def __init__(self, linkdiff):
        self.output = tempfile.TemporaryFile("w+", encoding="utf-8")
        self.process = subprocess.Popen([linkdiff], stdin=subprocess.PIPE, stdout=self.output, text=True)
        self.lines, self.wanted = 0, {}
        self.gone, self.names = [], {}

    def take(self, line, told):
        """Gives it a line, whose time is its number."""
        self.process.stdin.write(TIME.sub(f"time={self.lines}", line, count=1) + "\n")
        if told or " type=del " in line:
            self.wanted[self.lines] = line, told
        self.lines += 1

    def read(self):
        """Returns what each line has for an answer; keeps which interfaces went, and the names of those left."""
        found = {}
        self.output.seek(0)
        for it in map(json.loads, self.output):
            key = it.get("host", ""), it.get("ifi-family"), it.get("ifi-index")
            if it.get("change") in ("new", "gone"):
                found.setdefault(int(it["time"]), []).append((it["change"], key))
            if it.get("change") == "gone":
                self.gone.append(key)
                self.names.pop(key, None)
            elif it.get("change") in ("new", "changed"):
                self.names[key] = it["ifname"]
        self.output.close()
        return found

    def ends(self):
        """Returns where it differs from the model, for each such line a text."""
        self.process.stdin.close()
        if self.process.wait(600) != 0:
            return [f"linkdiff: status {self.process.returncode}"]
        found, wrong = self.read(), []
        for at in sorted({*found, *self.wanted}):
            line, told = self.wanted.get(at, (f"line {at}", []))
            own = found.get(at, [])
            if not is_told(line, own, told):
                wrong.append(f"{line[:200]}\n  {own}\nand not\n  {told}")
        return wrong
