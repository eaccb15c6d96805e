"""What several scripts do: run a program over lines, compare its answers, cut messages into frames, unpack kernels."""
import glob
import os
import re
import shutil
import struct
import subprocess
import sys
import tempfile

TOP = os.path.dirname(os.path.dirname(os.path.dirname(os.path.abspath(__file__))))
HEADER_SIZE = 16


def read(name):
    """Returns the text of a file of the repository; bytes that are no UTF-8 stand for themselves."""
    with open(f"{TOP}/{name}", encoding="utf-8", errors="surrogateescape", newline="") as it:
        return it.read()


def digits_of(text):
    """Returns the lines of a text that are hexadecimal digits alone."""
    return re.findall("^(?:[0-9a-fA-F]{2})+$", text, re.M)


def table(name):
    """Yields each row of a table: its section, and its words, between which two blanks or more stand; four go on."""
    section = ""
    for line in filter(None, read(name).replace("\n    ", "  ").split("\n")):
        if line.startswith("["):
            section = line.strip("[]")
        elif not line.startswith("#"):
            yield section, re.split(r" {2,}", line)


def ran(program, given, *options):
    """Returns the lines that a program writes when it reads these bytes."""
    it = subprocess.run([program, *options], input=given, capture_output=True, check=False)
    if it.returncode or it.stderr:
        sys.exit(f"{program} {' '.join(options)} ends with status {it.returncode}: {it.stderr.decode()}")
    return it.stdout.split(b"\n")[:-1]


def joined(lines):
    """Returns the bytes of lines, which are texts or bytes."""
    return b"".join((it if isinstance(it, bytes) else it.encode()) + b"\n" for it in lines)


def said(program, lines, *options):
    """Returns the lines that a program writes when it reads these."""
    return ran(program, joined(lines), *options)


def answers(program, lines, *options):
    """Returns the answers of a program to lines, one to each."""
    found = said(program, lines, *options)
    if len(found) != len(lines):
        sys.exit(f"{program} {' '.join(options)}: {len(found)} answers to {len(lines)} lines")
    return found


def compare(what, lines, found, wanted):
    """Stops at the first line that is answered otherwise than wanted."""
    if len(found) != len(wanted):
        sys.exit(f"{what}: {len(found)} answers, and not {len(wanted)}")
    for line, one, other in zip(lines, found, wanted):
        if one != other:
            sys.exit(f"{what}: {line[:3000]}\nis answered\n{str(one)[:3000]}\nand not\n{str(other)[:3000]}")


def frames(octets, at=HEADER_SIZE):
    """Returns offset, kind and payload of each frame from there on, and where the rest begins that is no frame."""
    found = []
    while at + 4 <= len(octets):
        length, kind = struct.unpack_from("<HH", octets, at)
        if not 4 <= length <= len(octets) - at:
            break
        found.append((at, kind, octets[at + 4:at + length]))
        at += (length + 3) // 4 * 4
    return found, at


def attribute(kind, payload, padding=b"\0"):
    """Returns the bytes of an attribute, with its padding."""
    return struct.pack("<HH", 4 + len(payload), kind) + payload + padding * (-len(payload) % 4)


def pairs():
    """Returns (name, first, second) of each pair of tests/state/pairs.txt."""
    found = []
    text = read("tests/state/pairs.txt")
    for name, digits, changes in re.findall(r"^pair (.*)\n((?:[0-9a-f]+\n)+)((?:at .*\n)*)", text, re.M):
        found.append((name, bytes.fromhex(digits), bytearray.fromhex(digits)))
        for at, changed in re.findall(r"^at (\d+) (.*)$", changes, re.M):
            found[-1][2][int(at):int(at) + len(changed) // 2] = bytes.fromhex(changed)
    return [(name, first, bytes(second)) for name, first, second in found]


def kernel_messages():
    """Returns the messages of tests/kernels, each as the kernel's release and digits."""
    return re.findall(r"^# (.*?):.*\n([0-9a-f]+)$", read("tests/kernels/messages.txt"), re.M)


def kernels(who):
    """Yields the release of each kernel of the folder that KERNELS names in the environment, and its folder out/, the
    oldest first; archives are unpacked. Without such a folder it says that this is skipped."""
    folder = os.environ.get("KERNELS")
    if not folder:
        return print(f"{who}: skipped: KERNELS names no folder of kernels")
    with tempfile.TemporaryDirectory() as unpacked:
        for archive in glob.glob(f"{folder}/*.tar.xz"):
            shutil.unpack_archive(archive, f"{unpacked}/{os.path.basename(archive).removesuffix('.tar.xz')}")
        found = {out.split(os.sep)[-2]: out for it in (folder, unpacked) for out in glob.glob(f"{it}/*/out")}
        if not found:
            sys.exit(f"no kernel in {folder}")
        for release in sorted(found, key=lambda it: [int(n) for n in re.findall(r"\d+", it)]):
            yield release, found[release]
