#!/usr/bin/env python3
"""Writes the seeds of scripts/test/fuzz.sh: seeds.py FOLDER. FOLDER/library has pairs of messages, the length of the
first in two bytes in front; FOLDER/captures has small captures of them, as pcap and pcapng. They are some messages of
tests/kernels that are not large, and the pairs of tests/fuzz/corpus.txt, a line of hexadecimal digits each."""
import sys
from pathlib import Path

TOP = Path(__file__).resolve().parent.parent.parent
sys.path.insert(0, str(TOP / "tests/linkdump"))
import captures  # noqa: E402

MOST = 400


def lines(name):
    return [bytes.fromhex(it) for it in (TOP / name).read_text().split("\n") if it and not it.startswith("#")]


def main():
    folder = Path(sys.argv[1])
    small = {it for it in lines("tests/kernels/messages.txt") if len(it) <= MOST}
    messages = sorted(small, key=lambda it: (len(it), it))
    pairs = [len(a).to_bytes(2, "little") + a + b for a, b in zip(messages[::4], messages[2::4])]
    for name in ("library", "captures"):
        (folder / name).mkdir()
    for number, pair in enumerate(pairs + lines("tests/fuzz/corpus.txt")):
        (folder / f"library/{number}").write_bytes(pair)
    for number, some in enumerate([messages[:1], messages[1:4], messages[-2:]]):
        packet = captures.cooked([captures.message(16, it) for it in some])
        for form, make in captures.FORMS.items():
            for order in "<>":
                (folder / f"captures/{form}{number}{'le' if order == '<' else 'be'}").write_bytes(
                    make([(1700000000 * 10**9, packet)], order=order))


if __name__ == "__main__":
    main()
