"""examples/new_shape.jq: kept lines of linkshow in the shape of before become what `show_json` returns now."""

import os
import shutil
import subprocess
import unittest

import linkwire

HERE = os.path.dirname(os.path.abspath(__file__))
PROGRAM = os.path.join(os.path.dirname(os.path.dirname(HERE)), "examples", "new_shape.jq")
# lines of other programs, and of linkshow without attributes
OTHERS = [
    '{"change":"changed","ifi-family":7,"ifi-index":7,"changes":[{"path":"af-spec.repeated.0.vlan-info.vid","old":1,'
    '"new":2}]}',
    '{"change":"lost"}', '{"type":"begin","seq":"1"}', '{"fault":"not-hex"}', '{"host":"a","words":["repeated=b"]}',
    '{"fault":"too-short","at":"header","got":1,"need":16,"offset":0}',
    '{"ifi-family":7,"ifi-type":0,"ifi-index":7,"ifi-flags":[],"ifi-change":0}',
]


def stored():
    """What each stored line is, its message, and its answer before and now."""
    with open(os.path.join(HERE, "old_shape.txt"), encoding="utf-8") as it:
        lines = it.read().splitlines()[2:]
    for what, digits, old in zip(*[iter(lines)] * 3):
        yield what, old, linkwire.show_json(bytes.fromhex(digits), lenient="leniently" in what).decode()


def turned(lines):
    text = "".join(f"{it}\n" for it in lines)
    ran = subprocess.run(["jq", "-ac", "-f", PROGRAM], input=text, capture_output=True, text=True, check=True,
                         timeout=600)
    return ran.stdout.splitlines()


@unittest.skipUnless(shutil.which("jq"), "new_shape.jq: no jq: apt-get install jq")
class Shape(unittest.TestCase):
    maxDiff = None

    def test_stored(self):
        """Of kernels and made: what was turned is what is shown now, and the rest of the line stays."""
        rows = list(stored())
        olds = [old for _, old, _ in rows]
        worded = ['{"host":"a","words":["repeated=b"],' + old[1:] for old in olds]
        found = turned(olds + worded)
        for (what, _, new), alone, behind in zip(rows, found, found[len(rows):]):
            self.assertEqual((alone, behind), (new, '{"host":"a","words":["repeated=b"],' + new[1:]), what)
        self.assertGreater(sum(old != new for _, old, new in rows), 20)

    def test_unchanged(self):
        """Lines in the new shape, and lines that are no message."""
        lines = [new for _, _, new in stored()] + OTHERS
        self.assertEqual(turned(lines), lines)


if __name__ == "__main__":
    unittest.main()
