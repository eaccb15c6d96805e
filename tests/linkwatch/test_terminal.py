"""A terminal, by a pseudo terminal: colours, widths, signals, and that nothing reaches it which it would obey."""

import fcntl
import os
import pty
import signal
import struct
import subprocess
import sys
import termios
import unicodedata
import unittest

from linkwire import numbers as n
from linkwire import u32
from made import BEGIN, COMMAND, DONE, ENVIRONMENT, PATIENCE, line, mtu, name, stream

FIRST = [line(2, name("veth0"), mtu(1500)), line(3, name("br0"), mtu(1500))]
CHANGED = stream(FIRST, line(2, name("veth0"), mtu(9000)))
COLOURED = ("\x1b[2m10:00:00.000\x1b[0m  \x1b[36mveth0          \x1b[0m  mtu 1500 → \x1b[1m9000\x1b[0m\n")
PLAIN = "10:00:00.000  veth0            mtu 1500 → 9000\n"
LONG = stream(FIRST, line(2, name("veth0"), mtu(9000), (n.IFLA_TXQLEN, u32(5)), (n.IFLA_IFALIAS, "a b")))
UNDER = "\n" + " " * 31
# becomes a command that leads a terminal's session, and that a signal ends: a shell's background ignores SIGINT
LEADER = """import fcntl, os, signal, sys, termios
os.setsid()
fcntl.ioctl(1, termios.TIOCSCTTY, 0)
signal.signal(signal.SIGINT, signal.SIG_DFL)
os.execv(sys.argv[1], sys.argv[1:])
"""


def sized(terminal, columns):
    fcntl.ioctl(terminal, termios.TIOCSWINSZ, struct.pack("HHHH", 24, columns, 0, 0))


class Terminal:
    """The command at a terminal of its own."""

    def __init__(self, words, columns=80, **environment):
        self.master, slave = pty.openpty()
        sized(self.master, columns)
        self.process = subprocess.Popen(
            [sys.executable, "-c", LEADER, *COMMAND, *words], stdin=subprocess.PIPE, stdout=slave, stderr=slave,
            env={**ENVIRONMENT, **environment})
        os.close(slave)

    def write(self, lines):
        self.process.stdin.write("".join(f"{it}\n" for it in lines).encode())
        self.process.stdin.flush()

    def until(self, wanted):
        """What comes up to this text, or to the end."""
        found = b""
        while wanted is None or wanted.encode() not in found:
            try:
                got = os.read(self.master, 65536)
            except OSError:
                break
            if not got:
                break
            found += got
        return found.decode().replace("\r\n", "\n")

    def ended(self):
        """What comes to the end, and the status."""
        self.process.stdin.close()
        found = self.until(None)
        os.close(self.master)
        return found, self.process.wait(PATIENCE)


def shown(words, lines, columns=80, **environment):
    terminal = Terminal(["--read", "-", *words], columns, **environment)
    terminal.write(lines)
    return terminal.ended()


class AtTerminal(unittest.TestCase):
    maxDiff = None

    def test_colours(self):
        for words, environment, wanted in (
                ([], {}, COLOURED), ([], {"NO_COLOR": ""}, COLOURED), ([], {"NO_COLOR": "1"}, PLAIN),
                ([], {"TERM": "dumb"}, PLAIN), (["--color", "never"], {}, PLAIN),
                (["--color", "always"], {"NO_COLOR": "1", "TERM": "dumb"}, COLOURED)):
            self.assertEqual(shown(words, CHANGED, **environment), (wanted, 0))

    def test_colours_of_all(self):
        lines = stream(FIRST, line(4, name("x"), mtu(1)), line(4, what="del"), "type=lost", FIRST[0] + "0500")
        found, _ = shown(["--time", "none"], lines)
        self.assertEqual([it.split("  ")[-1] for it in found.splitlines()], [
            "\x1b[32mnew\x1b[0m mtu 1", "\x1b[31mgone\x1b[0m",
            "\x1b[1;33mlost\x1b[0m messages of the kernel: all links are asked for again",
            "\x1b[1;31mfault\x1b[0m too few bytes for the header of an attribute, at byte 36"])

    def test_widths(self):
        for columns, wanted in ((200, "mtu 1500 → 9000, qlen none → 5, alias none → \"a b\""),
                                (62, "mtu 1500 → 9000, qlen none → 5," + UNDER + 'alias none → "a b"'),
                                (61, "mtu 1500 → 9000," + UNDER + "qlen none → 5," + UNDER + 'alias none → "a b"'),
                                (1, "mtu 1500 → 9000," + UNDER + "qlen none → 5," + UNDER + 'alias none → "a b"')):
            found, _ = shown(["--color", "never"], LONG, columns)
            self.assertEqual(found, f"10:00:00.000  veth0            {wanted}\n", columns)

    def test_another_width(self):
        terminal = Terminal(["--read", "-", "--color", "never"], 200)
        terminal.write(LONG)
        self.assertEqual(terminal.until("\n").count("\n"), 1)
        sized(terminal.master, 62)
        terminal.write([line(2, name("veth0"), mtu(1), (n.IFLA_TXQLEN, u32(6)), (n.IFLA_IFALIAS, "a c"))])
        found, _ = terminal.ended()
        self.assertEqual(found.count("\n"), 2)

    def test_rates(self):
        """Each table is drawn over the last one: it begins at the top, and each line ends what stood there."""
        terminal = Terminal(["--rates", ".1", "--count", "2", "--color", "never", "lo"])
        found, status = terminal.ended()
        first, *tables = found.split("\x1b[H")
        self.assertEqual((first, tables[0], len(tables), status), ("", "\x1b[J", 3, 0))
        for it in tables[1:]:
            head, lo, rest = it.split("\x1b[K\n")
            self.assertEqual((head[:4], lo[:2], rest), ("NAME", "lo", "\x1b[J"))

    def test_hostile(self):
        """Each control, format and separator character, surrogates, and some of what is private or not assigned."""
        hostile = [code for code in range(1, sys.maxunicode + 1) if unicodedata.category(chr(code))[0] in "CZ"
                   and (code % 4099 == 0 or unicodedata.category(chr(code)) not in ("Cn", "Co", "Cs")) and code != 32]
        self.assertTrue({0x1b, 0x9b, 0x202e, 0x2066, 0x2028, 0x61c, 0xfeff, 0xe0001} <= set(hostile))
        hostile = [it for it in hostile if not 0xd800 <= it < 0xe000]
        lines = [line(2, name(f"e{chr(it)}"), mtu(1500), (n.IFLA_IFALIAS, f"{chr(it)}[2J")) for it in hostile]
        found, status = shown(["--color", "never", "--details"], [*stream(FIRST, *lines), f"host=\x1b\u202e {BEGIN}",
                                                                 f"host=\x1b\u202e {FIRST[0]}",
                                                            f"host=\x1b\u202e {DONE}", "\x1b"], 500)
        self.assertEqual(status, 0)
        self.assertEqual({it for it in found if not it.isprintable()}, {"\n"})
        self.assertEqual(len(found.splitlines()), len(hostile) + 1)
        for it, told in zip(hostile, found.splitlines()):
            self.assertGreaterEqual(told.count(f"\\u{it:04x}" if it < 0x10000 else f"\\U{it:08x}"), 3, told)

    def test_interrupt(self):
        """Ctrl-C ends it by the signal, and it says nothing; where the signal is ignored, it stays so."""
        terminal = Terminal(["--read", "-"])
        terminal.write(CHANGED)
        self.assertEqual(terminal.until("\n"), COLOURED)
        os.write(terminal.master, b"\x03")
        terminal.process.wait(PATIENCE)  # before its standard input ends
        found, status = terminal.ended()
        self.assertEqual((found.replace("^C", ""), status), ("", -signal.SIGINT))
        ran = subprocess.run(["sh", "-c", 'trap "" INT; "$@" & sleep .4; kill -INT $!; wait $!', "sh", *COMMAND,
                              "--for", "1"],
                             env=ENVIRONMENT, timeout=PATIENCE, check=False, capture_output=True)
        self.assertEqual(ran.returncode, 0)

    def test_nobody_reads(self):
        ran = subprocess.run(["bash", "-c",
                              '"$@" | true; echo "${PIPESTATUS[0]}"; yes "$LINES_" | "$@" --read - | head -n 1',
                              "sh", *COMMAND], env={**ENVIRONMENT, "LINES_": "\n".join(CHANGED)}, timeout=PATIENCE,
                             check=False,
                             capture_output=True, text=True)
        self.assertEqual((ran.stdout, ran.stderr), (f"0\n{PLAIN}", ""))


if __name__ == "__main__":
    unittest.main()
