"""Calls that are made in the middle of other calls: by finalizers, by handlers of signals, and by other threads."""

import gc
import itertools
import signal
import threading
import unittest

import linkwire
from linkwire import numbers


def message(mtu, name, byte, index):
    parts = [(numbers.IFLA_MTU, linkwire.u32(mtu)), (numbers.IFLA_IFNAME, name)]
    return linkwire.build(parts + [(0x200 + it, bytes([byte]) * 40) for it in range(30)], index=index)


ONE, OTHER = message(1500, "aaa", 0, 7), message(9000, "bbbbbb", 1, 8)
LONG = linkwire.build([(9999, bytes(65000))] * 3)
CALLS = [lambda: linkwire.key(ONE), lambda: linkwire.canonical(ONE), lambda: linkwire.state(ONE),
         lambda: linkwire.show(ONE), lambda: linkwire.diff(ONE, OTHER), lambda: linkwire.canonical(LONG),
         lambda: list(linkwire.refusals(ONE)), lambda: linkwire.same_state(ONE, OTHER),
         lambda: linkwire.Watch().message(ONE)]


def others():
    linkwire.key(OTHER)
    linkwire.show(OTHER)
    linkwire.diff(OTHER, ONE)


class Row:
    """One of a ring, which the collector of garbage finds, and which calls the library as it goes."""

    def __init__(self, turns):
        self.ring, self.turns = self, turns

    def __del__(self):
        self.turns[0] += 1
        linkwire.key(OTHER)


class Reentry(unittest.TestCase):
    def setUp(self):
        self.wanted = [call() for call in CALLS]

    def test_finalizers(self):
        thresholds, turns = gc.get_threshold(), [0]
        try:
            for at, (call, wanted) in enumerate(zip(CALLS[:5], self.wanted)):
                gc.set_threshold(47 + at)
                for _ in range(4000):
                    Row(turns)
                    self.assertEqual(call(), wanted, at)
        finally:
            gc.set_threshold(*thresholds)
        self.assertGreater(turns[0], 1000)

    def test_signals(self):
        turns, is_over = [0], threading.Event()

        def handler(*_):
            turns[0] += 1
            others()
            if not is_over.is_set():
                signal.setitimer(signal.ITIMER_REAL, .0005)  # once more, and not while this one is handled

        last = signal.signal(signal.SIGALRM, handler)
        signal.setitimer(signal.ITIMER_REAL, .0005)
        try:
            for at in itertools.count():
                for call, wanted in zip(CALLS, self.wanted):
                    self.assertEqual(call(), wanted)
                if at > 50 and turns[0] > 1000:
                    break
        finally:
            is_over.set()
            signal.setitimer(signal.ITIMER_REAL, 0)
            signal.signal(signal.SIGALRM, last)

    def test_threads(self):
        wrong, end = [], threading.Event()

        def work():
            while not end.is_set():
                wrong.extend(at for at, call in enumerate(CALLS) if call() != self.wanted[at])

        threads = [threading.Thread(target=work) for _ in range(4)]
        for it in threads:
            it.start()
        for _ in range(300):
            others()
        end.set()
        for it in threads:
            it.join()
        self.assertEqual(wrong, [])

    def test_shared(self):
        """No value that is handed out is another one's."""
        one, other = linkwire.Watch().message(ONE), linkwire.Watch().message(OTHER)
        self.assertIsInstance(one[0].changes, tuple)
        self.assertEqual(other[0].changes, ())
        with self.assertRaises(AttributeError):
            one[0].changes.append(linkwire.Change("mtu", 1, 2))


if __name__ == "__main__":
    unittest.main()
