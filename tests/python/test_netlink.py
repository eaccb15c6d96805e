"""What is asked of the kernel again: dumps that were interrupted, or within which a port went, and lost messages."""

import errno
import random
import unittest
from unittest import mock

import linkwire
from linkwire import numbers
from linkwire._sockets import Part, Socket, error_of, parts_of, request
from linkwire.netlink import _Dumps

PORT = 7


def part(kind, turn, family=0, index=1, flags=0, port=PORT, payload=None):
    message = linkwire.build([(numbers.IFLA_IFNAME, f"e{index}")], family=family, index=index)
    return Part(kind, flags, turn, port, message if payload is None else payload)


def link(turn, **words):
    return part(numbers.RTM_NEWLINK, turn, **words)


def done(turn, number=0, **words):
    return part(3, turn, payload=linkwire.u32(number & 0xFFFFFFFF), **words)


def news(index, kind=numbers.RTM_NEWLINK, family=0):
    return part(kind, 0, family=family, index=index, port=0)


def indexes(parts):
    return [int.from_bytes(it.payload[4:8], "little") for it in parts]


class Dumps(unittest.TestCase):
    def setUp(self):
        self.dumps = _Dumps(PORT, [0, 7], None, True)
        self.assertEqual(self.dumps.begin()[:12].hex(), "20000000120001030100" "0000")

    def test_whole(self):
        self.assertEqual(self.dumps.take([link(1), news(5)]), ([], None, None))
        found, family, request = self.dumps.take([link(1, index=2), done(1)])
        self.assertEqual((indexes(found), family), ([1, 5, 2], 0))
        self.assertEqual((request[16], request[36:40]), (7, linkwire.u32(4)))  # compressed VLANs of AF_BRIDGE
        found, family, request = self.dumps.take([link(2, family=7), done(2)])
        self.assertEqual((indexes(found), family, request), ([1], 7, None))
        self.assertEqual(indexes(self.dumps.take([news(9)])[0]), [9])
        self.assertEqual(self.dumps.take([news(9, family=10)])[0], [])

    def test_answers_of_another_family(self):
        dumps = _Dumps(PORT, [2], None, False)
        dumps.begin()
        self.assertEqual(dumps.take([link(1), done(1)])[1:], (0, None))

    def test_interrupted(self):
        found, family, request = self.dumps.take([link(1, flags=0x10), news(5), done(1)])
        self.assertEqual((indexes(found), family), ([5], None))
        self.assertIsNotNone(request)
        found, family, _ = self.dumps.take([link(2), done(2)])
        self.assertEqual((indexes(found), family), ([1], 0))

    def test_port_that_goes(self):
        self.dumps.take([link(1), done(1)])
        found, family, request = self.dumps.take([link(2, family=7), news(5, numbers.RTM_DELLINK), done(2)])
        self.assertEqual((indexes(found), family), ([5], None))
        self.assertEqual(request[16], 7)

    def test_lost(self):
        self.dumps.take([link(1)])
        self.dumps.lose()
        found, family, request = self.dumps.take([news(5), link(1, index=2), done(1)])
        self.assertEqual((indexes(found), family, request), ([5], None, None))
        self.assertTrue(self.dumps.is_lost and not self.dumps.is_dumping)

    def test_errors(self):
        self.assertEqual(self.dumps.take([part(2, 1, payload=linkwire.u32(-105 & 0xFFFFFFFF) + bytes(16))]),
                         ([], None, None))  # the queue is full: the dump begins later
        with self.assertRaises(linkwire.KernelError) as raised:
            self.dumps.take([part(2, 1, payload=linkwire.u32(-1 & 0xFFFFFFFF) + bytes(16), flags=0x100)])
        self.assertEqual(raised.exception.errno, 1)
        with self.assertRaises(linkwire.KernelError):
            self.dumps.take([done(1, -22)])


class Answers(unittest.TestCase):
    """NLMSG_ERROR is 2 and NLMSG_DONE 3."""

    def test_numbers(self):
        for payload, wanted in (bytes(4), None), (linkwire.u32(-19 & 0xFFFFFFFF), errno.ENODEV), \
                (b"", errno.EBADMSG), (b"\1", errno.EBADMSG), (bytes(3), errno.EBADMSG), \
                (linkwire.u32(1 << 31), errno.EBADMSG), (linkwire.u32((1 << 31) - 1), errno.EBADMSG), \
                (linkwire.u32(5), errno.EBADMSG), (linkwire.u32(-4096 & 0xFFFFFFFF), errno.EBADMSG):
            for kind in 2, 3:
                for flags in 0, 0x100, 0x200, 0x300:
                    error = error_of(part(kind, 1, payload=payload, flags=flags))
                    self.assertIsInstance(error, (linkwire.KernelError, type(None)))
                    if payload or kind == 2:
                        self.assertEqual(error and error.errno, wanted)
        self.assertIsNone(error_of(part(3, 1, payload=b"")))

    def test_text(self):
        """The kernel's own text stands behind the request, or behind its header, or behind the number of an end."""
        number, said = linkwire.u32(-22 & 0xFFFFFFFF), linkwire.build([(1, b"no\0")])[16:]
        header = linkwire.u32(20) + bytes(12)
        for kind, flags, front, wanted in (2, 0x200, header + bytes(4), "no"), (2, 0x300, header, "no"), \
                (3, 0x202, b"", "no"), (2, 0, header + bytes(4), "Invalid argument"):
            self.assertEqual(error_of(part(kind, 1, payload=number + front + said, flags=flags)).strerror, wanted)
        chance = random.Random(70)
        for _ in range(3000):
            payload = number + chance.choice((b"", header, linkwire.u32(chance.choice((0, 3, 1 << 31, 0xFFFFFFFF)))))
            payload += chance.choice((b"", said, said[:5], bytes(chance.randrange(256) for _ in range(12))))
            error = error_of(part(chance.choice((2, 3)), 1, payload=payload, flags=chance.choice((0, 0x200, 0x300))))
            self.assertEqual(error.errno, errno.EINVAL)

    def test_damaged(self):
        """Of whatever datagram messages are read, or it is the package's own error."""
        chance = random.Random(71)
        for _ in range(3000):
            datagram = bytearray(request(16, 0, 1, bytes(chance.randrange(40))) * 2)
            datagram[chance.randrange(len(datagram))] = chance.randrange(256)
            try:
                found = parts_of(bytes(datagram[:chance.randrange(len(datagram) + 1)]))
            except linkwire.KernelError as error:
                self.assertEqual(error.errno, errno.EBADMSG)
                continue
            self.assertLessEqual(len(found), 4)

    def test_asked(self):
        """An acknowledgement, an error and the end of a dump end an answer; what is of another request does not count.
        """
        link_ = link(1).payload
        for datagrams, wanted in (
                ([[link(1)], [part(2, 1, payload=bytes(20))]], [link_]),
                ([[link(1), link(1), done(1)]], [link_, link_]), ([[link(7), done(7), done(1)]], []),
                ([[part(2, 1, payload=linkwire.u32(-1 & 0xFFFFFFFF))]], errno.EPERM),
                ([[done(1, -95)]], errno.EOPNOTSUPP), ([[link(1, flags=0x10), done(1)]], errno.EINTR),
                ([[part(2, 1, payload=b"")]], errno.EBADMSG)):
            socket = Socket.__new__(Socket)
            socket.it, socket.turn = mock.Mock(), 0
            socket.receive = mock.Mock(side_effect=datagrams)
            found = socket.ask(18, 0x300, b"")
            self.assertEqual(getattr(found, "errno", found), wanted)


if __name__ == "__main__":
    unittest.main()
