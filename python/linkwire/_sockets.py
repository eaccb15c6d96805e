"""Sockets of AF_NETLINK, and what the kernel answers there."""

import errno
import os
import socket
import struct
import sys
import threading
from typing import Any, List, NamedTuple, Optional, Sequence, Union

from .messages import Fault, pick

NLMSG_ERROR, NLMSG_DONE = 2, 3
NLM_F_REQUEST, NLM_F_ACK, NLM_F_DUMP, NLM_F_DUMP_INTR = 1, 4, 0x300, 0x10
QUEUE = 1 << 22
_NLM_F_CAPPED, _NLM_F_ACK_TLVS = 0x100, 0x200
_NLMSGERR_ATTR_MSG = 1
_SOL_NETLINK, _ADD_MEMBERSHIP, _CAP_ACK, _EXT_ACK, _STRICT = 270, 1, 10, 11, 12
_SO_RCVBUFFORCE, _CLONE_NEWNET = 33, 0x40000000
_MSG_TRUNC = 0x20
_ROOM = 120_000  # more than a message of the kernel has, and less than malloc maps anew each time
_HEADER = struct.Struct("=IHHII")


class KernelError(OSError):
    """The kernel refused a request: `errno`, and in `strerror` the kernel's own text where it gave one. An answer that
    cannot be read has the errno EBADMSG."""


class LostMessages(OSError):
    """The queue of the socket ran over: what the kernel announced meanwhile is lost, and has to be dumped again."""


class Part(NamedTuple):
    """A message of netlink."""

    kind: int
    flags: int
    turn: int
    port: int
    payload: bytes


def error_of(part: Part) -> Optional[KernelError]:
    """What NLMSG_ERROR or NLMSG_DONE says; None where it is an acknowledgement, or the end of what went well."""
    payload = part.payload
    if part.kind == NLMSG_DONE and not payload:
        return None
    if len(payload) < 4:
        return KernelError(errno.EBADMSG, f"an answer of {len(payload)} bytes has no number")
    number = int.from_bytes(payload[:4], sys.byteorder, signed=True)
    if number == 0:
        return None
    if not -4096 < number < 0:
        return KernelError(errno.EBADMSG, f"an answer has {number}, which is no error")
    return KernelError(-number, _said(part) or os.strerror(-number))


def _said(part: Part) -> str:
    """The kernel's own text, or nothing."""
    if not part.flags & _NLM_F_ACK_TLVS:
        return ""
    at = 4
    if part.kind == NLMSG_ERROR:  # the number, and the request, or its header alone
        at = 20 if part.flags & _NLM_F_CAPPED else 4 + max(16, int.from_bytes(part.payload[4:8], sys.byteorder))
    try:
        found = pick(part.payload, _NLMSGERR_ATTR_MSG, start=at + 3 & ~3)
    except Fault:
        return ""
    return bytes(found.get(_NLMSGERR_ATTR_MSG, b"")).rstrip(b"\0").decode(errors="replace")


def request(kind: int, flags: int, turn: int, message: bytes) -> bytes:
    """A request: the header of netlink, and a message."""
    return _HEADER.pack(16 + len(message), kind, NLM_F_REQUEST | flags, turn, 0) + message


class Namespace:
    """A network namespace, which is open as long as somebody holds this; without a path the one of who asks."""

    def __init__(self, path: Optional[str]) -> None:
        self.number: Optional[int] = None
        if path is not None:
            self.number = os.open(path, os.O_RDONLY | os.O_CLOEXEC)

    def __del__(self) -> None:
        if self.number is not None:
            os.close(self.number)

    def socket(self) -> socket.socket:
        """A socket of AF_NETLINK there: a thread goes there, makes it, and ends."""
        if self.number is None:
            return _socket()
        import ctypes

        found: List[Any] = []
        libc = ctypes.CDLL(None, use_errno=True)

        def work() -> None:
            try:
                if libc.setns(self.number, _CLONE_NEWNET) != 0:
                    raise OSError(ctypes.get_errno(), f"setns: {os.strerror(ctypes.get_errno())}")
                found.append(_socket())
            except OSError as error:
                found.append(error)

        thread = threading.Thread(target=work)
        thread.start()
        thread.join()
        if isinstance(found[0], OSError):
            raise found[0]
        made: socket.socket = found[0]
        return made


def _socket() -> socket.socket:
    return socket.socket(socket.AF_NETLINK, socket.SOCK_RAW | socket.SOCK_CLOEXEC, socket.NETLINK_ROUTE)


class Socket:
    """A socket that only the kernel can write to, in a network namespace."""

    def __init__(self, namespace: Namespace, groups: Sequence[int] = (), queue: int = QUEUE) -> None:
        self.it = namespace.socket()
        self.turn, self._room = 0, _ROOM
        try:
            self.it.bind((0, 0))
            self.it.connect((0, 0))
            self.port: int = self.it.getsockname()[0]
            for option in _EXT_ACK, _CAP_ACK:
                self._sets(option)
            if groups:
                self._widen(queue)
            for group in groups:
                self.it.setsockopt(_SOL_NETLINK, _ADD_MEMBERSHIP, group)
        except BaseException:
            self.it.close()
            raise

    def _sets(self, option: int) -> None:
        try:
            self.it.setsockopt(_SOL_NETLINK, option, 1)
        except OSError:
            pass  # an older kernel has it not: its errors are numbers alone, and it passes over what it does not know

    def looks_closely(self) -> None:
        """Has the kernel look at all of a request for a dump, and refuse what it does not know."""
        self._sets(_STRICT)

    def _widen(self, queue: int) -> None:
        try:
            self.it.setsockopt(socket.SOL_SOCKET, _SO_RCVBUFFORCE, queue)
        except OSError:  # the right to it lacks
            self.it.setsockopt(socket.SOL_SOCKET, socket.SO_RCVBUF, queue)

    def ask(self, kind: int, flags: int, message: bytes) -> Union[List[bytes], KernelError]:
        """What the kernel answers, up to an acknowledgement, an error, or the end of a dump."""
        self.turn += 1
        self.it.send(request(kind, NLM_F_ACK | flags, self.turn, message))
        found: List[bytes] = []
        is_interrupted = False
        while True:
            for part in self.receive():
                if part.turn != self.turn:
                    continue
                is_interrupted |= bool(part.flags & NLM_F_DUMP_INTR)
                if part.kind not in (NLMSG_ERROR, NLMSG_DONE):
                    found.append(part.payload)
                elif is_interrupted and part.kind == NLMSG_DONE:
                    return KernelError(errno.EINTR, "the dump was interrupted: ask again, or by `dump`")
                else:
                    return error_of(part) or found

    def receive(self, flags: int = 0) -> List[Part]:
        """The messages of one datagram. Raises LostMessages where the queue ran over, and BlockingIOError."""
        try:
            datagram, _, cut, _ = self.it.recvmsg(self._room, 0, flags)
        except OSError as error:
            if error.errno == errno.ENOBUFS:
                raise LostMessages(errno.ENOBUFS, "the queue ran over") from None
            raise
        if cut & _MSG_TRUNC:  # the next one has room
            self._room *= 2
            raise LostMessages(errno.ENOBUFS, "a datagram was cut off")
        return parts_of(datagram)


def parts_of(datagram: bytes) -> List[Part]:
    """The messages of a datagram. Raises KernelError where they do not fit."""
    size, at, found = len(datagram), 0, []
    header, new = _HEADER.unpack_from, tuple.__new__  # thrice as fast as Part(..), and there are many
    while at + 16 <= size:
        length, kind, flags, turn, port = header(datagram, at)
        if length < 16 or at + length > size:
            raise KernelError(errno.EBADMSG, os.strerror(errno.EBADMSG))
        found.append(new(Part, (kind, flags, turn, port, datagram[at + 16 : at + length])))
        at += (length + 3) & ~3
    return found
