"""The links of the running kernel, over sockets of AF_NETLINK."""

import errno
import os
import socket
import sys
import time
from collections import deque
from typing import Any, Deque, List, NamedTuple, Optional, Sequence, Tuple, Union

from . import numbers
from ._sockets import (NLM_F_DUMP, NLM_F_DUMP_INTR, NLMSG_DONE, NLMSG_ERROR, QUEUE, KernelError, LostMessages,
                       Namespace, Part, Socket, error_of, request)
from .messages import Bytes, Value, build, number, pick, text, u32
from .streams import STEP, Stream
from .watching import AF_BRIDGE, AF_INET6, AF_UNSPEC, Event, Watch, kind_of, utc

__all__ = ["Announcement", "KernelError", "Links", "LostMessages", "Stream"]
_RTNLGRP_LINK, _RTNLGRP_IPV6_IFINFO = 1, 12
_LINKS = numbers.RTM_NEWLINK, numbers.RTM_DELLINK
_LONGEST_NAME = 15  # an alternative one may be longer


class Announcement(NamedTuple):
    """What the kernel announced: the message of a link, and whether it says that the link went."""

    is_gone: bool
    message: bytes


def _news(part: Part) -> Optional[Announcement]:
    if part.kind in _LINKS:
        return Announcement(part.kind == numbers.RTM_DELLINK, part.payload)
    return None


def _filters(kind: Optional[str], master: Optional[int]) -> List[Tuple[int, Value]]:
    """What has the kernel leave out links of other kinds, and those of others."""
    by_kind: List[Tuple[int, Value]] = [] if kind is None else [(numbers.IFLA_LINKINFO, [
        (numbers.IFLA_INFO_KIND, kind)])]
    return by_kind if not master else [*by_kind, (numbers.IFLA_MASTER, u32(master))]


def _master(message: bytes) -> int:
    """The index of the link that another one belongs to, or 0."""
    return number(pick(message, numbers.IFLA_MASTER).get(numbers.IFLA_MASTER, b""))


class _Dumps:
    """What is said of the links of families: dumps, whole ones alone, and what is announced in their order.

    It reads no socket and writes none: `request` is what is to be sent, and `take` is given what came.
    """

    def __init__(self, port: int, families: Sequence[int], mask: Optional[int], is_monitor: bool,
                 filters: Sequence[Tuple[int, Value]] = ()) -> None:
        self.port, self.families, self.mask, self.is_monitor = port, families, mask, is_monitor
        self.filters = list(filters)
        self.turn, self.at = 0, len(families)
        self.held: List[Part] = []
        self.others = 0  # how many of these are no answer of the dump that runs
        self.is_interrupted = self.is_lost = False

    @property
    def is_dumping(self) -> bool:
        return self.at < len(self.families)

    @property
    def family(self) -> int:
        return self.families[self.at]

    def begin(self) -> bytes:
        """The request for the first of the families."""
        self.at = 0
        return self.request()

    def request(self) -> bytes:
        self.turn += 1
        self.is_interrupted = False
        mask = self.mask
        if mask is None:  # as the kernel's announcements are made
            mask = numbers.RTEXT_FILTER_BRVLAN_COMPRESSED if self.family == AF_BRIDGE else 0
        attributes = [(numbers.IFLA_EXT_MASK, u32(mask)), *self.filters] if mask else self.filters
        message = build(attributes, family=self.family)
        return request(numbers.RTM_GETLINK, NLM_F_DUMP, self.turn, message)

    def is_answer(self, part: Part) -> bool:
        return part.turn == self.turn and part.port == self.port

    def is_wanted(self, part: Part) -> bool:
        family = part.payload[0] if part.payload else AF_UNSPEC
        return family in self.families or (family == AF_UNSPEC and part.kind == numbers.RTM_DELLINK)

    def lose(self) -> None:
        """Messages were lost: the dump that runs is of no use."""
        self.is_interrupted = self.is_lost = True

    def take(self, parts: List[Part]) -> Tuple[List[Part], Optional[int], Optional[bytes]]:
        """What is to be read now: messages in their order, and whose family is whole with them; and a request."""
        self.held += parts
        if not self.is_dumping:
            return self._released(False), None, None
        turn, port, is_over, new = self.turn, self.port, False, numbers.RTM_NEWLINK
        for it in parts:
            if it.turn != turn or it.kind != new or it.port != port or it.flags & NLM_F_DUMP_INTR:
                self.others += 1
                is_over |= self._is_end(it)
        if not is_over:
            return [], None, None
        whole, family = not self.is_interrupted, self.family
        found = self._released(whole)
        if whole:
            of = next((it.payload[0] for it in found if self.is_answer(it)), family)
            self.at += 1
        if self.is_lost:
            self.at = len(self.families)
        return found, of if whole else None, self.request() if self.is_dumping else None

    def _released(self, answers: bool) -> List[Part]:
        held, self.held = self.held, []
        others, self.others = self.others, 0
        if answers and others == 1 and held[-1].kind == NLMSG_DONE:  # all in front of the end are answers
            return held[:-1]
        turn, port = self.turn, self.port
        return [it for it in held if it.kind in _LINKS and (answers if it.turn == turn and it.port == port else
                                                            self.is_monitor and self.is_wanted(it))]

    def _is_end(self, part: Part) -> bool:
        if not self.is_answer(part):
            # the kernel counts the links of these, and passes over one where another goes
            self.is_interrupted |= part.kind == numbers.RTM_DELLINK and self.family in (AF_BRIDGE, AF_INET6)
            return False
        self.is_interrupted |= bool(part.flags & NLM_F_DUMP_INTR)
        if part.kind not in (NLMSG_ERROR, NLMSG_DONE):
            return False
        error = error_of(part)
        if error is not None and part.kind == NLMSG_ERROR and error.errno == errno.ENOBUFS:
            return False  # the queue is full: the dump begins later
        if error is not None:
            raise error
        return True


class _Watching:
    """Dumps and announcements, by the rules of `Watch`, a few milliseconds at a time."""

    def __init__(self, it: Socket, dumps: _Dumps, watch: Watch, every: Optional[float]) -> None:
        self.socket, self.dumps, self.watch, self.every = it, dumps, watch, every
        self.due: Optional[float] = None
        self.rest: Deque[Part] = deque()  # what came, and is to be told
        self.end: Optional[Tuple[str, int]] = None  # the dump that is whole after it, and its family
        self.begin()

    def begin(self) -> None:
        self.due = None if self.every is None else time.monotonic() + self.every
        self.socket.it.send(self.dumps.begin())

    def next_due(self) -> Optional[float]:
        """When something is due: at once where messages were lost, for then the queue is read until it is empty, and
        where some are to be told; and nothing while a dump runs."""
        if self.rest or self.end is not None:
            return 0.0
        if self.dumps.is_dumping:
            return None
        return 0.0 if self.dumps.is_lost else self.due

    def read(self) -> Optional[List[Event]]:
        if self.rest or self.end is not None:
            return self.told()
        try:
            parts = self.socket.receive(socket.MSG_DONTWAIT)
        except LostMessages:
            self.dumps.lose()
            return []
        except BlockingIOError:
            return self.at_rest()
        found, family, request = self.dumps.take(parts)
        if request is not None:
            self.socket.it.send(request)
        self.rest.extend(found)
        if family is not None:
            self.end = str(self.dumps.turn), family
            self.watch.begin(self.end[0])
        return self.told()

    def at_rest(self) -> Optional[List[Event]]:
        """The queue is empty: what was in it stands in front of what is asked for now."""
        if self.dumps.is_dumping:
            return None
        if self.dumps.is_lost:
            self.dumps.is_lost = False
            self.begin()
            return self.watch.lost(time=utc())
        if self.due is not None and time.monotonic() >= self.due:
            self.begin()
            return []
        return None

    def told(self) -> List[Event]:
        told: List[Event] = []
        end, now = time.monotonic() + STEP, utc()
        while self.rest:
            it = self.rest.popleft()
            told += self.watch.message(it.payload, it.kind == numbers.RTM_DELLINK, time=now)
            if time.monotonic() >= end:
                return told
        if self.end is not None:
            whole, self.end = self.end, None
            told += self.watch.done(*whole, time=now)
        return told


class Links:
    """The links of the running kernel, in this network namespace or another.

    namespace: its name, as ip-netns(8) knows it, or, if it has a slash, its path; it is opened here, which raises
        OSError, and asked in by all calls, whatever namespace the process is in. That needs CAP_SYS_ADMIN.

    It is a context manager, and `close` ends it: after it all calls raise ValueError. They may be made by several
    threads, and by finalizers and handlers of signals.
    """

    def __init__(self, namespace: Optional[str] = None) -> None:
        is_path = namespace is None or "/" in namespace
        self._namespace: Optional[Namespace] = Namespace(namespace if is_path else f"/var/run/netns/{namespace}")
        self._idle: List[Socket] = []  # that wait for no answer
        self._idle.append(self._made())

    def _made(self, groups: Sequence[int] = (), queue: int = QUEUE) -> Socket:
        namespace = self._namespace
        if namespace is None:
            raise ValueError("these Links are closed")
        return Socket(namespace, groups, queue)

    def close(self) -> None:
        """Ends it, but for its streams."""
        self._namespace = None
        while self._idle:
            try:
                self._idle.pop().it.close()
            except IndexError:  # another thread takes it
                break

    def __enter__(self) -> "Links":
        return self

    def __exit__(self, *_: Any) -> None:
        self.close()

    def dump(self, family: int = AF_UNSPEC, mask: Optional[int] = None, kind: Optional[str] = None,
             master: Union[int, str, None] = None) -> List[bytes]:
        """The messages of all links of a family. A dump that was interrupted is asked for again.

        mask: IFLA_EXT_MASK, as RTEXT_FILTER_VF; without it what announcements have: nothing, and of AF_BRIDGE the
            VLANs, compressed.
        kind: only those of a kind, as `veth`; family AF_UNSPEC, since messages of others have none.
        master: only those that belong to this link, by its index or name: ports of a bridge, members of a bond. The
            kernel leaves out the rest of a family AF_UNSPEC, by kind too where it knows it.

        Raises KernelError, and ValueError of a kind where the family is another.
        """
        if kind is not None and family != AF_UNSPEC:
            raise ValueError("kind: messages of the family AF_UNSPEC alone have one")
        if isinstance(master, str):
            master = self.index(master)
        found = self._dumped(family, mask, _filters(kind, master) if family == AF_UNSPEC else [])
        if kind is not None:
            found = [it for it in found if kind_of(it) == kind.encode()]
        return found if master is None else [it for it in found if _master(it) == master]

    def _dumped(self, family: int, mask: Optional[int], filters: Sequence[Tuple[int, Value]]) -> List[bytes]:
        is_counted = family in (AF_BRIDGE, AF_INET6)
        it = self._made([_RTNLGRP_LINK] if is_counted else [])
        try:
            if filters:
                it.looks_closely()
            dumps = _Dumps(it.port, [family], mask, False, filters)
            it.it.send(dumps.begin())
            while True:
                try:
                    found, whole, request = dumps.take(it.receive())
                except LostMessages:  # of announcements; the dump has to be asked for again
                    dumps.is_interrupted = True
                    continue
                if request is not None:
                    it.it.send(request)
                elif whole is not None:
                    return [part.payload for part in found]
        finally:
            it.it.close()

    def send(self, message: Bytes, kind: int = numbers.RTM_NEWLINK, flags: int = 0) -> List[bytes]:
        """Sends a request, and returns what the kernel answers: for RTM_GETLINK the message, else nothing.

        kind: RTM_NEWLINK, RTM_DELLINK, RTM_GETLINK or another of linux/rtnetlink.h.
        flags: as NLM_F_CREATE | NLM_F_EXCL, for a link that is to be made. With NLM_F_DUMP all answers of a dump are
            returned; where it was interrupted KernelError is raised, of EINTR. `dump` asks again by itself.

        Raises KernelError, with the kernel's own text.
        """
        request = bytes(memoryview(message))
        try:
            it = self._idle.pop()
        except IndexError:
            it = self._made()
        try:
            found = it.ask(kind, flags, request)
        except BaseException:
            it.it.close()  # its answer may come yet
            raise
        self._idle.append(it)
        if self._namespace is None:
            self.close()
        if isinstance(found, KernelError):
            raise found
        return found

    def get(self, name: str = "", index: int = 0) -> bytes:
        """The message of one link, by its name, an alternative one, or its index. Raises KernelError, of ENODEV where
        there is none."""
        by = numbers.IFLA_IFNAME if len(name.encode()) <= _LONGEST_NAME else numbers.IFLA_ALT_IFNAME
        (found,) = self.send(build([(by, name)] if name else [], index=index), numbers.RTM_GETLINK)
        return found

    def index(self, name: str) -> int:
        """The index of a link, by its name or an alternative one. Raises KernelError, of ENODEV where there is none."""
        return int.from_bytes(self.get(name)[4:8], sys.byteorder)

    def name(self, index: int) -> str:
        """The name of a link, by its index. Raises KernelError, of ENODEV where there is none."""
        return text(pick(self.get(index=index), numbers.IFLA_IFNAME)[numbers.IFLA_IFNAME])

    def monitor(self, queue: int = QUEUE) -> Stream[Announcement]:
        """What the kernel announces from this call on, of all families.

        queue: bytes that the kernel keeps while nobody reads.

        The stream raises LostMessages where its queue ran over, and goes on after it: what is there has to be dumped
        again. `watch` does that by itself.
        """
        it = self._made([_RTNLGRP_LINK], queue)

        def read() -> Optional[List[Announcement]]:
            try:
                return [news for news in map(_news, it.receive(socket.MSG_DONTWAIT)) if news is not None]
            except BlockingIOError:
                return None

        return Stream(it, read, lambda: None)

    def watch(self, every: Optional[float] = None, families: Sequence[int] = (AF_UNSPEC, AF_BRIDGE),
              counters: bool = False, changes_only: bool = False, queue: int = QUEUE,
              lenient: bool = False, dumps: bool = False) -> Stream[Event]:
        """Which links are there, and then which come, go or change: what `linkdump --monitor | linkdiff` says.

        every: asks for all links again each so many seconds: the kernel does not announce every change of a link that
            is down.
        families: whose messages are looked at.
        counters: tells what moves by itself too.
        changes_only: leaves out what is there at first.
        queue: bytes that the kernel keeps while nobody reads. Where it ran over there is an event `lost`, all links
            are asked for again, and what came, went or changed meanwhile follows.
        lenient: an attribute that is refused hides none of the others, as with `Watch`.
        dumps: tells `done` and `again`, as with `Watch`.

        The stream raises KernelError where a dump is refused, and what `Watch` raises.
        """
        if every is not None and not every > 0:
            raise ValueError(f"every: {every!r} is no time above 0")
        watch = Watch(counters, changes_only, os.uname().release, lenient, dumps)
        groups = [_RTNLGRP_LINK, *([_RTNLGRP_IPV6_IFINFO] if AF_INET6 in families else [])]
        it = self._made(groups, queue)
        watching = _Watching(it, _Dumps(it.port, families, None, True), watch, every)
        return Stream(it, watching.read, watching.next_due)
