"""What a socket says, as a stream: for loops, for asyncio, and for loops of one's own."""

import select
import socket
import threading
import time
from collections import deque
from typing import TYPE_CHECKING, Any, AsyncIterator, Callable, Deque, Generic, Iterator, List, Optional, TypeVar

from ._sockets import Socket

if TYPE_CHECKING:
    import asyncio

T = TypeVar("T")

STEP = .002  # seconds of reading in one go
_TURN = .004  # seconds after which other tasks have theirs
_LONGEST = 1e6  # seconds that are waited in one go


class Stream(Generic[T]):
    """What a socket says, for `for` and for `async for`; it ends with `close`, or as a context manager does.

    A stream is read by one thread or task at a time, and closed by any. An exception ends no stream: the next turn goes
    on. In asyncio other tasks have their turn each five milliseconds, however much there is to be read.
    """

    def __init__(self, it: Socket, read: Callable[[], Optional[List[T]]], due: Callable[[], Optional[float]]) -> None:
        self._socket, self._read, self._due = it, read, due  # what is read in one go, None where there is nothing
        self._ready: Deque[T] = deque()
        self._lock, self._users, self._is_closed, self._turned = threading.RLock(), 0, False, 0.0
        self._hears, self._rings = socket.socketpair()  # what wakes who waits
        self._poll = select.poll()
        for one in it.it, self._hears:
            self._poll.register(one, select.POLLIN)

    def fileno(self) -> int:
        """The number of the socket, for select(2) and its like; -1 where it is closed."""
        return -1 if self._is_closed else self._socket.it.fileno()

    def close(self) -> None:
        """Ends it, and the turn of a thread or task that waits for it: it has no more."""
        with self._lock:
            if self._is_closed:
                return
            self._is_closed = True
            if self._users:  # who reads closes the sockets, after having done with them
                self._rings.send(b"\0")
            else:
                self._release()

    def _release(self) -> None:
        for it in self._socket.it, self._hears, self._rings:
            it.close()
        self._ready.clear()

    def _enters(self) -> bool:
        """Takes the sockets into use, if it is not closed."""
        with self._lock:
            self._users += not self._is_closed
            return not self._is_closed

    def _leaves(self) -> None:
        with self._lock:
            self._users -= 1
            if self._is_closed and not self._users:
                self._release()

    def __enter__(self) -> "Stream[T]":
        return self

    def __exit__(self, *_: Any) -> None:
        self.close()

    def due(self) -> Optional[float]:
        """Seconds until `ready` has something to do without a datagram: 0.0 where it has now, as after its limit; None
        where it has never. For loops of one's own, beside `fileno`."""
        due = 0.0 if self._ready else self._due()
        return None if due is None else min(_LONGEST, max(0.0, due - time.monotonic()))

    def ready(self, limit: float = .1) -> List[T]:
        """What there is now, without waiting.

        limit: seconds after which it returns what it has, though there be more: the kernel may announce faster than
            anybody reads. With 0 it reads once.
        """
        end = time.monotonic() + limit
        if self._enters():
            try:
                while self._reads() and time.monotonic() < end:
                    pass
            finally:
                self._leaves()
        there = list(self._ready)
        self._ready.clear()
        return there

    def _reads(self) -> bool:
        found = None if self._is_closed else self._read()
        self._ready.extend(found or ())
        return found is not None

    def __iter__(self) -> Iterator[T]:
        return self

    def __next__(self) -> T:
        while True:
            try:
                return self._ready.popleft()
            except IndexError:
                if not self._enters():
                    raise StopIteration from None
            try:
                left = self.due()
                self._poll.poll(None if left is None else 1000 * left)
                self._reads()
            finally:
                self._leaves()

    def __aiter__(self) -> AsyncIterator[T]:
        return self

    async def __anext__(self) -> T:
        import asyncio  # which takes longer to import than all of this package

        if time.monotonic() >= self._turned + _TURN:
            await asyncio.sleep(0)
            self._turned = time.monotonic()
        while True:
            try:
                return self._ready.popleft()
            except IndexError:
                if not self._enters():
                    raise StopAsyncIteration from None
            try:
                left = self.due()
                if left == 0.0:
                    await asyncio.sleep(0)
                else:
                    await self._waits(asyncio.get_running_loop(), left)
                self._turned = time.monotonic()
                self._reads()
            finally:
                self._leaves()

    async def _waits(self, loop: "asyncio.AbstractEventLoop", left: Optional[float]) -> None:
        awake: "asyncio.Future[None]" = loop.create_future()
        sockets = self._socket.it, self._hears
        timer = None if left is None else loop.call_later(left, _wake, awake)
        for it in sockets:
            loop.add_reader(it.fileno(), _wake, awake)
        try:
            await awake
        finally:
            for it in sockets:
                loop.remove_reader(it.fileno())
            if timer is not None:
                timer.cancel()


def _wake(awake: "asyncio.Future[None]") -> None:
    if not awake.done():
        awake.set_result(None)
