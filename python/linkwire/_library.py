"""The shared library, and what its numbers mean."""

import ctypes
import os
from typing import Any, List, Optional, Set, Tuple

OUT_OF_MEMORY, NO_ROOM = -18, -19

# what linkshow calls each refusal, and the phrase of linkwire.h
CAUSES = {
    -1: ("too-short", "a header or record with too few bytes"),
    -2: ("frame-short", "too few bytes for the header of an attribute"),
    -3: ("frame-over", "an attribute that passes the end of its list"),
    -4: ("frame-under", "an attribute shorter than its header"),
    -5: ("empty-list", "an empty list that needs a member"),
    -6: ("wrong-length", "a number or address of a wrong length"),
    -7: ("not-utf8", "a text that is not UTF-8"),
    -16: ("unfit", "an attribute that would be too long"),
    -17: ("empty-ports", "an empty list of ports"),
}


class Path(ctypes.Structure):
    """`struct linkwire_path` of linkwire.h."""

    _fields_ = [("at", ctypes.c_size_t), ("depth", ctypes.c_size_t), ("numbers", ctypes.c_uint16 * 4)]


class Frame(ctypes.Structure):
    """`struct linkwire_attribute` of linkwire.h."""

    _fields_ = [("kind", ctypes.c_uint16), ("payload", ctypes.c_size_t), ("payload_len", ctypes.c_size_t)]


class Refused(ctypes.Structure):
    """`struct linkwire_refusal` of linkwire.h."""

    _fields_ = [("offset", ctypes.c_size_t), ("fault", ctypes.c_int32), ("is_attribute", ctypes.c_uint32),
                ("attribute", Frame), ("path", Path)]


_NAME = "liblinkwire.so.0"
_bytes, _size, _length = ctypes.c_char_p, ctypes.c_size_t, ctypes.c_ssize_t
_i32, _u32 = ctypes.c_int32, ctypes.c_uint32
_MEASURES, _WRITES = [_bytes, _size], [_bytes, _size, _bytes, _size]
_SIGNATURES: Tuple[Tuple[str, Any, List[Any]], ...] = (
    ("linkwire_check", _i32, [_bytes, _size]),
    ("linkwire_canonical_len", _length, _MEASURES),
    ("linkwire_canonical", _length, _WRITES),
    ("linkwire_state", _length, _WRITES),
    ("linkwire_canonical_lenient_len", _length, _MEASURES),
    ("linkwire_canonical_lenient", _length, _WRITES),
    ("linkwire_state_lenient", _length, _WRITES),
    ("linkwire_same_message", _i32, [_bytes, _size, _bytes, _size]),
    ("linkwire_same_state", _i32, [_bytes, _size, _bytes, _size]),
    ("linkwire_fault_path", _i32, [_bytes, _size, ctypes.POINTER(Path)]),
    ("linkwire_refusal_next", _i32, [_bytes, _size, ctypes.POINTER(_size), ctypes.POINTER(Refused)]),
    ("linkwire_canonical_form", _u32, []),
    ("linkwire_state_form", _u32, []),
    ("linkwire_lenient_form", _u32, []),
    ("linkwire_order", _u32, [_bytes, _size]),
    ("linkwire_show", _length, [_bytes, _size, _u32, _u32, _bytes, _size]),
    ("linkwire_diff", _length, [_bytes, _size, _bytes, _size, _u32, _u32, _bytes, _size]),
)


def _find() -> str:
    """Where the library is: what LINKWIRE in the environment names, else beside this file, else where ld.so looks."""
    named = os.environ.get("LINKWIRE")
    beside = os.path.join(os.path.dirname(os.path.abspath(__file__)), _NAME)
    return named or (beside if os.path.exists(beside) else _NAME)


def _why(path: str, error: str) -> str:
    """What to do where the library does not load."""
    if path == os.environ.get("LINKWIRE"):
        return f"linkwire: LINKWIRE names a library that does not load: {error}"
    if path == _NAME and _NAME in error and "No such file" in error:
        return (f"linkwire: no shared library: install {_NAME} (Debian: liblinkwire0), or a C compiler and then this "
                f"package again, or name it by LINKWIRE ({error})")
    return (f"linkwire: the shared library is there and does not load: {error}: it may be of another processor or C "
            f"library, as by a cross compiler in CC: install this package again here, or name another by LINKWIRE")


def _lacking(path: str, name: str) -> Any:
    def fails(*_: Any) -> Any:
        raise NotImplementedError(f"linkwire: {path} has no {name}: it is older than this package")

    return fails


class _Library:
    """The functions of linkwire.h. One that the library lacks raises NotImplementedError."""

    def __init__(self, path: str) -> None:
        try:
            found = ctypes.CDLL(path)
        except OSError as error:
            raise ImportError(_why(path, str(error))) from None
        self.path = path
        self.lacks: Set[str] = set()
        for name, result, arguments in _SIGNATURES:
            function: Any = getattr(found, name, None)
            if function is None:
                self.lacks.add(name)
                function = _lacking(path, name)
            else:
                function.restype, function.argtypes = result, arguments
            setattr(self, name, function)

    def __getattr__(self, name: str) -> Any:
        raise AttributeError(name)


library = _Library(_find())


_ROOM = 1 << 16
_rooms: List[Any] = []  # for what calls write, those that nobody uses


def _room() -> Any:
    """Room for what a call writes. It is of nobody else until it is put back: another thread, a finalizer or a signal
    handler that calls meanwhile has one of its own."""
    try:
        return _rooms.pop()
    except IndexError:
        return ctypes.create_string_buffer(_ROOM)


def text_of(call: Any, *arguments: Any) -> Tuple[int, Optional[bytes]]:
    """What a call returns, and what it writes; it says how long that is where the room is too short."""
    room = out = _room()
    length: int = call(*arguments, out, _ROOM)
    if length > _ROOM:
        out = ctypes.create_string_buffer(length)
        length = call(*arguments, out, length)
    found = out[:length] if length >= 0 else None
    _rooms.append(room)
    return length, found


def encoding_of(call: Any, measure: Any, message: bytes) -> Tuple[int, Optional[bytes]]:
    """What a call that writes an encoding returns, and what it writes."""
    room = out = _room()
    length: int = call(message, len(message), out, _ROOM)
    if length == NO_ROOM:
        out = ctypes.create_string_buffer(measure(message, len(message)))
        length = call(message, len(message), out, len(out))
    found = out[:length] if length >= 0 else None
    _rooms.append(room)
    return length, found
