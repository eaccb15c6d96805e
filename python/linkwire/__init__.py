"""Link messages of Linux's route netlink: checked, in one canonical encoding, shown by name, compared, and watched.

A message is what stands after the netlink header: `struct ifinfomsg` of 16 bytes, and attributes (rtnetlink(7)). Calls
take bytes, bytearray or a memoryview; what another thread may write meanwhile is to be copied first. They may run side
by side in any number of threads. docs/PYTHON.md shows how each is used.
"""

from .messages import (CANONICAL_FORM, HEADER_SIZE, LENIENT_FORM, STATE_FORM, Attribute, Bytes, Change, Fault,
                       Refusal, Value, attributes, be16, be32, build, canonical, check, diff, key, mac, number, pick,
                       refusals, same_message, same_state, show, show_all, show_json, state, text, u8, u16, u32, u64)
from ._sockets import KernelError, LostMessages
from .netlink import Announcement, Links
from .streams import Stream
from .views import Settling, Told, View, flat, vlans
from .watching import Event, Line, Watch, read_line
from .wording import Words, escaped, width

__version__ = "0.4.0"
__all__ = [
    "CANONICAL_FORM", "HEADER_SIZE", "LENIENT_FORM", "STATE_FORM", "Announcement", "Attribute", "Bytes", "Change",
    "Event", "Fault", "KernelError", "Line", "Links", "LostMessages", "Refusal", "Settling", "Stream", "Told", "Value",
    "View", "Watch", "Words", "attributes", "be16", "be32", "build", "canonical", "check", "diff", "escaped", "flat",
    "key", "mac", "number", "pick", "read_line", "refusals", "same_message", "same_state", "show", "show_all",
    "show_json", "state", "text", "u8", "u16", "u32", "u64", "vlans", "width",
]
