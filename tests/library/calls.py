"""A host of the library, by its calls by lines."""

from __future__ import annotations

import ctypes
from pathlib import Path

CALLS = ["wb_add", "wb_ask", "wb_block", "wb_came", "wb_came_from", "wb_close", "wb_due", "wb_event", "wb_gone", "wb_line", "wb_open", "wb_tick",
         "wb_version", "wb_wall"]


class Held(ctypes.Structure):
    _fields_ = [("at", ctypes.c_void_p), ("is_open", ctypes.c_bool)]


class Host:
    """A host of the library, by its calls by lines."""

    def __init__(self, library: Path) -> None:
        self.calls = ctypes.CDLL(str(library / "lib/libwb.so.0"))
        for call in CALLS:
            getattr(self.calls, call).restype = ctypes.c_uint32
        self.held = Held(None, False)

    def open(self) -> int:
        return int(self.calls.wb_open(ctypes.byref(self.held)))

    def close(self) -> None:
        self.calls.wb_close(ctypes.byref(self.held))

    def line(self, line: bytes, room: int) -> tuple[int, int, bytes]:
        """The status, the size that was given back, and the whole buffer, which was full of dots."""
        buffer, size = ctypes.create_string_buffer(b"." * room, max(room, 1)), ctypes.c_size_t(77)
        status = self.calls.wb_line(ctypes.byref(self.held), line, ctypes.c_size_t(len(line)), buffer, ctypes.c_size_t(room), ctypes.byref(size))
        return int(status), size.value, buffer.raw[:room]

    def block(self, room: int) -> tuple[int, int, bytes]:
        buffer, size = ctypes.create_string_buffer(b"." * room, max(room, 1)), ctypes.c_size_t(77)
        status = self.calls.wb_block(ctypes.byref(self.held), buffer, ctypes.c_size_t(room), ctypes.byref(size))
        return int(status), size.value, buffer.raw[:room]
