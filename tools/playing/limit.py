"""Lowers the most memory that a module of WebAssembly takes, which its memory section says.

The form of a module is that of the WebAssembly Core Specification 2.0, 5.5: sections with a number and a length, and in
the memory section (5.5.7) a number of memories, each with limits (5.3.7) in pages of 64 KiB.
"""
from __future__ import annotations

MAGIC = b"\0asm\1\0\0\0"
MEMORY_SECTION = 5
HAS_MOST = 1
PAGE = 65_536


class NoLimit(Exception):
    """A module that isn't one with a memory of its own that has a limit."""


def _read(data: bytes, at: int) -> tuple[int, int]:
    """A number in LEB128, and where it ends."""
    value, shift = 0, 0
    while True:
        byte = data[at]
        value |= (byte & 0x7F) << shift
        at, shift = at + 1, shift + 7
        if byte < 0x80:
            return value, at


def _written(value: int) -> bytes:
    """A number in LEB128."""
    made = bytearray()
    while value >= 0x80:
        made.append(value & 0x7F | 0x80)
        value >>= 7
    return bytes([*made, value])


def limited(module: bytes, most: int) -> bytes:
    """The module with a memory of so many bytes at most, or of less where it says so itself."""
    if not module.startswith(MAGIC):
        raise NoLimit("no module of WebAssembly")
    at = len(MAGIC)
    while at < len(module):
        number, start = module[at], at
        length, at = _read(module, at + 1)
        if number == MEMORY_SECTION:
            count, here = _read(module, at)
            if count != 1 or module[here] != HAS_MOST:
                break
            least, here = _read(module, here + 1)
            said, here = _read(module, here)
            limits = b"\1" + bytes([HAS_MOST]) + _written(least) + _written(min(said, most // PAGE))
            return module[:start] + bytes([MEMORY_SECTION]) + _written(len(limits)) + limits + module[here:]
        at += length
    raise NoLimit("the module has no memory of 32 bits with a limit")
