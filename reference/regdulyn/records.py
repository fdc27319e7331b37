"""Records of files and messages: the marks, taking fields off the left, and
filling a lent buffer.

A record is a two-byte mark and then fields, lowest byte first. The order of
refusals within a record is mark cut (1), mark not due (2), rest cut (1), so
a reader takes the mark, then the whole rest, and only then looks at fields.
"""

import struct

from .refusals import Refusal

FRAME = b"FR"
SURVIVOR = b"SV"
FAULT = b"FL"
PROPOSAL = b"PW"
CRASH = b"CR"
END = b"EN"
KNOWN = b"KW"
DECIDE = b"DW"

MASK_WIDTH = 8
PATTERN_WIDTH = 4

# The width of the pattern numbers in each record that has some: the old ones, of
# two bytes, are still read, also among the others, and never written.
PROPOSAL_WIDTHS = {b"PR": 2, PROPOSAL: PATTERN_WIDTH}
KNOWN_WIDTHS = {b"KN": 2, KNOWN: PATTERN_WIDTH}
DECIDE_WIDTHS = {b"DC": 2, DECIDE: PATTERN_WIDTH}

_FORMATS = {2: "H", 4: "I"}


def number(field: bytes) -> int:
    """A field of several bytes as a number."""
    return int.from_bytes(field, "little")


def numbers_of(fields: bytes, width: int) -> tuple[int, ...]:
    """Fields of one width, one after the other, as numbers."""
    return struct.unpack(f"<{len(fields) // width}{_FORMATS[width]}", fields)


def field(value: int, width: int) -> bytes:
    """A number as a field of the given width."""
    return value.to_bytes(width, "little")


def fill(buffer: bytearray, start: int, output: bytes) -> int:
    """Puts the output into a lent buffer, or 14 if it has no room from
    `start` on; returns the place after the output."""
    end = start + len(output)
    if end > len(buffer):
        raise Refusal(14)
    buffer[start:end] = output
    return end


class Reader:
    """Bytes read from the left; `rest` is what has not been taken."""

    def __init__(self, data: bytes):
        self.rest = bytes(data)

    def take(self, length: int) -> bytes:
        """The next bytes, or 1 if they end too soon."""
        if len(self.rest) < length:
            raise Refusal(1)
        taken, self.rest = self.rest[:length], self.rest[length:]
        return taken

    def stands(self, *marks: bytes) -> bool:
        """Whether the next mark, which is not taken, is one of these; a cut one is none."""
        return self.rest[:2] in marks

    def mark(self, *due: bytes) -> bytes:
        """The next mark, or 2 if it is none of those due here."""
        mark = self.take(2)
        if mark not in due:
            raise Refusal(2)
        return mark

    def end(self) -> None:
        """7 if bytes are left."""
        if self.rest:
            raise Refusal(7)
