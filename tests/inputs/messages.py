"""Messages that fit a state, or nearly, with numbers of either width, and faults put into
messages."""

from random import Random

from regdulyn import Exchange

from .damage import BYTE_DAMAGE
from .frames import places
from .records import MARKS, OLD_PATTERNS, UNKNOWN_MARKS
from .scenarios import any_pattern


def head(rng: Random, x: Exchange, sender: int) -> bytes:
    """Sender and round of a message, mostly due ones."""
    round_number = rng.choice((x.round,) * 8 + (0, x.round + 1, x.round - 1, 64, 255))
    return bytes([sender % 256, round_number % 256])


def some_drives(rng: Random, mask: int) -> int:
    """Any part of a set, often a small or large one."""
    chance = rng.choice((0.1, 0.5, 0.9, 1))
    return sum(1 << place for place in places(mask) if rng.random() < chance)


def number_for(rng: Random, x: Exchange, place: int) -> int:
    """Mostly the number that is held for the drive, known or not; else any, or one that differs
    from it in one bit."""
    if rng.random() < 0.97:
        return x.numbers[place]
    return rng.choice((any_pattern(rng), x.numbers[place] ^ 1 << rng.randrange(32)))


def pattern_bytes(pattern: int, width: int) -> bytes:
    """The number, or of one that is too large its low bytes."""
    return (pattern % (1 << 8 * width)).to_bytes(width, "little")


def any_sender(rng: Random, x: Exchange) -> int:
    """Mostly a core drive that is not oneself."""
    others = [place + 1 for place in places(x.core) if place + 1 != x.own] or [x.own]
    odd = (x.own, 0, x.n, x.n + 1, 65, 255, rng.randint(1, 64))
    return rng.choice(others if rng.random() < 0.85 else odd)


def made_known(rng: Random, x: Exchange) -> bytes:
    """A KN or KW that fits the state, or nearly: of a number that a KN cannot have it has the two
    low bytes."""
    sender = any_sender(rng, x)
    mask = some_drives(rng, x.core)
    if rng.random() < 0.95 and 1 <= sender <= 64:
        mask |= 1 << sender - 1
    if rng.random() < 0.1:
        mask |= 1 << rng.choice((rng.randrange(64), min(x.n, 63)))
    numbers = [number_for(rng, x, place) for place in places(mask)]
    old = rng.random() < (0.5 if all(value < OLD_PATTERNS for value in numbers) else 0.1)
    values = [pattern_bytes(value, 2 if old else 4) for value in numbers]
    return ((b"KN" if old else b"KW") + head(rng, x, sender) + mask.to_bytes(8, "little") +
            b"".join(values))


def made_decide(rng: Random, x: Exchange) -> bytes:
    mark, width = rng.choice(((b"DC", 2), (b"DW", 4)))
    return mark + head(rng, x, any_sender(rng, x)) + pattern_bytes(any_pattern(rng), width)


def as_old(data: bytes) -> bytes:
    """A sent message as a KN or DC with the same numbers, where these are not too large."""
    start = 12 if data[:2] == b"KW" else 4
    numbers = [data[at:at + 4] for at in range(start, len(data), 4)]
    if any(number[2:] != b"\0\0" for number in numbers):
        return data
    mark = b"KN" if data[:2] == b"KW" else b"DC"
    return mark + data[2:start] + b"".join(number[:2] for number in numbers)


def made_message(rng: Random, x: Exchange) -> bytes:
    return (made_known if rng.random() < 0.6 else made_decide)(rng, x)


def damaged_message(rng: Random, data: bytes) -> bytes:
    """Another mark, a cut, more behind, or bytes changed."""
    if rng.random() < 0.2:
        data = rng.choice(MARKS + UNKNOWN_MARKS) + data[2:]
    if rng.random() < 0.2:
        return data[:rng.choice((0, 1, 2, 3, 4, 5, 6, 7, 11, 12, 13, len(data) - 1, len(data) - 2))]
    for _ in range(rng.choice((1, 1, 2))):
        data = rng.choice(BYTE_DAMAGE)(rng, data)
    return data
