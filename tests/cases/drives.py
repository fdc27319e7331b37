"""One drive's calls: opening, send, message, close, on states that a run
leaves and on handmade ones, with numbers of either width."""

from dataclasses import replace
from itertools import product
from typing import Iterator

import regdulyn
from regdulyn import Exchange

from . import A_SETS, Case, refusal


def known(sender: int, round_number: int, numbers: dict[int, int], width: int = 2) -> bytes:
    """A KN, or with width 4 a KW."""
    mask = sum(1 << drive - 1 for drive in numbers)
    values = b"".join(numbers[drive].to_bytes(width, "little") for drive in sorted(numbers))
    head = bytes([sender, round_number]) + mask.to_bytes(8, "little")
    return (b"KN" if width == 2 else b"KW") + head + values


def decide(sender: int, round_number: int, value: int, width: int = 2) -> bytes:
    """A DC, or with width 4 a DW."""
    mark = b"DC" if width == 2 else b"DW"
    return mark + bytes([sender, round_number]) + value.to_bytes(width, "little")


def opened(own: int, pattern: int = 7) -> Exchange:
    """A drive of case A's frame, whose core is 7."""
    return regdulyn.opening(6, A_SETS, own, pattern)


def numbers(values: dict[int, int]) -> list[int]:
    return [values.get(drive, 0) for drive in range(1, 65)]


def opening_cases() -> Iterator[Case]:
    yield "opened core drive", opened(2), Exchange(
        n=6, own=2, core=7, round=1, heard_before=7, heard=0, known=2, known_at_start=2,
        numbers=numbers({2: 7}), announcement=None, decision=None, halted=False)
    yield "opened listener", opened(5), Exchange(
        n=6, own=5, core=7, round=1, heard_before=7, heard=0, known=0, known_at_start=0,
        numbers=numbers({}), announcement=None, decision=None, halted=False)


def broken_states() -> Iterator[tuple[str, Exchange]]:
    good = opened(2)
    changes = [
        {"n": 0}, {"n": 65}, {"core": 0}, {"core": 0x47}, {"known": 1}, {"known_at_start": 4},
        {"known_at_start": 0}, {"own": 0}, {"own": 7}, {"own": 255}, {"round": 0}, {"round": 4},
        {"heard": 8}, {"heard_before": 8}, {"known": 0xA}, {"known_at_start": 0xA}, {"n": 2},
    ]
    for change in changes:
        yield str(change), replace(good, **change)
        yield f"halted {change}", replace(good, halted=True, **change)
    yield "listener knows itself", replace(opened(5), known=0x10)


def whole_states() -> Iterator[tuple[str, Exchange]]:
    """States that no run leaves, and that meet no 28 all the same."""
    good = opened(2)
    changes = [
        {"known": 2, "known_at_start": 7}, {"heard": 5, "heard_before": 0}, {"decision": 9},
        {"announcement": (200, 3)}, {"numbers": numbers({2: 1, 50: 9})}, {"heard": 2},
        {"core": 6, "heard_before": 0}, {"round": 3},
    ]
    for change in changes:
        yield str(change), replace(good, **change)


def state_refusals() -> Iterator[Case]:
    junk = b"X"
    for name, state in broken_states():
        yield f"28 send: {name}", refusal(regdulyn.send, state), 28
        yield (f"28 send into nothing: {name}",
               refusal(regdulyn.send_into, state, bytearray(), 0), 28)
        yield f"28 message: {name}", refusal(regdulyn.message, state, junk), 28
        yield f"28 close: {name}", refusal(regdulyn.close, state), 28
    for name, state in whole_states():
        yield f"no 28 send: {name}", refusal(regdulyn.send, state), 0
        yield f"no 28 message: {name}", refusal(regdulyn.message, state, junk), 1
        yield f"no 28 close: {name}", refusal(regdulyn.close, state), 0
    for own in (2, 5):
        halted = replace(opened(own), halted=True)
        yield f"23 send {own}", refusal(regdulyn.send_into, halted, bytearray(), 0), 23
        yield f"23 message {own}", refusal(regdulyn.message, halted, junk), 23
        yield f"23 close {own}", refusal(regdulyn.close, halted), 23


def send_cases() -> Iterator[Case]:
    """Drives send four-byte numbers, also those that need only two."""
    state = replace(opened(2), known=7, known_at_start=6,
                    numbers=numbers({1: 1, 2: 258, 3: 0x04030201}))
    text = b"KW\2\1\6" + bytes(7) + b"\2\1\0\0\1\2\3\4"
    yield "send KW", regdulyn.send(state), text
    for decision, value in ((513, b"\1\2\0\0"), (65535, b"\xff\xff\0\0"), (65536, b"\0\0\1\0"),
                            (2 ** 32 - 1, b"\xff" * 4), (0, bytes(4))):
        sent = regdulyn.send(replace(state, decision=decision, round=3))
        yield f"send DW of {decision}", sent, b"DW\2\3" + value
    everything = replace(opened(1), n=64, core=2 ** 64 - 1, heard_before=0, known=2 ** 64 - 1,
                         known_at_start=2 ** 64 - 1)
    yield "the longest message", len(regdulyn.send(everything)), 268
    yield "listener", refusal(regdulyn.send, opened(5)), 27
    yield "listener, no room", refusal(regdulyn.send_into, opened(5), bytearray(), 9), 27
    for start, size, expected in ((0, 20, 0), (3, 23, 0), (3, 34, 0), (0, 19, 14), (4, 23, 14),
                                  (23, 23, 14), (29, 23, 14), (0, 16, 14)):
        buffer = bytearray(b"\xaa" * size)
        number = refusal(regdulyn.send_into, state, buffer, start)
        good = bytearray(b"\xaa" * size)
        if not expected:
            good[start:start + 20] = text
        yield f"send at {start} of {size}", (number, buffer), (expected, good)


def message_refusals() -> Iterator[Case]:
    """Drive 2 of case A in round 2, which missed drive 3 in round 1, knows
    drives 1 and 2, and has heard drive 1 already."""
    state = replace(opened(2), round=2, heard_before=3, heard=1, known=3, known_at_start=3,
                    numbers=numbers({1: 4, 2: 7}))
    fresh = replace(state, heard=0)
    cases = [
        (state, b"", 1), (state, b"K", 1), (state, b"KX", 2), (state, b"FR", 2),
        (state, b"KN" + bytes(9), 1), (state, b"DC" + bytes(3), 1), (state, b"DC\0\2\0", 1),
        (state, decide(0, 9, 0) + b"X", 8), (state, decide(7, 9, 0), 8),
        (state, known(7, 9, {7: 1})[:12], 8), (state, known(1, 9, {2: 1})[:12], 15),
        (state, known(1, 9, {1: 1, 7: 1})[:12], 15), (state, known(1, 9, {1: 1, 64: 1}), 15),
        (state, known(1, 9, {1: 1, 2: 1})[:15], 1), (state, known(1, 9, {1: 1})[:12], 1),
        (state, known(1, 9, {1: 1}) + b"X", 7), (state, decide(5, 9, 0) + b"X", 7),
        (state, known(2, 9, {2: 1}), 22), (state, decide(2, 9, 1), 22),
        (state, decide(4, 9, 1), 22), (state, known(4, 9, {4: 1}), 22),
        (state, known(1, 9, {1: 1, 4: 1}), 22), (state, known(3, 1, {3: 1}), 26),
        (state, known(1, 3, {1: 1}), 26), (state, decide(1, 255, 1), 26),
        (state, known(3, 2, {3: 1, 1: 9}), 24), (state, decide(3, 2, 1), 24),
        (state, known(1, 2, {1: 9}), 21), (state, decide(1, 2, 1), 21),
        (fresh, known(1, 2, {1: 9}), 25), (fresh, known(1, 2, {1: 4, 2: 8}), 25),
        (fresh, known(1, 2, {1: 4, 2: 7, 3: 1}), 0), (fresh, decide(1, 2, 9), 0),
        (replace(fresh, heard_before=7, heard=4), known(3, 2, {3: 1, 1: 9}), 21),
    ]
    for subject, data, expected in cases:
        yield f"message {data.hex()}", refusal(regdulyn.message, subject, data), expected
    yield from wide_message_refusals(state, fresh)


def wide_message_refusals(state: Exchange, fresh: Exchange) -> Iterator[Case]:
    """The same with KW and DW."""
    two = known(1, 2, {1: 4, 2: 7}, 4)
    cases = [
        (state, b"KW" + bytes(9), 1), (state, b"DW" + bytes(5), 1), (state, b"DW\0\2\0\0\0", 1),
        (state, decide(0, 9, 0, 4) + b"X", 8), (state, decide(7, 9, 0, 4), 8),
        (state, known(7, 9, {7: 1}, 4)[:12], 8), (state, known(1, 9, {2: 1}, 4)[:12], 15),
        (state, known(1, 9, {1: 1, 7: 1}, 4)[:12], 15), (state, known(1, 9, {1: 1}, 4)[:12], 1),
        (state, known(1, 9, {1: 1}, 4) + b"X", 7), (state, decide(5, 9, 0, 4) + b"X", 7),
        (state, known(2, 9, {2: 1}, 4), 22), (state, decide(2, 9, 1, 4), 22),
        (state, known(1, 9, {1: 1, 4: 1}, 4), 22), (state, known(3, 1, {3: 1}, 4), 26),
        (state, decide(1, 255, 1, 4), 26), (state, known(3, 2, {3: 1, 1: 9}, 4), 24),
        (state, decide(3, 2, 1, 4), 24), (state, known(1, 2, {1: 9}, 4), 21),
        (state, decide(1, 2, 1, 4), 21), (fresh, known(1, 2, {1: 9}, 4), 25),
        (fresh, known(1, 2, {1: 4, 2: 8}, 4), 25), (fresh, known(1, 2, {1: 4, 2: 7, 3: 1}, 4), 0),
        (fresh, decide(1, 2, 2 ** 32 - 1, 4), 0),
        # Cut at every length, and one byte more; two numbers of the other width.
        *((fresh, two[:length], 1) for length in range(20)), (fresh, two, 0), (fresh, two + b"X", 7),
        *((fresh, decide(1, 2, 9, 4)[:length], 1) for length in range(8)),
        (fresh, b"KW" + known(1, 2, {1: 4, 2: 7})[2:], 1), (fresh, b"KN" + two[2:], 7),
        (fresh, b"DW" + decide(1, 2, 9)[2:], 1), (fresh, b"DC" + decide(1, 2, 9, 4)[2:], 7),
        # The records of files are no messages.
        (fresh, b"PW\1\7\0\0\0", 2), (fresh, b"PR\1\7\0", 2), (fresh, b"EN\0", 2),
    ]
    for subject, data, expected in cases:
        yield f"message {data.hex()}", refusal(regdulyn.message, subject, data), expected


def value_cases() -> Iterator[Case]:
    """25 compares values: drive 3's number, as drive 1 told it, told again by a drive that has
    the same one, or one that differs in any bit."""
    state = opened(2)
    for first, second in product((2, 4), repeat=2):
        learnt = regdulyn.message(state, known(1, 1, {1: 4, 3: 7}, first))
        yield f"7 by {first} bytes", learnt.numbers, numbers({1: 4, 2: 7, 3: 7})
        yield (f"7 by {first} and {second} bytes",
               refusal(regdulyn.message, learnt, known(3, 1, {3: 7}, second)), 0)
        for place in range(8 * second):
            other = known(3, 1, {3: 7 ^ 1 << place}, second)
            yield (f"7 by {first} bytes, bit {place} of {second} bytes",
                   refusal(regdulyn.message, learnt, other), 25)
    high = regdulyn.message(state, known(1, 1, {1: 4, 3: 65543}, 4))
    yield "65543 and 7", refusal(regdulyn.message, high, known(3, 1, {3: 7})), 25
    yield "65543 and itself", refusal(regdulyn.message, high, known(3, 1, {3: 65543}, 4)), 0
    yield "two low bytes decide nothing", regdulyn.close(regdulyn.message(
        high, known(3, 1, {1: 4, 2: 7, 3: 65543}, 4))).decision, 4


def message_cases() -> Iterator[Case]:
    state = opened(2)
    kn = regdulyn.message(state, known(3, 1, {3: 9}))
    yield "KN adds", kn, replace(state, heard=4, known=6, numbers=numbers({2: 7, 3: 9}))
    dc = regdulyn.message(kn, decide(1, 1, 20))
    yield "DC adds no number", dc, replace(kn, heard=5, announcement=(1, 20))
    yield "KW adds the same", regdulyn.message(state, known(3, 1, {3: 9}, 4)), kn
    yield "DW adds the same", regdulyn.message(kn, decide(1, 1, 20, 4)), dc
    largest = regdulyn.message(state, known(3, 1, {3: 2 ** 32 - 1}, 4))
    yield "the largest number", largest.numbers, numbers({2: 7, 3: 2 ** 32 - 1})
    yield ("the largest number told", regdulyn.message(state, decide(1, 1, 2 ** 32 - 1, 4)).announcement,
           (1, 2 ** 32 - 1))
    high = regdulyn.message(opened(5), decide(3, 1, 30))
    low = regdulyn.message(high, decide(1, 1, 10))
    yield "lowest DC sender, later", low.announcement, (1, 10)
    other = regdulyn.message(regdulyn.message(opened(5), decide(1, 1, 10)), decide(3, 1, 30))
    yield "lowest DC sender, earlier", other, low
    learnt = regdulyn.message(state, known(1, 1, {1: 4, 3: 9}))
    yield ("25 with a number learnt in this round",
           refusal(regdulyn.message, learnt, known(3, 1, {3: 8})), 25)
    decided = replace(state, decision=1)
    yield "decided drive accepts", refusal(regdulyn.message, decided, decide(1, 1, 3)), 0


def close_cases() -> Iterator[Case]:
    state = opened(2)
    part = regdulyn.message(state, known(1, 1, {1: 8}))
    full_house = regdulyn.message(part, known(3, 1, {3: 5}))
    base = replace(full_house, heard=0, known_at_start=7)
    yield "quiet", regdulyn.close(full_house), replace(base, round=2, decision=5)
    yield "goes on", regdulyn.close(part), replace(
        part, round=2, heard=0, heard_before=3, known_at_start=3)
    told = regdulyn.message(regdulyn.message(state, decide(3, 1, 60)), known(1, 1, {1: 1}))
    yield "DC before quiet", regdulyn.close(told).decision, 60
    decided = regdulyn.close(full_house)
    after = regdulyn.close(regdulyn.message(decided, decide(1, 2, 99)))
    yield "keeps its number and halts", (after.decision, after.halted, after.round), (5, True, 2)
    yield "last round halts undecided", regdulyn.close(replace(part, round=3)), replace(
        part, round=3, heard=0, heard_before=3, known_at_start=3, halted=True)
    silent = replace(opened(5), heard_before=0)
    yield "nobody heard", regdulyn.close(silent), replace(silent, round=2)
    known_before = replace(silent, known=3, known_at_start=3, numbers=numbers({1: 4, 2: 5}))
    yield "nobody heard, numbers known", regdulyn.close(known_before), replace(
        known_before, round=2)
    quiet = replace(opened(5), heard_before=1, heard=1)
    yield "quiet with nothing known", regdulyn.close(quiet), replace(
        quiet, round=2, heard=0)
    listener = replace(opened(5), heard=7, known=3, numbers=numbers({1: 0, 2: 65535}))
    yield "listener halts on deciding", regdulyn.close(listener), replace(
        listener, heard=0, known_at_start=3, decision=0, halted=True)
    for low, high in ((65535, 65536), (65537, 65792), (7, 65536), (2 ** 31, 2 ** 32 - 1)):
        for given in ({1: low, 2: high}, {1: high, 2: low}):
            both = replace(listener, numbers=numbers(given))
            yield f"smallest of {given}", regdulyn.close(both).decision, low
    handmade = replace(opened(5), decision=9, announcement=(1, 3))
    yield "decided listener", regdulyn.close(handmade), replace(
        handmade, heard_before=0, announcement=None, halted=True)
