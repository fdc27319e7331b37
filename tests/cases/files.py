"""Refusals of table and run files, and their order."""

from typing import Iterator

import regdulyn
from inputs.records import crash, end, frame, proposal, survivor, table

from . import A_SETS, PATTERNS, Case, refusal


def table_refusals() -> Iterator[Case]:
    whole = table(6, A_SETS)
    ones = b"".join([survivor(1)] * 128)
    crowd = [3 << 2 * pair for pair in range(11)]
    cases = [
        ("one byte", b"X", 1), ("mark only", b"FR", 1), ("other mark", b"XX", 2),
        ("table mark only", b"SV", 2), ("n 0", frame(0), 3), ("n 65 before a cut", frame(65), 3),
        ("EN after FR, cut", frame(6) + b"EN", 2), ("EN after FR", frame(6) + b"EN\0", 2),
        ("half a mark", frame(6) + b"X", 1), ("unknown, cut", frame(6) + b"XX", 2),
        ("SV cut", frame(6) + survivor(0)[:9], 1), ("zero mask", frame(6) + survivor(0), 4),
        ("bit above n", frame(6) + survivor(0x40), 4),
        ("bit above n 64 has none", table(64, [1 << 63]), 0),
        ("4 before a later mark", frame(6) + survivor(0) + b"XX", 4),
        ("second FR", frame(6) + survivor(1) + frame(6), 2),
        ("EN cut", whole[:-1], 1), ("count", whole[:-1] + b"\2", 6),
        ("count before rest", whole[:-1] + b"\2\0", 6), ("rest", whole + b"\0", 7),
        ("repeats count", table(3, [1, 1, 3]), 0),
        ("count without repeats", frame(3) + survivor(1) * 2 + b"EN\1", 6),
        ("128 sets", table(3, [1] * 128), 0), ("129th set", frame(3) + ones + survivor(1), 5),
        ("129th set cut", frame(3) + ones + survivor(1)[:9], 1),
        ("129th set zero", frame(3) + ones + survivor(0), 5),
        ("129 with a zero among the first", table(3, [1] * 5 + [0] + [1] * 123), 4),
        ("crowded", table(22, crowd), 13), ("crowded, rest", table(22, crowd) + b"\0", 7),
        ("crowded, count", table(22, crowd)[:-1] + b"\0", 6),
        ("1024 cores", table(20, crowd[:10]), 0),
    ]
    for name, data, expected in cases:
        yield f"table: {name}", refusal(regdulyn.read_table, data), expected


def rest_cases() -> Iterator[Case]:
    whole = table(6, [0x3C, 2, 1, 3])
    read = regdulyn.read_table_with_rest
    yield "rest handed back", read(whole + b"XYZ"), (6, A_SETS, b"XYZ")
    yield "nothing behind", read(whole), (6, A_SETS, b"")
    yield "count before rest", refusal(read, whole[:-1] + b"\0XYZ"), 6
    crowd = table(22, [3 << 2 * pair for pair in range(11)])
    yield "13 whatever follows", refusal(read, crowd + b"XYZ"), 13
    yield "13 before the run file", regdulyn.run_program(crowd + b"XYZ"), b"refused 13\n"


def run_refusals() -> Iterator[Case]:
    head = b"".join(proposal(d, p) for d, p in enumerate(PATTERNS, start=1))
    wide = b"".join(proposal(d, p, True) for d, p in enumerate(PATTERNS, start=1))
    mixed = b"".join(proposal(d, p, d % 2 == 1) for d, p in enumerate(PATTERNS, start=1))
    touched = head + crash(1, 1, 0) + crash(2, 1, 0) + crash(6, 1, 0)
    cases = [
        ("empty", b"", 1), ("half a mark", b"X", 1), ("EN at once", b"EN\0", 2),
        ("CR at once", b"CR", 2), ("PR cut", b"PR\1\0", 1), ("PR 2 first", proposal(2, 0), 8),
        ("PR 0", proposal(0, 0), 8), ("PR cut before 8", b"PR\7\0", 1),
        ("PR 1 twice", proposal(1, 0) * 2, 8), ("EN before drive 6", head[:25] + b"EN\0", 0),
        ("EN behind the core", head[:15] + b"EN\0", 0), ("EN before drive 3", head[:10] + b"EN\0", 2),
        ("CR before drive 3, cut", head[:10] + b"CR", 2), ("PR 4 before drive 3", head[:10] + head[15:], 8),
        ("PR 7 before drive 6", head[:25] + proposal(7, 0), 8),
        ("PR 7 before drive 6, cut", head[:25] + b"PR\7", 1),
        ("PR 7", head + proposal(7, 0), 2), ("PR 7 cut", head + b"PR", 2),
        ("half a mark after", head + b"C", 1), ("SV", head + b"SV", 2),
        ("CR cut", head + b"CR\1\1", 1), ("CR 0", head + crash(0, 9, 9), 8),
        ("CR 7", head + crash(7, 9, 9), 8), ("round 0", head + crash(1, 0, 9), 9),
        ("round 4", head + crash(1, 4, 9), 9), ("sends 6", head + crash(1, 3, 6), 10),
        ("sends 5", head + crash(1, 3, 5) + end(1), 0),
        ("listener sends 1", head + crash(4, 3, 1), 10),
        ("listener", head + crash(4, 3, 0) + end(1), 0),
        ("listener round 4", head + crash(4, 4, 1), 9),
        ("same drive", head + crash(2, 1, 0) * 2, 8),
        ("falling", head + crash(2, 1, 0) + crash(1, 0, 9), 8),
        ("PR after CR", head + crash(2, 1, 0) + proposal(7, 0), 2),
        ("EN cut", head + b"EN", 1), ("count", head + b"EN\1", 6),
        ("count before rest", head + b"EN\1\0", 6), ("rest", head + b"EN\0\0", 7),
        ("11", touched + end(3), 11),
        ("6 before 11", touched + end(2), 6),
        ("7 before 11", touched + end(3) + b"\0", 7),
        ("two sets untouched", head + crash(1, 1, 0) + end(1), 0),
        ("PW 2 first", proposal(2, 0, True), 8), ("PW 0", proposal(0, 0, True), 8),
        ("PW cut before 8", proposal(7, 0, True)[:6], 1), ("PW 1 twice", proposal(1, 0, True) * 2, 8),
        ("PW 1 after PR 1", proposal(1, 0) + proposal(1, 0, True), 8),
        ("PR 1 after PW 1", proposal(1, 0, True) + proposal(1, 0), 8),
        ("EN before drive 6's PW", wide[:35] + b"EN\0", 0), ("PW 7", head + proposal(7, 0, True), 2),
        ("EN before drive 3's PW", wide[:14] + b"EN\0", 2),
        ("PW 7 cut", head + b"PW", 2), ("PR 7 after PW 6", wide + proposal(7, 0), 2),
        ("PW 7 after PW 6", wide + proposal(7, 0, True), 2),
        ("PW after CR", head + crash(2, 1, 0) + proposal(7, 0, True), 2),
        ("KW", b"KW", 2), ("DW", wide + b"DW", 2), ("all PW", wide + end(0), 0),
        ("PW and PR", mixed + crash(2, 1, 0) + end(1), 0), ("a byte less", wide[:-1] + end(0), 2),
        ("a byte more", wide + b"\0" + end(0), 2), ("PW with two bytes", b"PW" + head[2:], 2),
        ("PR with four bytes", b"PR" + wide[2:], 2),
        *((f"PW cut at {length}", wide[:length], 1) for length in range(1, 7)),
        *((f"second PW cut at {length}", mixed[:length], 1) for length in range(12, 19)),
    ]
    for name, data, expected in cases:
        yield f"run file: {name}", refusal(regdulyn.read_run, data, 6, A_SETS), expected
        text = regdulyn.run_program(table(6, A_SETS) + data)
        shown = b"refused %d\n" % expected
        yield f"run program: {name}", text == shown, expected != 0
