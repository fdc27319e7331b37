"""Bytes to text and words: what is shown, made again and explained, and what is wrong with bytes that are not."""

from itertools import chain, islice
from pathlib import Path
from random import Random
from typing import Iterator

import failures
import generate
import mistakes
import texts
from inputs.records import MARKS, fault_list, proposal, table, widened
from inputs.scenarios import any_pattern

from . import EXAMPLES, FAULTS, SAID, Case, model, refused_fault_lists, regdulyn

GENERATED = 500

ONE = b"FR\1SV\1" + bytes(7) + b"EN\1"
SIX = b"FR\6SV\1" + bytes(7) + b"EN\1"
GROUP = b"FR\6FL\1" + bytes(7) + b"EN\1"
UNREADABLE = [
    ("empty", b"", 0, "FR is due, and the file ends", 1),
    ("half a mark", b"F", 0, "FR is due, and there is F", 1),
    ("text", b"# a", 0, "FR is due, and there is hex 23 20", 2),
    ("cut frame", b"FR", 0, "FR is cut: 1 bytes are due behind it, and there are 0", 1),
    ("cut set", b"FR\6SV\1\0", 3, "SV is cut: 8 bytes are due behind it, and there are 2", 1),
    ("PR in a table", b"FR\6PR", 3, "SV or FL or EN is due, and there is PR", 2),
    ("FL in a table", ONE[:-3] + b"FL", 13, "SV or EN is due, and there is FL", 2),
    ("count", ONE[:-1] + b"\2", 13, "EN counts 2, and there are 1 SV", 6),
    ("rest", ONE + b"\n", 16, "the table has ended, and what follows starts no run file: hex 0a", 7),
    ("no run", ONE + b"KW", 16, "the table has ended, and what follows starts no run file: KW", 7),
    ("PR of no drive", ONE + b"PR\0\0\0EN\0", 16, "PR of drive 0, and a drive above 0 is due", 8),
    ("PR order", SIX + b"PR\1\0\0PR\1\0\0EN\0", 21, "PR of drive 1, and a drive above 1 is due", 8),
    ("PW order", SIX + b"PW\1\0\0\0\0PW\4\0\0\0\0PW\2\0\0\0\0EN\0", 30,
     "PW of drive 2, and a drive above 4 is due", 8),
    ("PW and PR order", ONE + b"PR\1\0\0PW\1\0\0\0\0EN\0", 21, "PW of drive 1, and a drive above 1 is due", 2),
    ("PW cut", ONE + b"PW\1\0\0", 16, "PW is cut: 5 bytes are due behind it, and there are 3", 1),
    ("SV in a run", ONE + b"PW\1\0\0\0\0SV", 23, "PR or PW or CR or EN is due, and there is SV", 2),
    ("PW behind CR", ONE + b"PW\1\0\0\0\0CR\1\1\0PW\2", 28, "CR or EN is due, and there is PW", 2),
    ("PR behind CR", ONE + b"PR\1\0\0CR\1\1\0PR\2\0\0EN\0", 26, "CR or EN is due, and there is PR", 2),
    ("stop count", ONE + b"PR\1\0\0EN\1", 21, "EN counts 1, and there are 0 CR", 6),
    ("behind the run", ONE + b"PR\1\0\0EN\0EN", 24, "the run file has ended, and bytes follow", 7),
    ("cut group", b"FR\6FL\1\0", 3, "FL is cut: 8 bytes are due behind it, and there are 2", 1),
    ("cut fault list", GROUP[:-3], 13, "FL or EN is due, and the file ends", 1),
    ("SV in a fault list", GROUP[:-3] + b"SV", 13, "FL or EN is due, and there is SV", 2),
    ("PW in a fault list", GROUP[:-3] + b"PW", 13, "FL or EN is due, and there is PW", 2),
    ("group count", GROUP[:-1] + b"\2", 13, "EN counts 2, and there are 1 FL", 6),
    ("behind the fault list", GROUP + b"PR\1\0\0EN\0", 16, "the fault list has ended, and bytes follow", 7),
]


def shows(_work: Path) -> Iterator[Case]:
    for name, data, offset, why, number in UNREADABLE:
        said = f"standard input: byte {offset}: {why}\nregdulyn: {failures.refused(number)}\n"
        for command in ("show", "explain"):
            yield f"{command}, {name}", regdulyn(command, "-", given=data), (1, b"", said)
    for made in (*EXAMPLES, FAULTS):
        lines = Path(f"{made}.txt").read_text().splitlines(True)
        text = "".join(line for line in lines if not line.startswith("#"))
        status, printed, said = regdulyn("show", str(made))
        yield f"show {made.name}", (status, printed.decode()), (int(text.startswith("refused")), text)
        data = made.read_bytes()
        again = widened(data, kept_in(data))
        yield f"show {made.name}, made again", regdulyn("make", "-", given=printed), (0, again, "")
        shown = regdulyn("show", "-", given=again)[1]
        yield f"show {made.name}, shown again", shown == printed, again == widened(data)
        yield f"show {made.name}, canonical", regdulyn("make", "-", given=shown), (0, again, "")
    yield from shown_numbers()
    wrong = model.table_bytes(model.Contents(6, [1, 0x7C, 0]))
    yield "show, refused", regdulyn("show", "-", given=wrong), (
        1, b"refused 4\ndrives 6\nset 1\nset 7c\nset 0\n",
        "standard input: byte 13: drive 7 above the number of drives, 6\nstandard input: byte 23: the set is empty\n"
        f"regdulyn: {failures.refused(4)}\n")
    wrong = fault_list(4, [0, 0xF, 0x1F])
    yield "show, refused fault list", regdulyn("show", "-", given=wrong), (
        1, b"refused 34\ndrives 4\nfault 0\nfault f\nfault 1f\n",
        "standard input: byte 13: the fault group has all drives of the frame\n"
        "standard input: byte 23: drive 5 above the number of drives, 4\n"
        "regdulyn: refused 34: a fault group has all drives of the frame\n")


def kept_in(data: bytes) -> int:
    """The drives whose pattern numbers are made again: of a file that is refused all, else the chosen core."""
    kind = model.kind_of(data)
    if kind != "run" or model.refusal_of(kind, data):
        return -1
    n, sets, _ = model.regdulyn.read_table_with_rest(data)
    return model.regdulyn.chosen_core(n, sets)


def shown_numbers() -> Iterator[Case]:
    """`patterns` has what stands in the file, - for a drive without a number in front of one that has it. What is
    wrong is said with the byte of the record that it is about, or that stands where one is missing."""
    a, text = table(6, [1, 2, 0x3C]), "drives 6\nset 1\nset 2\nset 3c\npatterns"
    core = b"".join(proposal(drive, 10 - drive) for drive in (1, 2, 3))
    for records, line in ((core, " 9 8 7"), (core + proposal(5, 1), " 9 8 7 - 1"),
                          (core + proposal(4, 65536) + proposal(6, 0), " 9 8 7 65536 - 0")):
        yield f"show, patterns{line}", regdulyn("show", "-", given=a + records + b"EN\0"), (
            0, f"{text}{line}\n".encode(), "")
    old = core + b"".join(proposal(drive, 1) for drive in (4, 5, 6))
    missing = "no pattern number for {} of the chosen core"
    seventh = "a pattern number for drive 7, and there are drives 1 to 6"
    for records, line, number, wrong in (
            (core[:10], " 9 8", 2, [(46, missing.format("drive 3"))]),
            (core[:10] + proposal(4, 1), " 9 8 - 1", 8, [(46, missing.format("drive 3"))]),
            (proposal(1, 9, True) + proposal(2, 8, True), " 9 8", 2, [(50, missing.format("drive 3"))]),
            (b"", "", 2, [(36, missing.format("drives 1 2 3"))]),
            (core[5:], " - 8 7", 8, [(36, missing.format("drive 1"))]),
            (core[5:10], " - 8", 8, [(36, missing.format("drive 1")), (41, missing.format("drive 3"))]),
            (core[:5] + core[10:], " 9 - 7", 8, [(41, missing.format("drive 2"))]),
            (core[:5] + proposal(4, 1), " 9 - - 1", 8, [(41, missing.format("drives 2 3"))]),
            (core[:10] + proposal(7, 1), " 9 8 - - - - 1", 8, [(46, missing.format("drive 3")), (46, seventh)]),
            (core + proposal(7, 1), " 9 8 7 - - - 1", 8, [(51, seventh)]),
            (core + proposal(6, 0) + proposal(7, 1), " 9 8 7 - - 0 1", 2, [(56, seventh)]),
            (old + proposal(7, 1), " 9 8 7 1 1 1 1", 2, [(66, seventh)]),
            (old + proposal(7, 1) + proposal(8, 1), " 9 8 7 1 1 1 1 1", 2, [(66, seventh)])):
        said = "".join(f"standard input: byte {offset}: {what}\n" for offset, what in wrong)
        for stops, stop in ((b"EN\0", ""), (b"CR\2\1\1EN\1", "stop 2 1 1\n")):
            name = f"show, refused {number}, patterns{line}{' and a stop' if stop else ''}"
            yield name, regdulyn("show", "-", given=a + records + stops), (
                1, f"refused {number}\n{text}{line}\n{stop}".encode(),
                f"{said}regdulyn: {failures.refused(number)}\n")


def round_trips(_work: Path) -> Iterator[Case]:
    """Of generated files, damaged ones too: a file is shown or unreadable, the text makes the file, with a PW for each
    PR and, where it is not refused, none for a listener; and there is something wrong exactly if the library refuses
    it. What is made is refused and listed as the file is, and its text is canonical."""
    shown = unreadable = shorter = lists = 0
    for index, data in enumerate(chain(islice(generate.table_inputs(3, GENERATED), GENERATED),
                                       islice(generate.run_inputs(3, GENERATED), GENERATED),
                                       generate.convert_inputs(3, GENERATED), random_files())):
        number = model.refusal_of(model.kind_of(data), data)
        if index % 10 == 0 and number != model.refusal_in(model.listing(model.kind_of(data), data)):
            yield f"refusal of {index}", (data, number), None
        try:
            contents, offsets = model.file_contents(data)
        except model.Unreadable as error:
            unreadable += 1
            if number == 0 or not 0 <= error.offset <= len(data):
                yield f"unreadable {index}", (data, number, error.offset), None
            continue
        shown += 1
        lists += bool(contents.faults)
        text, made = texts.canonical_text(contents, number), widened(data, kept_in(data))
        wrong, again = list(mistakes.found_in(contents)), model.file_contents(made)[0]
        shorter += made != widened(data)
        good = (texts.text_mistakes(text) == (made, []) and texts.read_text(text)[0].contents == contents
                and bool(wrong) == (number != 0)
                and all(data[offsets[place]:offsets[place] + 2] in MARKS for place, _ in wrong)
                and contents.kind == model.kind_of(data) == again.kind and model.refusal_of(again.kind, made) == number
                and (again == contents) == (made == widened(data))
                and texts.text_mistakes(texts.canonical_text(again, number)) == (made, []))
        if index % 10 == 0:
            good = good and model.listing(contents.kind, made) == model.listing(contents.kind, data)
        if not good:
            yield f"round trip {index}", (data, number, text, wrong), None
    few = GENERATED // 10
    yield "files of all sorts", [shown > GENERATED, unreadable > few, shorter > few, lists > GENERATED], [True] * 4


def random_files() -> Iterator[bytes]:
    """Contents of any numbers, in small frames so that many are nearly right."""
    random = Random(7)
    for _ in range(GENERATED):
        n = random.choice((0, 1, 2, 3, 4, 6, 64, 65, 255))
        sets = [random.getrandbits(random.choice((n, n, n, n + 1)) or 1) & (2 ** 64 - 1)
                for _ in range(random.randrange(5))]
        count = random.choice((n, n, 0, n % 255 + 1))
        given = random.choice((1, 1, 0.7))
        patterns = random.choice((None, {drive: any_pattern(random) for drive in range(1, count + 1)
                                         if random.random() < given}))
        stops = [model.Stop(*(random.randrange(random.choice((3, 7, 256))) for _ in range(3)))
                 for _ in range(random.randrange(3) if patterns is not None else 0)]
        yield model.file_bytes(model.Contents(n, sets, patterns, stops))
        yield model.file_bytes(model.Contents(n, faults=sets))


def explains(_work: Path) -> Iterator[Case]:
    text = ("drives 7\nmembers 1 2\nmembers 2 3\nmembers 1 2 5\nset 3\nmembers 4\n"
            "patterns 1 2 3 4 5 6 7\nstop 1 1 0\nstop 7 2 0\n")
    expected = """\
drives: 1 2 3 4 5 6 7

survivor sets: 3
  set 3: drives 1 2
  set 6: drives 2 3
  set 8: drive 4
sets that the table drops: 2
  set 13, the file's number 3: drives 1 2 5; it holds set 3
  set 3, the file's number 4: drives 1 2; a repeat
drives in no survivor set, and so in no core: 5 6 7

cores: 2
  core a: drives 2 4, the chosen one
  core d: drives 1 3 4
drives that talk, the chosen core: 2 4
drives that listen: 1 3 5 6 7
"""
    run = """
run:
  drive 1: listens, stops in round 1 after 0 sends
  drive 2: pattern number 2, stays up
  drive 3: listens, stays up
  drive 4: pattern number 4, stays up
  drive 5: listens, stays up
  drive 6: listens, stays up
  drive 7: listens, stops in round 2 after 0 sends
survivor sets in which no drive stops: set 6, set 8
"""
    data = texts.text_mistakes(text)[0]
    yield "explain, run", regdulyn("--unproved", "explain", "-", given=data), (0, (expected + run).encode(), SAID)
    old = data.replace(b"PW\4", proposal(3, 65535) + b"PW\4").replace(b"CR\1", proposal(7, 8) + b"CR\1")
    said = run.replace("drive 3: listens", "drive 3: listens (pattern number 65535 is dropped)").replace(
        "drive 7: listens", "drive 7: listens (pattern number 8 is dropped)")
    yield "explain, old run", regdulyn("--unproved", "explain", "-", given=old), (0, (expected + said).encode(), SAID)
    status, printed, wrong = regdulyn("--unproved", "explain", "-", given=data.replace(proposal(2, 2, True), b""))
    yield "explain, no number", (status, printed.decode(), wrong.splitlines()[0]), (
        1, (expected + run).replace("drive 2: pattern number 2", "drive 2: no pattern number"),
        f"standard input: byte {data.index(b'PW')}: no pattern number for drive 2 of the chosen core")
    table = data[:data.index(b"PW")]
    yield "explain, table", regdulyn("explain", "-", given=table), (0, expected.encode(), "")
    wide = texts.text_mistakes("drives 1\nset 1\npatterns 4294967295\n")[0]
    printed = regdulyn("--unproved", "explain", "-", given=wide)[1].decode()
    yield "explain, a large number", "  drive 1: pattern number 4294967295, stays up" in printed.splitlines(), True
    for n, sets, lines in (
            (4, [12, 10, 6, 9, 5, 3, 7], ["these are all groups of 2 drives: at most 2 of the 4 drives may drop out"]),
            (2, [1, 2], ["these are all groups of 1 drive: at most 1 of the 2 drives may drop out"]),
            (4, [12, 10, 6, 9, 5], []), (4, [1, 6, 10, 12], []), (3, [7], [])):
        printed = regdulyn("--unproved", "explain", "-", given=model.table_bytes(model.Contents(n, sets)))[1].decode()
        found = [line for line in printed.splitlines() if "groups" in line]
        yield f"explain, n {n} sets {sets}", found, lines
    wrong = model.table_bytes(model.Contents(6, [1, 0x7C, 0]))
    status, printed, said = regdulyn("--unproved", "explain", "-", given=wrong)
    yield "explain, refused", (status, printed.decode(), said.splitlines()[-1]), (
        1, "set 1: drive 1\nset 7c: drives 3 4 5 6 7, and drive 7 above the number of drives\nset 0: no drive\n",
        f"regdulyn: {failures.refused(4)}")


def explained_faults(_work: Path) -> Iterator[Case]:
    """Of a fault list the groups, those that it drops, and the table that it converts to."""
    text = "drives 6\nfailing 1 2\nfailing 3 6\nfailing 1\nfault 3\nfailing 4 6\nfailing\nfailing 6\n"
    expected = """\
drives: 1 2 3 4 5 6

fault groups, each of drives that can fail together: 3
  fault 3: drives 1 2
  fault 24: drives 3 6
  fault 28: drives 4 6
fault groups that the list drops: 4
  fault 1, the file's number 3: drive 1; it is within fault 3
  fault 3, the file's number 4: drives 1 2; a repeat
  fault 0, the file's number 6: no drive; it is within fault 3
  fault 20, the file's number 7: drive 6; it is within fault 24
drives in no fault group, and so in every survivor set: 5
"""
    data = texts.text_mistakes(text)[0]
    made = regdulyn("--unproved", "explain", "-", given=table(6, [0x17, 0x1B, 0x3C]))[1].decode()
    expected += made[made.index("\n\n") + 1:].replace("sets that the table drops: none\n", "")
    yield "explain, fault list", regdulyn("--unproved", "explain", "-", given=data), (0, expected.encode(), SAID)
    yield "explain, fault list, proved", regdulyn("explain", "-", given=data), (0, expected.encode(), "")
    for n, groups, line in (
            (4, [1, 2, 4, 8], "these are all groups of 3 drives: at most 1 of the 4 drives may drop out"),
            (3, [0], "drives in no fault group, and so in every survivor set: 1 2 3"),
            (3, [0], "  fault 0: no drive"), (3, [3, 6], "drives in no survivor set, and so in no core: 2")):
        printed = regdulyn("--unproved", "explain", "-", given=fault_list(n, groups))[1].decode()
        yield f"explain, n {n} groups {groups}", line in printed.splitlines(), True
    for number, data in refused_fault_lists().items():
        status, printed, said = regdulyn("--unproved", "explain", "-", given=data)
        lines = {4: "fault 3: drives 1 2\nfault 1f: drives 1 2 3 4 5, and drive 5 above the number of drives\n",
                 34: "fault 3: drives 1 2\nfault f: drives 1 2 3 4\n"}.get(number, printed.decode())
        yield f"explain, refused {number}", (status, printed.decode(), said.splitlines()[-1]), (
            1, lines, f"regdulyn: {failures.refused(number)}")
