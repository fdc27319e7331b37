"""Text to bytes: every mistake of a text, and what texts make."""

from pathlib import Path
from typing import Iterator

import failures
import texts
from inputs.frames import full
from inputs.records import Crash, fault_list, proposal, run, table

from . import FAULTS, Case, example, model, refused_fault_lists, refused_files, regdulyn

A_TEXT = "drives 6\nset 1\nset 2\nset 3c\n"

MISTAKES = [
    ("", ["1: no line drives"]),
    ("# nothing\n\n", ["2: no line drives"]),
    ("drives 6\nset 1\nbar 3\n",
     ["3: unknown word 'bar'; the words are drives, set, members, patterns, stop, fault, failing, refused"]),
    ("drives\nset 1 2\nstop 1 2\n",
     ["1: drives takes 1 number, and here are 0", "2: set takes 1 number, and here are 2",
      "3: stop takes 3 numbers, and here are 2"]),
    ("drives 6\nset 1\nmembers\n", ["3: members takes one number or more, and here are none"]),
    ("drives 6\nset 1\nmembers 3 4 3\n", ["3: drive 3 more than once"]),
    ("drives 6\nset 1\nmembers 0 1\n", ["3: a drive is 0, and can be 1 to 64"]),
    ("drives six\nset xyz\n", ["1: the number of drives is 'six', which is no decimal number",
                               "2: the mask is 'xyz', which is no hexadecimal number"]),
    ("drives 256\nset 1\n", ["1: the number of drives is 256, and can be 1 to 64"]),
    ("drives 6\nset 1\nset 10000000000000000\n",
     ["3: the mask is 10000000000000000, and can be 0 to ffffffffffffffff"]),
    ("drives 6\nset 1\nset " + "9" * 5000, ["3: the mask is 99999999999999999999.., and can be 0 to ffffffffffffffff"]),
    ("drives 2\nset 1\npatterns 1 4294967296\n",
     ["3: the pattern number of drive 2 is 4294967296, and can be 0 to 4294967295"]),
    ("drives 2\nset 1\npatterns 1 -2\n", ["3: the pattern number of drive 2 is '-2', which is no decimal number"]),
    ("drives 6\nset 1\ndrives 7\n", ["3: a second line drives; the first is line 1"]),
    ("drives 1\nset 1\npatterns 1\npatterns 1\n", ["4: a second line patterns; the first is line 3"]),
    ("drives 65\nset 1\n", ["1: 65 drives, and there are 1 to 64"]),
    ("drives 6\n", ["1: no set, and a table has 1 to 128"]),
    ("drives 6\nset 0\nmembers 3 7 9\nset 40\n",
     ["2: the set is empty", "3: drives 7 9 above the number of drives, 6",
      "4: drive 7 above the number of drives, 6"]),
    ("drives 1\n" + "set 1\n" * 129, ["130: set number 129, and a table has at most 128"]),
    ("drives 22\n" + "".join(f"set {3 << 2 * pair:x}\n" for pair in range(11)),
     ["12: with this set the table has more than 1024 cores"]),
    ("drives 6\nset 1\nset 2\nset 3c\npatterns 1 2\nstop 2 4 6\nstop 2 1 0\nstop 4 1 1\nstop 9 1 1\n",
     ["5: no pattern number for drive 3 of the chosen core",
      "6: round 4, and there are rounds 1 to 3, the chosen core's size",
      "6: 6 sends, and drive 2 makes at most 5", "7: drive 2 after drive 2, and stops stand by rising drive",
      "8: 1 send, and drive 4 listens and makes none", "9: drive 9, and there are drives 1 to 6"]),
    ("drives 2\nset 1\npatterns 1 2\nstop 1 1 0\n", ["4: with this stop every survivor set has a drive that stops"]),
    ("drives 2\nset 1\nstop 2 1 0\n", ["3: no line patterns with a number for drive 1 of the chosen core"]),
    (A_TEXT + "stop 2 1 1\nstop 4 1 0\n", ["5: no line patterns with a number for drives 1 2 3 of the chosen core"]),
    ("refused 8\n" + A_TEXT + "stop 2 1 1\n",
     ["1: refused 8, and the file is refused with 2: " + failures.OF_FILES[2],
      "6: no line patterns with a number for drives 1 2 3 of the chosen core"]),
    (A_TEXT + "patterns\n", ["5: no pattern number for drives 1 2 3 of the chosen core"]),
    (A_TEXT + "patterns - - -\n", ["5: no pattern number for drives 1 2 3 of the chosen core"]),
    (A_TEXT + "stop 2 1 1\npatterns\n", ["6: no pattern number for drives 1 2 3 of the chosen core"]),
    (A_TEXT + "patterns 7 5 x\nstop 2 1 1\n",
     ["5: the pattern number of drive 3 is 'x', which is no decimal number"]),
    (A_TEXT + "patterns - 5 - 1 1 1\n", ["5: no pattern number for drive 1 of the chosen core",
                                         "5: no pattern number for drive 3 of the chosen core"]),
    (A_TEXT + "patterns 7 5 9 - - - - -\n", ["5: a - for drive 7, and there are drives 1 to 6"]),
    ("patterns 7 5 9 1 1 1 -\n" + A_TEXT, ["1: a - for drive 7, and there are drives 1 to 6"]),
    (A_TEXT + "patterns" + " -" * 7, ["5: a - for drive 7, and there are drives 1 to 6",
                                      "5: no pattern number for drives 1 2 3 of the chosen core"]),
    (A_TEXT + "patterns 7 5 9 1 1 1 - 1 -\n", ["5: a - for drive 9, and there are drives 1 to 6",
                                               "5: a pattern number for drive 8, and there are drives 1 to 6"]),
    ("refused 2\n" + A_TEXT + "patterns 7 5 - - - - -\n",
     ["6: a - for drive 7, and there are drives 1 to 6", "6: no pattern number for drive 3 of the chosen core"]),
    ("drives 65\nset 1\npatterns" + " -" * 66, ["1: 65 drives, and there are 1 to 64"]),
    (A_TEXT + "patterns 7 5 9 1 1 1 1\n", ["5: a pattern number for drive 7, and there are drives 1 to 6"]),
    (A_TEXT + "patterns 7 5 - - - - - - 2\n",
     ["5: no pattern number for drive 3 of the chosen core",
      "5: a pattern number for drive 9, and there are drives 1 to 6"]),
    (A_TEXT + "patterns 7 5 --\n", ["5: the pattern number of drive 3 is '--', which is no decimal number"]),
    (A_TEXT + "patterns" + " 1" * 256, ["5: more than 255 pattern numbers, which PW cannot number"]),
    ("refused 2\n" + A_TEXT + "patterns 7 5 9 1\n", ["1: refused 2, and the file is not refused"]),
    ("refused 2\n" + A_TEXT + "patterns 7 - - 1\n",
     ["1: refused 2, and the file is refused with 8: " + failures.OF_FILES[8],
      "6: no pattern number for drives 2 3 of the chosen core"]),
    ("drives 5\nset 2\nset 8\npatterns 1 2 3\n", ["4: no pattern number for drive 4 of the chosen core"]),
    ("refused 4\ndrives 65\nset 1\n",
     ["1: refused 4, and the file is refused with 3: the number of drives is not 1 to 64",
      "2: 65 drives, and there are 1 to 64"]),
    ("refused 4\ndrives 6\nset 1\n", ["1: refused 4, and the file is not refused"]),
    ("refused 12\ndrives 6\nset 1\n", ["1: no file is refused with 12"]),
    ("refused 31\ndrives 6\nset 1\n", ["1: no file is refused with 31"]),
    ("drives 6\nset zz\nset 40\nstop 7 1 1\n",
     ["2: the mask is 'zz', which is no hexadecimal number", "3: drive 7 above the number of drives, 6",
      "4: no line patterns with numbers", "4: drive 7, and there are drives 1 to 6"]),
]

ALONE = "; a fault list has no set, members, patterns or stop"
FAULT_MISTAKES = [
    ("fault 1\n", ["1: no line drives"]),
    ("drives 6\nfault\nfault 1 2\nfault 10000000000000000\nfailing 3 4 3\nfailing 0 x\n",
     ["2: fault takes 1 number, and here are 0", "3: fault takes 1 number, and here are 2",
      "4: the mask is 10000000000000000, and can be 0 to ffffffffffffffff", "5: drive 3 more than once",
      "6: a drive is 0, and can be 1 to 64"]),
    ("drives 6\nset 1\nfault 2\nfailing 3\nset 4\n", ["3: fault beside set of line 2" + ALONE,
                                                     "4: failing beside set of line 2" + ALONE]),
    ("drives 6\nmembers x\nfault 2\n", ["2: a drive is 'x', which is no decimal number",
                                      "3: fault beside members of line 2" + ALONE]),
    ("drives 6\nfailing 1\nfault 2\nset 4\nmembers 3\nset 7f\n",
     ["4: set beside failing of line 2" + ALONE, "5: members beside failing of line 2" + ALONE,
      "6: set beside failing of line 2" + ALONE]),
    ("drives 6\nfault 1\nfault 40\npatterns 1 x\nstop 1 1\n",
     ["3: drive 7 above the number of drives, 6", "4: patterns beside fault of line 2" + ALONE,
      "5: stop beside fault of line 2" + ALONE]),
    ("patterns 1\ndrives 6\nfailing\n", ["3: failing beside patterns of line 1" + ALONE]),
    ("stop 1 1 1\nfault 1\ndrives 6\n", ["1: no line patterns with numbers", "2: fault beside stop of line 1" + ALONE]),
    ("drives 65\nfault 1\nfault ffffffffffffffff\n", ["1: 65 drives, and there are 1 to 64"]),
    ("drives 6\nfailing 3 7 9\nfault 3f\nfault 7f\nfailing 6 5 4 3 2 1\n",
     ["2: drives 7 9 above the number of drives, 6", "3: the fault group has all drives of the frame",
      "4: drive 7 above the number of drives, 6", "5: the fault group has all drives of the frame"]),
    ("drives 1\nfailing\nfailing 1\n", ["3: the fault group has all drives of the frame"]),
    ("drives 1\n" + "fault 0\n" * 129, ["130: fault group number 129, and a fault list has at most 128"]),
    ("drives 1\n" + "fault 0\n" * 256, ["130: fault group number 129, and a fault list has at most 128",
                                      "257: more than 255 fault groups, which EN cannot count"]),
    ("drives 22\n" + "".join(f"fault {full(22) & ~(3 << 2 * pair):x}\n" for pair in range(11)),
     ["12: with this fault group the survivor sets have more than 1024 cores"]),
    ("refused 34\ndrives 2\nfault 1\n", ["1: refused 34, and the file is not refused"]),
    ("refused 34\ndrives 2\nset 3\n", ["1: refused 34, and the file is not refused"]),
    ("refused 34\ndrives 2\nfault 7\n",
     ["1: refused 34, and the file is refused with 4: " + failures.OF_FILES[4],
      "3: drive 3 above the number of drives, 2"]),
]


def mistakes(work: Path) -> Iterator[Case]:
    """Each mistake is a line, nothing is written, and the status is 1."""
    for index, (text, expected) in enumerate(MISTAKES + FAULT_MISTAKES):
        made, found = texts.text_mistakes(text)
        yield f"mistakes {index}", (made, [f"{line}: {message}" for line, message in found]), (None, expected)
    path = work / "wrong.txt"
    path.write_text(MISTAKES[3][0])
    lines = "".join(f"{path}:{line}\n" for line in MISTAKES[3][1])
    yield "make, mistakes", regdulyn("make", str(path)), (1, b"", lines)
    yield "make, standard input", regdulyn("make", "-", given=b"drives 6\n"), (
        1, b"", "standard input:1: no set, and a table has 1 to 128\n")
    yield "make, made file", regdulyn("make", str(example("a.table"))), (
        1, b"", f"{example('a.table')}:1: this is no text but a made file; ./regdulyn show prints its text\n")
    yield "make, made fault list", regdulyn("make", str(FAULTS)), (
        1, b"", f"{FAULTS}:1: this is no text but a made file; ./regdulyn show prints its text\n")
    yield "make, no text", regdulyn("make", "-", given=b"drives 6\nset \xff\n"), (
        1, b"", "standard input:2: this is no text: byte ff\n")
    yield "make, endless", regdulyn("make", "/dev/zero"), (
        2, b"", "regdulyn: cannot read /dev/zero: a text of more than 1048576 bytes\n")


def makes(_work: Path) -> Iterator[Case]:
    """Texts that are not canonical, and what they make."""
    a = example("a.table").read_bytes()
    for name, text in (("members", "drives 6\nmembers 1\nmembers 2\nmembers 6 5 4 3\n"),
                       ("layout", "\ufeff  drives\t06 # six\r\n\r\nset 0x1\r\nset 02\r\nset 3C"),
                       ("order", "set 1\nset 2\nmembers 3 4 5 6\ndrives 6\n")):
        yield f"make, {name}", regdulyn("make", "-", given=text.encode()), (0, a, "")
    for number in (0, 7, 65535, 65536, 0x04030201, 2 ** 32 - 1):
        text = f"drives 1\nset 1\npatterns {number}\n"
        yield f"make, pattern number {number}", regdulyn("make", "-", given=text.encode()), (
            0, table(1, [1]) + proposal(1, number, True) + b"EN\0", "")
    for name, text, groups in (
            ("groups", "drives 4\nfailing 2 1\nfault 0x4\nfailing 4\n", [3, 4, 8]),
            ("groups, order", "fault 8 # D\nfailing 1 2\nfailing 3\ndrives 4\nfailing 1\n", [8, 3, 4, 1]),
            ("empty groups", "drives 4\nfailing\nfault 0\nfailing # none\n", [0, 0, 0])):
        yield f"make, {name}", regdulyn("make", "-", given=text.encode()), (0, fault_list(4, groups), "")
    yield from of_listeners()
    files = [(number, data) for number, (_, data) in enumerate(refused_files(a), start=1)]
    for number, data in (*files, *refused_fault_lists().items()):
        try:
            contents, _ = model.file_contents(data)
        except model.Unreadable:
            continue
        text = texts.canonical_text(contents, number)
        yield f"make, refused {number}", (text.split("\n")[0], texts.text_mistakes(text)), (
            f"refused {number}", (data, []))


def of_listeners() -> Iterator[Case]:
    """A listener's number is left out, or written - or left off by the text: the same file. Where the file is meant
    to be refused its number stands there."""
    stopped = [Crash(2, 1, 1)]
    new = table(6, [1, 2, 0x3C]) + run([7, 5, 9], stopped, full(6))
    for numbers in ("7 5 9 1 1 1", "7 5 9", "7 5 9 - - -", "7 5 9 - 8", "07 5 9 - - 4294967295"):
        text = f"{A_TEXT}patterns {numbers}\nstop 2 1 1\n"
        yield f"make, patterns {numbers[:24]}", regdulyn("make", "-", given=text.encode()), (0, new, "")
    other = table(5, [2, 8]) + run([0, 6, 0, 4], [], full(4), 0b101)
    for numbers in ("- 6 - 4", "1 6 2 4 3", "- 6 2 4"):
        text = f"drives 5\nset 2\nset 8\npatterns {numbers}\n"
        yield f"make, patterns {numbers} of two", texts.text_mistakes(text), (other, [])
    for number, line, records in (
            (8, "7 - - 1", [(1, 7), (4, 1)]), (8, "7 5 - 1 1 1", [(1, 7), (2, 5), (4, 1), (5, 1), (6, 1)]),
            (2, "7 5", [(1, 7), (2, 5)]), (2, "", []), (8, "- - - 1", [(4, 1)]),
            (8, "7 5 9 - - - 1", [(1, 7), (2, 5), (3, 9), (7, 1)]),
            (2, "7 5 9 - - 2 1", [(1, 7), (2, 5), (3, 9), (6, 2), (7, 1)])):
        text = f"refused {number}\n{A_TEXT}patterns {line}\n"
        made = table(6, [1, 2, 0x3C]) + b"".join(proposal(*record, True) for record in records) + b"EN\0"
        yield f"make, refused {number}, patterns {line}", texts.text_mistakes(text), (made, [])
    yield "make, refused 2, stops alone", texts.text_mistakes(f"refused 2\n{A_TEXT}stop 2 1 1\n"), (
        table(6, [1, 2, 0x3C]) + b"CR\2\1\1EN\1", [])
