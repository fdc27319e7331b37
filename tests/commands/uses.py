"""Each way to use the command: wrong uses, help, listings, files made and refusals, with status and lines."""

import os
import re
import subprocess
from pathlib import Path
from typing import Iterator

import explaining
import failures
import generate
from inputs.frames import full
from inputs.records import fault_list, table

from . import (EXAMPLES, FAULTS, ROOT, SAID, Case, example, model, refused_fault_lists, refused_files,
               regdulyn)

SEE = "; see ./regdulyn --help\n"
FAULT_HINT = "; this is a fault list, of which ./regdulyn convert makes a table"


def wrong_uses(work: Path) -> Iterator[Case]:
    a = str(example("a.table"))
    (work / "locked").write_bytes(b"FR")
    cases = [
        ("nothing", [], "no command" + SEE),
        ("unknown command", ["tabel", a], "unknown command tabel" + SEE),
        ("unknown option", ["--fast", "table", a], "unknown option --fast" + SEE),
        ("unknown option behind", ["table", "-x", a], "unknown option -x" + SEE),
        ("no file", ["table"], "table takes one file, and here is none" + SEE),
        ("two files", ["run", a, a], "run takes one file, and here are 2" + SEE),
        ("unproved make", ["--unproved", "make", a],
         "--unproved goes with table, run, explain, missed, picture, convert, threshold, and make needs no proved"
         " program" + SEE),
        ("convert of nothing", ["convert"], "convert takes one file, and here is none" + SEE),
        ("convert of two", ["--unproved", "convert", a, a], "convert takes one file, and here are 2" + SEE),
        ("threshold of nothing", ["threshold"], "threshold takes two numbers, and here is none" + SEE),
        ("threshold of one", ["threshold", "6"], "threshold takes two numbers, and here is 1" + SEE),
        ("threshold of three", ["threshold", "6", "2", "1"], "threshold takes two numbers, and here are 3" + SEE),
        ("threshold of words", ["threshold", "six", "2"],
         "the number of drives is 'six', which is no decimal number" + SEE),
        ("threshold, hexadecimal", ["threshold", "6", "0x2"],
         "the number that may drop out is '0x2', which is no decimal number" + SEE),
        ("threshold, negative", ["threshold", "6", "-1"], "unknown option -1" + SEE),
        ("missed of nothing", ["missed"], "missed takes a file and drives, and here is none" + SEE),
        ("missed of no drive", ["missed", a], "missed takes a file and drives, and here is only a file" + SEE),
        ("missed of words", ["missed", a, "1", "two"], "a drive is 'two', which is no decimal number" + SEE),
        ("library with a file", ["library", a], "library takes no file and no option" + SEE),
        ("help of an unknown command", ["tabel", "--help"], "unknown command tabel" + SEE),
        ("directory", ["--unproved", "table", str(work)], f"cannot read {work}: it is a directory\n"),
        ("directory to make", ["make", str(work)], f"cannot read {work}: it is a directory\n"),
        ("missing", ["--unproved", "run", f"{work}/none"], f"cannot read {work}/none: No such file or directory\n"),
        ("missing to show", ["show", f"{work}/none"], f"cannot read {work}/none: No such file or directory\n"),
        ("unreadable", ["show", "/proc/self/mem"], "cannot read /proc/self/mem: Input/output error\n"),
        ("missing, before any build", ["table", f"{work}/none"],
         f"cannot read {work}/none: No such file or directory\n"),
    ]
    for name, words, line in cases:
        yield name, regdulyn(*words), (2, b"", f"regdulyn: {line}")
    closed = 'exec "$0" show - <&-'
    done = subprocess.run(["sh", "-c", closed, ROOT / "regdulyn"], capture_output=True)
    yield "closed input", (done.returncode, done.stdout, done.stderr), (
        2, b"", b"regdulyn: cannot read standard input: it is closed\n")
    done = subprocess.run(["sh", "-c", 'exec "$0" show "$1" >/dev/full', ROOT / "regdulyn", a], capture_output=True)
    yield "full output", (done.returncode, done.stderr), (2, b"regdulyn: cannot write: No space left on device\n")
    done = subprocess.run(["sh", "-c", 'exec "$0" show "$1" >&-', ROOT / "regdulyn", a], capture_output=True)
    yield "closed output", (done.returncode, done.stderr), (2, b"regdulyn: cannot write: standard output is closed\n")


def hints(work: Path) -> Iterator[Case]:
    """What a refused file may have been meant for is said with the refusal."""
    (work / "text").write_text("# a table\ndrives 6\nset 1\n")
    (work / "faults").write_bytes(refused_fault_lists()[34])
    cases = [
        ("a text", "table", work / "text", 2, "; this looks like a text, of which ./regdulyn make makes a file"),
        ("a run as a table", "table", example("b.run"), 7,
         "; a run file stands behind the table, and ./regdulyn run reads both"),
        ("a table as a run", "run", example("a.table"), 1, "; there is no run file behind the table"),
        ("a fault list as a table", "table", FAULTS, 2, FAULT_HINT),
        ("a fault list as a run", "run", FAULTS, 2, FAULT_HINT),
        ("a refused fault list as a table", "table", work / "faults", 2, "; this is a fault list"),
    ]
    for name, kind, path, number, hint in cases:
        yield name, regdulyn("--unproved", kind, str(path)), (
            1, f"refused {number}\n".encode(), f"{SAID}regdulyn: {failures.refused(number)}{hint}\n")
    for name, words, number, hint in (
            ("a picture of a fault list", ["picture", str(FAULTS)], 2, FAULT_HINT),
            ("missed in a fault list", ["missed", str(FAULTS), "9"], 2, FAULT_HINT),
            ("a text to convert", ["convert", str(work / "text")], 2, cases[0][4]),
            ("a run to convert", ["convert", str(example("b.run"))], 7,
             "; a run file stands behind the table, and convert takes a table alone")):
        yield name, regdulyn("--unproved", *words), (1, b"", f"{SAID}regdulyn: {failures.refused(number)}{hint}\n")
    done = subprocess.run(["sh", "-c", 'exec "$0" table - <"$1"', ROOT / "regdulyn", work], capture_output=True)
    yield "a directory as input", (done.returncode, done.stdout, done.stderr), (
        2, b"", b"regdulyn: cannot read standard input: it is a directory\n")


def helps(_work: Path) -> Iterator[Case]:
    names = ("table", "run", "explain", "missed", "picture", "make", "show", "convert", "threshold", "library")
    for words in (["--help"], ["-h"], *([name, "--help"] for name in names)):
        status, printed, said = regdulyn(*words)
        yield f"{' '.join(words)}", (status, printed.startswith(b"usage: ./regdulyn "), said), (0, True, "")
        yield f"{' '.join(words)}, as wide as a page", [line for line in printed.decode().splitlines()
                                                        if len(line) > 120], []


def listings(work: Path) -> Iterator[Case]:
    """The second program's by --unproved; `refused N` is listed, said with its meaning, and status 1."""
    for path in EXAMPLES:
        kind = path.suffix[1:]
        printed = model.listing(kind, path.read_bytes())
        number = model.refusal_in(printed)
        said = f"regdulyn: {failures.refused(number)}\n" if number else ""
        status = 1 if number else 0
        yield f"{path.name}, unproved", regdulyn("--unproved", kind, str(path)), (status, printed, SAID + said)
        yield f"{path.name}, proved", regdulyn(kind, str(path)), (status, printed, said)
    a = example("a.table").read_bytes()
    for number, (kind, data) in enumerate(refused_files(a), start=1):
        if kind:
            yield f"refused {number}", regdulyn("--unproved", kind, "-", given=data), (
                1, b"refused %d\n" % number, SAID + f"regdulyn: refused {number}: {failures.MEANINGS[number]}\n")
    yield "a table as a run", regdulyn("--unproved", "run", "-", given=a)[:2], (1, b"refused 1\n")
    yield "a long file", regdulyn("table", "/dev/zero")[:2], (1, b"refused 2\n")
    yield "a reader that leaves", subprocess.run(
        ["sh", "-c", '{ "$0" table "$1"; echo $? >"$2"; } | :', ROOT / "regdulyn", example("h.table"), work / "status"],
        capture_output=True).stderr, b""
    told = regdulyn("--unproved", "table", "a.table", root=ROOT, cwd=ROOT / "examples")
    yield "from another folder", told[:2], (0, model.listing("table", a))
    (work / "link").symlink_to(ROOT / "regdulyn")
    (work / "link2").symlink_to("link")
    done = subprocess.run([work / "link2", "--unproved", "table", example("a.table")], capture_output=True, cwd="/")
    yield "through links", (done.returncode, done.stdout), (0, model.listing("table", a))


def conversions(_work: Path) -> Iterator[Case]:
    """The bytes of the other kind of file, and from these the normal form of the first; of a refused file nothing, the
    refusal's meaning and status 1."""
    c, faults = example("c.table").read_bytes(), FAULTS.read_bytes()
    singles = [1 << place for place in range(45)]
    cases = [
        ("a table", c, faults), ("a fault list", faults, c),
        ("a table with repeats", table(4, [0xF, 0xC, 0xB, 7, 0xC]), faults),
        ("groups within others", fault_list(4, [8, 0, 1, 3, 4, 3]), c),
        ("no drive fails", fault_list(3, [0]), table(3, [7])), ("one drive", fault_list(1, [0]), table(1, [1])),
        ("all drives stay", table(64, [full(64)]), fault_list(64, [0])),
        ("all but one fail", fault_list(64, [full(64) - 1]), table(64, [1])),
        ("any one fails", fault_list(45, singles), table(45, [full(45) ^ single for single in reversed(singles)])),
    ]
    for name, data, made in cases:
        yield f"convert, {name}, unproved", regdulyn("--unproved", "convert", "-", given=data), (0, made, SAID)
        yield f"convert, {name}, proved", regdulyn("convert", "-", given=data), (0, made, "")
        normal = model.listing("convert", made)
        yield f"convert, {name}, back", regdulyn("convert", "-", given=made), (0, normal, "")
        yield f"convert, {name}, there again", regdulyn("convert", "-", given=normal), (0, made, "")
    refused = [("fault list", number, data) for number, data in refused_fault_lists().items()]
    files = refused_files(example("a.table").read_bytes())
    refused += [("table", number, data) for number, (kind, data) in enumerate(files, start=1) if kind == "table"]
    for name, number, data in refused:
        said = f"regdulyn: {failures.refused(number)}\n"
        yield f"convert, {name}, refused {number}, unproved", regdulyn("--unproved", "convert", "-", given=data), (
            1, b"", SAID + said)
        yield f"convert, {name}, refused {number}", regdulyn("convert", "-", given=data), (1, b"", said)
    yield "convert, a file", regdulyn("convert", str(FAULTS)), (0, c, "")
    yield "convert, a long file", regdulyn("convert", "/dev/zero")[:2], (1, b"")


def terminals(_work: Path) -> Iterator[Case]:
    """No bytes of a file go to a terminal."""
    for command, *words in (["make", f"{FAULTS}.txt"], ["convert", str(FAULTS), "--unproved"],
                            ["threshold", "6", "2", "--unproved"]):
        reader, terminal = os.openpty()
        done = subprocess.run([ROOT / "regdulyn", command, *words], stdout=terminal, stderr=subprocess.PIPE)
        os.close(terminal)
        os.close(reader)
        yield f"{command} to a terminal", (done.returncode, done.stderr.decode().splitlines()[-1]), (
            2, f"regdulyn: {command} writes bytes, and standard output is a terminal; add > FILE")


def thresholds(_work: Path) -> Iterator[Case]:
    """The bytes of a table; of refused numbers nothing, the refusal's meaning and status 1."""
    cases = [("6", "2", 6, 2), ("1", "0", 1, 0), ("45", "1", 45, 1), ("16", "014", 16, 14), ("0", "0", 0, 0),
             ("65", "70", 65, 70), ("5", "5", 5, 5), ("64", "2", 64, 2), ("46", "1", 46, 1), ("256", "2", 255, 2),
             ("262", "258", 255, 255), ("6", "256", 6, 255), ("6", "9" * 5000, 6, 255), ("0" * 5000, "1", 0, 1)]
    for first, second, n, t in cases:
        made = model.listing("threshold", bytes([n, t]))
        number = model.refusal_in(made)
        expected = (1, b"", f"regdulyn: {failures.refused(number)}\n") if number else (0, made, "")
        name = f"threshold {first[:9]} {second[:9]}"
        yield f"{name}, unproved", regdulyn("--unproved", "threshold", first, second), (
            *expected[:2], SAID + expected[2])
        yield f"{name}, proved", regdulyn("threshold", first, second), expected
    yield "threshold, refused", regdulyn("threshold", "6", "6"), (
        1, b"", "regdulyn: refused 31: the number of drives that may drop out is not below the number of drives\n")
    yield "threshold 6 2, read", regdulyn("table", "-", given=regdulyn("threshold", "6", "2")[1])[0], 0


def missed(_work: Path) -> Iterator[Case]:
    """A position or a core for every group of case A's drives; the table's refusals before 4 of the drives."""
    a, sets, cores = example("a.table"), {1: 1, 2: 2, 3: 0x3C}, (7, 0xB, 0x13, 0x23)
    printed = model.listing("table", a.read_bytes())
    for group in range(1, 1 << 6):
        position = next((place for place, mask in sets.items() if not mask & group), 0)
        said = (f"missed {position}, set {sets[position]:x}: " if position else
                f"none missed; the drives hold core {next(core for core in cores if core & ~group == 0):x}: ")
        found = explaining.missed_line(printed, [drive for drive in range(6, 0, -1) if group >> drive - 1 & 1])
        yield f"missed {group:x}", found.startswith(said), True
    yield "missed, the line", regdulyn("missed", str(a), "1", "2", "1"), (0, b"missed 3, set 3c: drives 3 4 5 6\n", "")
    yield "none missed, the line", regdulyn("--unproved", "missed", str(a), "1", "2", "5"), (
        0, b"none missed; the drives hold core 13: drives 1 2 5\n", SAID)
    for drive in (0, 7, 64, 65, 255):
        yield f"missed, drive {drive}", explaining.missed_line(printed, [1, drive]), ""
    yield "missed, refused", regdulyn("missed", str(a), "1", "300"), (1, b"", f"regdulyn: {failures.refused(4)}\n")
    yield "missed, the table first", regdulyn("missed", str(example("i.table")), "99"), (
        1, b"", f"regdulyn: {failures.refused(3)}\n")


def pictures(_work: Path) -> Iterator[Case]:
    """A picture, or the refusal's meaning; what is drawn is the pictures' own matter."""
    for path in EXAMPLES:
        number = model.refusal_of(path.suffix[1:], path.read_bytes())
        said = f"regdulyn: {failures.refused(number)}\n" if number else ""
        status, printed, heard = regdulyn("--unproved", "picture", str(path))
        yield f"{path.name}, picture", (status, b"<svg" in printed, heard), (
            int(number != 0), number == 0, SAID + said)
        yield f"{path.name}, picture, proved", regdulyn("picture", str(path)), (status, printed, said)


def meanings(_work: Path) -> Iterator[Case]:
    """The meanings are the README's, up to what only calls can meet; the header's are the README's."""
    section = (ROOT / "README.md").read_text().split("\n## Refusals\n")[1].split("\n## ")[0]
    rows = dict(re.findall(r"^\| (\d+) \| (.*) \|$", section, re.MULTILINE))
    header = (ROOT / "include" / "regdulyn.h").read_text()
    numbers = dict(re.findall(r"^    (REGDULYN_\w+) = (\d+),?$", header, re.MULTILINE))
    texts = re.findall(r'^    case (\w+):\s+return "(.*)";$', header, re.MULTILINE)
    yield "meanings in the header", {numbers[name]: text for name, text in texts}, {"0": "accepted", **rows}
    yield "refusals of the header", set(numbers.values()), {"0", *rows}
    for number, meaning in failures.MEANINGS.items():
        yield f"meaning of {number}", rows.get(str(number), "").split("; ")[0], meaning
    yield "refusals of programs", set(failures.MEANINGS), set().union(*generate.REFUSALS.values())
    yield "refusals of files", set(failures.OF_FILES), set().union(
        *(generate.REFUSALS[kind] for kind in ("table", "run", "convert")))
