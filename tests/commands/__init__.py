"""Cases for the command `./regdulyn`, by subject. A case is a name, what was found and what is expected. Each group of
cases is given a folder to work in."""

import subprocess
import sys
from pathlib import Path
from typing import Any

ROOT = Path(__file__).resolve().parents[2]
sys.path.insert(0, str(ROOT / "tools"))

import contents as model  # noqa: E402
from cases.marked import STORED  # noqa: E402
from inputs.frames import full  # noqa: E402
from inputs.records import fault_list, survivor  # noqa: E402

Case = tuple[str, Any, Any]
SECONDS = 60

# What the command says where the second program answers.
SAID = "regdulyn: not proved: the second program answers\n"


def regdulyn(*words: str, given: bytes = b"", root: Path = ROOT, **more: Any) -> tuple[int, bytes, str]:
    """Status, standard output and standard error of the command."""
    done = subprocess.run([root / "regdulyn", *words], input=given, stdout=subprocess.PIPE, stderr=subprocess.PIPE,
                          timeout=SECONDS, **more)
    return done.returncode, done.stdout, done.stderr.decode()


def example(name: str) -> Path:
    return ROOT / "examples" / name


# The examples that are looked at, the table and run files and the fault list; other files in examples/ are not.
EXAMPLES = [example(f"{name}.{program}") for name, program, _, _ in STORED if program in ("table", "run")]
FAULTS = example("c.faults")


def refused_files(a: bytes) -> list[tuple[str, bytes]]:
    """A file for each refusal that a file can meet, by number; no kind where there is none."""
    run = model.file_bytes(model.Contents(6, [1, 2, 0x3C], {drive: 1 for drive in range(1, 7)}, []))[:-3]
    return [("table", a[:-1]), ("table", b"XX"), ("table", b"FR\0"), ("table", a.replace(b"<", b"\x7c")),
            ("table", model.table_bytes(model.Contents(1, [1] * 129))), ("table", a[:-1] + b"\2"), ("table", a + b"\n"),
            ("run", run + b"CR\x09\1\0EN\1"), ("run", run + b"CR\2\4\0EN\1"), ("run", run + b"CR\2\1\6EN\1"),
            ("run", run + b"CR\1\1\0CR\2\1\0CR\3\1\0EN\3"), ("", b""),
            ("table", model.table_bytes(model.Contents(22, [3 << 2 * pair for pair in range(11)])))]


def refused_fault_lists() -> dict[int, bytes]:
    """A fault list for each refusal that one can meet."""
    c = FAULTS.read_bytes()
    return {1: c[:-1], 2: c[:-3] + survivor(1) + c[-3:], 3: fault_list(65, [1]), 4: fault_list(4, [3, 0x1F]),
            5: fault_list(2, [1] * 129), 6: c[:-1] + b"\2", 7: c + b"PW",
            13: fault_list(22, [full(22) & ~(3 << 2 * pair) for pair in range(11)]), 34: fault_list(4, [3, 0xF])}
