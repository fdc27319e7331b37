"""The build of the proved programs, in a copy of the repository that has a stand-in for `rt`: it proves nothing, and
makes a program that prints the file `answer`."""

import os
import shutil
import signal
import subprocess
import sys
import time
from pathlib import Path
from typing import Any, Callable, Iterator

from . import FAULTS, ROOT, SECONDS, Case, example, regdulyn

import building as tool  # noqa: E402, from tools/
import failures  # noqa: E402

# What the table program needs, beside itself, each behind those that it cites.
NEEDED = sorted((crate for crate in tool.needed_crates("table_program") if crate != "table_program"),
                key=lambda crate: (len(tool.needed_crates(crate)), crate))

# The crates that something is built of.
BUILT = (*tool.LIBRARY, "table_program", "convert_program")

# `rt` says nothing of a crate that stands as it was, here the first.
STAND_IN = """\
#!/bin/sh
made=$PWD/out
cd ../..
echo "$@" >>calls
mkdir -p "$made"
proved() {
    echo "fn $1::some: proved"
    echo "crate $1: modules loaded=0 checked=33"
    echo "logic=proved functions=1 sum=7"
}
for crate in $(tail -n +2 needed); do
    proved "$crate"
done
if test -e broken; then
    echo "fn $2::some: not proved"
    echo "crate $2: modules loaded=0 checked=33"
    echo "logic=not-proved"
    exit 1
fi
if test "$1" = lib; then
    cat answer >"member of $2"
    ar rc "$made/lib$2.a" "member of $2"
    exit
fi
test ! -e slow || { sleep 300 & echo $! >sleeper; wait; }
test ! -e pause || { touch paused; sleep 2; }
printf '#!/bin/sh\\ncat >/dev/null\\necho "%s"\\n' "$(cat answer)" >"$made/$2"
chmod +x "$made/$2"
proved "$2"
exec "$made/$2"
"""


def copy_of_repository(work: Path) -> tuple[Path, dict[str, str]]:
    """A copy that has no proofs, with the stand-in first on the path."""
    copy, bin_ = work / "copy", work / "bin"
    copy.mkdir()
    bin_.mkdir()
    for name in ("regdulyn", "crates.txt"):
        shutil.copy(ROOT / name, copy / name)
    for name in ("tools", "reference"):
        shutil.copytree(ROOT / name, copy / name, ignore=shutil.ignore_patterns("__pycache__"))
    for name in ("complete_tables", "run_listing", *BUILT):
        (copy / "crates" / name / "src").mkdir(parents=True)
        (copy / "crates" / name / "src" / "lib.rt").write_text(name)
    (bin_ / "rt").write_text(STAND_IN)
    (bin_ / "rt").chmod(0o755)
    (copy / "answer").write_text("first")
    (copy / "needed").write_text("\n".join(NEEDED))
    return copy, {**os.environ, "PATH": f"{bin_}{os.pathsep}{os.environ['PATH']}"}


def with_only(folder: Path, *names: str) -> dict[str, str]:
    """The environment with these programs alone, in a new folder."""
    folder.mkdir()
    for name in names:
        (folder / name).symlink_to(sys.executable if name == "python3" else shutil.which(name))
    return {**os.environ, "PATH": str(folder)}


def calls(copy: Path) -> int:
    return len((copy / "calls").read_text().splitlines()) if (copy / "calls").exists() else 0


def is_gone(process: int) -> bool:
    """Whether a process has ended."""
    try:
        return "\nState:\tZ" in Path(f"/proc/{process}/status").read_text()
    except (FileNotFoundError, ProcessLookupError):
        return True


def until(condition: Callable[[], Any]) -> bool:
    """Whether a condition holds within some seconds."""
    last = time.monotonic() + 20
    while time.monotonic() < last:
        if condition():
            return True
        time.sleep(0.05)
    return False


def builds(work: Path) -> Iterator[Case]:
    copy, env = copy_of_repository(work)
    a = str(example("a.table"))

    def table(**more: Any) -> tuple[int, bytes, str]:
        return regdulyn("table", a, root=copy, **{"env": env, **more})

    without_rt = with_only(work / "no rt", "python3", "sh", "dirname", "cat")
    yield "no rt", table(env=without_rt), (
        3, b"", "regdulyn: cannot build table_program: rt, the Rattle toolchain, is not on the PATH; --unproved needs"
        " none\n")
    yield "no python3", table(env=with_only(work / "no python3", "sh", "dirname")), (
        3, b"", "regdulyn: python3 is needed, and is not on the PATH\n")

    (copy / "broken").touch()
    status, printed, said = table()
    yield "failed build", (status, printed, said.splitlines()[-1]), (
        3, b"", f"regdulyn: cannot build table_program: table_program is not proved; see {copy}/target/build.log")
    (copy / "broken").unlink()
    status, printed, said = table()
    lines, count = said.splitlines(), len(NEEDED) + 1
    yield "build", (status, printed), (0, b"first\n")
    yield "build, lines", (len(lines), lines[0].split(",")[0], lines[1], lines[-1]), (
        count, f"regdulyn: building table_program from {count} crates",
        f"regdulyn: proved {NEEDED[1]}, 2 of {count} crates",
        f"regdulyn: proved table_program, {count} of {count} crates")
    yield "build, log", "fn complete_tables::some: proved" in (copy / "target" / "build.log").read_text(), True
    yield "second use", (table(), calls(copy)), ((0, b"first\n", ""), 2)
    yield "no listing to draw", regdulyn("picture", a, root=copy, env=env), (
        3, b"", f"regdulyn: cannot draw {a}: this is not the listing of a table\n")
    yield "no rt, built", table(env=without_rt), (0, b"first\n", "")
    (copy / "answer").write_text("refused 6")
    (copy / "crates/run_listing/src/lib.rt").write_text("changed")
    yield "another crate changes", (table()[1], calls(copy)), (b"first\n", 2)
    os.utime(copy / "crates/complete_tables/src/lib.rt")
    yield "only a time changes", (table()[1], calls(copy)), (b"first\n", 2)
    (copy / "crates/complete_tables/src/more.rt").write_text("new")
    os.utime(copy / "crates/complete_tables/src/more.rt", (0, 0))
    status, printed, said = table()
    yield "an old file is new", (status, printed, said.splitlines()[-1], calls(copy)), (
        1, b"refused 6\n", "regdulyn: refused 6: the count after EN differs", 3)
    (copy / "answer").write_text("third")
    (copy / "crates/complete_tables/src/more.rt").unlink()
    yield "a file is gone", (table()[1], calls(copy)), (b"third\n", 4)
    (copy / "crates/table_program/out/table_program").unlink()
    yield "the command keeps its program", (table()[1], calls(copy)), (b"third\n", 4)

    yield from interrupts(copy, env, a)
    yield from at_the_same_time(copy, env, a)
    shutil.rmtree(copy / "target")
    (copy / "target").write_text("")
    yield "no room for target", table(), (
        3, b"", f"regdulyn: cannot build table_program: {copy}/target/command: Not a directory\n")


def heed_interrupts() -> None:
    """Undoes what a shell does to what it starts in the background."""
    signal.signal(signal.SIGINT, signal.SIG_DFL)


def interrupts(copy: Path, env: dict[str, str], file: str) -> Iterator[Case]:
    """A signal in a build ends all of it, and the next use works; a build whose command is killed is waited for."""
    for number, status in ((signal.SIGINT, 130), (signal.SIGTERM, 143)):
        (copy / "slow").touch()
        (copy / "crates/complete_tables/src/lib.rt").write_text(f"for {status}")
        before = calls(copy)
        started = subprocess.Popen([copy / "regdulyn", "table", file], env=env, stdout=subprocess.PIPE,
                                   stderr=subprocess.PIPE, preexec_fn=heed_interrupts)
        yield f"build for {status} starts", until(lambda: calls(copy) > before and (copy / "sleeper").exists()
                                                   and (copy / "sleeper").read_text().strip()), True
        sleeper = int((copy / "sleeper").read_text())
        started.send_signal(number)
        printed, said = started.communicate(timeout=SECONDS)
        yield f"ends with {status}", (started.returncode, printed, said.decode().splitlines()[-1]), (
            status, b"", "regdulyn: the build is interrupted; the next use goes on from what is proved")
        yield f"nothing is left of {status}", until(lambda: is_gone(sleeper)), True
        (copy / "slow").unlink()
        (copy / "sleeper").unlink()
        (copy / "answer").write_text(f"after {status}")
        yield f"next use after {status}", regdulyn("table", file, root=copy, env=env)[:2], (0, b"after %d\n" % status)
    (copy / "crates/complete_tables/src/lib.rt").write_text("for a kill")
    (copy / "pause").touch()
    started = subprocess.Popen([copy / "regdulyn", "table", file], env=env, stdout=subprocess.PIPE,
                               stderr=subprocess.PIPE)
    until((copy / "paused").exists)
    started.kill()
    started.communicate()
    status, printed, said = regdulyn("table", file, root=copy, env=env)
    yield "use after a kill", (status, printed, said.splitlines()[0]), (
        0, b"after 143\n", "regdulyn: waiting for another build")
    (copy / "pause").unlink()


def at_the_same_time(copy: Path, env: dict[str, str], file: str) -> Iterator[Case]:
    """Of several commands one builds."""
    (copy / "crates/complete_tables/src/lib.rt").write_text("for several")
    (copy / "answer").write_text("several")
    (copy / "pause").touch()
    before = calls(copy)
    started = [subprocess.Popen([copy / "regdulyn", "table", file], env=env, stdout=subprocess.PIPE,
                                stderr=subprocess.PIPE) for _ in range(4)]
    printed = [(process.communicate(timeout=SECONDS)[0], process.returncode) for process in started]
    yield "several at once", (printed, calls(copy) - before), ([(b"several\n", 0)] * 4, 1)


def conversions(work: Path) -> Iterator[Case]:
    """What the program that converts prints is written as it is, unless it is a refusal."""
    copy, env = copy_of_repository(work)
    for answer, expected in (("FR of a file", (0, b"FR of a file\n", "")),
                             ("refused 34", (1, b"", f"regdulyn: {failures.refused(34)}\n"))):
        (copy / "answer").write_text(answer)
        shutil.rmtree(copy / "target", ignore_errors=True)
        status, printed, said = regdulyn("convert", str(FAULTS), root=copy, env=env)
        yield f"convert, {answer}, built", (status, printed, said.splitlines()[0].split(" from ")[0]), (
            *expected[:2], "regdulyn: building convert_program")
        yield f"convert, {answer}", regdulyn("convert", str(FAULTS), root=copy, env=env), expected
    yield "convert, what is built", (copy / "calls").read_text(), "run convert_program\n" * 2


def libraries(work: Path) -> Iterator[Case]:
    """The library for C: the archives of its crates, joined, and made again only where they have changed."""
    copy, env = copy_of_repository(work)
    made, archives = copy / "target" / "libregdulyn.a", len(tool.LIBRARY)

    def members() -> list[str]:
        listed = subprocess.run(["ar", "t", made], capture_output=True, text=True)
        return sorted(listed.stdout.splitlines())

    without_rt, without_ar = (with_only(work / folder, "python3", "sh", "dirname", *more)
                              for folder, more in (("no rt", ["ar"]), ("no ar", [])))
    yield "library, no rt", regdulyn("library", root=copy, env=without_rt), (
        3, b"", "regdulyn: cannot build controller: rt, the Rattle toolchain, is not on the PATH\n")
    yield "library, no ar", regdulyn("library", root=copy, env=without_ar), (
        3, b"", "regdulyn: cannot build libregdulyn.a: ar, which joins archives, is not on the PATH\n")
    status, printed, _ = regdulyn("library", root=copy, env=env)
    yield "library", (status, printed, members()), (
        0, f"{made}\n".encode(), [f"member of {crate}" for crate in sorted(tool.LIBRARY)])
    yield "library, second use", (regdulyn("library", root=copy, env=env), calls(copy), len(members())), (
        (0, f"{made}\n".encode(), ""), archives, archives)
    made.unlink()
    yield "library, removed", (regdulyn("library", root=copy, env=env)[0], calls(copy), len(members())), (
        0, archives, archives)

    # several at once, with an `ar` that takes its time; of a library that stands, too
    slow = work / "bin" / "ar"
    slow.write_text(f'#!/bin/sh\n{shutil.which("ar")} "$@" && sleep 0.5\n')
    slow.chmod(0o755)
    for changed, made_again in (("for several", archives), ("for several", 0)):
        (copy / "crates/complete_tables/src/lib.rt").write_text(changed)
        before = calls(copy)
        started = [subprocess.Popen([copy / "regdulyn", "library"], env=env, stdout=subprocess.PIPE,
                                    stderr=subprocess.PIPE) for _ in range(4)]
        ended = [(process.communicate(timeout=SECONDS)[0], process.returncode) for process in started]
        yield f"several libraries at once, {made_again} built", (ended, calls(copy) - before, len(members())), (
            [(f"{made}\n".encode(), 0)] * 4, made_again, archives)
    made.unlink()
    made.mkdir()
    status, printed, said = regdulyn("library", root=copy, env=env)
    yield "library, a folder in its place", (status, printed, said.split(":")[1:2], len(said.splitlines())), (
        3, b"", [" cannot build libregdulyn.a"], 1)
