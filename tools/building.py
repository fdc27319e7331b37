"""The proved programs and the library for C: whether each stands for the sources as they are, and its build where it
does not.

A built program, or archive, is kept as target/command/NAME-FINGERPRINT. The fingerprint is of the contents of all that
its proof rests on in this repository: the files of its crate and of each crate that it cites, and their lines in
crates.txt. So it is there exactly if these sources were proved, whatever the times of the files say, and a half-made
one is never seen, since the last step of a build is a rename.

One build runs at a time: a build holds a lock on the repository's folder, and so do the processes of `rt`, so that a
build whose command was killed is waited for.
"""

import fcntl
import hashlib
import os
import re
import shutil
import signal
import subprocess
import sys
import time
from contextlib import contextmanager
from pathlib import Path
from typing import Iterator, NamedTuple

from failures import NO_PROGRAM, Failure

ROOT = Path(__file__).resolve().parent.parent
TARGET = ROOT / "target"
KEPT = TARGET / "command"
LOG = TARGET / "build.log"

# What `rt` proves and runs of a crate.
PARTS = ("src", "specs", "proofs", "stdin", "stdout", "args", "data")

# How long the processes of a build have to end before they are killed.
SECONDS_TO_END = 5


# Whether a program stands

def crate_lines() -> dict[str, tuple[str, list[str]]]:
    """The lines of crates.txt: for each crate what stands before the colon, its name first, and the names that it
    cites."""
    lines = (line.split("#")[0] for line in (ROOT / "crates.txt").read_text().splitlines())
    parts = (line.partition(":") for line in lines if line.strip())
    return {head.split()[0]: (" ".join(head.split()), cited.split()) for head, _, cited in parts}


def needed_crates(name: str) -> list[str]:
    """A crate and all that it cites, directly or not; libraries of the toolchain are left out."""
    lines, needed, waiting = crate_lines(), set(), [name]
    while waiting:
        crate = waiting.pop()
        if crate in lines and crate not in needed:
            needed.add(crate)
            waiting += lines[crate][1]
    return sorted(needed)


def crate_files(crate: str) -> list[Path]:
    """The files that a crate's proof and run rest on."""
    files = []
    for part in PARTS:
        path = ROOT / "crates" / crate / part
        files += [path] if path.is_file() else path.rglob("*")
    return sorted(path for path in files if path.is_file())


def fingerprint(name: str) -> str:
    """One word for the contents of all that a program is proved from."""
    lines, total = crate_lines(), hashlib.sha256()
    for crate in needed_crates(name):
        head, cited = lines[crate]
        total.update(f"{head}: {' '.join(cited)}\n".encode())
        for path in crate_files(crate):
            content = hashlib.sha256(path.read_bytes()).hexdigest()
            total.update(f"{content} {path.relative_to(ROOT)}\n".encode())
    return total.hexdigest()[:32]


class Product(NamedTuple):
    """What `rt` makes of a crate by one of its commands, given in the crate's folder, and where it leaves it."""

    crate: str
    command: str
    made: Path

    def kept(self) -> Path:
        """Where it stands, if it is built from the sources as they are."""
        return KEPT / f"{self.made.name}-{fingerprint(self.crate)}"


def made_of(crate: str) -> Path:
    """The folder that `rt` makes a crate's files in."""
    return ROOT / "crates" / crate / "out"


def program_of(crate: str) -> Product:
    """`rt run` proves and builds a program, and runs it once, here on no input."""
    return Product(crate, "run", made_of(crate) / crate)


def archive_of(crate: str) -> Product:
    return Product(crate, "lib", made_of(crate) / f"lib{crate}.a")


# Building

def say(line: str) -> None:
    if sys.stderr is not None:
        print(f"regdulyn: {line}", file=sys.stderr, flush=True)


def cannot_build(name: str, why: str) -> Failure:
    return Failure(NO_PROGRAM, f"cannot build {name}: {why}")


@contextmanager
def build_lock() -> Iterator[int]:
    """Holds the lock on the repository's folder; gives its file descriptor."""
    folder = os.open(ROOT, os.O_RDONLY)
    try:
        try:
            fcntl.flock(folder, fcntl.LOCK_EX | fcntl.LOCK_NB)
        except BlockingIOError:
            say("waiting for another build")
            fcntl.flock(folder, fcntl.LOCK_EX)
        yield folder
    finally:
        os.close(folder)


def end_group(process: subprocess.Popen) -> None:
    """Ends a build's processes, all of them, and waits until they are gone."""
    for number in (signal.SIGINT, signal.SIGTERM, signal.SIGHUP):
        signal.signal(number, signal.SIG_IGN)
    try:
        os.killpg(process.pid, signal.SIGTERM)
        last = time.monotonic() + SECONDS_TO_END
        while time.monotonic() < last:
            process.poll()
            os.killpg(process.pid, 0)
            time.sleep(0.05)
        os.killpg(process.pid, signal.SIGKILL)
    except ProcessLookupError:
        pass
    process.wait()


def follow(lines: Iterator[bytes], count: int) -> str:
    """Copies the prover's text to the log and says which crates are proved; gives the first that is not. Of a crate
    that stands as it was `rt` says nothing, and where one is proved, those that it cites are."""
    done: set[str] = set()
    crate = failed = ""
    with LOG.open("wb") as log:
        for line in lines:
            log.write(line)
            log.flush()
            text = line.decode("utf-8", "replace")
            checked = re.match(r"crate (\w+): ", text)
            if checked:
                crate = checked[1]
            if crate and text.startswith("logic=proved "):
                done.update(needed_crates(crate))
                say(f"proved {crate}, {len(done)} of {count} crates")
            if crate and text.startswith("logic=not-proved") and not failed:
                failed = crate
            if text.startswith("logic="):
                crate = ""
    return failed


def prove(product: Product, lock: int) -> None:
    """Has `rt` prove and build a product, or raises a Failure."""
    rt, name = shutil.which("rt"), product.crate
    if rt is None:
        hint = "; --unproved needs none" if product.command == "run" else ""
        raise cannot_build(name, f"rt, the Rattle toolchain, is not on the PATH{hint}")
    count = len(needed_crates(name))
    KEPT.mkdir(parents=True, exist_ok=True)
    say(f"building {name} from {count} crates, which takes minutes if none is proved yet; the prover's text goes to"
        f" {LOG.relative_to(ROOT)}")
    process = subprocess.Popen([rt, product.command, name], cwd=ROOT / "crates" / name, stdin=subprocess.DEVNULL,
                               stdout=subprocess.PIPE, stderr=subprocess.STDOUT, start_new_session=True,
                               pass_fds=(lock,))
    try:
        failed = follow(iter(process.stdout.readline, b""), count)
        status = process.wait()
    except BaseException:
        end_group(process)
        say("the build is interrupted; the next use goes on from what is proved")
        raise
    if status != 0:
        why = f"{failed} is not proved" if failed else f"rt ended with status {status}"
        raise cannot_build(name, f"{why}; see {LOG}")


def build(product: Product, lock: int) -> Path:
    """The product where it is kept, built and put there if it is not."""
    path = product.kept()
    while not path.is_file():
        prove(product, lock)
        if not product.made.is_file():
            raise cannot_build(product.crate, f"rt left no {product.made}")
        started, path = path, product.kept()
        if path != started:
            say("the sources changed meanwhile")
            continue
        put(product.made.read_bytes(), path)
        for old in KEPT.glob(f"{product.made.name}-*"):
            if old != path:
                old.unlink()
    return path


def put(content: bytes, path: Path) -> None:
    """A file that is there whole or not at all, and that can be run."""
    new = path.with_name(f"{path.name}-new")
    with new.open("wb") as file:
        file.write(content)
        file.flush()
        os.fsync(file.fileno())
    new.chmod(0o755)
    new.replace(path)


@contextmanager
def system_failures(name: str) -> Iterator[None]:
    """What the system refuses in a build, as a Failure."""
    try:
        yield
    except OSError as error:
        raise cannot_build(name, f"{error.filename or ROOT}: {error.strerror}") from error


def built(product: Product) -> Path:
    """The product, built if it is not there."""
    with system_failures(product.crate):
        path = product.kept()
        if path.is_file():
            return path
        with build_lock() as lock:
            return build(product, lock)


# The crates whose calls include/regdulyn.h declares.
LIBRARY = ("controller", "table_calls", "fault_calls", "run_calls")


def library() -> Path:
    """The library for C, target/libregdulyn.a: the archives of its crates, joined."""
    made, ar = TARGET / "libregdulyn.a", shutil.which("ar")
    if ar is None:
        raise cannot_build(made.name, "ar, which joins archives, is not on the PATH")
    products = [archive_of(crate) for crate in LIBRARY]
    with system_failures(made.name), build_lock() as lock:
        archives: list[Path] = []
        while archives != [product.kept() for product in products]:
            archives = [build(product, lock) for product in products]
        join(archives, made, ar, lock)
    return made


def join(archives: list[Path], made: Path, ar: str, lock: int) -> None:
    """Makes one archive of several. All but the calls is local in each, so that they do not clash."""
    joined = KEPT / "joined.a"
    words = "".join([f"create {joined.name}\n", *(f"addlib {path.name}\n" for path in archives), "save\nend\n"])
    done = subprocess.run([ar, "-M"], cwd=KEPT, input=words.encode(), stdout=subprocess.PIPE, stderr=subprocess.STDOUT,
                          pass_fds=(lock,))
    if done.returncode != 0 or not joined.is_file():
        said = done.stdout.decode(errors="replace").strip()
        raise cannot_build(made.name, f"ar ended with status {done.returncode}: {said}")
    joined.replace(made)


def listing(kind: str, data: bytes) -> bytes:
    """What the proved program of a kind, table, run, convert or threshold, prints for its input."""
    path = built(program_of(f"{kind}_program"))
    try:
        try:
            done = subprocess.run([path], input=data, stdout=subprocess.PIPE)
        except FileNotFoundError:
            # a build of changed sources took its place since
            path = built(program_of(f"{kind}_program"))
            done = subprocess.run([path], input=data, stdout=subprocess.PIPE)
    except OSError as error:
        raise Failure(NO_PROGRAM, f"cannot run {path}: {error.strerror}") from error
    if done.returncode != 0:
        raise Failure(NO_PROGRAM, f"{path} ended with status {done.returncode}")
    return done.stdout
