"""The command `./regdulyn`: its words, and what each command does and how it ends."""

import os
import re
import signal
import stat
import sys
from pathlib import Path
from typing import Callable, NamedTuple, NoReturn

if sys.version_info < (3, 10):
    print("regdulyn: python3 3.10 or later is needed", file=sys.stderr)
    sys.exit(3)

import building
import contents as model
import explaining
import helps
import mistakes
import texts
from failures import DONE, NO_PROGRAM, REFUSED, WRONG_USE, Failure, refused
from pictures import Unfit, draw

# No file that can be accepted is longer, and what stands behind the first 4096 bytes of a longer one changes nothing.
MOST_BYTES = 65536
MOST_TEXT = 1 << 20


# Input and output

def read_file(name: str, most: int) -> bytes:
    """The start of a file, up to a number of bytes; - is standard input."""
    try:
        if name == "-":
            if sys.stdin is None:
                raise Failure(WRONG_USE, "cannot read standard input: it is closed")
            return sys.stdin.buffer.read(most)
        if stat.S_ISDIR(os.stat(name).st_mode):
            raise Failure(WRONG_USE, f"cannot read {name}: it is a directory")
        with open(name, "rb") as file:
            return file.read(most)
    except OSError as error:
        raise Failure(WRONG_USE, f"cannot read {spoken(name)}: {error.strerror}") from error
    except ValueError as error:
        raise Failure(WRONG_USE, f"cannot read {name!r}: {error}") from error


def write(output: bytes) -> None:
    """Writes to standard output, all of it."""
    if sys.stdout is None:
        raise Failure(WRONG_USE, "cannot write: standard output is closed")
    try:
        sys.stdout.buffer.write(output)
        sys.stdout.buffer.flush()
    except BrokenPipeError:
        raise
    except OSError as error:
        drop_output()
        raise Failure(WRONG_USE, f"cannot write: {error.strerror}") from error


def write_file(command: str, made: bytes) -> None:
    """Writes the bytes of a file to standard output, unless a terminal would show them."""
    if sys.stdout is not None and sys.stdout.isatty():
        raise Failure(WRONG_USE, f"{command} writes bytes, and standard output is a terminal; add > FILE")
    write(made)


def drop_output() -> None:
    """What is still to be written goes nowhere, so that the end of the process does not try again."""
    os.dup2(os.open(os.devnull, os.O_WRONLY), sys.stdout.fileno())


def complain(line: str) -> None:
    if sys.stderr is not None:
        print(line, file=sys.stderr, flush=True)


def spoken(name: str) -> str:
    return "standard input" if name == "-" else name


# Commands

def answer(kind: str, data: bytes, unproved: bool) -> bytes:
    """What the proved program of a kind prints, or the second program, which is said."""
    if not unproved:
        return building.listing(kind, data)
    complain("regdulyn: not proved: the second program answers")
    return model.listing(kind, data)


class Use(NamedTuple):
    """A command's file, and whether the second program answers."""

    file: str
    unproved: bool

    def listing(self, kind: str, data: bytes) -> bytes:
        return answer(kind, data, self.unproved)

    def further(self, kind: str, data: bytes) -> bytes:
        """Another listing for the same use: that it is not proved is said with the first."""
        return (model.listing if self.unproved else building.listing)(kind, data)


def end_of(number: int, hint: str = "") -> int:
    """The exit status, with a refusal's meaning on standard error."""
    if number:
        complain(f"regdulyn: {refused(number)}{hint}")
    return REFUSED if number else DONE


def hint_for(kind: str, data: bytes, number: int) -> str:
    """What a refused file may have been meant for."""
    if number == 2 and texts.looks_like(data):
        return "; this looks like a text, of which ./regdulyn make makes a file"
    if kind != "convert" and number == 2 and model.is_fault_list(data) and model.refusal_of("convert", data) != 2:
        return "; this is a fault list" + (
            "" if model.refusal_of("convert", data) else ", of which ./regdulyn convert makes a table")
    if kind != "run" and number == 7 and model.kind_of(data) == "run":
        return "; a run file stands behind the table, and " + (
            "./regdulyn run reads both" if kind == "table" else "convert takes a table alone")
    if kind == "run" and number == 1 and not model.refusal_of("table", data):
        return "; there is no run file behind the table"
    return ""


def list_file(kind: str, use: Use) -> int:
    data = read_file(use.file, MOST_BYTES)
    printed = use.listing(kind, data)
    write(printed)
    number = model.refusal_in(printed)
    return end_of(number, hint_for(kind, data, number))


def table(use: Use) -> int:
    return list_file("table", use)


def run(use: Use) -> int:
    return list_file("run", use)


def make(use: Use) -> int:
    data = read_file(use.file, MOST_TEXT + 1)
    name = spoken(use.file)
    if len(data) > MOST_TEXT:
        raise Failure(WRONG_USE, f"cannot read {name}: a text of more than {MOST_TEXT} bytes")
    if data.startswith(b"FR") and len(data) > 2 and data[2] < 0x20:
        complain(f"{name}:1: this is no text but a made file; ./regdulyn show prints its text")
        return REFUSED
    try:
        source = data.decode("utf-8-sig")
    except UnicodeDecodeError as error:
        complain(f"{name}:{data[:error.start].count(10) + 1}: this is no text: byte {data[error.start]:02x}")
        return REFUSED
    made, wrong = texts.text_mistakes(source)
    for line, message in wrong:
        complain(f"{name}:{line}: {message}")
    if made is None:
        return REFUSED
    write_file("make", made)
    return DONE


def readable(use: Use) -> tuple[model.Contents, int]:
    """A file's contents and refusal; what is wrong goes to standard error. A Failure if it cannot be shown."""
    data = read_file(use.file, MOST_BYTES)
    name = spoken(use.file)
    try:
        contents, offsets = model.file_contents(data)
    except model.Unreadable as error:
        complain(f"{name}: byte {error.offset}: {error.why}")
        kind = model.kind_of(data)
        number = model.refusal_of(kind, data)
        raise Failure(REFUSED, refused(number) + hint_for(kind, data, number)) from error
    for place, message in mistakes.found_in(contents):
        complain(f"{name}: byte {offsets[place]}: {message}")
    return contents, model.refusal_of(contents.kind, data)


def show(use: Use) -> int:
    contents, number = readable(use)
    write(texts.canonical_text(contents, number).encode())
    return end_of(number)


def table_listing(use: Use, contents: model.Contents) -> bytes:
    """The listing of the table, or of the one that a fault list converts to; or the refusal."""
    if not contents.faults:
        return use.listing("table", model.table_bytes(contents))
    made = use.listing("convert", model.file_bytes(contents))
    return made if model.refusal_in(made) else use.further("table", made)


def explain(use: Use) -> int:
    contents, number = readable(use)
    printed = table_listing(use, contents)
    if model.refusal_in(printed):
        lines = list(explaining.refused_lines(contents))
    else:
        lines = list(explaining.table_lines(contents, printed))
        if contents.patterns is not None:
            lines += ["", "run:", *explaining.run_lines(contents, printed)]
    write("".join(line + "\n" for line in lines).encode())
    return end_of(number)


def picture(use: Use) -> int:
    data = read_file(use.file, MOST_BYTES)
    kind = "run" if model.kind_of(data) == "run" else "table"
    printed = use.listing(kind, data)
    number = model.refusal_in(printed)
    if not number:
        name = spoken(use.file)
        try:
            drawn = draw(kind, Path(name).name, data, printed.decode("ascii", "replace"),
                         lambda other: use.further("run", other).decode("ascii", "replace"))
        except Unfit as unfit:
            raise Failure(NO_PROGRAM, f"cannot draw {name}: {unfit}") from unfit
        write(drawn.encode())
    return end_of(number, hint_for(kind, data, number))


def write_made(kind: str, data: bytes, unproved: bool) -> int:
    """Writes the file that a program makes, unless it refuses its input."""
    printed = answer(kind, data, unproved)
    number = model.refusal_in(printed)
    if not number:
        write_file(kind, printed)
    return end_of(number, hint_for(kind, data, number))


def convert(use: Use) -> int:
    return write_made("convert", read_file(use.file, MOST_BYTES), use.unproved)


def threshold(n: int, t: int, unproved: bool) -> int:
    return write_made("threshold", bytes([n, t]), unproved)


def missed(use: Use, given: list[int]) -> int:
    data = read_file(use.file, MOST_BYTES)
    printed = use.listing("table", data)
    number = model.refusal_in(printed)
    if number:
        return end_of(number, hint_for("table", data, number))
    line = explaining.missed_line(printed, given)
    if not line:
        return end_of(4)
    write(f"{line}\n".encode())
    return DONE


def library() -> int:
    write(f"{building.library()}\n".encode())
    return DONE


COMMANDS: dict[str, tuple[Callable[[Use], int], str]] = {
    "table": (table, helps.TABLE), "run": (run, helps.RUN), "explain": (explain, helps.EXPLAIN),
    "picture": (picture, helps.PICTURE), "make": (make, helps.MAKE), "show": (show, helps.SHOW),
    "convert": (convert, helps.CONVERT),
}
HELPS = {name: text for name, (_, text) in COMMANDS.items()} | {
    "missed": helps.MISSED, "threshold": helps.THRESHOLD, "library": helps.LIBRARY}
# The commands that a proved program answers.
PROVED = ("table", "run", "explain", "missed", "picture", "convert", "threshold")


# Words of the command line

def wrong_use(what: str) -> NoReturn:
    raise Failure(WRONG_USE, f"{what}; see ./regdulyn --help")


def one_byte(word: str, what: str) -> int:
    """A decimal number; those above 255 count as 255, which is above every limit too."""
    if not re.fullmatch("[0-9]+", word):
        wrong_use(f"{what} is {word!r}, which is no decimal number")
    return min(int(word.lstrip("0")[:4] or "0"), 255)


def two_numbers(words: list[str]) -> tuple[int, int]:
    """The numbers of drives that a frame has, and that may drop out."""
    if len(words) != 2:
        wrong_use(f"threshold takes two numbers, and here {'is' if len(words) < 2 else 'are'} {len(words) or 'none'}")
    return one_byte(words[0], "the number of drives"), one_byte(words[1], "the number that may drop out")


def main(words: list[str]) -> int:
    options = [word for word in words if word.startswith("-") and word != "-"]
    names = [word for word in words if word not in options]
    if "--help" in options or "-h" in options:
        if names and names[0] not in HELPS:
            wrong_use(f"unknown command {names[0]}")
        write((HELPS[names[0]] if names else helps.ALL).encode())
        return DONE
    for option in options:
        if option != "--unproved":
            wrong_use(f"unknown option {option}")
    if not names:
        wrong_use("no command")
    command, *files = names
    if command not in HELPS:
        wrong_use(f"unknown command {command}")
    if command == "library":
        if files or options:
            wrong_use("library takes no file and no option")
        return library()
    if command == "threshold":
        return threshold(*two_numbers(files), bool(options))
    if command == "missed":
        if len(files) < 2:
            wrong_use(f"missed takes a file and drives, and here is {'only a file' if files else 'none'}")
        return missed(Use(files[0], bool(options)), [one_byte(word, "a drive") for word in files[1:]])
    if len(files) != 1:
        wrong_use(f"{command} takes one file, and here {'are' if files else 'is'} {len(files) or 'none'}")
    if options and command not in PROVED:
        wrong_use(f"--unproved goes with {', '.join(PROVED)}, and {command} needs no proved program")
    return COMMANDS[command][0](Use(files[0], bool(options)))


class Ended(Exception):
    """A signal that ends the command."""


def on_signal(number: int, _frame: object) -> NoReturn:
    raise Ended(number)


def guarded(words: list[str]) -> int:
    """The command, with one line for each failure."""
    for number in (signal.SIGINT, signal.SIGTERM, signal.SIGHUP):
        if signal.getsignal(number) != signal.SIG_IGN:
            signal.signal(number, on_signal)
    try:
        return main(words)
    except Failure as failure:
        complain(f"regdulyn: {failure.line}")
        return failure.status
    except BrokenPipeError:
        drop_output()
        return 128 + signal.SIGPIPE
    except Ended as ended:
        return 128 + ended.args[0]


if __name__ == "__main__":
    sys.exit(guarded(sys.argv[1:]))
