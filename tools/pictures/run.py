"""The picture of an exchange: a line for each drive, from left to right through the rounds.

The rows stand in the order of sends, core drives first, so that a drive which stops between two sends has reached the
rows from the top down to some row. Each message is one upright line from its sender to those who get it. Where that
would be too much only the last messages of drives that stop are drawn.
"""

from typing import Callable

from contents import Contents, counted

from .course import Course, Send
from .listings import run_listing
from .svg import BAND, FAINT, MARGIN, SOFT, Drawing, dots, squares, text_width

# the most messages that are drawn in a round, and in all, if not only those of drives that stop
MOST_IN_ROUND = 9
MOST_MESSAGES = 60
# above so many rounds a decision that the listing does not have is drawn without its number, which stands at the right
MOST_WIDE_ROUNDS = 12
LEAST_WIDTH = 720


class Scale:
    """Sizes by the number of rows."""

    def __init__(self, rows: int):
        step = 0 if rows <= 12 else 1 if rows <= 24 else 2 if rows <= 40 else 3
        self.row = (32, 26, 21, 17)[step]
        self.font = (14, 13, 12, 11)[step]
        self.slot = (22, 17, 13, 11)[step]
        self.dot = (4.2, 3.8, 3.2, 2.6)[step]
        self.core_line = (2.6, 2.2, 1.8, 1.5)[step]


class RunPicture:
    """Places of rows and columns, and what is drawn at them."""

    def __init__(self, name: str, course: Course):
        self.course, self.name = course, name
        self.contents, self.listing = course.contents, course.listing
        self.scale = Scale(self.contents.drives)
        self.sends = {r: course.sends(r) for r in range(1, course.rounds + 1)}
        counts = [len(sends) for sends in self.sends.values()]
        self.compact = course.rounds > MOST_WIDE_ROUNDS
        self.pad = 4 if self.compact else 8
        self.all_drawn = max(counts) <= MOST_IN_ROUND and sum(counts) <= MOST_MESSAGES
        if not self.all_drawn:
            self.sends = {r: [send for send in sends if send.last] for r, sends in self.sends.items()}
        self.drawing = Drawing(f"Exchange {name}", f"Drives by rounds: {name}, core {self.listing.core}")
        self._place_rows()
        self._place_columns()

    # Places

    def _place_rows(self) -> None:
        self.y: dict[int, float] = {}
        self.heads: list[tuple[float, str]] = []
        y = 132.0
        for title, drives in (("core: these drives send", self.course.core),
                              ("listeners: these only receive", self.course.listeners)):
            if drives:
                self.heads.append((y, title))
                y += 12 + self.scale.row / 2
                for drive in drives:
                    self.y[drive] = y
                    y += self.scale.row
                y += 10
        self.foot = y - self.scale.row / 2 - 4

    def _place_columns(self) -> None:
        font = self.scale.font
        self.at_proposal = MARGIN + text_width("drive 64 ", font, True)
        proposals = [self.at_proposal + text_width(self.proposal(drive), font) for drive in self.course.core]
        self.grid = 16 + max(proposals + [MARGIN + text_width(title, 12) for _, title in self.heads])
        self.starts: dict[int, float] = {}
        self.crosses: dict[int, float] = {}
        self.closes: dict[int, float] = {}
        x = self.grid
        for r, sends in self.sends.items():
            self.starts[r] = x
            x += self.pad + len(sends) * self.scale.slot
            if any(self.course.stop(d) == r for d in self.y):
                self.crosses[r] = x + self.scale.slot / 2
                x += self.scale.slot
            x += max([self.box_width(d) + 5 for d, decision in self.course.decided.items()
                      if decision and decision[1] == r], default=0)
            x = max(x + self.pad - 2, self.starts[r] + text_width(str(r), font) + 8)
            if self.all_drawn:
                x = max(x, self.starts[r] + text_width(f"round {r}", font, True) + 14)
            self.closes[r] = x
        self.results = x + 18

    def proposal(self, drive: int) -> str:
        """What a drive of the core proposes."""
        return f"proposes {self.contents.patterns[drive]}"

    def listed(self, drive: int) -> bool:
        """Whether the listing has the drive's decision."""
        return self.listing.decisions[drive] is not None

    def box_text(self, drive: int) -> str:
        """The number in the box of a decision."""
        return "" if self.compact and not self.listed(drive) else str(self.course.decided[drive][0])

    def box_width(self, drive: int) -> float:
        return text_width(self.box_text(drive), self.scale.font - 1, True) + 8

    # Drawing

    def draw(self) -> str:
        """The whole picture."""
        self._title()
        self._rows()
        self._columns()
        for drive in self.y:
            self._line(drive)
        for r, sends in self.sends.items():
            for place, send in enumerate(sends):
                self._send(self.starts[r] + self.pad + (place + 0.5) * self.scale.slot, send)
        for drive in self.y:
            self._ends(drive)
        Legend(self).draw()
        return self.drawing.svg()

    def _title(self) -> None:
        d, size = self.drawing, len(self.course.core)
        d.text(MARGIN, 42, f"Exchange {self.name}", 22, bold=True)
        numbers = sorted({decision[0] for decision in self.listing.decisions.values() if decision})
        d.text(MARGIN, 66, f"{counted(self.contents.drives, 'drive')}, {size} in the core, so at most "
               f"{counted(size, 'round')}. The drives that stay up decide {', '.join(map(str, numbers))}.", 13)
        d.text(MARGIN, 87, f"core {self.listing.core} stops {self.listing.stops}", 13, printed=True)

    def _rows(self) -> None:
        d, font = self.drawing, self.scale.font
        end = self.results + max(text_width(self._result(drive), font) for drive in self.y) + 6
        for drive, y in self.y.items():
            core = drive in self.course.core
            if core:
                d.box(MARGIN - 8, y - self.scale.row / 2, end - MARGIN + 8, self.scale.row, BAND)
            base = y + font * 0.36
            d.text(MARGIN, base, f"drive {drive}", font, bold=core)
            if core:
                d.text(self.at_proposal, base, self.proposal(drive), font)
            d.text(self.results, base, self._result(drive), font)
        for y, title in self.heads:
            d.text(MARGIN, y + 2, title, 12, fill=SOFT)

    def _result(self, drive: int) -> str:
        """The words of the listing, and of a stop what the file says of it."""
        decision = self.listing.decisions[drive]
        if decision:
            return f"decides {decision[0]} round {decision[1]}"
        stop, before = self.course.stops[drive], self.course.decided[drive]
        said = f"stopped: round {stop.round}"
        if self.course.stop(drive) is None:
            return f"{said}, when it had halted"
        if drive in self.course.core:
            said += f", {stop.sends} of {self.contents.drives - 1} sends"
        return said + (f", had decided {before[0]}" if before else "")

    def _columns(self) -> None:
        d, wide = self.drawing, self.all_drawn
        y = 118
        if not wide:
            d.text(self.grid - 8, y, "round", self.scale.font, "end", True)
        for r, close in self.closes.items():
            d.text((self.starts[r] + close) / 2, y, f"round {r}" if wide else str(r), self.scale.font, "middle", wide)
            d.line(close, y + 6, close, self.foot, 1, FAINT, "3 3")
        d.line(self.grid, y + 6, self.grid, self.foot, 1, FAINT, "3 3")

    def _line(self, drive: int) -> None:
        """The drive's line up to its halt or stop."""
        stop = self.course.stop(drive)
        end = self.crosses[stop] if stop else self.closes[self.course.halt(drive)]
        width = self.scale.core_line if drive in self.course.core else 1
        self.drawing.line(self.grid, self.y[drive], end, self.y[drive], width)

    def _send(self, x: float, send: Send) -> None:
        d, radius = self.drawing, self.scale.dot
        rows = [self.y[drive] for drive in (send.sender, *send.got)]
        d.line(x, min(rows), x, max(rows), 2.2 if send.decided else 1)
        d.path(dots([(x, self.y[drive]) for drive in send.got], radius))
        d.path(dots([(x, self.y[drive]) for drive in send.missed], radius), "#ffffff", "#000000")
        d.path(squares([(x, self.y[send.sender])], 2.3 * radius), "#000000" if send.decided else "#ffffff", "#000000",
               1.4)

    def _ends(self, drive: int) -> None:
        d, y = self.drawing, self.y[drive]
        stop, halt, decision = self.course.stop(drive), self.course.halt(drive), self.course.decided[drive]
        if stop:
            d.cross(self.crosses[stop], y, self.scale.row * 0.24, 2.6)
        if halt:
            d.line(self.closes[halt], y - self.scale.row * 0.32, self.closes[halt], y + self.scale.row * 0.32, 3.4)
        if decision:
            self.box(self.closes[decision[1]] - 4 - self.box_width(drive), y, drive)

    def box(self, x: float, y: float, drive: int) -> None:
        """The drive's decision in its box: black if the listing has it, white if the drive stopped later."""
        d, size, listed = self.drawing, self.scale.font - 1, self.listed(drive)
        width, height = self.box_width(drive), size + 5
        d.box(x, y - height / 2, width, height, "#000000" if listed else "#ffffff", "#000000", 1.2)
        if self.box_text(drive):
            d.text(x + width / 2, y + size * 0.36, self.box_text(drive), size, "middle", True,
                   "#ffffff" if listed else "#000000")


class Legend:
    """What the marks mean; only those that the picture has."""

    def __init__(self, picture: RunPicture):
        self.p, self.d = picture, picture.drawing
        self.y = picture.foot + 34
        self.width = max(self.d.right, LEAST_WIDTH) - MARGIN
        boxes = (picture.box_width(d) for d, decision in picture.course.decided.items() if decision)
        self.sample = max([48, *boxes])

    def draw(self) -> None:
        p, course = self.p, self.p.course
        sends = [send for sends in p.sends.values() for send in sends]
        before = [d for d in p.y if not p.listed(d) and course.decided[d]]
        self.d.text(MARGIN, self.y, "How to read it", 13, bold=True)
        self.y += 24
        self._entry(self._decision, "the drive decides this number at the close of the round")
        if before:
            self._entry(self._decision_before, ("the drive had decided, as said on the right," if p.compact else
                                                 "the drive had decided this number") +
                        " and stopped later; the listing says only that it stopped")
        self._entry(self._halt, "the drive halts at the close of the round: its part is over")
        if any(course.stop(d) for d in p.y):
            self._entry(self._cross, "the drive stops: its supply is gone before the round closes")
        if any(not send.decided for send in sends):
            self._entry(self._known, "a message (KW): the white square sends all that it knows, the dots get it")
        if any(send.decided for send in sends):
            self._entry(self._decide, "a message (DW): the black square sends its decision, the dots get it")
        if any(send.missed for send in sends):
            self._entry(self._missed, "does not get the message: its sender stops before this send")
        self.y += 4
        for text in self._notes(before):
            self.y = self.d.paragraph(MARGIN, self.y, text, self.width) + 4

    def _notes(self, before: list[int]) -> list[str]:
        p = self.p
        notes = []
        if p.contents.drives > 1:
            notes.append("A drive sends to the other core drives first, rising, then to the listeners, rising: the "
                         "rows stand in this order. Messages to drives that have halted or stopped, or stop in that "
                         "round, are not drawn.")
        if not p.all_drawn:
            notes.append("In each round every core drive on its line sends; only the last messages of drives that "
                         "stop are drawn.")
        if p.course.listeners:
            notes.append("Only core drives propose a number: a listener decides one of theirs.")
        notes.append("The core, the decisions and who stopped are taken from the listing; proposals, rounds and sends "
                     "of stops from the file." + (" What a drive had decided before it stopped is taken from the "
                                                  "listing of the same file with only the stops of earlier "
                                                  "rounds." if before else ""))
        return notes

    def _entry(self, sample: Callable[[float, float], None], text: str) -> None:
        """A sample of the mark and what it means."""
        sample(MARGIN + self.sample / 2, self.y - 4)
        left = self.sample + 14
        self.y = self.d.paragraph(MARGIN + left, self.y, text, self.width - left, 13) + 6

    def _decision(self, x: float, y: float) -> None:
        self._box(x, y, True)

    def _decision_before(self, x: float, y: float) -> None:
        self._box(x, y, False)

    def _box(self, x: float, y: float, listed: bool) -> None:
        drive = next(d for d, decision in self.p.course.decided.items() if decision and self.p.listed(d) == listed)
        self.p.box(x - self.p.box_width(drive) / 2, y, drive)

    def _halt(self, x: float, y: float) -> None:
        self.d.line(x - 16, y, x + 6, y, 2)
        self.d.line(x + 6, y - 8, x + 6, y + 8, 3.4)

    def _cross(self, x: float, y: float) -> None:
        self.d.line(x - 16, y, x, y, 2)
        self.d.cross(x, y, 6, 2.6)

    def _known(self, x: float, y: float) -> None:
        self._message(x, y, False)

    def _decide(self, x: float, y: float) -> None:
        self._message(x, y, True)

    def _message(self, x: float, y: float, decided: bool) -> None:
        self.d.line(x - 16, y, x + 16, y, 2.2 if decided else 1)
        self.d.path(squares([(x - 16, y)], 9), "#000000" if decided else "#ffffff", "#000000", 1.4)
        self.d.path(dots([(x, y), (x + 16, y)], 4))

    def _missed(self, x: float, y: float) -> None:
        self.d.path(dots([(x, y)], 4), "#ffffff", "#000000")


def picture(name: str, contents: Contents, listing: str, ask: Callable[[bytes], str]) -> str:
    """The picture of an exchange from its file, its listing and a way to list another file."""
    return RunPicture(name, Course(contents, run_listing(listing), ask)).draw()
