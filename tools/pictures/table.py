"""The picture of a table: drives across, survivor sets and cores down, a square where a drive is a member.

The drives of the chosen core are black in every row and their numbers stand on black: each survivor set has a black
square, since a core meets every set.
"""

import math

from contents import Contents, counted
from regdulyn.masks import drives

from .listings import TableListing, Unfit, table_listing
from .svg import BAND, FAINT, MARGIN, SOFT, Drawing, squares, text_width

MOST_CORES = 128
MOST_DROPPED = 6
SETS, CORES = "Survivor sets", "Cores"
GREY = "#9a9a9a"
LEAST_WIDTH = 720
GAP = 40
# the longest panels that are tried, and the sides of a sheet to one another
PANEL_LENGTHS = (128, 64, 43, 32, 26, 22, 16)
SHEET = math.sqrt(2)


class Panel:
    """A matrix or a part of one: a title, the drives' numbers, and a row for each mask."""

    def __init__(self, picture: "TablePicture", title: str, rows: list[tuple[str, str, str]], more: str = ""):
        self.p, self.title, self.rows, self.more = picture, title, rows, more
        self.cell, self.font = picture.cell, picture.font
        self.left = picture.left
        tail = max(text_width(end, self.font, True) for _, _, end in rows)
        self.width = max(self.left + picture.n * self.cell + tail + 8, text_width(title, 15, True),
                         text_width(more, 12))
        self.top = 30 + self.cell
        self.height = self.top + len(rows) * self.cell + (20 if more else 0)

    def draw(self, x: float, y: float) -> None:
        """With its upper left corner at x, y."""
        d, cell = self.p.drawing, self.cell
        d.text(x, y + 15, self.title, 15, bold=True)
        grid, top = x + self.left, y + self.top
        d.text(grid - 6, top - 3 - cell / 2 + self.font * 0.36, "drive", self.font, "end", fill=SOFT)
        for drive in range(1, self.p.n + 1):
            chosen = drive in self.p.chosen
            centre = grid + (drive - 0.5) * cell
            if chosen:
                d.box(centre - cell / 2 + 0.5, top - cell - 3, cell - 1, cell, "#000000")
            d.text(centre, top - 3 - cell / 2 + self.p.small * 0.36, str(drive), self.p.small, "middle", chosen,
                   "#ffffff" if chosen else "#000000")
        for place, row in enumerate(self.rows):
            self._row(grid, top + place * cell, *row)
        for drive in range(0, self.p.n + 1, 1 if self.p.n <= 24 else 8):
            d.line(grid + drive * cell, top, grid + drive * cell, top + len(self.rows) * cell, 0.6, FAINT)
        if self.more:
            d.text(x, top + len(self.rows) * cell + 18, self.more, 12)

    def _row(self, grid: float, y: float, label: str, mask: str, end: str) -> None:
        d, cell = self.p.drawing, self.cell
        right = grid + self.p.n * cell
        middle, base = y + cell / 2, y + cell / 2 + self.font * 0.36
        if end:
            d.box(grid, y, right - grid, cell, BAND)
            d.text(right + 6, base, end, self.font, bold=True)
        d.line(grid, y, right, y, 0.6, FAINT)
        d.line(grid, y + cell, right, y + cell, 0.6, FAINT)
        d.text(grid - 6, base, label, self.font, "end", bool(end), printed=True)
        centres = {drive: (grid + (drive - 0.5) * cell, middle) for drive in drives(int(mask, 16))}
        side = cell * 0.66
        d.path(squares([at for drive, at in centres.items() if drive in self.p.chosen], side))
        d.path(squares([at for drive, at in centres.items() if drive not in self.p.chosen], side), GREY, "#000000", 0.8)


class TablePicture:
    """Sizes by the number of drives, the matrices, the verdicts and what the marks mean."""

    def __init__(self, name: str, contents: Contents, listing: TableListing):
        if contents.drives != listing.n:
            raise Unfit("the listing is not of this file")
        self.name, self.contents, self.listing = name, contents, listing
        self.n = listing.n
        self.chosen = drives(int(listing.chosen, 16))
        step = 0 if self.n <= 12 else 1 if self.n <= 32 else 2
        self.cell, self.font, self.small = (24, 19, 16)[step], (13, 12, 11)[step], (13, 11, 9)[step]
        self.drawing = Drawing(f"Table {name}", f"Drives by survivor sets and cores: {name}, chosen {listing.chosen}")
        shown = listing.cores[:MOST_CORES]
        self.rows = {SETS: [(f"{place}. set {mask}", mask, "") for place, mask in enumerate(listing.sets, 1)],
                     CORES: [(f"core {mask}", mask, "chosen" if mask == listing.chosen else "") for mask in shown]}
        self.left = 10 + max(text_width(label, self.font, printed=True)
                             for rows in self.rows.values() for label, _, _ in rows)
        more = len(listing.cores) - len(shown)
        self.more = f"and {counted(more, 'more core')}, which the listing has" if more else ""

    def draw(self) -> str:
        """The whole picture."""
        d = self.drawing
        d.text(MARGIN, 42, f"Table {self.name}", 22, bold=True)
        d.text(MARGIN, 66, f"{counted(self.n, 'drive')}, {counted(len(self.listing.sets), 'survivor set')}, "
               f"{counted(len(self.listing.cores), 'core')}", 13)
        y = self._matrices(92)
        width = max(d.right, LEAST_WIDTH) - MARGIN
        y = self._verdicts(y + 30)
        self._legend(y + 14, width)
        return d.svg()

    def _matrices(self, y: float) -> float:
        """The matrices in rows of panels, placed as they print largest; where they end."""
        layouts = [layout for length in PANEL_LENGTHS
                   for layout in ([self._panels(length, SETS) + self._panels(length, CORES)],
                                  [self._panels(length, SETS), self._panels(length, CORES)])]
        for panels in min(layouts, key=self._sheet):
            x = MARGIN
            for panel in panels:
                panel.draw(x, y)
                x += panel.width + GAP
            y += max(panel.height for panel in panels) + GAP
        return y - GAP

    def _panels(self, length: int, kind: str) -> list[Panel]:
        """The sets or the cores in panels of at most so many rows."""
        rows = self.rows[kind]
        parts = [rows[start:start + length] for start in range(0, len(rows), length)]
        return [Panel(self, kind if place == 0 else f"{kind}, continued", part,
                      self.more if kind == CORES and place == len(parts) - 1 else "")
                for place, part in enumerate(parts)]

    @staticmethod
    def _sheet(layout: list[list[Panel]]) -> float:
        """The short side of the smallest sheet, upright or across, that holds the panels and the text."""
        width = max(LEAST_WIDTH, *(sum(panel.width + GAP for panel in panels) for panels in layout))
        height = 360 + sum(max(panel.height for panel in panels) + GAP for panels in layout)
        return min(max(width, height / SHEET), max(width / SHEET, height))

    def _verdicts(self, y: float) -> float:
        d = self.drawing
        d.text(MARGIN, y, "Verdicts", 15, bold=True)
        y += 22
        column = max(text_width(line, 13, printed=True) for line in self.listing.verdicts) + 16
        for line in self.listing.verdicts:
            _, k, said, *_ = line.split()
            meaning = {"yes": f"any {k} sets share a drive", "no": "these sets share no drive",
                       "few": f"the frame has no more than {k} drives"}[said]
            d.text(MARGIN, y, line, 13, printed=True)
            d.text(MARGIN + column, y, meaning, 12, fill=SOFT)
            y += 20
        return y

    def _legend(self, y: float, width: float) -> None:
        d = self.drawing
        d.text(MARGIN, y, "How to read it", 13, bold=True)
        y += 22
        for fill, text in (("#000000", "a drive of the chosen core, which is in this set or core"),
                           (GREY, "another drive that is in this set or core")):
            d.path(squares([(MARGIN + 8, y - 4)], 13), fill, "#000000", 0.8)
            d.text(MARGIN + 26, y, text, 13)
            y += 20
        for text in self._notes():
            y = d.paragraph(MARGIN, y + 2, text, width) + 3

    def _notes(self) -> list[str]:
        notes = ["The table claims: whatever fails, all drives of at least one survivor set stay up. A core is a group "
                 "with a drive in every survivor set, and no smaller part of it has that; so at least one drive of "
                 "each core stays up. In an exchange the drives of the chosen core send, the others listen.",
                 "Masks are hexadecimal; bit 0 (value 1) is drive 1. A verdict's sets are named by their places "
                 "above; its blocks split the drives so that no block is empty and none holds a core."]
        within = {drive for mask in self.listing.sets for drive in drives(int(mask, 16))}
        absent = [drive for drive in range(1, self.n + 1) if drive not in within]
        if absent:
            notes.append(f"In no survivor set: drive{'s' if len(absent) > 1 else ''} {' '.join(map(str, absent))}.")
        dropped = self._dropped()
        if dropped:
            shown = " ".join(dropped[:MOST_DROPPED])
            more = f" and {len(dropped) - MOST_DROPPED} more" if len(dropped) > MOST_DROPPED else ""
            notes.append(f"In the file but not in the normal table, as a repeat or because it holds another set: "
                         f"{shown}{more}.")
        return notes

    def _dropped(self) -> list[str]:
        """The sets of the file, as masks, for which the listing has none left."""
        left = list(self.listing.sets)
        dropped = []
        for mask in (f"{mask:x}" for mask in self.contents.sets):
            if mask in left:
                left.remove(mask)
            else:
                dropped.append(mask)
        return dropped


def picture(name: str, contents: Contents, listing: str) -> str:
    """The picture of a table from its file and its listing."""
    return TablePicture(name, contents, table_listing(listing)).draw()
