"""Pictures of tables and of exchanges as SVG."""

from typing import Callable

from contents import Unreadable, file_contents

from . import run, table
from .listings import Unfit


def draw(kind: str, name: str, data: bytes, listing: str, ask: Callable[[bytes], str]) -> str:
    """The picture of a `table` or a `run` from the file's name, its bytes and its listing; `ask` lists another run
    file. Unfit where the listing is not one of this file."""
    name = "".join(letter if letter.isprintable() else "?" for letter in name)
    try:
        contents = file_contents(data)[0]
    except Unreadable as error:
        raise Unfit(f"the file is not the one that was listed: {error.why}") from error
    if contents.kind != kind:
        raise Unfit(f"the file is not that of a {kind}")
    if kind == "table":
        return table.picture(name, contents, listing)
    return run.picture(name, contents, listing, ask)
