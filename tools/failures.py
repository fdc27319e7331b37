"""How a command ends: the exit statuses, the failures that end it with one line, and what each refusal means."""

DONE = 0
REFUSED = 1      # the file or the numbers are refused, or a text has mistakes
WRONG_USE = 2    # a wrong use, or a file that cannot be read or written
NO_PROGRAM = 3   # a proved program cannot be built or run, or its listing is not of the file


class Failure(Exception):
    """Ends the command with a status and one line on standard error."""

    def __init__(self, status: int, line: str):
        super().__init__(line)
        self.status = status
        self.line = line


# The refusals that a file can meet, in the words of the README's table.
OF_FILES = {
    1: "the bytes end too soon",
    2: "an unknown mark, or one in the wrong place",
    3: "the number of drives is not 1 to 64",
    4: "a set is empty, or a set or fault group has a drive above the number of drives",
    5: "more than 128 sets or fault groups",
    6: "the count after EN differs",
    7: "bytes after the end",
    8: "a drive number outside the frame, not above the last, or above a core drive whose PR or PW is missing",
    9: "a stop's round is not 1 to the core's size",
    10: "a stop has more sends than the drive can make",
    11: "every survivor set has a drive that stops",
    13: "more than 1024 cores",
    34: "a fault group has all drives of the frame",
}

# All that a command can meet, those that only n and t can meet too.
MEANINGS = OF_FILES | {
    31: "the number of drives that may drop out is not below the number of drives",
    32: "more than 128 groups of n - t drives would be needed",
}


def refused(number: int) -> str:
    """A refusal with its meaning."""
    return f"refused {number}: {MEANINGS[number]}"
