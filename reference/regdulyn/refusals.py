"""A refusal: one number from document 01's two lists or from document 02, and
nothing else.

Every call of this package raises it before it changes anything it was lent.
"""


class Refusal(Exception):
    """Carries the number of the condition that was met."""

    def __init__(self, number: int):
        super().__init__(number)
        self.number = number
