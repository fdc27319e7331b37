"""Cases for the reference, by subject. A case is a name, what was found and
what is expected."""

from typing import Any, Callable

from inputs.samples import A_SETS, PATTERNS  # noqa: F401
from regdulyn import Refusal

Case = tuple[str, Any, Any]


def refusal(call: Callable, *arguments: Any) -> int:
    """The number a call is refused with, 0 if it is not."""
    try:
        call(*arguments)
    except Refusal as refused:
        return refused.number
    return 0
