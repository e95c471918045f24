"""The key of a table: one of its columns, a text that is made of several, or a number that each row gets."""

from typing import Iterable, NamedTuple, Sequence

from .values import Plain, Unsaid


class Refused(ValueError):
    """A table that no transcript can say, and why."""


class Missing(Refused):
    """A table that isn't there."""


class Candidate(NamedTuple):
    """Columns by whose values each row is told from all others: their own names, and whether that is checked so late that two
    rows may have the same meanwhile."""

    names: Sequence[str]
    is_late: bool = False


def _part(value: Plain) -> str:
    if value is None:
        raise Unsaid("a key is never null")
    if isinstance(value, bytes):
        return "x" + value.hex()
    return '"' + value.replace('"', '""') + '"' if isinstance(value, str) else str(value)


def key_text(values: Iterable[Plain]) -> str:
    """One text for the values of a key's columns, as no others have it: numbers, and texts between quotes."""
    return ",".join([_part(value) for value in values])


def chosen(candidates: Sequence[Candidate], sayable: Sequence[str]) -> Sequence[str]:
    """The first of the candidates whose columns can all be said; none where there is none."""
    found = (each.names for each in candidates if not each.is_late and set(each.names) <= set(sayable))
    return next(found, ())
