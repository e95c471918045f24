"""Several statements in one text, which psycopg2 sends as they are: the server answers the last alone, so that nobody could tell
what the others did. They are sent one by one, within one transaction, as the server takes them."""

from typing import Any, List, Optional

from .effects import control_of, parts_of
from .sql import tokens_of
from .values import Unsaid


def statements_of(text: str) -> Optional[List[str]]:
    """The statements of a text whose parameters are put in; None where it is one, or one of them begins or ends a transaction."""
    if ";" not in text.rstrip().rstrip(";"):
        return None
    try:
        tokens = tokens_of(text, "pyformat")
    except Unsaid:
        return None
    parts = parts_of(tokens)
    if len(parts) < 2 or any(control_of(part) is not None for part in parts):
        return None
    starts = [part[0].start for part in parts] + [len(text)]
    return [text[start:end] for start, end in zip(starts, starts[1:])]


def bound(cursor: Any, operation: Any, parameters: Any) -> Optional[str]:
    """A text with its parameters put in, as psycopg2 sends it."""
    try:
        sent = operation if parameters is None else cursor.mogrify(operation, parameters)
        return sent.decode("utf-8", "surrogateescape") if isinstance(sent, bytes) else sent if isinstance(sent, str) else None
    except Exception:  # the driver finds fault with it when it is executed, too
        return None


class Whole:
    """The text that an application has sent, in place of the last statement of it."""

    def __init__(self, text: str) -> None:
        self._text = text

    def without(self, _: bytes) -> bytes:
        """That text."""
        return self._text.encode("utf-8", "surrogateescape")
