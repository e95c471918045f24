"""What is answered to a line."""

from dataclasses import dataclass
from typing import Optional, Sequence, Tuple

from .exceptions import DatabaseError, refusal


@dataclass(frozen=True)
class Answer:
    """What was answered to one line, without the session's number; behind a SELECT's the rows as COPY text."""

    text: str
    rows: Sequence[bytes] = ()

    @property
    def error(self) -> Optional[DatabaseError]:
        """The exception for it, where it is a refusal."""
        return refusal(self.text) if self.text.startswith("ERROR ") else None

    @property
    def count(self) -> int:
        """How many rows it speaks of."""
        last = self.text.rpartition(" ")[2]
        return int(last) if last.isdigit() else -1

    def checked(self) -> "Answer":
        """Itself, where it is no refusal."""
        error = self.error
        if error is not None:
            raise error
        return self


def first_of(line: bytes) -> Tuple[str, int]:
    """What the first line of an answer says, without the session's number, and how many rows follow it."""
    number, _, rest = line.partition(b" ")
    text = (rest if number.isdigit() else line).decode("utf-8")
    return text, int(text[len("SELECT ") :]) if text.startswith("SELECT ") else 0


def row_of(line: bytes) -> bytes:
    """A row that follows, as COPY text."""
    return line.partition(b" | ")[2]
