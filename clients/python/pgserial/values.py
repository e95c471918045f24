"""Values as a transcript spells them: literals of its statements, and COPY text of its replies."""

import re
from typing import Any, Callable, Dict, Optional, Sequence, Union

from . import BIGINT, BYTEA, TEXT, Kind

Plain = Union[None, int, str, bytes]  # a value of a column

MOST_BYTES = 65536  # of a statement
_NUMBER = re.compile(r"\s*([+-]?[0-9]+)\s*", re.ASCII)
_ESCAPED_IN_LITERAL = {"\n": "\\n", "\\": "\\\\"}
_ESCAPED_IN_COPY = {"\b": "\\b", "\t": "\\t", "\n": "\\n", "\v": "\\v", "\f": "\\f", "\r": "\\r", "\\": "\\\\"}
_TO_COPY = str.maketrans(_ESCAPED_IN_COPY)


class Unsaid(Exception):
    """What no transcript can say, and why."""


class Said(str):
    """A text as it stands in a transcript, of a column whose own values are of another kind."""


class Counted(int):
    """A number as it stands in a transcript, of a column whose own values are of another kind."""


class PerhapsNull:
    """What a driver shows for null and for JSON's own null alike."""


def _bigint(value: object) -> int:
    if isinstance(value, str):
        digits = _NUMBER.fullmatch(value)
        value = int(digits[1]) if digits else value
    if not isinstance(value, int):
        raise Unsaid(f"a bigint is no {type(value).__name__}")
    if not -(2**63) <= value < 2**63:
        raise Unsaid("a bigint has 64 bits")
    return int.__int__(value)  # its own digits, whatever a subclass shows


def _text(value: object) -> str:
    if not isinstance(value, str):
        raise Unsaid(f"a text is no {type(value).__name__}")
    value = str.__str__(value)  # its own letters, whatever a subclass (as an Enum) shows
    if "\0" in value:
        raise Unsaid("a text has no zero byte")
    try:
        value.encode("utf-8")
    except UnicodeEncodeError:
        raise Unsaid("a text has no half characters") from None
    return value


def _bytea(value: object) -> bytes:
    value = getattr(value, "adapted", value)  # psycopg2 wraps bytes so
    if isinstance(value, (bytes, bytearray, memoryview)):
        return memoryview(value).tobytes()
    raise Unsaid(f"a bytea is no {type(value).__name__}")


_PLAIN: Dict[Kind, Callable[[object], Plain]] = {BIGINT: _bigint, TEXT: _text, BYTEA: _bytea}


def plain(kind: Kind, value: object) -> Plain:
    """A value of a column of this kind; refuses what isn't one."""
    if value is None:
        return None
    if kind is BIGINT:
        return _bigint(value)
    if kind is TEXT:
        return _text(value)
    own: Optional[Callable[[object], Plain]] = getattr(kind, "plain", None)  # of a kind that isn't of the transcript's own
    return _PLAIN[kind](value) if own is None else own(value)


class Spelling:
    """How the values of one transcript are spelled. No literal has a newline, so that in all texts a newline stands as
    `\\n`, and a backslash as two. Equal texts stay equal so, and others stay others; their order may turn. So whoever
    compares texts by order can't have such texts too."""

    def __init__(self) -> None:
        self._escaped: Optional[str] = None
        self._is_ordered = False
        self._has_json_null = False  # whether JSON's own null is among the values

    def order_texts(self) -> None:
        """From now on texts are compared by order."""
        if self._escaped is not None:
            raise Unsaid("texts are compared by order, and some have a newline or a backslash")
        self._is_ordered = True

    def _without_newline(self, text: str) -> str:
        if "\n" not in text and "\\" not in text:
            return text
        if type(text) is not Said:  # which is never compared by order
            if self._is_ordered:
                raise Unsaid("texts are compared by order, and this one has a newline or a backslash")
            self._escaped = text
        return "".join(_ESCAPED_IN_LITERAL.get(letter, letter) for letter in text)

    def _said(self, kind: Kind, value: object) -> Plain:
        """A value as it stands in the transcript."""
        if type(value) is PerhapsNull:
            if self._has_json_null:
                raise Unsaid("the driver shows a null of JSON as it shows null")
            return None
        said = plain(kind, value)
        if said == "null" and getattr(kind, "type", None) in ("json", "jsonb"):
            self._has_json_null = True
        return said

    def literal(self, kind: Kind, value: object) -> str:
        """A value as a literal of a statement."""
        if type(value) is int and kind is BIGINT and -(2**63) <= value < 2**63:
            return int.__repr__(value)
        said = self._said(kind, value)
        if isinstance(said, str):
            return "'" + self._without_newline(said).replace("'", "''") + "'"
        if isinstance(said, bytes):
            return "'\\x" + said.hex() + "'"
        return "NULL" if said is None else str(int(said))

    def copy_texts(self, kind: Kind, values: Sequence[object]) -> Sequence[object]:
        """Several values of a column as fields of rows: texts, or numbers whose digits are meant."""
        kinds = set(map(type, values))
        own: Optional[type] = int if kind is BIGINT else str if kind is TEXT else None
        if own in kinds and kinds <= {own, type(None)}:
            given = values if len(kinds) == 1 else [value for value in values if value is not None]
            if self._are_plain(given):
                return values if given is values else ["\\N" if value is None else value for value in values]
        return [self.copy_text(kind, value) for value in values]

    def _are_plain(self, values: Any) -> bool:
        """Whether numbers have 64 bits, or texts stand as they are; half characters aren't printable."""
        if type(values[0]) is int:
            return bool(-(2**63) <= min(values) and max(values) < 2**63)
        joined = "".join(values)
        return joined.isprintable() and "\\" not in joined

    def copy_text(self, kind: Kind, value: object) -> str:
        """A value as a field of a row."""
        if type(value) is int and kind is BIGINT and -(2**63) <= value < 2**63:
            return int.__repr__(value)
        if type(value) is str and kind is TEXT and value.isprintable() and "\\" not in value:
            return value
        said = self._said(kind, value)
        if isinstance(said, str):
            return self._without_newline(said).translate(_TO_COPY)
        if isinstance(said, bytes):
            return "\\\\x" + said.hex()
        return "\\N" if said is None else str(int(said))
