"""Statements with their parameters put in, and the lines that create tables: each on one line, as the server reads it."""

import re
from typing import Any, Dict, Iterable, List, Mapping, Optional, Sequence, Union

from .exceptions import DataError, NumericValueOutOfRange, ProgrammingError

Parameters = Union[Sequence[object], Mapping[str, object]]

# A text between quotes, `%%`, a placeholder that stands alone, any other `%`, what stands between these.
_PART = re.compile(
    r"(?P<text>'(?:[^']|'')*')|(?P<percent>%%)|(?P<placeholder>(?<![\w'])%(?:\((?P<name>\w+)\))?s(?![\w']))"
    r"|(?P<stray>%)|(?P<between>[^'%]+|')"
)
_COMMAND = re.compile(r"\s*(BEGIN|POLL|EXPORT|IMPORT|COMMIT|ROLLBACK|PRUNE|WAIT|DUMP)\b", re.ASCII | re.IGNORECASE)
_OPPOSITE = {"+": "-", "-": "+"}
_WORD = re.compile(r"[^ \t\r\n]+")  # what stands between the server's blanks


def _quoted(text: str) -> str:
    """A text as a literal. This grammar has no escapes, so no newline stands in one, since that would end the line."""
    if "\n" in text or "\0" in text:
        raise DataError("a text with a newline or a zero byte can't be sent")
    return "'" + text.replace("'", "''") + "'"


def _literal(value: object) -> str:
    """A value as a literal of the grammar."""
    if value is None:
        return "NULL"
    if isinstance(value, int) and not isinstance(value, bool):
        if not -(2**63) <= value < 2**63:
            raise NumericValueOutOfRange("22003: a bigint has 64 bits")
        return str(int.__int__(value))  # its own digits, whatever a subclass shows
    if isinstance(value, str):
        return _quoted(str.__str__(value))
    if isinstance(value, (bytes, bytearray, memoryview)):
        return "'\\x" + memoryview(value).tobytes().hex() + "'"
    raise ProgrammingError(f"no column holds a {type(value).__name__}: give None, an int, a str or bytes")


def _put(parts: List[str], literal: str) -> None:
    """Appends a literal. In `v + %s` the grammar has no sign before the number, so the sign that is there is turned."""
    before = parts[-1].rstrip() if parts else ""
    if literal.startswith("-") and before.endswith(("+", "-")):
        parts[-1] = before[:-1] + _OPPOSITE[before[-1]] + " "
        literal = literal[1:]
    parts.append(literal)


def _is_sequence(value: object) -> bool:
    """Whether a value has items in an order, and isn't one text itself."""
    is_text = isinstance(value, (str, bytes, bytearray, memoryview))
    return hasattr(value, "__getitem__") and hasattr(value, "__len__") and not is_text


class _Arguments:
    """The parameters of one statement, each for a placeholder."""

    def __init__(self, parameters: Parameters) -> None:
        self._are_named = isinstance(parameters, Mapping)
        self._values: Mapping[Any, object] = {}
        if isinstance(parameters, Mapping):
            self._values = parameters
        elif _is_sequence(parameters):
            self._values = dict(enumerate(parameters))
        else:
            raise ProgrammingError(f"parameters are a sequence or a mapping, and no {type(parameters).__name__}")
        self._taken = 0

    def take(self, name: Optional[str]) -> object:
        """The value of a name, or the next one where there is no name."""
        if (name is not None) != self._are_named:
            raise ProgrammingError("`%s` goes with a sequence of parameters, `%(name)s` with a mapping")
        key = self._taken if name is None else name
        if key not in self._values:
            raise ProgrammingError(f"there is no parameter {key} for a placeholder")
        self._taken += 1
        return self._values[key]

    def end(self) -> None:
        """Refuses values that no placeholder has taken, where they have no names."""
        if not self._are_named and self._taken < len(self._values):
            raise ProgrammingError("there are more parameters than placeholders")


def _between_quotes(text: str, is_given: bool) -> str:
    """A quoted text of a statement. Where parameters are given, each `%` is doubled in it."""
    if "\n" in text:
        raise DataError("a text with a newline can't be sent")
    if not is_given:
        return text
    if "%" in text.replace("%%", ""):
        raise ProgrammingError("no placeholder stands between quotes; a `%` there is written `%%`")
    return text.replace("%%", "%")


def text_of(operation: str) -> str:
    """A text that is executed."""
    if not isinstance(operation, str):
        raise ProgrammingError(f"a statement is a str, and no {type(operation).__name__}")
    return str.__str__(operation)


def statement_of(operation: str, parameters: Optional[Parameters]) -> str:
    """A statement with its parameters put in, on one line. Without parameters a `%` is nothing special."""
    operation = text_of(operation)
    command = _COMMAND.match(operation)
    if command:
        raise ProgrammingError(f"{command[1]} is no statement: a connection has methods for it")
    arguments = None if parameters is None else _Arguments(parameters)
    parts: List[str] = []
    for part in _PART.finditer(operation):
        if part["text"]:
            parts.append(_between_quotes(part["text"], arguments is not None))
        elif part["between"] or arguments is None:
            parts.append(part[0].replace("\n", " "))
        elif part["placeholder"]:
            _put(parts, _literal(arguments.take(part["name"])))
        elif part["percent"]:
            parts.append("%")
        else:
            raise ProgrammingError("a `%` that is no placeholder is written `%%`; a placeholder stands alone")
    if arguments is not None:
        arguments.end()
    return "".join(parts)


def create_lines(schema: Union[None, str, Iterable[str]]) -> List[str]:
    """The lines that create tables, of texts that have such statements, each ended by a `;` or by its text's end."""
    lines = []
    texts = [schema] if isinstance(schema, (str, bytes)) else schema or []
    if not isinstance(texts, Iterable):
        raise ProgrammingError(f"a schema is a str or several, and no {type(schema).__name__}")
    for text in texts:
        bare = re.sub("--.*", "", text_of(text))
        parts = [" ".join(_WORD.findall(part)) for part in bare.split(";")]
        lines += [part + ";" for part in parts if part]
    for line in lines:
        if not re.match(r"create\b", line, re.IGNORECASE):
            raise ProgrammingError(f"a schema has CREATE TABLE statements alone, and not: {line}")
    return lines
