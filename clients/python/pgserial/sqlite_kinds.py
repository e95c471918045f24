"""Kinds of SQLite's columns beyond whole numbers, texts and bytes. A column holds values of any kind there: so each stands with
its kind, and numbers that are equal stand alike."""

import datetime
import math
import re
import sys
from decimal import Decimal
from typing import Any, Callable, Dict, Optional

from . import BIGINT, BYTEA, TEXT, Kind
from .kinds import Form
from .values import Counted, Said, Unsaid

_NUMBER = re.compile(r"\s*[+-]?(\d+(\.\d*)?|\.\d+)([eE][+-]?\d{1,3})?\s*", re.ASCII)
_MOST_DIGITS = 15  # of a number that SQLite surely reads as Python does
_EXACT = 2**53  # up to which each whole number is a double


def _number(value: float) -> Said:
    """A number: whole ones stand alike, whether they are kept as a whole number or as a double."""
    if isinstance(value, float):
        if math.isnan(value):
            raise Unsaid("a number that is none, for which SQLite keeps null")
        if math.isinf(value):
            return Said("Infinity" if value > 0 else "-Infinity")
        if not value.is_integer():
            return Said(format(Decimal(repr(value)), "f"))
    return Said(str(int(value)))


def _of_digits(text: str) -> Said:
    """The number that a text or a literal tells."""
    digits = Decimal(text.strip())
    if digits == digits.to_integral_value() and abs(digits) < 2**63 and not set(".eE") & set(text):
        return _number(int(digits))
    if len(digits.as_tuple().digits) > _MOST_DIGITS:
        raise Unsaid(f"a number of more than {_MOST_DIGITS} digits")
    return _number(float(digits))


def _of_any(value: object, reads_numbers: bool) -> Said:
    """A value of any kind. In most columns, a text that tells a number is that number."""
    if isinstance(value, Decimal):
        return _of_digits(str(value))
    if isinstance(value, (int, float)):
        return _number(value)
    if isinstance(value, str):
        if reads_numbers and _NUMBER.fullmatch(value):
            return _of_digits(value)
        if "\0" in value:
            raise Unsaid("a text has no zero byte")
        return Said("t" + str.__str__(value))
    if isinstance(value, (bytes, bytearray, memoryview)):
        return Said("x" + memoryview(value).tobytes().hex())
    raise Unsaid(f"no column of SQLite holds a {type(value).__name__}")


def _numeric(value: object) -> Said:
    return _of_any(value, True)


def _untyped(value: object) -> Said:
    return _of_any(value, False)


def _real(value: object) -> Said:
    if isinstance(value, int) and abs(value) > _EXACT:
        raise Unsaid("a whole number that no double holds")
    return _of_any(value, True)


def _boolean(value: object) -> Counted:
    if isinstance(value, int) and value in (0, 1):
        return Counted(value)
    raise Unsaid(f"a truth value is 0 or 1, and no {type(value).__name__}")


def _told(kind: type, parse: Callable[[str], Any]) -> Callable[[object], Said]:
    """Texts that tell a date or a time, where a converter may make the date of them: those alone that it shows again."""

    def said(value: object) -> Said:
        if type(value) is kind:
            return Said("t" + str(value))
        try:
            if isinstance(value, str) and str(parse(value)) == value:
                return Said("t" + value)
        except ValueError:
            pass
        raise Unsaid(f"a {kind.__name__} that is spelled in another way than the converter's")

    return said


def _date(text: str) -> Any:
    return datetime.date(*(int(part) for part in text.split("-")))


def _datetime(text: str) -> Any:
    return datetime.datetime.strptime(text, "%Y-%m-%d %H:%M:%S.%f" if "." in text else "%Y-%m-%d %H:%M:%S")


def _time(text: str) -> Any:
    return datetime.datetime.strptime(text, "%H:%M:%S.%f" if "." in text else "%H:%M:%S").time()


NUMERIC = Form("text", "NUMERIC", _numeric)
UNTYPED = Form("text", "of any kind", _untyped)
REAL = Form("text", "REAL", _real)
BOOLEAN = Form("bigint", "BOOLEAN", _boolean, frozenset(("bool", "boolean")), True)
_CONVERTED = {
    datetime.date: Form("text", "DATE", _told(datetime.date, _date)),
    datetime.datetime: Form("text", "DATETIME", _told(datetime.datetime, _datetime)),
    datetime.time: Form("text", "TIME", _told(datetime.time, _time)),
}  # fmt: skip
# What the usual converters make of these: one that makes something else has values of its own.
_PROBES: Dict[str, Any] = {
    "DATE": (b"2020-02-03", datetime.date(2020, 2, 3)),
    "DATETIME": (b"2020-02-03 04:05:06.000007", datetime.datetime(2020, 2, 3, 4, 5, 6, 7)),
    "TIMESTAMP": (b"2020-02-03 04:05:06.000007", datetime.datetime(2020, 2, 3, 4, 5, 6, 7)),
    "TIME": (b"04:05:06.000007", datetime.time(4, 5, 6, 7)),
    "BOOL": (b"1", True),
    "BOOLEAN": (b"1", True),
}  # fmt: skip


def converted_kind(declared: str) -> Optional[Kind]:
    """The kind of a column for whose type a converter is registered; None where that may make values of its own."""
    name = re.split(r"[ (]", declared, maxsplit=1)[0].upper()
    converters: Any = getattr(sys.modules.get("sqlite3"), "converters", {})
    if name not in _PROBES:
        return None
    text, right = _PROBES[name]
    try:
        made = converters[name](text)
    except Exception:  # the application's own
        return None
    if type(made) is not type(right) or made != right:
        return None
    return BOOLEAN if right is True else _CONVERTED[type(right)]


def has_converter(declared: str) -> bool:
    """Whether a converter is registered for a type."""
    name = re.split(r"[ (]", declared, maxsplit=1)[0].upper()
    return name in getattr(sys.modules.get("sqlite3"), "converters", {})


def kind_of(declared: str) -> Kind:
    """The kind of a column by its affinity."""
    declared = declared.upper()
    if "INT" in declared:
        return BIGINT
    if any(word in declared for word in ("CHAR", "CLOB", "TEXT")):
        return TEXT
    if "BLOB" in declared:
        return BYTEA
    if any(word in declared for word in ("REAL", "FLOA", "DOUB")):
        return REAL
    if not declared:
        return UNTYPED
    return BOOLEAN if declared in ("BOOL", "BOOLEAN") else NUMERIC
