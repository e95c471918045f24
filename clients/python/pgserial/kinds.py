"""Kinds of columns beyond whole numbers, texts and bytes, and how their values stand in a transcript: dates and timestamps as
bigints, others as a text of which each value has one. What isn't surely brought to that is unsaid."""

import datetime
import enum
import ipaddress
import json
import math
import re
import struct
from dataclasses import dataclass, field
from decimal import Decimal, InvalidOperation
from typing import Any, Callable, Dict, FrozenSet, List, Optional, Tuple

from . import BIGINT, BYTEA, TEXT, Kind
from .arrays import elements_of
from .values import Counted, Plain, Said, Unsaid, plain


def _as_it_is(value: Any) -> Any:
    return value


@dataclass(frozen=True)
class Form(Kind):
    """A kind whose values stand otherwise in a transcript. `plain` makes of a value that which stands there; `asked` does
    the same where a condition compares it with `=`; `stored` refuses what the database would change as it is written."""

    type: str = ""
    said: Callable[[object], Plain] = field(default=plain, compare=False)  # type: ignore[assignment]
    casts: FrozenSet[str] = frozenset()  # the types by which a cast says nothing else
    is_ordered: bool = False  # whether values are ordered as those in the transcript
    adds: Optional[Kind] = None  # the kind of what may be added to a value as a number is added in the transcript
    asked: Callable[[object], object] = field(default=_as_it_is, compare=False)
    stored: Callable[[Plain], Plain] = field(default=_as_it_is, compare=False)

    def plain(self, value: object) -> Plain:
        """A value as it stands in a transcript."""
        return value if type(value) in (Said, Counted) else self.said(value)  # type: ignore[return-value]


def _unlike(value: object, type_name: str) -> Unsaid:
    return Unsaid(f"a {type_name} is no {type(value).__name__}")


def _read(type_name: str, text: str) -> Unsaid:
    return Unsaid(f"nobody knows how the database reads {text[:40]!r} as a {type_name}")


# ---- boolean

_TRUE, _FALSE = frozenset(("t", "true", "y", "yes", "on", "1")), frozenset(("f", "false", "n", "no", "off", "0"))


def _boolean(value: object) -> Counted:
    if isinstance(value, int) and value in (0, 1):
        return Counted(value)
    if isinstance(value, str):
        word = value.strip().lower()
        if word in _TRUE or word in _FALSE:
            return Counted(word in _TRUE)
        raise _read("boolean", value)
    raise _unlike(value, "boolean")


BOOLEAN = Form("bigint", "boolean", _boolean, frozenset(("bool", "boolean")), True)

# ---- dates and times

_DATE = r"(\d{4})-(\d\d)-(\d\d)"
_TIME = r"(\d\d):(\d\d)(?::(\d\d)(?:\.(\d{1,6}))?)?"
_A_DATE = re.compile(_DATE, re.ASCII)
_A_TIME = re.compile(_TIME, re.ASCII)
_A_TIMESTAMP = re.compile(_DATE + r"(?:[ T]" + _TIME + r"(?: ?(Z|UTC|[+-]\d\d(?::?\d\d(?::\d\d)?)?))?)?", re.ASCII)
_EPOCH = datetime.datetime(1970, 1, 1)
_MICROSECOND = datetime.timedelta(microseconds=1)
# psycopg2 gives these for infinity too.
_EXTREMES = (datetime.date.min, datetime.date.max, datetime.datetime.min, datetime.datetime.max)


def _numbers(groups: Tuple[Optional[str], ...]) -> List[int]:
    """The numbers of a date, of a time, or of both; the last is of microseconds."""
    *whole, fraction = groups
    return [int(digits or 0) for digits in whole] + [int((fraction or "").ljust(6, "0"))]


def _zone(text: str) -> datetime.timedelta:
    """How far a zone is from UTC."""
    if text in ("Z", "UTC"):
        return datetime.timedelta()
    hours, minutes, seconds = (int(part or 0) for part in (text[1:3], text[3:].replace(":", "")[:2], text[3:].replace(":", "")[2:]))
    gone = datetime.timedelta(hours=hours, minutes=minutes, seconds=seconds)
    return -gone if text[0] == "-" else gone


def _moment(text: str, has_zone: bool, type_name: str) -> datetime.datetime:
    """The timestamp that a text tells, in UTC where it has a zone."""
    found = _A_TIMESTAMP.fullmatch(text.strip())
    if found is None or (found[8] is not None) != has_zone:
        raise _read(type_name, text)
    try:
        moment = datetime.datetime(*_numbers(found.groups()[:7]))  # type: ignore[arg-type]
        return moment - _zone(found[8]) if has_zone else moment
    except (ValueError, OverflowError):
        raise _read(type_name, text) from None


def _is_extreme(value: datetime.date) -> bool:
    bare = value.replace(tzinfo=None) if isinstance(value, datetime.datetime) else value
    return bare in _EXTREMES


def _date(text: str, found: "re.Match[str]") -> datetime.date:
    try:
        return datetime.date(*(int(digits) for digits in found.groups()))
    except ValueError:
        raise _read("date", text) from None


def _days(value: object) -> Counted:
    """A date: its days since 1970."""
    if isinstance(value, str):
        found = _A_DATE.fullmatch(value.strip())
        if found is None:
            raise _read("date", value)
        value = _date(value, found)
    if isinstance(value, datetime.datetime):
        if value.tzinfo is not None or value.time() != datetime.time():
            raise Unsaid("a timestamp in place of a date")
        value = value.date()
    if not isinstance(value, datetime.date):
        raise _unlike(value, "date")
    if _is_extreme(value):
        raise Unsaid("a date that some drivers show for infinity")
    return Counted(value.toordinal() - _EPOCH.toordinal())


def _microseconds(value: object, has_zone: bool, type_name: str) -> Counted:
    """A timestamp: its microseconds since 1970."""
    if isinstance(value, str):
        return Counted((_moment(value, has_zone, type_name) - _EPOCH) // _MICROSECOND)
    if not isinstance(value, datetime.date):
        raise _unlike(value, type_name)
    if _is_extreme(value):
        raise Unsaid("a timestamp that some drivers show for infinity")
    if not isinstance(value, datetime.datetime):
        value = datetime.datetime(value.year, value.month, value.day)
    gone = value.utcoffset()
    if (gone is not None) != has_zone:
        raise Unsaid(f"a {type_name} that depends on the session's time zone")
    return Counted((value.replace(tzinfo=None) - _EPOCH - (gone or datetime.timedelta())) // _MICROSECOND)


def _timestamp(value: object) -> Counted:
    return _microseconds(value, False, "timestamp")


def _timestamptz(value: object) -> Counted:
    return _microseconds(value, True, "timestamp with time zone")


def _time(value: object) -> Said:
    """A time of a day, with its seconds."""
    if isinstance(value, str):
        found = _A_TIME.fullmatch(value.strip())
        if found is None:
            raise _read("time", value)
        hour, minute, second, micro = _numbers(found.groups())
        if hour > 23 or minute > 59 or second > 59:  # 24:00 is shown as 00:00 by some drivers
            raise _read("time", value)
    elif isinstance(value, datetime.time) and value.tzinfo is None:
        hour, minute, second, micro = value.hour, value.minute, value.second, value.microsecond
    else:
        raise _unlike(value, "time")
    fraction = f".{micro:06}".rstrip("0") if micro else ""
    return Said(f"{hour:02}:{minute:02}:{second:02}{fraction}")


def _rounds_to(digits: int) -> Callable[[Plain], Plain]:
    """Refuses what has more digits of a second than a column."""

    def stored(said: Plain) -> Plain:
        micro = int(said.partition(".")[2].ljust(6, "0")) if isinstance(said, str) else said
        if isinstance(micro, int) and micro % 10 ** (6 - digits):
            raise Unsaid(f"a value of more than {digits} digits of a second, which the database rounds")
        return said

    return stored


# ---- numbers

_NUMBER = re.compile(r"[+-]?(\d+(\.\d*)?|\.\d+)([eE][+-]?\d{1,4})?", re.ASCII)
_WORDS = {"nan": "NaN", "infinity": "Infinity", "inf": "Infinity", "-infinity": "-Infinity", "-inf": "-Infinity"}
_MOST_DIGITS = 2000  # of a number that is spelled
_COUNTED_DIGITS = 18  # of a number that a bigint surely holds


def _digits(value: Decimal) -> str:
    """A number's digits, without those zeros that say nothing."""
    if not value.is_finite():
        return _WORDS[str(value).lower()]
    if abs(value.adjusted()) > _MOST_DIGITS or len(value.as_tuple().digits) > _MOST_DIGITS:
        raise Unsaid("a number of very many digits")
    text = format(value, "f")
    text = text.rstrip("0").rstrip(".") if "." in text else text
    return "0" if text in ("-0", "0", "") else text


def _decimal(text: str, type_name: str) -> Decimal:
    """The number that a text tells."""
    bare = text.strip()
    if _NUMBER.fullmatch(bare) is None and bare.lower() not in _WORDS:
        raise _read(type_name, text)
    return Decimal(_WORDS.get(bare.lower(), bare))


def _exact(value: object) -> Decimal:
    """A number with all its digits."""
    if isinstance(value, bool):
        raise _unlike(value, "numeric")
    if isinstance(value, float):
        # Some drivers send a double, of which the database takes 15 digits.
        if math.isfinite(value) and Decimal(repr(value)) != Decimal(f"{value:.15g}"):
            raise Unsaid("a numeric of a float with more than 15 digits")
        value = repr(value)
    if isinstance(value, str):
        value = _decimal(value, "numeric")
    if not isinstance(value, (int, Decimal)):
        raise _unlike(value, "numeric")
    return Decimal(value)


def _numeric(value: object) -> Said:
    return Said(_digits(_exact(value)))


def _scaled_to(scale: int) -> Callable[[object], Counted]:
    """Numbers of so many digits behind the point, counted in units of the last."""

    def said(value: object) -> Counted:
        number = _exact(value)
        if not number.is_finite():
            raise Unsaid("a number that is none")
        digits = _digits(number)
        whole, _, fraction = digits.partition(".")
        if len(fraction) > scale:
            raise Unsaid(f"a number with more than {scale} digits behind its point")
        counted = int(whole + fraction.ljust(scale, "0"))
        if abs(counted) >= 2**63:
            raise Unsaid("a number beyond 64 bits")
        return Counted(counted)

    return said


def _exactly_numeric(value: object) -> object:
    """Refuses a float, which the database may compare as a double."""
    if isinstance(value, float):
        raise Unsaid("a numeric that is compared with a float")
    return value


def _double_of(value: object, type_name: str) -> float:
    if isinstance(value, bool):
        raise _unlike(value, type_name)
    if isinstance(value, str):
        value = _decimal(value, type_name)
    if not isinstance(value, (int, float, Decimal)):
        raise _unlike(value, type_name)
    try:
        made = float(value)
    except OverflowError:
        raise Unsaid(f"a {type_name} beyond its range") from None
    if math.isinf(made) and not (isinstance(value, float) or value.is_infinite()):  # type: ignore[union-attr]
        raise Unsaid(f"a {type_name} beyond its range")
    return made


def _said_float(value: float) -> Said:
    return Said(_digits(Decimal(repr(value))))


def _double(value: object) -> Said:
    return _said_float(_double_of(value, "double precision"))


def _single(value: float) -> float:
    """The nearest of the numbers with 24 bits."""
    bits = struct.unpack("<q", struct.pack("<d", value))[0]
    if math.isfinite(value) and bits & 0x1FFFFFFF == 0x10000000:
        raise Unsaid("a real that lies between two others")
    try:
        return float(struct.unpack("<f", struct.pack("<f", value))[0])
    except OverflowError:
        raise Unsaid("a real beyond its range") from None


def _real(value: object) -> Said:
    return _said_float(_single(_double_of(value, "real")))


def _exactly_real(value: object) -> object:
    """Refuses a number that is compared as a double, and isn't one of a real's."""
    if not isinstance(value, str):
        made = _double_of(value, "real")
        if made == made and _single(made) != made:
            raise Unsaid("a real that is compared with a number that is none")
    return value


# ---- JSON


class Parsed:
    """A value of JSON as the driver has made it of its text."""

    def __init__(self, value: object) -> None:
        self.value = value


def _json_number(text: str) -> object:
    """A number of JSON, of which a float keeps all digits: else nobody knows what was read."""
    said = _digits(_decimal(text, "json"))
    made = float(text)
    if not math.isfinite(made) or _digits(Decimal(repr(made))) != said:
        raise Unsaid("a number of JSON that no float holds")
    return made


def _no_constant(text: str) -> object:
    raise _read("json", text)


def _pairs(pairs: List[Tuple[str, object]]) -> Dict[str, object]:
    made = dict(pairs)
    if len(made) < len(pairs):
        raise Unsaid("JSON with two values of one key")
    return made


def _loaded(text: str) -> object:
    try:
        return json.loads(text, parse_float=_json_number, parse_constant=_no_constant, object_pairs_hook=_pairs)
    except (ValueError, RecursionError, InvalidOperation):
        raise _read("json", text) from None


def _json_text(value: object, is_sorted: bool) -> str:
    """A value of JSON as one text."""
    if value is None or isinstance(value, (bool, str)):
        return json.dumps(value, ensure_ascii=False)
    if isinstance(value, int):
        return str(int(value))
    if isinstance(value, float) and math.isfinite(value):
        return _digits(Decimal(repr(value)))
    if isinstance(value, (list, tuple)):
        return "[" + ",".join([_json_text(each, is_sorted) for each in value]) + "]"
    if isinstance(value, dict) and all(isinstance(key, str) for key in value):
        keys = sorted(value) if is_sorted else list(value)
        return "{" + ",".join([_json_text(key, is_sorted) + ":" + _json_text(value[key], is_sorted) for key in keys]) + "}"
    raise _unlike(value, "value of JSON")


def _json_source(value: object) -> object:
    """The value of JSON that a text tells, a wrapper of a driver's sends, or that came."""
    if isinstance(value, Parsed):
        return value.value
    dumps = getattr(value, "dumps", None)
    for name in ("adapted", "obj"):  # of psycopg2's Json, and of psycopg's Json and Jsonb
        if hasattr(value, name) and hasattr(value, "dumps"):
            value = (dumps or json.dumps)(getattr(value, name))
    value = value.decode("utf-8") if isinstance(value, bytes) else value
    if not isinstance(value, str):
        raise Unsaid("nobody knows which value of JSON that is")
    return _loaded(value)


def _json(is_sorted: bool) -> Callable[[object], Said]:
    def said(value: object) -> Said:
        try:
            return Said(_json_text(_json_source(value), is_sorted))
        except (RecursionError, UnicodeDecodeError):
            raise Unsaid("JSON that can't be read") from None

    return said


# ---- texts with one spelling

_UUID = re.compile(r"[0-9a-f]{8}-?[0-9a-f]{4}-?[0-9a-f]{4}-?[0-9a-f]{4}-?[0-9a-f]{12}", re.ASCII)


def _uuid(value: object) -> Said:
    hexes = getattr(value, "hex", None)
    text = value.lower() if isinstance(value, str) else hexes if isinstance(hexes, str) else None
    if text is None:
        raise _unlike(value, "uuid")
    bare = text[1:-1] if text[:1] == "{" and text[-1:] == "}" else text
    if _UUID.fullmatch(bare) is None:
        raise _read("uuid", text)
    digits = bare.replace("-", "")
    return Said("-".join((digits[:8], digits[8:12], digits[12:16], digits[16:20], digits[20:])))


def _enum(value: object) -> Said:
    if isinstance(value, enum.Enum):  # which a driver may have made of another text
        raise _unlike(value, "text")
    return Said(plain(TEXT, value))


def _padded(value: object) -> Said:
    """A text of char(n), where blanks at its end say nothing."""
    said = plain(TEXT, value)
    assert isinstance(said, str)
    return Said(said.rstrip(" "))


def _inet(value: object) -> Said:
    """An address, perhaps with its network's size."""
    value = getattr(value, "addr", value)  # of psycopg2's Inet
    if not isinstance(value, (str, ipaddress._BaseAddress)):
        raise _unlike(value, "inet")
    try:
        found = ipaddress.ip_interface(str(value))
    except ValueError:
        raise _read("inet", str(value)) from None
    return Said(str(found.ip) if found.network.prefixlen == found.max_prefixlen else str(found))


def _cidr(value: object) -> Said:
    if not isinstance(value, (str, ipaddress._BaseNetwork)):
        raise _unlike(value, "cidr")
    try:
        return Said(str(ipaddress.ip_network(str(value))))
    except ValueError:
        raise _read("cidr", str(value)) from None


_MAC = re.compile(r"[0-9a-f]{2}(:[0-9a-f]{2}){5}", re.ASCII)


def _mac(value: object) -> Said:
    if not isinstance(value, str):
        raise _unlike(value, "macaddr")
    if _MAC.fullmatch(value.lower()) is None:
        raise _read("macaddr", value)
    return Said(value.lower())


# ---- arrays


def _element(kind: Kind, value: object) -> str:
    if value is None:
        return "null"
    said = plain(kind, value)
    said = kind.stored(said) if isinstance(kind, Form) else said
    return str(said) if isinstance(said, int) else json.dumps(str(said), ensure_ascii=False)


def _listed(kind: Kind, values: List[object]) -> str:
    """An array as one text."""
    inner = [isinstance(value, list) for value in values]
    if any(inner) and not all(inner):
        raise Unsaid("a list in which only some are lists")
    if any(inner):
        if any(not value for value in values):
            raise Unsaid("an array of empty arrays")
        return "[" + ",".join([_listed(kind, value) for value in values]) + "]"  # type: ignore[arg-type]
    return "[" + ",".join([_element(kind, value) for value in values]) + "]"


def array_of(element: Kind, type_name: str) -> Optional[Form]:
    """The form of arrays of such elements; None where what drivers show of them isn't sure."""
    if element == BYTEA or (isinstance(element, Form) and element.type in (*_JSON_NAMES, "time")):
        return None

    def said(value: object) -> Said:
        values = elements_of(value) if isinstance(value, str) else value
        if not isinstance(values, list):
            raise _unlike(value, type_name)
        return Said(_listed(element, values))

    names = element.casts if isinstance(element, Form) else _BASE_CASTS.get(element.name, frozenset())
    return Form("text", type_name, said, frozenset(name + "[]" for name in names))


_BASE_CASTS: Dict[str, FrozenSet[str]] = {
    BIGINT.name: frozenset("bigint int integer smallint int2 int4 int8".split()),
    TEXT.name: frozenset(("text", "varchar")),
    "bytea": frozenset(("bytea", "blob")),
}


def casts_of(kind: Kind) -> FrozenSet[str]:
    """The types by which a cast of a column's value says nothing else."""
    return kind.casts if isinstance(kind, Form) else _BASE_CASTS.get(kind.name, frozenset())


# ---- PostgreSQL's types

_TIMESTAMPTZ = frozenset(("timestamptz", "timestamp with time zone"))
_TIMESTAMP = frozenset(("timestamp", "timestamp without time zone"))
_JSON_NAMES = {"json": frozenset(("json",)), "jsonb": frozenset(("jsonb",))}
_FORMS: Dict[str, Form] = {
    "bool": BOOLEAN,
    "date": Form("bigint", "date", _days, frozenset(("date",)), True, BIGINT),
    "timestamp": Form("bigint", "timestamp", _timestamp, _TIMESTAMP, True),
    "timestamptz": Form("bigint", "timestamp with time zone", _timestamptz, _TIMESTAMPTZ, True),
    "time": Form("text", "time", _time, frozenset(("time", "time without time zone"))),
    "numeric": Form("text", "numeric", _numeric, frozenset(("numeric", "decimal")), asked=_exactly_numeric),
    "float8": Form("text", "double precision", _double, frozenset(("double precision", "float8", "float"))),
    "float4": Form("text", "real", _real, frozenset(("real", "float4")), asked=_exactly_real),
    "uuid": Form("text", "uuid", _uuid, frozenset(("uuid",))),
    "json": Form("text", "json", _json(False), _JSON_NAMES["json"]),
    "jsonb": Form("text", "jsonb", _json(True), _JSON_NAMES["jsonb"]),
    "bpchar": Form("text", "character", _padded, frozenset(("char", "character", "bpchar"))),
    "inet": Form("text", "inet", _inet, frozenset(("inet",))),
    "cidr": Form("text", "cidr", _cidr, frozenset(("cidr",))),
    "macaddr": Form("text", "macaddr", _mac, frozenset(("macaddr",))),
}  # fmt: skip


def named_form(name: str) -> Optional[Form]:
    """The form that goes by a name, as a cast has it. What drivers make of JSON differs, so that it isn't one."""
    named = (form for form in _FORMS.values() if name.lower() in form.casts and form.type not in _JSON_NAMES)
    return next(named, None)


def varchar_of(length: int) -> Form:
    """The form of texts that are cut beyond a length."""

    def said(value: object) -> Plain:
        text = plain(TEXT, value)
        if isinstance(text, str) and len(text) > length:
            raise Unsaid(f"a text of more than {length} letters")
        return text

    return Form("text", "varchar", said, _BASE_CASTS["text"])


def _scaled(modifier: int) -> Tuple[int, int]:
    """How many digits a numeric has, and how many of these behind its point."""
    scale = (modifier - 4) & 0x7FF
    return ((modifier - 4) >> 16) & 0xFFFF, scale - 0x800 if scale & 0x400 else scale


def _rounds_numbers_to(scale: int) -> Callable[[Plain], Plain]:
    def stored(said: Plain) -> Plain:
        digits = Decimal(said) if isinstance(said, str) else Decimal(0)
        if digits.is_finite() and digits != 0 and int(digits.as_tuple().exponent) < -scale:
            raise Unsaid(f"a number with more than {scale} digits behind its point, which the database rounds")
        return said

    return stored


def _counted(type_name: str, scale: int, casts: FrozenSet[str], exact: Callable[[object], object]) -> Form:
    """The form of numbers with so many digits behind the point."""
    form = Form("bigint", type_name, _scaled_to(scale), casts, True, asked=exact)
    return _with(form, adds=form)


def enum_form(type_name: str) -> Form:
    """The form of an enum's values."""
    return Form("text", type_name, _enum, frozenset((type_name,)))


def form_of(name: str, modifier: int) -> Optional[Form]:
    """The form of a type of PostgreSQL; None of one that isn't known."""
    found = _FORMS.get(name)
    if found is None or modifier < 0:
        return found
    if name in ("timestamp", "timestamptz", "time") and modifier < 6:
        return _with(found, stored=_rounds_to(modifier))
    if name == "numeric" and modifier >= 4:
        precision, scale = _scaled(modifier)
        exact = _as_it_is if precision <= 15 else found.asked
        if precision <= _COUNTED_DIGITS and 0 <= scale <= precision:
            return _counted(f"numeric({precision},{scale})", scale, found.casts, exact)
        return _with(found, stored=_rounds_numbers_to(scale), asked=exact)
    return found


def _with(form: Form, **changed: Any) -> Form:
    return Form(**{**{name: getattr(form, name) for name in form.__dataclass_fields__}, **changed})
