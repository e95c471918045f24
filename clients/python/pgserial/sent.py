"""What drivers of PostgreSQL send in place of a value, and what of JSON they show: texts, or what they have made of these."""

import datetime
import json
import math
import sys
import uuid
from decimal import Decimal
from typing import Any, Callable, Dict, Iterable, List, Optional, Sequence, Tuple

from .kinds import Parsed
from .values import PerhapsNull, Unsaid

# How psycopg2 sends values of these classes, where the application hasn't registered another way.
_OWN = {
    "float": "Float", "int": "Int", "bool": "Boolean", "str": "QuotedString", "bytes": "Binary", "bytearray": "Binary",
    "memoryview": "Binary", "list": "List", "date": "DateFromPy", "time": "TimeFromPy", "datetime": "TimestampFromPy",
    "Decimal": "Decimal",
}  # fmt: skip
_JSON_OIDS = (114, 3802)  # json, jsonb
_PROBE = '{"a": [1.5, "x", null, true]}'
_UUID = "12345678-9abc-def0-1234-56789abcdef0"
# Types for which psycopg2 has casters that it registers when it is asked: a text of each, and what that shows.
_PROBES: Dict[int, Tuple[str, object]] = {2950: (_UUID, uuid.UUID(_UUID)), 2951: (f"{{{_UUID}}}", [uuid.UUID(_UUID)])}


def _json_text(value: Any) -> str:
    """The text that psycopg2's wrapper of JSON sends."""
    try:
        text = value.dumps(value.adapted)
    except Exception as error:  # the application's own, which the driver meets too
        raise Unsaid(f"its JSON can't be made: {type(error).__name__}") from None
    if not isinstance(text, str):
        raise Unsaid("its JSON is no text")
    return text


class Psycopg2:
    """What psycopg2 sends and shows."""

    def __init__(self, raw: Any) -> None:
        self._raw = raw
        self._extensions: Any = sys.modules.get("psycopg2.extensions")
        self._own: Any = sys.modules.get("psycopg2._psycopg")
        self._casters = {id(each) for each in vars(self._own).values()}  # those that it brings
        self._known: Dict[int, Any] = {}  # by types, those of these that make their values
        protocol = self._extensions.ISQLQuote
        self._senders = {int: ((int, protocol), self._own.Int), str: ((str, protocol), self._own.QuotedString)}
        self._probed: Dict[Tuple[int, int], Tuple[Any, Optional[bool]]] = {}  # casters, and whether each shows texts

    def plain_cursor(self) -> Any:
        """A cursor whose rows are tuples of the driver's own values."""
        cursor = self._raw.cursor(cursor_factory=self._extensions.cursor)
        for name in ("INTEGER", "LONGINTEGER", "STRING", "BINARY", "BOOLEAN"):
            self._extensions.register_type(getattr(self._own, name), cursor)
        return cursor

    def sent(self, value: Any, cursor: Any = None) -> object:
        """What is sent in place of a value, by what is registered for its class or for one that it is derived from."""
        if value is None:
            return None
        kind, adapter = self._adapter(type(value))
        if adapter is None and hasattr(value, "adapted"):  # a wrapper, as Binary or Json
            return self._unwrapped(value)
        _refuse_other_spelling(value)
        if adapter is None:
            if hasattr(value, "__conform__") and type(value).__module__ != "psycopg2.extras":
                raise _other(value)
            return value
        if self._is_json(adapter):
            return _json_text(adapter(value))
        if not self._is_own(kind, adapter):
            raise _other(value)
        if isinstance(value, str):
            return str.__str__(value)
        # A float is sent as the digits of its text, and not as a double.
        return Decimal(repr(value)) if type(value) is float and math.isfinite(value) else value

    def sends_own(self, kinds: Iterable[type], _: Any) -> bool:
        """Whether numbers and texts, of just these classes, are sent as they are."""
        adapters = self._extensions.adapters
        for kind in kinds:
            key, sender = self._senders[kind]
            if adapters.get(key) is not sender:
                return False
        return True

    def _adapter(self, kind: type) -> Tuple[type, Any]:
        """What adapts values of a class, and the class for which that is registered."""
        adapters, protocol = self._extensions.adapters, self._extensions.ISQLQuote
        for each in kind.__mro__:
            found = adapters.get((each, protocol))
            if found is not None:
                return each, found
        return kind, None

    def _unwrapped(self, value: Any) -> object:
        if self._is_json(type(value)):
            return _json_text(value)
        if type(value) is not self._extensions.Binary:
            raise _other(value)
        return value

    def _is_json(self, kind: Any) -> bool:
        extras: Any = sys.modules.get("psycopg2._json")
        return isinstance(kind, type) and extras is not None and issubclass(kind, extras.Json)

    def _is_own(self, kind: type, adapter: Any) -> bool:
        if getattr(adapter, "__module__", None) in ("psycopg2._ipaddress", "psycopg2.extras"):
            return True
        name = _OWN.get(kind.__name__)
        return name is not None and adapter is getattr(self._own, name, None)

    def json_of(self, cursor: Any, place: int) -> Callable[[int, object], object]:
        """What tells the value of JSON that a row shows at a place."""
        is_text = self._shows_text(cursor, cursor.description[place].type_code)

        def told(row: int, value: object) -> object:
            if is_text is None:
                return Unknown()
            if value is None:
                return None if is_text else PerhapsNull()
            return value if is_text else Parsed(value)

        return told

    def _caster(self, cursor: Any, oid: int) -> Any:
        """What makes values of a type; None where its texts are shown."""
        known = (getattr(cursor, "string_types", None), self._raw.string_types, self._extensions.string_types)
        return next((types[oid] for types in known if types and oid in types), None)

    def _shows_text(self, cursor: Any, oid: int) -> Optional[bool]:
        """Whether values of JSON are shown as texts; None where that isn't known."""
        caster = self._caster(cursor, oid)
        return True if caster is None else self._probe(caster, oid, cursor, _PROBE, json.loads(_PROBE))

    def _probe(self, caster: Any, oid: int, cursor: Any, text: str, value: object) -> Optional[bool]:
        """Whether a caster shows a text as it is, or as its own value; None where it shows something else."""
        if (id(caster), oid) not in self._probed:
            try:
                shown = caster(text, cursor)
            except Exception:  # the application's own
                shown = None
            is_text = type(shown) is str and shown == text
            self._probed[id(caster), oid] = caster, True if is_text else False if shown == value else None
        return self._probed[id(caster), oid][1]

    def turned(self, cursor: Any, oids: Sequence[int]) -> List[int]:
        """The places at which the values that are shown may be others, as the application has registered it."""
        own, shared, casters = cursor.string_types, self._raw.string_types, self._extensions.string_types
        known = self._known
        if not own and not shared:
            return [place for place, oid in enumerate(oids) if casters.get(oid) is not known.get(oid, self) and self._turns(cursor, oid)]
        return [place for place, oid in enumerate(oids) if self._turns(cursor, oid)]

    def _is_own_caster(self, caster: Any, oid: int) -> bool:
        return caster is None or (id(caster) in self._casters and oid in caster.values)

    def _turns(self, cursor: Any, oid: int) -> bool:
        caster = None if oid in _JSON_OIDS else self._caster(cursor, oid)
        if self._is_own_caster(caster, oid):
            if oid not in _JSON_OIDS and not cursor.string_types and not self._raw.string_types:
                self._known[oid] = caster
            return False
        text, value = _PROBES.get(oid, ("", None))
        return not text or self._probe(caster, oid, cursor, text, value) is None


class Unknown:
    """A value that the application has made of another, by what it has registered."""


class Psycopg:
    """What psycopg sends and shows."""

    def __init__(self, raw: Any) -> None:
        self._raw = raw

    def plain_cursor(self) -> Any:
        """A cursor whose rows are tuples of the driver's own values."""
        import psycopg.rows
        import psycopg.types.numeric
        import psycopg.types.string

        cursor = self._raw.cursor(row_factory=psycopg.rows.tuple_row)
        numeric, string = psycopg.types.numeric.IntLoader, psycopg.types.string
        loaders = {"int2": numeric, "int4": numeric, "int8": numeric, "text": string.TextLoader, "bytea": string.ByteaLoader}
        for name, loader in loaders.items():
            cursor.adapters.register_loader(name, loader)
        return cursor

    def sent(self, value: Any, cursor: Any = None) -> object:
        """What is sent in place of a value, as it is registered for a cursor, its connection or all of them."""
        if value is None:
            return None
        adapt: Any = sys.modules["psycopg.adapt"]
        source = self._raw if cursor is None else cursor
        if hasattr(value, "__conform__") or not self._is_sent_by_own(source.adapters, type(value)):
            raise _other(value)
        _refuse_other_spelling(value)
        if isinstance(value, str) and source.adapters.get_dumper(type(value), adapt.PyFormat.TEXT).__module__ != "psycopg.types.enum":
            return str.__str__(value)
        if type(value).__module__ == "psycopg.types.json" or isinstance(value, dict):
            try:
                return bytes(adapt.Transformer(source).get_dumper(value, adapt.PyFormat.TEXT).dump(value)).decode("utf-8")
            except Exception as error:  # the application's own, which the driver meets too
                raise Unsaid(f"its JSON can't be made: {type(error).__name__}") from None
        return value

    def sends_own(self, kinds: Iterable[type], cursor: Any) -> bool:
        """Whether numbers and texts, of just these classes, are sent as they are."""
        adapters = (self._raw if cursor is None else cursor).adapters
        return all(self._is_sent_by_own(adapters, kind) for kind in kinds)

    def _is_sent_by_own(self, adapters: Any, kind: type) -> bool:
        """Whether the driver's own dumpers send values of a class, in each form that it may choose."""
        found = 0
        for form in sys.modules["psycopg.adapt"].PyFormat:
            try:
                dumper = adapters.get_dumper(kind, form)
            except Exception:  # there is none of this form
                continue
            if not _is_own(dumper):
                return False
            found += 1
        return found > 0

    def turned(self, cursor: Any, oids: Sequence[int]) -> List[int]:
        """The places at which the values that are shown may be others, as the application has registered it."""
        return [place for place, oid in enumerate(oids) if oid not in _JSON_OIDS and self._turns(cursor, oid, cursor.pgresult.fformat(place))]

    def _turns(self, cursor: Any, oid: int, form: Any) -> bool:
        known = cursor.adapters.types.get(oid)  # of an array, what its elements are
        oids = {oid, known.oid if known is not None else oid}
        loaders = [cursor.adapters.get_loader(oid, form) for oid in oids]
        return any(loader is not None and not _is_own(loader) for loader in loaders)

    def json_of(self, cursor: Any, place: int) -> Callable[[int, object], object]:
        """What tells the value of JSON that a row shows at a place: its text, as it came."""
        came = cursor.pgresult
        skipped = 1 if came.fformat(place) == 1 and cursor.description[place].type_code == _JSON_OIDS[1] else 0

        def told(row: int, value: object) -> object:
            text: Optional[bytes] = came.get_value(row, place)
            return None if text is None else bytes(text)[skipped:].decode("utf-8")

        return told


def _refuse_other_spelling(value: object) -> None:
    """Refuses values of classes that are derived of those which a driver knows: it may spell them otherwise."""
    known = (datetime.date, datetime.time, Decimal, uuid.UUID)
    is_own = type(value) in (*known, datetime.datetime) or type(value).__module__ == "freezegun.api"
    if isinstance(value, known) and not is_own:
        raise _other(value)


def _other(value: object) -> Unsaid:
    return Unsaid(f"the driver sends something else in place of a {type(value).__name__}")


def _is_own(kind: Any) -> bool:
    """Whether a dumper or a loader is psycopg's own, or one of those that it makes of these for arrays."""
    if kind.__module__ == "abc" and "load" not in vars(kind) and "dump" not in vars(kind):
        kind = kind.__mro__[1]
    return str(kind.__module__).startswith(("psycopg.", "psycopg_c.", "psycopg_binary."))


def surely_known(adapting: Any, cursor: Any, description: Any, rows: Sequence[Sequence[object]]) -> Sequence[Sequence[object]]:
    """The rows that came. Values of JSON stand so that each is surely known, and those that the application has made of others
    as unknown ones."""
    if not rows:
        return rows
    oids = [column.type_code for column in description]
    told: List[Tuple[int, Callable[[int, object], object]]] = [
        (place, adapting.json_of(cursor, place)) for place, oid in enumerate(oids) if oid in _JSON_OIDS
    ]
    unknown = adapting.turned(cursor, oids)
    told += [(place, lambda row, value: value if value is None else Unknown()) for place in unknown]
    if not told:
        return rows
    made: List[Sequence[object]] = []
    for at, row in enumerate(rows):
        fields = list(row)
        for place, value_of in told:
            fields[place] = value_of(at, fields[place])
        made.append(fields)
    return made
