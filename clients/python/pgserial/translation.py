"""A statement as the application sends it, said in the words of a transcript."""

import itertools
import operator
from typing import Any, Callable, Dict, Iterable, List, Mapping, NamedTuple, Optional, Sequence, Tuple

from . import BIGINT, TEXT, sql
from .cascades import Cascades, Counts, cascades_of
from .catalog import MADE, Column, Names
from .keys import key_text
from .kinds import Form, casts_of
from .sql import Between, Cast, Comparison, Constant, Count, In, IsNull, Made, Slot, Star, Sum, Truth
from .values import MOST_BYTES, Plain, Spelling, Unsaid, plain

_SEVERAL = 4  # rows, from which on they are said column by column
Exchange = Tuple[str, List[str]]  # a command, and the lines of its reply


class Result(NamedTuple):
    """What came of a statement: how many rows it speaks of, those that it shows, and the key that the cursor tells."""

    number: int
    rows: Sequence[Sequence[object]] = ()
    key: object = None


class Look(NamedTuple):
    """A query, and a statement that changes nothing but keeps others from writing."""

    query: str
    holds: str



class Arguments:
    """The parameters of one execution. `sent` tells what the driver sends in place of a value."""

    are_marked = False  # whether others than an application's

    def __init__(self, parameters: Any, sent: Callable[[object], object] = lambda value: value) -> None:
        self.parameters, self._sent = parameters, sent
        self.are_given = parameters is not None

    def given_to(self, column: Column, value: object) -> None:
        """A value is for a column."""

    def value(self, key: sql.Key) -> object:
        """The value of a parameter."""
        given = self.parameters
        if type(given) in (tuple, list) and type(key) is int and 0 <= key < len(given):
            return self._one(given[key])
        if isinstance(given, Mapping):  # one that makes what it lacks isn't asked for it, since the driver asks too
            is_there = isinstance(key, str) and key in given
        elif isinstance(given, Sequence):
            is_there = isinstance(key, int) and 0 <= key < len(given)
        else:
            raise Unsaid(f"its parameters are a {type(given).__name__}")
        if not is_there:
            raise Unsaid(f"there is no parameter {key}")
        return self._one(given[key])

    def _one(self, value: object) -> object:
        if isinstance(value, (list, tuple)):  # of an array, or of several keys
            return type(value)([self._one(each) for each in value]) if type(value) in (list, tuple) else self._sent(value)
        return self._sent(value)


class Told:
    """One execution of a statement, as a transcript says it."""

    first: Optional[str] = None  # the first command, where it is known before the statement is sent
    surely: Optional[str] = None  # the reply to it, where it changes one row and no other could come of it but none
    writes = True
    is_sure = True  # whether it can be said whatever comes of it
    is_whole = True  # whether that is so of what it shows
    shows = False  # whether the rows that it shows are needed
    left_out: Optional[str] = None  # what of it can't be said, and only reads
    cascades: Optional[Cascades] = None  # foreign keys that change rows with those that it deletes

    def cascaded(self, result: Result, before: Optional[Counts], after: Optional[Counts]) -> List[Exchange]:
        """What these foreign keys have changed, by the counts before it and after it."""
        raise NotImplementedError

    def exchanges(self, result: Result) -> List[Exchange]:
        """The commands and replies."""
        raise NotImplementedError

    def look(self) -> Optional[Look]:
        """What is looked up before it is sent, while nobody else can write."""
        return None

    def looked(self, rows: Sequence[Sequence[object]]) -> None:
        """What was found."""


class _Where(NamedTuple):
    """Conditions: their texts; whether one asks for a key; where one lists values, its column's place and these, and the keys
    that each of these makes of the rest, where the key is of several columns."""

    texts: Tuple[str, ...]
    has_key: bool
    place: Optional[int]
    values: Tuple[Plain, ...]
    keys: Tuple[Plain, ...] = ()
    row: Optional[Dict[int, Plain]] = None  # the key's values by their places, where it is asked for

    @property
    def lists_no_keys(self) -> bool:
        """Whether it lists values that aren't keys."""
        return self.place not in (None, 0) and not self.keys


class _Texts:
    """The texts of conditions. Those that together ask for a key of several columns become one."""

    def __init__(self, saying: "_Saying") -> None:
        self._saying = saying
        self._texts: List[str] = []
        self._parts: Dict[int, Plain] = {}
        self._part_texts: List[str] = []
        self._row: Optional[Dict[int, Plain]] = None

    def add(self, text: str, place: Optional[int] = None, value: Plain = None) -> None:
        """Adds a condition; with the place of its column and a value, where it asks for just that."""
        if place in self._saying.table.parts and value is not None and place not in self._parts:
            self._parts[place] = value
            self._part_texts.append(text)
            return
        self._texts.append(text)
        if place == 0 and self._row is None:
            self._row = {0: value}

    def where(self, has_key: bool, place: Optional[int], values: Tuple[Plain, ...]) -> _Where:
        """The conditions."""
        table = self._saying.table
        missing = [part for part in table.parts if part not in self._parts]
        if table.parts and not missing:
            text = f"{table.columns[0].name} = {self._saying.literal(table.columns[0], self._key({}))}"
            return _Where((text, *self._texts), True, place, values, row=self._parts)
        if place is not None and missing == [place]:
            keys = tuple(self._key({place: value}) for value in values)
            return _Where(tuple(self._texts), has_key, place, values, keys)
        return _Where((*self._part_texts, *self._texts), has_key, place, values, row=self._row)

    def _key(self, more: Dict[int, Plain]) -> Plain:
        values = {**self._parts, **more}
        return key_text([values[part] for part in self._saying.table.parts])


def _behind_where(texts: Iterable[str]) -> str:
    joined = " AND ".join(texts)
    return f" WHERE {joined}" if joined else ""


def _within(text: str) -> str:
    """A statement's text that isn't too long."""
    if len(text) * 4 > MOST_BYTES and len(text.encode("utf-8")) > MOST_BYTES:
        raise Unsaid(f"a statement of more than {MOST_BYTES} bytes")
    return text


class _Saying:
    """What the forms of statements share: a table, and how its names and values are said."""

    writes = True
    verb_name = ""  # as triggers know it
    shows_written = False  # whether what was written is shown
    passes: Optional[str] = None  # what of it isn't said, since a column that it shows can't be

    def __init__(self, names: Names, spelling: Spelling, tree: Any) -> None:
        self.names, self.spelling, self.tree = names, spelling, tree
        self.called = tree.table
        self.table = names.table(tree.table.schema, tree.table.name)
        self.refuse_hazards(self.verb_name)

    def refuse_hazards(self, verb: str) -> None:
        """Refuses a write by which triggers or rules may write too."""
        hazard = self.table.unsure(verb) if self.shows_written else self.table.unsaid_by(verb)
        if hazard is not None:
            raise Unsaid(f"table {self.table.real} can't be written: {hazard}")

    def place(self, column: sql.Column) -> int:
        """A column's place in its table."""
        self._own_column(column)
        return self.names.place(self.table, column.name)

    def column(self, column: sql.Column) -> Column:
        """A recorded column."""
        return self.table.columns[self.place(column)]

    def _own_column(self, column: sql.Column) -> None:
        """Refuses a column of another table, and what is a function though it looks like a column."""
        self._own(column.table)
        if column.table is None and self.names.is_function(column.name):
            raise Unsaid(f"{column.name.text} without quotes is a function")

    def _own(self, table: Optional[sql.Name]) -> None:
        """Refuses a column of another table."""
        if table is None:
            return
        called = self.called.alias or self.called.name
        if not self.names.is_column(table, called.text) and table.text != called.text:
            raise Unsaid(f"{table.text} is no table of it")

    def plain(self, column: Column, value: Any, arguments: Arguments) -> Plain:
        """A written value or a parameter, for a column."""
        return plain(column.kind, self._given(column, value, arguments))

    def _given(self, column: Column, value: Any, arguments: Arguments) -> object:
        """The same as it is sent."""
        while isinstance(value, Cast):
            if value.type not in casts_of(column.kind):
                raise Unsaid(f"a {value.type} for column {column.real}")
            value = value.value
        given: object = arguments.value(value.key) if isinstance(value, Slot) else value.value
        if arguments.are_marked:
            arguments.given_to(column, given)
        return given

    def asked(self, column: Column, value: Any, arguments: Arguments) -> Plain:
        """The same, where a column is compared with it."""
        given = self._given(column, value, arguments)
        kind = column.kind
        is_of_its_type = isinstance(value, Cast) or given is None or not isinstance(kind, Form)
        return plain(kind, kind.asked(given) if isinstance(kind, Form) and not is_of_its_type else given)

    def literal(self, column: Column, value: Plain) -> str:
        """A value as a literal."""
        return self.spelling.literal(column.kind, value)

    # conditions

    def where(self, conditions: Sequence[sql.Condition], arguments: Arguments) -> _Where:
        """Conditions, of which one may list several values."""
        texts = _Texts(self)
        place: Optional[int] = None
        values: Tuple[Plain, ...] = ()
        has_key = False
        for condition in conditions:
            at = self.place(condition.column)
            column = self.table.columns[at]
            if isinstance(condition, In):
                several = self._listed(condition, arguments)
                if len(several) != 1 and place is not None:
                    raise Unsaid("it has two lists of values")
                if len(several) != 1:
                    place, values = at, several
                    continue
                texts.add(f"{column.name} = {self.literal(column, several[0])}", at, several[0])
            elif isinstance(condition, Comparison) and condition.sign == "=":
                value = self.asked(column, condition.value, arguments)
                texts.add(f"{column.name} = {self.literal(column, value)}", at, value)
            else:
                texts.add(self._condition(condition, arguments))
                continue
            has_key = has_key or at == 0
        return texts.where(has_key, place, values)

    def _listed(self, condition: In, arguments: Arguments) -> Tuple[Plain, ...]:
        """The values of a list, each once; null is like none of them."""
        column, values = self.column(condition.column), []
        for value in condition.values:
            values += self._several(column, value, arguments)
        return tuple(dict.fromkeys(value for value in values if value is not None))

    def _several(self, column: Column, value: Any, arguments: Arguments) -> List[Plain]:
        """The values of a parameter that is a list, or the one value."""
        slot = value
        while isinstance(slot, Cast) and slot.type.endswith("[]"):
            slot = slot.value
        given = arguments.value(slot.key) if isinstance(slot, Slot) else None
        if isinstance(given, (list, tuple)):
            return [self.asked(column, Constant(each), arguments) for each in given]
        return [self.asked(column, value, arguments)]

    def _condition(self, condition: Any, arguments: Arguments) -> str:
        column = self.column(condition.column)
        if isinstance(condition, IsNull):
            return f"{column.name} IS {'NOT ' if condition.is_not else ''}NULL"
        if isinstance(condition, Truth):
            return self._truth(column, condition.is_true)
        if isinstance(condition, Between) or condition.sign not in ("=", "<>"):
            self._in_order(column)
        if isinstance(condition, Between):
            low, high = (self.asked(column, value, arguments) for value in (condition.low, condition.high))
            return f"{column.name} BETWEEN {self.literal(column, low)} AND {self.literal(column, high)}"
        return f"{column.name} {condition.sign} {self.literal(column, self.asked(column, condition.value, arguments))}"

    def _truth(self, column: Column, is_true: bool) -> str:
        """A column that is true or false. Numbers but 0 are true in SQLite."""
        if isinstance(column.kind, Form) and column.kind.type.lower() == "boolean":
            return f"{column.name} = {int(is_true)}"
        if column.kind != BIGINT:
            raise Unsaid(f"column {column.real} is taken for true or false")
        return f"{column.name} {'<>' if is_true else '='} 0"

    def _in_order(self, column: Column) -> None:
        """Refuses a comparison by order of values that a transcript orders otherwise."""
        if isinstance(column.kind, Form) and not column.kind.is_ordered:
            raise Unsaid(f"values of type {column.kind.type} are compared by order")
        if column.kind == TEXT:
            if not column.is_ordered:
                raise Unsaid(f"the texts of column {column.real} are ordered by a collation that isn't C")
            self.spelling.order_texts()

    def alternatives(self, where: _Where) -> List[Tuple[str, Plain]]:
        """The conditions for each value of a list, or the only ones."""
        if where.place is None:
            return [(_behind_where(where.texts), None)]
        column = self.table.columns[0 if where.keys else where.place]
        asked = where.keys or where.values
        return [
            (_behind_where((*where.texts, f"{column.name} = {self.literal(column, said)}")), value)
            for said, value in zip(asked, where.values)
        ]

    # what is shown

    def shown(self, items: Sequence[Any]) -> Tuple[Tuple[int, int], ...]:
        """Which recorded columns are shown: the place in the row that came, and the column's. Values that are written, and
        columns that aren't recorded, are passed over."""
        shown: List[Tuple[int, int]] = []
        width = 0
        for item in items:
            places = self._shown(item)
            shown += [(width + at, place) for at, place in enumerate(places) if place is not None]
            width += len(places)
        return tuple(shown)

    def _shown(self, item: Any) -> List[Optional[int]]:
        if isinstance(item, Star):
            self._own(item.table)
            return [self._recorded(sql.Name(real, True)) for real in self.table.order]  # a star shows all
        if isinstance(item, sql.Column):
            self._own_column(item)
            return [self._recorded(item.name)]
        if isinstance(item, (Constant, Slot, Cast)):
            return [None]
        raise Unsaid("it shows a count among other things")

    def _recorded(self, name: sql.Name) -> Optional[int]:
        """The place of a column that is shown; None of one that isn't recorded."""
        why = self.names.why_passed(self.table, name)
        if why is not None:
            self.passes = f"column {name.text} of table {self.table.real} {why}"
        return None if self.names.is_other_column(self.table, name) else self.names.place(self.table, name)

    def fields(self, shown: Sequence[Tuple[int, int]], row: Sequence[object]) -> str:
        """A row that came, as COPY text."""
        columns = self.table.columns
        return "\t".join([self.spelling.copy_text(columns[place].kind, row[at]) for at, place in shown])

    def select(self, shown: Sequence[Tuple[int, int]], where: str, rows: Sequence[Sequence[object]]) -> Exchange:
        """A SELECT of these columns, or of how many rows there are."""
        if not shown:
            return f"SELECT count(*) FROM {self.table.name}{where}", ["SELECT 1", f"| {len(rows)}"]
        return self.select_text(shown, where), [f"SELECT {len(rows)}", *self.reply_rows(shown, rows)]

    def reply_rows(self, shown: Sequence[Tuple[int, int]], rows: Sequence[Sequence[object]]) -> List[str]:
        """Rows that came, as a reply has them: lines, or several in a text with newlines between them."""
        if len(rows) < _SEVERAL:
            return ["| " + self.fields(shown, row) for row in rows]
        columns, width = self.table.columns, len(rows[0])
        came: Tuple[object, ...] = tuple(itertools.chain.from_iterable(rows))
        taken = [came[at::width] for at, _ in shown]
        texts = [self.spelling.copy_texts(columns[place].kind, values) for (_, place), values in zip(shown, taken)]
        if [at for at, _ in shown] != list(range(width)) or any(map(operator.is_not, texts, taken)):
            came = tuple(itertools.chain.from_iterable(zip(*texts)))
        line = "\n| " + "\t".join(["%s"] * len(texts))
        return [((line * len(rows)) % came)[1:]]

    def select_text(self, shown: Sequence[Tuple[int, int]], where: str) -> str:
        """The text of that SELECT."""
        places = [place for _, place in shown]
        if not shown:
            return _within(f"SELECT count(*) FROM {self.table.name}{where}")
        all_of_it = places == list(range(len(self.table.columns)))
        named = "*" if all_of_it else ", ".join(self.table.columns[place].name for place in places)
        return _within(f"SELECT {named} FROM {self.table.name}{where}")

    # what is assigned

    def assignment(self, name: sql.Name, value: Any, arguments: Arguments) -> str:
        """An assignment of a value or a sum."""
        column = self.table.columns[self.names.place(self.table, name)]
        if isinstance(value, Made):
            raise Unsaid(f"the grammar has no {value.text}")
        if isinstance(value, Sum):
            return f"{column.name} = {self._sum(column, value, arguments)}"
        said = column.stored(self.plain(column, value, arguments))
        return f"{column.name} = {self.literal(column, said)}"

    def _amount(self, column: Column, value: Sum, arguments: Arguments) -> Plain:
        """What is added to a column; refuses a float, with which the database adds as floats."""
        given = self._given(column, value.amount, arguments)
        if isinstance(given, float):
            raise Unsaid("a sum with a float")
        return plain(column.kind, given)

    def _sum(self, column: Column, value: Sum, arguments: Arguments) -> str:
        """A column plus or minus a number, whose sign is turned where it is negative."""
        other = self.column(value.column)
        is_copy = isinstance(value.amount, Constant) and value.amount.value == 0
        added = column.kind.adds if isinstance(column.kind, Form) and not is_copy else BIGINT
        if other.kind != column.kind or added is None or column.kind.name != BIGINT.name:
            raise Unsaid("a sum of other columns than numbers of one kind")
        amount = self._amount(column._replace(kind=added), value, arguments)
        if amount is None:
            return "NULL"
        number = int(amount) if value.sign == "+" else -int(amount)
        if abs(number) >= 2**63:
            raise Unsaid("a number beyond 64 bits")
        return f"{other.name} {'-' if number < 0 else '+'} {abs(number)}"


# ---- SELECT


class _SelectTold(Told):
    writes, shows = False, True

    def __init__(self, saying: "_Select", arguments: Arguments) -> None:
        self._saying = saying
        self._where = saying.where(saying.tree.where, arguments)
        self._limit = saying.limit(arguments, self._where)
        self.is_whole = self._limit is None
        self._alternatives = saying.alternatives(self._where)
        if self._where.place is not None and self._where.place not in [place for _, place in saying.columns]:
            raise Unsaid("it has a list of values for a column that it doesn't show")
        self.left_out = saying.passes
        if self._limit is None and self._alternatives:
            self.first = saying.text(self._alternatives[0][0])

    def exchanges(self, result: Result) -> List[Exchange]:
        """A SELECT, or one for each value of a list."""
        rows = result.rows
        if self._limit is not None and len(rows) >= self._limit:
            raise Unsaid("it has as many rows as its LIMIT, so that others may be missing")
        if self._saying.counts and not rows:  # by LIMIT 0
            raise Unsaid("it shows no row")
        if self._saying.counts:
            return [(self.text_of_count(), ["SELECT 1", f"| {self._saying.spelling.copy_text(BIGINT, rows[0][0])}"])]
        told = [
            self._saying.select(self._saying.columns, where, self._of(value, rows)) for where, value in self._alternatives
        ]
        return told

    def text_of_count(self) -> str:
        """The text of a SELECT of how many rows there are."""
        return self._saying.text(self._alternatives[0][0])

    def _of(self, value: Plain, rows: Sequence[Sequence[object]]) -> Sequence[Sequence[object]]:
        """The rows that have this value of the list."""
        if self._where.place is None:
            return rows
        at = next(at for at, place in self._saying.columns if place == self._where.place)
        kind = self._saying.table.columns[self._where.place].kind
        return [row for row in rows if plain(kind, row[at]) == value]


class _Select(_Saying):
    writes = False

    def __init__(self, names: Names, spelling: Spelling, tree: sql.Select) -> None:
        super().__init__(names, spelling, tree)
        self.counts = len(tree.shown) == 1 and isinstance(tree.shown[0], Count)
        self.columns = () if self.counts else self.shown(tree.shown)

    def text(self, where: str) -> str:
        """The text of it."""
        return self.select_text(self.columns, where)

    def limit(self, arguments: Arguments, where: _Where) -> Optional[int]:
        """So many rows may be cut off; None where none can be."""
        limit = self.tree.limit
        if limit is None:
            return None
        value = plain(BIGINT, arguments.value(limit.key) if isinstance(limit, Slot) else getattr(limit, "value", limit))
        if value is None or self.counts or (where.has_key and isinstance(value, int) and value > 0):
            return None
        return int(value)

    def told(self, arguments: Arguments) -> Told:
        """One execution of it."""
        return _SelectTold(self, arguments)


# ---- INSERT


class _InsertTold(Told):
    def __init__(self, saying: "_Insert", arguments: Arguments) -> None:
        self._saying = saying
        self._rows = [saying.values(row, arguments) for row in saying.rows]
        self.shows = bool(saying.columns)
        if not any(MADE in row for row in self._rows):
            self.first = saying.text(self._rows[0])
            self.surely = "INSERT 0 1" if len(self._rows) == 1 and not self.shows else None
        self.is_sure = all(self._is_known(row) for row in self._rows)

    def _is_known(self, row: Sequence[Any]) -> bool:
        """Whether the values that the database makes will come."""
        shown = {place for _, place in self._saying.columns}
        makes_key = self._saying.table.makes_key and len(self._rows) == 1
        return all(value is not MADE or place in shown or (place == 0 and makes_key) for place, value in enumerate(row))

    def exchanges(self, result: Result) -> List[Exchange]:
        """An INSERT for each row."""
        reply = self.reply(result.number)
        if self.shows and len(result.rows) != len(self._rows):
            raise Unsaid(f"{len(result.rows)} of {len(self._rows)} rows came back")
        rows = [self._with_made(at, row, result) for at, row in enumerate(self._rows)]
        return [(self._saying.text(row), [reply]) for row in rows]

    def reply(self, number: int) -> str:
        """The reply to each, where so many rows were inserted."""
        if number not in (-1, len(self._rows)):
            raise Unsaid(f"{number} of {len(self._rows)} rows were inserted")
        return "INSERT 0 1"

    def _with_made(self, at: int, row: List[Any], result: Result) -> List[Any]:
        """A row with the values that came."""
        row = list(row)
        for place_in_row, place in self._saying.columns:
            row[place] = plain(self._saying.table.columns[place].kind, result.rows[at][place_in_row])
        if row[0] is MADE and self._saying.table.makes_key and len(self._rows) == 1:
            row[0] = plain(BIGINT, result.key)
        return self._saying.with_key(row)


class _Insert(_Saying):
    verb_name = "insert"

    def __init__(self, names: Names, spelling: Spelling, tree: sql.Insert) -> None:
        super().__init__(names, spelling, tree)
        self.columns = self.shown(tree.returning)
        named = tree.columns if tree.columns is not None else tuple(sql.Name(real, True) for real in self.table.order)
        places = [None if names.is_other_column(self.table, name) else names.place(self.table, name) for name in named]
        self.rows = [self._by_place(places, row, tree.columns is None) for row in tree.rows]

    def _by_place(self, places: Sequence[Optional[int]], row: Sequence[Any], may_be_short: bool) -> List[Any]:
        """The expressions of a row, in the order of the columns; None where a column isn't named."""
        if len(row) > len(places) or (len(row) < len(places) and not may_be_short):
            raise Unsaid("it has another number of values than columns")
        given: List[Any] = [None] * len(self.table.columns)
        for place, value in zip(places, row):
            if place is not None:
                given[place] = value
        return given

    def values(self, row: Sequence[Any], arguments: Arguments) -> List[Any]:
        """The values of a row; MADE where the database makes one."""
        return self.with_key([self._value(column, value, arguments) for column, value in zip(self.table.columns, row)])

    def with_key(self, row: List[Any]) -> List[Any]:
        """A row with its key, where that is made of several columns, or is the row's number."""
        table = self.table
        if table.columns[0].real or (table.numbers is not None and row[0] is not None):
            return row
        return [MADE if MADE in [row[part] for part in table.parts] else table.key_of(row), *row[1:]]

    def _value(self, column: Column, value: Any, arguments: Arguments) -> Any:
        makes = self.table.makes_key and column is self.table.columns[0]
        if value is None or (isinstance(value, Made) and value.text == "default"):
            return MADE if makes or column.default is MADE else plain(column.kind, column.default)
        if isinstance(value, Made):
            return MADE
        said = column.stored(self.plain(column, value, arguments))
        return MADE if makes and said is None else said

    def text(self, values: Sequence[Any]) -> str:
        """An INSERT of these values."""
        for column, value in zip(self.table.columns, values):
            if value is MADE and column.real:
                raise Unsaid(f"the database makes column {column.real}: say RETURNING {column.real}")
        if values[0] is None:
            raise Unsaid("a key that is null")
        literals = [self.literal(column, value) for column, value in zip(self.table.columns, values)]
        return _within(f"INSERT INTO {self.table.name} VALUES ({', '.join(literals)})")

    def told(self, arguments: Arguments) -> Told:
        """One execution of it."""
        return _InsertTold(self, arguments)


# ---- UPDATE and DELETE


class _ChangeTold(Told):
    """An UPDATE or a DELETE. Where its key is one of a list, it is one for each."""

    def __init__(self, saying: "_Change", arguments: Arguments) -> None:
        self._saying = saying
        self._where = saying.where(saying.where_tree, arguments)
        self._alternatives = saying.alternatives(self._where)
        self._verb = saying.verb(arguments)
        self.shows = saying.is_shown
        self._says_rows = saying.says_rows and self._where.place is None
        self.left_out = saying.passes
        if saying.is_shown and not self._says_rows:
            self.left_out = "what RETURNING shows"
        if self._where.lists_no_keys:
            raise Unsaid("it writes the rows that have one of several values")
        texts = [_within(self._verb + where) for where, _ in self._alternatives]
        if texts and not (self._says_rows and saying.shows_before):
            self.first = texts[0]
            self.surely = f"{saying.word} 1" if self._where.has_key and len(texts) == 1 and not self.shows else None
        self.is_sure = (len(texts) == 1 or self._where.place is None) and self.left_out is None
        self.cascades = saying.cascades()
        if self.cascades is not None:
            self.surely = None
            self.left_out = self.left_out or self.cascades.reads_unsaid(self._where.row)
            self.is_sure = self.is_sure and self.left_out is None

    def cascaded(self, result: Result, before: Optional[Counts], after: Optional[Counts]) -> List[Exchange]:
        assert self.cascades is not None
        rows = None if self._where.row is None else [self._where.row]
        return self.cascades.exchanges(result.number, rows, before, after)

    def exchanges(self, result: Result) -> List[Exchange]:
        """The change, and what it shows."""
        texts = [self._verb + where for where, _ in self._alternatives]
        told = [(text, [self.reply(count)]) for text, count in zip(texts, self._counts(result.number))]
        if not self._says_rows:
            return told
        seen = self._saying.select(self._saying.columns, self._alternatives[0][0], result.rows)
        return [seen, *told] if self._saying.shows_before else [*told, seen]

    def reply(self, number: int) -> str:
        """The reply to one that has changed so many rows."""
        if number < 0:
            raise Unsaid("nobody tells how many rows it changed")
        return f"{self._saying.word} {number}"

    def _counts(self, count: int) -> List[int]:
        """How many rows each of them changed."""
        if count < 0:
            raise Unsaid("nobody tells how many rows it changed")
        several = len(self._alternatives)
        if self._where.place is None:
            return [count]
        if count not in (0, several):
            raise Unsaid(f"{count} rows changed of {several} that were named, and nobody tells which")
        return [count // several] * several if several else []


class _UntouchedTold(Told):
    """An UPDATE that writes no recorded column: the rows that it has found."""

    def __init__(self, saying: "_Update", arguments: Arguments) -> None:
        self._saying = saying
        where = saying.where(saying.where_tree, arguments)
        if where.place is not None:
            raise Unsaid("it writes the rows that have one of several values")
        self._where = saying.alternatives(where)[0][0]
        self.shows = saying.is_shown
        self.left_out = saying.passes

    def exchanges(self, result: Result) -> List[Exchange]:
        """A SELECT of the rows that it shows, or of how many there were."""
        if result.number < 0:
            raise Unsaid("nobody tells how many rows it changed")
        if self.shows:
            return [self._saying.select(self._saying.columns, self._where, result.rows)]
        return [self._saying.select((), self._where, [()] * result.number)]


class _Change(_Saying):
    word = ""
    shows_before = False

    def __init__(self, names: Names, spelling: Spelling, tree: Any) -> None:
        super().__init__(names, spelling, tree)
        self.where_tree = tree.where
        self.is_shown = bool(tree.returning)
        self.columns = self.shown(tree.returning) if tree.returning else ()
        self.says_rows = self.is_shown

    def verb(self, arguments: Arguments) -> str:
        """What stands before the conditions."""
        raise NotImplementedError

    def cascades(self) -> Optional[Cascades]:
        """The foreign keys that change rows with those that it deletes, where there are some."""
        return None

    def told(self, arguments: Arguments) -> Told:
        """One execution of it."""
        return _ChangeTold(self, arguments)


class _Update(_Change):
    word, verb_name = "UPDATE", "update"

    def __init__(self, names: Names, spelling: Spelling, tree: sql.Update) -> None:
        super().__init__(names, spelling, tree)
        self._assigned = [(name, value) for name, value in tree.assigned if not names.is_other_column(self.table, name)]
        places = {names.place(self.table, name) for name, _ in self._assigned}
        if places.intersection(self.table.key_places):
            raise Unsaid(f"it writes the key {', '.join(self.table.columns[place].real for place in self.table.key_places)}")
        self._refuse_references([name for name, _ in tree.assigned])
        self._pass_others([value for name, value in tree.assigned if names.is_other_column(self.table, name)])
        # The rows that it shows are those that have the conditions still.
        self.says_rows = self.is_shown and not any(self.place(condition.column) in places for condition in tree.where)

    def _pass_others(self, values: Sequence[Any]) -> None:
        """Counts what columns that aren't recorded are made of: other columns were read."""
        known = {column.real.lower() for column in self.table.own_columns} | {real.lower() for real, _ in self.table.passed}
        for value in values:
            words = value.text.lower().split() if isinstance(value, Made) else [value.column.name.text.lower()] if isinstance(value, Sum) else []
            if known.intersection(words):
                self.passes = f"table {self.table.real} has columns that aren't recorded, and what is written there was read"

    def _refuse_references(self, assigned: Sequence[sql.Name]) -> None:
        """Refuses an UPDATE of columns with which foreign keys change other rows."""
        for cascade in self.table.cascades:
            referenced = [name.text for name in assigned for real in cascade.referenced if self.names.is_column(name, real)]
            if cascade.on_update is not None and referenced:
                raise Unsaid(f"a foreign key of table {cascade.child} changes rows with column {referenced[0]}")

    def told(self, arguments: Arguments) -> Told:
        """One execution of it. Where it writes no recorded column, it says which rows it has found."""
        return super().told(arguments) if self._assigned else _UntouchedTold(self, arguments)

    def verb(self, arguments: Arguments) -> str:
        """UPDATE and what it assigns."""
        said = [self.assignment(name, value, arguments) for name, value in self._assigned]
        return f"UPDATE {self.table.name} SET {', '.join(said)}"


class _Delete(_Change):
    word, verb_name, shows_before = "DELETE", "delete", True

    def cascades(self) -> Optional[Cascades]:
        return cascades_of(self)

    def verb(self, arguments: Arguments) -> str:
        """DELETE without conditions."""
        return f"DELETE FROM {self.table.name}"


# ---- by the kind of statement

SAYINGS: Dict[type, Any] = {sql.Select: _Select, sql.Insert: _Insert, sql.Update: _Update, sql.Delete: _Delete}
