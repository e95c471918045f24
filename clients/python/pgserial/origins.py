"""A query that the grammar of transcripts lacks, said by what it returned: one SELECT for each row of a recorded table whose key
it shows. That is less than the query says, and true: what it didn't return counts as left out."""

from typing import Any, Callable, Dict, Iterable, List, Mapping, NamedTuple, Optional, Sequence, Tuple

from . import sql
from .catalog import Names, Table
from .returning import Addition, _quoted
from .shapes import Read, Reading
from .sql import Star, Token
from .translation import Arguments, Exchange, Result, Told, _behind_where, _Saying
from .values import Plain, Spelling, Unsaid, plain

MOST_ROWS = 10000  # of a result that is said by its rows


class Origin(NamedTuple):
    """A column of a result: which of the tables that the query names it is of, and its place there."""

    source: object
    table: Table
    place: int


# A column of a result as libpq tells it: the table's number and the column's, both 0 where it is of none.
Numbers = Sequence[Tuple[int, int]]
Attributes = Mapping[Tuple[int, int], Tuple[str, str]]  # by these numbers the table's name in the transcript, and the column's own


class Rows:
    """A query that is said by its rows."""

    def __init__(self, names: Names, spelling: Spelling, tokens: Sequence[Token], read: Optional[Read]) -> None:
        self._names, self._spelling, self._tokens, self._read = names, spelling, tokens, read
        self._sources = [self._table(source.table) for source in read.sources] if read is not None else []
        self._single = frozenset(table.name for table in names.tables if self._stands_once(table))
        self._sayings: Dict[str, _Saying] = {}
        self.added = self._hidden(read) if read is not None else ()  # keys that it doesn't show: of which sources, and columns
        if read is None or not (self.added or self._may_show_a_key(read) or (read.is_whole and self._sources[0] is not None)):
            raise Unsaid("it shows no recorded table's key")

    def _hidden(self, read: Read) -> Tuple[Tuple[int, int], ...]:
        """The columns of keys that could be shown beside what it shows, each with its source."""
        called = [str((source.table.alias or source.table.name).text).lower() if source.table else "" for source in read.sources]
        shown = [self._item(item) for item in read.items]
        knows_all = not read.is_merged and None not in self._sources
        is_odd = knows_all and any(isinstance(item, sql.Column) and several == [None] for item, several in zip(read.items, shown))
        if read.end is None or is_odd or any(several is None for several in shown):
            return ()
        known = {(origin.source, origin.place) for several in shown for origin in several or () if origin is not None}
        found: List[Tuple[int, int]] = []
        for at, table in enumerate(self._sources):
            if table is not None and table.key_places and called.count(called[at]) == 1:
                missing = [place for place in table.key_places if (at, place) not in known]
                found += [(at, place) for place in missing]
        return tuple(found)

    @property
    def tables(self) -> List[Table]:
        """The recorded tables whose keys could be shown."""
        return [table for at, table in enumerate(self._sources) if table is not None and at in {at for at, _ in self.added}]

    def addition(self, is_doubled: bool) -> Optional[Addition]:
        """What is added so that these keys are shown; None where there are none."""
        if not self.added or self._read is None or self._read.end is None:
            return None
        columns = []
        for at, place in self.added:
            called, table = self._read.sources[at].table, self._sources[at]
            assert called is not None and table is not None
            columns.append(_quoted((called.alias or called.name).text) + "." + _quoted(table.columns[place].real))
        text = ", ".join(columns)
        return Addition("\n, " + (text.replace("%", "%%") if is_doubled else text) + " ", self._read.end, len(columns), False)

    def _table(self, table: Optional[sql.Table]) -> Optional[Table]:
        assert self._read is not None
        if table is None or (table.schema is None and table.name.text in self._read.with_names):
            return None
        try:
            return self._names.table(table.schema, table.name)
        except Unsaid:
            return None

    def _may_show_a_key(self, read: Read) -> bool:
        """Whether what it shows may have all columns of a recorded table's key."""
        shown = [item.name for item in read.items if isinstance(item, sql.Column)]
        has_star = any(isinstance(item, Star) for item in read.items)
        tables = [table for table in self._names.tables if table in self._sources or table.name in self._single]
        return any(
            has_star or all(any(self._names.is_column(name, table.columns[place].real) for name in shown) for place in table.key_places)
            for table in tables
            if table.key_places
        )

    def _count(self, name: str) -> int:
        """How often a name stands there that isn't before a column's."""
        folds = self._names.folds
        found = 0
        for token, after in zip(self._tokens, (*self._tokens[1:], None)):
            is_name = token.kind in ("word", "name") and (str(token.value).lower() == name.lower() if folds else token.value == name)
            found += is_name and not (after is not None and after.is_sign("."))
        return found

    def _stands_once(self, table: Table) -> bool:
        """Whether all columns of a table are of one row of it: it is named once, and so is what WITH makes of it."""
        with_names = self._read.with_names if self._read is not None else frozenset(("?",))
        if self._read is None or self._count(table.real) != 1 or table.real in with_names:
            return False
        return all(self._count(name) <= 2 for name in with_names)

    # what is shown

    def _parsed(self, width: int) -> List[Optional[Origin]]:
        """The origins of the columns as the text tells them; none where it doesn't tell them all."""
        found: List[Optional[Origin]] = []
        for item in self._read.items if self._read is not None else ():
            several = self._item(item)
            if several is None:
                return [None] * width
            found += several
        if len(found) < width:
            found += [self._origin_at(at, place) for at, place in self.added]
        return found if len(found) == width else [None] * width

    def _origin_at(self, at: int, place: int) -> Optional[Origin]:
        table = self._sources[at]
        return Origin(at, table, place) if table is not None else None

    def _item(self, item: Any) -> Optional[List[Optional[Origin]]]:
        """The origins of what an item shows; None where nobody knows how many columns it has."""
        assert self._read is not None
        if isinstance(item, Star):
            wanted = range(len(self._sources)) if item.table is None else [at for at in [self._called(item.table)] if at is not None]
            tables = [(at, self._sources[at]) for at in wanted]
            if not tables or any(table is None for _, table in tables) or (item.table is None and self._read.is_merged):
                return None
            return [self._origin(at, table, sql.Name(real, True)) for at, table in tables if table is not None for real in table.order]
        if isinstance(item, sql.Column):
            return [self._column(item)]
        return [None]

    def _called(self, name: sql.Name) -> Optional[int]:
        """The source that is called so."""
        assert self._read is not None
        for at, source in enumerate(self._read.sources):
            called = source.table and (source.table.alias or source.table.name)
            if called and (self._names.is_column(name, called.text) or name.text == called.text):
                return at
        return None

    def _column(self, column: sql.Column) -> Optional[Origin]:
        if column.table is not None:
            at = self._called(column.table)
            table = self._sources[at] if at is not None else None
            return self._origin(at, table, column.name) if table is not None else None
        if self._names.is_function(column.name):
            return None
        if self._read is None or self._read.is_merged or any(table is None for table in self._sources):
            return None
        found = [(at, table) for at, table in enumerate(self._sources) if table is not None and self._has(table, column.name)]
        return self._origin(found[0][0], found[0][1], column.name) if len(found) == 1 else None

    def _has(self, table: Table, name: sql.Name) -> bool:
        return any(self._names.is_column(name, real) for real in table.order)

    def _origin(self, source: object, table: Table, name: sql.Name) -> Optional[Origin]:
        try:
            return Origin(source, table, self._names.place(table, name))
        except Unsaid:
            return None

    def origins(self, width: int, numbers: Optional[Numbers], attributes: Attributes) -> List[Optional[Origin]]:
        """The origins of a result's columns: as the text tells them, where the driver tells none; else those that the driver
        tells, by the table that the text names or where that stands there once."""
        parsed = self._parsed(width)
        if numbers is None:
            return parsed
        by_name = {table.name: table for table in self._names.tables}
        found: List[Optional[Origin]] = []
        for each, number in zip(parsed, numbers):
            name, real = attributes.get(number, ("", ""))
            table = by_name.get(name)
            told = self._origin(name, table, sql.Name(real, True)) if table is not None else None
            if told is None or (each is not None and (each.table.name, each.place) != (told.table.name, told.place)):
                found.append(None)
            elif name in self._single:
                found.append(told)
            else:
                found.append(each)
        return found

    # what is said

    def told(
        self, arguments: Arguments, numbers: Callable[[], Optional[Numbers]], attributes: Attributes, why: str, is_part: bool = False
    ) -> "RowsTold":
        """One execution of it; and why it isn't said as it stands. `is_part` tells that other rows may come."""
        return RowsTold(self, arguments, numbers, attributes, why, is_part)

    def saying(self, table: Table) -> _Saying:
        """What says things of a table."""
        found = self._sayings.get(table.name)
        if found is None:
            called = sql.Table(None, sql.Name(table.real, True), None)
            if self._read is not None and len(self._read.sources) == 1 and self._sources[0] is not None:
                called = self._read.sources[0].table or called
            found = self._sayings[table.name] = _Reading(self._names, self._spelling, called)
        return found

    def beside(self, arguments: Arguments) -> Tuple[Tuple[str, ...], bool]:
        """The conditions that hold for each row, where it is of one table; and whether these are all, and all rows came."""
        read = self._read
        if read is None or len(read.sources) != 1 or self._sources[0] is None:
            return (), False
        saying = self.saying(self._sources[0])
        try:
            where = saying.where(read.conditions, arguments)
            if where.place is None:
                return where.texts, read.is_whole
        except Unsaid:
            pass
        texts: List[str] = []
        for each in read.conditions:
            try:
                texts += saying.where([each], arguments).texts
            except Unsaid:
                continue
        return tuple(texts), False

    @property
    def is_distinct(self) -> bool:
        """Whether each row is shown once."""
        return self._read is not None and self._read.is_distinct

    @property
    def shows_more(self) -> bool:
        """Whether it shows what isn't said, where all else is."""
        return any(self._is_more(item) for item in (self._read.items if self._read is not None else ()))

    def _is_more(self, item: Any) -> bool:
        table = self._sources[0] if self._sources else None
        if isinstance(item, Star) and table is not None:
            return any(table.why_passed(real) is not None for real in table.order)
        if isinstance(item, sql.Column) and table is not None:
            is_passed = self._names.is_other_column(table, item.name) and self._names.why_passed(table, item.name) is None
            return self._column(item) is None and not is_passed
        return isinstance(item, Reading)


class _Reading(_Saying):
    """What is said of a table that is read."""

    writes = False

    def __init__(self, names: Names, spelling: Spelling, called: sql.Table) -> None:
        super().__init__(names, spelling, _Named(called))


class _Named(NamedTuple):
    table: sql.Table


Group = Tuple[Table, List[Tuple[int, int]]]  # of one table that the query names: where in a row its columns stand


class RowsTold(Told):
    """One execution of a query that is said by its rows."""

    writes, shows = False, True

    def __init__(
        self, rows: Rows, arguments: Arguments, numbers: Callable[[], Optional[Numbers]], attributes: Attributes, why: str, is_part: bool
    ) -> None:
        self._rows, self._numbers, self._attributes = rows, numbers, attributes
        self._texts, is_whole = rows.beside(arguments)
        self._is_whole = is_whole and not is_part
        self.left_out = why

    def exchanges(self, result: Result) -> List[Exchange]:
        """A SELECT for each row, or for all of them."""
        rows = result.rows
        if not rows:
            return self._whole([], []) if self._is_whole and not self._rows.is_distinct else []
        origins = self._rows.origins(len(rows[0]), self._numbers(), self._attributes)
        groups = self._groups(origins)
        if self._is_whole and len(groups) <= 1:
            whole = self._of_all(origins, groups, rows)
            if whole is not None:
                return whole
        if not groups:
            raise Unsaid("it shows no recorded table's key")
        if len(rows) > MOST_ROWS:
            raise Unsaid(f"it shows more than {MOST_ROWS} rows")
        told: Dict[Tuple[str, str], Exchange] = {}
        for table, places in groups:
            for exchange in self._by_rows(table, places, rows):
                told[exchange[0], exchange[1][-1]] = exchange
        return list(told.values())

    def _groups(self, origins: Iterable[Optional[Origin]]) -> List[Group]:
        """The columns of each table that the query names, where its key is among them."""
        by_source: Dict[object, Group] = {}
        for at, origin in enumerate(origins):
            if origin is not None:
                places = by_source.setdefault(origin.source, (origin.table, []))[1]
                if origin.place not in [place for _, place in places]:
                    places.append((at, origin.place))
        return [
            (table, places)
            for table, places in by_source.values()
            if table.key_places and set(table.key_places) <= {place for _, place in places}
        ]

    def _of_all(self, origins: Sequence[Optional[Origin]], groups: List[Group], rows: Sequence[Sequence[object]]) -> Optional[List[Exchange]]:
        """All of it as one SELECT."""
        if self._rows.is_distinct and not groups:
            return None
        shown = [(at, origin.place) for at, origin in enumerate(origins) if origin is not None]
        return self._whole(shown, rows)

    def _whole(self, shown: List[Tuple[int, int]], rows: Sequence[Sequence[object]]) -> List[Exchange]:
        table = self._rows._sources[0]
        assert table is not None
        self.left_out = "what it makes of columns" if self._rows.shows_more else None
        return [self._rows.saying(table).select(shown, _behind_where(self._texts), rows)]

    def _by_rows(self, table: Table, places: List[Tuple[int, int]], rows: Sequence[Sequence[object]]) -> Iterable[Exchange]:
        """A SELECT for each row of a table; null stands in the place of one that isn't there."""
        saying = self._rows.saying(table)
        where_of = {place: at for at, place in places}
        column = table.columns[0]
        for row in rows:
            values: List[Plain] = [plain(table.columns[place].kind, row[where_of[place]]) for place in table.key_places]
            if None in values:
                continue
            key = table.key_of((None, *values)) if table.parts else values[0]
            named = f"{column.name} = {saying.literal(column, key)}"
            where = _behind_where((named, *[text for text in self._texts if text != named]))
            yield saying.select(places, where, [row])
