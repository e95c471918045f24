"""The tables of a database that is recorded, as its catalog tells them, and as a transcript can say them."""

import itertools
import re
from typing import FrozenSet, Iterable, Iterator, List, Mapping, NamedTuple, Optional, Sequence, Tuple

from . import BIGINT, BYTEA, TEXT, Kind
from .keys import Candidate, Refused, chosen, key_text
from .kinds import Form, named_form
from .setters import Setter
from .sql import Name, negated, tokens_of
from .values import Plain, Unsaid, plain

# Words that are no names in a transcript.
RESERVED = frozenset(
    "and between bigint bytea count create delete from insert into is key not null primary references select set table text "
    "update values where".split()
)
MOST_COLUMNS, MOST_TABLES, LONGEST_NAME = 32, 256, 63
MADE = "what the database makes"  # the default of a column whose value nobody knows before


class Column(NamedTuple):
    """A column: its own name, that in the transcript, its kind, its default, whether the order of its values is that of a
    transcript, and the length beyond which its texts are cut."""

    real: str
    name: str
    kind: Kind
    default: object = None
    is_ordered: bool = True
    length: Optional[int] = None

    def stored(self, said: Plain) -> Plain:
        """A value that is written; refuses one in whose place the database stores another."""
        if self.length is not None and isinstance(said, str) and len(said) > self.length:
            raise Unsaid(f"a text that is longer than column {self.real}")
        return said if said is None or not isinstance(self.kind, Form) else self.kind.stored(said)


class Hazard(NamedTuple):
    """What may write unsaid where a table is written: by which statements (`insert`, `update`, `delete`), what it is, and the
    function that it calls, where it is a trigger; and where it may do no more than that, which columns it sets."""

    verbs: FrozenSet[str]
    why: str
    function: Optional[str] = None
    setter: Optional[Setter] = None


class Cascade(NamedTuple):
    """A foreign key that changes a table's rows with those that they refer to: its columns, those that they refer to, and what
    it does where the row is deleted or its columns are changed: `cascade`, `set null`, `set default`, or nothing."""

    schema: Optional[str]
    child: str
    columns: Tuple[str, ...]
    referenced: Tuple[str, ...]
    on_delete: Optional[str]
    on_update: Optional[str]
    numbers: Tuple[int, ...] = ()  # of the table, or of its partitions, in the catalog of PostgreSQL


class Table(NamedTuple):
    """A table. `columns` are those that are recorded, the key first; `order` has the own names of all, in their order. Where the
    key is of several columns, the first is made of these, at the places `parts`, and has no name of its own. Where there is no
    key, the first has one of `numbers` for each row."""

    schema: Optional[str]
    real: str
    name: str
    columns: Tuple[Column, ...]
    order: Tuple[str, ...]
    makes_key: bool = False  # whether an INSERT without a key gets one that the cursor's `lastrowid` tells
    parts: Tuple[int, ...] = ()
    passed: Tuple[Tuple[str, str], ...] = ()  # own names of columns that can't be said, and why
    hazards: Tuple[Hazard, ...] = ()
    cascades: Tuple[Cascade, ...] = ()  # foreign keys by which other tables' rows are changed with those of this one
    numbers: Optional[Iterator[int]] = None
    reached: Tuple[str, ...] = ()  # tables that aren't recorded, whose foreign keys may change rows of this one
    setters: Tuple[Setter, ...] = ()  # triggers that set columns

    def create(self) -> str:
        """The line that creates it. Constraints are left out: what they refuse is answered by an error, and left out too."""
        kinds = [f"{column.name} {column.kind.name}" for column in self.columns]
        kinds[0] += " PRIMARY KEY"
        return f"CREATE TABLE {self.name} ({', '.join(kinds)});"

    @property
    def key_places(self) -> Tuple[int, ...]:
        """The places of the columns that are the key; none where there is none."""
        return () if self.numbers is not None else self.parts or (0,)

    @property
    def own_columns(self) -> Tuple[Column, ...]:
        """The recorded columns that the database has too."""
        return self.columns if self.columns[0].real else self.columns[1:]

    def key_of(self, values: Sequence[Plain]) -> Plain:
        """The key of a row, whose values stand by their places; a new number where there is no key."""
        if self.numbers is not None:
            return next(self.numbers)
        return key_text([values[place] for place in self.parts]) if self.parts else values[0]

    def why_passed(self, name: str) -> Optional[str]:
        """Why a column can't be said, where it can't."""
        return dict(self.passed).get(name)

    def unsure(self, verb: str) -> Optional[str]:
        """Why a statement that begins with this verb may write more than it says, where it may."""
        return next((hazard.why for hazard in self.hazards if verb in hazard.verbs), None)

    def unsaid_by(self, verb: str) -> Optional[str]:
        """Why a statement that begins with this verb can't be said as it stands: it may write more, or a trigger sets columns."""
        setter = next((each for each in self.setters if verb in each.verbs), None)
        return self.unsure(verb) or (f"its trigger {setter.name} sets column {setter.columns[0]}" if setter is not None else None)


def said_name(real: str, taken: Iterable[str]) -> str:
    """A name as a transcript can say it, that none of the others has."""
    name = re.sub(r"\W", "_", real.lower(), flags=re.ASCII)[: LONGEST_NAME - 4]
    name = name if re.match(r"[a-z_]", name) else "_" + name
    while name in RESERVED or name in taken:
        name += "_"
    return name


class Seen(NamedTuple):
    """A column as the catalog tells it: its name, its type in words, its kind where it has one; then as Column has it, and why
    it can't be said, where it can't."""

    real: str
    type: str
    kind: Optional[Kind]
    default: object
    is_ordered: bool = True
    length: Optional[int] = None
    refusal: Optional[str] = None

    @property
    def why_not(self) -> Optional[str]:
        """Why it can't be said, where it can't."""
        return self.refusal or (f"is of type {self.type}" if self.kind is None else None)


def _recorded(table: str, seen: Sequence[Seen], candidates: Sequence[Candidate], wanted: Optional[Sequence[str]]) -> List[Seen]:
    """The columns that are wanted, or all. A key is always among them, where there is one."""
    if wanted is None:
        return list(seen)
    known = {column.real for column in seen}
    for name in wanted:
        if name not in known:
            raise Refused(f"table {table} has no column {name}")
    sayable = [column.real for column in seen if column.why_not is None]
    named = chosen(candidates, [name for name in sayable if name in wanted]) or chosen(candidates, sayable)
    return [column for column in seen if column.real in wanted or column.real in named]


def table_of(
    schema: Optional[str],
    real: str,
    seen: Sequence[Seen],
    candidates: Sequence[Candidate],
    wanted: Optional[Sequence[str]],
    taken: Iterable[str],
) -> Table:
    """The table of these columns, and of the first of these keys that can be said; its rows are numbered where there is none.
    Columns that can't be said are passed over, and so are those for which there is no room."""
    candidates = [each for each in candidates if len(each.names) < MOST_COLUMNS]
    recorded = _recorded(real, seen, candidates, wanted)
    sayable = [column for column in recorded if column.why_not is None]
    keys = chosen(candidates, [column.real for column in sayable])
    is_made = len(keys) != 1
    room = MOST_COLUMNS - is_made
    said = sorted(sayable, key=lambda column: keys.index(column.real) if column.real in keys else len(keys))
    passed = [(column.real, column.why_not) for column in recorded if column.why_not is not None]
    passed += [(column.real, f"is one of more than {MOST_COLUMNS} columns") for column in said[room:]]
    columns: List[Column] = []
    for column in said[:room]:
        assert column.kind is not None
        name = said_name(column.real, [other.name for other in columns])
        columns.append(Column(column.real, name, column.kind, column.default, column.is_ordered, column.length))
    names = [column.name for column in columns]
    if is_made:
        columns.insert(0, Column("", said_name("_".join(keys) or "row_number", names), TEXT if keys else BIGINT))
    parts = tuple(range(1, len(keys) + 1)) if is_made else ()
    order = tuple(column.real for column in seen)
    numbers = None if keys else itertools.count(1)
    return Table(schema, real, said_name(real, taken), tuple(columns), order, False, parts, tuple(passed), numbers=numbers)


def numbered(table: Table) -> Table:
    """A table whose rows are numbered, since its key can't be said."""
    own = table.own_columns[: MOST_COLUMNS - 1]
    passed = tuple((column.real, f"is one of more than {MOST_COLUMNS} columns") for column in table.own_columns[len(own) :])
    name = said_name("row_number", [column.name for column in own])
    columns = (Column("", name, BIGINT), *own)
    return table._replace(columns=columns, makes_key=False, parts=(), passed=table.passed + passed, numbers=itertools.count(1))


def without_columns(table: Table, why: Mapping[int, str]) -> Table:
    """A table without the columns at some places, which aren't its key's, and why these can't be said."""
    columns = tuple(column for place, column in enumerate(table.columns) if place not in why)
    passed = tuple((table.columns[place].real, told) for place, told in why.items())
    return table._replace(columns=columns, passed=table.passed + passed)


_CAST = re.compile(r"::[\w \".]+(\([\d,]+\))?(\[\])*$")


def constant(expression: Optional[str]) -> object:
    """The value of a default that is a number, a text or a truth value; MADE where it is anything else, None where there is
    none."""
    if expression is None:
        return None
    try:
        tokens = tokens_of(_CAST.sub("", expression.strip().strip("()")), "qmark")
    except Unsaid:
        return MADE
    sign = tokens[0].value if tokens and tokens[0].is_sign("-", "+") else ""
    tokens = tokens[1:] if sign else tokens
    if len(tokens) != 1:
        return MADE
    kind, value = tokens[0].kind, tokens[0].value
    if kind == "number":
        return negated(value) if sign == "-" else value
    if kind in ("string", "bytes") and not sign:
        return value
    if tokens[0].is_word("true", "false") and not sign:
        return value == "true"
    return None if tokens[0].is_word("null") and not sign else MADE


def default_of(expression: Optional[str], kind: Optional[Kind]) -> object:
    """The default of a column; MADE where nobody knows before what it gives."""
    value = constant(expression)
    if value is MADE or kind is None:
        return MADE if value is MADE else value
    try:
        said = plain(kind, value)
        return said if not isinstance(kind, Form) else kind.stored(said)
    except Unsaid:
        return MADE


# ---- other databases


def declared_table(name: str, kinds: Mapping[str, str], taken: Iterable[str]) -> Table:
    """A table of a database whose catalog isn't known, as the user declares it: the kinds of its columns, the key first."""
    known = {kind.name: kind for kind in (BIGINT, TEXT, BYTEA)}
    seen = [Seen(column, kind, known.get(kind) or named_form(kind), MADE, False) for column, kind in kinds.items()]
    for column in seen:
        if column.kind is None:
            raise Refused(f"column {column.real} of table {name} is of type {column.type}, which no transcript can say")
    schema, _, bare = name.rpartition(".")
    return table_of(schema or None, bare, seen, [Candidate(list(kinds)[:1])], None, taken)


# ---- names


class Names:
    """The recorded tables, by their names; and what of others may be written, since no verdict is to speak of it."""

    def __init__(
        self,
        tables: Sequence[Table],
        folds: bool,
        ignoring: Iterable[str] = (),
        functions: FrozenSet[str] = frozenset(),
        schema: Optional[str] = None,
    ) -> None:
        self._schema = schema  # of tables that have none
        self.folds = folds  # whether names are the same whatever the case of their letters, quoted or not
        self._functions = functions  # words that are called without parentheses
        self._tables = {self._key(Name(table.real, True)): table for table in tables}
        self._ignoring: FrozenSet[str] = frozenset(self._key(Name(name.rpartition(".")[2], True)) for name in ignoring)
        self.tables = tuple(tables)
        # What of these is written changes rows of recorded tables too.
        self._reached = {self._key(Name(name, True)) for table in tables for name in table.reached}
        self._ignoring -= self._reached

    def _key(self, name: Name) -> str:
        return name.text.lower() if self.folds else name.text

    def is_function(self, name: Name) -> bool:
        """Whether this is a function or a constant, and no column, where it stands without a table before it."""
        return not name.is_quoted and name.text in self._functions

    def is_ignored(self, name: Optional[Name]) -> bool:
        """Whether what is written there is no matter."""
        return name is not None and self._key(name) in self._ignoring

    def why_written(self, name: Name) -> Optional[str]:
        """Why writing a table that isn't recorded changes rows of one that is; None where it doesn't."""
        return f"foreign keys may change rows of recorded tables with those of {name.text}" if self._key(name) in self._reached else None

    def is_recorded(self, name: Name) -> bool:
        """Whether this is a recorded table's name, perhaps in another schema."""
        return self._key(name) in self._tables

    def recorded(self, name: Name) -> Optional[Table]:
        """The recorded table of this name."""
        return self._tables.get(self._key(name))

    def table(self, schema: Optional[Name], name: Name) -> Table:
        """The recorded table of this name."""
        table = self._tables.get(self._key(name))
        if table is None or (schema is not None and self._key(schema) != (table.schema or self._schema)):
            raise Unsaid(f"table {schema.text + '.' if schema else ''}{name.text} isn't recorded")
        return table

    def is_column(self, name: Name, real: str) -> bool:
        """Whether a name is this column's."""
        return self._key(name) == (real.lower() if self.folds else real)

    def place(self, table: Table, name: Name) -> int:
        """The place of a recorded column in its table."""
        for place, column in enumerate(table.columns):
            if self.is_column(name, column.real):
                return place
        if table.makes_key and name.text.lower() in ("rowid", "oid", "_rowid_") and not self.is_other_column(table, name):
            return 0
        raise Unsaid(f"column {name.text} of table {table.real} isn't recorded")

    def is_other_column(self, table: Table, name: Name) -> bool:
        """Whether a name is that of a column that isn't recorded."""
        recorded = [column.real for column in table.columns]
        return any(real not in recorded and self.is_column(name, real) for real in table.order)

    def why_passed(self, table: Table, name: Name) -> Optional[str]:
        """Why a column can't be said, where it can't."""
        return next((why for real, why in table.passed if self.is_column(name, real)), None)
