"""What drivers differ in: the state of a transaction, the codes of errors, rows that have come, and the catalog."""

import os
import re
import contextlib
import sys
import time
from functools import partial
from typing import Any, Callable, Dict, FrozenSet, Iterable, List, Mapping, NamedTuple, Optional, Sequence, Set, Tuple

from .cascades import Counts
from .catalog import Cascade, Column, Table, declared_table
from .dangers import Dangers, postgres_dangers, postgres_key, sqlite_dangers, sqlite_functions
from .keys import Refused
from .kinds import Form
from .postgres_catalog import ATTRIBUTES, FACTS, postgres_tables
from .origins import Attributes, Numbers
from .returning import Facts
from .sent import Psycopg, Psycopg2, Unknown, surely_known
from .sql import PARAMSTYLES
from .sqlite_catalog import sqlite_tables
from .translation import Look, Result
from .values import Unsaid
from .wanted import Wanted

Rows = List[Sequence[object]]
_SURE = ("IntegrityError", "ProgrammingError", "DataError", "NotSupportedError", "InterfaceError")
_PLAIN_WRITES = ("insert", "update", "delete", "select", "with")  # that leave nothing done where they fail, on any database
_BEFORE_IT_IS_SENT = (TypeError, ValueError, LookupError, OverflowError)  # where a driver finds fault with parameters


class Came(NamedTuple):
    """What came of a statement; and where the driver's cursor has given up its rows, these, and what makes them the
    application's own."""

    result: Result
    served: Optional[Rows] = None
    maker: Optional[Callable[[], Optional[Callable[[Any], Any]]]] = None  # gives what makes them so when they are asked for
    error: Optional[BaseException] = None  # what the application meets behind these rows
    shown: Sequence[Sequence[object]] = ()  # where the cursor has its rows still, the same
    ahead: Optional[Rows] = None  # where the cursor stands behind its last row, all of them as the application is to have them


def _positional(row: Any, names: Sequence[str]) -> Sequence[object]:
    """The fields of a row in their order, whatever the driver makes of rows."""
    if isinstance(row, Mapping):
        if len(set(names)) < len(names):
            raise Unsaid("its rows are mappings, and two columns have one name")
        return [row[name] for name in names]
    try:
        fields = tuple(row)
    except TypeError:
        raise Unsaid(f"its rows are each a {type(row).__name__}") from None
    if len(fields) != len(names):
        raise Unsaid(f"its rows are each a {type(row).__name__}")
    return fields


def _first_word(text: str) -> str:
    words = text.split(None, 1)
    return words[0].lower() if words else ""


def _is_one(text: str) -> bool:
    """Whether a text has surely no more than one statement."""
    return ";" not in text.strip().rstrip(";")


# Functions and constants of a word, which stand without parentheses.
_TIMES = frozenset("current_date current_time current_timestamp null".split())
_WORDS = _TIMES | frozenset(
    "current_catalog current_role current_schema current_user localtime localtimestamp session_user system_user user true false".split()
)


class Driver:
    """Any driver of PEP 249. It doesn't tell whether a transaction is open, nor which errors are the database's answers."""

    words = _WORDS  # that are no columns unless they are quoted
    schema: Optional[str] = None  # of tables that have none

    folds = True  # whether names are the same whatever the case of their letters
    many_gives_cursor = False  # whether `executemany` gives the cursor
    sends_several = False  # whether a text may have several statements, of which only the last is answered
    no_rownumber: Optional[int] = None  # what `rownumber` is where a statement shows no rows
    own_transactions = False  # whether `transaction()` is a context manager, and leaving `with` closes the connection

    def __init__(self, raw: Any, module: Any, style: Optional[str]) -> None:
        self._raw, self._module = raw, module
        self.name = f"{getattr(module, '__name__', 'a driver')} {getattr(module, '__version__', '')}".split(" (")[0].strip()
        self.style = str(style or getattr(module, "paramstyle", "qmark"))
        if self.style not in PARAMSTYLES:
            raise Refused(f"paramstyle is one of {', '.join(PARAMSTYLES)}")
        self.entered = 0  # how many `with` are open in which autocommit doesn't hold

    def is_of(self, connection: Any) -> bool:
        """Whether it is this connection's."""
        return self._raw is connection

    # transactions

    def is_open(self) -> Optional[bool]:
        """Whether a transaction is open, as far as the driver tells."""
        return None

    def is_failed(self) -> bool:
        """Whether the open transaction has failed, so that a COMMIT would roll it back."""
        return False

    def is_dead(self) -> bool:
        """Whether the connection is known to be lost."""
        return False

    def methods_are_void(self) -> bool:
        """Whether `commit()` and `rollback()` do nothing about the open transaction."""
        return False

    def is_autocommit(self) -> bool:
        """Whether a statement outside a transaction is one by itself."""
        return getattr(self._raw, "autocommit", False) is True

    def tells_failure(self) -> bool:
        """Whether it is known if the open transaction has failed."""
        return self.is_open() is not None

    def pause(self) -> None:
        """Lets others go on for a moment."""
        time.sleep(0.001)

    def may_commit(self, text: str) -> bool:
        """Whether a text that is executed now may commit by itself."""
        return self.is_autocommit() and not self.is_open()

    # errors

    def code(self, error: BaseException) -> str:
        """The code of an error."""
        return "XX000"

    def leaves_nothing(self, error: BaseException, text: str) -> bool:
        """Whether a text that can't be said has surely done nothing, since it has failed so."""
        return self.is_answer(error) and _first_word(text) in _PLAIN_WRITES and _is_one(text)

    def is_answer(self, error: BaseException) -> bool:
        """Whether an error surely means that nothing was done."""
        kinds = [getattr(self._module, name, None) for name in _SURE]
        return isinstance(error, (*_BEFORE_IT_IS_SENT, *[kind for kind in kinds if isinstance(kind, type)]))

    # parameters

    def sent(self, value: object, cursor: Any) -> object:
        """What is sent in place of a value by a cursor, where there is one yet. Refuses what the application has registered."""
        if hasattr(value, "__conform__"):
            raise Unsaid(f"the driver sends something else in place of a {type(value).__name__}")
        return value

    def sends_own(self, kinds: Iterable[type], cursor: Any) -> bool:
        """Whether values that are just of these classes, int and str, are sent as they are."""
        return True

    # rows

    def count(self, cursor: Any) -> int:
        """How many rows the last statement speaks of."""
        count = cursor.rowcount
        return count if isinstance(count, int) else -1

    def came(self, cursor: Any, shows: bool) -> Came:
        """What came of the last statement, with its rows where it shows them. Some drivers count what RETURNING shows only
        once all was fetched; a row is shown for each that was changed."""
        if cursor.description is None:
            return Came(Result(self.count(cursor), (), getattr(cursor, "lastrowid", None)))
        rows, error = self._taken(cursor)
        if error is not None:
            return Came(Result(-1), rows, None, error)
        names = [column[0] for column in cursor.description]
        fields = [_positional(row, names) for row in rows] if shows else ()
        return Came(Result(len(rows), fields, getattr(cursor, "lastrowid", None)), rows)

    def _taken(self, cursor: Any) -> Tuple[Rows, Optional[BaseException]]:
        """All rows of a cursor, and what is raised behind them."""
        rows: Rows = []
        try:
            while True:
                row = cursor.fetchone()
                if row is None:
                    return rows, None
                rows.append(row)
        except Exception as error:  # the application's own, when it comes so far
            return rows, error

    def most(self, size: int) -> Optional[int]:
        """How many rows `fetchmany` gives for a number at most; None where it gives all."""
        return max(size, 0)

    def counts(self, cascades: Sequence[Cascade]) -> Optional[Counts]:
        """How many rows the open transaction has changed so far, of the tables that foreign keys change; None where nobody
        tells."""
        return None

    # what is added to a statement

    def facts(self, table: Table) -> Facts:
        """What the connection may do about a table."""
        return NOTHING

    def begins_by_asking(self) -> bool:
        """Whether a query of the recorder's own would begin the application's transaction."""
        return False

    def doubles(self, is_given: bool) -> bool:
        """Whether a percent sign is doubled in a text with parameters."""
        return is_given and self.style in ("format", "pyformat")

    def may_repeat(self) -> bool:
        """Whether a statement by itself may be sent twice where the connection is closed while another thread sends it."""
        return False

    def is_plain(self, cursor: Any) -> bool:
        """Whether the cursor's rows are tuples, so that the last fields of them can be hidden."""
        return False

    def looking(
        self, look: Look, looked: Callable[[Rows], None], call: Callable[[], Any], fetch: Callable[[], Any]
    ) -> Any:
        """Does a call behind a look at what is there, which nobody changes between the two."""
        return call()

    def nothing_to_fetch(self) -> Optional[BaseException]:
        """What is raised where rows are asked for and the statement shows none."""
        return None

    def out_of_bounds(self) -> BaseException:
        """What is raised where a cursor is to go to a row that isn't there."""
        return IndexError("no such row")

    # tables

    def opened(self, names: Wanted) -> List[Tuple[Table, Rows]]:
        """The tables of these names with their rows, all of one moment."""
        tables: List[Table] = []
        for name, columns in names.items():
            if not isinstance(columns, Mapping):
                raise Refused(
                    f"the catalog of this database isn't known: say tables={{{name!r}: {{'id': 'bigint', ..}}}}, the key first"
                )
            tables.append(declared_table(name, columns, [table.name for table in tables]))
        rows = [(table, self._rows_of(table)) for table in tables]
        self.undo()
        return rows

    def roll_back(self) -> None:
        """Rolls back what is open, on a connection that is about to be closed."""
        self._raw.rollback()

    def known(self, cursor: Any, rows: Sequence[Sequence[object]]) -> Sequence[Sequence[object]]:
        """Rows that have come, where what the application may have made of others stands as unknown values."""
        return rows

    def rewind(self, cursor: Any) -> None:
        """Goes back before a cursor's first row, whose rows were fetched."""

    def rows_now(self, tables: Sequence[Table]) -> List[Tuple[Table, Rows]]:
        """The rows that these tables have, all of one moment where the database is known. The connection is idle."""
        rows = [(table, self._rows_of(table)) for table in tables]
        self.undo()
        return rows

    def dangers(self, trusted: FrozenSet[str], recorded: Sequence[str]) -> Dangers:
        """What of the database may write though a text doesn't look so, but for the functions that are trusted."""
        return Dangers()

    def attributes(self, tables: Sequence[Table]) -> Attributes:
        """The numbers of these tables' columns, where results tell them."""
        return {}

    def numbers(self, cursor: Any) -> Optional[Numbers]:
        """The numbers of the tables and columns that a result shows; None where the driver doesn't tell them."""
        return None

    def functions(self, trusted: FrozenSet[str]) -> FrozenSet[str]:
        """The functions that this connection alone has."""
        return frozenset()

    def key(self, tables: Sequence[Table]) -> Tuple[Tuple[object, ...], List[str]]:
        """What tells a database with these tables from others; and those tables whose names mean others here."""
        return (), []

    def meets(self, other: "Driver") -> bool:
        """Whether another connection, whose key is another, is to the same database all the same."""
        return False

    def looked_at(self, tables: Sequence[Table]) -> None:
        """Looks at how the columns of recorded tables are shown, as the connection is wrapped."""

    def ask(self, query: str) -> Rows:
        """The rows of a query, whatever the application has registered for rows and values."""
        cursor = self.plain_cursor()
        try:
            cursor.execute(query)
            if cursor.description is None:
                return []
            names = [column[0] for column in cursor.description]
            return [_positional(row, names) for row in cursor.fetchall()]
        finally:
            cursor.close()

    def plain_cursor(self) -> Any:
        """A cursor of the driver's own, as if the application had registered nothing."""
        return self._raw.cursor()

    def undo(self) -> None:
        """Ends what was begun to ask."""
        if not self.is_autocommit():
            self._raw.rollback()

    def identity(self) -> Optional[str]:
        """Which database it is, in words; None where that isn't known, or no other process reaches it."""
        return None

    def _rows_of(self, table: Table) -> Rows:
        """The rows of a table."""
        columns = ", ".join(self._whole(column) for column in table.own_columns)
        schema = self._quoted(table.schema) + "." if table.schema else ""
        return self.ask(f"SELECT {columns} FROM {schema}{self._quoted(table.real)}")

    def _whole(self, column: Column) -> str:
        """What shows a column's values whole."""
        return self._quoted(column.real)

    def _quoted(self, name: str) -> str:
        """A name of the catalog, as a query has it."""
        return '"' + name.replace('"', '""') + '"'

    def _tables(self, tables_of: Callable[[Any, Wanted], List[Table]], names: Wanted) -> List[Tuple[Table, Rows]]:
        return [(table, self._rows_of(table)) for table in tables_of(self.ask, names)]


class Postgres(Driver):
    """psycopg2 and psycopg."""

    folds = False
    _IDLE, _FAILED, _UNKNOWN = 0, 3, 4  # of libpq
    _READY = 1  # of psycopg2, which has begun no transaction

    def __init__(self, raw: Any, module: Any, style: Optional[str]) -> None:
        super().__init__(raw, module, style)
        self.own_transactions = getattr(module, "__name__", "") == "psycopg"
        self.no_rownumber = None if self.own_transactions else 0
        self.sends_several = not self.own_transactions
        self._adapting: Any = Psycopg(raw) if self.own_transactions else Psycopg2(raw)

    def _status(self) -> int:
        if self.own_transactions:
            return int(self._raw.pgconn.transaction_status)
        return int(self._raw.get_transaction_status())

    def is_open(self) -> Optional[bool]:
        return self._status() not in (self._IDLE, self._UNKNOWN)

    def is_failed(self) -> bool:
        return self._status() == self._FAILED

    def is_dead(self) -> bool:
        return bool(self._raw.closed) or self._status() == self._UNKNOWN

    def methods_are_void(self) -> bool:
        return not self.own_transactions and bool(self._raw.status == self._READY)

    def is_autocommit(self) -> bool:
        return bool(self._raw.autocommit) and not self.entered

    def may_repeat(self) -> bool:
        # psycopg closes at once: libpq, which isn't made for two threads, then sends what its buffer has left once more.
        return self.own_transactions and self.is_autocommit()

    def code(self, error: BaseException) -> str:
        code = getattr(error, "sqlstate", None) or getattr(error, "pgcode", None)
        return code if isinstance(code, str) else "XX000"

    def is_answer(self, error: BaseException) -> bool:
        # 08: the connection is lost; 57P: the server is going down; 40003: the server doesn't know either.
        code = self.code(error)
        if code == "XX000":  # of a connection that was closed amid a statement it may look as if that hadn't been sent
            return super().is_answer(error) and not self.is_dead()
        return code[:2] != "08" and code[:3] != "57P" and code != "40003"

    def leaves_nothing(self, error: BaseException, text: str) -> bool:
        # Several statements are undone together, unless one commits, as CALL and DO may outside a transaction.
        commits = re.search(r"\b(call|do)\b", text, re.IGNORECASE) is not None and not self.is_open()
        return self.is_answer(error) and not commits and (_is_one(text) or self.code(error) == "42601")

    def plain_cursor(self) -> Any:
        return self._adapting.plain_cursor()

    def sent(self, value: object, cursor: Any) -> object:
        sent: object = self._adapting.sent(value, cursor)
        return sent

    def sends_own(self, kinds: Iterable[type], cursor: Any) -> bool:
        return bool(self._adapting.sends_own(kinds, cursor))

    def came(self, cursor: Any, shows: bool) -> Came:
        description = cursor.description
        if not shows or description is None:
            return Came(Result(self.count(cursor)))
        rows = self._rows(cursor)
        is_plain = self.is_plain(cursor)
        if is_plain:
            shown: Sequence[Sequence[object]] = rows
        else:
            names = [column[0] for column in description]
            shown = [_positional(row, names) for row in rows]
            self.rewind(cursor)
        known = surely_known(self._adapting, cursor, description, shown) if rows else shown
        return Came(Result(self.count(cursor), known), shown=shown, ahead=rows if is_plain else None)

    def known(self, cursor: Any, rows: Sequence[Sequence[object]]) -> Sequence[Sequence[object]]:
        return surely_known(self._adapting, cursor, cursor.description, rows)

    def rewind(self, cursor: Any) -> None:
        if cursor.rowcount > 0:
            cursor.scroll(0, mode="absolute")

    def begins_by_asking(self) -> bool:
        return not self.is_autocommit() and not self.is_open() and not self.is_dead()

    def facts(self, table: Table) -> Facts:
        if self.is_failed() or self.is_dead():
            return NOTHING
        quiet = ", ".join("'" + each.name.replace("'", "''") + "'" for each in table.setters)
        found: Any = self.ask(FACTS.format(name=self._named(table), quiet=f"AND t.tgname NOT IN ({quiet})" if quiet else ""))
        if not found:
            return NOTHING
        kind, rules, policies, triggers, may_read, unique = found[0]
        return Facts(bool(may_read) and not (rules or policies or triggers), kind == "r", False, unique > 0)

    def is_plain(self, cursor: Any) -> bool:
        if self.own_transactions:
            return bool(cursor.row_factory is sys.modules["psycopg.rows"].tuple_row)
        kind = sys.modules["psycopg2.extensions"].cursor
        if type(cursor) is kind:
            return cursor.row_factory is None
        is_own = all(getattr(type(cursor), name) is getattr(kind, name) for name in ("fetchone", "fetchmany", "fetchall"))
        return is_own and getattr(cursor, "row_factory", None) is None

    def nothing_to_fetch(self) -> Optional[BaseException]:
        words = "the last operation didn't produce a result" if self.own_transactions else "no results to fetch"
        error: BaseException = self._module.ProgrammingError(words)
        return error

    def out_of_bounds(self) -> BaseException:
        if self.own_transactions:
            return IndexError("position out of bound")
        error: BaseException = self._module.ProgrammingError("scroll destination out of bounds")
        return error

    def _rows(self, cursor: Any) -> Rows:
        """The rows that have come; the cursor stands behind them."""
        if not self.own_transactions:
            try:
                rows = cursor.fetchall()
            except Exception as error:  # the application meets it as it fetches them
                with contextlib.suppress(Exception):
                    cursor.scroll(0, mode="absolute")
                raise Unsaid(f"its rows couldn't be read, {type(error).__name__}: {error}") from None
        elif self.is_plain(cursor):
            rows = cursor.fetchall()
        else:
            factory, cursor.row_factory = cursor.row_factory, tuple_row
            try:
                rows = cursor.fetchall()
            finally:
                cursor.row_factory = factory
        return list(rows)

    def counts(self, cascades: Sequence[Cascade]) -> Optional[Counts]:
        if (self.is_autocommit() and not self.is_open()) or self.is_failed() or self.is_dead():
            return None
        shown = [
            " + ".join(f"pg_catalog.pg_stat_get_xact_tuples_{word}({oid}::oid)" for oid in cascade.numbers or (0,))
            for cascade in cascades for word in ("deleted", "updated")
        ]  # fmt: skip
        row = self.ask(f"SELECT current_setting('track_counts'), {', '.join(shown)}")[0]
        if row[0] != "on":
            return None
        numbers = [int(number) for number in row[1:]]  # type: ignore[call-overload]
        return Counts(each=tuple(zip(numbers[::2], numbers[1::2])))

    def _whole(self, column: Column) -> str:
        return self._quoted(column.real) + ("::text" if isinstance(column.kind, Form) else "")

    def opened(self, names: Wanted) -> List[Tuple[Table, Rows]]:
        if self.is_open():
            raise Refused("the connection is in a transaction: wrap it before its first statement")
        try:
            self._begin()
            if self._is_replica():
                raise Refused("the first connection that is recorded is to a read replica, whose rows may be late: wrap one to its primary first")
            return self._tables(postgres_tables, names)
        finally:
            self._end()

    def _is_replica(self) -> bool:
        """Whether the server follows another, and has what that had a while ago."""
        return bool(self.ask("SELECT pg_catalog.pg_is_in_recovery()::int")[0][0])

    def identity(self) -> Optional[str]:
        try:
            name, begun = self.ask("SELECT pg_catalog.current_database()::text, pg_catalog.pg_postmaster_start_time()::text")[0]
        finally:
            self.undo()
        return f"database {name} of the server that was started at {begun}"

    def rows_now(self, tables: Sequence[Table]) -> List[Tuple[Table, Rows]]:
        try:
            self._begin()
            if self._is_replica():
                raise Unsaid("a read replica has the rows late")
            return [(table, self._rows_of(table)) for table in tables]
        finally:
            self._end()

    def roll_back(self) -> None:
        if self.methods_are_void():
            self.ask("ROLLBACK")
        else:
            self._raw.rollback()

    def _begin(self) -> None:
        """Begins a transaction that sees one moment."""
        begins = "BEGIN" if self.is_autocommit() else "SET TRANSACTION"
        self.ask(f"{begins} ISOLATION LEVEL REPEATABLE READ")

    def key(self, tables: Sequence[Table]) -> Tuple[Tuple[object, ...], List[str]]:
        try:
            return postgres_key(self.ask, tables)
        finally:
            self.undo()

    def dangers(self, trusted: FrozenSet[str], recorded: Sequence[str]) -> Dangers:
        try:
            return postgres_dangers(self.ask, trusted, recorded)
        finally:
            self.undo()

    def _named(self, table: Table) -> str:
        """A table's name in its schema, within a literal."""
        assert table.schema is not None
        return f"{self._quoted(table.schema)}.{self._quoted(table.real)}".replace("'", "''")

    def attributes(self, tables: Sequence[Table]) -> Attributes:
        found: Dict[Tuple[int, int], Tuple[str, str]] = {}
        try:
            for table in tables:
                columns: Any = self.ask(ATTRIBUTES.format(name=self._named(table)))
                found.update({(oid, number): (table.name, real) for oid, number, real in columns})
        finally:
            self.undo()
        return found

    def numbers(self, cursor: Any) -> Optional[Numbers]:
        if self.own_transactions:
            result = getattr(cursor, "pgresult", None)
            if result is None:
                return []
            return [(result.ftable(at), result.ftablecol(at)) for at in range(result.nfields)]
        return [(getattr(each, "table_oid", 0) or 0, getattr(each, "table_column", 0) or 0) for each in cursor.description or ()]

    def _end(self) -> None:
        if self.is_autocommit():
            self.ask("ROLLBACK")
        else:
            self._raw.rollback()


NOTHING = Facts(False, False, False, True)


def tuple_row(cursor: Any) -> Any:
    """psycopg's factory of rows that are tuples."""
    return sys.modules["psycopg.rows"].tuple_row(cursor)


def _maker(cursor: Any) -> Optional[Callable[[Any], Any]]:
    """What makes rows of sqlite3 the application's own."""
    made = cursor.row_factory
    return None if made is None else lambda row: made(cursor, row)


class Sqlite(Driver):
    """sqlite3. With its `isolation_level`, a SELECT outside a transaction is one by itself, and a write begins one."""

    words, schema = _TIMES, "main"
    _converters: Mapping[str, object] = {}  # that were there as the connection was wrapped
    _declared: FrozenSet[str] = frozenset()  # the first words of the types of recorded tables' columns

    _has_file = False  # whether its database is a file

    many_gives_cursor = True

    def is_open(self) -> Optional[bool]:
        try:
            return bool(self._raw.in_transaction)
        except self._module.ProgrammingError:  # it is closed
            return False

    def is_dead(self) -> bool:
        try:
            return self._raw.in_transaction is None
        except self._module.ProgrammingError:  # it is closed
            return True

    def is_autocommit(self) -> bool:
        if self.is_dead():
            return False
        mode: object = getattr(self._raw, "autocommit", None)
        return mode is True or (mode is not False and self._raw.isolation_level is None)

    def code(self, error: BaseException) -> str:
        if isinstance(error, self._module.IntegrityError):
            return "23000"
        return "55P03" if isinstance(error, self._module.OperationalError) and "locked" in str(error) else "XX000"

    def may_commit(self, text: str) -> bool:
        if self.is_dead() or self.is_open():
            return False
        return self.is_autocommit() or _first_word(text) not in ("insert", "update", "delete", "replace")

    def is_answer(self, error: BaseException) -> bool:
        # A text of several statements is refused by a Warning, and none is done.
        return isinstance(error, (self._module.Error, self._module.Warning)) or super().is_answer(error)

    def leaves_nothing(self, error: BaseException, text: str) -> bool:
        # A statement OR FAIL, and a trigger's RAISE(FAIL), keep what was done before.
        return self.is_answer(error) and "fail" not in f"{text} {error}".lower()

    def sent(self, value: object, cursor: Any) -> object:
        adapter = self._module.adapters.get((type(value), self._module.PrepareProtocol))
        if adapter is None:
            return super().sent(value, cursor)
        if adapter is str or getattr(adapter, "__module__", None) == "sqlite3.dbapi2":  # those of dates that it brings
            return adapter(value)
        raise Unsaid(f"the driver sends something else in place of a {type(value).__name__}")

    def sends_own(self, kinds: Iterable[type], cursor: Any) -> bool:
        adapters, protocol = self._module.adapters, self._module.PrepareProtocol
        return all((kind, protocol) not in adapters for kind in kinds)

    def came(self, cursor: Any, shows: bool) -> Came:
        if cursor.description is None:
            return Came(Result(self.count(cursor), (), cursor.lastrowid))
        factory, cursor.row_factory = cursor.row_factory, None
        try:
            rows, error = self._taken(cursor)
        finally:
            cursor.row_factory = factory
        maker = partial(_maker, cursor)
        if error is not None:
            return Came(Result(-1), rows, maker, error)
        return Came(Result(len(rows), self._known(rows), cursor.lastrowid), rows, maker)

    def _taken(self, cursor: Any) -> Tuple[Rows, Optional[BaseException]]:
        if type(cursor) is not self._module.Cursor:
            return super()._taken(cursor)
        rows: Rows = []
        try:
            rows.extend(cursor)  # which keeps those before an error
        except Exception as error:  # the application's own, when it comes so far
            return rows, error
        return rows, None

    def _known(self, rows: Rows) -> Rows:
        """The rows, where what the application may have made of others stands as unknown values."""
        factory: object = self._raw.text_factory
        kinds: Tuple[type, ...] = () if factory in (str, bytes, bytearray) else (str, bytes)
        if self._module.converters != self._converters and not self._declared.isdisjoint(self._later()):
            kinds = (object,)
        if not kinds:
            return rows
        return [[Unknown() if value is not None and isinstance(value, kinds) else value for value in row] for row in rows]

    def _later(self) -> Set[str]:
        """The types for which converters were registered since the connection was wrapped."""
        return {name for name, made in self._module.converters.items() if self._converters.get(name) is not made}

    def looked_at(self, tables: Sequence[Table]) -> None:
        self._converters = dict(self._module.converters)
        rows = [row for table in tables for row in self.ask(f"PRAGMA table_xinfo({self._quoted(table.real)})")]
        self._declared = frozenset(re.split(r"[ (]", str(row[2] or ""), maxsplit=1)[0].upper() for row in rows)

    def ask(self, query: str) -> Rows:
        factory, self._raw.text_factory = self._raw.text_factory, str
        try:
            return super().ask(query)
        finally:
            self._raw.text_factory = factory

    def plain_cursor(self) -> Any:
        cursor = self._raw.cursor()
        cursor.row_factory = None
        return cursor

    def identity(self) -> Optional[str]:
        path = self._path()
        return f"the file {path}" if path else None

    def _path(self) -> str:
        """The file of its database, which stands before what is attached; none where it is in memory."""
        return str(self.ask("PRAGMA database_list")[0][2] or "")

    def counts(self, cascades: Sequence[Cascade]) -> Optional[Counts]:
        return Counts(None, self._raw.total_changes, bool(self.ask("PRAGMA foreign_keys")[0][0]))

    def facts(self, table: Table) -> Facts:
        quoted = table.real.replace("'", "''")
        made: Any = self.ask(f"SELECT sql FROM sqlite_master WHERE type = 'table' AND lower(name) = lower('{quoted}')")
        unique = [row for row in self.ask(f"PRAGMA index_list('{quoted}')") if row[2] and row[3] != "pk"]
        is_virtual = not made or made[0][0].split()[1:2] in (["VIRTUAL"], ["virtual"])
        return Facts(self._module.sqlite_version_info >= (3, 35) and not is_virtual, False, True, bool(unique))

    def is_plain(self, cursor: Any) -> bool:
        return cursor.row_factory is None

    def looking(
        self, look: Look, looked: Callable[[Rows], None], call: Callable[[], Any], fetch: Callable[[], Any]
    ) -> Any:
        is_own = not self._raw.in_transaction and self.is_autocommit()
        cursor = self._raw.cursor()
        cursor.row_factory = None
        cursor.execute("BEGIN IMMEDIATE" if is_own else look.holds)
        try:
            looked(cursor.execute(look.query).fetchall())
            value = call()
            if is_own:
                fetch()  # what isn't fetched keeps it from committing
                cursor.execute("COMMIT")
            return value
        except BaseException:
            if is_own and self._raw.in_transaction:
                cursor.execute("ROLLBACK")
            raise

    def most(self, size: int) -> Optional[int]:
        # Most versions give all for a number below 1: this one is asked.
        return size if size > 0 or not self._module.connect(":memory:").execute("SELECT 1").fetchmany(0) else None

    def key(self, tables: Sequence[Table]) -> Tuple[Tuple[object, ...], List[str]]:
        names = {table.real.lower() for table in tables}
        hidden = [str(row[0]) for row in self.ask("SELECT name FROM sqlite_temp_master WHERE type IN ('table', 'view')")]
        path = self._path()
        status = os.stat(path) if path and os.path.exists(path) else None
        self._has_file = status is not None
        key = (id(self._raw),) if status is None else (status.st_dev, status.st_ino)
        return key, [name for name in hidden if name.lower() in names]

    def meets(self, other: Driver) -> bool:
        """Whether another connection to a database in memory shares this one's: only one of them can write at once, and what
        one has written the other may see. Where this one can't be asked, nobody knows, and they are taken for one."""
        if not isinstance(other, Sqlite) or self.is_dead() or self._has_file or other._has_file:
            return False
        try:
            other.ask("BEGIN IMMEDIATE")
        except self._module.OperationalError:
            return True
        try:
            if self.is_open():
                return self._sees(other)
            self.ask("BEGIN IMMEDIATE")
        except self._module.Error:
            return True
        finally:
            other._raw.rollback()
        self._raw.rollback()
        return False

    def _sees(self, other: Driver) -> bool:
        """Whether it sees a number that another connection has written, which is about to roll back."""
        before: Any = self.ask("PRAGMA user_version")[0][0]
        other.ask(f"PRAGMA user_version = {before ^ 1}")
        return bool(self.ask("PRAGMA user_version")[0][0] != before)

    def dangers(self, trusted: FrozenSet[str], recorded: Sequence[str]) -> Dangers:
        begins = not self.is_open()
        try:
            return sqlite_dangers(self.ask, trusted)
        finally:
            if not begins or self.is_open():
                self._raw.rollback()

    def functions(self, trusted: FrozenSet[str]) -> FrozenSet[str]:
        return sqlite_functions(self.ask, trusted)

    def opened(self, names: Wanted) -> List[Tuple[Table, Rows]]:
        begins = not self.is_open()
        if not begins and getattr(self._raw, "autocommit", None) is not False:
            raise Refused("the connection is in a transaction: wrap it before its first statement")
        try:
            if begins:
                self.ask("BEGIN")
            return self._tables(sqlite_tables, names)
        finally:
            self._raw.rollback()

    def rows_now(self, tables: Sequence[Table]) -> List[Tuple[Table, Rows]]:
        try:
            self.ask("BEGIN")
            return [(table, self._rows_of(table)) for table in tables]
        finally:
            self._raw.rollback()


_DRIVERS = {"psycopg2": Postgres, "psycopg": Postgres, "sqlite3": Sqlite}


def driver_of(raw: Any, style: Optional[str]) -> Driver:
    """The driver of a connection, by the modules of its class and of those that this one is derived from."""
    if not all(callable(getattr(raw, name, None)) for name in ("cursor", "commit", "rollback", "close")):
        raise Refused(f"a {type(raw).__name__} is no connection of PEP 249")
    modules = [kind.__module__.partition(".")[0] for kind in type(raw).__mro__]
    known = next((name for name in modules if name in _DRIVERS), None)
    if known == "psycopg" and hasattr(raw, "__aenter__"):
        from .aio import Awaited

        return Awaited(raw, sys.modules[known], style)
    if hasattr(raw, "__aenter__") or bool(getattr(raw, "async_", False)) or bool(getattr(raw, "async", False)):
        raise Refused("the connection is asynchronous, and a recorder has no way to follow it")
    if modules[0] == "sqlalchemy":
        from .adapted import adapted_driver

        return adapted_driver(raw, style)
    if known is None:
        return Driver(raw, sys.modules.get(modules[0]), style)
    return _DRIVERS[known](raw, sys.modules[known], style)
