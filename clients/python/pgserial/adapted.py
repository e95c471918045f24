"""Connections that SQLAlchemy has adapted: of asyncpg, aiosqlite and psycopg's asynchronous ones, called as if they weren't."""

import asyncio
import sys
from typing import Any, Callable, Iterable, Optional, Sequence

from .cascades import Counts
from .catalog import Cascade, Table
from .drivers import NOTHING, Came, Driver, Postgres, Rows, Sqlite
from .keys import Refused
from .origins import Numbers
from .returning import Facts
from .sent import Psycopg, surely_known
from .translation import Look


class _Adapted(Driver):
    """What is alike of all: rows are a list of the cursor's, and whoever waits lets other tasks go on."""

    _raw: Any

    def pause(self) -> None:
        self._raw.await_(asyncio.sleep(0.001))

    def facts(self, table: Table) -> Facts:
        return NOTHING

    def counts(self, cascades: Sequence[Cascade]) -> Optional[Counts]:
        return None

    def is_plain(self, cursor: Any) -> bool:
        return False

    def looking(
        self, look: Look, looked: Callable[[Rows], None], call: Callable[[], Any], fetch: Callable[[], Any]
    ) -> Any:
        return call()

    def nothing_to_fetch(self) -> Optional[BaseException]:
        return None

    def plain_cursor(self) -> Any:
        return self._raw.cursor()

    def ask(self, query: str) -> Rows:
        return Driver.ask(self, query)

    @property
    def _connection(self) -> Any:
        """The driver's own connection."""
        return self._raw._connection


class Asyncpg(_Adapted, Postgres):
    """asyncpg. It doesn't tell whether a transaction has failed."""

    def __init__(self, raw: Any, style: Optional[str]) -> None:
        super().__init__(raw, raw.dbapi, style)
        self.name = _named("asyncpg")
        self.own_transactions, self.sends_several = True, False

    def is_open(self) -> Optional[bool]:
        return not self.is_dead() and bool(self._connection.is_in_transaction())

    def is_failed(self) -> bool:
        return False

    def tells_failure(self) -> bool:
        return False

    def is_dead(self) -> bool:
        return bool(self._connection.is_closed())

    def methods_are_void(self) -> bool:
        return not self._raw._started

    def is_autocommit(self) -> bool:
        return bool(self._raw.autocommit)

    def sent(self, value: object, cursor: Any) -> object:
        return Driver.sent(self, value, cursor)

    def sends_own(self, kinds: Iterable[type], cursor: Any) -> bool:
        return Driver.sends_own(self, kinds, cursor)

    def numbers(self, cursor: Any) -> Optional[Numbers]:
        return Driver.numbers(self, cursor)

    def facts(self, table: Table) -> Facts:
        try:
            return Postgres.facts(self, table)
        except self._module.Error:  # the transaction has failed
            return NOTHING

    def came(self, cursor: Any, shows: bool) -> Came:
        return Driver.came(self, cursor, shows)


class PsycopgAsync(_Adapted, Postgres):
    """psycopg's asynchronous connections."""

    def __init__(self, raw: Any, style: Optional[str]) -> None:
        super().__init__(raw, sys.modules["psycopg"], style)
        self.name = _named("psycopg")
        self._adapting = Psycopg(raw._connection)

    def begins_by_asking(self) -> bool:
        return False

    def _status(self) -> int:
        return int(self._connection.info.transaction_status)

    def is_dead(self) -> bool:
        return bool(self._connection.closed) or self._status() == self._UNKNOWN

    def numbers(self, cursor: Any) -> Optional[Numbers]:
        return Postgres.numbers(self, cursor._cursor)

    def came(self, cursor: Any, shows: bool) -> Came:
        came = Driver.came(self, cursor, shows)
        if came.served is None:
            return came
        rows = surely_known(self._adapting, cursor._cursor, cursor._cursor.description, came.result.rows)
        return came._replace(result=came.result._replace(rows=rows))


class Aiosqlite(_Adapted, Sqlite):
    """aiosqlite. Of a statement that shows rows its cursor tells neither their number nor the key."""

    many_gives_cursor = False

    def __init__(self, raw: Any, style: Optional[str]) -> None:
        super().__init__(raw, sys.modules["sqlite3"], style)
        self.name = _named("aiosqlite")

    def is_open(self) -> Optional[bool]:
        return not self.is_dead() and bool(self._connection.in_transaction)

    def is_dead(self) -> bool:
        try:
            return self._connection.in_transaction is None
        except (ValueError, self._module.ProgrammingError):  # it is closed
            return True

    def came(self, cursor: Any, shows: bool) -> Came:
        came = Driver.came(self, cursor, shows)
        return came if cursor.description is None else came._replace(result=came.result._replace(key=None))

    def most(self, size: int) -> Optional[int]:
        return Driver.most(self, size)


def _named(module: str) -> str:
    return f"{module} {getattr(sys.modules.get(module), '__version__', '')} through SQLAlchemy".replace("  ", " ")


_ADAPTED = {"asyncpg": Asyncpg, "psycopg": PsycopgAsync, "aiosqlite": Aiosqlite}


def adapted_driver(raw: Any, style: Optional[str]) -> Driver:
    """The driver of a connection that SQLAlchemy has adapted."""
    driver = _ADAPTED.get(type(raw).__module__.rpartition(".")[2])
    if driver is None or not hasattr(raw, "_connection"):
        raise Refused(f"what SQLAlchemy has adapted as {type(raw).__name__} isn't known")
    return driver(raw, style)
