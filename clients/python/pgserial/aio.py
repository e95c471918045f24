"""psycopg's asynchronous connections and cursors, which behave as its own, and are recorded. Tasks that share one wait for
each other."""

import asyncio
import contextlib
import weakref
from functools import partial
from typing import Any, AsyncIterator, Awaitable, Callable, Dict, Iterator, List, Optional, Sequence, Tuple

from .cascades import Counts
from .catalog import Cascade, Table
from .copy_steps import copy_of, only_reads
from .copying import Written, written_by
from .drivers import NOTHING, Came, Postgres, Rows, tuple_row
from .effects import Control
from .proxies import Proxy, parameters_of, text_of
from .returning import Facts
from .session import Session
from .steps import (
    Begin, Commit, Executed, Inner, NoText, Rollback, Savepoint, Step, is_looped, many_of, step_of,
)  # fmt: skip
from .wanted import Wanted


class Awaited(Postgres):
    """An asynchronous connection of psycopg. Its tables are read by another connection, which needn't be awaited."""

    @contextlib.contextmanager
    def _beside(self) -> Iterator[Postgres]:
        info = self._raw.info
        with contextlib.closing(self._module.connect(info.dsn, password=info.password or None)) as connection:
            yield Postgres(connection, self._module, self.style)

    def ask(self, query: str) -> Rows:
        with self._beside() as driver:
            return driver.ask(query)

    def begins_by_asking(self) -> bool:
        return False

    def facts(self, table: Table) -> Facts:
        return NOTHING

    def counts(self, cascades: Sequence[Cascade]) -> Optional[Counts]:
        return None

    def undo(self) -> None:
        """What was asked has ended with its connection."""

    roll_back = undo

    def opened(self, names: Wanted) -> List[Tuple[Table, Rows]]:
        with self._beside() as driver:
            return driver.opened(names)

    def rows_now(self, tables: Sequence[Table]) -> List[Tuple[Table, Rows]]:
        with self._beside() as driver:
            return driver.rows_now(tables)

    def identity(self) -> Optional[str]:
        with self._beside() as driver:
            return driver.identity()


class _Fetched:
    """A cursor whose rows have been fetched, as one that needn't be awaited."""

    def __init__(self, raw: Any, rows: Rows) -> None:
        self._raw, self._rows = raw, rows
        self.row_factory = None

    def __getattr__(self, name: str) -> Any:
        return getattr(self._raw, name)

    def fetchall(self) -> Rows:
        """The rows."""
        return self._rows

    def scroll(self, *_: Any, **__: Any) -> None:
        """The cursor itself stands where it did."""


async def _fetched(raw: Any) -> Any:
    """A cursor with the rows of its last statement, of which it stands before the first again."""
    if raw.description is None or getattr(raw, "name", None) is not None:
        return _Fetched(raw, [])
    factory, raw.row_factory = raw.row_factory, tuple_row
    try:
        rows = await raw.fetchall()
    finally:
        raw.row_factory = factory
    if rows:
        await raw.scroll(0, mode="absolute")
    return _Fetched(raw, rows)


class AsyncConnection(Proxy):
    """An asynchronous connection that is recorded; `wrapped` is psycopg's own."""

    _own = frozenset(("wrapped", "_session", "_mutex", "_lasts"))
    _special = {"pipeline": "_pipeline", "tpc_begin": "_tpc_begin"}

    def __init__(self, wrapped: Any, session: Session) -> None:
        super().__init__(wrapped)
        self._session = session
        self._mutex: Optional[asyncio.Lock] = None
        self._lasts = False  # whether a block is under way, which nobody waits for: calls amid it fail
        weakref.finalize(self, session.recorder.drop, session).atexit = False

    async def take(self, planned: Callable[[], Step], call: Callable[[], Awaitable[Any]]) -> Any:
        """Does a call of the application, as the step that is planned for it."""
        async with self._alone():
            session = self._session
            if self._lasts:
                session.recorder.stop("two tasks use one connection at once")
            step = None if session.is_closed else session.guarded(planned)
            if step is None:
                return await call()
            session.guarded(step.before)
            try:
                return await self._taken(step, call)
            finally:
                if session.is_leaving and session.driver.is_dead():  # another task has closed it meanwhile
                    session.close()

    def _alone(self) -> asyncio.Lock:
        """What a call holds, so that others wait for it."""
        if self._mutex is None:
            self._mutex = asyncio.Lock()
        return self._mutex

    @contextlib.asynccontextmanager
    async def lasting(self, planned: Callable[[], Step]) -> AsyncIterator[None]:
        """Takes the step that is planned for what the application does in a block."""
        session = self._session
        async with self._alone():
            if self._lasts:
                session.recorder.stop("two tasks use one connection at once")
            step = None if session.is_closed else session.guarded(planned)
            if step is not None:
                session.guarded(step.before)
        if step is None:
            yield
            return
        self._lasts = True
        try:
            yield
        except BaseException as error:
            session.guarded(step.failed, error)
            raise
        finally:
            self._lasts = False
        session.finished(step)

    async def _taken(self, step: Step, call: Callable[[], Awaitable[Any]]) -> Any:
        try:
            value = await call()
        except BaseException as error:
            self._session.guarded(step.failed, error)
            raise
        self._session.finished(step)
        return value

    def cursor(self, *words: Any, **named: Any) -> "AsyncCursor":
        """A cursor, recorded."""
        return AsyncCursor(self.wrapped.cursor(*words, **named), self)

    async def execute(self, operation: Any, *words: Any, binary: bool = False, **named: Any) -> "AsyncCursor":
        """Executes a statement on a cursor of its own."""
        cursor = self.cursor(binary=True) if binary else self.cursor()
        await cursor.execute(operation, *words, **named)
        return cursor

    async def commit(self) -> None:
        """Commits."""
        await self.take(lambda: Commit(self._session, True), self.wrapped.commit)

    async def rollback(self) -> None:
        """Rolls back."""
        await self.take(lambda: Rollback(self._session, True), self.wrapped.rollback)

    async def close(self) -> None:
        """Closes the connection, and gives its session's number back."""
        await self._leaves(False)
        await self.wrapped.close()
        self._session.is_leaving = True
        if not self._is_used():
            self._session.close()

    def _is_used(self) -> bool:
        """Whether a task's call is under way, which may wait for what another does."""
        return self._mutex is not None and self._mutex.locked()

    async def __aenter__(self) -> Any:
        await self.wrapped.__aenter__()
        self._session.driver.entered += 1
        return self

    async def __aexit__(self, kind: Any, error: Any, trace: Any) -> Any:
        session = self._session
        if not getattr(self.wrapped, "_pool", None):
            await self._leaves(kind is None)
        end = Commit if kind is None else Rollback
        try:
            return await self.take(lambda: end(session, True), partial(self.wrapped.__aexit__, kind, error, trace))
        finally:
            session.driver.entered -= 1
            if session.driver.is_dead():  # a pool keeps it
                session.close()

    async def _leaves(self, commits: bool) -> None:
        """What is done as the connection is closed, but for closing it: then the tables may be read."""
        session = self._session
        if session.recorder.verifies_end and not session.driver.is_dead() and not self._is_used():
            await (self.commit() if commits else self.rollback())
            session.leaves()

    def transaction(self, *words: Any, **named: Any) -> "AsyncTransaction":
        """A transaction, or within one a savepoint."""
        is_undone = bool(words[1] if len(words) > 1 else named.get("force_rollback", False))
        return AsyncTransaction(self.wrapped.transaction(*words, **named), self, is_undone)

    def _pipeline(self) -> Any:
        self._session.recorder.stop("a pipeline, whose replies come later than its calls")
        return self.wrapped.pipeline()

    def _tpc_begin(self, *words: Any) -> Any:
        self._session.recorder.stop("a transaction in two phases")
        return self.wrapped.tpc_begin(*words)


class AsyncTransaction:
    """`async with connection.transaction()`."""

    def __init__(self, wrapped: Any, connection: AsyncConnection, is_undone: bool) -> None:
        self._wrapped, self._connection, self._is_undone, self._is_outer = wrapped, connection, is_undone, True

    async def __aenter__(self) -> Any:
        session = self._connection._session
        self._is_outer = not session.driver.is_open()
        session.driver.entered += 1
        try:
            return await self._connection.take(lambda: self._begins(session), self._wrapped.__aenter__)
        except BaseException:
            session.driver.entered -= 1
            raise

    def _begins(self, session: Session) -> Step:
        return Begin(session) if self._is_outer else Savepoint(session, Control("savepoint", id(self)))

    async def __aexit__(self, kind: Any, error: Any, trace: Any) -> Any:
        session, is_kept = self._connection._session, kind is None and not self._is_undone
        try:
            exits = partial(self._wrapped.__aexit__, kind, error, trace)
            return await self._connection.take(lambda: self._ends(session, is_kept), exits)
        finally:
            session.driver.entered -= 1

    def _ends(self, session: Session, is_kept: bool) -> Step:
        if not self._is_outer:
            return Inner(session, id(self), is_kept)
        return Commit(session) if is_kept else Rollback(session)


class AsyncCursor(Proxy):
    """An asynchronous cursor that is recorded; `wrapped` is psycopg's own, which has the rows."""

    _own = frozenset(("wrapped", "_connection", "_fetched", "_count"))
    _special = {"copy": "_copy", "stream": "_stream"}

    def __init__(self, wrapped: Any, connection: AsyncConnection) -> None:
        super().__init__(wrapped)
        self._connection = connection
        self._fetched: Any = None
        self._count: Optional[int] = None  # of the rows that several executions speak of

    @property
    def connection(self) -> AsyncConnection:
        """The connection, recorded."""
        return self._connection

    @property
    def rowcount(self) -> Any:
        """How many rows the last execution speaks of."""
        return self.wrapped.rowcount if self._count is None else self._count

    async def execute(self, operation: Any, *words: Any, **named: Any) -> "AsyncCursor":
        """Executes a statement."""
        self._count = None

        async def call() -> None:
            await self.wrapped.execute(operation, *words, **named)
            self._fetched = await _fetched(self.wrapped)

        await self._connection.take(lambda: self._step(operation, parameters_of(words, named)), call)
        return self

    def _step(self, operation: Any, parameters: Any) -> Step:
        session = self._connection._session
        text = text_of(operation, self._connection.wrapped)
        if text is None:
            return NoText(session, operation)
        return step_of(session, text, parameters, self._looked_at(), getattr(self.wrapped, "name", None) is not None)

    def _looked_at(self) -> Executed:
        return Executed(self._connection._session.driver, lambda: self._fetched, _passed)

    async def executemany(self, operation: Any, several: Any, **named: Any) -> None:
        """Executes a statement once for each of several parameters."""
        session, text = self._connection._session, text_of(operation, self._connection.wrapped)
        given = list(several)
        is_over = session.recorder.is_over
        if named or text is None or not given or is_over or not session.guarded(is_looped, session, text):
            await self._many(operation, text, given, named)
            return
        total = 0
        for parameters in given:
            await self.execute(operation, parameters)
            total += max(self.wrapped.rowcount, 0)
        self._count = total

    async def _many(self, operation: Any, text: Optional[str], several: List[Any], named: Dict[str, Any]) -> None:
        """The same by one call of the driver."""
        self._count = None

        async def call() -> None:
            await self.wrapped.executemany(operation, several, **named)
            self._fetched = _Fetched(self.wrapped, [])

        session = self._connection._session
        await self._connection.take(
            lambda: NoText(session, operation) if text is None else many_of(session, text, several, self._looked_at()), call
        )

    def _copy(self, text: Any, *words: Any, **named: Any) -> Any:
        session, said = self._connection._session, text_of(text, self._connection.wrapped) or ""
        writer = None if only_reads(said) or "writer" in named else written_by(self.wrapped, "AsyncLibpqWriter")
        if writer is None:
            return session.take(lambda: copy_of(session, said), lambda: self.wrapped.copy(text, *words, **named))
        return self._written(said, writer, lambda: self.wrapped.copy(text, *words, writer=writer, **named))

    @contextlib.asynccontextmanager
    async def _written(self, text: str, writer: Written, call: Callable[[], Any]) -> AsyncIterator[Any]:
        """A COPY whose rows the application writes in a block."""
        session = self._connection._session
        async with self._connection.lasting(lambda: copy_of(session, text, writer, self._looked_at())):
            async with call() as copy:
                yield copy
            self._fetched = _Fetched(self.wrapped, [])

    async def _stream(self, operation: Any, *words: Any, **named: Any) -> AsyncIterator[Any]:
        """Rows as they come: what is executed only when the first is asked for is taken for read then."""
        session = self._connection._session
        text = text_of(operation, self._connection.wrapped) or ""
        step = session.guarded(step_of, session, text, parameters_of(words, named), self._looked_at(), True)
        if step is not None:
            session.guarded(step.before)
        async for row in self.wrapped.stream(operation, *words, **named):
            yield row
        if step is not None:
            session.guarded(step.after)

    def __aiter__(self) -> Any:
        return self.wrapped.__aiter__()

    async def __aenter__(self) -> "AsyncCursor":
        await self.wrapped.__aenter__()
        return self

    async def __aexit__(self, kind: Any, error: Any, trace: Any) -> Any:
        return await self.wrapped.__aexit__(kind, error, trace)


def _passed(_: Came) -> None:
    """psycopg's cursors keep their rows."""
