"""Connections and cursors that behave as the driver's own, and are recorded."""

import contextlib
import operator
import re
import weakref
from functools import partial
from typing import Any, Callable, Dict, Iterator, List, Optional, Tuple, Union

from .copy_steps import copied_step, copy_of, only_reads
from .copying import Teed, Written, copied_from, written_by
from .drivers import Came, Sqlite
from .effects import Control
from .proxies import Proxy, parameters_of, text_of
from .returning import Addition
from .serving import Serving
from .several import Whole, bound, statements_of
from .session import Session
from .steps import (
    Begin, Commit, Executed, Inner, LeftOut, NoText, Rollback, Savepoint, Script, Setting, Spoils, Step, 
    is_written, many_of, step_of,
)  # fmt: skip


class Connection(Proxy):
    """A connection that is recorded; `wrapped` is the driver's own."""

    _own = frozenset(("wrapped", "_session"))
    _special = {
        "execute": "_execute", "executemany": "_executemany", "executescript": "_executescript", "transaction": "_transaction",
        "pipeline": "_pipeline", "blobopen": "_blobopen", "deserialize": "_deserialize", "tpc_begin": "_tpc_begin",
        "reset": "_reset", "set_isolation_level": "_set_isolation_level", "terminate": "_terminate",
        "create_function": "_create_function", "create_aggregate": "_create_aggregate",
        "create_window_function": "_create_window_function", "load_extension": "_load_extension",
    }  # fmt: skip

    def __init__(self, wrapped: Any, session: Session) -> None:
        super().__init__(wrapped)
        self._session = session
        weakref.finalize(self, session.recorder.drop, session)

    def __setattr__(self, name: str, value: object) -> None:
        if name in ("isolation_level", "autocommit") and isinstance(self._session.driver, Sqlite):
            self._session.take(lambda: Setting(self._session), lambda: setattr(self.wrapped, name, value))
        else:
            super().__setattr__(name, value)

    def cursor(self, *words: Any, **named: Any) -> "Cursor":
        """A cursor of the driver's, recorded."""
        session = self._session  # reading the tables rolls back, behind which a cursor on the server couldn't be used
        assert session is not None
        return Cursor(self.wrapped.cursor(*words, **named), self)

    def commit(self, *words: Any) -> Any:
        """Commits."""
        return self._session.take(lambda: Commit(self._session, True), lambda: self.wrapped.commit(*words))

    def rollback(self, *words: Any) -> Any:
        """Rolls back."""
        return self._session.take(lambda: Rollback(self._session, True), lambda: self.wrapped.rollback(*words))

    def close(self) -> Any:
        """Closes the connection, and gives its session's number back."""
        session = self._session
        session.leaves()
        ended, may_repeat = session.calls - session.is_busy, session.driver.may_repeat()
        value = self.wrapped.close()
        if may_repeat and session.calls != ended:
            why = "the connection was closed while another thread used it, and may have sent a statement twice"
            session.recorder.spoil(why, "close()", session.number)
        session.close()
        return value

    def __enter__(self) -> Any:
        entered = type(self.wrapped).__enter__(self.wrapped)
        self._session.driver.entered += 1
        return self if entered is self.wrapped else entered

    def __exit__(self, kind: Any, error: Any, trace: Any) -> Any:
        session = self._session
        if session.driver.own_transactions and session.recorder.verifies_end:
            self._leaves(kind is None)
        end = Commit if kind is None else Rollback
        try:
            return session.take(
                lambda: end(session, True), lambda: type(self.wrapped).__exit__(self.wrapped, kind, error, trace)
            )
        finally:
            session.driver.entered -= 1
            if session.driver.own_transactions and session.driver.is_dead():  # a pool keeps it
                session.close()

    def _leaves(self, commits: bool) -> None:
        """What psycopg does as `with` ends, but for closing the connection: then the tables may be read."""
        if not self.wrapped.closed and not getattr(self.wrapped, "_pool", None):
            if commits:
                self.commit()
            self._session.leaves()

    # what some drivers have

    def _execute(self, operation: Any, *words: Any, **named: Any) -> "Cursor":
        cursor = self.cursor()

        def call(sent: Any) -> Any:
            cursor.wrapped = self.wrapped.execute(sent, *words, **named)

        cursor._executed(operation, text_of(operation, self.wrapped), parameters_of(words, named), call)
        return cursor

    def _executemany(self, operation: Any, several: Any) -> "Cursor":
        cursor = self.cursor()
        cursor.executemany(operation, several)
        return cursor

    def _executescript(self, text: str) -> "Cursor":
        cursor = self.cursor()
        cursor.executescript(text)
        return cursor

    def _transaction(self, *words: Any, **named: Any) -> "Transaction":
        is_undone = bool(words[1] if len(words) > 1 else named.get("force_rollback", False))
        return Transaction(self.wrapped.transaction(*words, **named), self._session, is_undone)

    def _pipeline(self) -> Any:
        self._session.recorder.stop("a pipeline, whose replies come later than its calls")
        return self.wrapped.pipeline()

    def _tpc_begin(self, *words: Any) -> Any:
        self._session.recorder.stop("a transaction in two phases")
        return self.wrapped.tpc_begin(*words)

    def _spoiling(self, name: str, words: Tuple[Any, ...], named: Dict[str, Any]) -> Any:
        call = getattr(self.wrapped, name)
        return self._session.take(lambda: Spoils(self._session, name, "it may write", False), lambda: call(*words, **named))

    def _blobopen(self, *words: Any, **named: Any) -> Any:
        return self._spoiling("blobopen", words, named)

    def _deserialize(self, *words: Any, **named: Any) -> Any:
        return self._spoiling("deserialize", words, named)

    def _terminate(self) -> Any:
        value = self.wrapped.terminate()
        self._session.close()
        return value

    def _with_functions(self, name: str, words: Tuple[Any, ...], named: Dict[str, Any]) -> Any:
        """A call that makes functions of sqlite3's, which may write whatever their names say."""
        value = getattr(self.wrapped, name)(*words, **named)
        session = self._session
        session.guarded(session.recorder.functions_changed, session.driver)
        return value

    def _create_function(self, *words: Any, **named: Any) -> Any:
        return self._with_functions("create_function", words, named)

    def _create_aggregate(self, *words: Any, **named: Any) -> Any:
        return self._with_functions("create_aggregate", words, named)

    def _create_window_function(self, *words: Any, **named: Any) -> Any:
        return self._with_functions("create_window_function", words, named)

    def _load_extension(self, *words: Any, **named: Any) -> Any:
        return self._with_functions("load_extension", words, named)

    def _reset(self) -> Any:
        return self._session.take(lambda: Rollback(self._session), self.wrapped.reset)

    def _set_isolation_level(self, level: Any) -> Any:
        return self._session.take(lambda: Rollback(self._session), lambda: self.wrapped.set_isolation_level(level))


def recorded_connection(raw: Any, session: Session) -> Any:
    """A driver's connection, recorded."""
    if type(session.driver).__name__ == "Awaited":
        from .aio import AsyncConnection

        return AsyncConnection(raw, session)
    return Connection(raw, session)


class Transaction(Proxy):
    """psycopg's `connection.transaction()`: a transaction, or within one a savepoint."""

    _own = frozenset(("wrapped", "_session", "_is_undone", "_is_outer"))

    def __init__(self, wrapped: Any, session: Session, is_undone: bool) -> None:
        super().__init__(wrapped)
        self._session, self._is_undone, self._is_outer = session, is_undone, True

    def __enter__(self) -> Any:
        session = self._session
        self._is_outer = not session.driver.is_open()
        session.driver.entered += 1
        try:
            return session.take(self._begins, lambda: type(self.wrapped).__enter__(self.wrapped))
        except BaseException:
            session.driver.entered -= 1
            raise

    def _begins(self) -> Step:
        return Begin(self._session) if self._is_outer else Savepoint(self._session, Control("savepoint", id(self)))

    def __exit__(self, kind: Any, error: Any, trace: Any) -> Any:
        is_kept = kind is None and not self._is_undone
        try:
            return self._session.take(
                lambda: self._ends(is_kept), lambda: type(self.wrapped).__exit__(self.wrapped, kind, error, trace)
            )
        finally:
            self._session.driver.entered -= 1

    def _ends(self, is_kept: bool) -> Step:
        if not self._is_outer:
            return Inner(self._session, id(self), is_kept)
        return Commit(self._session) if is_kept else Rollback(self._session)


class _Kept:
    """What a cursor has of the statement that was executed last."""

    came: Optional[Came] = None  # rows that the driver's cursor has given up
    at = 0  # how many of them were asked for
    ahead: Optional[List[Any]] = None  # all rows, where the driver's cursor stands behind the last and none was asked for
    count: Optional[int] = None  # of the rows that several executions speak of
    addition: Optional[Addition] = None  # what was added, and shows more than the application asks for
    sent: Union[Addition, Whole, None] = None  # what differs from that in the text that was sent last
    serving: Optional[Serving] = None  # what says rows that come from the server later


class Cursor(Proxy):
    """A cursor that is recorded; `wrapped` is the driver's own."""

    _own = frozenset(("wrapped", "_connection", "_kept"))
    _special = {
        "callproc": "_callproc", "copy_from": "_copy_from", "copy_to": "_copy_to", "copy_expert": "_copy_expert",
        "copy": "_copy", "executescript": "_executescript", "stream": "_stream", "scroll": "_scroll",
    }  # fmt: skip

    def __init__(self, wrapped: Any, connection: Connection) -> None:
        super().__init__(wrapped)
        self._connection = connection
        self._kept = _Kept()

    @property
    def connection(self) -> Connection:
        """The connection, recorded."""
        return self._connection

    @property
    def rowcount(self) -> Any:
        """How many rows the last execution speaks of."""
        return self.wrapped.rowcount if self._kept.count is None else self._kept.count

    @property
    def description(self) -> Any:
        """The columns that the application has asked for."""
        description = self.wrapped.description
        if self._kept.addition is None or description is None:
            return description
        return None if self._kept.addition.is_alone else description[: len(description) - self._kept.addition.hidden]

    @property
    def query(self) -> Any:
        """The text that was sent, as psycopg2 tells it, without what was added."""
        query = self.wrapped.query
        return query if self._kept.sent is None or query is None else self._kept.sent.without(query)

    @property
    def rownumber(self) -> Any:
        """How many rows were fetched, as some drivers tell it."""
        self._rewind()
        number = self.wrapped.rownumber
        if self._kept.addition is None:
            return number
        return self._connection._session.driver.no_rownumber if self._kept.addition.is_alone else self._kept.at

    # statements

    def execute(self, operation: Any, *words: Any, **named: Any) -> Any:
        """Executes a statement."""
        parameters = words[0] if words else parameters_of(words, named)
        session = self._connection._session
        text = None if session.recorder.is_over else text_of(operation, self._connection.wrapped)
        if text is not None and ";" in text and session.driver.sends_several and getattr(self.wrapped, "name", None) is None:
            if ";" in text.rstrip("; \t\n"):
                whole = bound(self.wrapped, operation, parameters)
                parts = session.guarded(statements_of, whole) if whole is not None else None
                if parts:
                    return self._several(parts, whole or "")
        return self._executed(operation, text, parameters, lambda sent: self.wrapped.execute(sent, *words, **named))

    def _several(self, parts: List[str], whole: str) -> Any:
        """Executes the statements of a text one by one. In autocommit they are one transaction, as the server takes them."""
        try:
            with self._as_one(True):
                value = None
                for part in parts:
                    sent = part.encode("utf-8", "surrogateescape")
                    value = self._executed(sent, text_of(sent, None), None, self.wrapped.execute)
                return value
        finally:
            self._kept.sent = Whole(whole)

    @contextlib.contextmanager
    def _as_one(self, is_one: bool) -> Iterator[None]:
        """What is executed within is one transaction in autocommit, too."""
        driver = self._connection._session.driver
        if not (is_one and driver.is_autocommit() and not driver.is_open()):
            yield
            return
        around = self._connection.cursor()
        around.execute("BEGIN")
        try:
            yield
            around.execute("COMMIT")
        except BaseException:
            if driver.is_open():
                around.execute("ROLLBACK")
            raise
        finally:
            around.close()

    def _executed(self, operation: Any, text: Optional[str], parameters: Any, call: Callable[[Any], Any]) -> Any:
        """Does a call that executes a statement of this text. What it gives is this cursor, where the driver gives its own."""
        self._forget()
        sent = [operation]

        def planned() -> Step:
            step = self._step(operation, text, parameters)
            if step.serving is not None:
                self._kept.serving = step.serving
            if step.addition is not None:
                sent[0], self._kept.addition, self._kept.sent = step.addition.to(operation, text or ""), step.addition, step.addition
            return step

        try:
            value = self._connection._session.take(planned, lambda: call(sent[0]))
        except BaseException:
            self._kept.addition = None  # what was shown before, if anything
            raise
        return self if value is self.wrapped else value

    def _forget(self) -> None:
        """Nothing is kept of what was executed before."""
        object.__setattr__(self, "_kept", _Kept())

    def _rewind(self) -> None:
        """What comes is asked of the driver's cursor, which is to stand before its first row."""
        if self._kept.ahead is not None:
            self._kept.ahead = None
            self._connection._session.driver.rewind(self.wrapped)

    def __getattr__(self, name: str) -> Any:
        if name != "close":
            self._rewind()
        return super().__getattr__(name)

    def __setattr__(self, name: str, value: object) -> None:
        if name not in self._own:
            self._rewind()
        super().__setattr__(name, value)

    def _step(self, operation: Any, text: Optional[str], parameters: Any) -> Step:
        session = self._connection._session
        text = text_of(operation, self._connection.wrapped) if text is None else text
        if text is None:
            return NoText(session, operation)
        is_served = getattr(self.wrapped, "name", None) is not None
        return step_of(session, text, parameters, self._looked_at(), is_served)

    def _looked_at(self) -> Executed:
        return Executed(self._connection._session.driver, lambda: self.wrapped, self._keep, True)

    def _keep(self, came: Came) -> None:
        """Rows that the driver's cursor has given up are kept for the application."""
        if came.served is not None:
            self._kept.came, self._kept.at = came, 0
        elif came.ahead is not None:
            self._kept.ahead = came.ahead
        if self._kept.addition is not None and isinstance(self._connection._session.driver, Sqlite):
            self._kept.count = self.wrapped.rowcount if self.wrapped.rowcount < 0 else came.result.number

    def executemany(self, operation: Any, several: Any, *words: Any, **named: Any) -> Any:
        """Executes a statement once for each of several parameters."""
        session = self._connection._session
        text = text_of(operation, self._connection.wrapped)
        if words or named or text is None or session.recorder.is_over or not session.guarded(is_written, session, text):
            return self._many(operation, text, list(several), *words, **named)
        count, total = 0, 0
        several = list(several) if session.driver.own_transactions else several
        with self._as_one(session.driver.own_transactions and bool(several)):
            for parameters in several:
                self.execute(operation, parameters)
                count, total = count + 1, total + max(self.rowcount, 0)
        if count == 0:
            return self._many(operation, text, [])
        self._kept.count = total
        return self if session.driver.many_gives_cursor else None

    def _many(self, operation: Any, text: Optional[str], several: List[Any], *words: Any, **named: Any) -> Any:
        """The same by one call of the driver."""
        self._forget()
        session = self._connection._session
        value = session.take(
            lambda: NoText(session, operation) if text is None else many_of(session, text, several, self._looked_at()),
            lambda: self.wrapped.executemany(operation, several, *words, **named),
        )
        return self if value is self.wrapped else value

    # rows

    def fetchone(self) -> Any:
        """The next row."""
        if self._kept.ahead is not None and len(self._kept.ahead) == 1:
            return self._taken_ahead()[0]
        row = self._left(self.wrapped.fetchone)
        if self._kept.came is None:
            self._say_served([] if row is None else [row])
            return row
        rows = self._served(1)
        return rows[0] if rows else None

    def fetchmany(self, *words: Any, **named: Any) -> Any:
        """The next rows."""
        if self._kept.ahead is not None and len(words) + len(named) < 2:
            size = words[0] if words else named.get("size", self.wrapped.arraysize)
            if type(size) is int and size >= len(self._kept.ahead) and size > 0:
                return self._taken_ahead()
        rows = self._left(self.wrapped.fetchmany, *words, **named)
        if self._kept.came is None:
            self._say_served(rows)
            return rows
        size = words[0] if words else named.get("size", self.wrapped.arraysize)
        return self._served(self._connection._session.driver.most(operator.index(size)))

    def fetchall(self) -> Any:
        """The rows that are left."""
        if self._kept.ahead is not None:
            return self._taken_ahead()
        rows = self._left(self.wrapped.fetchall)
        if self._kept.came is None:
            self._say_served(rows)
            return rows
        served = self._served(None)
        return tuple(served) if isinstance(rows, tuple) else served

    def _say_served(self, rows: Any) -> None:
        """Rows that stayed on the server have come."""
        if self._kept.serving is not None and rows:
            self._kept.serving.say(rows, self.wrapped)

    def _iterated(self) -> Iterator[Any]:
        for row in self.wrapped:
            self._say_served([row])
            yield row

    def _left(self, call: Callable[..., Any], *words: Any, **named: Any) -> Any:
        """What the driver gives. Where its rows are kept here it has none left, and says so; or it raises what it would
        have raised, at a number that is none or once it is closed."""
        self._rewind()
        given = call(*words, **named) if self._kept.came is None or self._kept.came.error is None else None
        error = self._connection._session.driver.nothing_to_fetch() if self._kept.addition and self._kept.addition.is_alone else None
        if error is not None:
            raise error
        return given

    def _taken_ahead(self) -> List[Any]:
        """All rows: the driver's cursor stands where it would stand if it had given them now."""
        if not self._connection._session.driver.is_plain(self.wrapped):
            return list(self._left(self.wrapped.fetchall))
        rows, self._kept.ahead = self._kept.ahead, None
        self.wrapped.fetchall()  # which raises where it is closed
        return rows or []

    def _served(self, size: Optional[int]) -> List[Any]:
        """The next of the rows that are kept; all that are left where no size is given."""
        came = self._kept.came
        assert came is not None and came.served is not None
        end = len(came.served) if size is None else min(self._kept.at + size, len(came.served))
        rows, self._kept.at = came.served[self._kept.at : end], end
        if came.error is not None and (size is None or len(rows) < size):
            raise came.error
        made = came.maker() if came.maker is not None else None
        return rows if made is None else [made(row) for row in rows]

    def __iter__(self) -> Any:
        self._rewind()
        if self._kept.serving is not None:
            return self._iterated()
        return self if self._kept.came is not None else iter(self.wrapped)

    def __next__(self) -> Any:
        self._rewind()
        if self._kept.came is None:
            row = next(self.wrapped)
            self._say_served([row])
            return row
        row = self.fetchone()
        if row is None:
            raise StopIteration
        return row

    def __enter__(self) -> Any:
        entered = type(self.wrapped).__enter__(self.wrapped)
        return self if entered is self.wrapped else entered

    def __exit__(self, kind: Any, error: Any, trace: Any) -> Any:
        return type(self.wrapped).__exit__(self.wrapped, kind, error, trace)

    # what some drivers have

    def _scroll(self, value: int, mode: str = "relative") -> Any:
        """Goes to another row: the driver's cursor, or among the rows that are kept here."""
        kept = self._kept
        if kept.came is None or kept.came.served is None or mode not in ("relative", "absolute"):
            return self.wrapped.scroll(value, mode)
        place = value if mode == "absolute" else kept.at + value
        if not 0 <= place < len(kept.came.served):
            raise self._connection._session.driver.out_of_bounds()
        kept.at = place
        return None

    def _taken(self, step: Callable[[Session], Step], call: Callable[[], Any]) -> Any:
        session = self._connection._session
        self._forget()
        return session.take(lambda: step(session), call)

    def _callproc(self, name: str, *words: Any) -> Any:
        text = f"CALL {name}"
        session = self._connection._session
        is_known = session.guarded(session.recorder.only_reads, name, session.driver)
        step = LeftOut(session, text, "a function") if is_known else None
        return self._taken(
            lambda session: step or Spoils(session, text, "a function may write", True),
            lambda: self.wrapped.callproc(name, *words),
        )

    def _copy_from(self, file: Any, table: Any, *words: Any, **named: Any) -> Any:
        teed = Teed(file)
        given = {**dict(zip(("sep", "null", "size", "columns"), words)), **named}
        copied = partial(copied_from, table, given.get("columns"), given.get("sep", "\t"), given.get("null", "\\N"))
        return self._taken(
            lambda session: copied_step(session, copied, teed, self._looked_at()),
            lambda: self.wrapped.copy_from(teed, table, *words, **named),
        )

    def _copy_to(self, *words: Any, **named: Any) -> Any:
        return self._taken(
            lambda session: LeftOut(session, "copy_to", "COPY"), lambda: self.wrapped.copy_to(*words, **named)
        )

    def _copy_expert(self, text: Any, *words: Any, **named: Any) -> Any:
        said = text_of(text, self._connection.wrapped) or ""
        file = words[0] if words else named.get("file")
        if not hasattr(file, "read") or hasattr(file, "write") and re.search(r"\bto\s+stdout\b", said, re.IGNORECASE):
            return self._taken(lambda session: copy_of(session, said), lambda: self.wrapped.copy_expert(text, *words, **named))
        teed = Teed(file)
        named = {name: value for name, value in named.items() if name != "file"}
        return self._taken(
            lambda session: copy_of(session, said, teed, self._looked_at()),
            lambda: self.wrapped.copy_expert(text, teed, *words[1:], **named),
        )

    def _copy(self, text: Any, *words: Any, **named: Any) -> Any:
        said = text_of(text, self._connection.wrapped) or ""
        writer = None if only_reads(said) or "writer" in named else written_by(self.wrapped, "LibpqWriter")
        if writer is None:
            return self._taken(lambda session: copy_of(session, said), lambda: self.wrapped.copy(text, *words, **named))
        return self._written(said, writer, lambda: self.wrapped.copy(text, *words, writer=writer, **named))

    @contextlib.contextmanager
    def _written(self, text: str, writer: Written, call: Callable[[], Any]) -> Iterator[Any]:
        """A COPY whose rows the application writes in a block."""
        self._forget()
        session = self._connection._session
        with session.lasting(lambda: copy_of(session, text, writer, self._looked_at())), call() as copy:
            yield copy

    def _executescript(self, text: str) -> Any:
        value = self._taken(
            lambda session: Script(session, text) if isinstance(text, str) else NoText(session, text),
            lambda: self.wrapped.executescript(text),
        )
        return self if value is self.wrapped else value

    def _stream(self, operation: Any, *words: Any, **named: Any) -> Iterator[Any]:
        """Rows as they come: what is executed only when the first is asked for is taken for read then."""
        session = self._connection._session
        text = text_of(operation, self._connection.wrapped) or ""
        step = session.guarded(step_of, session, text, parameters_of(words, named), self._looked_at(), True)
        if step is not None:
            session.guarded(step.before)
        yield from self.wrapped.stream(operation, *words, **named)
        if step is not None:
            session.guarded(step.after)
