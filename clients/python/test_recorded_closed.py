"""Tests of recordings of a connection that one thread closes while another uses it.

    PGSERIAL=path/to/pgserial python3 clients/python/test_recorded_closed.py

Databases as in test_recording.py. Each case has a table of its own, and a time after which its locks and statements end: what
the server goes on with when a connection was closed keeps no other case waiting.
"""

import asyncio
import itertools
import os
import sqlite3
import sys
import threading
import time
import unittest
import warnings
from typing import Any, Callable, Iterator, List, Sequence, Tuple

from pgserial.recording import Recorder, RecordingWarning
from test_recording import DSN, OnSqlite, Room, drivers, module

PATIENCE = 100  # seconds for anything that a case waits for; each takes a moment
_BOUNDS = "-c lock_timeout=120000 -c statement_timeout=150000 -c idle_in_transaction_session_timeout=180000"
_NUMBERS = itertools.count(1)


def until(holds: Callable[[], Any]) -> bool:
    """Waits until something holds; whether it does in time."""
    end = time.monotonic() + PATIENCE
    while not holds():
        if time.monotonic() > end:
            return False
        time.sleep(0.005)
    return True


class Beside(Room):
    """Another thread closes a connection, and what a recording says of that."""

    def thread(self, call: Callable[[], Any]) -> threading.Thread:
        """A thread that is running, and ends in time."""
        thread = threading.Thread(target=call, daemon=True)
        self.addCleanup(thread.join, PATIENCE)
        thread.start()
        return thread

    def ended(self, *threads: threading.Thread) -> None:
        for thread in threads:
            thread.join(PATIENCE)
        self.assertEqual([thread.is_alive() for thread in threads], [False] * len(threads))

    def right(self, recorder: Recorder, answers: Sequence[str] = ("yes",)) -> None:
        """The recorder found no fault with itself, and what it has recorded is so."""
        self.assertNotIn("fault of the recorder", str(recorder.ended))
        told = recorder.verdict()
        self.assertIn(told.answer, answers if recorder.ended is None else ("unknown", "yes"), told.words)


@unittest.skipUnless(drivers(), "PostgreSQL or psycopg2 isn't there (Debian: postgresql, python3-psycopg2)")
class OnPostgres(Beside):
    """On PostgreSQL."""

    def setUp(self) -> None:
        super().setUp()
        warnings.simplefilter("ignore", RecordingWarning)
        self.addCleanup(warnings.resetwarnings)
        self.admin = self.raw(drivers()[0], True)

    def raw(self, driver: Any, autocommit: bool, **named: Any) -> Any:
        """A connection whose session the server has no more when the case ends."""
        connection = driver.connect(DSN, options=_BOUNDS, **named)
        connection.autocommit = autocommit
        if hasattr(self, "admin"):
            self.addCleanup(self.terminate, connection.info.backend_pid)
        self.addCleanup(connection.close)
        return connection

    def asked(self, text: str, *words: Any) -> Any:
        """The first field of a query's answer."""
        cursor = self.admin.cursor()
        cursor.execute(text, words)
        return cursor.fetchone()[0]

    def terminate(self, number: int) -> None:
        self.asked("SELECT count(pg_terminate_backend(pid)) FROM pg_stat_activity WHERE pid = %s", number)
        self.assertTrue(until(lambda: not self.asked("SELECT count(*) FROM pg_stat_activity WHERE pid = %s", number)))

    def table(self) -> str:
        """A table of two rows, of a name that no other case has."""
        name = f"closed_{next(_NUMBERS)}"
        cursor = self.admin.cursor()
        for text in (f"DROP TABLE IF EXISTS {name}", f"CREATE TABLE {name} (id int PRIMARY KEY, v bigint UNIQUE DEFERRABLE INITIALLY DEFERRED)", f"INSERT INTO {name} VALUES (1, 10), (2, 20)"):
            cursor.execute(text)
        self.addCleanup(cursor.execute, f"DROP TABLE IF EXISTS {name}")
        return name

    def is_waiting(self, number: int) -> bool:
        return bool(self.asked("SELECT cardinality(pg_blocking_pids(%s))", number))

    def tries(self, connection: Any, texts: Sequence[str], seen: List[Any]) -> None:
        """An application's thread: its statements, and its rows or error."""
        try:
            for text in texts:
                cursor = connection.cursor()
                cursor.execute(text)
                seen.append(cursor.fetchall() if cursor.description else cursor.rowcount)
            connection.commit()
            seen.append("committed")
        except Exception as error:
            seen.append(type(error).__name__)

    def rest(self, recorder: Recorder, name: str, driver: Any) -> None:
        """Another connection sees what is there then."""
        raw = self.raw(driver, True)
        connection = recorder.wrap(raw)
        cursor = connection.cursor()
        cursor.execute(f"SELECT * FROM {name}")
        self.assertEqual(len(cursor.fetchall()), 2)
        connection.close()

    # while the server is at a statement

    def cases(self) -> Iterator[Tuple[Any, bool, Tuple[str, ...]]]:
        """Drivers, modes, and texts of which the last waits for the row of key 1, or the COMMIT behind it for the value 77."""
        for driver, autocommit in itertools.product(drivers(), (False, True)):
            yield driver, autocommit, ("UPDATE {} SET v = v + 1 WHERE id = 1",)
            yield driver, autocommit, ("UPDATE {} SET v = v + 1",)
            yield driver, autocommit, ("SELECT v FROM {} WHERE id = 1 FOR UPDATE",)
            yield driver, autocommit, ("UPDATE {} SET v = 3 WHERE id = 2", "UPDATE {} SET v = v - 1 WHERE v = 10 RETURNING id")
            yield driver, autocommit, ("BEGIN", "UPDATE {} SET v = 77 WHERE id = 2", "COMMIT")

    def test_while_the_server_is_at_a_statement(self) -> None:
        for driver, autocommit, texts in self.cases():
            for verifies in (False, True):
                with self.subTest(driver.__name__, autocommit=autocommit, texts=texts, verifies=verifies):
                    self.waits(driver, autocommit, texts, verifies)

    def waits(self, driver: Any, autocommit: bool, texts: Sequence[str], verifies: bool) -> None:
        name, seen = self.table(), []  # type: Tuple[str, List[Any]]
        holder = self.raw(driver, False)
        holder.cursor().execute(f"UPDATE {name} SET v = {77 if 'COMMIT' in texts else 10} WHERE id = 1")
        recorder = self.recorder([name], verify_end=verifies)
        raw = self.raw(driver, autocommit)
        connection = recorder.wrap(raw)
        works = self.thread(lambda: self.tries(connection, [text.format(name) for text in texts], seen))
        number = raw.info.backend_pid
        self.assertTrue(until(lambda: self.is_waiting(number)), seen)
        closes = self.thread(connection.close)
        if driver.__name__ == "psycopg":  # which closes at once; psycopg2 waits for the server
            self.ended(closes, works)
            self.assertIn(seen[-1], ("OperationalError", "InterfaceError"))
            self.assertTrue(self.is_waiting(number))
        holder.rollback()
        self.ended(closes, works)
        self.assertTrue(raw.closed)
        self.terminate(number)
        self.rest(recorder, name, driver)
        if driver.__name__ == "psycopg":
            if autocommit:  # then libpq may send what is under way twice: the rows show that now and then
                self.assertIn("may have sent a statement twice", recorder.ended)
            else:  # what was open is rolled back
                self.assertIsNone(recorder.ended)
        self.right(recorder)

    @unittest.skipUnless(module("psycopg"), "psycopg isn't there (Debian: python3-psycopg)")
    def test_a_task_closes_while_another_waits(self) -> None:
        for autocommit, verifies in itertools.product((False, True), (False, True)):
            with self.subTest(autocommit=autocommit, verifies=verifies):
                asyncio.run(self.two_tasks(autocommit, verifies))

    async def two_tasks(self, autocommit: bool, verifies: bool) -> None:
        name, psycopg = self.table(), module("psycopg")
        holder = self.raw(psycopg, False)
        holder.execute(f"UPDATE {name} SET v = 10 WHERE id = 1")
        recorder = self.recorder([name], verify_end=verifies)
        raw = await psycopg.AsyncConnection.connect(DSN, options=_BOUNDS, autocommit=autocommit)
        self.addCleanup(self.terminate, raw.info.backend_pid)
        number, connection = raw.info.backend_pid, recorder.wrap(raw)
        waits = asyncio.ensure_future(connection.execute(f"UPDATE {name} SET v = v + 1 WHERE id = 1"))
        end = time.monotonic() + PATIENCE
        while not self.is_waiting(number) and time.monotonic() < end:
            await asyncio.sleep(0.005)
        await asyncio.wait_for(connection.close(), PATIENCE / 4)
        self.assertTrue(self.is_waiting(number))
        waits.cancel()  # psycopg would have it wait for ever
        await asyncio.wait([waits], timeout=PATIENCE)
        self.assertTrue(waits.done())
        holder.rollback()
        self.terminate(number)
        self.rest(recorder, name, psycopg)
        self.right(recorder)

    # when the server has answered, and before the recorder has looked at that

    def test_before_the_answer_is_looked_at(self) -> None:
        texts = (
            ("SELECT * FROM {}",), ("UPDATE {} SET v = 11 WHERE id = 1",), ("UPDATE {} SET v = v + 1",), ("DELETE FROM {} WHERE id = 7", "SELECT v FROM {} WHERE id = 2"),
            ("UPDATE {} SET v = v + 1 WHERE v = 10 RETURNING id",), ("SAVEPOINT a", "UPDATE {} SET v = 11 WHERE id = 1"), ("UPDATE {} SET v = v * 2",),
            ("BEGIN", "UPDATE {} SET v = 11 WHERE id = 1", "COMMIT"), ("SELECT sum(v) FROM {}",),
        )  # fmt: skip
        for driver, autocommit, some in itertools.product(drivers(), (False, True), texts):
            if autocommit and some[0] == "SAVEPOINT a":
                continue
            with self.subTest(driver.__name__, autocommit=autocommit, texts=some):
                self.answered(driver, autocommit, some)

    def answered(self, driver: Any, autocommit: bool, texts: Sequence[str]) -> None:
        name, seen, closing = self.table(), [], []  # type: Tuple[str, List[Any], List[threading.Thread]]

        class Closing(driver.extensions.cursor if driver.__name__ == "psycopg2" else driver.Cursor):  # type: ignore
            """A cursor whose connection another thread closes as soon as the last statement has come back."""

            def execute(own, text: Any, *words: Any, **named: Any) -> Any:  # noqa: N805
                value = super().execute(text, *words, **named)
                if closing and texts[-1].format(name) in (text.decode() if isinstance(text, bytes) else str(text)):
                    closing[0].start()
                    assert until(lambda: raw.closed)
                return value

        recorder = self.recorder([name])
        raw = self.raw(driver, autocommit, cursor_factory=Closing)
        connection, number = recorder.wrap(raw), raw.info.backend_pid
        closing.append(threading.Thread(target=connection.close, daemon=True))
        works = self.thread(lambda: self.tries(connection, [text.format(name) for text in texts], seen))
        self.ended(works, closing[0])
        self.assertIsNotNone(closing[0].ident)
        self.terminate(number)
        self.rest(recorder, name, driver)
        self.right(recorder)

    def test_an_error_of_a_connection_that_was_closed_amid_a_statement(self) -> None:
        """What a driver raises then may look as if nothing had been sent."""
        errors = (ValueError("file descriptor cannot be a negative integer (-1)"), KeyError("-1 is not registered"))
        for driver, autocommit, error in itertools.product(drivers(), (False, True), (*errors, None)):
            with self.subTest(driver.__name__, autocommit=autocommit, error=error):
                name, seen = self.table(), []  # type: Tuple[str, List[Any]]
                raised = error or driver.InterfaceError("connection already closed")

                class Broken(driver.extensions.cursor if driver.__name__ == "psycopg2" else driver.Cursor):  # type: ignore
                    """A cursor whose connection is closed once the server has done the statement."""

                    def execute(own, text: Any, *words: Any, **named: Any) -> Any:  # noqa: N805
                        value = super().execute(text, *words, **named)
                        if "UPDATE" in (text.decode() if isinstance(text, bytes) else str(text)):
                            raw.close()  # noqa: B023
                            raise raised  # noqa: B023
                        return value

                recorder = self.recorder([name])
                raw = self.raw(driver, autocommit, cursor_factory=Broken)
                self.tries(recorder.wrap(raw), [f"UPDATE {name} SET v = v + 2 WHERE id = 1"], seen)
                self.rest(recorder, name, driver)
                self.right(recorder, ("yes", "unknown"))

    # at any moment

    def test_at_any_moment(self) -> None:
        # psycopg closes while another thread is in libpq, which then uses memory that is given back: no test can bear that.
        safe = [driver for driver in drivers() if driver.__name__ == "psycopg2"]
        for driver, autocommit, at in itertools.product(safe, (False, True), range(12)):
            with self.subTest(driver.__name__, autocommit=autocommit, at=at):
                name, seen = self.table(), []  # type: Tuple[str, List[Any]]
                recorder = self.recorder([name], verify_end=at % 2 == 1)
                connection = recorder.wrap(self.raw(driver, autocommit))
                texts = [f"UPDATE {name} SET v = v + 2 WHERE id = 1", f"SELECT * FROM {name}", f"UPDATE {name} SET v = v + 1"] * 10
                works = self.thread(lambda: self.tries(connection, texts, seen))  # noqa: B023
                time.sleep(at * 0.002)
                connection.close()
                self.ended(works)
                self.rest(recorder, name, driver)
                self.right(recorder, ("yes", "unknown"))


class OnSqlite3(OnSqlite, Beside):
    """On sqlite3, in a file for each case: what isn't fetched keeps a closed file locked."""

    TABLES = """CREATE TABLE t (id INTEGER PRIMARY KEY, v BIGINT); INSERT INTO t VALUES (1, 10), (2, 20);
        CREATE TABLE c (id INTEGER PRIMARY KEY, t BIGINT REFERENCES t ON DELETE CASCADE); INSERT INTO c VALUES (1, 1), (2, 2)"""

    def test_before_the_answer_is_looked_at(self) -> None:
        texts = (
            ("SELECT * FROM t",), ("UPDATE t SET v = 11 WHERE id = 1",), ("UPDATE t SET v = v + 1",), ("BEGIN", "UPDATE t SET v = 4", "COMMIT"),
            ("DELETE FROM t WHERE id = 2",), ("BEGIN", "DELETE FROM t WHERE v > 10"),
        )  # fmt: skip
        for isolation, some in itertools.product((None, "DEFERRED"), texts):
            with self.subTest(isolation=isolation, texts=some):
                self.answered(isolation, some)

    def answered(self, isolation: Any, texts: Sequence[str]) -> None:
        self.file = os.path.join(self.folder, f"db{next(_NUMBERS)}")
        self.raw().executescript(self.TABLES)
        raw = self.raw(isolation_level=isolation)
        raw.execute("PRAGMA foreign_keys = ON")
        recorder = self.recorder(["t", "c"])
        connection = recorder.wrap(raw)
        session = connection._session
        closing = threading.Thread(target=connection.close, daemon=True)
        taken = session.driver.came

        def came(*words: Any) -> Any:
            found = taken(*words) if words[-1] is False else None
            closing.start()
            assert until(session.driver.is_dead)
            return found or taken(*words)

        session.driver.came = came
        for text in texts:
            try:
                connection.execute(text).fetchall()
            except sqlite3.Error:
                pass
        self.ended(closing)
        last = recorder.wrap(self.raw())
        for name in "tc":
            last.execute(f"SELECT * FROM {name}").fetchall()
        self.right(recorder)


if __name__ == "__main__":
    unittest.main()
