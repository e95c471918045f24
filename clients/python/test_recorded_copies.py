"""Tests of COPY by psycopg: what an application writes in a block is said as an INSERT for each row, once the block has ended.

    PGSERIAL=path/to/pgserial PGSERIAL_DSN=".." python3 clients/python/test_recorded_copies.py

$PGSERIAL_DSN names a database of PostgreSQL, whose tables are made anew.
"""

import asyncio
import io
import os
import unittest
from decimal import Decimal
from typing import Any, Callable, List

from pgserial.copying import Given, Written
from pgserial.recording import RecordingWarning
from pgserial.values import Unsaid
from test_recorded_costs import asked
from test_recording import DSN, OnPostgres, drivers, module

KINDS = "CREATE TABLE t (id int PRIMARY KEY, v numeric(6, 2), s text, made timestamptz DEFAULT now())"
TABLE = "CREATE TABLE t (id int PRIMARY KEY, v bigint)"
INTO = "COPY t FROM STDIN"


class Kept(unittest.TestCase):
    def test_a_letter_whose_bytes_are_in_two_pieces(self) -> None:
        given = Given("utf-8")
        for piece in (b"1\ta", memoryview("é".encode())[:1], bytearray("é".encode()[1:]), "ü", b"\n"):
            given.keep(piece)
        self.assertEqual(given.text(), "1\taéü\n")

    def test_bytes_that_are_no_text(self) -> None:
        for encoding, data in (("utf-8", b"\xff"), ("ascii", "é".encode())):
            given = Given(encoding)
            given.keep(data)
            self.assertRaises(Unsaid, given.text)

    def test_what_is_written_is_sent_and_kept(self) -> None:
        sent: List[Any] = []

        class Own:
            def write(self, data: Any) -> str:
                sent.append(data)
                return "to be awaited"

            def finish(self, error: Any) -> str:
                sent.append(error)
                return "ended"

        written = Written(Own(), "utf-8")
        self.assertEqual((written.write(b"1\n"), written.finish(None), sent, written.text()), ("to be awaited", "ended", [b"1\n", None], "1\n"))


class OnBoth(OnPostgres):
    """By psycopg's connections, and by its asynchronous ones."""

    def copy(self, connection: Any, text: str, *pieces: Any) -> None:
        """Copies rows, and pieces of text."""
        with connection.cursor().copy(text) as copy:
            for piece in pieces:
                (copy.write_row if isinstance(piece, tuple) else copy.write)(piece)

    async def copy_in_a_task(self, connection: Any, text: str, *pieces: Any) -> None:
        async with connection.cursor().copy(text) as copy:
            for piece in pieces:
                await (copy.write_row if isinstance(piece, tuple) else copy.write)(piece)

    def driver(self) -> Any:
        return module("psycopg")

    def each_way(self, does: Callable[[Any, bool], None]) -> None:
        """Copies by each kind of connection, on tables that are made anew."""
        for is_task in (False, True):
            with self.subTest(is_task=is_task):
                self.make(TABLE)
                does(self.driver(), is_task)

    def done(self, is_task: bool, text: str, *pieces: Any, autocommit: bool = False, **named: Any) -> Any:
        """A recorder of a connection that has copied, and then committed."""
        recorder = self.recorder(**named)
        if not is_task:
            connection = recorder.wrap(self.raw(self.driver(), autocommit))
            try:
                self.copy(connection, text, *pieces)
                connection.commit()
            finally:
                connection.close()
            return recorder

        async def main() -> None:
            wrapped = recorder.wrap(await self.driver().AsyncConnection.connect(DSN, autocommit=autocommit))
            try:
                await self.copy_in_a_task(wrapped, text, *pieces)
                await wrapped.commit()
            finally:
                await wrapped.close()

        asyncio.run(main())
        return recorder

    def rows(self) -> List[Any]:
        """What the table has."""
        return list(self.raw(self.driver(), True).execute("SELECT * FROM t ORDER BY id").fetchall())


@unittest.skipUnless(drivers() and module("psycopg"), "PostgreSQL or psycopg isn't there (Debian: postgresql, python3-psycopg)")
class Psycopg(OnBoth):
    def test_rows_and_text(self) -> None:
        def does(driver: Any, is_task: bool) -> None:
            self.make(KINDS)
            pieces = ("2\t\\N\t", "é".encode()[:1], "é".encode()[1:], b"\t2020-01-01 00:00:00+00\n", (1, Decimal("1.5"), "a\tb\\c", None), (3, None, "", None))
            recorder = self.done(is_task, INTO, *pieces, verify_end=True)
            self.assertEqual(
                asked(self.lines())[:3],
                ["INSERT INTO t VALUES (2, NULL, 'é', 1577836800000000);", "INSERT INTO t VALUES (1, 150, 'a\tb\\\\c', NULL);", "INSERT INTO t VALUES (3, NULL, '', NULL);"],
            )
            self.assertEqual(recorder.verdict().answer, "yes")
            self.assertEqual([row[:3] for row in self.rows()], [(1, Decimal("1.50"), "a\tb\\c"), (2, None, "é"), (3, None, "")])

        self.each_way(does)

    def test_in_autocommit_it_is_a_transaction(self) -> None:
        def does(driver: Any, is_task: bool) -> None:
            recorder = self.done(is_task, "COPY t (v, id) FROM STDIN", (30, 3), (40, 4), autocommit=True, verify_end=True)
            body = [line for line in self.lines() if line.startswith("> 1 ")][:4]
            self.assertEqual(body, ["> 1 BEGIN;", "> 1 INSERT INTO t VALUES (3, 30);", "> 1 INSERT INTO t VALUES (4, 40);", "> 1 COMMIT;"])
            self.assertEqual(recorder.verdict().answer, "yes")

        self.each_way(does)

    def test_what_is_refused_was_not_done(self) -> None:
        """By the server, and by the application amid the block."""

        def does(driver: Any, is_task: bool) -> None:
            for autocommit in (False, True):
                for pieces, error in ((((7, 70), (7, 71)), driver.errors.UniqueViolation), (((7, 70), ("no", "numbers", "three")), driver.errors.BadCopyFileFormat), (((7, 70), (object(), 1)), driver.Error)):
                    with self.subTest(autocommit=autocommit, error=error):
                        with self.assertRaises(error):
                            self.done(is_task, INTO, *pieces, autocommit=autocommit)
                        connection = self.recorders[-1].wrap(self.raw(driver))
                        self.assertEqual(connection.execute("SELECT * FROM t").fetchall(), [])
                        connection.commit()
                        self.assertEqual(self.recorders[-1].verdict().answer, "yes")
                        self.assertEqual(asked(self.lines()), ["SELECT * FROM t;"])

        self.each_way(does)

    def test_a_connection_that_is_lost_amid_it(self) -> None:
        """Whether it was done isn't known: nothing is said of it, and nothing behind it is judged."""
        self.make(TABLE)
        driver = self.driver()
        recorder = self.recorder()
        connection = recorder.wrap(self.raw(driver, True))
        ends = "SELECT pg_terminate_backend(%s)"
        with self.assertWarns(RecordingWarning), self.assertRaises(driver.OperationalError):
            with connection.cursor().copy(INTO) as copy:
                copy.write_row((3, 30))
                self.raw(driver, True).execute(ends, (connection.wrapped.info.backend_pid,))
        self.assertEqual(asked(self.lines()), [])
        self.assertEqual(recorder.verdict().answer, "unknown")

    def test_a_connection_of_psycopg2_that_is_lost_amid_it(self) -> None:
        older = module("psycopg2")
        if older is None:
            self.skipTest("psycopg2 isn't there (Debian: python3-psycopg2)")
        self.make(TABLE)
        recorder = self.recorder()
        connection = recorder.wrap(self.raw(older, True))

        class Ending(io.StringIO):
            """A file at whose end the connection is lost."""

            def read(file, *words: Any) -> str:
                text = io.StringIO.read(file, *words)
                if not text:
                    self.raw(older, True).cursor().execute("SELECT pg_terminate_backend(%s)", (connection.wrapped.info.backend_pid,))
                return text

        with self.assertWarns(RecordingWarning), self.assertRaises(older.Error):
            connection.cursor().copy_expert(INTO, Ending("3\t30\n"))
        self.assertEqual(asked(self.lines()), [])
        self.assertEqual(recorder.verdict().answer, "unknown")

    def test_other_forms_are_not_said(self) -> None:
        def does(driver: Any, is_task: bool) -> None:
            for text, piece in (("COPY t FROM STDIN (FORMAT csv)", "8,80\n"), (INTO, "8\t\\061\n")):
                with self.subTest(text), self.assertWarnsRegex(RecordingWarning, "COPY writes"):
                    recorder = self.done(is_task, text, piece)
                    self.assertEqual(recorder.verdict().answer, "unknown")
                self.raw(driver, True).execute("DELETE FROM t WHERE id = 8")

        self.each_way(does)

    def test_what_a_savepoint_undoes(self) -> None:
        self.make(TABLE)
        recorder = self.recorder(verify_end=True)
        connection = recorder.wrap(self.raw(self.driver()))
        connection.execute("SELECT * FROM t WHERE id = 9")
        for key in (3, 4):
            with connection.transaction(force_rollback=key == 3):
                self.copy(connection, INTO, (key, 1))
        connection.commit()
        connection.close()
        self.assertEqual([line for line in asked(self.lines()) if line.startswith("INSERT")], ["INSERT INTO t VALUES (4, 1);"])
        self.assertEqual(recorder.verdict().answer, "yes")

    def test_a_call_amid_it_fails_as_it_would(self) -> None:
        """The recording ends there, and nobody waits."""

        def does(driver: Any, is_task: bool) -> None:
            recorder = self.recorder()

            async def main() -> None:
                connection = recorder.wrap(await driver.AsyncConnection.connect(DSN))
                async with connection.cursor().copy(INTO):
                    with self.assertRaises(driver.OperationalError):
                        await asyncio.wait_for(connection.execute("SELECT 1"), 20)
                await connection.close()

            with self.assertWarnsRegex(RecordingWarning, "two tasks use one connection"):
                if is_task:
                    asyncio.run(main())
                else:
                    connection = recorder.wrap(self.raw(driver))
                    with connection.cursor().copy(INTO):
                        self.assertRaises(driver.OperationalError, connection.execute, "SELECT 1")
            self.assertEqual(recorder.verdict().answer, "unknown")

        self.each_way(does)

    def test_two_that_count_and_copy_are_no_order(self) -> None:
        self.make(TABLE)
        recorder = self.recorder()
        driver = self.driver()
        both = [recorder.wrap(self.raw(driver)) for _ in range(2)]
        for connection in both:
            connection.isolation_level = driver.IsolationLevel.REPEATABLE_READ
            self.assertEqual(connection.execute("SELECT id, v FROM t").fetchall(), [])
        for key, connection in enumerate(both):
            self.copy(connection, INTO, (key, 1))
        for connection in both:
            connection.commit()
        self.assertEqual(recorder.verdict().answer, "no")

    def test_its_place_is_the_blocks(self) -> None:
        self.make(TABLE)
        recorder = self.recorder()
        connection = recorder.wrap(self.raw(self.driver()))
        with connection.cursor().copy(INTO) as copy:
            copy.write_row((3, 30))
        connection.commit()
        recorder.close()
        with open(self.path, encoding="utf-8") as file:
            lines = file.read().split("\n")
        place = lines[lines.index("> 1 INSERT INTO t VALUES (3, 30);") - 1]
        self.assertRegex(place, rf"^-- at \S+ \S*{os.path.basename(__file__)}:\d+$")


if __name__ == "__main__":
    unittest.main()
