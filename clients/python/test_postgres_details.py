"""Tests of details of recordings on PostgreSQL: what an application sees stays the driver's own.

    PGSERIAL=path/to/pgserial python3 clients/python/test_postgres_details.py

Databases as in test_recording.py.
"""

import asyncio
import contextlib
import unittest
import warnings
from typing import Any, Callable, List

from pgserial.recording import Recorder, RecordingWarning
from test_recording import DSN, OnPostgres, T, drivers, module


@unittest.skipUnless(drivers(), "PostgreSQL or psycopg2 isn't there (Debian: postgresql, python3-psycopg2)")
class Details(OnPostgres):
    def alike(self, driver: Any, use: Callable[[Any], Any], autocommit: bool = False) -> Recorder:
        """What an application sees with a recorder is what it sees without one."""

        def told(connection: Any) -> Any:
            try:
                return use(connection)
            except Exception as error:
                return type(error), str(error)

        wanted = told(self.raw(driver, autocommit))
        self.make(*T)
        recorder = self.recorder()
        with warnings.catch_warnings():
            warnings.simplefilter("ignore", RecordingWarning)
            self.assertEqual(told(recorder.wrap(self.raw(driver, autocommit))), wanted)
        self.assertNotIn("fault of the recorder", str(recorder.ended))
        return recorder

    def test_autocommit_behind_a_transaction_of_with(self) -> None:
        for driver in self.each():
            recorder = self.recorder()
            connection = recorder.wrap(self.raw(driver, True))
            for _ in range(2):
                with connection if driver.__name__ == "psycopg2" else connection.transaction():
                    connection.cursor().execute("UPDATE t SET v = v + 1 WHERE id = 1")
                self.assertEqual(connection._session.driver.entered, 0)
                connection.cursor().execute("UPDATE t SET v = v + 1 WHERE id = 2")
                self.assertEqual(self.lines()[-1], "  1 COMMIT")
            self.assertEqual((recorder.verdict().answer, recorder.committed), ("yes", 4))

    def test_executemany_of_none(self) -> None:
        for driver in self.each():

            def use(connection: Any) -> Any:
                cursor, seen = connection.cursor(), []  # type: Any, List[Any]
                for text in ("UPDATE t SET v = v + 1", "SELECT * FROM t"):
                    cursor.execute(text)
                    cursor.executemany("UPDATE t SET v = %s WHERE id = %s", [])
                    seen.append((cursor.rowcount, cursor.description is None))
                return seen

            self.alike(driver, use)

    @unittest.skipUnless(module("psycopg"), "psycopg isn't there (Debian: python3-psycopg)")
    def test_what_would_need_more_than_an_asynchronous_cursor_shows(self) -> None:
        async def use() -> None:
            raw = await module("psycopg").AsyncConnection.connect(DSN, autocommit=True)
            connection = recorder.wrap(raw)
            await connection.execute("UPDATE t SET v = 3 WHERE id = 1")
            await connection.execute("UPDATE t SET v = v * 2 WHERE id = 1")
            cursor = await connection.execute("SELECT * FROM t ORDER BY id")
            self.assertEqual(await cursor.fetchall(), [(1, 6), (2, 20)])
            await connection.close()

        recorder = self.recorder()
        with self.assertWarns(RecordingWarning):
            asyncio.run(use())
        self.assertEqual(recorder.verdict().answer, "unknown")

    def test_values_with_types_that_cut_them(self) -> None:
        for driver in self.each():
            self.make(*T, "CREATE TABLE w (id int PRIMARY KEY, n text)", "INSERT INTO w VALUES (1, 'x'), (2, 'ab')")
            recorder = self.recorder(["w"])
            connection = recorder.wrap(self.raw(driver, True))
            for text in ("UPDATE w SET n = 'abcdef'::varchar(2) WHERE id = 1", "SELECT n FROM w WHERE id = 1", "SELECT id FROM w WHERE n = 'abc'::varchar(2)", "UPDATE w SET n = 'abc'::char(2) WHERE id = 2", "SELECT n FROM w WHERE id = 2", "UPDATE w SET n = '05'::int WHERE id = 1", "SELECT n FROM w WHERE id = 1"):
                connection.cursor().execute(text)
            self.assertIn(recorder.verdict().answer, ("yes", "unknown"))
            self.assertFalse([line for line in self.lines() if "'abcdef'" in line or "'abc'" in line or "'05'" in line])

    def test_returning_of_several_tables(self) -> None:
        for driver in self.each():
            for shown in ("*", "u.*, t.id", "t.*, u.w", "u.w, t.*"):
                self.make(*T, "CREATE TABLE u (w int, x int)", "INSERT INTO u VALUES (1, 7)")
                recorder = self.recorder(["t"])
                connection = recorder.wrap(self.raw(driver, True))
                with warnings.catch_warnings():
                    warnings.simplefilter("ignore", RecordingWarning)
                    cursor = connection.cursor()
                    cursor.execute(f"UPDATE t SET v = u.x FROM u WHERE t.id = u.w RETURNING {shown}")
                    self.assertEqual(len(cursor.fetchall()), 1)
                    cursor.execute("SELECT * FROM t")
                    self.assertEqual(sorted(cursor.fetchall()), [(1, 7), (2, 20)])
                with self.subTest(shown):
                    told = recorder.verdict()
                    self.assertIn(told.answer, ("yes", "unknown"))
                    if shown == "*":
                        self.assertIn("its RETURNING shows all columns of several tables", str(told.ended))

    def test_several_foreign_keys_of_one_table(self) -> None:
        for driver in self.each():
            self.make(*T, "CREATE TABLE c (id int PRIMARY KEY, a int REFERENCES t ON DELETE CASCADE, b int REFERENCES t ON DELETE CASCADE)", "INSERT INTO c VALUES (1, 1, 2)", "INSERT INTO t VALUES (3, 3)")
            recorder = self.recorder(["t", "c"])
            connection = recorder.wrap(self.raw(driver))
            connection.cursor().execute("DELETE FROM t WHERE id = 3")
            connection.cursor().execute("DELETE FROM t WHERE id = 1")
            with self.assertWarnsRegex(RecordingWarning, "several foreign keys of table c change its rows, and nobody tells which"):
                connection.commit()
            self.assertEqual(recorder.verdict().answer, "unknown")

    def test_a_text_that_is_broken_off(self) -> None:
        for driver in self.each():
            for autocommit in (True, False):
                recorder = self.recorder()
                connection = recorder.wrap(self.raw(driver, autocommit))
                connection.cursor().execute("SELECT v FROM t WHERE id = 1")
                connection.commit()
                with warnings.catch_warnings(), self.subTest(driver.__name__, autocommit=autocommit):
                    warnings.simplefilter("ignore", RecordingWarning)
                    with self.assertRaises(driver.OperationalError):
                        connection.cursor().execute("DO 'BEGIN UPDATE t SET v = 0; PERFORM pg_terminate_backend(pg_backend_pid()); END'")
                    self.assertIn("DO may write", str(recorder.ended))
                    self.assertEqual(recorder.verdict().answer, "unknown")

    def test_the_number_of_a_row(self) -> None:
        for driver in self.each():

            def use(connection: Any) -> Any:
                cursor, seen = connection.cursor(), []  # type: Any, List[Any]
                for text in ("UPDATE t SET v = v * 2 WHERE id = 1", "SELECT * FROM t", "UPDATE t SET v = v * 2 RETURNING id", "INSERT INTO t SELECT 9, 9", "DELETE FROM t WHERE id = 9"):
                    cursor.execute(text)
                    seen.append((cursor.rownumber, cursor.rowcount))
                    if cursor.description:
                        seen.append((cursor.fetchone(), cursor.rownumber, cursor.fetchall(), cursor.rownumber))
                return seen

            self.alike(driver, use)

    def test_rows_that_a_loader_refuses(self) -> None:
        for driver in self.each():
            if driver.__name__ != "psycopg2":
                continue
            from psycopg2.extensions import new_type

            def load(value: Any, cursor: Any) -> Any:
                if value == "20":
                    raise ValueError("no twenty")
                return value

            def use(connection: Any) -> Any:
                from psycopg2.extensions import register_type

                register_type(new_type((20,), "REFUSING", load), getattr(connection, "wrapped", connection))
                cursor = connection.cursor()
                cursor.execute("SELECT v FROM t ORDER BY id")
                seen: List[Any] = []
                for call in (cursor.fetchone, cursor.fetchone, cursor.fetchone, cursor.fetchall):
                    try:
                        seen.append(call())
                    except ValueError as error:
                        seen.append(str(error))
                return seen, cursor.rownumber

            self.alike(driver, use)

    def test_rows_of_a_factory(self) -> None:
        for driver in self.each():
            if driver.__name__ != "psycopg2":
                continue

            class Row(list):  # type: ignore
                def __init__(self, cursor: Any) -> None:
                    super().__init__([None] * len(cursor.description))

            def use(connection: Any) -> Any:
                cursor = connection.cursor()
                cursor.row_factory = Row
                seen = []
                for text in ("SELECT * FROM t", "UPDATE t SET v = v * 2 WHERE id = 1 RETURNING id", "UPDATE t SET v = v * 2 WHERE id = 1"):
                    cursor.execute(text)
                    seen.append([(type(row).__name__, list(row)) for row in cursor.fetchall()] if cursor.description else cursor.rowcount)
                return seen

            self.alike(driver, use)

    def test_texts_that_fail_wrote_nothing(self) -> None:
        texts = ("SELEC v FROM t", "FROBNICATE", "UPDATE t SET v = v * 2 WHERE nothing = 1", "SELECT 1; SELEC", "EXECUTE nothing", "EXECUTE nothing (1)", "DEALLOCATE nothing", "RELEASE a", "CREATE TABLE")
        for driver in self.each():
            for autocommit in (True, False):
                recorder = self.recorder()
                connection = recorder.wrap(self.raw(driver, autocommit))
                connection.cursor().execute("UPDATE t SET v = v + 1 WHERE id = 1")
                connection.commit()
                for text in texts:
                    with self.subTest(text, autocommit=autocommit), contextlib.suppress(driver.Error):
                        connection.cursor().execute(text)
                        self.fail("it was done")
                    connection.rollback()
                    self.assertIsNone(recorder.ended)
                self.assertEqual(recorder.verdict().answer, "yes")

    def test_parameters_of_what_was_prepared(self) -> None:
        for driver in self.each():
            if driver.__name__ != "psycopg2":  # which puts them into the text that is sent
                continue
            recorder = self.recorder()
            connection = recorder.wrap(self.raw(driver, False))
            cursor = connection.cursor()
            cursor.execute("PREPARE p AS UPDATE t SET v = $1 WHERE id = $2")
            cursor.execute("EXECUTE p (%s, %s)", (5, 1))
            connection.commit()
            self.assertIsNone(recorder.ended)
            self.assertTrue(any(line.endswith("UPDATE t SET v = 5 WHERE id = 1;") for line in self.lines()), self.lines())

    def test_what_others_than_recorded_tables_are_parted_into(self) -> None:
        for driver in self.each():
            recorder = self.recorder()
            connection = recorder.wrap(self.raw(driver, True))
            for text in ("CREATE TABLE parted (id int) PARTITION BY LIST (id)", "CREATE TABLE part PARTITION OF parted FOR VALUES IN (1)", 'CREATE TABLE "inherits" (id int)', "UPDATE t SET v = 3 WHERE id = 1"):
                connection.cursor().execute(text)
                self.assertIsNone(recorder.ended, text)
            self.assertEqual(recorder.verdict().answer, "yes")


if __name__ == "__main__":
    unittest.main()
