"""Tests of which database a connection is to, and which tables its names mean.

    PGSERIAL=path/to/pgserial python3 clients/python/test_identity.py
"""

import contextlib
import os
import sqlite3
import threading
import unittest
import warnings
from typing import Any, List

import test_recording
from pgserial.keys import Refused
from pgserial.recording import Recorder, RecordingWarning
from test_recording import DSN, drivers

T = ("CREATE TABLE t (id int PRIMARY KEY, v bigint)", "INSERT INTO t VALUES (1, 10), (2, 20)")
OTHER = ("DROP SCHEMA IF EXISTS o CASCADE", "CREATE SCHEMA o", "CREATE TABLE o.t (LIKE t INCLUDING ALL)", "INSERT INTO o.t VALUES (1, 99), (2, 99)")


@unittest.skipUnless(drivers(), "PostgreSQL or psycopg2 isn't there (Debian: postgresql, python3-psycopg2)")
class OnPostgres(test_recording.Postgres):
    def setUp(self) -> None:
        super().setUp()
        self.addCleanup(self.make, "DROP SCHEMA IF EXISTS o CASCADE")

    def judged(self, raw: Any, *texts: str) -> Recorder:
        """What is recorded of texts on a connection, each a transaction by itself, and then of the recorded table's rows."""
        recorder = self.recorder(["public.t"])
        connection = recorder.wrap(raw)
        with warnings.catch_warnings():
            warnings.simplefilter("ignore", RecordingWarning)
            for text in ("SELECT v FROM public.t WHERE id = 1", *texts):
                with contextlib.suppress(*[driver.Error for driver in drivers()]):
                    connection.cursor().execute(text)
            connection.cursor().execute("SELECT * FROM public.t")
        return recorder

    def test_another_database(self) -> None:
        for driver in self.each():
            first = self.raw(driver, True)
            first.cursor().execute("SELECT current_database()")
            first.cursor().execute("DROP DATABASE IF EXISTS pgserial_other")
            first.cursor().execute("CREATE DATABASE pgserial_other")
            other = driver.connect(f"{DSN} dbname=pgserial_other")
            other.autocommit = True
            for text in T:
                other.cursor().execute(text)
            recorder = self.recorder()
            recorder.wrap(first)
            with self.assertRaisesRegex(Refused, "to another database than the first"):
                recorder.wrap(other)
            other.close()
            recorder.wrap(self.raw(driver, True)).cursor().execute("UPDATE t SET v = 1")
            self.assertEqual(recorder.verdict().answer, "yes")
            self.raw(driver, True).cursor().execute("DROP DATABASE pgserial_other")

    def test_another_schemas_table_comes_first(self) -> None:
        for driver in self.each():
            self.make(*T, *OTHER)
            raw = self.raw(driver, True)
            recorder = self.recorder(["public.t"])
            recorder.wrap(self.raw(driver, True))
            raw.cursor().execute("SET search_path TO o, public")
            with self.assertRaisesRegex(Refused, "by the search path of the connection t is another table"):
                recorder.wrap(raw)

    def test_a_table_that_the_search_path_doesnt_reach(self) -> None:
        for driver in self.each():
            self.make("DROP SCHEMA IF EXISTS o CASCADE", "CREATE SCHEMA o", "CREATE TABLE o.t (id int PRIMARY KEY, v bigint)", "INSERT INTO o.t VALUES (1, 10)")
            recorder = self.recorder(["o.t"])
            recorder.wrap(self.raw(driver, True)).cursor().execute("UPDATE o.t SET v = 5 WHERE id = 1")
            recorder.wrap(self.raw(driver, True)).cursor().execute("SELECT v FROM o.t WHERE id = 1")
            self.assertEqual((recorder.verdict().answer, recorder.committed, recorder.ended), ("yes", 2, None))

    def test_tables_that_were_made_anew_are_others(self) -> None:
        for driver in self.each():
            recorder = self.recorder()
            recorder.wrap(self.raw(driver, True)).close()
            maker = self.raw(driver, True).cursor()
            for text in ("DROP TABLE t", *T):
                maker.execute(text)
            with self.assertRaisesRegex(Refused, "to another database than the first"):
                recorder.wrap(self.raw(driver, True))

    def test_what_turns_names_behind_the_recorder(self) -> None:
        turns = (
            ("RESET ALL", "SET search_path TO public"), ("DISCARD ALL", "SET search_path TO public"), ("SET search_path TO o, public", "SELECT 1"), ("SET SCHEMA 'o'", "SELECT 1"),
            ("SET ROLE o", "SET search_path TO \"$user\", public"), ("SET SESSION AUTHORIZATION o", "SET search_path TO \"$user\", public"),
            ("SELECT set_config('search_path', 'o,public', false)", "SELECT 1"), ("RESET search_path", "SET search_path TO public"),
        )  # fmt: skip
        for driver in self.each():
            for text, before in turns:
                with self.subTest(text):
                    self.make(*T, *OTHER, "DROP ROLE IF EXISTS o", "CREATE ROLE o SUPERUSER")
                    path = "o,public" if "RESET" in text or "DISCARD" in text else "public"
                    raw = driver.connect(DSN, options=f"-c search_path={path}")
                    raw.autocommit = True
                    self.addCleanup(raw.close)
                    raw.cursor().execute(before)
                    recorder = self.judged(raw, text, "UPDATE t SET v = 5 WHERE id = 1")
                    cursor = self.raw(driver, True).cursor()
                    cursor.execute("SELECT v FROM o.t WHERE id = 1")
                    self.assertEqual(cursor.fetchone(), (5,))
                    raw.close()
                    self.assertEqual(recorder.verdict().answer, "unknown")

    def test_names_that_mean_one_table_alone_are_fixed(self) -> None:
        texts = ("RESET ALL", "DISCARD ALL", "SET search_path TO pg_catalog, public", "SET ROLE NONE", "SET SESSION AUTHORIZATION DEFAULT", "SELECT set_config('search_path', 'public', false)")
        for driver in self.each():
            recorder = self.judged(self.raw(driver, True), *texts, "UPDATE t SET v = 5 WHERE id = 1")
            told = recorder.verdict()
            self.assertEqual((told.answer, told.ended, told.left_out), ("yes", None, ()))

    def test_tables_that_are_created(self) -> None:
        for driver in self.each():
            for text, answer in (
                ("CREATE TABLE c () INHERITS (t)", "unknown"), ("CREATE TABLE o.t (id int)", "unknown"), ("CREATE TABLE IF NOT EXISTS o.t (id int)", "unknown"),
                ("CREATE TABLE IF NOT EXISTS t (id int)", "yes"), ("CREATE TABLE c (id int REFERENCES t)", "yes"), ("CREATE TABLE IF NOT EXISTS public.c (id int)", "yes"),
                ("CREATE INDEX i ON t (v)", "yes"), ("CREATE TEMP TABLE t (id int)", "unknown"),
            ):  # fmt: skip
                with self.subTest(text):
                    self.make(*T, "DROP SCHEMA IF EXISTS o CASCADE", "CREATE SCHEMA o")
                    self.assertEqual(self.judged(self.raw(driver, True), text).verdict().answer, answer)

    def test_texts_that_mean_something_else(self) -> None:
        for driver in self.each():
            for text in ("SET standard_conforming_strings = off", "SET transform_null_equals = on"):
                raw = self.raw(driver, True)
                raw.cursor().execute(text)
                with self.assertRaisesRegex(Refused, "standard_conforming_strings is off, or transform_null_equals on"):
                    self.recorder().wrap(raw)
                self.assertEqual(self.judged(self.raw(driver, True), text).verdict().answer, "unknown")


for name in [name for name in dir(test_recording.Postgres) if name.startswith("test_")]:
    setattr(OnPostgres, name, None)  # which run in their own file


class OnSqlite(test_recording.OnSqlite):
    def test_another_file(self) -> None:
        recorder = self.recorder()
        recorder.wrap(self.raw())
        path = os.path.join(self.folder, "other")
        with contextlib.closing(sqlite3.connect(path)) as other:
            other.executescript("; ".join(T))
            with self.assertRaisesRegex(Refused, "to another database than the first"):
                recorder.wrap(other)
        link = os.path.join(self.folder, "link")
        os.symlink(self.file, link)
        with contextlib.closing(sqlite3.connect(link, isolation_level=None)) as same:
            recorder.wrap(same).execute("UPDATE t SET v = 3")
        self.assertEqual(recorder.verdict().answer, "yes")

    def memory(self, name: str = ":memory:") -> sqlite3.Connection:
        connection = sqlite3.connect(name, uri=True, isolation_level=None, timeout=1)
        self.addCleanup(connection.close)
        return connection

    def test_databases_in_memory(self) -> None:
        one, two = self.memory(), self.memory()
        for connection in (one, two):
            connection.executescript("; ".join(T))
        recorder = self.recorder()
        recorder.wrap(one)
        with self.assertRaisesRegex(Refused, "to another database than the first"):
            recorder.wrap(two)
        shared = "file:identity?mode=memory&cache=shared"
        one, two, three = (self.memory(shared) for _ in range(3))
        one.executescript("; ".join(T))
        recorder = self.recorder()
        first = recorder.wrap(one)
        recorder.wrap(two).execute("UPDATE t SET v = 3 WHERE id = 1")
        first.execute("BEGIN")
        recorder.wrap(three)
        first.execute("COMMIT")
        self.assertEqual((first.in_transaction, two.in_transaction, three.in_transaction, recorder.ended), (False, False, False, None))

    def test_another_file_while_a_transaction_is_open(self) -> None:
        connection = self.recorder().wrap(self.raw())
        self.file += "2"
        other = self.raw()
        other.executescript("; ".join(T))
        for text in ("BEGIN", "SELECT v FROM t", "UPDATE t SET v = 5"):
            connection.execute(text)
            with self.subTest(text), self.assertRaisesRegex(Refused, "to another database than the first"):
                self.recorders[-1].wrap(other)

    def test_another_file_where_a_connection_is_another_threads(self) -> None:
        recorder = self.recorder()
        kept: List[Any] = []

        def begin() -> None:
            kept.append(recorder.wrap(sqlite3.connect(self.file, isolation_level=None)))
            kept[0].execute("BEGIN")
            begun.set()
            ended.wait(60)
            kept[0].close()

        begun, ended = threading.Event(), threading.Event()
        thread = threading.Thread(target=begin)
        thread.start()
        try:
            self.assertTrue(begun.wait(60))
            self.file += "2"
            other = self.raw()
            other.executescript("; ".join(T))
            with self.assertRaisesRegex(Refused, "to another database than the first"):
                recorder.wrap(other)
        finally:
            ended.set()
            thread.join()

    def test_databases_in_memory_while_a_transaction_is_open(self) -> None:
        for name, is_one in ((":memory:", False), ("file:identity?mode=memory&cache=shared", True)):
            for text in ("SELECT v FROM t WHERE id = 1", "UPDATE t SET v = 5 WHERE id = 1"):
                first, second = self.memory(name), self.memory(name)
                for connection in (first,) if is_one else (first, second):
                    connection.executescript("DROP TABLE IF EXISTS t; PRAGMA user_version = 7; " + "; ".join(T))
                recorder = self.recorder()
                wrapped = recorder.wrap(first)
                wrapped.execute("BEGIN")
                wrapped.execute(text).fetchall()
                with self.subTest(name, text=text), contextlib.nullcontext() if is_one else self.assertRaisesRegex(Refused, "to another database"):
                    recorder.wrap(second)
                wrapped.execute("COMMIT")
                self.assertEqual([each.execute("PRAGMA user_version").fetchone() for each in (first, second)], [(7,), (7,)])
                self.assertFalse(second.in_transaction)
                for connection in (first, second):
                    connection.close()

    def test_another_databases_table(self) -> None:
        raw = self.raw()
        raw.execute("ATTACH ? AS o", (os.path.join(self.folder, "other"),))
        raw.executescript("CREATE TABLE o.t (id INTEGER PRIMARY KEY, v BIGINT); INSERT INTO o.t VALUES (1, 99)")
        recorder = self.recorder()
        connection = recorder.wrap(raw)
        connection.execute("UPDATE main.t SET v = 4 WHERE id = 1")
        self.assertEqual(connection.execute("SELECT v FROM o.t WHERE id = 1").fetchall(), [(99,)])
        self.assertEqual(connection.execute("SELECT v FROM MAIN.t WHERE id = 1").fetchall(), [(4,)])
        self.assertEqual(recorder.ended, None)
        with self.assertWarns(RecordingWarning):
            connection.execute("UPDATE o.t SET v = 5 WHERE id = 1")
        told = recorder.verdict()
        self.assertEqual((told.answer, told.committed), ("unknown", 2))

    def test_a_temporary_table_of_the_name(self) -> None:
        for text in ("CREATE TEMP TABLE t (id INTEGER PRIMARY KEY, v BIGINT)", "CREATE TEMP VIEW T AS SELECT 1 AS id"):
            raw = self.raw()
            raw.execute(text)
            with self.assertRaisesRegex(Refused, "is another table than the recorded one"):
                self.recorder().wrap(raw)

    def test_keys_that_are_null(self) -> None:
        raw = self.raw()
        raw.execute("CREATE TABLE w (id TEXT PRIMARY KEY, v INT)")
        for text in ("INSERT INTO w VALUES (NULL, 5)", "INSERT INTO w (v) VALUES (6)", "INSERT INTO w VALUES ('a', 1), (NULL, 2)", "INSERT INTO w SELECT NULL, 3"):
            raw.execute("DELETE FROM w")
            recorder = self.recorder(["w"])
            connection = recorder.wrap(self.raw())
            connection.execute("SELECT * FROM w WHERE id = 'a'")
            with self.subTest(text), self.assertWarns(RecordingWarning):
                connection.execute(text)
            connection.execute("SELECT * FROM w")
            self.assertEqual(recorder.verdict().answer, "unknown")

    def test_a_column_of_the_name_of_row_numbers(self) -> None:
        raw = self.raw()
        raw.executescript("CREATE TABLE w (id INTEGER PRIMARY KEY, oid INT, v INT); INSERT INTO w VALUES (1, 2, 5), (2, 1, 6)")
        recorder = self.recorder({"w": ["id", "v"]}, verify_end=True)
        connection = recorder.wrap(raw)
        self.assertEqual(connection.execute("SELECT v FROM w WHERE oid = 1").fetchall(), [(6,)])
        connection.execute("UPDATE w SET v = 9 WHERE oid = 1")
        self.assertEqual(connection.execute("SELECT v FROM w WHERE rowid = 2").fetchall(), [(9,)])
        connection.close()
        told = recorder.verdict()
        self.assertEqual((told.answer, told.ended), ("yes", None))

    def test_keys_that_are_no_row_numbers(self) -> None:
        """`INTEGER PRIMARY KEY DESC` is no row number in SQLite, and an absent one is null."""
        for number, (made, is_number) in enumerate((
            ("id INTEGER PRIMARY KEY DESC, v INT", False), ("id INTEGER PRIMARY KEY, v INT", True), ("id INTEGER, v INT, PRIMARY KEY (id DESC)", True),
            ("id INTEGER PRIMARY KEY AUTOINCREMENT, v INT", True), ("id INT PRIMARY KEY, v INT", False),
        )):  # fmt: skip
            raw = self.raw()
            raw.execute(f"CREATE TABLE w{number} ({made})")
            recorder = self.recorder([f"w{number}"])
            connection = recorder.wrap(raw)
            with self.subTest(made), warnings.catch_warnings():
                warnings.simplefilter("ignore", RecordingWarning)
                connection.execute(f"INSERT INTO w{number} (v) VALUES (5)")
                self.assertEqual(connection.execute(f"SELECT id FROM w{number} WHERE v = 5").fetchall(), [(1 if is_number else None,)])
                connection.execute(f"SELECT v FROM w{number} WHERE id = 1")
                self.assertEqual((recorder.tables[0].makes_key, recorder.verdict().answer), (is_number, "yes" if is_number else "unknown"))


if __name__ == "__main__":
    unittest.main()
