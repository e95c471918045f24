"""Tests of what a recorder must not take for something else: transactions that end by ways of their own, tables of the same name,
defaults, and statements that look like others.

    PGSERIAL=path/to/pgserial python3 clients/python/test_recorded_endings.py

Databases as in test_recording.py.
"""

import os
import sqlite3
import subprocess
import sys
import unittest
import warnings
from typing import Any, List

from pgserial import jepsen
from pgserial.catalog import Names, Table
from pgserial.recording import RecordingWarning
from pgserial.sql import Name
from pgserial.values import Unsaid
from test_jepsen import answer, history
from test_recording import HERE, OnPostgres, OnSqlite, drivers


def said(lines: List[str], *words: str) -> List[str]:
    """The commands that begin with one of these words."""
    commands = [line.split(" ", 2)[2] for line in lines if line.startswith("> ")]
    return [command for command in commands if command.startswith(words)]


class Sqlite(OnSqlite):
    """On sqlite3."""

    def quiet(self) -> None:
        self.enterContext(warnings.catch_warnings())
        warnings.simplefilter("ignore", RecordingWarning)

    def test_isolation_level_none_commits(self) -> None:
        recorder = self.recorder()
        connection, other = recorder.wrap(self.raw(isolation_level="DEFERRED")), recorder.wrap(self.raw())
        connection.execute("UPDATE t SET v = 1 WHERE id = 1")
        connection.isolation_level = None
        self.assertEqual(said(self.body(), "COMMIT", "ROLLBACK"), ["COMMIT;"])
        self.assertEqual(other.execute("SELECT v FROM t WHERE id = 1").fetchall(), [(1,)])
        self.assertEqual(recorder.verdict().answer, "yes")

    def test_an_isolation_level_that_commits_nothing(self) -> None:
        connection = self.recorder().wrap(self.raw(isolation_level="DEFERRED"))
        connection.execute("UPDATE t SET v = 1 WHERE id = 1")
        connection.isolation_level = "IMMEDIATE"
        self.assertEqual(said(self.body(), "COMMIT", "ROLLBACK"), [])
        connection.rollback()
        self.assertEqual(said(self.body(), "COMMIT", "ROLLBACK"), ["ROLLBACK;"])

    def test_what_ends_on_the_drivers_own_connection_isnt_told_as_a_rollback(self) -> None:
        self.quiet()
        for end in ("commit", "rollback"):
            recorder = self.recorder()
            connection = recorder.wrap(self.raw(isolation_level="DEFERRED"))
            connection.execute("UPDATE t SET v = v + 5 WHERE id = 1")
            getattr(connection.wrapped, end)()
            connection.execute("SELECT * FROM t")
            told = recorder.verdict()
            self.assertEqual(told.answer, "unknown", told.words)
            self.assertIn("ended by a way that isn't recorded", str(told.ended))

    def test_what_has_written_nothing_may_end_there(self) -> None:
        recorder = self.recorder()
        connection = recorder.wrap(self.raw())
        connection.execute("BEGIN")
        connection.execute("SELECT * FROM t")
        connection.wrapped.rollback()
        connection.execute("UPDATE t SET v = 1 WHERE id = 1")
        self.assertEqual(said(self.body(), "COMMIT", "ROLLBACK"), ["ROLLBACK;", "COMMIT;"])
        self.assertEqual(recorder.verdict().answer, "yes")

    def test_executemany_of_keys_that_arent_there(self) -> None:
        recorder = self.recorder(verify_end=True)
        connection = recorder.wrap(self.raw())
        connection.executemany("UPDATE t SET v = ? WHERE id = ?", [(1, 1), (2, 9)])
        connection.executemany("DELETE FROM t WHERE id = ?", [(9,), (2,)])
        connection.close()
        self.assertEqual(recorder.verdict().answer, "yes")

    def test_defaults_of_either_sign(self) -> None:
        for default, stored in (("-5", -5), ("5", 5), ("+5", 5), ("(-5)", -5), ("'-5'", -5), ("NULL", None)):
            raw = self.raw()
            raw.executescript(f"DROP TABLE IF EXISTS d; CREATE TABLE d (id INTEGER PRIMARY KEY, v BIGINT DEFAULT {default})")
            recorder = self.recorder(["d"], verify_end=True)
            connection = recorder.wrap(raw)
            connection.execute("INSERT INTO d (id) VALUES (1)")
            self.assertEqual(connection.execute("SELECT v FROM d WHERE id = 1").fetchall(), [(stored,)])
            connection.close()
            told = recorder.verdict()
            self.assertNotEqual(told.answer, "no", (default, told.words))
            if default in ("-5", "5"):
                self.assertIn(f"> 1 INSERT INTO d VALUES (1, {stored});", self.lines())

    def test_a_part_of_the_rows_isnt_told_as_all(self) -> None:
        for text in ("SELECT id FROM t ORDER BY id LIMIT -1 OFFSET 1", "SELECT id FROM t LIMIT 1 OFFSET 1", "SELECT id FROM t ORDER BY id LIMIT 1"):
            recorder = self.recorder()
            connection = recorder.wrap(self.raw())
            connection.execute(text).fetchall()
            connection.execute("UPDATE t SET v = 1 WHERE id = 1")
            told = recorder.verdict()
            self.assertEqual((told.answer, sum(recorder.left_out.values())), ("yes", 1), (text, told.words))

    def test_a_count_of_a_column_isnt_that_of_the_rows(self) -> None:
        raw = self.raw()
        raw.execute("UPDATE t SET v = NULL WHERE id = 2")
        recorder = self.recorder()
        connection = recorder.wrap(raw)
        for text in ("SELECT count(v) FROM t", "SELECT count(DISTINCT id) FROM t", "SELECT count(*) FROM t"):
            connection.execute(text).fetchall()
        connection.execute("UPDATE t SET v = 1 WHERE id = 1")
        self.assertEqual(said(self.lines(), "SELECT"), ["SELECT count(*) FROM t;"])
        self.assertEqual((recorder.verdict().answer, sum(recorder.left_out.values())), ("yes", 2))

    def test_what_is_no_transcript_ends_with_its_own_status(self) -> None:
        with open(self.path, "w", encoding="utf-8") as file:
            file.write("> 1 BEGIN;\n  1 COMMIT\n")
        environment = {**os.environ, "PYTHONPATH": HERE}
        done = subprocess.run([sys.executable, "-B", "-m", "pgserial.recording", self.path], capture_output=True, text=True, env=environment, check=False)
        self.assertEqual(done.returncode, 1, done.stdout)
        self.assertIn("no verdict: transcript line 2", done.stdout)


class OtherTables(unittest.TestCase):
    """Tables of the same name in other schemas."""

    def test_a_table_of_another_schema_is_another_table(self) -> None:
        table = Table("public", "t", "t", (), ())
        names = Names([table], False)
        self.assertIs(names.table(None, Name("t", False)), table)
        self.assertIs(names.table(Name("public", False), Name("t", False)), table)
        for schema in ("o", "PUBLIC"):
            self.assertRaises(Unsaid, names.table, Name(schema, True), Name("t", False))


@unittest.skipUnless(drivers(), "PostgreSQL or psycopg2 isn't there (Debian: postgresql, python3-psycopg2)")
class Postgres(OnPostgres):
    """On PostgreSQL."""

    def setUp(self) -> None:
        super().setUp()
        self.enterContext(warnings.catch_warnings())
        warnings.simplefilter("ignore", RecordingWarning)

    def test_another_schemas_table(self) -> None:
        for driver in self.each():
            cursor = self.raw(driver, True).cursor()
            for text in ("DROP SCHEMA IF EXISTS o CASCADE", "CREATE SCHEMA o", "CREATE TABLE o.t (LIKE t INCLUDING ALL)", "INSERT INTO o.t VALUES (1, 99)"):
                cursor.execute(text)
            recorder = self.recorder(verify_end=True)
            connection = recorder.wrap(self.raw(driver, True))
            cursor = connection.cursor()
            cursor.execute("SELECT v FROM o.t WHERE id = 1")
            self.assertEqual(cursor.fetchall(), [(99,)])
            cursor.execute("UPDATE public.t SET v = 1 WHERE id = 1")
            connection.close()
            told = recorder.verdict()
            self.assertEqual((told.answer, sum(recorder.left_out.values())), ("yes", 1), told.words)
            recorder = self.recorder()
            cursor = recorder.wrap(self.raw(driver, True)).cursor()
            cursor.execute("UPDATE o.t SET v = 3 WHERE id = 1")
            self.assertEqual(said(self.lines(), "UPDATE"), [])
            self.assertEqual(recorder.verdict().answer, "unknown")

    def test_commit_behind_begin_in_autocommit(self) -> None:
        """psycopg2's does nothing then; psycopg's commits."""
        for driver in self.each():
            recorder = self.recorder(verify_end=True)
            connection = recorder.wrap(self.raw(driver, True))
            cursor = connection.cursor()
            cursor.execute("BEGIN")
            cursor.execute("UPDATE t SET v = 7 WHERE id = 1")
            connection.commit()
            is_open = connection.info.transaction_status != 0
            self.assertEqual(is_open, driver.__name__ == "psycopg2")
            self.assertEqual(said(self.lines()[9:], "COMMIT"), [] if is_open else ["COMMIT;"])
            if is_open:
                connection.rollback()
                cursor.execute("ROLLBACK")
            other = recorder.wrap(self.raw(driver, True))
            other.cursor().execute("SELECT v FROM t WHERE id = 1")
            for each in (connection, other):
                each.close()
            told = recorder.verdict()
            self.assertEqual(told.answer, "yes", told.words)

    def test_reset_rolls_back(self) -> None:
        for driver in self.each():
            if driver.__name__ != "psycopg2":
                continue
            recorder = self.recorder(verify_end=True)
            connection = recorder.wrap(self.raw(driver))
            connection.cursor().execute("UPDATE t SET v = 7 WHERE id = 1")
            connection.reset()
            connection.cursor().execute("SELECT v FROM t WHERE id = 1")
            connection.commit()
            self.assertEqual(said(self.lines()[9:], "COMMIT", "ROLLBACK"), ["ROLLBACK;", "COMMIT;"])
            connection.close()
            self.assertEqual(recorder.verdict().answer, "yes")

    def test_executemany_of_a_key_that_isnt_there(self) -> None:
        for driver in self.each():
            for autocommit in (True, False):
                recorder = self.recorder(verify_end=True)
                connection = recorder.wrap(self.raw(driver, autocommit))
                cursor = connection.cursor()
                cursor.executemany("UPDATE t SET v = %s WHERE id = %s", [(5, 1), (6, 99)])
                connection.commit()
                cursor.executemany("UPDATE t SET v = %s WHERE id = %s", [(7, 1), (8, 2)])
                connection.commit()
                connection.close()
                told = recorder.verdict()
                self.assertIn(told.answer, ("yes", "unknown"), told.words)
                self.assertNotIn("no order leaves", told.words)

    def test_defaults_of_either_sign(self) -> None:
        for driver in self.each():
            self.make("CREATE TABLE t (id int PRIMARY KEY, v bigint DEFAULT -5, w int DEFAULT '-7', x text DEFAULT '-9')")
            recorder = self.recorder(verify_end=True)
            connection = recorder.wrap(self.raw(driver, True))
            connection.cursor().execute("INSERT INTO t (id) VALUES (1)")
            connection.close()
            self.assertIn("> 1 INSERT INTO t VALUES (1, -5, -7, '-9');", self.lines())
            self.assertEqual(recorder.verdict().answer, "yes")

    def test_rows_behind_an_offset(self) -> None:
        for driver in self.each():
            for text in ("SELECT id FROM t ORDER BY id OFFSET 1", "SELECT id FROM t ORDER BY id OFFSET 1 ROWS", "SELECT id FROM t FETCH FIRST ROW ONLY"):
                recorder = self.recorder()
                connection = recorder.wrap(self.raw(driver, True))
                connection.cursor().execute(text)
                connection.cursor().execute("UPDATE t SET v = 1 WHERE id = 1")
                told = recorder.verdict()
                self.assertEqual((told.answer, sum(recorder.left_out.values())), ("yes", 1), (text, told.words))


class Histories(unittest.TestCase):
    """Jepsen's operations without an end, or without an invoke."""

    def test_without_an_invoke_it_may_have_begun_at_any_time(self) -> None:
        first = "{:type :invoke :f :txn :value [[:w x 1]] :process 0}\n{:type :ok :f :txn :value [[:w x 1]] :process 0}\n"
        self.assertEqual(answer(first + "{:type :ok :f :txn :value [[:r x nil]] :process 1}\n"), "yes")
        invoked = first + "{:type :invoke :f :txn :value [[:r x nil]] :process 1}\n{:type :ok :f :txn :value [[:r x nil]] :process 1}\n"
        self.assertEqual(answer(invoked), "no")

    def test_without_an_invoke_what_it_has_done_is_known(self) -> None:
        text = "{:type :ok :f :txn :value [[:w x 1]] :process 1}\n"
        self.assertEqual([one.type for one in jepsen.transactions_of(text)], ["ok"])
        self.assertEqual(answer(text + history("[[:r x 1]]").replace(":process 0", ":process 2")), "yes")

    def test_without_an_end_what_it_has_read_isnt_known(self) -> None:
        text = "{:type :invoke :f :txn :value [[:r x 7] [:w y 1]] :process 5}\n"
        self.assertEqual(answer(text + history("[[:r x nil] [:r y 1]]")), "yes")
        self.assertEqual(answer(text + history("[[:r x nil] [:r y nil]]")), "yes")
        self.assertEqual([one.type for one in jepsen.transactions_of(text)], ["info"])


if __name__ == "__main__":
    unittest.main()
