"""Tests of writes and queries that are said by their rows: that the application sees nothing of it, and that nothing is added
where it would fail.

    PGSERIAL=path/to/pgserial PGSERIAL_DSN=.. python3 clients/python/test_returning.py
"""

import sqlite3
import unittest
import warnings
from typing import Any, List, Sequence, Tuple

from pgserial.recording import RecordingWarning
from test_recording import DSN, OnPostgres, OnSqlite, drivers

Statement = Tuple[str, Sequence[Any]]
# Each changes rows; those that are shown come by a RETURNING of the statement's own.
STATEMENTS: Tuple[Statement, ...] = (
    ("UPDATE t SET v = v * 2 WHERE v > ?", (5,)), ("UPDATE t SET v = v * 2 WHERE id = 77 OR v = 3", ()), ("UPDATE t SET v = -v -- the end", ()),
    ("UPDATE t SET v = v * 3 ; -- behind it", ()), ("UPDATE t SET v = v * 2 WHERE id = 1 RETURNING v + 1, id", ()), ("DELETE FROM t WHERE v = 20 OR id = 99 RETURNING *", ()),
    ("INSERT INTO t (id, v) VALUES (1, 5), (7, 70) ON CONFLICT (id) DO UPDATE SET v = excluded.v", ()), ("INSERT INTO t SELECT id + 100, v FROM t WHERE v < ?", (1000,)),
    ("INSERT INTO t VALUES (1, 1) ON CONFLICT DO NOTHING", ()), ("DELETE FROM t WHERE id IN (1, 2, 3)", ()), ("UPDATE t SET id = id + 1000", ()),
)  # fmt: skip


def seen(connection: Any, mark: str) -> List[Any]:
    """What an application sees of each of these statements."""
    told: List[Any] = []
    cursor = connection.cursor()

    def take(name: str, call: Any) -> None:
        try:
            told.append((name, call()))
        except Exception as error:
            told.append((name, type(error).__name__, str(error)))

    for text, parameters in STATEMENTS:
        sent = text.replace("?", mark)
        take(text, lambda: cursor.execute(sent, tuple(parameters)) and None)  # noqa: B023
        for name in ("rowcount", "rownumber", "statusmessage", "lastrowid", "query"):
            if mark == "?" and name == "rowcount" and "RETURNING" in text:
                continue  # SQLite counts what was fetched so far, and that is all
            take(name, lambda: getattr(cursor, name))  # noqa: B023
        take("description", lambda: cursor.description and [column[0] for column in cursor.description])
        take("one", cursor.fetchone)
        take("many", lambda: cursor.fetchmany(1))
        take("rows", lambda: list(cursor))
        take("number", lambda: cursor.rownumber)
        take("all", cursor.fetchall)
    cursor.executemany(f"UPDATE t SET v = v * 2 WHERE id = {mark}", [(1001,), (1077,), (1101,)])
    take("many of them", lambda: cursor.rowcount)
    take("of many", lambda: cursor.description)
    connection.commit()
    cursor.execute("SELECT * FROM t ORDER BY id")
    take("at the end", cursor.fetchall)
    connection.commit()
    return told


@unittest.skipIf(sqlite3.sqlite_version_info < (3, 35), "SQLite is older than RETURNING")
class OfSqlite(OnSqlite):
    def fresh(self) -> None:
        other = self.raw()
        other.execute("DELETE FROM t")
        other.execute("INSERT INTO t VALUES (1, 10), (2, 20)")
        other.close()

    def test_the_application_sees_nothing_of_it(self) -> None:
        for level in (None, "DEFERRED", "IMMEDIATE"):
            with self.subTest(level):
                self.fresh()
                without = seen(self.raw(isolation_level=level), "?")
                self.fresh()
                recorder = self.recorder()
                self.assertEqual(seen(recorder.wrap(self.raw(isolation_level=level)), "?"), without)
                told = recorder.verdict()
                self.assertEqual(told.answer, "yes", told.words)

    def test_two_increments_that_read_unsaid_are_no_plain_yes(self) -> None:
        recorder = self.recorder()
        one = recorder.wrap(self.raw())
        one.execute("UPDATE t SET v = v * 2 WHERE id = 1")
        one.execute("UPDATE t SET v = v * 2 WHERE id = 1")
        self.assertEqual([line for line in self.body() if "UPDATE t" in line], ["> 1 UPDATE t SET v = 20 WHERE id = 1;", "> 1 UPDATE t SET v = 40 WHERE id = 1;"])
        self.assertEqual(sum(recorder.left_out.values()), 2)

    def test_a_locked_database_refuses_it_as_without(self) -> None:
        other = self.raw()
        for level in (None, "DEFERRED"):
            self.fresh()
            connection = self.recorder().wrap(self.raw(isolation_level=level, timeout=0.1))
            other.execute("BEGIN IMMEDIATE")
            for text in ("REPLACE INTO t VALUES (1, 5)", "UPDATE t SET v = v * 2"):
                with self.assertRaisesRegex(sqlite3.OperationalError, "locked"):
                    connection.execute(text)
            other.execute("ROLLBACK")
            connection.execute("REPLACE INTO t VALUES (1, 5)")
            connection.commit()
            self.assertEqual(self.body()[-8:-2][:6], ["> 1 BEGIN;", "  1 BEGIN", "> 1 DELETE FROM t WHERE id = 1;", "  1 DELETE 1", "> 1 INSERT INTO t VALUES (1, 5);", "  1 INSERT 0 1"])

    def test_rows_of_a_class_of_their_own_get_nothing_added(self) -> None:
        raw = self.raw()
        raw.row_factory = sqlite3.Row
        connection = self.recorder().wrap(raw)
        with warnings.catch_warnings():
            warnings.simplefilter("ignore", RecordingWarning)
            row = connection.execute("UPDATE t SET v = v * 2 WHERE id = 1 RETURNING v + 1 AS more").fetchone()
        self.assertEqual((row.keys(), tuple(row)), (["more"], (21,)))

    def test_aliases_tell_a_table_that_stands_twice(self) -> None:
        recorder = self.recorder()
        connection = recorder.wrap(self.raw())
        rows = connection.execute("SELECT a.v, a.id, b.id, b.v FROM t a LEFT JOIN t b ON b.id = a.id + 1 ORDER BY a.id").fetchall()
        self.assertEqual(rows, [(10, 1, 2, 20), (20, 2, None, None)])
        said = [line for line in self.body() if line[:1] == ">" and "SELECT" in line]
        self.assertEqual(said, [f"> 1 SELECT {shown} FROM t WHERE id = {key};" for key, shown in ((1, "v, id"), (2, "v, id"), (2, "*"))])


@unittest.skipUnless(drivers(), "PostgreSQL or psycopg2 isn't there (Debian: postgresql, python3-psycopg2)")
class OfPostgres(OnPostgres):
    def test_the_application_sees_nothing_of_it(self) -> None:
        for driver in self.each():
            for autocommit in (False, True):
                self.make("CREATE TABLE t (id bigint PRIMARY KEY, v bigint)", "INSERT INTO t VALUES (1, 10), (2, 20)")
                without = seen(self.raw(driver, autocommit), "%s")
                self.make("CREATE TABLE t (id bigint PRIMARY KEY, v bigint)", "INSERT INTO t VALUES (1, 10), (2, 20)")
                recorder = self.recorder()
                self.assertEqual(seen(recorder.wrap(self.raw(driver, autocommit)), "%s"), without)
                told = recorder.verdict()
                self.assertEqual(told.answer, "yes", told.words)

    def ended(self, driver: Any, role: str, text: str, *made: str) -> Any:
        """Why nothing is judged behind a statement of a role, which isn't refused."""
        self.make("CREATE TABLE t (id bigint PRIMARY KEY, v bigint)", "INSERT INTO t VALUES (1, 10), (2, 20)", "GRANT USAGE ON SCHEMA public TO PUBLIC", *made)
        recorder = self.recorder()
        recorder.wrap(self.raw(driver)).close()
        connection = recorder.wrap(driver.connect(f"{DSN} user={role}"))
        self.addCleanup(connection.close)
        self.opened.append(connection)
        cursor = connection.cursor()
        with warnings.catch_warnings():
            warnings.simplefilter("ignore", RecordingWarning)
            cursor.execute(text)
            self.assertEqual(cursor.rowcount, 1)
            connection.commit()
        return recorder.ended

    def test_nothing_is_added_where_the_role_may_not_read(self) -> None:
        role = "CREATE ROLE writer LOGIN; EXCEPTION WHEN duplicate_object THEN NULL"
        made = f"DO $$BEGIN {role}; END$$"
        self.addCleanup(self.make, "DROP ROLE IF EXISTS writer")
        for driver in self.each():
            ended = self.ended(driver, "writer", "INSERT INTO t VALUES (9, 1 + 1)", made, "GRANT INSERT ON t TO writer")
            self.assertIsNotNone(ended)
            ended = self.ended(driver, "writer", "INSERT INTO t VALUES (9, 1 + 1)", made, "GRANT INSERT, SELECT ON t TO writer")
            self.assertIsNone(ended)

    def test_a_failed_transaction_tells_nothing_of_a_table(self) -> None:
        for driver in self.each():
            self.make("CREATE TABLE t (id bigint PRIMARY KEY, v bigint)", "INSERT INTO t VALUES (1, 10)")
            recorder = self.recorder()
            connection = recorder.wrap(self.raw(driver))
            cursor = connection.cursor()
            for text in ("INSERT INTO t VALUES (1, 0)", "UPDATE t SET v = v * 2"):
                with self.assertRaises(driver.Error):
                    cursor.execute(text)
            connection.rollback()
            cursor.execute("UPDATE t SET v = v * 2")
            connection.commit()
            self.assertIn("> 1 UPDATE t SET v = 20 WHERE id = 1;", self.lines())
            self.assertEqual(recorder.verdict().answer, "yes")

    def test_two_increments_that_read_unsaid_are_no_plain_yes(self) -> None:
        for driver in self.each():
            for text, answer, unknown in (("UPDATE t SET v = v * 2 WHERE id = 1", "no", 2), ("UPDATE t SET v = v + 1 WHERE id = 1", "no", 0)):
                self.make("CREATE TABLE t (id bigint PRIMARY KEY, v bigint)", "INSERT INTO t VALUES (1, 10)")
                recorder = self.recorder()
                one, two = (recorder.wrap(self.raw(driver)) for _ in range(2))
                for connection in (one, two):  # each reads 10, and adds to what the other has left
                    connection.cursor().execute("SELECT v FROM t WHERE id = 1")
                for connection in (one, two):
                    connection.cursor().execute(text)
                    connection.commit()
                self.assertEqual(sum(recorder.left_out.values()), unknown)
                self.assertEqual(recorder.verdict().answer, answer, text)

    def test_several_statements_are_one_transaction_in_autocommit(self) -> None:
        psycopg2 = next((driver for driver in drivers() if driver.__name__ == "psycopg2"), None)
        if psycopg2 is None:
            self.skipTest("psycopg2 isn't there (Debian: python3-psycopg2)")
        self.make("CREATE TABLE t (id bigint PRIMARY KEY, v bigint)", "INSERT INTO t VALUES (1, 10), (2, 20)")
        recorder = self.recorder()
        connection = recorder.wrap(self.raw(psycopg2, True))
        cursor = connection.cursor()
        cursor.execute("UPDATE t SET v = %s WHERE id = 1; SELECT v FROM t WHERE id = %s", (5, 2))
        self.assertEqual((cursor.fetchall(), cursor.query), ([(20,)], b"UPDATE t SET v = 5 WHERE id = 1; SELECT v FROM t WHERE id = 2"))
        with self.assertRaises(psycopg2.IntegrityError):
            cursor.execute("UPDATE t SET v = 6 WHERE id = 1; INSERT INTO t VALUES (2, 0)")
        cursor.execute("SELECT * FROM t ORDER BY id")
        self.assertEqual(cursor.fetchall(), [(1, 5), (2, 20)])
        self.assertEqual([line for line in self.lines()[9:] if line[:1] == ">"][:4], ["> 1 BEGIN;", "> 1 UPDATE t SET v = 5 WHERE id = 1;", "> 1 SELECT v FROM t WHERE id = 2;", "> 1 COMMIT;"])
        self.assertEqual(recorder.verdict().answer, "yes")


@unittest.skipUnless(drivers(), "PostgreSQL or psycopg2 isn't there (Debian: postgresql, python3-psycopg2)")
class Snapshots(OnPostgres):
    def test_what_the_recorder_asks_comes_behind_the_begin(self) -> None:
        """A transaction's first query takes its snapshot, be it the recorder's own: who commits behind it doesn't come before."""
        for driver in self.each():
            for text in ("SELECT v FROM t ORDER BY v LIMIT 1", "UPDATE t SET v = v * 2 WHERE id = 2 OR v = 77"):
                with self.subTest(text):
                    recorder = self.recorder(["t"])
                    one, two = (recorder.wrap(self.snapshots(driver)) for _ in range(2))
                    own = one._session.driver
                    asked = own.facts

                    def facts(table: Any) -> Any:
                        found = asked(table)  # noqa: B023
                        two.cursor().execute("UPDATE t SET v = v + 1 WHERE id = 1")  # noqa: B023
                        two.commit()  # noqa: B023
                        return found

                    own.facts = facts
                    cursor = one.cursor()
                    cursor.execute(text)
                    cursor.execute("SELECT v FROM t WHERE id = 1")
                    before = cursor.fetchall()
                    one.commit()
                    cursor.execute("SELECT v FROM t WHERE id = 1")
                    self.assertEqual([before[0][0] + 1], [row[0] for row in cursor.fetchall()])
                    one.commit()
                    self.assertEqual(recorder.verdict().answer, "yes", recorder.verdict().text)
                    self.assertEqual(self.text().count("> 1 BEGIN;"), 3)

    def snapshots(self, driver: Any) -> Any:
        """A connection whose transactions see one moment."""
        connection = driver.connect(DSN, options="-c default_transaction_isolation=repeatable\\ read")
        self.opened.append(connection)
        self.addCleanup(connection.close)
        return connection

    def test_in_autocommit_it_begins_nothing(self) -> None:
        for driver in self.each():
            recorder = self.recorder(["t"])
            connection = recorder.wrap(self.raw(driver, True))
            connection.cursor().execute("UPDATE t SET v = v * 2 WHERE id = 2 OR v = 77")
            self.assertEqual(self.text().count("> 1 BEGIN;"), 2)
            self.assertEqual(recorder.verdict().answer, "yes")


if __name__ == "__main__":
    unittest.main()
