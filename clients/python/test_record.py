"""Tests of record.py: scripts whose sessions wait for one another, and scripts that it refuses.

    PGSERIAL=path/to/pgserial python3 clients/python/test_record.py

Without PostgreSQL, sqlite3 stands in its place: there too an update waits for the transaction that has written.
"""

import os
import subprocess
import sys
import tempfile
import unittest
from typing import List, Tuple

from pgserial.recording import Verdict, verdict
from test_recording import DSN, module

HERE = os.path.dirname(os.path.abspath(__file__))
EXAMPLES = os.path.join(HERE, "../../examples")
PAIRS = "CREATE TABLE t (id bigint PRIMARY KEY, v bigint);\n"
# A module of the name of psycopg2, whose connections are sqlite3's.
STANDS_IN = """
import sqlite3

Error = sqlite3.Error
SPELLED = {"SELECT pg_export_snapshot()": "SELECT 'exported'", "SET TRANSACTION SNAPSHOT 'exported'": "PRAGMA user_version"}


class Cursor(sqlite3.Cursor):
    def __enter__(self):
        return self

    def __exit__(self, *_):
        self.close()

    def execute(self, text, *words):
        if "fault of its own" in text:
            raise KeyError(text)
        for more in (" ISOLATION LEVEL SERIALIZABLE", " READ ONLY", " DEFERRABLE", " CASCADE"):
            text = text.replace(more, "")
        return super().execute(SPELLED.get(text, text), *words)


class Connection(sqlite3.Connection):
    __module__ = "stands_in"
    autocommit = True

    def cursor(self):
        return super().cursor(Cursor)


def connect(dsn):
    connection = sqlite3.connect(dsn, factory=Connection, isolation_level=None, check_same_thread=False, timeout=60)
    connection.execute("PRAGMA journal_mode = WAL")
    return connection
"""


class Case(unittest.TestCase):
    stands_in = False

    def setUp(self) -> None:
        folder = tempfile.TemporaryDirectory()
        self.addCleanup(folder.cleanup)
        self.folder = folder.name
        self.path = os.path.join(self.folder, "transcript")
        self.is_postgres = not self.stands_in and bool(DSN) and module("psycopg2") is not None
        if not self.is_postgres:
            with open(os.path.join(self.folder, "psycopg2.py"), "w", encoding="utf-8") as file:
                file.write(STANDS_IN)

    def record(self, script: str) -> "subprocess.CompletedProcess[bytes]":
        """Runs record.py on a script's file."""
        dsn = DSN if self.is_postgres else os.path.join(self.folder, "db")
        with open(self.path, "wb") as file:
            return subprocess.run(
                [sys.executable, "-B", os.path.join(HERE, "record.py"), script, "--dsn", dsn],
                env={**os.environ, "PYTHONPATH": os.pathsep.join([self.folder, HERE])},
                stdout=file, stderr=subprocess.PIPE, timeout=60,
            )  # fmt: skip

    def record_text(self, text: str) -> "subprocess.CompletedProcess[bytes]":
        script = os.path.join(self.folder, "script")
        with open(script, "w", encoding="utf-8", newline="") as file:
            file.write(text)
        return self.record(script)

    def lines(self) -> List[str]:
        """The lines of the transcript, without comments."""
        with open(self.path, encoding="utf-8", newline="") as file:
            return [line for line in file.read().split("\n") if line and not line.startswith("--")]

    def recorded(self, text: str) -> Verdict:
        """The verdict of a script that is run."""
        done = self.record_text(text)
        self.assertEqual(done.returncode, 0, done.stderr)
        return verdict(self.path)


class Waiting(Case):
    def test_a_session_that_waits_for_a_later_line_goes_on_behind_it(self) -> None:
        done = self.record(os.path.join(EXAMPLES, "first_updater.script"))
        self.assertEqual(done.returncode, 0, done.stderr)
        lines = self.lines()
        self.assertLess(lines.index("> 2 UPDATE t SET v = 2 WHERE id = 1;"), lines.index("  1 COMMIT", lines.index("> 2 BEGIN;")))
        self.assertLess(lines.index("> 1 COMMIT;", lines.index("> 2 BEGIN;")), lines.index("> 2 ROLLBACK;"))
        self.assertEqual(lines[-1], "  2 ROLLBACK")
        self.assertEqual(verdict(self.path).answer, "yes")

    def test_a_session_that_nothing_frees_ends_with_the_script(self) -> None:
        told = self.recorded(PAIRS + "1 BEGIN;\n1 INSERT INTO t VALUES (1, 0);\n2 BEGIN;\n2 INSERT INTO t VALUES (1, 1);\n2 COMMIT;\n")
        self.assertEqual((told.answer, told.committed), ("unknown", 0))
        self.assertEqual(self.lines()[-1], "> 2 INSERT INTO t VALUES (1, 1);")


class StandIn(Case):
    """By what stands in the place of psycopg2, PostgreSQL or not: it has a fault that psycopg2 hasn't."""

    stands_in = True

    def test_a_session_that_a_fault_ends_is_told(self) -> None:
        script = "1 BEGIN;\n1 SELECT 'a fault of its own';\n1 INSERT INTO t VALUES (1, 1);\n1 COMMIT;\n2 BEGIN;\n2 COMMIT;\n"
        done = self.record_text(PAIRS + script)
        self.assertEqual(done.returncode, 1)
        self.assertIn(b"session 1: KeyError", done.stderr)
        self.assertEqual([line for line in self.lines() if line[2:3] == "2"], ["> 2 BEGIN;", "  2 BEGIN", "> 2 COMMIT;", "  2 COMMIT"])


class Scripts(Case):
    def test_a_snapshot_without_a_number_is_none(self) -> None:
        for number, is_there in ((0, False), (1, True), (2, False)):
            with self.subTest(number):
                script = f"1 BEGIN;\n1 EXPORT;\n2 BEGIN READ ONLY;\n2 IMPORT {number};\n2 ROLLBACK;\n1 COMMIT;\n"
                self.recorded(PAIRS + script)
                self.assertEqual("  2 IMPORT" in self.lines(), is_there)

    def test_a_text_may_have_any_sign_but_a_newline(self) -> None:
        table = "CREATE TABLE t (id bigint PRIMARY KEY, v text);\n"
        for sign in ("\r", "\v", "\f", "\x1c", "\x85", "\u2028", "\u2029"):
            with self.subTest(repr(sign)):
                script = f"1 BEGIN;\n1 INSERT INTO t VALUES (1, 'a{sign}b');\n1 SELECT * FROM t;\n1 COMMIT;\n"
                self.assertEqual(self.recorded(table + script).answer, "yes")
                self.assertIn(f"> 1 INSERT INTO t VALUES (1, 'a{sign}b');", self.lines())
                self.assertEqual(self.lines()[-2:], ["> 1 COMMIT;", "  1 COMMIT"])

    def test_a_script_that_cannot_be_run_is_refused_before_anything_is_done(self) -> None:
        faulty: List[Tuple[int, str]] = [
            (2, "0 BEGIN;\n"), (2, "65 BEGIN;\n"), (2, "01 BEGIN;\n"), (2, "\u0663 BEGIN;\n"), (3, "1 BEGIN;\n1 SELECT * FROM t\n"),
            (2, "1 begin;\n"), (2, "1 IMPORT -1;\n"), (2, "1 COMMIT ;\n"), (2, "OPEN dump;\n"), (2, "SELECT 1;\n"), (3, "1 BEGIN;\n" + PAIRS),
            (2, "1 BEGIN;"), (2, "1 BEGIN;\r\n"),
        ]  # fmt: skip
        for line, script in faulty:
            with self.subTest(script):
                done = self.record_text(PAIRS + script)
                self.assertEqual((done.returncode, self.lines()), (1, []))
                self.assertRegex(done.stderr.decode(), f"^script line {line}: [^\n]+\n$")

    def test_a_script_that_cannot_be_read_is_told(self) -> None:
        done = self.record(os.path.join(self.folder, "nothing"))
        self.assertEqual((done.returncode, self.lines()), (1, []))
        self.assertIn(b"No such file", done.stderr)


if __name__ == "__main__":
    unittest.main()
