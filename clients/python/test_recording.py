"""Tests of pgserial.recording: what a recorder writes, what it leaves to the application, and what `check` says.

    PGSERIAL=path/to/pgserial python3 clients/python/test_recording.py

sqlite3 is always there. PostgreSQL is tried where $PGSERIAL_DSN names a database of it, in which tables are made anew, and
by psycopg2 and psycopg where these are installed.
"""

import contextlib
import importlib
import io
import os
import re
import signal
import sqlite3
import subprocess
import sys
import tempfile
import time
import types
import unittest
import warnings
from typing import Any, Dict, Iterator, List

from pgserial.keys import Refused
from pgserial.output import write_all_kept
from pgserial.recording import Recorder, RecordingWarning, verdict

HERE = os.path.dirname(os.path.abspath(__file__))
DSN = os.environ.get("PGSERIAL_DSN", "")


def module(name: str) -> Any:
    """A module, where it is installed."""
    try:
        return importlib.import_module(name)
    except ImportError:
        return None


def drivers() -> List[Any]:
    """The drivers of PostgreSQL, where there is one."""
    return [found for found in (module("psycopg2"), module("psycopg")) if found is not None] if DSN else []


class Room(unittest.TestCase):
    """A folder for transcripts, and what they say."""

    def setUp(self) -> None:
        folder = tempfile.TemporaryDirectory()
        self.addCleanup(folder.cleanup)
        self.folder = folder.name
        self.path = os.path.join(self.folder, "transcript")
        self.told = io.StringIO()
        self.recorders: List[Recorder] = []
        self.enterContext(contextlib.redirect_stderr(self.told))

    def enterContext(self, context: Any) -> Any:  # of Python 3.11
        self.addCleanup(context.__exit__, None, None, None)
        return context.__enter__()

    def recorder(self, tables: Any = ("t",), **named: Any) -> Recorder:
        """A recorder that is closed at the end, or when the next is made."""
        for made in self.recorders:
            made.close()
        recorder = Recorder(self.path, tables, **named)
        self.recorders.append(recorder)
        self.addCleanup(recorder.close)
        return recorder

    def text(self) -> str:
        """The transcript."""
        write_all_kept()
        with open(self.path, encoding="utf-8") as file:
            return file.read()

    def lines(self) -> List[str]:
        """The lines of the transcript, without comments."""
        text = self.text()
        self.assertTrue(text.endswith("\n"))
        return [line for line in text.split("\n")[:-1] if not line.startswith("--")]

    def comments(self) -> str:
        return "\n".join(line for line in self.text().split("\n") if line.startswith("--"))


# ---- sqlite3


class OnSqlite(Room):
    """A database of two rows, and what is recorded of it."""

    def setUp(self) -> None:
        super().setUp()
        self.file = os.path.join(self.folder, "db")
        setup = sqlite3.connect(self.file)
        setup.executescript("CREATE TABLE t (id INTEGER PRIMARY KEY, v BIGINT); INSERT INTO t VALUES (1, 10), (2, 20)")
        setup.close()
        self.opening = [
            "> CREATE TABLE t (id bigint PRIMARY KEY, v bigint);", "> 1 BEGIN;", "  1 BEGIN", "> 1 INSERT INTO t VALUES (1, 10);", "  1 INSERT 0 1",
            "> 1 INSERT INTO t VALUES (2, 20);", "  1 INSERT 0 1", "> 1 COMMIT;", "  1 COMMIT",
        ]  # fmt: skip

    def raw(self, **named: Any) -> sqlite3.Connection:
        words: Dict[str, Any] = {"isolation_level": None, "timeout": 30, "check_same_thread": False, **named}
        connection = sqlite3.connect(self.file, **words)
        self.addCleanup(connection.close)
        return connection

    def body(self) -> List[str]:
        """The lines behind the opening."""
        lines = self.lines()
        self.assertEqual(lines[: len(self.opening)], self.opening)
        return lines[len(self.opening) :]


class Sqlite(OnSqlite):
    def test_a_transaction_is_written_as_it_goes(self) -> None:
        connection = self.recorder().wrap(self.raw())
        self.assertEqual(self.body(), [])
        connection.execute("BEGIN")
        self.assertEqual(self.body(), ["> 1 BEGIN;", "  1 BEGIN"])
        self.assertEqual(connection.execute("SELECT v FROM t WHERE id = ?", (1,)).fetchall(), [(10,)])
        connection.execute("UPDATE t SET v = v + ? WHERE id = ?", (5, 2))
        connection.execute("COMMIT")
        self.assertEqual(
            self.body()[2:],
            ["> 1 SELECT v FROM t WHERE id = 1;", "  1 SELECT 1", "  1 | 10", "> 1 UPDATE t SET v = v + 5 WHERE id = 2;", "  1 UPDATE 1", "> 1 COMMIT;", "  1 COMMIT"],
        )
        self.assertEqual(verdict(self.path).answer, "yes")

    def test_isolation_level_begins_with_the_first_write(self) -> None:
        connection = self.recorder().wrap(self.raw(isolation_level="IMMEDIATE"))
        connection.execute("SELECT * FROM t WHERE id = 7")
        connection.execute("UPDATE t SET v = 1 WHERE id = 1")
        connection.execute("SELECT v FROM t WHERE id = 1")
        connection.rollback()
        self.assertEqual(
            self.body(),
            ["> 1 BEGIN;", "  1 BEGIN", "> 1 SELECT * FROM t WHERE id = 7;", "  1 SELECT 0", "> 1 COMMIT;", "  1 COMMIT"]
            + ["> 1 BEGIN;", "  1 BEGIN", "> 1 UPDATE t SET v = 1 WHERE id = 1;", "  1 UPDATE 1", "> 1 SELECT v FROM t WHERE id = 1;", "  1 SELECT 1", "  1 | 1"]
            + ["> 1 ROLLBACK;", "  1 ROLLBACK"],
        )

    def test_autocommit_is_a_transaction_for_each_statement(self) -> None:
        connection = self.recorder().wrap(self.raw())
        connection.execute("INSERT INTO t (v) VALUES (30)")
        connection.execute("UPDATE t SET v = 0 WHERE v > 10")
        connection.execute("UPDATE t SET v = 0 WHERE id = 9")
        self.assertEqual(
            self.body(),
            ["> 1 BEGIN;", "  1 BEGIN", "> 1 INSERT INTO t VALUES (3, 30);", "  1 INSERT 0 1", "> 1 COMMIT;", "  1 COMMIT"]
            + ["> 1 BEGIN;", "  1 BEGIN", "> 1 UPDATE t SET v = 0 WHERE v > 10;", "  1 UPDATE 2", "> 1 COMMIT;", "  1 COMMIT"]
            + ["> 1 BEGIN;", "  1 BEGIN", "> 1 UPDATE t SET v = 0 WHERE id = 9;", "  1 UPDATE 1", "> 1 COMMIT;", "  1 ROLLBACK"],
        )
        self.assertEqual(verdict(self.path).answer, "yes")

    def test_errors_pass_through_and_stand_there(self) -> None:
        connection = self.recorder().wrap(self.raw())
        connection.execute("BEGIN")
        with self.assertRaisesRegex(sqlite3.IntegrityError, "UNIQUE constraint failed"):
            connection.execute("INSERT INTO t VALUES (1, 1)")
        with self.assertRaisesRegex(sqlite3.OperationalError, "no such table"):
            connection.execute("UPDATE missing SET v = v * 2")
        with self.assertRaises(sqlite3.ProgrammingError):
            connection.execute("SELECT v FROM t WHERE id = ?", ())
        connection.commit()
        self.assertEqual(
            self.body(), ["> 1 BEGIN;", "  1 BEGIN", "> 1 INSERT INTO t VALUES (1, 1);", "  1 ERROR 23000", "> 1 COMMIT;", "  1 COMMIT"]
        )

    def test_a_commit_that_finds_the_database_locked_may_be_tried_again(self) -> None:
        connection, other = self.recorder().wrap(self.raw(timeout=0)), self.raw()
        connection.execute("BEGIN")
        connection.execute("UPDATE t SET v = 1 WHERE id = 1")
        reader = other.execute("SELECT * FROM t")
        reader.fetchone()
        self.assertRaisesRegex(sqlite3.OperationalError, "locked", connection.commit)
        self.assertEqual(self.body()[-1], "> 1 COMMIT;")
        reader.close()
        connection.commit()
        self.assertEqual(self.body()[-2:], ["> 1 COMMIT;", "  1 COMMIT"])
        self.assertEqual(verdict(self.path).answer, "yes")

    def test_rows_are_the_drivers_own(self) -> None:
        raw = self.raw()
        raw.row_factory = sqlite3.Row
        connection = self.recorder().wrap(raw)
        cursor = connection.cursor()
        self.assertIs(cursor.execute("SELECT * FROM t ORDER BY id"), cursor)
        self.assertEqual([row["v"] for row in cursor], [10, 20])
        self.assertEqual((cursor.fetchone(), cursor.fetchall()), (None, []))
        cursor.execute("SELECT * FROM t ORDER BY id")
        self.assertEqual(cursor.fetchmany()[0].keys(), ["id", "v"])
        self.assertEqual(tuple(cursor.fetchone()), (2, 20))
        connection.row_factory = lambda cursor, row: {"only": row[1]}
        self.assertEqual(connection.execute("SELECT * FROM t WHERE id = 1").fetchall(), [{"only": 10}])
        self.assertEqual([line for line in self.body() if "|" in line][-1], "  1 | 1\t10")
        self.assertIsInstance(connection, sqlite3.Connection)
        self.assertIs(cursor.connection, connection)
        self.assertEqual(connection.total_changes, raw.total_changes)

    def test_executemany_and_lastrowid(self) -> None:
        connection = self.recorder().wrap(self.raw(isolation_level="DEFERRED"))
        with connection:
            cursor = connection.executemany("INSERT INTO t (v) VALUES (?)", ((value,) for value in (7, 8)))
        self.assertEqual((cursor.rowcount, cursor.lastrowid), (2, 4))
        with contextlib.suppress(KeyError), connection:
            connection.execute("DELETE FROM t")
            raise KeyError
        self.assertEqual(self.body()[-4:], ["> 1 DELETE FROM t;", "  1 DELETE 4", "> 1 ROLLBACK;", "  1 ROLLBACK"])
        self.assertEqual(self.body()[2:7], ["> 1 INSERT INTO t VALUES (3, 7);", "  1 INSERT 0 1", "> 1 INSERT INTO t VALUES (4, 8);", "  1 INSERT 0 1", "> 1 COMMIT;"])

    def test_returning(self) -> None:
        connection = self.recorder().wrap(self.raw())
        self.assertEqual(connection.execute("UPDATE t SET v = v + 1 WHERE id = 1 RETURNING v").fetchone(), (11,))
        self.assertEqual(self.body()[2:7], ["> 1 UPDATE t SET v = v + 1 WHERE id = 1;", "  1 UPDATE 1", "> 1 SELECT v FROM t WHERE id = 1;", "  1 SELECT 1", "  1 | 11"])

    @unittest.skipIf(sqlite3.sqlite_version_info < (3, 35), "SQLite is older than RETURNING")
    def test_returning_counts_the_rows_that_were_changed(self) -> None:
        raw = self.raw()
        raw.executescript("CREATE TABLE jobs (id INTEGER PRIMARY KEY, state TEXT); INSERT INTO jobs VALUES (1, 'new'), (2, 'new'), (3, 'new')")
        for isolation in (None, "IMMEDIATE"):
            raw.execute("UPDATE jobs SET state = 'new'")
            recorder = self.recorder(["jobs"])
            connection = recorder.wrap(self.raw(isolation_level=isolation))
            taken = connection.execute("UPDATE jobs SET state = 'taken' WHERE state = 'new' RETURNING id")
            self.assertEqual((taken.fetchone(), sorted(taken.fetchall()), taken.fetchone()), ((1,), [(2,), (3,)], None))
            self.assertEqual(connection.execute("UPDATE jobs SET state = 'new' WHERE id = 2 AND state = 'taken' RETURNING id").fetchall(), [(2,)])
            self.assertEqual(connection.execute("UPDATE jobs SET state = 'old' WHERE id = 2 AND state = 'taken' RETURNING id").fetchall(), [])
            self.assertEqual(connection.execute("DELETE FROM jobs WHERE id IN (?, ?) RETURNING id", (1, 3)).fetchall(), [(1,), (3,)])
            connection.commit()
            self.assertEqual(connection.execute("SELECT * FROM jobs").fetchall(), [(2, "new")])
            said = self.lines()
            at = said.index("> 1 SELECT count(*) FROM jobs WHERE state = 'new';")
            self.assertEqual(said[at + 1 : at + 4], ["  1 SELECT 1", "  1 | 3", "> 1 UPDATE jobs SET state = 'taken' WHERE id = 1 AND state = 'new';"])
            self.assertEqual(recorder.verdict().answer, "yes")
            raw.execute("INSERT INTO jobs VALUES (1, 'new'), (3, 'new')")

    def test_savepoints_undo_what_isnt_written_yet(self) -> None:
        connection = self.recorder().wrap(self.raw())
        for text in (
            "BEGIN", "UPDATE t SET v = 1 WHERE id = 1", "SAVEPOINT a", "UPDATE t SET v = 2 WHERE id = 1", "SAVEPOINT b", "UPDATE t SET v = 3 WHERE id = 1", "ROLLBACK TO b",
            "UPDATE t SET v = 4 WHERE id = 2", "RELEASE a", "COMMIT",
        ):  # fmt: skip
            connection.execute(text)
        said = [line for line in self.body() if "UPDATE t" in line]
        self.assertEqual(said, [f"> 1 UPDATE t SET v = {value} WHERE id = {key};" for value, key in ((1, 1), (2, 1), (4, 2))])
        self.assertEqual(connection.execute("SELECT * FROM t").fetchall(), [(1, 2), (2, 4)])
        self.assertEqual(verdict(self.path).answer, "yes")

    def test_what_only_reads_is_left_out_and_counted(self) -> None:
        recorder = self.recorder()
        connection = recorder.wrap(self.raw())
        for _ in range(3):
            self.assertEqual(connection.execute("SELECT sum(v) FROM t").fetchall(), [(30,)])
        connection.execute("SELECT v FROM t WHERE v = 1 OR v = 2")
        self.assertEqual([line for line in self.body() if "SELECT" in line], [])
        connection.execute("SELECT v FROM t WHERE v = 1")
        told = recorder.verdict()
        self.assertEqual(told.answer, "yes")
        self.assertRegex(told.words, r"4 of 5 reads aren't known \(test_what_only_reads_is_left_out_and_counted \(test_recording.py:\d+\): the grammar has no function sum, of t, which nothing recorded has written; ")
        self.assertRegex(self.comments(), r"not said, the grammar has no function sum: SELECT sum\(v\) FROM t \(.*test_recording.py:\d+\)")
        self.assertIn("left out: 4 reads", self.told.getvalue())

    def test_what_may_write_ends_what_is_judged(self) -> None:
        recorder = self.recorder()
        connection = recorder.wrap(self.raw())
        connection.execute("SELECT * FROM t WHERE id = 1")
        connection.execute("BEGIN")
        connection.execute("CREATE TABLE u AS SELECT v FROM t")
        connection.execute("UPDATE t SET v = 1 WHERE id = 1")
        with self.assertWarnsRegex(RecordingWarning, r"no verdict will speak of .*CREATE TABLE u AS SELECT v FROM t .*test_recording.py"):
            connection.commit()
        self.assertEqual(connection.execute("SELECT * FROM t").fetchall(), [(1, 1), (2, 20)])
        told = recorder.verdict()
        self.assertEqual((told.answer, told.committed), ("unknown", 1))
        self.assertRegex(told.words, r"unknown: from statement 3 on: .*CREATE TABLE u AS SELECT v FROM t \(.*test_recording.py:\d+\)")
        done = subprocess.run([os.environ["PGSERIAL"], "check", self.path], capture_output=True, text=True)
        self.assertEqual((done.returncode, done.stdout), (1, ""))
        said = re.fullmatch("transcript line ([0-9]+)\nnot a statement on these tables: only an ERROR can answer it\n", done.stderr)
        with open(self.path, encoding="utf-8") as file:
            self.assertIn("CREATE TABLE u AS SELECT v FROM t", file.read().split("\n")[int(said[1]) - 2 if said else 0])

    def test_what_may_write_and_fails_does_no_harm(self) -> None:
        connection = self.recorder().wrap(self.raw())
        with self.assertRaises(sqlite3.OperationalError):
            connection.execute("UPDATE t SET w = v * 2")
        connection.execute("SELECT * FROM t WHERE id = 1")
        self.assertEqual(verdict(self.path).answer, "yes")

    def test_scripts_and_blobs(self) -> None:
        recorder = self.recorder()
        connection = recorder.wrap(self.raw(isolation_level="DEFERRED"))
        connection.execute("UPDATE t SET v = 1 WHERE id = 1")
        connection.executescript("PRAGMA foreign_keys = ON; SELECT count(*) FROM t;")
        self.assertEqual(self.body()[-2:], ["> 1 COMMIT;", "  1 COMMIT"])
        with self.assertWarns(RecordingWarning):
            connection.executescript("DELETE FROM t;")
        self.assertEqual(recorder.verdict().answer, "unknown")

    def test_tables_that_cant_be_said_are_refused(self) -> None:
        raw = self.raw()
        raw.executescript(
            "CREATE TABLE a (id INTEGER PRIMARY KEY, at TIMESTAMP, v INT); CREATE VIEW b AS SELECT 1 AS id; CREATE VIRTUAL TABLE c USING fts5(v);"
        )
        for name, told in (("b", "no table b yet"), ("c", "no plain table"), ("nothing", "no table nothing yet")):
            with self.subTest(name), self.assertRaisesRegex(Refused, told):
                self.recorder([name]).wrap(raw)
        connection = self.recorder({"a": ["id", "v"], "t": None}).wrap(raw)
        connection.execute("INSERT INTO a VALUES (1, 'today', 3)")
        self.assertEqual(connection.execute("SELECT * FROM a").fetchall(), [(1, "today", 3)])  # of a column that isn't named
        self.assertIn("> 1 SELECT * FROM a;", self.lines())  # of the transcript's columns
        self.assertIn("  1 | 1\t3", self.lines())

    def test_names_that_a_transcript_lacks_stand_otherwise(self) -> None:
        raw = self.raw()
        raw.execute('CREATE TABLE "My Table" ("key" INTEGER PRIMARY KEY, "Count" TEXT, "naïve" BLOB)')
        connection = self.recorder(["My Table"]).wrap(raw)
        connection.execute('INSERT INTO "my table" VALUES (1, ?, ?)', ("x", b"\x01"))
        self.assertIn("> CREATE TABLE my_table (key_ bigint PRIMARY KEY, count_ text, na_ve bytea);", self.lines())
        self.assertIn("> 1 INSERT INTO my_table VALUES (1, 'x', '\\x01');", self.lines())
        self.assertIn("Column Count of table My Table stands as count_.", self.comments())
        self.assertEqual(verdict(self.path).answer, "yes")

    def test_numbers_of_sessions_are_given_back_and_go_past_a_servers(self) -> None:
        recorder = self.recorder()
        for _ in range(3):
            some = [recorder.wrap(self.raw()) for _ in range(64)]
            some[63].execute("BEGIN")
            some[63].execute("SELECT * FROM t WHERE id = 1")
            for connection in some:
                connection.close()
        self.assertEqual(self.body()[-2:], ["> 64 ROLLBACK;", "  64 ROLLBACK"])
        some = [recorder.wrap(self.raw()) for _ in range(64)]
        del some[5]  # without being closed
        some.append(recorder.wrap(self.raw()))
        some[-1].execute("SELECT * FROM t WHERE id = 1")
        self.assertIn("> 6 SELECT * FROM t WHERE id = 1;", self.body())
        last = recorder.wrap(self.raw())
        self.assertEqual(last.execute("SELECT count(*) FROM t").fetchall(), [(2,)])
        self.assertIn("> 65 SELECT count(*) FROM t;", self.body())
        self.assertEqual(recorder.verdict().answer, "yes")

    def test_a_full_disk_ends_the_recording_with_one_warning(self) -> None:
        for limit in (20000, 20007):  # one of these is amid a line
            with self.subTest(limit):
                self.filled(limit)

    def filled(self, limit: int) -> None:
        """Records until a file may grow no more."""
        raw = self.raw()
        raw.execute("UPDATE t SET v = 10 * id")
        raw.close()
        text = f"""
import resource, sqlite3, sys, warnings
from pgserial.recording import Recorder
raw = sqlite3.connect({self.file!r}, isolation_level=None)
raw.execute("PRAGMA journal_mode = MEMORY")
recorder = Recorder({self.path!r}, ["t"])
connection = recorder.wrap(raw)
resource.setrlimit(resource.RLIMIT_FSIZE, ({limit}, {limit}))
with warnings.catch_warnings(record=True) as told:
    warnings.simplefilter("always")
    for _ in range(300):
        connection.execute("BEGIN")
        connection.execute("UPDATE t SET v = v + 1 WHERE id = 1")
        connection.commit()
    connection.execute("UPDATE t SET v = v * 2 WHERE id = 2")
    recorder.flush()  # what is written a moment late otherwise
print(len(told), connection.execute("SELECT * FROM t").fetchall())
recorder.close()
"""
        done = self.python(text, preexec_fn=lambda: signal.signal(signal.SIGXFSZ, signal.SIG_IGN))
        self.assertEqual(done.stdout, "1 [(1, 310), (2, 40)]\n", done.stderr)
        self.assertIn("no verdict speaks of what came behind this: it can't be written, File too large", done.stderr)
        self.assertLess(len(self.lines()), 1500)
        told = verdict(self.path)
        self.assertEqual(told.answer, "unknown")
        self.assertGreater(told.committed, 100)
        self.assertIn("it can't be written, File too large", told.words)

    def python(self, text: str, **named: Any) -> "subprocess.CompletedProcess[str]":
        """Runs a program of Python."""
        return subprocess.run([sys.executable, "-B", "-c", text], cwd=HERE, capture_output=True, text=True, timeout=120, **named)

    def test_warnings_that_are_errors_and_faults_dont_reach_the_application(self) -> None:
        connection = self.recorder().wrap(self.raw())
        with warnings.catch_warnings():
            warnings.simplefilter("error")
            connection.execute("CREATE TABLE u AS SELECT v FROM t")
        self.assertIn("RecordingWarning", self.told.getvalue())
        recorder = self.recorder()
        connection = recorder.wrap(self.raw())
        recorder.translator = None  # type: ignore
        with self.assertWarnsRegex(RecordingWarning, "a fault of the recorder"):
            self.assertEqual(connection.execute("SELECT count(*) FROM t").fetchall(), [(2,)])

    def test_another_process_on_a_recorded_connection(self) -> None:
        recorder = self.recorder()
        connection = recorder.wrap(self.raw())
        child = os.fork()
        if child == 0:
            with contextlib.suppress(BaseException):
                connection.execute("SELECT * FROM t WHERE id = 1")
            os._exit(0)
        os.waitpid(child, 0)
        self.assertRegex(verdict(self.path).words, "unknown: from statement 1 on: another process uses a connection")

    def test_a_closed_connection_says_nothing_more(self) -> None:
        recorder = self.recorder()
        connection = recorder.wrap(self.raw())
        cursor = connection.cursor()
        connection.close()
        other = recorder.wrap(self.raw())
        other.execute("BEGIN")
        for call in (lambda: cursor.execute("SELECT * FROM t WHERE id = 1"), connection.commit, connection.close):
            with contextlib.suppress(sqlite3.ProgrammingError):
                call()
        other.execute("COMMIT")
        self.assertEqual(self.body(), ["> 1 BEGIN;", "  1 BEGIN", "> 1 COMMIT;", "  1 COMMIT"])

    def test_a_connection_is_wrapped_once(self) -> None:
        recorder, raw = self.recorder(), self.raw()
        connection = recorder.wrap(raw)
        for again in (raw, connection):
            with self.assertRaisesRegex(Refused, "wrapped already"):
                recorder.wrap(again)

    def test_rows_that_cant_be_read_are_met_where_they_come(self) -> None:
        raw = self.raw()
        raw.execute("CREATE TABLE w (id INTEGER PRIMARY KEY, n TEXT)")
        connection = self.recorder(["w"]).wrap(raw)
        connection.execute("INSERT INTO w VALUES (1, 'x')")
        self.raw().execute("INSERT INTO w VALUES (2, CAST(x'ff' AS TEXT))")
        cursor = connection.execute("SELECT n FROM w ORDER BY id")
        self.assertEqual(cursor.fetchone(), ("x",))
        self.assertRaisesRegex(sqlite3.OperationalError, "Could not decode", cursor.fetchone)
        self.assertEqual(self.lines()[-4:], ["> 1 SELECT n FROM w;", "  1 ERROR 0A000", "> 1 COMMIT;", "  1 COMMIT"])

    def test_a_row_number_is_the_key(self) -> None:
        connection = self.recorder().wrap(self.raw())
        self.assertEqual(connection.execute("SELECT v FROM t WHERE rowid = 2").fetchall(), [(20,)])
        self.assertIn("> 1 SELECT v FROM t WHERE id = 2;", self.body())

    def test_a_wrapped_connection_is_idle(self) -> None:
        raw = self.raw()
        raw.execute("BEGIN")
        with self.assertRaisesRegex(Refused, "in a transaction"):
            self.recorder().wrap(raw)


class OtherDrivers(Room):
    """Any driver of PEP 249: sqlite3 behind modules that have other styles of parameters."""

    def connection(self, style: str) -> Any:
        """A connection of a module of this style."""
        name = f"driver_{style}"
        made = types.ModuleType(name)
        made.paramstyle = style  # type: ignore
        for error in ("Error", "IntegrityError", "ProgrammingError", "DataError", "NotSupportedError", "InterfaceError"):
            setattr(made, error, getattr(sqlite3, error))
        sys.modules[name] = made
        self.addCleanup(lambda: sys.modules.pop(name, None))

        class Cursor:
            def __init__(self, raw: sqlite3.Cursor) -> None:
                self._raw = raw

            def execute(self, text: str, parameters: Any = ()) -> None:
                for slot, there in (("%s", "?"), ("%(k)s", ":k"), (":1", "?1")):
                    text = text.replace(slot, there)
                self._raw.execute(text, parameters)

            def __getattr__(self, name: str) -> Any:
                return getattr(self._raw, name)

        class Connection:
            def __init__(self, raw: sqlite3.Connection) -> None:
                self._raw = raw

            def cursor(self) -> Cursor:
                if not self._raw.in_transaction:
                    self._raw.execute("BEGIN")
                return Cursor(self._raw.cursor())

            def __getattr__(self, name: str) -> Any:
                if name in ("commit", "rollback", "close"):
                    return getattr(self._raw, name)
                raise AttributeError(name)

        Connection.__module__ = name
        raw = sqlite3.connect(":memory:", isolation_level=None)
        raw.executescript("CREATE TABLE t (id INTEGER PRIMARY KEY, v BIGINT); INSERT INTO t VALUES (1, 10)")
        self.addCleanup(raw.close)
        return Connection(raw)

    def test_each_style(self) -> None:
        for style, slot, parameters in (("qmark", "?", [1]), ("format", "%s", [1]), ("pyformat", "%(k)s", {"k": 1}), ("named", ":k", {"k": 1}), ("numeric", ":1", [1])):
            with self.subTest(style):
                recorder = self.recorder({"t": {"id": "bigint", "v": "bigint"}})
                connection = recorder.wrap(self.connection(style))
                cursor = connection.cursor()
                cursor.execute(f"UPDATE t SET v = v + 1 WHERE id = {slot}", parameters)
                with self.assertRaises(sqlite3.IntegrityError):
                    cursor.execute("INSERT INTO t VALUES (1, 1)")
                connection.commit()
                cursor = connection.cursor()
                cursor.execute(f"SELECT v FROM t WHERE id = {slot}", parameters)
                self.assertEqual((cursor.fetchone(), cursor.fetchone(), cursor.description[0][0]), ((11,), None, "v"))
                connection.rollback()
                self.assertEqual(
                    self.lines()[7:],
                    ["> 1 BEGIN;", "  1 BEGIN", "> 1 UPDATE t SET v = v + 1 WHERE id = 1;", "  1 UPDATE 1", "> 1 INSERT INTO t VALUES (1, 1);", "  1 ERROR XX000"]
                    # What a COMMIT of a failed transaction does isn't known here.
                    + ["> 1 COMMIT;", "> 2 BEGIN;", "  2 BEGIN", "> 2 SELECT v FROM t WHERE id = 1;", "  2 SELECT 1", "  2 | 11", "> 2 ROLLBACK;", "  2 ROLLBACK"],
                )
                self.assertEqual(verdict(self.path).answer, "unknown")  # no transaction is known to have committed
                self.assertFalse(hasattr(connection, "execute"))

    def test_a_commit_whose_error_tells_nothing_may_have_been_done(self) -> None:
        recorder = self.recorder({"t": {"id": "bigint", "v": "bigint"}})
        connection = recorder.wrap(self.connection("qmark"))
        cursor = connection.cursor()
        cursor.execute("UPDATE t SET v = 5 WHERE id = 1")
        connection.wrapped.commit = lambda: (_ for _ in ()).throw(sqlite3.OperationalError("gone"))
        self.assertRaises(sqlite3.OperationalError, connection.commit)
        cursor.execute("SELECT v FROM t WHERE id = 1")
        self.assertIn("> 2 SELECT v FROM t WHERE id = 1;", self.lines())
        self.assertEqual(sum("1 COMMIT" in line for line in self.lines()), 3)

    def test_tables_are_declared_where_the_catalog_isnt_known(self) -> None:
        with self.assertRaisesRegex(Refused, "the catalog of this database isn't known"):
            self.recorder().wrap(self.connection("qmark"))
        with self.assertRaisesRegex(Refused, "paramstyle is one of"):
            self.recorder().wrap(self.connection("qmark"), "perhaps")


# ---- PostgreSQL


T = ("CREATE TABLE t (id int PRIMARY KEY, v bigint)", "INSERT INTO t VALUES (1, 10), (2, 20)")


@unittest.skipUnless(drivers(), "PostgreSQL or psycopg2 isn't there (Debian: postgresql, python3-psycopg2)")
class OnPostgres(Room):
    """A database of PostgreSQL, whose tables are made anew."""

    def setUp(self) -> None:
        super().setUp()
        self.opened: List[Any] = []
        self.make(*T)

    def make(self, *texts: str) -> None:
        """Makes tables anew; what is connected is closed."""
        for connection in self.opened:
            connection.close()
        connection = drivers()[0].connect(DSN)
        connection.autocommit = True
        cursor = connection.cursor()
        cursor.execute("SET lock_timeout = 9000")
        for text in ("DROP SCHEMA public CASCADE", "CREATE SCHEMA public", *texts):
            cursor.execute(text)
        connection.close()

    def raw(self, driver: Any, autocommit: bool = False) -> Any:
        connection = driver.connect(DSN)
        connection.autocommit = autocommit
        self.opened.append(connection)
        self.addCleanup(connection.close)
        return connection

    def each(self) -> Iterator[Any]:
        """Each driver, on tables that are made anew."""
        for driver in drivers():
            with self.subTest(driver.__name__):
                self.make(*T)
                yield driver


class Postgres(OnPostgres):
    def body(self) -> List[str]:
        return self.lines()[9:]

    def test_a_transaction_begins_with_its_first_statement(self) -> None:
        for driver in self.each():
            connection = self.recorder().wrap(self.raw(driver))
            cursor = connection.cursor()
            cursor.execute("SELECT id, v FROM public.t WHERE id = %s FOR UPDATE", (1,))
            self.assertEqual((cursor.fetchone(), cursor.fetchone(), cursor.rowcount), ((1, 10), None, 1))
            cursor.execute("UPDATE t SET v = v + %(n)s WHERE id = %(k)s", {"n": -1, "k": 1})
            self.assertEqual(cursor.rowcount, 1)
            connection.commit()
            connection.commit()
            connection.rollback()
            self.assertEqual(
                self.body(),
                ["> 1 BEGIN;", "  1 BEGIN", "> 1 SELECT * FROM t WHERE id = 1;", "  1 SELECT 1", "  1 | 1\t10", "> 1 UPDATE t SET v = v - 1 WHERE id = 1;", "  1 UPDATE 1"]
                + ["> 1 COMMIT;", "  1 COMMIT"],
            )

    def test_a_commit_of_a_failed_transaction_is_a_rollback(self) -> None:
        for driver in self.each():
            connection = self.recorder().wrap(self.raw(driver))
            cursor = connection.cursor()
            cursor.execute("UPDATE t SET v = 0 WHERE id = 1")
            with self.assertRaises(driver.errors.UniqueViolation):
                cursor.execute("INSERT INTO t VALUES (1, 1)")
            with self.assertRaises(driver.errors.InFailedSqlTransaction):
                cursor.execute("SELECT * FROM t")
            connection.commit()
            self.assertEqual(self.body()[4:], ["> 1 INSERT INTO t VALUES (1, 1);", "  1 ERROR 23505", "> 1 SELECT * FROM t;", "  1 ERROR 25P02", "> 1 COMMIT;", "  1 ROLLBACK"])

    def test_a_commit_that_is_refused(self) -> None:
        for driver in self.each():
            recorder = self.recorder()
            one, two = (recorder.wrap(self.raw(driver)) for _ in range(2))
            for connection, key in ((one, 1), (two, 2)):
                cursor = connection.cursor()
                cursor.execute("SET TRANSACTION ISOLATION LEVEL SERIALIZABLE")
                cursor.execute("SELECT * FROM t")
                cursor.execute("UPDATE t SET v = 0 WHERE id = %s", (key,))
            one.commit()
            with self.assertRaises(driver.errors.SerializationFailure):
                two.commit()
            self.assertEqual(self.body()[-2:], ["> 2 COMMIT;", "  2 ERROR 40001"])
            self.assertEqual(recorder.verdict().answer, "yes")

    def test_a_planted_write_skew_is_named(self) -> None:
        for driver in self.each():
            recorder = self.recorder()
            one, two = (recorder.wrap(self.raw(driver)) for _ in range(2))
            for connection in (one, two):
                cursor = connection.cursor()
                cursor.execute("SET TRANSACTION ISOLATION LEVEL REPEATABLE READ")
                cursor.execute("SELECT * FROM t")
            one.cursor().execute("UPDATE t SET v = 0 WHERE id = 1")
            two.cursor().execute("UPDATE t SET v = 0 WHERE id = 2")
            one.commit()
            two.commit()
            told = recorder.verdict()
            self.assertEqual(told.answer, "no")
            self.assertRegex("\n".join(told.lines), r"(?s)\b[23] \(.*test_recording\.py:\d+\) read t id = .*write skew.*check no")

    def test_autocommit(self) -> None:
        for driver in self.each():
            connection = self.recorder().wrap(self.raw(driver, True))
            cursor = connection.cursor()
            cursor.execute("UPDATE t SET v = 1 WHERE id = 1")
            cursor.execute("BEGIN")
            cursor.execute("UPDATE t SET v = 2 WHERE id = 1")
            cursor.execute("COMMIT")
            cursor.execute("DELETE FROM t WHERE v = 2")
            self.assertEqual(
                self.body(),
                ["> 1 BEGIN;", "  1 BEGIN", "> 1 UPDATE t SET v = 1 WHERE id = 1;", "  1 UPDATE 1", "> 1 COMMIT;", "  1 COMMIT"]
                + ["> 1 BEGIN;", "  1 BEGIN", "> 1 UPDATE t SET v = 2 WHERE id = 1;", "  1 UPDATE 1", "> 1 COMMIT;", "  1 COMMIT"]
                + ["> 1 BEGIN;", "  1 BEGIN", "> 1 DELETE FROM t WHERE v = 2;", "  1 DELETE 1", "> 1 COMMIT;", "  1 COMMIT"],
            )
            self.assertEqual(verdict(self.path).answer, "yes")

    def test_with(self) -> None:
        for driver in self.each():
            for autocommit in (False, True):
                connection = self.recorder().wrap(self.raw(driver, autocommit))
                with connection:
                    with connection.cursor() as cursor:
                        cursor.execute("UPDATE t SET v = v + 1 WHERE id = 1")
                if driver.__name__ == "psycopg":
                    self.assertTrue(connection.closed)
                    connection = self.recorder().wrap(self.raw(driver, autocommit))
                with contextlib.suppress(KeyError), connection:
                    connection.cursor().execute("DELETE FROM t")
                    raise KeyError
                said = self.body()
                ends = ["> 1 ROLLBACK;", "  1 ROLLBACK"] if driver.__name__ == "psycopg2" or not autocommit else ["> 1 COMMIT;", "  1 COMMIT"]
                self.assertEqual(said[-4:], ["> 1 DELETE FROM t;", "  1 DELETE 2", *ends])
                self.assertEqual(verdict(self.path).answer, "yes" if "COMMIT" in "".join(said) else "unknown")
                self.make(*T)

    def test_psycopgs_execute_and_transaction(self) -> None:
        psycopg = module("psycopg")
        if psycopg is None:
            self.skipTest("psycopg isn't there (Debian: python3-psycopg)")
        for autocommit in (False, True):
            self.make(*T)
            connection = self.recorder().wrap(self.raw(psycopg, autocommit))
            with connection.transaction():
                connection.execute("UPDATE t SET v = 1 WHERE id = %s", [1])
                with contextlib.suppress(KeyError), connection.transaction():
                    connection.execute("UPDATE t SET v = 2 WHERE id = %s", [1])
                    raise KeyError
                with connection.transaction():
                    connection.execute("UPDATE t SET v = 3 WHERE id = %s", [2])
                with connection.transaction(force_rollback=True):
                    connection.execute("UPDATE t SET v = 4 WHERE id = %s", [2])
            with contextlib.suppress(KeyError), connection.transaction():
                connection.execute("DELETE FROM t")
                raise KeyError
            self.assertEqual(connection.execute("SELECT * FROM t ORDER BY id").fetchall(), [(1, 1), (2, 3)])
            connection.rollback()
            said = [line for line in self.body() if "BEGIN;" in line or "UPDATE t" in line or "COMMIT;" in line or "ROLLBACK;" in line]
            self.assertEqual(
                said[:6], ["> 1 BEGIN;", "> 1 UPDATE t SET v = 1 WHERE id = 1;", "> 1 UPDATE t SET v = 3 WHERE id = 2;", "> 1 COMMIT;", "> 1 BEGIN;", "> 1 ROLLBACK;"]
            )
            self.assertEqual(verdict(self.path).answer, "yes")

    def test_rows_are_the_drivers_own(self) -> None:
        for driver in self.each():
            connection = self.recorder().wrap(self.raw(driver))
            if driver.__name__ == "psycopg2":
                extras = importlib.import_module("psycopg2.extras")
                cursor = connection.cursor(cursor_factory=extras.RealDictCursor)
            else:
                cursor = connection.cursor(row_factory=importlib.import_module("psycopg.rows").dict_row)
            cursor.execute("SELECT * FROM t ORDER BY id")
            self.assertEqual([dict(row) for row in cursor], [{"id": 1, "v": 10}, {"id": 2, "v": 20}])
            cursor.execute("SELECT * FROM t ORDER BY id")
            cursor.scroll(1)
            self.assertEqual(dict(cursor.fetchone()), {"id": 2, "v": 20})
            self.assertEqual(self.body()[2:6], ["> 1 SELECT * FROM t;", "  1 SELECT 2", "  1 | 1\t10", "  1 | 2\t20"])
            self.assertIsInstance(connection, type(connection.wrapped))

    def test_a_cursor_on_the_server_is_said_by_its_rows(self) -> None:
        for driver in self.each():
            recorder = self.recorder()
            connection = recorder.wrap(self.raw(driver))
            cursor = connection.cursor("named")
            cursor.execute("SELECT * FROM t ORDER BY id")
            self.assertEqual(list(cursor), [(1, 10), (2, 20)])
            connection.commit()
            rows = ["> 1 SELECT * FROM t WHERE id = 1;", "  1 SELECT 1", "  1 | 1\t10", "> 1 SELECT * FROM t WHERE id = 2;", "  1 SELECT 1", "  1 | 2\t20"]
            self.assertEqual(self.body(), ["> 1 BEGIN;", "  1 BEGIN", *rows, "> 1 COMMIT;", "  1 COMMIT"])
            self.assertIn("its rows stay on the server", recorder.verdict().words)

    def test_values_that_the_database_makes(self) -> None:
        for driver in self.each():
            self.make("CREATE TABLE t (v int DEFAULT 7, id bigserial PRIMARY KEY, name varchar(9) DEFAULT 'x', at timestamptz DEFAULT now(), ok boolean)")
            connection = self.recorder({"t": ["id", "v", "name"]}).wrap(self.raw(driver))
            cursor = connection.cursor()
            cursor.execute("INSERT INTO t (name, ok) VALUES (%s, true), (%s, NULL) RETURNING id", ("a", None))
            self.assertEqual(cursor.fetchall(), [(1,), (2,)])
            cursor.executemany("INSERT INTO t (v, id) VALUES (%s, %s)", [(1, 10), (2, 11)])
            self.assertEqual(cursor.rowcount, 2)
            cursor.execute("SELECT v, ok FROM t WHERE id = 1")
            self.assertEqual(cursor.fetchall(), [(7, True)])
            connection.commit()
            said = [line for line in self.lines() if "INSERT INTO" in line or "SELECT v" in line]
            self.assertEqual(
                said,
                [f"> 1 INSERT INTO t VALUES ({row});" for row in ("1, 7, 'a'", "2, 7, NULL", "10, 1, 'x'", "11, 2, 'x'")] + ["> 1 SELECT v FROM t WHERE id = 1;"],
            )
            self.assertEqual(verdict(self.path).answer, "yes")
            cursor.execute("INSERT INTO t (v) VALUES (3)")
            connection.commit()
            self.assertIn("> 1 INSERT INTO t VALUES (3, 3, 'x');", self.lines())

    def test_tables_that_cant_be_said_are_refused(self) -> None:
        self.make(
            "CREATE TABLE a (id int PRIMARY KEY)", "ALTER TABLE a ENABLE ROW LEVEL SECURITY", "CREATE VIEW b AS SELECT 1 AS id", "CREATE TABLE c (id int PRIMARY KEY) PARTITION BY LIST (id)",
            "CREATE TABLE d PARTITION OF c DEFAULT", "CREATE TABLE e (id int PRIMARY KEY)", "CREATE TABLE f () INHERITS (e)",
        )  # fmt: skip
        for name, told in (("a", "row security"), ("b", "no plain table"), ("d", "is a partition: name its parent c"), ("e", "inherit"), ("z", "no table z")):
            for driver in drivers():
                with self.subTest(name, driver=driver.__name__), self.assertRaisesRegex(Refused, told):
                    self.recorder([name]).wrap(self.raw(driver))
        for driver in drivers():
            with self.subTest(driver.__name__), self.assertRaisesRegex(Refused, "table c has no column v"):
                self.recorder({"c": ["id", "v"]}).wrap(self.raw(driver))

    def test_texts_are_ordered_by_the_collation(self) -> None:
        for driver in self.each():
            self.make('CREATE TABLE t (id text COLLATE "C" PRIMARY KEY, w text COLLATE "und-x-icu")')
            recorder = self.recorder()
            connection = recorder.wrap(self.raw(driver, True))
            cursor = connection.cursor()
            cursor.execute("INSERT INTO t VALUES ('b', 'B')")
            cursor.execute("SELECT * FROM t WHERE id > 'a'")
            cursor.execute("SELECT * FROM t WHERE w > 'A'")
            self.assertIn("> 1 SELECT * FROM t WHERE id > 'a';", self.lines())
            self.assertIn("ordered by a collation", recorder.verdict().words)

    def test_words_that_are_functions_are_no_columns(self) -> None:
        words = ("user", "current_user", "session_user", "current_catalog", "current_role", "current_schema")
        for driver in self.each():
            columns = ", ".join(f'"{word}" text' for word in words)
            self.make(f"CREATE TABLE t (id int PRIMARY KEY, {columns})", f"INSERT INTO t VALUES (1{', NULL' * len(words)})")
            recorder = self.recorder()
            connection = recorder.wrap(self.raw(driver, True))
            cursor = connection.cursor()
            for word in words:
                cursor.execute(f"SELECT {word} FROM t WHERE id = 1")
                self.assertIsNotNone(cursor.fetchone()[0])
                cursor.execute(f'SELECT id FROM t WHERE {word} IS NULL')
                self.assertEqual(cursor.fetchall(), [])
                cursor.execute(f'SELECT "{word}", t.{word} FROM t WHERE "{word}" IS NULL')
                self.assertEqual(cursor.fetchone(), (None, None))
            left_out = sum(recorder.left_out.values())
            self.assertGreaterEqual(left_out, len(words))
            with warnings.catch_warnings():
                warnings.simplefilter("ignore", RecordingWarning)
                cursor.execute(f"UPDATE t SET \"user\" = 'x' WHERE user = '{connection.info.user}'")
            self.assertEqual(cursor.rowcount, 1)
            cursor.execute('SELECT "user" FROM t WHERE id = 1')
            self.assertIn(recorder.verdict().answer, ("yes", "unknown"))
            self.assertGreater(sum(recorder.left_out.values()) + (recorder.ended is not None), left_out)

    def test_names_with_capitals(self) -> None:
        for driver in self.each():
            for name, wanted in (('"My Table"', "My Table"), ('"My Table"', '"My Table"'), ("mine", "Mine"), ("mine", "public.mine")):
                self.make(f'CREATE TABLE {name} ("ID" int PRIMARY KEY, "order" text)')
                connection = self.recorder([wanted]).wrap(self.raw(driver, True))
                connection.cursor().execute(f"INSERT INTO {name} VALUES (1, 'x')")
                connection.cursor().execute(f'SELECT "order" FROM {name} WHERE "ID" = 1')
                self.assertEqual(self.lines()[-4:], ["  1 SELECT 1", "  1 | x", "> 1 COMMIT;", "  1 COMMIT"])

    def test_a_lost_connection(self) -> None:
        for driver in self.each():
            recorder = self.recorder()
            connection = recorder.wrap(self.raw(driver))
            cursor = connection.cursor()
            cursor.execute("UPDATE t SET v = 1 WHERE id = 1")
            self.end(driver, connection.info.backend_pid)
            with self.assertRaises(driver.OperationalError):
                cursor.execute("SELECT * FROM t WHERE id = 2")
            with contextlib.suppress(driver.Error):
                connection.rollback()
            connection.close()
            third = recorder.wrap(self.raw(driver))
            third.cursor().execute("SELECT * FROM t WHERE id = 1")
            third.commit()
            self.assertIn("  1 ROLLBACK", self.body())
            self.assertEqual(recorder.verdict().answer, "yes")

    def end(self, driver: Any, pid: int) -> None:
        """Ends a connection from outside."""
        connection = self.raw(driver, True)
        connection.cursor().execute("SELECT pg_terminate_backend(%s)", (pid,))
        time.sleep(0.1)

    def test_a_connection_that_is_lost_as_it_commits_may_have_committed(self) -> None:
        for driver in self.each():
            recorder = self.recorder()
            connection = recorder.wrap(self.raw(driver))
            connection.cursor().execute("UPDATE t SET v = 1 WHERE id = 1")
            self.end(driver, connection.info.backend_pid)
            with self.assertRaises(driver.Error):
                connection.commit()
            connection.close()
            self.assertEqual(self.body()[-1], "> 1 COMMIT;")
            other = recorder.wrap(self.raw(driver))
            other.cursor().execute("SELECT * FROM t WHERE id = 1")
            other.commit()
            self.assertIn("> 2 SELECT * FROM t WHERE id = 1;", self.body())
            self.assertEqual(recorder.verdict().answer, "yes")

    def test_snapshots_are_exported_and_taken_over(self) -> None:
        for driver in self.each():
            recorder = self.recorder()
            one, two, three = (recorder.wrap(self.raw(driver)) for _ in range(3))
            cursor = one.cursor()
            cursor.execute("SET TRANSACTION ISOLATION LEVEL REPEATABLE READ")
            cursor.execute("SELECT pg_export_snapshot()")
            name = cursor.fetchone()[0]
            three.cursor().execute("UPDATE t SET v = 0 WHERE id = 1")
            three.commit()
            cursor = two.cursor()
            cursor.execute("SET TRANSACTION ISOLATION LEVEL REPEATABLE READ")
            cursor.execute(f"SET TRANSACTION SNAPSHOT '{name}'")
            cursor.execute("SELECT v FROM t WHERE id = 1")
            self.assertEqual(cursor.fetchone(), (10,))
            two.commit()
            self.assertIn("> 2 IMPORT 1;", self.body())
            self.assertEqual(recorder.verdict().answer, "yes")

    def test_other_calls_of_the_drivers(self) -> None:
        for driver in self.each():
            recorder = self.recorder()
            connection = recorder.wrap(self.raw(driver))
            cursor = connection.cursor()
            if driver.__name__ == "psycopg2":
                extras = importlib.import_module("psycopg2.extras")
                extras.execute_values(cursor, "INSERT INTO t VALUES %s", [(3, 30), (4, 40)])
                out = io.StringIO()
                cursor.copy_expert("COPY t TO STDOUT", out)
                self.assertEqual(out.getvalue().count("\n"), 4)
            else:
                cursor.execute(importlib.import_module("psycopg.sql").SQL("INSERT INTO t VALUES (3, 30), (4, 40)"))
                with cursor.copy("COPY t TO STDOUT") as copy:
                    self.assertEqual(len(list(copy.rows())), 4)
                self.assertEqual(len(list(cursor.stream("SELECT * FROM t"))), 4)
            connection.commit()
            self.assertIn("> 1 INSERT INTO t VALUES (4, 40);", self.body())
            self.assertEqual(verdict(self.path).answer, "yes")
            if driver.__name__ == "psycopg2":
                cursor.copy_from(io.StringIO("5\t50\n"), "t")
            else:
                with cursor.copy("COPY t FROM STDIN") as copy:
                    copy.write_row((5, 50))
            connection.commit()
            cursor.execute("SELECT count(*) FROM t")
            self.assertEqual(cursor.fetchone(), (5,))
            self.assertIn("> 1 INSERT INTO t VALUES (5, 50);", self.body())
            self.assertEqual(recorder.verdict().answer, "yes")

    def test_executemany_in_autocommit(self) -> None:
        for driver in self.each():
            recorder = self.recorder()
            cursor = recorder.wrap(self.raw(driver, True)).cursor()
            cursor.executemany("INSERT INTO t VALUES (%s, %s)", [(3, 30), (4, 40)])
            cursor.executemany("UPDATE t SET v = %s WHERE id = %s", [(5, 3), (6, 4)])
            self.assertEqual(cursor.rowcount, 2)
            self.assertEqual(self.body().count("  1 COMMIT"), 4 if driver.__name__ == "psycopg2" else 2)
            self.assertEqual(recorder.verdict().answer, "yes")

    def test_a_statement_that_is_broken_off(self) -> None:
        for driver in self.each():
            recorder = self.recorder()
            one, two = recorder.wrap(self.raw(driver)), recorder.wrap(self.raw(driver))
            one.cursor().execute("UPDATE t SET v = 0 WHERE id = 1")
            cursor = two.cursor()
            cursor.execute("SET LOCAL statement_timeout = 50")
            with self.assertRaises(driver.errors.QueryCanceled):
                cursor.execute("UPDATE t SET v = 1 WHERE id = 1")
            two.rollback()
            one.commit()
            self.assertIn("  2 ERROR 57014", self.body())
            self.assertEqual(recorder.verdict().answer, "yes")


if __name__ == "__main__":
    unittest.main()
