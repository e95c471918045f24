"""Tests of what keeps a recording cheap: statements that are said as they were with other parameters, rows that aren't fetched
twice, and lines that are written together.

    PGSERIAL=path/to/pgserial PGSERIAL_DSN=.. python3 clients/python/test_recorded_costs.py

Databases as in test_recording.py.
"""

import errno
import io
import os
import subprocess
import sys
import time
import unittest
import warnings
from typing import Any, List, Optional

from pgserial.copying import Copied, Teed, rows_of
from pgserial.following import Follower
from pgserial.output import Output
from pgserial.plans import Translator
from pgserial.recording import RecordingWarning, verdict
from pgserial.sql import Name, Table
from pgserial.values import Spelling, Unsaid
from test_recording import HERE, OnPostgres, OnSqlite, drivers


def asked(lines: List[str]) -> List[str]:
    """The statements of session 1 behind the opening."""
    return [line[4:] for line in lines if line.startswith("> 1 ") and line[4:].split(" ")[0] in ("SELECT", "INSERT", "UPDATE", "DELETE")]


class Templates(OnSqlite):
    """What is said of a statement that is executed again is what would be said of it alone."""

    TEXTS = ("plain", "", "it's", "a\nline", "a\\b", "q7z00", "x7w01", "tab\t", "é€", "'", "''", "--", "NULL", "0")
    NUMBERS = (0, 1, -1, -5, 7046029254386350000, 3915724681029460001, 2**63 - 1, -(2**63))

    def setUp(self) -> None:
        super().setUp()
        raw = self.raw()
        raw.executescript("DROP TABLE t; CREATE TABLE t (id INTEGER PRIMARY KEY, v BIGINT, s TEXT, n VARCHAR(5)); CREATE TABLE p (a INTEGER, b INTEGER, v BIGINT, PRIMARY KEY (a, b))")
        raw.execute("INSERT INTO t VALUES (1, 10, 'a', 'b')")

    def said(self, text: str, several: List[Any]) -> List[List[str]]:
        """What is said of each execution; of each by a recorder of its own."""
        found: List[List[str]] = []
        for group in (several, *[[one] for one in several]):
            raw = self.raw()
            raw.executescript("PRAGMA synchronous = OFF; DELETE FROM t; INSERT INTO t VALUES (1, 10, 'a', 'b'); DELETE FROM p")
            recorder = self.recorder(["t", "p"])
            connection = recorder.wrap(raw)
            with warnings.catch_warnings():
                warnings.simplefilter("ignore", RecordingWarning)
                for one in group:
                    connection.execute("BEGIN")
                    connection.execute(text, one)
                    connection.execute("ROLLBACK")
            found.append(asked(self.lines())[1:])
            recorder.close()
        return found

    def assert_alike(self, text: str, several: List[Any]) -> None:
        together, *alone = self.said(text, several)
        self.assertEqual(together, [line for lines in alone for line in lines], text)
        self.assertGreater(len(together), len(several) // 3, text)

    def test_texts(self) -> None:
        self.assert_alike("UPDATE t SET s = ? WHERE id = 1", [(text,) for text in self.TEXTS])
        self.assert_alike("SELECT v FROM t WHERE s = ?", [(text,) for text in self.TEXTS])
        self.assert_alike("SELECT v FROM t WHERE s = :s AND s <> :other AND id = :id", [{"s": text, "other": "x7w00", "id": 1} for text in self.TEXTS])

    def test_numbers(self) -> None:
        self.assert_alike("SELECT v FROM t WHERE id = ? AND v < ?", [(number, number) for number in self.NUMBERS])
        self.assert_alike("UPDATE t SET v = ? WHERE id = 1", [(number,) for number in self.NUMBERS])
        self.assert_alike("DELETE FROM t WHERE v BETWEEN ? AND 50", [(number,) for number in self.NUMBERS])
        self.assert_alike("INSERT INTO p VALUES (?, ?, 1)", [(number, 3) for number in self.NUMBERS])
        self.assert_alike("UPDATE p SET v = 2 WHERE b = ? AND a = ?", [(number, 3) for number in self.NUMBERS])

    def test_sums_turn_signs(self) -> None:
        for text in ("UPDATE t SET v = v + ? WHERE id = ?", "UPDATE t SET v = v - ? WHERE id = ?"):
            self.assert_alike(text, [(number, 1) for number in (1, -1, 0, 5, -7)])

    def test_values_of_other_classes(self) -> None:
        values: List[Any] = [1, None, True, "5", 2, 1.0, "x", b"y", 3]
        self.assert_alike("SELECT id FROM t WHERE v = ?", [(value,) for value in values])
        self.assert_alike("SELECT id FROM t WHERE v IN (?, ?)", [(1, 2), (1, 1), (3, None), (4, 5)])
        self.assert_alike("SELECT id FROM t WHERE v > 0 LIMIT ?", [(1,), (0,), (5,), (-1,)])

    def test_texts_that_are_cut(self) -> None:
        self.assert_alike("INSERT INTO t (id, n) VALUES (?, ?)", [(7, "abc"), (8, "abcde"), (9, "abcdef"), (10, "")])

    def test_marks_in_a_text_itself(self) -> None:
        self.assert_alike("UPDATE t SET s = 'q7z00', v = ? WHERE s <> ?", [(5, "a7"), (6, "b")])
        self.assert_alike("UPDATE t SET v = 7046029254386350000 WHERE v <> ?", [(5,), (6,)])

    def test_a_plan_keeps_few(self) -> None:
        recorder = self.recorder(["t"])
        connection = recorder.wrap(self.raw())
        for number in range(40):
            connection.execute("SELECT v FROM t WHERE id = :a", {"a": 1, f"b{number}": 2}).fetchall()
        translator: Translator = recorder.translator(connection._session.driver)
        plan = translator.plan(Spelling(), "SELECT v FROM t WHERE id = :a", True)
        self.assertLessEqual(len(plan.templates._known), 16)  # type: ignore[union-attr]
        self.assertEqual(len(asked(self.lines())), 41)  # with the row that is there


class Batches(OnSqlite):
    """Lines are written together, in their order."""

    def test_at_most_a_second_late(self) -> None:
        recorder = self.recorder()
        recorder.wrap(self.raw()).execute("UPDATE t SET v = 1 WHERE id = 1")
        until = time.monotonic() + 20
        while "UPDATE t" not in self.written() and time.monotonic() < until:
            time.sleep(0.05)
        self.assertIn("  1 UPDATE 1\n", self.written())

    def written(self) -> str:
        """What stands in the file."""
        with open(self.path, encoding="utf-8") as file:
            return file.read()

    def test_flush(self) -> None:
        recorder = self.recorder()
        connection = recorder.wrap(self.raw())
        self.assertIn("CREATE TABLE t", self.written())  # the opening is written at once
        connection.execute("UPDATE t SET v = 1 WHERE id = 1")
        recorder.flush()
        self.assertIn("  1 COMMIT\n", self.written().split("-- The application begins")[1])

    def test_what_a_process_leaves_that_ends_at_once(self) -> None:
        text = (
            "import os, sqlite3, sys\nfrom pgserial.recording import Recorder\n"
            f"one, two = (Recorder.wrap(recorder, sqlite3.connect({self.file!r}, isolation_level=None)) for recorder in [Recorder({self.path!r}, ['t'])] for _ in range(2))\n"
            "for number in range(20000):\n    (one if number % 2 else two).execute('UPDATE t SET v = ? WHERE id = 1', (number,))\n    if number == int(sys.argv[1]): os._exit(0)\n"
        )
        raw = self.raw()
        raw.execute("PRAGMA journal_mode = WAL")
        raw.execute("PRAGMA synchronous = OFF")
        for number in (1, 50, 1999):
            raw.execute("UPDATE t SET v = 10 * id")
            subprocess.run([sys.executable, "-B", "-c", text, str(number)], cwd=HERE, check=True)
            told = verdict(self.path)
            self.assertIn(told.answer, ("yes", "unknown"), told)
            self.assertLessEqual(told.committed, number + 1)

    def test_another_process_writes_nothing_of_this_one(self) -> None:
        recorder = self.recorder()
        connection = recorder.wrap(self.raw())
        connection.execute("UPDATE t SET v = 1 WHERE id = 1")
        child = os.fork()
        if child == 0:
            os.close(2)
            recorder.close()
            os._exit(0)
        os.waitpid(child, 0)
        connection.execute("UPDATE t SET v = 2 WHERE id = 1")
        told = recorder.verdict()
        self.assertEqual((told.answer, told.committed), ("yes", 2))
        self.assertEqual(self.text().count("UPDATE t SET v = 1"), 1)

    def test_nothing_stands_behind_lines_that_were_lost(self) -> None:
        output = Output(self.path, self.nothing)
        output.add(b"one\n")
        output.write_kept()
        os.close(output._file)
        output._file = os.open(os.devnull, os.O_RDONLY)  # writing fails
        output._is_plain = False
        output.add(b"two\n")
        with self.assertRaises(OSError):
            output.write_kept()
        output._file = os.open(self.path, os.O_RDWR)
        output._is_plain = True
        output.add(b"three\n")
        with self.assertRaises(OSError) as raised:
            output.write_kept()
        self.assertEqual(raised.exception.errno, errno.EIO)
        output.end(b"> 1 not recorded, it can't be written;\n")
        output.close()
        self.assertEqual(self.written(), "one\n> 1 not recorded, it can't be written;\n")

    def nothing(self) -> None:
        """Nothing is written late."""


COPIED = Copied(Table(None, Name("t", False), None), None)


class Copies(unittest.TestCase):
    """COPY's text, as PostgreSQL's documentation of COPY has it."""

    def rows(self, text: str, copied: Copied = COPIED) -> List[List[Optional[str]]]:
        return rows_of(text, copied)

    def test_fields(self) -> None:
        for text, rows in (
            ("1\ta\n2\tb\n", [["1", "a"], ["2", "b"]]), ("1\ta", [["1", "a"]]), ("", []), ("\n", [[""]]), ("1\t\\N\n", [["1", None]]),
            ("a\\tb\t\\\\N\n", [["a\tb", "\\N"]]), ("a\\\tb\n", [["a\tb"]]), ("\\n\\r\\b\\f\\v\\q\n", [["\n\r\b\f\vq"]]), ("1\n\\.\n2\n", [["1"]]),
        ):  # fmt: skip
            self.assertEqual(self.rows(text), rows, text)
        self.assertEqual(self.rows("1,NULL\n", COPIED._replace(delimiter=",", null="NULL")), [["1", None]])

    def test_what_isnt_said(self) -> None:
        for text in ("\\101\n", "\\x41\n", "a\r\nb\r\n", "a\\\nb\n", "1\n" * 10001):
            self.assertRaises(Unsaid, self.rows, text)

    def test_what_was_read_is_kept(self) -> None:
        teed = Teed(io.StringIO("ab\ncd\n"))
        self.assertEqual((teed.read(1), teed.readline(), teed.read(), teed.read(5)), ("a", "b\n", "cd\n", ""))
        self.assertEqual((teed.text(), teed.tell()), ("ab\ncd\n", 6))
        teed = Teed(io.BytesIO("é".encode("utf-8")))
        teed.read()
        self.assertRaises(Unsaid, teed.text)


@unittest.skipUnless(drivers(), "PostgreSQL or psycopg2 isn't there (Debian: postgresql, python3-psycopg2)")
class Postgres(OnPostgres):
    """On PostgreSQL."""

    def test_copies(self) -> None:
        for driver in self.each():
            if driver.__name__ != "psycopg2":
                continue
            self.make("CREATE TABLE t (id int PRIMARY KEY, v numeric(6, 2), s text DEFAULT 'd', made timestamptz DEFAULT now())")
            recorder = self.recorder(verify_end=True)
            connection = recorder.wrap(self.raw(driver))
            cursor = connection.cursor()
            cursor.copy_from(io.StringIO("1|1.5|a b|2020-01-01 00:00:00+00\n2|||\n"), "t", sep="|", null="")
            cursor.copy_expert("COPY t (id, s, made) FROM STDIN", io.StringIO("3\tit's\\ta\t\\N\n"))
            connection.commit()
            self.assertEqual(
                asked(self.lines())[:3],
                ["INSERT INTO t VALUES (1, 150, 'a b', 1577836800000000);", "INSERT INTO t VALUES (2, NULL, NULL, NULL);", "INSERT INTO t VALUES (3, NULL, 'it''s\ta', NULL);"],
            )
            connection.close()
            self.assertEqual(recorder.verdict().answer, "yes")
            for text, given in (("COPY t (id, v) FROM STDIN", "8\t1\n"), ("COPY t (id, s, made) FROM STDIN WITH (FORMAT csv)", "8,x,\n"), ("COPY t FROM STDIN", "8\t1\tx\tnow\n")):
                recorder = self.recorder()
                connection = recorder.wrap(self.raw(driver))
                with self.assertWarnsRegex(RecordingWarning, "COPY writes"):
                    connection.cursor().copy_expert(text, io.StringIO(given))
                    connection.commit()
                self.assertEqual(recorder.verdict().answer, "unknown", text)
                self.raw(driver, True).cursor().execute("DELETE FROM t WHERE id = 8")

    def test_a_copy_that_is_refused(self) -> None:
        for driver in self.each():
            if driver.__name__ == "psycopg2":
                recorder = self.recorder()
                connection = recorder.wrap(self.raw(driver))
                with self.assertRaises(driver.Error):
                    connection.cursor().copy_expert("COPY t FROM STDIN", io.StringIO("7\t70\n1\t10\n"))
                connection.rollback()
                connection.cursor().execute("SELECT * FROM t")
                connection.commit()
                self.assertEqual(recorder.verdict().answer, "yes")

    def test_rows_that_arent_fetched_twice(self) -> None:
        for driver in self.each():
            recorder = self.recorder()
            plain, kept = self.raw(driver), recorder.wrap(self.raw(driver))
            for does in (
                lambda c: (c.fetchall(), c.fetchall(), c.rownumber, c.fetchone()), lambda c: (c.fetchone(), c.rownumber, c.fetchall()), lambda c: (c.fetchmany(1), c.fetchmany(5), c.fetchmany(5)),
                lambda c: (c.fetchmany(5), c.rownumber), lambda c: (list(c), c.rownumber), lambda c: (c.scroll(1), c.fetchall()), lambda c: (c.fetchall(), c.scroll(0, mode="absolute"), c.fetchone()),
                lambda c: (c.rownumber, c.rowcount, c.fetchone()), lambda c: (next(iter(c)), c.fetchall()),
            ):  # fmt: skip
                for text in ("SELECT id, v FROM t ORDER BY id", "SELECT id, v FROM t WHERE id = 1", "SELECT id, v FROM t WHERE id = 9", "SELECT v FROM t WHERE id = 1 OR v = 20 ORDER BY id"):
                    given: List[Any] = []
                    for connection in (plain, kept):
                        cursor = connection.cursor()
                        cursor.execute(text)
                        try:
                            given.append((does(cursor), len(cursor.description)))
                        except Exception as error:  # the driver's
                            given.append((type(error), str(error)))
                        connection.rollback()
                    self.assertEqual(given[0], given[1], text)

    def test_rows_of_a_closed_cursor(self) -> None:
        for driver in self.each():
            connection = self.recorder().wrap(self.raw(driver))
            cursor = connection.cursor()
            cursor.execute("SELECT * FROM t")
            cursor.close()
            with self.assertRaises(driver.InterfaceError):
                cursor.fetchall()

    def test_keys_that_a_query_doesnt_show(self) -> None:
        for driver in self.each():
            self.make("CREATE TABLE t (id int PRIMARY KEY, v bigint)", "INSERT INTO t VALUES (1, 10), (2, 20)", "CREATE TABLE u (a int, b int, t int, PRIMARY KEY (a, b))", "INSERT INTO u VALUES (1, 2, 1)")
            recorder = self.recorder(["t", "u"])
            connection = recorder.wrap(self.raw(driver))
            cursor = connection.cursor()
            cursor.execute("SELECT (1) AS a FROM t x WHERE v = %s LIMIT 1", (10,))
            self.assertEqual((cursor.fetchone(), cursor.fetchone(), len(cursor.description)), ((1,), None, 1))
            cursor.execute("SELECT x.v FROM t x JOIN u ON u.t = x.id WHERE x.v > 5")
            self.assertEqual((cursor.fetchall(), [column[0] for column in cursor.description]), ([(10,)], ["v"]))
            connection.commit()
            self.assertEqual(
                asked(self.lines())[-3:], ["SELECT id FROM t WHERE id = 1 AND v = 10;", "SELECT v, id FROM t WHERE id = 1;", "SELECT a, b FROM u WHERE a_b = '1,2';"]
            )
            self.assertEqual(recorder.verdict().answer, "yes")

    def test_a_cursor_on_the_server_is_the_first_that_a_followed_connection_has(self) -> None:
        """The tables are read before it is made: that rolls back, behind which it couldn't be used."""
        for driver in self.each():
            follower = Follower()
            with follower.recording(self.recorder()):
                connection = follower.follow(self.raw(driver))
                cursor = connection.cursor("some")
                cursor.execute("SELECT id, v FROM t ORDER BY id")
                self.assertEqual(cursor.fetchall(), [(1, 10), (2, 20)])
                connection.commit()
            self.assertEqual(verdict(self.path).answer, "yes")

    def test_a_cursor_on_the_server(self) -> None:
        for driver in self.each():
            recorder = self.recorder()
            connection = recorder.wrap(self.raw(driver))
            cursor, other = connection.cursor("some"), connection.cursor()
            cursor.execute("SELECT id, v FROM t ORDER BY id")
            self.assertEqual(cursor.fetchone(), (1, 10))
            other.execute("UPDATE t SET v = 5")
            self.assertEqual(list(cursor), [(2, 20)])  # as it was when the cursor was opened
            cursor.close()
            connection.commit()
            self.assertEqual([line for line in asked(self.lines()) if line.startswith("SELECT")], ["SELECT * FROM t WHERE id = 1;"])
            self.assertEqual(sum(recorder.left_out.values()), 1)
            self.assertEqual(recorder.verdict().answer, "yes")


if __name__ == "__main__":
    unittest.main()
