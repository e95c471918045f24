"""Tests of recordings of odd applications: odd values, texts and types, threads, and what is closed or killed beside them.

    PGSERIAL=path/to/pgserial python3 clients/python/test_recorded_oddities.py

What an application sees stays the driver's own, and no verdict rests on what was misunderstood.
"""

import enum
import os
import sqlite3
import subprocess
import sys
import threading
import unittest
import warnings
from typing import Any, Callable, Dict

import pgserial
from pgserial.keys import Refused
from pgserial.recording import Recorder, RecordingWarning, verdict
from test_recording import HERE, OnSqlite


class Oddities(OnSqlite):
    def alike(self, use: Callable[[Any], object], **named: Any) -> Recorder:
        """Uses a connection as it is, and one that is recorded: what comes of both is the same, and the recording goes on."""

        def told(connection: Any) -> object:
            try:
                return use(connection)
            except Exception as error:
                return type(error), str(error)

        recorder = self.recorder()
        wanted = told(self.raw(**named))
        self.assertEqual(told(recorder.wrap(self.raw(**named))), wanted)
        self.assertIsNone(recorder.ended)
        return recorder

    def test_rows_are_fetched_as_the_driver_gives_them(self) -> None:
        def with_factory(connection: Any) -> object:
            cursor = connection.execute("SELECT id FROM t")
            cursor.row_factory = lambda _, row: ("made", row)
            first = cursor.fetchone()
            cursor.row_factory = None
            return first, cursor.fetchall()

        def from_another_thread(connection: Any) -> object:
            cursor, told = connection.execute("SELECT id FROM t"), []
            for call in (cursor.fetchone, cursor.fetchall, cursor.fetchmany, lambda: next(cursor)):
                thread = threading.Thread(target=lambda call=call: told.append(self.raised(call)[0]))
                thread.start()
                thread.join()
            return told

        for size in (0, -1, -7, 1, 5, True, None, "1", 1.0, 2**70):
            with self.subTest(size):
                self.alike(lambda connection: connection.execute("SELECT id FROM t").fetchmany(size))  # noqa: B023
                self.alike(lambda connection: self.parts(connection.execute("SELECT id FROM t"), size))  # noqa: B023
        self.alike(with_factory)
        self.alike(from_another_thread, check_same_thread=True)

    def parts(self, cursor: Any, size: Any) -> object:
        """Rows that are fetched one, then by a number, then all."""
        return cursor.fetchone(), self.raised(lambda: cursor.fetchmany(size)), cursor.fetchall(), cursor.fetchmany(3), list(cursor)

    def raised(self, call: Callable[[], object]) -> object:
        """What a call gives, or what it raises."""
        try:
            return call()
        except Exception as error:
            return type(error), str(error)

    def test_what_is_closed_gives_no_rows(self) -> None:
        for closes in (lambda cursor, connection: cursor.close(), lambda cursor, connection: connection.close()):

            def use(connection: Any) -> object:
                cursor = connection.execute("SELECT id FROM t")
                first = cursor.fetchone()
                closes(cursor, connection)  # noqa: B023
                return first, [self.raised(call) for call in (cursor.fetchone, cursor.fetchmany, cursor.fetchall, lambda: next(cursor))]

            self.alike(use)

    def test_a_connection_that_is_closed_beside_the_recorder(self) -> None:
        for begins in ((), ("BEGIN",), ("BEGIN", "UPDATE t SET v = 3")):
            for ends in (lambda connection: connection.execute("COMMIT"), lambda connection: connection.commit(), lambda connection: connection.execute("SELECT 1")):

                def use(connection: Any) -> object:
                    for text in begins:  # noqa: B023
                        connection.execute(text)
                    getattr(connection, "wrapped", connection).close()
                    return self.raised(lambda: ends(connection)), self.raised(connection.close)  # noqa: B023

                recorder = self.alike(use)
                self.assertEqual(recorder.committed, 0)
                self.assertRegex(verdict(self.path).words, "^serializable: unknown: nothing was recorded")

    def test_what_is_no_text_is_the_drivers_to_refuse(self) -> None:
        class Composed:
            def as_string(self, _: Any) -> str:
                raise KeyError("of its own")

        for odd in (None, 5, b"SELECT 1", Composed(), "SELECT v FROM t WHERE id = " + "9" * 5000, "SELECT v FROM t --\0"):
            with self.subTest(repr(odd)[:40]):
                self.alike(lambda connection: connection.execute(odd).fetchall())  # noqa: B023
                self.alike(lambda connection: connection.cursor().executemany(odd, []) and None)  # noqa: B023
                if not isinstance(odd, str):
                    self.alike(lambda connection: connection.executescript(odd))  # noqa: B023
        for several in (None, 5, [5], [None]):
            self.alike(lambda connection: connection.executemany("UPDATE t SET v = ?", several))  # noqa: B023

    def test_parameters_are_asked_for_once(self) -> None:
        class Made(Dict[str, int]):
            asked = 0

            def __missing__(self, name: str) -> int:
                self.asked += 1
                return self.asked

        self.alike(lambda connection: connection.execute("SELECT id FROM t WHERE id = :k", Made()).fetchall())

    def test_parameters_of_numbers_and_without(self) -> None:
        connection = self.recorder().wrap(self.raw())
        connection.execute("UPDATE t SET v = ?2 WHERE id = ?", (7, 8, 2))
        self.assertEqual(connection.execute("SELECT v FROM t WHERE id = 2").fetchall(), [(8,)])
        self.assertIn("> 1 UPDATE t SET v = 8 WHERE id = 2;", self.body())
        self.assertEqual(verdict(self.path).answer, "yes")

    def test_a_statement_that_fails_at_the_parser_wrote_nothing(self) -> None:
        recorder = self.recorder()
        connection = recorder.wrap(self.raw())
        for begins in ((), ("BEGIN",)):
            for text in begins:
                connection.execute(text)
            for text in ("SELEC v FROM t", "UPDAT t SET v = 1", "UPDATE t SET v = 1; DELETE FROM t", "FROBNICATE", "UPDATE t SET nothing = v * 2", "REPLACE INTO nothing VALUES (1)"):
                with self.subTest(text), self.assertRaises((sqlite3.Error, sqlite3.Warning)):
                    connection.execute(text)
            connection.execute("UPDATE t SET v = v + 1 WHERE id = 1")
        connection.execute("COMMIT")
        told = recorder.verdict()
        self.assertEqual((told.answer, told.committed, told.ended), ("yes", 2, None))

    def test_a_statement_that_keeps_what_it_did_before_it_failed(self) -> None:
        raw = self.raw()
        raw.execute("CREATE UNIQUE INDEX u ON t (v)")
        recorder = self.recorder()
        connection = recorder.wrap(raw)
        connection.execute("SELECT v FROM t WHERE id = 1")
        with self.assertWarns(RecordingWarning), self.assertRaises(sqlite3.IntegrityError):
            connection.execute("UPDATE OR FAIL t SET v = CASE id WHEN 1 THEN 7 ELSE 7 END")
        self.assertEqual(connection.execute("SELECT * FROM t").fetchall(), [(1, 7), (2, 20)])
        self.assertEqual(recorder.verdict().answer, "unknown")

    def test_a_connection_that_another_thread_closes_meanwhile(self) -> None:
        class Closing(sqlite3.Connection):
            closes = False

            def execute(self, *words: Any) -> Any:
                cursor = super().execute(*words)
                if self.closes:
                    self.close()
                return cursor

        for text in ("SELECT * FROM t",):  # one alone: what bare sqlite3 leaves locked would hold the next up
            for begins in ((), ("BEGIN", "UPDATE t SET v = 5 WHERE id = 2")):
                with self.subTest(text, begins=begins), warnings.catch_warnings():
                    warnings.simplefilter("ignore", RecordingWarning)
                    raw = self.raw(factory=Closing)
                    recorder = self.recorder()
                    connection = recorder.wrap(raw)
                    for before in begins:
                        connection.execute(before)
                    raw.closes = True
                    connection.execute(text)
                    other = recorder.wrap(self.raw())
                    other.execute("SELECT * FROM t")
                    self.assertNotIn("fault of the recorder", str(recorder.ended))
                    self.assertIn(recorder.verdict().answer, ("yes", "unknown"))

    def test_words_that_are_functions_are_no_columns(self) -> None:
        raw = self.raw()
        raw.execute('CREATE TABLE w (id INTEGER PRIMARY KEY, "current_date" TEXT, user TEXT)')
        raw.execute("INSERT INTO w VALUES (1, 'x', 'ada')")
        recorder = self.recorder(["w"])
        connection = recorder.wrap(self.raw())
        self.assertNotEqual(connection.execute("SELECT current_date FROM w").fetchall(), [("x",)])
        self.assertEqual(connection.execute('SELECT "current_date", w.current_date, user FROM w').fetchall(), [("x", "x", "ada")])
        self.assertIn("  1 | x\tx\tada", self.lines())
        self.assertEqual(verdict(self.path).answer, "yes")

    def test_what_is_no_connection_or_table_is_refused(self) -> None:
        for odd in (None, 5, "db", object()):
            with self.assertRaisesRegex(Refused, "no connection"):
                self.recorder().wrap(odd)
        for tables in (5, "t", b"t", [1], [None], {1: None}, {"t": 5}, {"t": "id"}, {"t": b"id"}):
            with self.subTest(tables), self.assertRaises(Refused):
                self.recorder(tables)

    def test_a_connection_that_is_wrapped_too_late_is_told(self) -> None:
        recorder = self.recorder()
        recorder.wrap(self.raw())
        recorder.close()
        with self.assertWarnsRegex(RecordingWarning, "is closed"):
            connection = recorder.wrap(self.raw())
        self.assertEqual(connection.execute("UPDATE t SET v = 1").rowcount, 2)
        self.assertEqual(self.body(), [])

    def test_nothing_is_printed_to_standard_output_where_standard_error_is_closed(self) -> None:
        text = f"""
import sqlite3, warnings
from pgserial.recording import Recorder
warnings.simplefilter("error")
recorder = Recorder({self.path!r}, ["t"])
recorder.wrap(sqlite3.connect({self.file!r}, isolation_level=None)).execute("UPDATE t SET v = v * 2")
recorder.close()
"""
        done = subprocess.run(["sh", "-c", 'exec "$0" -B -c "$1" 2>&-', sys.executable, text], cwd=HERE, stdout=subprocess.PIPE)
        self.assertEqual((done.returncode, done.stdout), (0, b""))

    def test_a_verdict_of_any_file(self) -> None:
        killed = os.path.join(self.folder, "killed")
        with open(killed, "w", encoding="utf-8") as file:
            file.write("#!/bin/sh\nkill -9 $$\n")
        os.chmod(killed, 0o755)
        for data, answer in (
            (b"  1 SELECT " + b"9" * 5000 + b"\n", "refused"), (b"-- left out nothing\n", "unknown"), (b"-- left out " + b"9" * 5000 + b": x\n", "unknown"),
            (b"\0\n", "refused"), (b"\xff\n", "refused"), (b"x" * 3000000 + b"\n", "refused"),
        ):  # fmt: skip
            with self.subTest(data[:20]):
                with open(self.path, "wb") as file:
                    file.write(data)
                told = verdict(self.path)
                self.assertEqual(told.answer, answer)
                self.assertRegex(told.words, "^serializable: unknown: nothing was recorded" if answer == "unknown" else "^no verdict: .+")
        self.assertRegex(verdict(self.path, killed).words, "^no verdict: the program ended with status -9$")
        os.chmod(self.path, 0o755)
        with self.assertRaisesRegex(pgserial.InterfaceError, "can't be run"):
            verdict(self.path, self.path)

    def test_values_are_those_that_the_driver_sends_whatever_they_show(self) -> None:
        class Colour(str, enum.Enum):
            RED = "red"

        class Shown(str):
            def __str__(self) -> str:
                return "shown"

        class Number(int):
            def __int__(self) -> int:
                return 7

        raw = self.raw()
        raw.execute("CREATE TABLE w (id INTEGER PRIMARY KEY, n TEXT)")
        connection = self.recorder(["w"]).wrap(raw)
        for row in ((1, Colour.RED), (Number(2), Shown("own"))):
            connection.execute(Shown("INSERT INTO w VALUES (?, ?)"), row)
        self.assertEqual(connection.execute("SELECT * FROM w").fetchall(), [(1, "red"), (2, "own")])
        self.assertIn("> 1 INSERT INTO w VALUES (1, 'red');", self.lines())
        self.assertEqual(verdict(self.path).answer, "yes")

    def test_values_in_whose_place_something_else_is_sent(self) -> None:
        class Registered(str):
            """What an adapter makes another text of."""

        class Conforming(int):
            def __conform__(self, _: object) -> int:
                return 100

        sqlite3.register_adapter(Registered, lambda _: "other")
        raw = self.raw()
        raw.execute("CREATE TABLE w (id INTEGER PRIMARY KEY, n TEXT)")
        for row in ((1, Registered("own")), (Conforming(1), "own")):
            recorder = self.recorder(["w"])
            connection = recorder.wrap(self.raw())
            self.assertEqual(connection.execute("SELECT n FROM w WHERE n = ?", (row[1],)).fetchall(), [])
            self.assertEqual(connection.execute("SELECT n FROM w WHERE id = ?", (row[0],)).fetchall(), [])
            self.assertEqual(list(recorder.left_out.values()), [1])
            connection.execute("INSERT INTO w VALUES (?, ?)", row)  # said as the database has it
            (stored,) = raw.execute("SELECT id, n FROM w")
            self.assertIn(f"> 1 INSERT INTO w VALUES ({stored[0]}, '{stored[1]}');", self.lines())
            self.assertNotEqual(stored, (1, "own"))
            raw.execute("DELETE FROM w")

    def test_values_that_a_converter_may_turn(self) -> None:
        sqlite3.register_converter("COUNTED", lambda _: 7)
        raw = self.raw(detect_types=sqlite3.PARSE_DECLTYPES | sqlite3.PARSE_COLNAMES)
        raw.execute("CREATE TABLE w (id INTEGER PRIMARY KEY, n COUNTED INTEGER)")
        recorder = self.recorder(["w"])
        connection = recorder.wrap(raw)
        connection.execute("INSERT INTO w VALUES (1, 5)")
        self.assertEqual(connection.execute("SELECT n FROM w WHERE id = 1").fetchall(), [(7,)])
        told = "column n of table w is of type COUNTED INTEGER, for which a converter is registered that may make other values of its own"
        self.assertEqual(dict(recorder.left_out), {told: 1})
        self.assertEqual(verdict(self.path).answer, "yes")
        recorder = self.recorder()
        connection = recorder.wrap(raw)
        for shown in ('v AS "v [counted]"', 'v "v [counted]"'):
            self.assertEqual(connection.execute(f"SELECT {shown} FROM t WHERE id = 1").fetchall(), [(7,)])
        self.assertEqual(sum(recorder.left_out.values()), 2)
        self.assertEqual(recorder.verdict().left_out[0].count, 2)

    def test_a_row_that_no_statement_inserts_is_refused(self) -> None:
        raw = self.raw()
        raw.execute("CREATE TABLE w (id INTEGER PRIMARY KEY, n TEXT)")
        raw.execute("INSERT INTO w VALUES (1, ?)", ("x" * 70000,))
        with self.assertRaisesRegex(Refused, "more than 65536 bytes"):
            self.recorder(["w"]).wrap(raw)

    def test_a_file_that_was_closed_beside_the_recorder(self) -> None:
        recorder = self.recorder()
        connection = recorder.wrap(self.raw())
        os.close(recorder._output._file)
        with self.assertWarnsRegex(RecordingWarning, "can't be written"):
            connection.execute("UPDATE t SET v = 1")
            recorder.close()

    def test_a_verdict_that_cannot_be_given_from_the_command_line(self) -> None:
        with open(self.path, "w", encoding="utf-8") as file:
            file.write("> CREATE TABLE t (id bigint PRIMARY KEY);\n")
        for words in ([self.path + "x"], [self.folder], [self.path, "--program", "/no/such"], [self.path, "--program", self.path]):
            with self.subTest(words):
                done = subprocess.run([sys.executable, "-B", "-m", "pgserial.recording", *words], cwd=HERE, capture_output=True, text=True)
                self.assertEqual((done.returncode, done.stdout), (1, ""))
                self.assertRegex(done.stderr, "^[^\n]+\n$")


if __name__ == "__main__":
    unittest.main()
