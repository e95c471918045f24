"""Tests of details of recordings that other tests pass by: words that look like the end of a transaction, names that meet, tables
that aren't there, and what a setting or a second closing does.

    PGSERIAL=path/to/pgserial python3 clients/python/test_recorded_details.py
"""

import contextlib
import io
import os
import sqlite3
import subprocess
import sys
import types
import unittest
import warnings
from typing import Any
from unittest import mock

from pgserial import drivers, edn, effects, jepsen, recording, sqlite_catalog
from pgserial import verdict as verdict_module
from pgserial.drivers import driver_of
from pgserial.following import Follower
from pgserial.keys import Refused
from pgserial.recording import RecordingWarning
from pgserial.sql import tokens_of
from pgserial.steps import Inner
from pgserial.translation import Look
from pgserial.values import Unsaid
from pgserial.verdict import CLOSED, HAS_NOT, MAY_COMMIT
from test_jepsen import answer
from test_recorded_endings import said
from test_recording import HERE, OnSqlite, Room


class Details(OnSqlite):
    """On sqlite3."""

    def test_a_single_word_ends_no_transaction(self) -> None:
        for text in ("ANALYZE", "REINDEX", "analyze;"):
            recorder = self.recorder(verify_end=True)
            connection = recorder.wrap(self.raw())
            connection.execute("BEGIN")
            connection.execute("UPDATE t SET v = v + 1 WHERE id = 1")
            with warnings.catch_warnings():
                warnings.simplefilter("ignore", RecordingWarning)
                connection.execute(text)
            connection.execute("COMMIT")
            connection.close()
            self.assertEqual(said(self.lines(), "ROLLBACK"), [], text)
            self.assertIn(recorder.verdict().answer, ("yes", "unknown"), text)

    def test_a_setting_that_commits_keeps_what_a_savepoint_holds_back(self) -> None:
        recorder = self.recorder(verify_end=True)
        connection = recorder.wrap(self.raw(isolation_level="DEFERRED"))
        connection.execute("BEGIN")
        connection.execute("SAVEPOINT a")
        connection.execute("UPDATE t SET v = 7 WHERE id = 1")
        connection.isolation_level = None
        connection.close()
        self.assertEqual(said(self.body(), "UPDATE", "COMMIT")[:2], ["UPDATE t SET v = 7 WHERE id = 1;", "COMMIT;"])
        self.assertEqual(recorder.verdict().answer, "yes")

    def test_names_that_would_be_the_same(self) -> None:
        raw = self.raw()
        raw.executescript('CREATE TABLE "x y" (id INTEGER PRIMARY KEY, "a b" INT, a_b INT); CREATE TABLE x_y (id INTEGER PRIMARY KEY, "a.b" INT)')
        recorder = self.recorder(["x y", "x_y"], verify_end=True)
        connection = recorder.wrap(raw)
        connection.execute('INSERT INTO "x y" VALUES (1, 2, 3)')
        connection.execute("INSERT INTO x_y VALUES (1, 4)")
        connection.execute('UPDATE "x y" SET a_b = 5 WHERE id = 1')
        connection.close()
        created = [line for line in self.lines() if line.startswith("> CREATE")]
        self.assertEqual(created[0], "> CREATE TABLE x_y (id bigint PRIMARY KEY, a_b bigint, a_b_ bigint);")
        self.assertEqual(created[1], "> CREATE TABLE x_y_ (id bigint PRIMARY KEY, a_b bigint);")
        self.assertEqual(recorder.verdict().answer, "yes")

    def test_tables_and_columns_that_arent_there(self) -> None:
        raw = self.raw()
        raw.execute("CREATE VIEW seen AS SELECT * FROM t")
        for tables, told in (({"t": ["id", "nothing"]}, "table t has no column nothing"), (["seen"], "no plain table|no table seen"), (["gone"], "no table gone")):
            with self.subTest(str(tables)), self.assertRaisesRegex(Refused, told):
                self.recorder(tables).wrap(raw)

    def test_a_quoted_text_is_no_row_number(self) -> None:
        recorder = self.recorder(verify_end=True)
        connection = recorder.wrap(self.raw())
        self.assertEqual(connection.execute('SELECT v FROM t WHERE "1" = 1').fetchall(), [])
        self.assertEqual(connection.execute("SELECT v FROM t WHERE rowid = 1").fetchall(), [(10,)])
        connection.execute("UPDATE t SET v = 11 WHERE _rowid_ = 1")
        connection.close()
        self.assertEqual(said(self.body(), "SELECT v"), ["SELECT v FROM t WHERE id = 1;"])
        self.assertEqual(recorder.verdict().answer, "yes")

    def test_bytes_in_a_text(self) -> None:
        raw = self.raw()
        raw.execute("CREATE TABLE b (id INTEGER PRIMARY KEY, raw BLOB)")
        connection = self.recorder(["b"], verify_end=True).wrap(raw)
        connection.execute("INSERT INTO b VALUES (1, x'0a0B'), (2, X'')")
        connection.close()
        self.assertEqual(said(self.lines(), "INSERT"), ["INSERT INTO b VALUES (1, '\\x0a0b');", "INSERT INTO b VALUES (2, '\\x');"])

    def test_executemany_of_none_one_and_several(self) -> None:
        for several in ([], [(5, 1)], [(5, 1), (6, 2)]):
            recorder = self.recorder(verify_end=True)
            raw = self.raw()
            raw.execute("UPDATE t SET v = 10 * id")
            plain = self.raw().executemany("UPDATE t SET v = ? WHERE id = ?", []).rowcount
            connection = recorder.wrap(raw)
            cursor = connection.executemany("UPDATE t SET v = ? WHERE id = ?", iter(several))
            self.assertEqual(cursor.rowcount, len(several) or plain)
            self.assertEqual(len(said(self.body(), "UPDATE")), len(several))
            connection.close()
            self.assertEqual(recorder.verdict().answer, "yes" if several else "unknown")

    def test_a_second_closing_does_nothing(self) -> None:
        recorder = self.recorder()
        first = recorder.wrap(self.raw())
        first.close()
        second = recorder.wrap(self.raw())
        second.execute("BEGIN")
        first.close()
        third = recorder.wrap(self.raw())
        third.execute("BEGIN")
        self.assertEqual([line for line in self.body() if line.startswith(">")], ["> 1 BEGIN;", "> 2 BEGIN;"])

    def test_a_second_closing_gives_no_number_back(self) -> None:
        raw, other = self.raw(timeout=0), self.raw()
        recorder = self.recorder()
        connection = recorder.wrap(raw)
        connection.execute("BEGIN")
        connection.execute("UPDATE t SET v = 5 WHERE id = 1")
        other.execute("BEGIN")
        other.execute("SELECT * FROM t").fetchall()
        with self.assertRaises(sqlite3.OperationalError):
            connection.commit()  # which may be tried again
        connection.close()
        connection.close()
        other.execute("COMMIT")
        last = recorder.wrap(self.raw())
        self.assertEqual(last.execute("SELECT v FROM t WHERE id = 1").fetchall(), [(10,)])
        self.assertEqual([line for line in self.lines() if line[0] == ">"][-3:], ["> 2 BEGIN;", "> 2 SELECT v FROM t WHERE id = 1;", "> 2 COMMIT;"])
        self.assertEqual(recorder.verdict().answer, "yes")

    def test_what_was_written_unsaid_and_committed_beside_the_recorder(self) -> None:
        recorder = self.recorder()
        connection = recorder.wrap(self.raw())
        connection.execute("SELECT v FROM t WHERE id = 1")
        connection.execute("BEGIN")
        connection.execute("UPDATE OR IGNORE t SET v = 5 WHERE id = 1")
        connection.wrapped.commit()
        with self.assertWarns(RecordingWarning):
            connection.execute("SELECT v FROM t WHERE id = 1")
        self.assertRegex(str(recorder.ended), "a transaction ended by a way that isn't recorded")
        self.assertEqual(recorder.verdict().answer, "unknown")

    def test_no_tables_before_the_first_connection(self) -> None:
        recorder = self.recorder()
        self.assertEqual(recorder.tables, ())
        recorder.wrap(self.raw())
        self.assertEqual([table.name for table in recorder.tables], ["t"])

    def test_all_tables(self) -> None:
        recorder = self.recorder(None)
        recorder.wrap(self.raw()).execute("UPDATE t SET v = 5 WHERE id = 1")
        self.assertEqual(([table.name for table in recorder.tables], recorder.verdict().answer), (["t"], "yes"))

    def test_a_process_that_ends_closes_its_recordings(self) -> None:
        text = f"""import sqlite3
from pgserial.recording import Recorder
kept = Recorder({self.path!r}, ["t"])
connection = kept.wrap(sqlite3.connect({self.file!r}, isolation_level=None))
connection.execute("UPDATE t SET v = 5 WHERE id = 1")
"""
        done = subprocess.run([sys.executable, "-B", "-c", text], cwd=HERE, stdout=subprocess.PIPE, stderr=subprocess.PIPE, text=True)
        self.assertEqual((done.returncode, done.stdout, done.stderr), (0, "", f"{self.path}: 1 transactions that committed\n"))
        self.assertIn(CLOSED, self.comments().split("\n"))

    def test_rows_of_numbers_where_texts_are_turned(self) -> None:
        raw = self.raw()
        raw.execute("ALTER TABLE t ADD COLUMN n TEXT DEFAULT 'x'")
        raw.text_factory = lambda data: data.decode("utf-8").upper()
        recorder = self.recorder()
        connection = recorder.wrap(raw)
        self.assertEqual(connection.execute("SELECT id, v FROM t WHERE id = 1").fetchall(), [(1, 10)])
        self.assertEqual((self.lines()[-3:-2], sum(recorder.left_out.values())), (["  1 | 1\t10"], 0))
        self.assertEqual(connection.execute("SELECT n FROM t WHERE id = 1").fetchall(), [("X",)])
        self.assertEqual(sum(recorder.left_out.values()), 1)

    def test_what_an_old_sqlite_shows(self) -> None:
        raw = self.raw()
        for version, may in (((3, 34, 9), False), ((3, 35, 0), True), ((3, 36, 0), True)):
            driver = driver_of(raw, None)
            driver._module = mock.Mock(sqlite_version_info=version)
            (table,) = [table for table, _ in driver_of(raw, None).opened({"t": None})]
            self.assertEqual(driver.facts(table).may_return, may)

    def test_what_a_closed_connection_may_commit(self) -> None:
        raw = self.raw()
        driver = driver_of(raw, None)
        self.assertTrue(driver.may_commit("PRAGMA x"))
        self.assertEqual(driver.identity(), f"the file {self.file}")
        raw.close()
        self.assertFalse(driver.may_commit("PRAGMA x"))
        self.assertFalse(driver.is_autocommit())

    def test_a_setting_that_ended_nothing_says_so(self) -> None:
        connection = self.recorder().wrap(self.raw(isolation_level="DEFERRED"))
        connection.execute("UPDATE t SET v = 5 WHERE id = 1")
        connection.isolation_level = "IMMEDIATE"
        self.assertEqual(self.comments().count(HAS_NOT.format(1)), self.comments().count(MAY_COMMIT.format(1)))
        self.assertIn(HAS_NOT.format(1), self.comments())
        connection.commit()
        self.assertEqual(self.recorders[-1].verdict().answer, "yes")

    def test_a_write_of_many_rows_that_fails_is_rolled_back(self) -> None:
        raw = self.raw()
        raw.execute("CREATE TABLE w (id INTEGER PRIMARY KEY, v INT CHECK (v < 100))")
        raw.execute("INSERT INTO w VALUES (1, 10), (2, 95)")
        recorder = self.recorder(["w"])
        connection = recorder.wrap(raw)
        with self.assertRaises(sqlite3.IntegrityError):
            connection.execute("UPDATE w SET v = v + 10")
        self.assertEqual((self.lines()[-2:], recorder.committed), (["> 1 ROLLBACK;", "  1 ROLLBACK"], 0))

    def test_an_undone_savepoint_undoes_what_cant_be_said(self) -> None:
        recorder = self.recorder()
        connection = recorder.wrap(self.raw())
        connection.execute("BEGIN")
        connection.execute("UPDATE t SET v = 5 WHERE id = 1")
        for text in ("SAVEPOINT a", "UPDATE OR IGNORE t SET v = 6 WHERE id = 1", "ROLLBACK TO a", "RELEASE a"):
            connection.execute(text)
        connection.execute("COMMIT")
        told = recorder.verdict()
        self.assertEqual((told.answer, told.ended), ("yes", None))

    def test_what_a_savepoint_holds_back_unsaid_is_told_as_it_commits(self) -> None:
        for texts in (("UPDATE OR IGNORE t SET v = 6 WHERE id = 1", "SAVEPOINT a", "ROLLBACK TO a"), ("SAVEPOINT a", "UPDATE OR IGNORE t SET v = 6 WHERE id = 1", "SAVEPOINT b", "ROLLBACK TO b", "RELEASE a")):
            recorder = self.recorder()
            connection = recorder.wrap(self.raw())
            connection.execute("BEGIN")
            for text in texts:
                connection.execute(text)
            with self.subTest(texts), self.assertWarns(RecordingWarning):
                connection.execute("COMMIT")
            self.assertEqual(recorder.verdict().answer, "unknown")

    def test_texts_that_stop_too_early(self) -> None:
        recorder = self.recorder()
        connection = recorder.wrap(self.raw())
        for text in ("CREATE TABLE", "CREATE TABLE t", "CREATE TABLE IF NOT EXISTS", "CREATE TABLE main.", "CREATE", "CREATE TEMP", "SAVEPOINT", "RELEASE", "ROLLBACK TO", "PRAGMA", "WITH", "INSERT", "UPDATE", "DELETE", "SELECT"):
            with self.subTest(text), self.assertRaises(sqlite3.Error):
                connection.execute(text)
        self.assertEqual((recorder.ended, recorder.committed), (None, 0))

    def test_what_isnt_said_by_itself_is_marked_once(self) -> None:
        recorder = self.recorder()
        connection = recorder.wrap(self.raw())
        with self.assertWarns(RecordingWarning):
            connection.execute("UPDATE OR IGNORE t SET v = 5 WHERE id = 1")
        connection.execute("UPDATE t SET v = 6 WHERE id = 1")
        self.assertEqual((self.comments().count("-- written"), sum(" not said" in line for line in self.lines())), (0, 1))

    def test_a_script_that_fails_has_committed_what_was_open(self) -> None:
        recorder = self.recorder()
        connection = recorder.wrap(self.raw())
        connection.execute("BEGIN")
        connection.execute("UPDATE t SET v = 5 WHERE id = 1")
        with self.assertRaises(sqlite3.OperationalError):
            connection.executescript("SELECT nothing FROM t")
        self.assertEqual(connection.execute("SELECT v FROM t WHERE id = 1").fetchall(), [(5,)])
        told = recorder.verdict()
        self.assertEqual((told.answer, told.committed, told.ended), ("yes", 2, None))

    def test_what_ends_nothing_is_told_to_end_nothing(self) -> None:
        for isolation, texts in (
            ("DEFERRED", ("UPDATE t SET v = 5 WHERE id = 1", "COMMIT")), (None, ("BEGIN", "SAVEPOINT a", "UPDATE t SET v = 5 WHERE id = 1", "RELEASE a", "COMMIT")),
            (None, ("BEGIN", "UPDATE t SET v = 5", "SELECT v FROM t", "COMMIT")), ("IMMEDIATE", ("DELETE FROM t WHERE id = 7", "COMMIT")),
        ):  # fmt: skip
            connection = self.recorder().wrap(self.raw(isolation_level=isolation))
            connection.executescript("SELECT 1;")
            for text in texts:
                connection.execute(text)
            with self.subTest(texts):
                self.assertNotIn(MAY_COMMIT.format(1), self.comments())
                self.assertNotIn(HAS_NOT.format(1), self.comments())
            self.assertEqual(self.recorders[-1].verdict().answer, "yes")

    def test_the_end_of_an_inner_transaction_that_fails_undoes_it(self) -> None:
        recorder = self.recorder()
        connection = recorder.wrap(self.raw())
        for text in ("BEGIN", "UPDATE t SET v = 5 WHERE id = 1", "SAVEPOINT a", "UPDATE t SET v = 6 WHERE id = 1"):
            connection.execute(text)
        connection.wrapped.execute("ROLLBACK TO a")
        Inner(connection._session, "a", True).failed(KeyError())
        self.assertEqual(connection.execute("SELECT v FROM t WHERE id = 1").fetchall(), [(5,)])
        connection.execute("COMMIT")
        self.assertEqual((said(self.lines(), "UPDATE"), recorder.verdict().answer), (["UPDATE t SET v = 5 WHERE id = 1;"], "yes"))

    def test_names_that_stand_otherwise_are_told(self) -> None:
        raw = self.raw()
        raw.executescript('CREATE TABLE "Order" ("From" INT NOT NULL, "to" INT NOT NULL, n TEXT, PRIMARY KEY ("From", "to")); CREATE TABLE w (id INTEGER PRIMARY KEY)')
        self.recorder(["Order", "w"]).wrap(raw)
        told = [line for line in self.comments().split("\n") if "stands as" in line or "is made of" in line]
        self.assertEqual(told, ["-- Table Order stands as order.", "-- Column from_to of table order is made of its key: From, to.", "-- Column From of table Order stands as from_."])

    def test_places_beyond_those_that_are_told_apart(self) -> None:
        recorder = self.recorder()
        connection = recorder.wrap(self.raw())
        with mock.patch.object(recording, "_MOST_TOLD", 1):
            for _ in range(2):
                connection.execute("SELECT max(v) FROM t")
            connection.execute("SELECT max(v) FROM t")
            connection.execute("SELECT max(v) FROM t")
        (left,) = recorder.verdict().left_out
        self.assertEqual((left.count, [count for _, count in left.places]), (4, [2, 2]))
        self.assertEqual(left.places[1][0], "elsewhere")

    def test_executemany_of_none_forgets_what_was_before(self) -> None:
        def used(connection: Any) -> Any:
            cursor = connection.cursor()
            cursor.execute("UPDATE t SET v = v + 1")
            cursor.executemany("UPDATE t SET v = ? WHERE id = ?", [])
            return cursor.rowcount, cursor.description

        wanted = used(self.raw())
        self.assertEqual(used(self.recorder().wrap(self.raw())), wanted)

    def test_modes_of_a_newer_sqlite3(self) -> None:
        driver = driver_of(self.raw(), None)
        for autocommit, isolation, is_one in ((True, "DEFERRED", True), (True, None, True), (False, None, False), (False, "", False), (-1, None, True), (-1, "DEFERRED", False)):
            driver._raw = mock.Mock(in_transaction=False, autocommit=autocommit, isolation_level=isolation)
            with self.subTest(autocommit=autocommit, isolation=isolation):
                self.assertEqual(driver.is_autocommit(), is_one)

    def test_first_words(self) -> None:
        self.assertEqual([drivers._first_word(text) for text in ("  Update t", "x", "", "  ")], ["update", "x", "", ""])
        self.assertFalse(effects.is_beside(tokens_of("'set' x", "qmark")))
        self.assertFalse(effects.is_beside(tokens_of('"show" x', "qmark")))
        self.assertTrue(effects.is_beside(tokens_of("SHOW x", "qmark")))

    def test_codes_of_errors(self) -> None:
        driver = driver_of(self.raw(), None)
        for error, code in (
            (sqlite3.IntegrityError("locked"), "23000"), (sqlite3.OperationalError("database is locked"), "55P03"), (sqlite3.DatabaseError("locked"), "XX000"), (sqlite3.OperationalError("no such table"), "XX000"),
        ):  # fmt: skip
            self.assertEqual(driver.code(error), code)

    def test_rows_by_their_places(self) -> None:
        self.assertEqual([drivers._positional(row, ["a", "b"]) for row in ((1, 2), [1, 2], {"b": 2, "a": 1}, "xy")], [(1, 2), (1, 2), [1, 2], ("x", "y")])
        for row, names in (((1, 2), ["a"]), ((), ["a"]), (5, ["a"]), (None, []), ({"a": 1}, ["a", "a"])):
            with self.assertRaisesRegex(Unsaid, "its rows are"):
                drivers._positional(row, names)

    def test_words_that_write(self) -> None:
        for text, word in (
            ("replace (", None), ("SELECT replace('a', 'b', 'c')", None), ("SELECT replace", "replace"), ("FOR UPDATE", None), ("FOR NO KEY UPDATE", None), ("DO UPDATE", "update"), ("SELECT 'insert'", None), ('"delete"', None),
            ("WITH a AS (DELETE FROM t) SELECT 1", "delete"), ("update", "update"),
        ):  # fmt: skip
            self.assertEqual(effects._writing_word(tokens_of(text, "qmark")), word, text)

    def test_a_text_that_creates_a_table_and_cant_be_read(self) -> None:
        for sql in ("CREATE TABLE t (id INTEGER 'x", "CREATE TABLE t (id INTEGER \0)"):
            with self.assertRaisesRegex(Refused, "the text that creates a table can't be read: CREATE TABLE t"):
                sqlite_catalog._collated(sql)
        self.assertEqual(sqlite_catalog._collated("CREATE TABLE t (id INTEGER, n TEXT COLLATE NOCASE, m TEXT COLLATE BINARY, FOREIGN KEY (n) REFERENCES u (n))"), {"n"})

    def test_a_table_of_another_kind(self) -> None:
        raw = self.raw()
        raw.execute("CREATE VIRTUAL TABLE w USING fts4(n)")
        with self.assertRaisesRegex(Refused, "table w is no plain table"):
            self.recorder(["w"]).wrap(raw)

    def test_a_setting_behind_a_commit_that_was_refused(self) -> None:
        raw, other = self.raw(timeout=0, isolation_level="DEFERRED"), self.raw()
        recorder = self.recorder()
        connection = recorder.wrap(raw)
        connection.execute("UPDATE t SET v = 5 WHERE id = 1")
        other.execute("BEGIN")
        other.execute("SELECT * FROM t").fetchall()
        self.assertRaises(sqlite3.OperationalError, connection.commit)
        connection.isolation_level = "IMMEDIATE"
        other.execute("COMMIT")
        connection.commit()
        self.assertNotIn(MAY_COMMIT.format(1), self.comments())
        told = recorder.verdict()
        self.assertEqual((told.answer, told.committed), ("yes", 1))

    def test_writes_of_a_table_without_a_key(self) -> None:
        raw = self.other("CREATE TABLE w (n INT, v INT)", "INSERT INTO w VALUES (1, 1), (1, 1), (2, 2)")
        recorder = self.recorder(["w"])
        connection = recorder.wrap(raw)
        for text in ("UPDATE w SET v = 5 WHERE n = 1", "DELETE FROM w WHERE n = 2", "UPDATE w SET v = v + 1"):
            connection.execute(text)
        self.assertEqual(said(self.lines(), "UPDATE", "DELETE"), ["UPDATE w SET v = 5 WHERE n = 1;", "DELETE FROM w WHERE n = 2;", "UPDATE w SET v = v + 1;"])
        self.assertEqual(sorted(connection.execute("SELECT n, v FROM w").fetchall()), [(1, 6), (1, 6)])
        told = recorder.verdict()
        self.assertEqual((told.answer, told.committed, told.ended), ("yes", 4, None))

    def test_what_foreign_keys_change_that_isnt_recorded(self) -> None:
        made = ("CREATE TABLE p (id INTEGER PRIMARY KEY)", "INSERT INTO p VALUES (1), (2)", "CREATE TABLE c (id INTEGER PRIMARY KEY, p INT REFERENCES p ON DELETE SET NULL)", "INSERT INTO c VALUES (1, 1)")
        recorder = self.recorder({"p": None, "c": ["id"]})
        connection = recorder.wrap(self.other(*made))
        connection.execute("DELETE FROM p WHERE id = 1")
        connection.execute("SELECT id FROM c")
        told = recorder.verdict()
        self.assertEqual((told.answer, told.ended), ("yes", None))

    def test_foreign_keys_in_turn(self) -> None:
        for third, is_said in (("ON UPDATE CASCADE", True), ("ON DELETE CASCADE", False), ("ON DELETE SET NULL", False), ("", True)):
            made = (
                "CREATE TABLE p (id INTEGER PRIMARY KEY)", "INSERT INTO p VALUES (1), (2)", "CREATE TABLE c (id INTEGER PRIMARY KEY, p INT REFERENCES p ON DELETE CASCADE)", "INSERT INTO c VALUES (1, 1)",
                f"CREATE TABLE d (id INTEGER PRIMARY KEY, c INT REFERENCES c {third})",
            )  # fmt: skip
            recorder = self.recorder(["p", "c", "d"])
            connection = recorder.wrap(self.other(*made))
            with warnings.catch_warnings():
                warnings.simplefilter("ignore", RecordingWarning)
                connection.execute("DELETE FROM p WHERE id = 1")
            self.assertEqual(connection.execute("SELECT * FROM c").fetchall(), [])
            with self.subTest(third):
                self.assertEqual((recorder.verdict().answer, recorder.ended is None), ("yes" if is_said else "unknown", is_said))

    def test_what_a_verdict_counts(self) -> None:
        recorder = self.recorder()
        connection = recorder.wrap(self.raw())
        for ends in ("ROLLBACK", "COMMIT", "COMMIT"):
            for text in ("BEGIN", "UPDATE t SET v = v + 1 WHERE id = 1", "SELECT v FROM t WHERE id = 1", ends):
                connection.execute(text)
        for text in ("BEGIN", "COMMIT", "BEGIN", "ROLLBACK"):
            connection.execute(text)
        told = recorder.verdict()
        self.assertEqual((told.answer, told.committed, told.rolled_back, told.sessions, told.statements), ("yes", 2, 1, 1, 6))

    def test_rows_that_a_delete_shows_where_nothing_is_added(self) -> None:
        recorder = self.recorder()
        connection = recorder.wrap(self.raw())
        with mock.patch.object(drivers.Sqlite, "facts", lambda *_: drivers.NOTHING):
            connection.execute("BEGIN")
            self.assertEqual(len(connection.execute("DELETE FROM t WHERE v > 5 RETURNING id, v").fetchall()), 2)
            connection.execute("COMMIT")
        self.assertEqual(said(self.lines(), "SELECT", "DELETE"), ["SELECT * FROM t WHERE v > 5;", "DELETE FROM t WHERE v > 5;"])
        told = recorder.verdict()
        self.assertEqual((told.answer, told.ended), ("yes", None))

    def test_a_write_by_a_key_of_several_columns_is_told_ahead(self) -> None:
        raw = self.other("CREATE TABLE w (a INT, b INT, v INT, PRIMARY KEY (a, b)) WITHOUT ROWID", "INSERT INTO w VALUES (1, 1, 5), (1, 2, 6)")
        connection = self.recorder(["w"]).wrap(raw)
        connection.execute("UPDATE w SET v = 7 WHERE b = 1 AND a = 1")
        self.assertNotIn(MAY_COMMIT.format(1), self.comments())
        connection.execute("UPDATE w SET v = 7 WHERE a = 1")
        self.assertIn(MAY_COMMIT.format(1), self.comments())

    def test_texts_that_are_copied_are_no_sums(self) -> None:
        for facts, updates, answer in ((drivers.Sqlite.facts, ["UPDATE w SET n = 'b' WHERE id = 1;"], "yes"), (lambda *_: drivers.NOTHING, [], "unknown")):
            raw = self.other("CREATE TABLE w (id INTEGER PRIMARY KEY, n TEXT, m TEXT)", "INSERT INTO w VALUES (1, 'a', 'b')")
            recorder = self.recorder(["w"])
            connection = recorder.wrap(raw)
            with mock.patch.object(drivers.Sqlite, "facts", facts), warnings.catch_warnings():
                warnings.simplefilter("ignore", RecordingWarning)
                connection.execute("UPDATE w SET n = m WHERE id = 1")
            self.assertEqual(connection.execute("SELECT n FROM w").fetchall(), [("b",)])
            self.assertEqual((said(self.lines(), "UPDATE"), recorder.verdict().answer), (updates, answer))

    def test_recordings_that_nobody_closes(self) -> None:
        recorder = self.recorder()
        recorder.wrap(self.raw()).execute("UPDATE t SET v = 5 WHERE id = 1")
        recording._close_all()
        self.assertIn(CLOSED, self.comments().split("\n"))

    def test_an_absent_row_that_a_write_by_rows_has_read(self) -> None:
        recorder = self.recorder()
        connection = recorder.wrap(self.raw())
        connection.execute("BEGIN")
        connection.execute("UPDATE t SET v = v * 2 WHERE id = 7")
        connection.execute("UPDATE t SET v = v * 2 WHERE id = 1")
        connection.execute("COMMIT")
        self.assertEqual(self.lines()[-7:-2], ["> 1 SELECT count(*) FROM t WHERE id = 7;", "  1 SELECT 1", "  1 | 0", "> 1 UPDATE t SET v = 20 WHERE id = 1;", "  1 UPDATE 1"])
        self.assertEqual(recorder.verdict().answer, "yes")

    def other(self, *made: str, **named: Any) -> Any:
        """A connection to a database with these tables and foreign keys that hold."""
        self.file += "_"
        raw = self.raw(**named)
        raw.executescript("; ".join(made))
        raw.execute("PRAGMA foreign_keys = ON")
        return raw

    def test_a_conflict_at_other_columns_than_the_key(self) -> None:
        raw = self.other("CREATE TABLE w (id INTEGER PRIMARY KEY, n INT UNIQUE, v INT)", "INSERT INTO w VALUES (1, 1, 1)")
        recorder = self.recorder(["w"])
        connection = recorder.wrap(raw)
        with self.assertWarnsRegex(RecordingWarning, "nobody tells which rows it has put, and which were there"):
            connection.execute("INSERT INTO w VALUES (9, 1, 9) ON CONFLICT (n) DO UPDATE SET v = 3")
        connection.execute("SELECT * FROM w")
        self.assertEqual(recorder.verdict().answer, "unknown")

    def test_what_a_conflict_assigns_is_read(self) -> None:
        recorder = self.recorder()
        connection = recorder.wrap(self.raw())
        connection.execute("INSERT INTO t VALUES (1, 5) ON CONFLICT (id) DO UPDATE SET v = v + 1.0")
        self.assertEqual([kind for kind in recorder.left_out if "what it assigns" in kind], list(recorder.left_out))
        self.assertEqual(len(recorder.left_out), 1)

    def test_a_key_that_moves_where_foreign_keys_delete_alone(self) -> None:
        raw = self.other("CREATE TABLE p (id INTEGER PRIMARY KEY, v INT)", "INSERT INTO p VALUES (1, 1), (2, 2)", "CREATE TABLE c (id INTEGER PRIMARY KEY, p INT REFERENCES p ON DELETE CASCADE)", "INSERT INTO c VALUES (1, 1)")
        recorder = self.recorder(["p", "c"])
        connection = recorder.wrap(raw)
        connection.execute("UPDATE p SET id = 9 WHERE id = 2")
        connection.execute("SELECT * FROM p")
        told = recorder.verdict()
        self.assertEqual((told.answer, told.ended), ("yes", None))

    def test_a_conflict_that_deletes_nothing(self) -> None:
        made = ("CREATE TABLE p (id INTEGER PRIMARY KEY, v INT)", "INSERT INTO p VALUES (1, 1)", "CREATE TABLE c (id INTEGER PRIMARY KEY, p INT REFERENCES p ON DELETE CASCADE)", "INSERT INTO c VALUES (1, 1)")
        for text, is_said in (("INSERT INTO p VALUES (1, 5) ON CONFLICT (id) DO UPDATE SET v = 5", True), ("INSERT OR IGNORE INTO p VALUES (1, 5)", True), ("INSERT OR REPLACE INTO p VALUES (1, 5)", False)):
            recorder = self.recorder(["p", "c"])
            connection = recorder.wrap(self.other(*made))
            with warnings.catch_warnings(), self.subTest(text):
                warnings.simplefilter("ignore", RecordingWarning)
                connection.execute(text)
                self.assertEqual(recorder.ended is None, is_said)

    def test_foreign_keys_that_change_rows_with_a_column(self) -> None:
        raw = self.other("CREATE TABLE p (id INTEGER PRIMARY KEY, code INT UNIQUE)", "INSERT INTO p VALUES (1, 1)", "CREATE TABLE c (id INTEGER PRIMARY KEY, p INT REFERENCES p (code) ON UPDATE CASCADE)", "INSERT INTO c VALUES (1, 1)")
        recorder = self.recorder(["p", "c"])
        connection = recorder.wrap(raw)
        with self.assertWarnsRegex(RecordingWarning, "a foreign key of table c changes rows"):
            connection.execute("UPDATE p SET code = 9 WHERE id = 1")
        self.assertEqual(connection.execute("SELECT p FROM c").fetchall(), [(9,)])
        self.assertEqual(recorder.verdict().answer, "unknown")

    def test_several_foreign_keys_that_delete(self) -> None:
        child = "CREATE TABLE c (id INTEGER PRIMARY KEY, p INT REFERENCES p ON DELETE CASCADE, q INT REFERENCES p ON DELETE SET NULL)"
        raw = self.other("CREATE TABLE p (id INTEGER PRIMARY KEY)", "INSERT INTO p VALUES (1), (2), (3)", child, "INSERT INTO c VALUES (1, 1, 2)")
        recorder = self.recorder(["p", "c"])
        connection = recorder.wrap(raw)
        connection.execute("DELETE FROM p WHERE id = 3")
        self.assertIsNone(recorder.ended)
        with self.assertWarns(RecordingWarning):
            connection.execute("DELETE FROM p WHERE id = 1")
        self.assertEqual(recorder.verdict().answer, "unknown")

    def test_what_an_unrecorded_column_is_made_of_is_read(self) -> None:
        raw = self.other("CREATE TABLE w (id INTEGER PRIMARY KEY, v INT, extra INT)", "INSERT INTO w VALUES (1, 1, 1)")
        for text, count in (("UPDATE w SET extra = v + 1 WHERE id = 1", 1), ("UPDATE w SET extra = 3 WHERE id = 1", 0), ("UPDATE w SET extra = v * 2 WHERE id = 1", 1)):
            recorder = self.recorder({"w": ["id", "v"]})
            recorder.wrap(raw).execute(text)
            with self.subTest(text):
                self.assertEqual((sum(recorder.left_out.values()), recorder.ended), (count, None))

    def test_rows_of_another_kind_where_it_is_looked_before(self) -> None:
        for factory in (sqlite3.Row, lambda cursor, row: {"x": 1}, lambda cursor, row: "row"):
            raw = self.other("CREATE TABLE w (id INTEGER PRIMARY KEY, v INT)", "INSERT INTO w VALUES (1, 1)")
            raw.row_factory = factory
            recorder = self.recorder(["w"])
            connection = recorder.wrap(raw)
            connection.execute("INSERT OR REPLACE INTO w VALUES (1, 5), (2, 6)")
            raw.row_factory = None
            self.assertEqual(connection.execute("SELECT * FROM w").fetchall(), [(1, 5), (2, 6)])
            told = recorder.verdict()
            self.assertEqual((told.answer, told.ended), ("yes", None))

    def test_what_fails_behind_a_look_is_what_the_application_meets(self) -> None:
        raw = self.raw()
        driver = driver_of(raw, None)
        look = Look("SELECT * FROM t", "SELECT 1")
        for ends in ("ROLLBACK", "SELECT 1"):

            def fails() -> None:
                raw.execute(ends)  # noqa: B023
                raise KeyError

            self.assertRaises(KeyError, driver.looking, look, lambda rows: None, fails, lambda: None)
            self.assertFalse(raw.in_transaction)

    def test_the_end_isnt_read_by_a_closed_connection(self) -> None:
        recorder = self.recorder(verify_end=True)
        connection = recorder.wrap(self.raw())
        connection.execute("UPDATE t SET v = 5 WHERE id = 1")
        connection.wrapped.close()
        self.assertIn("no connection was idle as the recording was closed", recorder.verdict().words)

    def test_keys_of_several_columns(self) -> None:
        raw = self.other("CREATE TABLE w (a INT, b INT, v INT, PRIMARY KEY (a, b)) WITHOUT ROWID", "INSERT INTO w VALUES (1, 1, 5), (1, 2, 6)")
        recorder = self.recorder(["w"])
        connection = recorder.wrap(raw)
        for text in ("SELECT v FROM w WHERE a = 1 AND b = 2", "SELECT a, b, v FROM w WHERE b IN (1, 2) AND a = 1", "SELECT v FROM w WHERE a = 1", "UPDATE w SET v = 7 WHERE b = 1 AND a = 1", "DELETE FROM w WHERE a = 1 AND b = 7"):
            connection.execute(text).fetchall()
        told = [line.partition(" WHERE ")[2] for line in self.lines() if " WHERE " in line]
        self.assertEqual(told, ["a_b = '1,2';", "a_b = '1,1';", "a_b = '1,2';", "a = 1;", "a_b = '1,1';", "a_b = '1,7';"])
        self.assertEqual(recorder.verdict().answer, "yes")

    def test_a_connection_that_isnt_admitted_ends_what_is_followed(self) -> None:
        other = self.other("CREATE TABLE t (id INTEGER PRIMARY KEY, v INT)")
        self.file = self.file[:-1]
        follower = Follower()
        first, second = follower.follow(self.raw()), follower.follow(other)
        recorder = self.recorder()
        with self.assertWarnsRegex(RecordingWarning, "to another database than the first"), follower.recording(recorder) as given:
            first.execute("UPDATE t SET v = 5 WHERE id = 1")
            second.execute("INSERT INTO t VALUES (1, 1)")
        self.assertIs(given, recorder)
        self.assertRegex(str(recorder.ended), "to another database than the first")
        with self.assertRaisesRegex(Refused, "a recording is under way"), follower.recording(self.recorder()), follower.recording(recorder):
            pass

    def test_a_script_gives_its_own_cursor(self) -> None:
        connection = self.recorder().wrap(self.raw())
        cursor = connection.cursor()
        self.assertIs(cursor.executescript(""), cursor)
        self.assertIs(cursor.execute("SELECT 1"), cursor)


class AtTheTerminal(Room):
    """python3 -m pgserial.recording."""

    def test_a_file_that_isnt_there(self) -> None:
        told = io.StringIO()
        with mock.patch.object(sys, "argv", ["recording", os.path.join(self.folder, "gone")]), contextlib.redirect_stderr(told):
            self.assertEqual(verdict_module.main(), 1)
        self.assertIn("No such file", told.getvalue())


class AnyDriver(OnSqlite):
    """A driver of PEP 249 of which nothing is known but that it is in autocommit."""

    def test_a_transaction_of_ones_own_in_autocommit(self) -> None:
        made: Any = types.ModuleType("driver_of_any_kind")
        made.paramstyle = "qmark"
        sys.modules[made.__name__] = made
        self.addCleanup(sys.modules.pop, made.__name__)

        class Connection:
            autocommit = True

            def __init__(self, raw: sqlite3.Connection) -> None:
                self.cursor, self.commit, self.rollback, self.close = raw.cursor, raw.commit, raw.rollback, raw.close

        Connection.__module__ = made.__name__
        recorder = self.recorder({"t": {"id": "bigint", "v": "bigint"}})
        connection = recorder.wrap(Connection(self.raw()))
        for text in ("UPDATE t SET v = 4 WHERE id = 1", "BEGIN", "UPDATE t SET v = 5 WHERE id = 1", "SELECT v FROM t WHERE id = 1", "COMMIT"):
            connection.cursor().execute(text)
        commands = [line[4:-1] for line in self.body() if line[0] == ">"]
        self.assertEqual(commands, ["BEGIN", "UPDATE t SET v = 4 WHERE id = 1", "COMMIT", "BEGIN", "UPDATE t SET v = 5 WHERE id = 1", "SELECT v FROM t WHERE id = 1", "COMMIT"])


class Histories(unittest.TestCase):
    """Jepsen's."""

    def test_a_session_whose_end_isnt_known_is_no_others(self) -> None:
        ops = [("invoke", 0, "[[:w x 1]]"), ("info", 0, "[[:w x 1]]"), ("invoke", 1, "[[:r x nil]]"), ("ok", 1, "[[:r x 1]]"), ("invoke", 2, "[[:w x 2]]"), ("ok", 2, "[[:w x 2]]")]
        text = "".join(f"{{:type :{kind} :f :txn :value {value} :process {process}}}\n" for kind, process, value in ops)
        self.assertEqual(answer(text), "yes")

    def test_a_column_that_isnt_there(self) -> None:
        text = "> CREATE TABLE t (id bigint PRIMARY KEY, v bigint);\n> 1 BEGIN;\n  1 BEGIN\n> 1 SELECT nothing FROM t WHERE id = 1;\n  1 SELECT 0\n> 1 COMMIT;\n  1 COMMIT\n"
        with self.assertRaisesRegex(edn.Malformed, "line 4"):
            jepsen.history(text)


if __name__ == "__main__":
    unittest.main()
