"""Tests of recordings of SQLite's columns of other kinds than whole numbers, texts and bytes, and of its tables' keys.

    PGSERIAL=path/to/pgserial python3 clients/python/test_recorded_sqlite.py
"""

import contextlib
import datetime
import unittest
from typing import Any, List, Tuple

from pgserial.recording import Recorder, RecordingWarning, verdict
from test_recording import OnSqlite

# A type of SQLite, three values, and other spellings of the first that are equal to it there.
SQLITE_KINDS: List[Tuple[str, List[Any], List[Any]]] = [
    ("BOOLEAN", [True, False, None], [1]),
    ("DATE", [datetime.date(2024, 2, 29), "2024-03-01", datetime.date(1969, 12, 31)], ["2024-02-29"]),
    ("TIMESTAMP", [datetime.datetime(2024, 2, 29, 1, 2, 3), "2024-03-01 00:00:00", datetime.datetime(2024, 2, 29, 1, 2, 3, 4)], ["2024-02-29 01:02:03"]),
    ("DATETIME", ["2024-02-29 01:02:03.000000", "2024-02-29", datetime.datetime(2024, 2, 29)], []),
    ("DECIMAL(10, 2)", [1.5, 2, "abc"], ["1.5", " 1.50", "15e-1", 1.5]),
    ("NUMERIC", [3, -0.25, 2**60], [3.0, "3", "3.0"]),
    ("REAL", [1, 0.1, "x"], [1.0, "1", "1.0"]),
    ("JSON", ['{"a": 1}', "[]", "7.5"], []),
    ("", [1, "1", b"1"], [1.0]),
]


class OnSqlite3(OnSqlite):
    def two(self) -> Tuple[Recorder, Any, Any]:
        recorder = self.recorder(["w"])
        return recorder, recorder.wrap(self.raw(isolation_level=None)), recorder.wrap(self.raw(isolation_level=None))

    def each_kind(self) -> Any:
        for type_name, values, spellings in SQLITE_KINDS:
            with self.subTest(type_name):
                raw = self.raw()
                raw.execute("DROP TABLE IF EXISTS w")
                raw.execute(f"CREATE TABLE w (id INTEGER PRIMARY KEY, v {type_name})")
                raw.execute("INSERT INTO w VALUES (1, ?), (2, ?)", (values[0], values[0]))
                yield values, spellings

    def test_one_transaction_after_another_is_explained(self) -> None:
        for (first, second, third), spellings in self.each_kind():
            recorder, one, two = self.two()
            one.execute("INSERT INTO w VALUES (3, ?)", (third,))
            one.execute("UPDATE w SET v = ? WHERE id = 2", (second,))
            for same in [first, *spellings]:
                self.assertEqual(two.execute("SELECT id FROM w WHERE v = ?", (same,)).fetchall(), [(1,)], same)
                two.execute("SELECT * FROM w WHERE v <> ?", (same,)).fetchall()
                two.execute("UPDATE w SET v = ? WHERE id = 2", (same,))
                self.assertEqual(len(one.execute("SELECT v FROM w WHERE v = ?", (first,)).fetchall()), 2)
                two.execute("UPDATE w SET v = ? WHERE id = 2", (second,))
            one.execute("DELETE FROM w WHERE v = ?", (second,))
            two.execute("SELECT * FROM w WHERE v IS NOT NULL").fetchall()
            self.assertEqual((recorder.verdict().answer, dict(recorder.left_out), recorder.ended), ("yes", {}, None), "\n".join(self.lines()))

    def test_a_value_that_nobody_had_written_is_found(self) -> None:
        for (_, second, third), _ in self.each_kind():
            recorder, one, two = self.two()
            one.execute("BEGIN")
            one.execute("SELECT v FROM w WHERE id = 1").fetchall()
            one.execute("UPDATE w SET v = ? WHERE id = 1", (second,))
            one.execute("COMMIT")
            two.execute("UPDATE w SET v = ? WHERE id = 1", (third,))
            self.assertEqual(recorder.verdict().answer, "yes")
            with open(self.path, encoding="utf-8") as file:
                text = file.read()
            row = next(line for line in text.split("\n") if line.startswith("  1 | "))
            written = next(line for line in text.split("\n") if line.startswith("> 1 UPDATE"))
            said = written.split(" = ")[1].split(" WHERE")[0].strip("'")
            with open(self.path, "w", encoding="utf-8") as file:  # as if that had been there before
                file.write(text.replace(row, f"  1 | {said}"))
            self.assertEqual(verdict(self.path).answer, "no", said)

    def test_values_that_are_not_surely_known(self) -> None:
        for type_name, value in (("REAL", 2**53 + 1), ("NUMERIC", "0.1234567890123456789"), ("BOOLEAN", 2), ("DATE", "29 Feb 2024"), ("TIMESTAMP", "2024-02-29T00:00:00"), ("BLOB", "text"), ("INT", 1.5)):
            with self.subTest(type_name):
                raw = self.raw(isolation_level=None)
                raw.execute("DROP TABLE IF EXISTS w")
                raw.execute(f"CREATE TABLE w (id INTEGER PRIMARY KEY, v {type_name})")
                recorder = self.recorder(["w"])
                connection = recorder.wrap(raw)
                connection.execute("SELECT id FROM w WHERE v = ?", (value,)).fetchall()
                with contextlib.suppress(AssertionError), self.assertWarns(RecordingWarning):
                    connection.execute("INSERT INTO w VALUES (1, ?)", (value,))
                self.assertTrue(recorder.ended is not None or sum(recorder.left_out.values()) > 0)

    def test_keys(self) -> None:
        raw = self.raw(isolation_level=None)
        raw.executescript(
            "CREATE TABLE w (a INT, b TEXT, v INT, PRIMARY KEY (a, b)); INSERT INTO w VALUES (1, 'x', 10);"
            "CREATE TABLE y (v INT, n TEXT NOT NULL UNIQUE); CREATE TABLE z (v INT);"
            "CREATE TABLE c (id INTEGER PRIMARY KEY, a INT, b TEXT, FOREIGN KEY (a, b) REFERENCES w ON DELETE CASCADE); INSERT INTO c VALUES (1, 1, 'x'), (2, 1, 'x');"
            "CREATE TABLE q (id INTEGER PRIMARY KEY, v INT); CREATE TRIGGER r AFTER UPDATE ON q BEGIN DELETE FROM z; END;"
            "CREATE TABLE n (id TEXT PRIMARY KEY, v TEXT COLLATE NOCASE, w TEXT);"
        )
        raw.execute("PRAGMA foreign_keys = ON")
        recorder = self.recorder(["w", "y", "z", "c", "q", "n"])
        connection = recorder.wrap(raw)
        for text in (
            "UPDATE w SET v = v + 1 WHERE b = 'x' AND a = 1", "INSERT INTO y VALUES (1, 'n')", "UPDATE y SET v = 2 WHERE n = 'n'", "INSERT INTO z VALUES (5), (5)",
            "DELETE FROM z WHERE v = 5", "DELETE FROM w WHERE a = 1 AND b = 'x'", "INSERT INTO q VALUES (1, 1)", "INSERT INTO n VALUES ('k', 'V', 'w')", "UPDATE n SET w = 'z' WHERE id = 'k'",
        ):  # fmt: skip
            connection.execute(text)
        self.assertEqual(connection.execute("SELECT count(*) FROM c").fetchall(), [(0,)])
        for text in (
            "UPDATE w SET v = v + 1 WHERE a_b = '1,\"x\"';", "UPDATE y SET v = 2 WHERE n = 'n';", "INSERT INTO z VALUES (2, 5);", "DELETE FROM z WHERE v = 5;",
            "DELETE FROM c WHERE a = 1 AND b = 'x';", "INSERT INTO n VALUES ('k', 'w');", "UPDATE n SET w = 'z' WHERE id = 'k';",
        ):  # fmt: skip
            self.assertIn("> 1 " + text, self.lines())
        self.assertEqual((verdict(self.path).answer, dict(recorder.left_out)), ("yes", {}))
        with self.assertWarnsRegex(RecordingWarning, "it has trigger r"):
            connection.execute("UPDATE q SET v = 2")

    def test_foreign_keys_that_are_off(self) -> None:
        raw = self.raw(isolation_level=None)
        raw.executescript("CREATE TABLE w (id INTEGER PRIMARY KEY); CREATE TABLE c (w INT REFERENCES w ON DELETE CASCADE); INSERT INTO w VALUES (1), (2); INSERT INTO c VALUES (1), (2)")
        recorder = self.recorder(["w", "c"])
        connection = recorder.wrap(raw)
        connection.execute("DELETE FROM w WHERE id = 1")
        self.assertEqual(connection.execute("SELECT count(*) FROM c").fetchall(), [(2,)])
        connection.execute("PRAGMA foreign_keys = ON")
        connection.execute("DELETE FROM w WHERE id = 2")
        self.assertEqual(connection.execute("SELECT count(*) FROM c").fetchall(), [(1,)])
        self.assertEqual((recorder.verdict().answer, recorder.ended, dict(recorder.left_out)), ("yes", None, {}))

    def test_a_table_that_replaces_rows_by_itself(self) -> None:
        raw = self.raw(isolation_level=None)
        raw.execute("CREATE TABLE w (id INTEGER PRIMARY KEY ON CONFLICT REPLACE, v INT)")
        connection = self.recorder(["w"]).wrap(raw)
        with self.assertWarnsRegex(RecordingWarning, "its ON CONFLICT may replace rows"):
            connection.execute("INSERT INTO w VALUES (1, 1)")


if __name__ == "__main__":
    unittest.main()
