"""Tests of recordings of temporary tables: what is written there is no matter, unless it is written elsewhere too.

    PGSERIAL=path/to/pgserial python3 clients/python/test_temporary.py

Databases as in test_recording.py.
"""

import unittest
import warnings
from typing import Any, Sequence

import test_recording
from pgserial.recording import Recorder, RecordingWarning
from test_recording import drivers

F = "CREATE FUNCTION f({}) RETURNS {} LANGUAGE sql AS 'UPDATE public.t SET v = 0; SELECT {}'"
CHILD = ("CREATE TABLE p (id int PRIMARY KEY)", "INSERT INTO p VALUES (1)", "CREATE TABLE c (id int PRIMARY KEY, p int REFERENCES p ON DELETE CASCADE)", "INSERT INTO c VALUES (5, 1)")


class Cases:
    """What is the same on all databases."""

    def judged(self, connection: Any, recorder: Recorder, texts: Sequence[str]) -> Any:
        """The verdict of texts, each of which ends well."""
        with warnings.catch_warnings():
            warnings.simplefilter("ignore", RecordingWarning)
            for text in texts:
                connection.cursor().execute(text)
            connection.close()
        return recorder.verdict()


@unittest.skipUnless(drivers(), "PostgreSQL or psycopg2 isn't there (Debian: postgresql, python3-psycopg2)")
class OnPostgres(test_recording.OnPostgres, Cases):
    def setUp(self) -> None:
        super().setUp()
        self.addCleanup(self.make)  # a view keeps others from dropping the table

    def said(self, makes: Sequence[str], tables: Sequence[str], *texts: str) -> Any:
        self.make(*test_recording.T, *makes)
        recorder = self.recorder(tables, verify_end=True)
        return self.judged(recorder.wrap(self.raw(drivers()[0], True)), recorder, texts)

    def test_what_is_no_matter(self) -> None:
        for texts in (
            ("CREATE TEMP TABLE x (id int, v bigint NOT NULL, n varchar(9), PRIMARY KEY (id), w double precision)", "INSERT INTO x (id, v, w) VALUES (1, 2, 3)", "UPDATE pg_temp.x SET v = 3", "DROP TABLE x"),
            ("CREATE TEMPORARY TABLE x AS SELECT id, v FROM t", "DELETE FROM x", "TRUNCATE x"), ("CREATE TEMP TABLE IF NOT EXISTS x (id int) ON COMMIT DELETE ROWS", "INSERT INTO x VALUES (1)"),
            ("BEGIN", "CREATE TEMP TABLE x (id int) ON COMMIT DROP", "INSERT INTO x SELECT id FROM t", "UPDATE t SET v = 3 WHERE id = 1", "COMMIT"),
        ):  # fmt: skip
            with self.subTest(texts):
                told = self.said((), ["t"], *texts, "SELECT v FROM t WHERE id = 1")
                self.assertEqual((told.answer, told.ended), ("yes", None), told)

    def test_what_is_read_for_it_is_counted(self) -> None:
        told = self.said((), ["t"], "CREATE TEMP TABLE x AS SELECT id FROM t", "INSERT INTO x SELECT id FROM t", "UPDATE t SET v = 3 WHERE id = 1")
        self.assertEqual([(each.kind, each.count) for each in told.left_out], [("what is read to make a temporary table", 1), ("what is read to write table x", 1)])

    def test_what_writes_elsewhere(self) -> None:
        for makes, tables, texts in (
            ((), ["t"], ("CREATE TEMP TABLE x () INHERITS (t)", "INSERT INTO x VALUES (7, 7)", "SELECT * FROM t")),
            (CHILD, ["c"], ("CREATE TEMP TABLE p (id int)", "DELETE FROM public.p", "SELECT * FROM c")),
            (CHILD, ["c"], ("CREATE TEMP TABLE p (id int)", "DISCARD TEMP", "DELETE FROM p", "SELECT * FROM c")),
            ((F.format("", "int", "1"), "CREATE TABLE d (id int, w int DEFAULT f())"), ["t"], ("CREATE TEMP TABLE x (LIKE d INCLUDING ALL)", "INSERT INTO x (id) VALUES (1)", "SELECT * FROM t")),
            ((F.format("int", "boolean", "true"), "CREATE DOMAIN dd AS int CHECK (f(VALUE))"), ["t"], ("CREATE TEMP TABLE x (w dd)", "INSERT INTO x VALUES (1)", "SELECT * FROM t")),
            ((F.format("int", "boolean", "true"), "CREATE DOMAIN dd AS int CHECK (f(VALUE))"), ["t"], ("SELECT v FROM t", "SELECT 1::dd", "SELECT * FROM t")),
            ((F.format("int", "boolean", "true"), "CREATE DOMAIN dd AS int CHECK (f(VALUE))"), ["t"], ("CREATE TEMP TABLE x AS SELECT NULL::dd AS w", "INSERT INTO x VALUES (1)", "SELECT * FROM t")),
            ((F.format("", "int", "1"),), ["t"], ("CREATE TEMP TABLE x AS SELECT f() AS w", "SELECT * FROM t")),
            ((F.format("", "int", "1"),), ["t"], ("CREATE TEMP TABLE x (w int)", "INSERT INTO x VALUES (f())", "SELECT * FROM t")),
            ((F.format("", "int", "1"),), ["t"], ("CREATE TEMP TABLE x (w int DEFAULT f())", "INSERT INTO x DEFAULT VALUES", "SELECT * FROM t")),
            ((), ["t"], ("CREATE TEMP TABLE x (w int)", "CREATE RULE r AS ON INSERT TO x DO ALSO UPDATE t SET v = 0", "INSERT INTO x VALUES (1)", "SELECT * FROM t")),
            (("CREATE VIEW x AS SELECT * FROM t",), ["t"], ("CREATE TEMP TABLE x (id int)", "DROP TABLE x", "DELETE FROM x", "SELECT * FROM t")),
            (("CREATE VIEW x AS SELECT * FROM t",), ["t"], ("BEGIN", "CREATE TEMP TABLE x (id int)", "ROLLBACK", "DELETE FROM x", "SELECT * FROM t")),
            (("CREATE VIEW x AS SELECT * FROM t",), ["t"], ("BEGIN", "SAVEPOINT a", "CREATE TEMP TABLE x (id int)", "ROLLBACK TO a", "DELETE FROM x", "COMMIT", "SELECT * FROM t")),
            (("CREATE VIEW x AS SELECT * FROM t",), ["t"], ("BEGIN", "CREATE TEMP TABLE x (id int) ON COMMIT DROP", "COMMIT", "DELETE FROM x", "SELECT * FROM t")),
        ):  # fmt: skip
            with self.subTest(texts):
                self.assertEqual(self.said(makes, tables, *texts).answer, "unknown")

    def test_a_cast_whose_function_writes_nothing(self) -> None:
        makes = ("CREATE FUNCTION f(int) RETURNS boolean IMMUTABLE LANGUAGE sql AS 'SELECT true'", "CREATE DOMAIN dd AS int CHECK (f(VALUE))")
        told = self.said(makes, ["t"], "UPDATE t SET v = 3 WHERE id = 1", "SELECT 1::dd")
        self.assertEqual((told.answer, told.ended), ("yes", None))


class OnSqlite(test_recording.OnSqlite, Cases):
    def said(self, makes: Sequence[str], tables: Sequence[str], *texts: str) -> Any:
        self.file += "_"
        raw = self.raw()
        for text in (*test_recording.T, *makes, "PRAGMA foreign_keys = ON"):
            raw.execute(text)
        recorder = self.recorder(tables, verify_end=True)
        return self.judged(recorder.wrap(raw), recorder, texts)

    def test_what_is_no_matter(self) -> None:
        for texts in (
            ("CREATE TEMP TABLE x (id INTEGER PRIMARY KEY, v odd)", "INSERT INTO x VALUES (1, 2)", "UPDATE temp.x SET v = 3", "DROP TABLE x"), ("CREATE TEMP TABLE x AS SELECT id, v FROM t", "DELETE FROM x"),
        ):  # fmt: skip
            with self.subTest(texts):
                told = self.said((), ["t"], *texts, "SELECT v FROM t WHERE id = 1")
                self.assertEqual((told.answer, told.ended), ("yes", None), told)

    def test_what_writes_elsewhere(self) -> None:
        view = ("CREATE VIEW x AS SELECT * FROM t", "CREATE TRIGGER r INSTEAD OF DELETE ON x BEGIN UPDATE t SET v = 0; END")
        for makes, tables, texts in (
            (CHILD, ["c"], ("CREATE TEMP TABLE p (id int)", "DELETE FROM main.p", "SELECT * FROM c")), (view, ["t"], ("CREATE TEMP TABLE x (id int)", "DROP TABLE x", "DELETE FROM x", "SELECT * FROM t")),
            (view, ["t"], ("BEGIN", "CREATE TEMP TABLE x (id int)", "ROLLBACK", "DELETE FROM x", "SELECT * FROM t")), (view, ["t"], ("CREATE TEMP TABLE x (id int)", "DELETE FROM main.x", "SELECT * FROM t")),
            ((), ["t"], ("CREATE TEMP TABLE x (id int)", "CREATE TEMP TRIGGER r AFTER INSERT ON x BEGIN UPDATE t SET v = 0; END", "INSERT INTO x VALUES (1)", "SELECT * FROM t")),
        ):  # fmt: skip
            with self.subTest(texts):
                self.assertEqual(self.said(makes, tables, *texts).answer, "unknown")


if __name__ == "__main__":
    unittest.main()
