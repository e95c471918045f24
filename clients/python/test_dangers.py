"""Tests of pgserial.dangers: what writes recorded tables though the text that does it doesn't look so.

    PGSERIAL=path/to/pgserial python3 clients/python/test_dangers.py
"""

import sqlite3
import unittest
import warnings
from typing import Any, List

from pgserial import dangers
from pgserial.catalog import declared_table
from pgserial.dangers import Dangers, sqlite_dangers
from pgserial.recording import Recorder, RecordingWarning
from pgserial.sql import tokens_of
import test_recording
from test_recording import DSN, drivers

BODY = "LANGUAGE {language} AS 'UPDATE public.t SET v = v - 1 WHERE id = 2; SELECT 1'"
SQL = BODY.format(language="sql")
TRIGGER = "CREATE FUNCTION fired() RETURNS trigger LANGUAGE plpgsql AS 'BEGIN UPDATE public.t SET v = v - 1 WHERE id = 2; RETURN NEW; END'"
LOG = "CREATE TABLE log (id serial PRIMARY KEY, w text)"
# What there is beside the tables, and a statement that takes 1 of row 2.
WRITING = (
    ((f"CREATE FUNCTION f() RETURNS int {SQL}",), "INSERT INTO log (w) VALUES (f()::text)"),
    ((f"CREATE FUNCTION f() RETURNS int {SQL}",), "UPDATE log SET w = f()::text"),
    ((f"CREATE FUNCTION f() RETURNS int {SQL}",), "DELETE FROM log WHERE id = 0 OR f() = 0"),
    ((f"CREATE FUNCTION f() RETURNS int {SQL}",), "INSERT INTO log (w) SELECT f()::text"),
    ((f"CREATE FUNCTION f() RETURNS int {SQL}",), "INSERT INTO log (w) VALUES ('x') RETURNING f()"),
    ((f"CREATE FUNCTION f() RETURNS int {SQL}",), 'SELECT "f"()'),
    ((f"CREATE FUNCTION f() RETURNS int {SQL}",), "SELECT public.f()"),
    ((f'CREATE FUNCTION "Lower"() RETURNS int {SQL}',), 'SELECT "Lower"()'),
    ((f"CREATE FUNCTION lower(bigint) RETURNS int {SQL}",), "SELECT lower(3::bigint)"),
    ((f"CREATE FUNCTION lower(bigint) RETURNS int {SQL}",), "INSERT INTO t VALUES (3, lower(3::bigint)) RETURNING v"),
    ((f"CREATE FUNCTION debit(log) RETURNS int {SQL}",), "SELECT log.debit FROM log"),
    ((f"CREATE FUNCTION debit(log) RETURNS int {SQL}",), "INSERT INTO log (w) SELECT (l).debit FROM log l"),
    ((f"CREATE FUNCTION debit(anyelement) RETURNS int {SQL}",), "SELECT l.debit FROM log l"),
    ((f"CREATE FUNCTION f() RETURNS int {SQL}", "CREATE VIEW seen AS SELECT f() AS x"), "SELECT x FROM seen"),
    ((f"CREATE FUNCTION f() RETURNS int {SQL}", "CREATE VIEW seen AS SELECT f() AS x", "CREATE VIEW over AS SELECT * FROM seen"), "INSERT INTO log (w) SELECT x::text FROM over"),
    ((f"CREATE FUNCTION f(int, int) RETURNS int {SQL}", "CREATE OPERATOR @#@ (leftarg = int, rightarg = int, function = f)"), "SELECT 1 @#@ 2"),
    ((f"CREATE FUNCTION f(int, int) RETURNS int {SQL}", "CREATE OPERATOR @#@ (leftarg = int, rightarg = int, function = f)"), "INSERT INTO log (w) SELECT 'x' WHERE 1 @#@ 2 = 1"),
    ((f"CREATE FUNCTION f(int, int) RETURNS int {SQL}", "CREATE OPERATOR @#@ (leftarg = int, rightarg = int, function = f)", "CREATE VIEW seen AS SELECT 1 @#@ 2 AS x"), "SELECT x FROM seen"),
    ((TRIGGER, "CREATE TRIGGER g AFTER INSERT ON log FOR EACH ROW EXECUTE FUNCTION fired()"), "INSERT INTO log (w) VALUES ('x')"),
    (("CREATE RULE g AS ON INSERT TO log DO ALSO UPDATE t SET v = v - 1 WHERE id = 2",), "INSERT INTO log (w) VALUES ('x')"),
    ((f"CREATE FUNCTION f() RETURNS int {SQL}", "ALTER TABLE log ADD n int DEFAULT 0", "ALTER TABLE log ALTER n SET DEFAULT f()"), "INSERT INTO log (w) VALUES ('x')"),
    ((f"CREATE FUNCTION f() RETURNS int {SQL}", "DELETE FROM log", "ALTER TABLE log ADD CHECK (f() = 1)"), "INSERT INTO log (w) VALUES ('x')"),
    ((f"CREATE FUNCTION f() RETURNS int {SQL}", "CREATE DOMAIN d AS text", "DELETE FROM log", "ALTER TABLE log ALTER w TYPE d", "ALTER DOMAIN d ADD CHECK (f() = 1) NOT VALID"), "INSERT INTO log (w) VALUES ('x')"),
    ((f"CREATE FUNCTION f() RETURNS int {SQL}", "ALTER TABLE t ADD n int DEFAULT 0", "ALTER TABLE t ALTER n SET DEFAULT f()"), "INSERT INTO t (id, v) VALUES (3, 30)"),
    (("DROP TABLE log", "CREATE VIEW log AS SELECT * FROM t"), "UPDATE log SET v = v - 1 WHERE id = 2"),
    (("DROP TABLE log", "ALTER TABLE t RENAME TO log", "CREATE TABLE t () INHERITS (log)", "ALTER TABLE t ADD PRIMARY KEY (id)", "INSERT INTO t SELECT * FROM ONLY log", "DELETE FROM ONLY log"), "UPDATE log SET v = v - 1 WHERE id = 2"),
)  # fmt: skip
HARMLESS = (
    ((f"CREATE FUNCTION f() RETURNS int {SQL}",), "INSERT INTO log AS l (id, w) VALUES (1, lower('X')) ON CONFLICT (id) DO UPDATE SET w = 'f()'"),
    ((f"CREATE FUNCTION f() RETURNS int {SQL}", "CREATE VIEW seen AS SELECT 1 AS x"), "SELECT x FROM seen"),
    (("CREATE FUNCTION g() RETURNS int LANGUAGE sql AS 'SELECT 1'",), "INSERT INTO log (w) VALUES (g()::text)"),
    (("CREATE FUNCTION g() RETURNS int LANGUAGE sql AS 'SELECT 1'", "CREATE VIEW seen AS SELECT g() AS x"), "SELECT x FROM seen"),
    ((TRIGGER.replace("fired", "g"), "CREATE TRIGGER g AFTER UPDATE ON log FOR EACH ROW EXECUTE FUNCTION g()"), "INSERT INTO log (w) VALUES ('x')"),
    (("CREATE FUNCTION g() RETURNS int LANGUAGE sql AS 'SELECT 1'", "ALTER TABLE t ADD n int DEFAULT 0", "ALTER TABLE t ALTER n SET DEFAULT g()"), "INSERT INTO t (id, v) VALUES (3, 30)"),
)  # fmt: skip


@unittest.skipUnless(drivers(), "PostgreSQL or psycopg2 isn't there (Debian: postgresql, python3-psycopg2)")
class OnPostgres(test_recording.Postgres):
    """Each takes 1 of a recorded row. What isn't said must not be a plain yes."""

    def recorded(self, driver: Any, makes: Any, text: str, ending: str = "commit") -> Recorder:
        self.make("CREATE TABLE t (id int PRIMARY KEY, v bigint)", "INSERT INTO t VALUES (1, 10), (2, 20)", LOG, "INSERT INTO log (w) VALUES ('y')", *makes)
        recorder = self.recorder({"t": ["id", "v"]}, ignoring=["log"], reading=["g"])
        connection = recorder.wrap(self.raw(driver))
        cursor = connection.cursor()
        cursor.execute("SELECT v FROM t WHERE id = 1")
        connection.commit()
        with warnings.catch_warnings():
            warnings.simplefilter("ignore", RecordingWarning)
            cursor.execute(text)
            getattr(connection, ending)()
        cursor.execute("SELECT v FROM t WHERE id = 2")
        self.seen = cursor.fetchone()[0]
        connection.commit()
        return recorder

    def test_what_writes_a_recorded_table(self) -> None:
        driver = drivers()[0]
        for makes, text in WRITING:
            with self.subTest(text, makes=makes[-1]):
                recorder = self.recorded(driver, makes, text)
                self.assertEqual(self.seen, 19)
                told = recorder.verdict()
                self.assertEqual((told.answer, told.committed), ("unknown", 1), str(told))
                self.assertIn("from statement 2 on: ", told.words)

    def test_what_is_rolled_back_does_no_harm(self) -> None:
        for driver in drivers():
            recorder = self.recorded(driver, WRITING[0][0], WRITING[0][1], "rollback")
            self.assertEqual((self.seen, recorder.verdict().answer), (20, "yes"))

    def test_what_writes_none(self) -> None:
        driver = drivers()[0]
        for makes, text in HARMLESS:
            with self.subTest(text, makes=makes):
                recorder = self.recorded(driver, makes, text)
                told = recorder.verdict()
                self.assertEqual((self.seen, told.answer, told.ended), (20, "yes", None), str(told))

    def test_what_an_ignored_table_is_written_from_is_a_read(self) -> None:
        recorder = self.recorded(drivers()[0], (), "INSERT INTO log (w) SELECT v::text FROM t")
        self.assertEqual(list(recorder.left_out), ["what is read to write table log"])

    def test_callproc(self) -> None:
        for driver in drivers():
            if not hasattr(driver.connect(DSN).cursor(), "callproc"):
                continue
            for name in ("f", "lower"):
                self.make("CREATE TABLE t (id int PRIMARY KEY, v bigint)", "INSERT INTO t VALUES (1, 10), (2, 20)", f"CREATE FUNCTION {name}(bigint) RETURNS int {SQL}")
                recorder = self.recorder()
                connection = recorder.wrap(self.raw(driver))
                connection.cursor().callproc(name, (3,))
                with self.assertWarns(RecordingWarning):
                    connection.commit()


# Inherited tests run in their own file.
for name in [name for name in dir(test_recording.Postgres) if name.startswith("test_")]:
    setattr(OnPostgres, name, None)


class OnSqlite3(test_recording.OnSqlite):
    def test_what_writes_a_recorded_table(self) -> None:
        writer = self.raw()

        def take(*_: Any) -> int:
            taken.append(1)
            return 1

        for made, text in (
            ("INSERT INTO log VALUES (3, 'x')", "CREATE TRIGGER g AFTER INSERT ON log BEGIN UPDATE t SET v = v - 1 WHERE id = 2; END"),
            ("UPDATE seen SET w = 'x'", "CREATE VIEW seen AS SELECT w FROM log; CREATE TRIGGER h INSTEAD OF UPDATE ON seen BEGIN UPDATE t SET v = v - 1 WHERE id = 2; END"),
            ("INSERT INTO log VALUES (4, lower(3))", ""), ("SELECT lower(3) FROM log", ""), ("SELECT x FROM called", "CREATE VIEW called AS SELECT lower(w) AS x FROM log"),
            ("INSERT INTO t VALUES (9, lower(3)) RETURNING v", ""), ('INSERT INTO log VALUES (4, "LOWER"(3))', ""),
            ('INSERT INTO "LOG" VALUES (3, \'x\')', "CREATE TRIGGER g AFTER INSERT ON Log BEGIN UPDATE t SET v = v - 1 WHERE id = 2; END"),
            ('UPDATE "Seen" SET w = \'x\'', "CREATE VIEW seen AS SELECT w FROM log; CREATE TRIGGER h INSTEAD OF UPDATE ON Seen BEGIN UPDATE t SET v = v - 1 WHERE id = 2; END"),
            ('SELECT x FROM "CALLED"', "CREATE VIEW called AS SELECT lower(w) AS x FROM log"),
        ):  # fmt: skip
            for registers_late in (False, True):
                taken: List[int] = []
                writer.executescript(f"DROP TABLE IF EXISTS log; CREATE TABLE log (id INTEGER PRIMARY KEY, w TEXT); INSERT INTO log VALUES (1, 'y'); {text}")
                raw = self.raw()
                calls = "lower" in (made + text).lower()
                if calls and not registers_late:
                    raw.create_function("lower", 1, take)
                recorder = self.recorder(["t"], ignoring=["log", "seen"])
                connection = recorder.wrap(raw)
                connection.execute("SELECT v FROM t WHERE id = 1")
                if calls and registers_late:
                    if "called" in text:
                        continue
                    connection.create_function("lower", 1, take)
                with self.subTest(made, late=registers_late), self.assertWarns(RecordingWarning):
                    connection.execute(made).fetchall()
                self.assertEqual(bool(taken), calls)
                self.assertEqual(recorder.verdict().answer, "unknown")
                writer.executescript("DROP VIEW IF EXISTS seen; DROP VIEW IF EXISTS called; DELETE FROM t WHERE id = 9")

    def test_what_writes_none(self) -> None:
        self.raw().execute("CREATE TABLE log (id INTEGER PRIMARY KEY, w TEXT)")
        recorder = self.recorder(["t"], ignoring=["log"], reading=["twice"])
        connection = recorder.wrap(self.raw())
        connection.create_function("twice", 1, lambda value: 2 * value)
        connection.execute("INSERT INTO log (w) VALUES (lower('X') || twice(3))")
        connection.execute("SELECT v FROM t WHERE id = 1")
        told = recorder.verdict()
        self.assertEqual((told.answer, told.ended, told.left_out), ("yes", None, ()))


class Words(unittest.TestCase):
    """What a text may write by names that are dangerous, without a database."""

    DANGERS = Dangers(frozenset(("f", "F2")), frozenset(("a",)), ("###",), frozenset(("peek",)), frozenset(("noisy",)), first="public")

    def why(self, text: str, **named: Any) -> Any:
        return self.DANGERS._replace(**named).why(tokens_of(text, "qmark", False))

    def test_functions(self) -> None:
        for text, name in (("SELECT f(1)", "f"), ('SELECT "f" (1)', "f"), ("SELECT o.f(1)", "f"), ("SELECT (f(1))", "f"), ("SELECT t.a FROM t", "a"), ('SELECT (t)."a" FROM t', "a")):
            with self.subTest(text):
                self.assertEqual(self.why(text), f"it calls {name}, which may write (say reading=['{name}'] where it doesn't)")
        for text in ("SELECT f FROM t", "SELECT t.f FROM t", "SELECT a FROM t", "SELECT a(1)", "SELECT g(1)", "SELECT 'f(1)'", "SELECT f", 'SELECT "F"(1)', "SELECT t.b"):
            with self.subTest(text):
                self.assertIsNone(self.why(text))
        self.assertIsNone(self.why("SELECT f2(1)"))
        self.assertIsNotNone(self.why("SELECT F(1)", folds=True))

    def test_views_operators_and_casts(self) -> None:
        self.assertEqual(self.why("SELECT * FROM peek"), "reading peek may write")
        self.assertEqual(self.why("SELECT 1 ### 2"), "operator ### calls a function, which may write")
        self.assertIsNone(self.why("SELECT 1 ## 2"))
        self.assertEqual(self.why("SELECT 1", casts=True), "a cast of the database calls a function")

    def test_what_is_written(self) -> None:
        self.assertEqual([self.DANGERS.why_written(name) for name in ("noisy", "Noisy", "plain")], ["writing noisy may write other tables", None, None])
        self.assertEqual(self.DANGERS._replace(folds=True).why_written("Noisy"), "writing Noisy may write other tables")

    def test_more_functions_and_the_first_schema(self) -> None:
        self.assertEqual(self.DANGERS.and_functions(frozenset(("g",))).functions, frozenset(("f", "F2", "g")))
        made = declared_table("public.t", {"id": "bigint"}, [])
        self.assertEqual([self.DANGERS.is_first(each) for each in (made, made._replace(schema="o"), None)], [True, False, False])

    def test_functions_of_extensions(self) -> None:
        functions = [(1, "lower", "c", 0, 0), (2, "lower2", "c", 0, 0), (3, "upper", "sql", 1, 0), (4, "mine", "sql", 1, 0), (5, "trusted", "sql", 1, 0), (6, "part", "sql", 0, 1)]
        answers = {dangers._FUNCTIONS: functions, dangers._NAMES: [(20000, "t"), (20001, "seen"), (20002, "over")], dangers._CHANGED: [(0,)]}
        answers[dangers._READ_USES] = [(20001, "pg_proc", 3), (20002, "pg_class", 20001), (20001, "pg_class", 20001), (20000, "pg_class", 20000)]

        def ask(query: str) -> Any:
            return [("public",)] if "current_schema" in query else answers.get(query, [])

        found = dangers.postgres_dangers(ask, frozenset(("trusted",)), ["t"])
        self.assertEqual((found.functions, found.attributes, found.read, found.first), (frozenset(("lower2", "upper", "mine", "part")), frozenset(("part",)), frozenset(("seen", "over")), "public"))
        self.assertEqual((found.written, found.calling, found.operators, found.casts, found.are_fixed), (frozenset(("seen", "over")), frozenset(), (), False, True))

    def test_of_sqlite(self) -> None:
        raw = sqlite3.connect(":memory:")
        self.addCleanup(raw.close)
        raw.create_function("mine", 1, lambda value: value)
        raw.create_function("Other", 0, lambda: 1)
        raw.executescript("CREATE TABLE t (id INTEGER PRIMARY KEY); CREATE TABLE U (id INTEGER); CREATE VIEW One AS SELECT mine(id) FROM t; CREATE VIEW two AS SELECT id FROM t")
        raw.executescript("CREATE TRIGGER r AFTER INSERT ON U BEGIN DELETE FROM t; END; CREATE TEMP TRIGGER q AFTER UPDATE ON t BEGIN DELETE FROM u; END")
        found = sqlite_dangers(lambda query: raw.execute(query).fetchall(), frozenset(("other",)))
        self.assertEqual((found.read, found.written, found.folds, found.are_fixed, found.operators), (frozenset(("one",)), frozenset(("one", "two", "u", "t")), True, False, ()))
        self.assertEqual(("mine" in found.functions, "other" in found.functions, "abs" in found.functions), (True, False, False))


if __name__ == "__main__":
    unittest.main()
