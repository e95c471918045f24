"""Tests of the parts of statements that the grammar of transcripts lacks, and of what ends or begins a transaction.

    python3 clients/python/test_shapes.py
"""

import unittest
from typing import Any, Optional

from pgserial.effects import READING, Control, control_of, written_table
from pgserial.shapes import Conflict, Reading, read_of, write_of
from pgserial.sql import Column, Constant, Made, Name, Sum, tokens_of
from pgserial.values import Unsaid


def read(text: str) -> Any:
    return read_of(tokens_of(text, "qmark"), READING)


def write(text: str) -> Any:
    return write_of(tokens_of(text, "qmark"), READING)


class Reads(unittest.TestCase):
    def refused(self, of: Any, cases: Any) -> None:
        for text, words in cases:
            with self.subTest(text), self.assertRaises(Unsaid) as raised:
                of(text)
            self.assertIn(words, str(raised.exception))

    def test_what_is_no_plain_query(self) -> None:
        self.refused(read, (
            ("UPDATE t SET v = 1", "it is no plain query"), ("WITH RECURSIVE a AS (SELECT 1) SELECT * FROM a", "it is no plain query"), ("WITH a AS (SELECT 1)", "it is no plain query"),
            ("SELECT 1; SELECT 2", "it is no single statement"), (";", "it is no single statement"), ("WITH a AS x SELECT 1", "its WITH can't be read"), ("WITH a", "its WITH can't be read"),
            ("WITH", "its WITH can't be read"), ("WITH a AS NOT MATERIALIZED", "its WITH can't be read"), ("SELECT id FROM t UNION SELECT 2", "it joins queries, or groups"),
            ("SELECT id FROM t GROUP BY ROLLUP (id)", "it joins queries, or groups"), ("WITH a AS (DELETE FROM t RETURNING id) SELECT * FROM a", "DELETE stands in it"),
            ("SELECT id FROM t WHERE update = 1", "UPDATE stands in it"), ("SELECT insert FROM t", "INSERT stands in it"), ("SELECT replace FROM t", "REPLACE stands in it"),
            ("SELECT id FROM t FOR DELETE", "DELETE stands in it"), ("SELECT f(1) FROM t", "it calls f"), ('SELECT "f"(1) FROM t', "it calls f"), ("SELECT id FROM t, f(1)", "it calls f"), ("SELECT (id FROM t", "its parentheses don't end"),
        ))  # fmt: skip

    def test_plain_queries(self) -> None:
        for text, sources, is_whole in (
            ("SELECT id, v FROM t WHERE id = 1", 1, True), ("SELECT id FROM t;", 1, True), ("SELECT count(*) FROM t", 1, False), ("SELECT lower(n) FROM t", 1, True), ("SELECT sum(v) FROM t", 1, False),
            ("SELECT id FROM t LIMIT 1", 1, False), ("SELECT id FROM t FOR UPDATE", 1, True), ("SELECT id FROM t FOR NO KEY UPDATE SKIP LOCKED", 1, False), ("SELECT id FROM t OFFSET 1", 1, False),
            ("SELECT replace(n, 'a', 'b') FROM t", 1, True), ('SELECT "update" FROM t', 1, True), ("SELECT a.id FROM t a JOIN u b ON a.id = b.id", 2, False), ("SELECT id FROM t, u", 2, False),
            ("SELECT id FROM t GROUP BY id", 1, False), ("SELECT DISTINCT id FROM t", 1, True), ("SELECT DISTINCT ON (v) id FROM t", 1, False), ("SELECT ALL id FROM t", 1, True),
            ("WITH a AS (SELECT 1) SELECT id FROM t", 1, False), ("SELECT id FROM t TABLESAMPLE system (5)", 1, False), ("SELECT id FROM t WHERE lower(n) = 'a'", 1, False), ("SELECT 1", 0, False),
            ("SELECT id FROM t WHERE v = 'update'", 1, True), ("SELECT id FROM t HAVING id > 1", 1, False), ("SELECT id FROM t WHERE id = 1 ORDER BY id FETCH FIRST ROW ONLY", 1, False),
        ):  # fmt: skip
            with self.subTest(text):
                found = read(text)
                self.assertEqual((len(found.sources), found.is_whole), (sources, is_whole))

    def test_what_a_query_has(self) -> None:
        found = read("WITH a AS MATERIALIZED (SELECT 1), b (x, y) AS (SELECT 1, 2) SELECT DISTINCT a.x, 3 FROM a NATURAL JOIN t")
        self.assertEqual((found.with_names, found.is_distinct, found.is_merged, len(found.items), len(found.sources)), (frozenset("ab"), True, True, 2, 2))
        found = read("SELECT v FROM t WHERE id = 1 AND v = 2")
        self.assertEqual((found.with_names, found.is_distinct, found.is_merged, len(found.conditions)), (frozenset(), False, False, 2))
        self.assertEqual(read("SELECT v FROM t, u WHERE id = 1").conditions, ())
        self.assertTrue(read("SELECT v FROM t JOIN u USING (id)").is_merged)
        for text, count in (("id = 1 AND v = 2 OR n = 'x'", 0), ("id = 1 AND (v = 2 OR n = 'x')", 1), ("id BETWEEN 1 AND 2 AND v = 3", 2), ("id = 1 AND v + w = 3 AND n = 'x'", 2)):
            self.assertEqual(len(read(f"SELECT v FROM t WHERE {text}").conditions), count, text)


    def test_what_is_shown(self) -> None:
        for text, kind in (
            ("v * 2", Reading), ("CASE WHEN true THEN 1 ELSE 2 END", Made), ('"case" || 1', Reading), ("5", Constant), ("v", Column), ("lower('x')", Made), ("count(*)", Reading), ("1 || date '2020-01-01'", Made),
            ("current_date || 'x'", Made), ("1 + 2", Made), ("'a'::text || 'b'", Made), ("(SELECT 1)", Reading),
        ):  # fmt: skip
            with self.subTest(text):
                self.assertIs(type(read(f"SELECT {text} FROM t").items[0]), kind)
        self.assertRaises(Unsaid, read, "SELECT a.b.* + * FROM t")
        for text in ("SELECT", "SELECT DISTINCT", "SELECT ALL", "SELECT DISTINCT ON (v)"):
            read(text)


class Writes(Reads):
    test_plain_queries = test_what_a_query_has = test_what_is_no_plain_query = test_what_is_shown = None  # type: ignore

    def test_what_cant_be_read(self) -> None:
        self.refused(write, (
            ("DELETE t WHERE id = 1", "its FROM can't be read"), ("DELETE", "its FROM can't be read"), ("DELETE FROM", "it ends too early"), ("DELETE FROM t LIMIT 1", "its table can't be read"), ("DELETE FROM t WHERE id = 1 LIMIT 1", "it has a LIMIT"),
            ("INSERT t VALUES (1)", "its INTO can't be read"), ("INSERT", "its INTO can't be read"), ("INSERT OR FAIL INTO t VALUES (1)", "it has OR FAIL"), ("INSERT OR", "its INTO can't be read"),
            ("INSERT OR IGNORE INTO t VALUES (1) ON CONFLICT DO NOTHING", "it has two ways about conflicts"), ("UPDATE t SET v = f(1)", "it calls f"), ("UPDATE t SET v = 1 WHERE id IN (DELETE FROM u)", "DELETE stands in it"),
            ("UPDATE t SET v = 1 WHERE id = 1 ORDER BY id LIMIT 1", "it has a LIMIT"),
        ))  # fmt: skip

    def test_deletes(self) -> None:
        for text, conditions, reads in (
            ("DELETE FROM t", 0, ()), ("DELETE FROM t WHERE id = 1", 1, ()), ("DELETE FROM t WHERE lower(n) = 'a'", 0, ("other conditions",)), ("DELETE FROM t USING u WHERE t.id = 1", 1, ("other tables",)),
            ("WITH a AS (SELECT 1) DELETE FROM t WHERE id = 1", 1, ("other tables",)),
        ):  # fmt: skip
            found = write(text)
            with self.subTest(text):
                self.assertEqual((found.verb, found.table.name.text, len(found.conditions), found.reads), ("DELETE", "t", conditions, reads))

    def test_updates(self) -> None:
        found = write("UPDATE t SET v = 1, w = w + 2, n = lower(n) WHERE id = 1 RETURNING id")
        self.assertEqual([each.name.text for each in found.assigned], ["v", "w", "n"])
        self.assertEqual((found.assigned[0].value, type(found.assigned[1].value), isinstance(found.assigned[2].value, Made)), (Constant(1), Sum, True))
        self.assertEqual(([each.reads for each in found.assigned], len(found.returning or ()), found.reads), ([False, False, True], 1, ()))
        self.assertEqual(write("UPDATE t SET v = 1 FROM u WHERE t.id = 1").reads, ("other tables",))
        self.assertEqual([each.name.text for each in write("UPDATE t SET (v, w) = (1, 2)").assigned], ["v", "w"])

    def test_inserts(self) -> None:
        one = ((Constant(1), Constant(2)),)
        for text, columns, rows, does, reads in (
            ("INSERT INTO t VALUES (1, 2)", None, one, None, ()), ("INSERT INTO t (id, v) VALUES (1, 2)", ["id", "v"], one, None, ()), ("INSERT INTO t DEFAULT VALUES", None, ((),), None, ()),
            ("INSERT OR REPLACE INTO t VALUES (1, 2)", None, one, "replace", ()), ("REPLACE INTO t VALUES (1, 2)", None, one, "replace", ()), ("INSERT OR IGNORE INTO t VALUES (1, 2)", None, one, "nothing", ()),
            ("INSERT INTO t VALUES (1, 2) ON CONFLICT DO NOTHING", None, one, "nothing", ()), ("INSERT INTO t VALUES (1, 2) ON CONFLICT (id) DO UPDATE SET v = 3", None, one, "update", ()),
            ("INSERT INTO t SELECT 1, 2", None, None, None, ("what it selects",)), ("INSERT INTO t OVERRIDING SYSTEM VALUE VALUES (1, 2)", None, one, None, ()), ("INSERT INTO t", None, None, None, ("what it selects",)),
            ("INSERT INTO t OVERRIDING", None, None, None, ("what it selects",)), ("INSERT INTO t VALUES (1, 2), (1, 2)", None, one * 2, None, ()), ("WITH a AS (SELECT 1) INSERT INTO t VALUES (1, 2)", None, one, None, ("other tables",)),
        ):  # fmt: skip
            found = write(text)
            conflict: Optional[Conflict] = found.conflict
            with self.subTest(text):
                self.assertEqual((found.verb, None if found.columns is None else [name.text for name in found.columns], found.rows, found.reads), ("INSERT", columns, rows, reads))
                self.assertEqual(None if conflict is None else conflict.does, does)


class Controls(unittest.TestCase):
    def test_what_begins_or_ends(self) -> None:
        for text, control in (
            ("BEGIN", Control("begin", "BEGIN")), ("begin work;", Control("begin", "BEGIN")), ("START TRANSACTION READ ONLY", Control("begin", "BEGIN READ ONLY")),
            ("BEGIN READ ONLY, DEFERRABLE", Control("begin", "BEGIN READ ONLY DEFERRABLE")), ("BEGIN READ ONLY NOT DEFERRABLE", Control("begin", "BEGIN READ ONLY")), ("BEGIN DEFERRABLE", Control("begin", "BEGIN")),
            ("COMMIT", Control("commit")), ("END WORK", Control("commit")), ("COMMIT AND CHAIN", None), ("COMMIT PREPARED 'x'", None), ("ROLLBACK", Control("rollback")), ("ABORT TRANSACTION", Control("rollback")),
            ("ROLLBACK TO a", Control("undo", "a")), ("ROLLBACK TO SAVEPOINT a", Control("undo", "a")), ("ROLLBACK WORK TO a", Control("undo", "a")), ("ROLLBACK a b", None), ("ROLLBACK AND CHAIN", None),
            ("ROLLBACK TO a b", None), ("SAVEPOINT a", Control("savepoint", "a")), ("RELEASE a", Control("release", "a")), ("RELEASE SAVEPOINT a", Control("release", "a")), ("SAVEPOINT a b", None),
            ("SET TRANSACTION SNAPSHOT 'x'", Control("import", "x")), ("SELECT pg_export_snapshot()", Control("export")), ("SELECT 1", None), ("COMMIT; BEGIN", None), ("", None), ("'commit'", None), ('"commit"', None),
        ):  # fmt: skip
            with self.subTest(text):
                self.assertEqual(control_of(tokens_of(text, "qmark")), control)

    def test_the_table_that_is_written(self) -> None:
        for text, name in (
            ("INSERT INTO t VALUES (1)", "t"), ("UPDATE t SET v = 1", "t"), ("DELETE FROM t", "t"), ("DELETE FROM o.t WHERE id = 1", "t"), ("UPDATE o.t SET v = 1", "t"), ("INSERT INTO o.t VALUES (1)", "t"),
            ("SELECT * FROM t", None), ("UPDATE", None), ("INSERT INTO", None), ("DELETE FROM t; DELETE FROM u", None), ("DELETE FROM t;", "t"), ("UPDATE t SET v = 1 FROM (INSERT INTO u)", None),
            ("'update' t", None), ("INSERT INTO t VALUES (1) ON CONFLICT (id) DO UPDATE SET v = 1", "t"), ("MERGE INTO t", None), ("UPDATE 5 t", None),
        ):  # fmt: skip
            with self.subTest(text):
                found = written_table(tokens_of(text, "qmark"))
                self.assertEqual(found.text if found is not None else None, name)
        self.assertEqual(written_table(tokens_of('UPDATE o."T" SET v = 1', "qmark")), Name("T", True))


if __name__ == "__main__":
    unittest.main()
