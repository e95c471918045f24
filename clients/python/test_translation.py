"""Tests of what pgserial.recording makes of an application's statements: which it says in the words of a transcript, and how;
and of the others, which only read and which may write.

    python3 clients/python/test_translation.py
"""

import collections
import itertools
import unittest
from typing import Any, Dict, List

from pgserial import BIGINT, BYTEA, TEXT
from pgserial.catalog import MADE, Column, Names, Table
from pgserial.plans import Translator
from pgserial.returning import Facts
from pgserial.translation import Arguments, Result
from pgserial.values import Spelling, Unsaid

ACCOUNTS = Table(
    "public",
    "accounts",
    "accounts",
    (
        Column("id", "id", BIGINT, MADE),
        Column("balance", "balance", BIGINT, 0),
        Column("Owner", "owner", TEXT, None, False),
        Column("code", "code", TEXT, None, True, 4),
        Column("raw", "raw", BYTEA),
    ),
    ("balance", "id", "Owner", "code", "raw", "made_at"),
)
PLAIN = Table(None, "t", "t", (Column("id", "id", BIGINT), Column("v", "v", BIGINT)), ("id", "v"))
ROW = (70, 1, "ada", None, b"\x00\xff", "now")


class Statements(unittest.TestCase):
    """By outside knowledge of what PostgreSQL means by a statement, and of what FORMATS.md says the grammar's mean."""

    def setUp(self) -> None:
        self.names = Names([ACCOUNTS, PLAIN], False, ["log"])
        self.spelling = Spelling()

    def plan(self, text: str, parameters: Any, style: str = "pyformat") -> Any:
        return Translator(self.names, style, ["my_look"]).plan(self.spelling, text, parameters is not None)

    def said(self, text: str, parameters: Any = None, result: Result = Result(1), style: str = "pyformat") -> List[str]:
        """The lines of a statement's exchanges."""
        plan = self.plan(text, parameters, style)
        if plan.saying is None:
            raise Unsaid(f"{plan.why}; writes: {plan.writes}")
        told = plan.saying.told(Arguments(parameters))
        exchanges = told.exchanges(result)
        if told.first is not None and exchanges:
            self.assertEqual(told.first, exchanges[0][0])
        return [line for command, reply in exchanges for line in ["> " + command, *reply]]

    def test_selects(self) -> None:
        rows = Result(1, [(5, 6)])
        self.assertEqual(self.said("SELECT * FROM t", None, rows), ["> SELECT * FROM t", "SELECT 1", "| 5\t6"])
        for text in (
            "select id, v from public.t as x where (x.id = 5)", 'SELECT "x"."id" AS t_id, x."v" v2 FROM "t" "x" WHERE 5 = x.id ORDER BY v DESC',
            "-- a comment\nSELECT t.id, /* one /* in */ another */ v FROM t WHERE id=5 FOR UPDATE OF t NOWAIT;",
            "SELECT * FROM t WHERE id = 5 LIMIT 1", "SELECT * FROM t WHERE id IN (5)", "SELECT * FROM t WHERE 1 = 1 AND id = 5",
            "SELECT * FROM t WHERE id = '5'::bigint FOR NO KEY UPDATE", "SELECT t.* FROM t WHERE id = CAST('5' AS int)",
        ):  # fmt: skip
            with self.subTest(text):
                if "public.t" in text:
                    self.names = Names([PLAIN._replace(schema="public")], False)
                self.assertEqual(self.said(text, None, rows), ["> SELECT * FROM t WHERE id = 5", "SELECT 1", "| 5\t6"])

    def test_conditions(self) -> None:
        for text, said in (
            ("v <> 3", "v <> 3"), ("v != 3", "v <> 3"), ("3 >= v", "v <= 3"), ("3 < v", "v > 3"), ("v BETWEEN -1 AND +2", "v BETWEEN -1 AND 2"),
            ("v IS NULL AND id IS NOT NULL", "v IS NULL AND id IS NOT NULL"), ("v = NULL", "v = NULL"), ("(v > 1 AND (v < 3))", "v > 1 AND v < 3"),
        ):  # fmt: skip
            with self.subTest(text):
                self.assertEqual(self.said(f"SELECT v FROM t WHERE {text}", None, Result(0)), [f"> SELECT v FROM t WHERE {said}", "SELECT 0"])

    def test_hints_name_what_stands_in_the_way(self) -> None:
        """A reason names the word at which the grammar has no way on, and no name that it has; a parameter of another style is
        told as one, whatever else the statement lacks."""
        wrong = "stands there, which begins no parameter in this driver's paramstyle"
        for text, style, why, writes in (
            ('SELECT "t"."v" FROM "t" WHERE ("t"."v" = 1 OR "t"."id" = 2)', "pyformat", "the grammar has no OR there", False),
            ('SELECT count(*) FROM t WHERE t.v IN (1) OR NOT ("t"."id" = 2)', "pyformat", "the grammar has no OR there", False),
            ("INSERT INTO accounts (balance) VALUES (?)", "format", f"? {wrong}", True), ("INSERT INTO accounts (id, balance) VALUES (:a, :b)", "pyformat", f": {wrong}", True),
            ("UPDATE accounts SET balance = %s WHERE id = %s", "qmark", f"% {wrong}", True), ("SELECT balance FROM accounts WHERE id = ?", "pyformat", f"? {wrong}", False),
        ):  # fmt: skip
            with self.subTest(text, style=style):
                plan = self.plan(text, (1, 2), style)
                self.assertEqual((plan.why, plan.writes is not None), (why, writes))
        for text in ("SHOW standard_conforming_strings", "show search_path", "SHOW TRANSACTION ISOLATION LEVEL"):
            with self.subTest(text):
                plan = self.plan(text, None)
                self.assertEqual((plan.why, plan.writes, plan.saying), (None, None, None))
        self.assertIsNotNone(self.plan("SET search_path = o", None).writes)
        self.assertEqual(self.said('SELECT "t"."v" FROM t WHERE id', None, Result(0)), ["> SELECT v FROM t WHERE id <> 0", "SELECT 0"])

    def test_many_rows_stand_as_each_alone(self) -> None:
        """Rows are said together from four on: each as if it had come alone, whatever the others have."""
        texts = ("ada", "it's", "tab\tin", "line\nin", "back\\slash", "", "100%", "%s", "na\u00efve", None)
        every = [(at, text, None if at % 3 else at - 5, b"\x00" if at % 2 else None, "now") for at, text in enumerate(texts)]
        plain = [(at, "ada", 2**63 - 1 - at, b"", "now") for at in range(5)]
        nulls = [(at, None, None, None, "now") for at in range(5)]
        for shown, places in (("id, \"Owner\", balance, raw", (0, 1, 2, 3)), ('"Owner", id', (1, 0)), ('balance, 7, "Owner"', (2, 0, 1)), ("raw, id, raw", (3, 0, 3)), ("id", (0,))):
            for rows in (every, plain, nulls, every[:4], every[4:9]):
                with self.subTest(shown, rows=rows):
                    came = [tuple(row[place] for place in places) for row in rows]
                    text = f"SELECT {shown} FROM accounts"
                    alone = ["".join(self.said(text, None, Result(1, [row]))[2:]) for row in came]
                    self.assertEqual("\n".join(self.said(text, None, Result(len(came), came))[2:]).split("\n"), alone)
        for wrong in (2**63, 1.5, True, "x"):
            rows = [(wrong if at == 2 else at,) for at in range(5)]
            with self.subTest(wrong):
                if wrong is True:
                    self.assertEqual(self.said("SELECT id FROM t", None, Result(5, rows))[2:], ["| 0\n| 1\n| 1\n| 3\n| 4"])
                else:
                    self.assertRaises(Unsaid, self.said, "SELECT id FROM t", None, Result(5, rows))

    def test_what_is_shown(self) -> None:
        self.assertEqual(self.said("SELECT count(*) AS n FROM t", None, Result(1, [(7,)])), ["> SELECT count(*) FROM t", "SELECT 1", "| 7"])
        self.assertEqual(self.said("SELECT count(1) FROM t", None, Result(1, [(7,)]))[0], "> SELECT count(*) FROM t")
        self.assertEqual(
            self.said("SELECT 1 FROM t WHERE v = 3", None, Result(2, [(1,), (1,)])), ["> SELECT count(*) FROM t WHERE v = 3", "SELECT 1", "| 2"]
        )
        self.assertEqual(
            self.said("SELECT * FROM accounts", None, Result(1, [ROW])),
            ["> SELECT balance, id, owner, code, raw FROM accounts", "SELECT 1", "| 70\t1\tada\t\\N\t\\\\x00ff"],
        )
        self.assertEqual(self.said("SELECT made_at, id FROM accounts", None, Result(1, [("now", 3)]))[0::2], ["> SELECT id FROM accounts", "| 3"])

    def test_a_limit_may_have_cut_rows_off(self) -> None:
        text = "SELECT id FROM t WHERE v = 3 ORDER BY id LIMIT %s"
        self.assertEqual(self.said(text, (2,), Result(1, [(1,)])), ["> SELECT id FROM t WHERE v = 3", "SELECT 1", "| 1"])
        with self.assertRaisesRegex(Unsaid, "LIMIT"):
            self.said(text, (1,), Result(1, [(1,)]))
        self.assertEqual(self.said(text, (None,), Result(1, [(1,)]))[1], "SELECT 1")
        with self.assertRaisesRegex(Unsaid, "LIMIT"):
            self.said("SELECT * FROM t WHERE id = 1 LIMIT 0", None, Result(0, []))

    def test_lists_of_values(self) -> None:
        rows = Result(2, [(1, 10), (3, 30)])
        one, two, three = (["> SELECT * FROM t WHERE id = " + str(key)] for key in (1, 2, 3))
        wanted = one + ["SELECT 1", "| 1\t10"] + two + ["SELECT 0"] + three + ["SELECT 1", "| 3\t30"]
        self.assertEqual(self.said("SELECT * FROM t WHERE id IN (1, 2, 3, 1, NULL)", None, rows), wanted)
        self.assertEqual(self.said("SELECT * FROM t WHERE id IN %s", ((1, 2, 3),), rows), wanted)
        self.assertEqual(self.said("SELECT * FROM t WHERE id = ANY(%(k)s::int[])", {"k": [1, 2, 3]}, rows), wanted)
        self.assertEqual(
            self.said("DELETE FROM t WHERE id IN (1, 2)", None, Result(2)),
            ["> DELETE FROM t WHERE id = 1", "DELETE 1", "> DELETE FROM t WHERE id = 2", "DELETE 1"],
        )
        for text, result in (
            ("DELETE FROM t WHERE id IN (1, 2)", Result(1)), ("DELETE FROM t WHERE v IN (1, 2)", Result(2)),
            ("SELECT v FROM t WHERE id IN (1, 2)", Result(0)), ("SELECT count(*) FROM t WHERE id IN (1, 2)", Result(1, [(1,)])),
        ):  # fmt: skip
            with self.subTest(text), self.assertRaises(Unsaid):
                self.said(text, None, result)

    def test_inserts(self) -> None:
        insert = "> INSERT INTO accounts VALUES "
        self.assertEqual(
            self.said("INSERT INTO accounts (\"Owner\", id) VALUES ('it''s', 3)"), [insert + "(3, 0, 'it''s', NULL, NULL)", "INSERT 0 1"]
        )
        self.assertEqual(
            self.said("INSERT INTO accounts VALUES (7, 3, NULL, 'abcd', %s, now())", (b"\x01",))[0], insert + "(3, 7, NULL, 'abcd', '\\x01')"
        )
        self.assertEqual(
            self.said("INSERT INTO accounts (id) VALUES (1), (2)", None, Result(2)),
            [insert + "(1, 0, NULL, NULL, NULL)", "INSERT 0 1", insert + "(2, 0, NULL, NULL, NULL)", "INSERT 0 1"],
        )
        came = Result(2, [(8, 5), (9, 0)])
        self.assertEqual(
            self.said("INSERT INTO accounts (balance) VALUES (5), (DEFAULT) RETURNING id, balance", None, came)[0::2],
            [insert + "(8, 5, NULL, NULL, NULL)", insert + "(9, 0, NULL, NULL, NULL)"],
        )
        self.assertEqual(self.said("INSERT INTO accounts DEFAULT VALUES RETURNING id", None, Result(1, [(4,)]))[0], insert + "(4, 0, NULL, NULL, NULL)")
        self.assertEqual(
            self.said("INSERT INTO accounts (id, \"Owner\") VALUES (1, lower('Ada')) RETURNING *", None, Result(1, [(0, 1, "ada", None, None, 0)]))[0],
            insert + "(1, 0, 'ada', NULL, NULL)",
        )

    def test_values_that_the_database_makes_are_refused_where_they_dont_come(self) -> None:
        for text in (
            "INSERT INTO accounts (balance) VALUES (1)", "INSERT INTO accounts (id, balance) VALUES (1, DEFAULT + 1)",
            "INSERT INTO accounts (id, \"Owner\") VALUES (1, lower('A'))", "INSERT INTO accounts (id, balance) VALUES (nextval('s'), 1)",
        ):  # fmt: skip
            with self.subTest(text), self.assertRaises(Unsaid):
                self.said(text)
        rowid = Names([PLAIN._replace(makes_key=True)], True)
        plan = Translator(rowid, "qmark").plan(self.spelling, "INSERT INTO T (V) VALUES (?)", True)
        told = plan.saying.told(Arguments((5,)))
        self.assertEqual(told.exchanges(Result(1, (), 17)), [("INSERT INTO t VALUES (17, 5)", ["INSERT 0 1"])])

    def test_updates(self) -> None:
        for text, parameters, said in (
            ("UPDATE t SET v = v + %s WHERE id = %s", (-5, 3), "UPDATE t SET v = v - 5 WHERE id = 3"),
            ("UPDATE t SET v = v - %s WHERE id = %s", (-5, 3), "UPDATE t SET v = v + 5 WHERE id = 3"),
            ("UPDATE t AS x SET v = %(n)s + x.v WHERE x.id = %(k)s", {"n": 1, "k": 3}, "UPDATE t SET v = v + 1 WHERE id = 3"),
            ("UPDATE t SET v = (v + 1)", None, "UPDATE t SET v = v + 1"),
            ("UPDATE t SET v = id", None, "UPDATE t SET v = id + 0"),
            ("UPDATE t SET v = v + %s", (None,), "UPDATE t SET v = NULL"),
            ("UPDATE ONLY t SET v = NULL WHERE v < 3", None, "UPDATE t SET v = NULL WHERE v < 3"),
            ("UPDATE accounts SET made_at = now(), \"Owner\" = 'x', raw = %s", (b"",), "UPDATE accounts SET owner = 'x', raw = '\\x'"),
        ):
            with self.subTest(text):
                self.assertEqual(self.said(text, parameters, Result(4)), ["> " + said, "UPDATE 4"])

    def test_updates_of_columns_that_arent_recorded(self) -> None:
        self.assertEqual(self.said("UPDATE accounts SET made_at = 3 WHERE id = 5", None, Result(1)), ["> SELECT count(*) FROM accounts WHERE id = 5", "SELECT 1", "| 1"])
        for text, passes in (("made_at = now()", False), ("made_at = balance * 2", True), ("made_at = balance", True), ("made_at = made_at + 1", False)):
            with self.subTest(text):
                told = self.plan(f"UPDATE accounts SET {text}", None).saying.told(Arguments(None))
                self.assertEqual(told.left_out is not None, passes)

    def test_returning(self) -> None:
        self.assertEqual(
            self.said("UPDATE t SET v = v + 1 WHERE id = 3 RETURNING v, id", None, Result(1, [(8, 3)])),
            ["> UPDATE t SET v = v + 1 WHERE id = 3", "UPDATE 1", "> SELECT v, id FROM t WHERE id = 3", "SELECT 1", "| 8\t3"],
        )
        self.assertEqual(
            self.said("DELETE FROM t WHERE v < 9 RETURNING *", None, Result(1, [(3, 8)])),
            ["> SELECT * FROM t WHERE v < 9", "SELECT 1", "| 3\t8", "> DELETE FROM t WHERE v < 9", "DELETE 1"],
        )
        # The rows are no longer those of the condition: only what it shows is left out.
        self.assertEqual(self.said("UPDATE t SET v = 0 WHERE v = 9 RETURNING id", None, Result(1, [(3,)])), ["> UPDATE t SET v = 0 WHERE v = 9", "UPDATE 1"])

    def test_parameters_of_each_style(self) -> None:
        for style, text, parameters in (
            ("qmark", "SELECT v FROM t WHERE id = ? AND v > ?", (1, 2)), ("qmark", "SELECT v FROM t WHERE id = ?1 AND v > ?2", (1, 2)),
            ("qmark", "SELECT v FROM t WHERE id = :a AND v > @b", {"a": 1, "b": 2}), ("named", "SELECT v FROM t WHERE id=:a AND v>:b", {"a": 1, "b": 2}),
            ("numeric", "SELECT v FROM t WHERE id = :1 AND v > :2::bigint", (1, 2)), ("format", "SELECT v FROM t WHERE id = %s AND v > %s", [1, 2]),
            ("pyformat", "SELECT v FROM t WHERE id = %(a)s AND v > %(b)s", {"a": 1, "b": 2}),
            # In SQLite a `?` has the number behind the greatest that was assigned before it.
            ("qmark", "SELECT v FROM t WHERE id = ?2 AND v > ?", (7, 1, 2)), ("qmark", "SELECT v FROM t WHERE id = ?3 AND v > ?1", (2, 7, 1)),
        ):  # fmt: skip
            with self.subTest(style, text=text):
                self.assertEqual(self.said(text, parameters, Result(0), style)[0], "> SELECT v FROM t WHERE id = 1 AND v > 2")

    def test_parameters_that_arent_there_or_are_made_when_they_are_asked_for(self) -> None:
        class Asked:
            def __getitem__(self, place: int) -> int:
                raise AssertionError("it is asked for, and the driver asks again")

            def __len__(self) -> int:
                return 1

        made: Dict[str, int] = collections.defaultdict(itertools.count(1).__next__)
        for style, text, parameters in (
            ("qmark", "?0", (1, 2)), ("qmark", "?3", (1, 2)), ("numeric", ":0", (1, 2)), ("named", ":a", (1, 2)), ("named", ":a", {"b": 1}),
            ("named", ":a", made), ("qmark", "?", Asked()), ("qmark", "?", {1}), ("qmark", "?", iter((1,))), ("qmark", "?", {"a": 1}),
            ("qmark", "?" + "9" * 5000, (1,)), ("numeric", ":" + "9" * 5000, (1,)),
        ):  # fmt: skip
            with self.subTest(style, parameters=parameters), self.assertRaises(Unsaid):
                self.said(f"SELECT v FROM t WHERE id = {text}", parameters, Result(0), style)
        self.assertEqual(made, {})

    def test_where_a_comment_or_a_word_ends(self) -> None:
        for text in (
            "UPDATE t SET v = 1 --\r WHERE id = 1", "UPDATE t SET v = 1 -- a\rb\n WHERE id = 1", "UPDATE t SET v = 1 --\0\n WHERE id = 1", "UPDATE t SET v = '\0'",
            "UPDATE t\u00a0SET v = 1", "UPDATE t\u3000SET v = 1", "UPDATE t\u2028SET v = 1", "UPDATE t\x85SET v = 1", "UPDATE t\x1cSET v = 1",
        ):  # fmt: skip
            with self.subTest(repr(text)), self.assertRaisesRegex(Unsaid, "writes: "):
                self.said(text)
        for text in ("SELECT v FROM t -- a\r\n WHERE id = 1", "SELECT\tv\fFROM\vt\rWHERE id = 1", "SELECT v FROM t -- \u2028 \x85 OR\nWHERE id = 1"):
            with self.subTest(repr(text)):
                self.assertEqual(self.said(text, None, Result(0))[0], "> SELECT v FROM t WHERE id = 1")

    def test_long_numbers_and_deep_nesting(self) -> None:
        digits, many = "9" * 5000, "(" * 5000
        for text in (
            f"SELECT v FROM t WHERE id = {digits}", f"SELECT v FROM t WHERE {digits} = {digits[1:]}8", "SELECT v FROM t WHERE 1.00000000000000000001 = 1",
            "SELECT v FROM t WHERE 1 = 1.00000000000000000001", f"SELECT v FROM t WHERE {many}id = 1{')' * 5000}", f"SELECT v FROM t WHERE id = {many}1{')' * 5000}",
        ):  # fmt: skip
            with self.subTest(text[:60]):
                plan = self.plan(text, None)
                self.assertIsNone(plan.writes)
                if plan.saying is None:
                    self.assertIsNotNone(plan.why)
                else:
                    self.assertRaises(Unsaid, plan.saying.told, Arguments(None))
        self.assertIsNotNone(self.plan(f"UPDATE t SET v = 1 WHERE {many}id = 1{')' * 5000}", None).writes)

    def test_texts_stay_the_same_or_others(self) -> None:
        texts = ["a\nb", "a\\nb", "a\\\nb", "a\tb", "it's", "'", "\\", "%s", "ä漢"]
        said = [self.said("UPDATE accounts SET \"Owner\" = %s", (text,))[0] for text in texts]
        self.assertEqual(len(set(said)), len(texts))
        self.assertNotIn("\n", "".join(said))
        self.assertEqual(said[0], "> UPDATE accounts SET owner = 'a\\nb'")
        shown = self.said('SELECT "Owner" FROM accounts', None, Result(1, [("a\nb",)]))
        self.assertEqual(shown[2], "| a\\\\nb")  # COPY text of the literal's bytes

    def test_texts_are_compared_by_order_where_the_collation_is_c(self) -> None:
        with self.assertRaisesRegex(Unsaid, "collation"):
            self.said("SELECT id FROM accounts WHERE \"Owner\" > 'a'")
        with self.assertRaisesRegex(Unsaid, "collation"):
            self.said("SELECT id FROM accounts WHERE \"Owner\" BETWEEN 'a' AND 'b'")
        self.assertEqual(self.said("SELECT id FROM accounts WHERE code > 'a'", None, Result(0))[0], "> SELECT id FROM accounts WHERE code > 'a'")
        with self.assertRaisesRegex(Unsaid, "by order"):
            self.said('UPDATE accounts SET code = %s', ("a\n",))

    def test_what_cant_be_said_and_only_reads(self) -> None:
        for text in (
            "SELECT sum(v) FROM t", "SELECT v + 1 FROM t", "SELECT DISTINCT v FROM t", "SELECT * FROM t JOIN accounts USING (id)", "SELECT * FROM t, accounts",
            "SELECT * FROM t WHERE v = 1 OR v = 2", "SELECT * FROM t WHERE NOT v = 1", "SELECT * FROM t WHERE v LIKE 'a'", "SELECT * FROM t GROUP BY v",
            "SELECT * FROM t WHERE v = id", "SELECT * FROM t OFFSET 1", "SELECT * FROM t FOR UPDATE SKIP LOCKED", "SELECT * FROM other", "SELECT v ISNULL FROM t",
            "WITH x AS (SELECT * FROM t) SELECT * FROM x", "SELECT my_look() FROM t", "SELECT made_at FROM accounts WHERE made_at > 3", "SELECT v::text FROM t",
            "SELECT (SELECT 1) FROM t", "SELECT * FROM t WHERE v IN (SELECT id FROM accounts)", "EXPLAIN DELETE FROM t", "SELECT coalesce(v, 0) FROM t FOR UPDATE",
            "TABLE t", "SELECT 1; SELECT * FROM t;", "SELECT * FROM t UNION SELECT * FROM t", "(SELECT * FROM t) UNION (SELECT * FROM t)", "SELECT v FROM t WHERE v = 1.5", "SELECT v FROM t WHERE v = 'x'",
        ):  # fmt: skip
            with self.subTest(text):
                plan = self.plan(text, None)
                if plan.saying is not None:
                    self.assertFalse(plan.saying.writes)
                    self.assertRaises(Unsaid, plan.saying.told, Arguments(None))
                else:
                    self.assertIsNotNone(plan.why)
                    self.assertIsNone(plan.writes)

    def test_what_cant_be_said_and_may_write(self) -> None:
        for text in (
            "UPDATE t SET v = v * 2", "UPDATE t SET v = 1 WHERE v = 1 OR v = 2", "UPDATE t SET id = 3", "UPDATE other SET v = 1", "INSERT INTO t SELECT * FROM t",
            "INSERT INTO t VALUES (1, 2) ON CONFLICT DO NOTHING", "INSERT OR REPLACE INTO t VALUES (1, 2)", "REPLACE INTO t VALUES (1, 2)", "DELETE FROM t USING accounts",
            "DELETE FROM t WHERE v LIKE 'x'", "WITH x AS (UPDATE t SET v = 1 RETURNING *) SELECT * FROM x FOR UPDATE", "WITH x AS (DELETE FROM t RETURNING *) SELECT * FROM x", "SELECT f(v) FROM t", "SELECT schema.f()", "TRUNCATE t",
            "SELECT * INTO u FROM t", "MERGE INTO t USING u ON true", "CALL p()", "DO $$BEGIN DELETE FROM t; END$$", "COPY t FROM STDIN", "ALTER TABLE t ADD x int",
            "DROP TABLE t", "UPDATE t SET v = 1; UPDATE t SET v = 2", "SELECT 1; DELETE FROM t", "SET search_path TO other", "SELECT set_config('search_path', 'x', false)",
            "EXECUTE p(1)", "EXPLAIN ANALYZE DELETE FROM t", "PREPARE TRANSACTION 'x'", "COMMIT AND CHAIN", "UPDATE t SET v = 1.5", "UPDATE t SET v = 'x'",
            "INSERT INTO t VALUES (1, 2, 3)", "INSERT INTO t VALUES (1, 99999999999999999999)", "UPDATE accounts SET code = 'longer'", "CREATE TRIGGER x ON t",
            "UPDATE t SET v = 1 FROM accounts WHERE t.id = 3", "CREATE TABLE x AS SELECT f()", "CREATE TEMP TABLE t (id int)", "SET x = 1; DELETE FROM t", "UPDATE accounts SET made_at = 3 WHERE made_at > 2", "SELECT 'a", "UPDATE t SET v = f(1)",
            "UPDATE accounts SET raw = x'0'",
        ):  # fmt: skip
            with self.subTest(text):
                plan = self.plan(text, None)
                if plan.saying is not None:
                    self.assertTrue(plan.saying.writes)
                    self.assertRaises(Unsaid, plan.saying.told, Arguments(None))
                else:
                    self.assertIsNotNone(plan.writes)
                    self.assertIsNone(plan.control)

    def test_what_speaks_of_no_recorded_rows(self) -> None:
        for text in (
            "SET TRANSACTION ISOLATION LEVEL SERIALIZABLE", "SHOW server_version", "SELECT 1", "SELECT version()", "PRAGMA foreign_keys = ON", "", "-- nothing",
            "LOCK TABLE t IN SHARE MODE", "CREATE TABLE u (id int)", "CREATE INDEX i ON t (v)", "INSERT INTO log VALUES (lower(1)) ON CONFLICT DO NOTHING",
            "SELECT pg_advisory_xact_lock(3)", "SELECT set_config('app.user', 'ada', true)", "SET LOCAL app.user = 'ada'", "SELECT nextval('s')", "VACUUM",
        ):  # fmt: skip
            with self.subTest(text):
                self.assertEqual((self.plan(text, None).saying, self.plan(text, None).why), (None, None))

    def test_what_cant_be_said_is_told_by_what_stands_there(self) -> None:
        for text, why in (
            ("SELECT v FROM t WHERE (t.v = 1 OR t.v = 2)", "the grammar has no OR there"), ("SELECT v FROM t WHERE NOT (v = 1)", "the grammar has no NOT there"),
            ("SELECT v FROM t GROUP BY v", "the grammar has no GROUP there"), ("SELECT v FROM t LEFT JOIN u ON true", "the grammar has no LEFT there"),
            ("INSERT INTO t VALUES (?, 1)", "? stands there, which begins no parameter in this driver's paramstyle"),
            ("SELECT v FROM t WHERE id = :id", ": stands there, which begins no parameter in this driver's paramstyle"),
        ):  # fmt: skip
            with self.subTest(text):
                self.assertEqual(self.plan(text, ()).why, why)

    def by_rows(self, text: str, rows: List[Any], parameters: Any = None) -> Any:
        """The lines of a write that is said by its rows, and what it has read; the rows are those that RETURNING shows."""
        effect = self.plan(text, parameters).effect
        told = effect.told(Arguments(parameters), Facts(True, True, False, False))
        exchanges = told.exchanges(Result(len(rows), rows))
        return [line for command, reply in exchanges for line in ["> " + command, *reply]], told.left_out

    def test_writes_by_their_rows(self) -> None:
        assigned, others, tables = (f"what an UPDATE has read: {what}" for what in ("what it assigns", "other conditions", "other conditions, other tables"))
        for text, rows, said, left_out in (
            ("UPDATE t SET v = v * 2", [(1, 20), (2, 40)], "SELECT count(*) FROM t|SELECT 1|| 2|UPDATE t SET v = 20 WHERE id = 1|UPDATE 1|UPDATE t SET v = 40 WHERE id = 2|UPDATE 1", assigned),
            ("UPDATE t SET v = v + 1 WHERE v > 3 OR id = 9", [(1, 20)], "UPDATE t SET v = v + 1 WHERE id = 1|UPDATE 1", others),
            ("UPDATE t SET v = 5 WHERE id IN (1, 9)", [(1, 5)], "UPDATE t SET v = 5 WHERE id = 1|UPDATE 1|UPDATE t SET v = 5 WHERE id = 9|UPDATE 0", None),
            ("UPDATE t SET v = now() WHERE v = 3", [(1, 7)], "SELECT count(*) FROM t WHERE v = 3|SELECT 1|| 1|UPDATE t SET v = 7 WHERE id = 1 AND v = 3|UPDATE 1", None),
            ("UPDATE t x SET v = u.n FROM u WHERE u.id = x.id AND x.v > 3", [(1, 7)], "UPDATE t SET v = 7 WHERE id = 1 AND v > 3|UPDATE 1", tables + ", what it assigns"),
            ("UPDATE t SET v = my_look() WHERE id = 1", [(1, 7)], "UPDATE t SET v = 7 WHERE id = 1|UPDATE 1", assigned),
            ("DELETE FROM t WHERE v < 9 AND NOT (v = 3)", [(4,)], "DELETE FROM t WHERE id = 4 AND v < 9|DELETE 1", others.replace("an UPDATE", "a DELETE")),
            ("INSERT INTO t SELECT * FROM u", [(4, 5)], "INSERT INTO t VALUES (4, 5)|INSERT 0 1", "what an INSERT has read: what it selects"),
            ("INSERT INTO t VALUES (4, 5), (1, 2) ON CONFLICT (id) DO NOTHING", [(4, 5)], "INSERT INTO t VALUES (4, 5)|INSERT 0 1|SELECT id FROM t WHERE id = 1|SELECT 1|| 1", None),
            ("INSERT INTO t VALUES (4, 5), (1, 2) ON CONFLICT (id) DO UPDATE SET v = t.v - excluded.v", [(4, 5, 1), (1, 8, 0)], "INSERT INTO t VALUES (4, 5)|INSERT 0 1|UPDATE t SET v = v - 2 WHERE id = 1|UPDATE 1", None),
            ("UPDATE t SET id = id + 100", [(101, 5)], "SELECT count(*) FROM t|SELECT 1|| 1|DELETE FROM t WHERE id = 1|DELETE 1|INSERT INTO t VALUES (101, 5)|INSERT 0 1", "what an UPDATE has read: the other columns of rows whose key is written"),
        ):  # fmt: skip
            with self.subTest(text):
                lines, reads = self.by_rows(text, rows)
                self.assertEqual("|".join(line[2:] if line[:1] == ">" else line for line in lines), said)
                self.assertEqual(reads, left_out)

    def test_what_is_added_stands_behind_the_statement(self) -> None:
        facts = Facts(True, True, False, False)
        for text, sent in (
            ("UPDATE t SET v = -v -- the end", "UPDATE t SET v = -v -- the end\nRETURNING \"t\".\"id\", \"t\".\"v\" "),
            ("UPDATE t AS x SET v = -v ; -- ;", "UPDATE t AS x SET v = -v \nRETURNING \"x\".\"id\", \"x\".\"v\" ; -- ;"),
            ("DELETE FROM t WHERE v = 1 OR v = 2 RETURNING v", "DELETE FROM t WHERE v = 1 OR v = 2 RETURNING v\n, \"t\".\"id\" "),
            ("INSERT INTO t SELECT 1, 2", "INSERT INTO t SELECT 1, 2\nRETURNING \"t\".\"id\", \"t\".\"v\" "),
        ):  # fmt: skip
            with self.subTest(text):
                addition = self.plan(text, None).effect.addition(facts, False)
                self.assertEqual(addition.to(text, text), sent)
                self.assertEqual(addition.to(text.encode(), text), sent.encode())
                self.assertEqual(addition.without(sent.encode()), text.encode())

    def test_writes_that_arent_said_by_their_rows(self) -> None:
        for text in (
            "WITH d AS (DELETE FROM t RETURNING id) INSERT INTO t SELECT id + 1, 2 FROM d", "UPDATE t SET v = f(1)", "UPDATE t SET v = 1; UPDATE t SET v = 2", "UPDATE other SET v = v * 2",
            "UPDATE t SET v = v * 2 LIMIT 1", "INSERT OR FAIL INTO t VALUES (1, 2)", "MERGE INTO t USING u ON true WHEN MATCHED THEN DELETE", "TRUNCATE t",
        ):  # fmt: skip
            with self.subTest(text):
                self.assertIsNone(self.plan(text, None).effect)

    def test_controls(self) -> None:
        for text, does in (
            ("BEGIN", "begin"), ("begin isolation level serializable;", "begin"), ("START TRANSACTION READ ONLY", "begin"), ("COMMIT WORK", "commit"), ("END", "commit"),
            ("ROLLBACK TRANSACTION", "rollback"), ("ABORT", "rollback"), ("SAVEPOINT a", "savepoint"), ("RELEASE a", "release"), ("RELEASE SAVEPOINT a", "release"),
            ("ROLLBACK TO a", "undo"), ("ROLLBACK WORK TO SAVEPOINT a", "undo"), ("SELECT pg_export_snapshot()", "export"), ("SET TRANSACTION SNAPSHOT '0-1'", "import"),
        ):  # fmt: skip
            with self.subTest(text):
                self.assertEqual(self.plan(text, None).control.does, does)


if __name__ == "__main__":
    unittest.main()
