"""Tests of why a text can't be said: the word or sign at which the grammar has no way on.

    python3 clients/python/test_sql_reasons.py
"""

import unittest
from typing import Any

from pgserial import BIGINT, TEXT, sql
from pgserial.effects import READING
from pgserial.values import Spelling, Unsaid, plain


def tree(text: str) -> Any:
    """What a text is."""
    return sql.Parser(sql.tokens_of(text, "qmark", False), READING).statement()


class Reasons(unittest.TestCase):
    def test_where_the_grammar_has_no_way_on(self) -> None:
        for text, words in (
            ("SELECT v FROM t WHERE v ~ 3", "the grammar has no ~ there"), ("SELECT v FROM t WHERE v LIKE 'x'", "the grammar has no LIKE there"),
            ("SELECT v FROM t WHERE v", None), ("SELECT v FROM t WHERE v 3", "the grammar has no 3 there"), ("SELECT v FROM t WHERE v =", "it ends too early"),
            ("SELECT v FROM 3", "the grammar has no 3 there"), ("SELECT v FROM", "it ends too early"), ("SELECT v FROM t.3", "the grammar has no"),
            ("SELECT v FROM t WHERE v = %", "% stands there, which begins no parameter in this driver's paramstyle"), ("SELECT v FROM t WHERE v = sum(v)", "the grammar has no SUM there"),
            ("SELECT v FROM t WHERE 3 LIKE v", "the grammar has no"), ("SELECT v FROM t WHERE NOT 3", "the grammar has no"), ("SELECT v FROM t WHERE v BETWEEN 1 OR 2", "the grammar has no OR there"),
        ):  # fmt: skip
            with self.subTest(text):
                if words is None:
                    tree(text)
                    continue
                with self.assertRaises(Unsaid) as raised:
                    tree(text)
                self.assertIn(words, str(raised.exception))

    def test_a_column_that_is_a_condition(self) -> None:
        column = sql.Column(sql.Name("v", False), None)
        for text, is_true in (("v", True), ("NOT v", False), ("(v)", True), ("(NOT v)", False)):
            self.assertEqual(tree(f"SELECT id FROM t WHERE {text} AND id = 3").where, (sql.Truth(column, is_true), sql.Comparison(sql.Column(sql.Name("id", False), None), "=", sql.Constant(3))))

    def test_texts_with_types(self) -> None:
        self.assertEqual(tree("SELECT id FROM t WHERE v = date '2020-01-01'").where[0].value, sql.Cast(sql.Constant("2020-01-01"), "date"))
        for text in ("v = date 5", "v = date", "v = n 'x'", "v = date date"):
            with self.subTest(text):
                self.assertRaises(Unsaid, tree, f"SELECT id FROM t WHERE {text}")

    def test_values_that_are_compared(self) -> None:
        for text, sign in (("3 < v", ">"), ("3 >= v", "<="), ("3 = v", "="), ("3 <> v", "<>"), ("v != 3", "<>"), ("v < 3", "<")):
            self.assertEqual(tree(f"SELECT id FROM t WHERE {text}").where, (sql.Comparison(sql.Column(sql.Name("v", False), None), sign, sql.Constant(3)),))
        self.assertEqual(tree("SELECT id FROM t WHERE 1 = 1").where, ())
        self.assertEqual(tree("SELECT id FROM t WHERE v BETWEEN 1 AND 2").where, (sql.Between(sql.Column(sql.Name("v", False), None), sql.Constant(1), sql.Constant(2)),))

    def test_what_the_grammar_has(self) -> None:
        for text in (
            "SELECT count(*) AS n FROM t", "SELECT count(*) n FROM t", "SELECT id FROM t FOR UPDATE", "SELECT id FROM t FOR NO KEY UPDATE", "SELECT id FROM t FOR KEY SHARE", "SELECT id FROM t FOR SHARE OF t NOWAIT",
            "SELECT id FROM t FOR UPDATE NOWAIT", "SELECT id FROM t WHERE v IS NULL", "SELECT id FROM t WHERE v IS NOT NULL", "SELECT id FROM t WHERE v IS 5",
            "SELECT id FROM t ORDER BY v IN (1, 2)", "UPDATE t SET v = 3 * (4 + v)", "SELECT id FROM t ORDER BY lower(n)",
        ):  # fmt: skip
            with self.subTest(text):
                tree(text)
        for text in ("SELECT id FROM t FOR x", "SELECT id FROM t FOR", "SELECT id FROM t WHERE v IS", "SELECT id FROM t WHERE 3 '=' v", "SELECT id FROM t WHERE v IS NOT 5", "SELECT id FROM t FOR UPDATE SKIP LOCKED", "SELECT count(*) OVER () FROM t"):
            with self.subTest(text):
                self.assertRaises(Unsaid, tree, text)

    def test_assignments(self) -> None:
        found = tree("UPDATE t SET v = w + 1, w = 2 WHERE id = 1").assigned
        self.assertEqual([(name.text, type(value)) for name, value in found], [("v", sql.Sum), ("w", sql.Constant)])
        self.assertEqual([type(value) for _, value in tree("UPDATE t SET v = w + 1; ").assigned], [sql.Sum])

    def test_comments_and_spaces_are_no_tokens(self) -> None:
        for text in ("SELECT 1", "SELECT /* x */ 1", "/* a */SELECT 1", "SELECT 1 -- y", "-- y\nSELECT\n\t1", "SELECT 1--"):
            with self.subTest(text):
                self.assertEqual([token.value for token in sql.tokens_of(text, "qmark")], ["select", 1])

    def test_numbers_and_the_order_of_texts(self) -> None:
        for value in (2**63 - 1, -(2**63)):
            self.assertEqual(plain(BIGINT, value), value)
        for wrong in (2**63, -(2**63) - 1, str(2**63), "x", 1.5, b"1"):
            self.assertRaises(Unsaid, plain, BIGINT, wrong)
        spelling = Spelling()
        self.assertEqual(spelling.literal(TEXT, "a"), "'a'")
        spelling.order_texts()
        spelling.order_texts()
        for text in ("a\nb", "a\\b"):
            self.assertRaises(Unsaid, spelling.literal, TEXT, text)
            self.assertRaises(Unsaid, spelling.copy_text, TEXT, text)
        spelling = Spelling()
        self.assertEqual((spelling.literal(TEXT, "a\nb"), spelling.copy_text(TEXT, "a\tb")), ("'a\\nb'", "a\\tb"))
        self.assertRaises(Unsaid, spelling.order_texts)


if __name__ == "__main__":
    unittest.main()
