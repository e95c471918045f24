"""Tests of how a table of a catalog becomes one of a transcript, with the rows that it begins with; and of what stands for a
driver's own objects.

    python3 clients/python/test_tables.py
"""

import unittest
from typing import Any, List
from unittest import mock

from pgserial import BIGINT, TEXT, plans
from pgserial.catalog import MADE, Column, Hazard, Names, Seen, constant, declared_table, default_of, numbered, said_name, table_of, without_columns
from pgserial.keys import Candidate, Refused, chosen, key_text
from pgserial.opening import opening_of, trusting
from pgserial.plans import Translator
from pgserial.proxies import Proxy, parameters_of, text_of
from pgserial.sql import Name
from pgserial.values import Spelling, Unsaid

SEEN = [Seen("id", "int", BIGINT, None), Seen("V", "bigint", BIGINT, 5), Seen("n", "varchar(9)", TEXT, None, False, 9), Seen("x", "point", None, None)]


def table(*keys: str, seen: Any = SEEN, wanted: Any = None) -> Any:
    """A table of these columns."""
    return table_of("s", "T", seen, [Candidate(keys)] if keys else [], wanted, ["t"])


class Tables(unittest.TestCase):
    def test_a_key_of_one_column(self) -> None:
        made = table("V")
        self.assertEqual(made.create(), "CREATE TABLE t_ (v bigint PRIMARY KEY, id bigint, n text);")
        self.assertEqual((made.schema, made.real, made.order, made.parts, made.numbers, made.makes_key), ("s", "T", ("id", "V", "n", "x"), (), None, False))
        self.assertEqual((made.key_places, made.own_columns, made.key_of([7, 8, "a"])), ((0,), made.columns, 7))
        self.assertEqual(made.passed, (("x", "is of type point"),))
        self.assertEqual((made.why_passed("x"), made.why_passed("n")), ("is of type point", None))
        self.assertEqual(made.columns[2], Column("n", "n", TEXT, None, False, 9))

    def test_a_key_of_several_columns(self) -> None:
        made = table("n", "id")
        self.assertEqual(made.create(), "CREATE TABLE t_ (n_id text PRIMARY KEY, n text, id bigint, v bigint);")
        self.assertEqual((made.key_places, [column.real for column in made.own_columns]), ((1, 2), ["n", "id", "V"]))
        self.assertEqual(made.key_of([None, 'a"b', 7, 8]), '"a""b",7')
        self.assertRaises(Unsaid, made.key_of, [None, "a", None, 8])
        self.assertEqual(key_text([b"\x01", -2, ""]), 'x01,-2,""')

    def test_no_key(self) -> None:
        made = table()
        self.assertEqual(made.create(), "CREATE TABLE t_ (row_number bigint PRIMARY KEY, id bigint, v bigint, n text);")
        self.assertEqual((made.key_places, [made.key_of(()), made.key_of(())], [column.real for column in made.own_columns]), ((), [1, 2], ["id", "V", "n"]))

    def test_columns_that_are_wanted(self) -> None:
        self.assertEqual([column.real for column in table("id", wanted=["n"]).columns], ["id", "n"])
        self.assertEqual([column.real for column in table("id", wanted=["V", "x"]).columns], ["id", "V"])
        with self.assertRaisesRegex(Refused, "table T has no column y"):
            table("id", wanted=["y"])
        two = [Candidate(["V", "n"]), Candidate(["id"])]
        self.assertEqual([column.real for column in table_of(None, "t", SEEN, two, ["id"], []).columns], ["id"])
        self.assertEqual([column.real for column in table_of(None, "t", SEEN, two, ["V"], []).columns], ["", "V", "n"])

    def test_which_key(self) -> None:
        late, other = Candidate(["id"], True), Candidate(["V"])
        self.assertEqual((chosen([late, other], ["id", "V"]), chosen([late], ["id"]), chosen([other], ["id"]), chosen([other, Candidate(["id"])], ["id"])), (["V"], (), (), ["id"]))

    def test_more_columns_than_there_is_room_for(self) -> None:
        many = [Seen(f"c{at}", "int", BIGINT, None) for at in range(40)]
        for keys, count in ((["c9"], 32), (["c8", "c9"], 31), ([], 31)):
            made = table(*keys, seen=many)
            with self.subTest(keys):
                self.assertEqual((len(made.own_columns), len(made.columns), len(made.passed)), (count, 32, 40 - count))
                self.assertEqual(made.passed[-1], ("c39", "is one of more than 32 columns"))
        made = table("c9", seen=many)
        again = numbered(made)
        self.assertEqual((len(again.columns), again.columns[0], len(again.passed)), (32, Column("", "row_number", BIGINT), 9))
        self.assertEqual(len(table_of(None, "t", many, [Candidate([f"c{at}" for at in range(31)])], None, []).parts), 31)
        self.assertEqual(table_of(None, "t", many, [Candidate([f"c{at}" for at in range(32)])], None, []).parts, ())

    def test_names(self) -> None:
        for real, name in (("Select", "select_"), ("Übel 1", "_bel_1"), ("1a", "_1a"), ("", "_"), ("x" * 80, "x" * 59), ("t", "t__"), ("a-b", "a_b")):
            self.assertEqual(said_name(real, ["t", "t_"]), name)

    def test_defaults(self) -> None:
        for text, value in (
            (None, None), ("5", 5), ("-5", -5), ("(+5)", 5), ("- 5", -5), ("'x'::text", "x"), ("'a''b'::character varying", "a'b"), ("now()", MADE), ("NULL", None), ("NULL::text", None),
            ("true", True), ("false", False), ("-'x'", MADE), ("-true", MADE), ("5 6", MADE), ("", MADE), ("'", MADE), ("nextval('s'::regclass)", MADE), ("-NULL", MADE), ("current_user", MADE),
        ):  # fmt: skip
            with self.subTest(text):
                self.assertEqual(constant(text), value)
        self.assertEqual([default_of("'x'", BIGINT), default_of("'7'", BIGINT), default_of("5", None), default_of(None, TEXT), default_of("now()", None), default_of("'x'", TEXT)], [MADE, 7, 5, None, MADE, "x"])

    def test_what_may_write_unsaid(self) -> None:
        hazards = (Hazard(frozenset(("insert", "delete")), "one", "f"), Hazard(frozenset(("insert",)), "other"))
        made = table("id")._replace(hazards=hazards)
        self.assertEqual([made.unsure(verb) for verb in ("insert", "delete", "update")], ["one", "one", None])
        trusted = trusting(made, lambda function: function == "f")
        self.assertEqual([trusted.unsure(verb) for verb in ("insert", "delete", "update")], ["other", None, None])
        self.assertEqual(trusting(made, lambda function: False).hazards, hazards)

    def test_a_declared_table(self) -> None:
        made = declared_table("s.t", {"id": "bigint", "n": "text", "b": "bytea"}, [])
        self.assertEqual((made.create(), made.schema, made.real), ("CREATE TABLE t (id bigint PRIMARY KEY, n text, b bytea);", "s", "t"))
        self.assertEqual((declared_table("t", {"id": "bigint"}, []).schema, {column.default for column in made.columns}), (None, {MADE}))
        with self.assertRaisesRegex(Refused, "column n of table t is of type point, which no transcript can say"):
            declared_table("t", {"id": "bigint", "n": "point"}, [])


class Named(unittest.TestCase):
    """The recorded tables by their names."""

    def test_names_that_fold_or_not(self) -> None:
        made = table("id")
        folding, exact = Names([made], True, ["o.Log"], frozenset(("user",)), "main"), Names([made], False, ["o.Log"])
        upper, lower = Name("T", True), Name("t", False)
        self.assertEqual([names.is_recorded(name) for names in (folding, exact) for name in (upper, lower)], [True, True, True, False])
        self.assertEqual([names.is_ignored(name) for names in (folding, exact) for name in (None, Name("log", False), Name("Log", True))], [False, True, True, False, False, True])
        self.assertEqual([names.is_other_column(made, Name(name, False)) for names in (folding, exact) for name in ("x", "X", "id", "y")], [True, True, False, False, True, False, False, False])
        self.assertEqual((folding.place(made, Name("v", False)), exact.why_passed(made, Name("x", True)), exact.why_passed(made, Name("n", True))), (1, "is of type point", None))
        self.assertRaises(Unsaid, exact.place, made, Name("v", False))
        self.assertEqual((folding.is_function(Name("user", False)), folding.is_function(Name("user", True)), exact.is_function(Name("user", False))), (True, False, False))

    def test_schemas(self) -> None:
        made = table("id")
        for names, schema, is_there in (
            (Names([made], False), "s", True), (Names([made], False), "o", False), (Names([made], False), None, True), (Names([made], True), "S", True),
            (Names([made._replace(schema=None)], True, schema="main"), "MAIN", True), (Names([made._replace(schema=None)], True, schema="main"), "o", False),
        ):  # fmt: skip
            said = None if schema is None else Name(schema, True)
            with self.subTest(schema):
                if is_there:
                    self.assertIs(names.table(said, Name("T", True)).columns, made.columns)
                else:
                    with self.assertRaisesRegex(Unsaid, f"table {schema}.T isn't recorded"):
                        names.table(said, Name("T", True))

    def test_row_numbers(self) -> None:
        made = table("V")._replace(makes_key=True)
        names = Names([made], True)
        self.assertEqual([names.place(made, Name(name, False)) for name in ("rowid", "OID", "_rowid_")], [0, 0, 0])
        self.assertRaises(Unsaid, names.place, made._replace(makes_key=False), Name("rowid", False))
        self.assertRaises(Unsaid, names.place, made, Name("row", False))
        self.assertRaises(Unsaid, names.place, made._replace(order=(*made.order, "oid")), Name("OID", False))  # a column of its own

    def test_what_isnt_ignored_since_it_reaches_a_recorded_table(self) -> None:
        self.assertFalse(Names([table("id")._replace(reached=("Log",))], False, ["Log"]).is_ignored(Name("Log", True)))


class Plans(unittest.TestCase):
    """What is kept of each text."""

    def test_as_many_as_there_is_room_for(self) -> None:
        translator, spelling = Translator(Names([table("id")], False), "qmark"), Spelling()
        with mock.patch.object(plans, "_MOST_PLANS", 3):
            counts = []
            for at in range(7):
                translator.plan(spelling, f"SELECT {at} FROM t", False)
                counts.append(len(translator._plans))
        self.assertEqual(counts, [1, 2, 3, 1, 2, 3, 1])
        self.assertIs(translator.plan(spelling, "SELECT 6 FROM t", False), translator.plan(spelling, "SELECT 6 FROM t", False))


    def test_what_writes_an_ignored_table(self) -> None:
        translator = Translator(Names([table("id")], False, ["log"]), "qmark")
        for text, writes in (
            ("INSERT INTO log VALUES (f(1))", True), ("INSERT INTO log VALUES (lower('x'))", False), ("DELETE FROM log", False), ("UPDATE log SET n = g(n)", True), ("INSERT INTO other VALUES (1)", True), ("SELECT max(id) FROM log", False),
        ):  # fmt: skip
            with self.subTest(text):
                self.assertEqual(translator.plan(Spelling(), text, False).writes is not None, writes)

    def test_a_query_that_its_parameters_keep_from_being_said(self) -> None:
        translator = Translator(Names([table("id")], False), "qmark")
        for text in ('SELECT id FROM "T" WHERE id = ?', 'SELECT id FROM "T" WHERE id % 2 = 1'):
            self.assertIsNotNone(translator.plan(Spelling(), text, True).rows, text)


class Openings(unittest.TestCase):
    def opened(self, made: Any, rows: List[List[object]]) -> Any:
        kept, said = opening_of(made, rows)
        return [column.name for column in kept.columns], said, kept.passed

    def test_rows_with_the_key_first(self) -> None:
        self.assertEqual(self.opened(table("V"), [[7, 1, "a"], [8, None, None]]), (["v", "id", "n"], [(7, 1, "a"), (8, None, None)], (("x", "is of type point"),)))
        self.assertEqual(self.opened(table("n", "id"), [["a", 1, 7]])[:2], (["n_id", "n", "id", "v"], [('"a",1', "a", 1, 7)]))
        self.assertEqual(self.opened(table("V"), [])[:2], (["v", "id", "n"], []))
        self.assertEqual(self.opened(table(), [[1, 7, "a"], [1, 7, "a"]])[:2], (["row_number", "id", "v", "n"], [(1, 1, 7, "a"), (2, 1, 7, "a")]))

    def test_a_column_whose_values_cant_be_said(self) -> None:
        names, said, passed = self.opened(table("V"), [[7, 1, "a"], [8, 2, "b\0"]])
        self.assertEqual((names, said, passed[-1]), (["v", "id"], [(7, 1), (8, 2)], ("n", "has a value that can't be said: a text has no zero byte")))

    def test_a_key_that_cant_be_said_or_is_null(self) -> None:
        for rows in ([[7, 1, "a"], [2**63, 2, "b"]], [[7, 1, "a"], [None, 2, "b"]]):
            names, said, _ = self.opened(table("V"), rows)
            self.assertEqual((names[0], said[0][0], said[1][0]), ("row_number", 1, 2))
        names, said, _ = self.opened(table("n", "id"), [["a", None, 7]])
        self.assertEqual((names, said), (["row_number", "n", "id", "v"], [(1, "a", None, 7)]))

    def test_columns_that_go(self) -> None:
        made = without_columns(table("V"), {1: "why"})
        self.assertEqual(([column.name for column in made.columns], made.passed), (["v", "n"], (("x", "is of type point"), ("id", "why"))))


class Own:
    """A driver's object."""

    there = 5

    def special(self) -> str:
        return "own"

    def other(self) -> str:
        return "other"


class Recorded(Proxy):
    _own = frozenset(("wrapped", "kept"))
    _special = {"special": "_taken", "gone": "_taken"}

    def _taken(self) -> str:
        return "taken"


class Proxies(unittest.TestCase):
    def test_what_stands_for_an_object(self) -> None:
        own = Own()
        recorded: Any = Recorded(own)
        self.assertEqual((recorded.special(), recorded.other(), recorded.there), ("taken", "other", 5))
        self.assertFalse(hasattr(recorded, "gone"))
        recorded.kept, recorded.there = 1, 6
        self.assertEqual((own.there, hasattr(own, "kept"), recorded.kept), (6, False, 1))
        del recorded.there
        self.assertEqual((own.there, recorded.there, isinstance(recorded, Own), "other" in dir(recorded), "kept" in dir(recorded)), (5, 5, True, True, False))
        self.assertEqual((repr(recorded), recorded.wrapped is own), (f"<recorded {own!r}>", True))

    def test_texts(self) -> None:
        class Letters(str):
            def __str__(self) -> str:
                return "others"

        class Composed:
            def as_string(self, raw: object) -> str:
                return f"composed for {raw}"

        self.assertEqual([text_of(each, 7) for each in (Letters("own"), b"a\xff", Composed(), None, 5)], ["own", "a\udcff", "composed for 7", None, None])

    def test_parameters(self) -> None:
        for words, named, given in (((1,), {}, 1), ((1,), {"params": 2}, 1), ((), {"params": 2}, 2), ((), {"vars": 3}, 3), ((), {"parameters": 4}, 4), ((), {"prepare": True}, None), ((), {"vars": None, "prepare": 1}, None)):
            self.assertEqual(parameters_of(words, named), given)


if __name__ == "__main__":
    unittest.main()
