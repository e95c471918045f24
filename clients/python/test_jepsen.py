"""Tests of pgserial.jepsen: histories, in the forms that Elle knows anomalies by, and what `check` says of them.

    PGSERIAL=path/to/pgserial python3 clients/python/test_jepsen.py

The anomalies are Adya's (Weak Consistency: A Generalized Theory and Optimistic Implementations for Distributed
Transactions), as Elle shows them (Kingsbury and Alvaro, Elle: Inferring Isolation Anomalies from Experimental Observations).
Each is written twice, as it would be of a serializable database and as it is of another.
"""

import os
import subprocess
import sys
import tempfile
import unittest
from typing import Dict, List, Tuple

from pgserial import edn, jepsen
from pgserial.recording import verdict


def history(*operations: str, order: str = "") -> str:
    """A history of operations, each by a process of its own: all are invoked before any ends, which they do in this order.
    An operation is its value; `fail` or `info` may stand before it."""
    parts = []
    for operation in operations:
        kind, _, value = operation.partition(" ")
        parts.append((kind, value) if kind in ("fail", "info") else ("ok", operation))
    lines = [f"{{:type :invoke, :f :txn, :value {value}, :process {at}, :index {at}}}" for at, (_, value) in enumerate(parts)]
    ends = [int(place) for place in order.split()] or range(len(parts))
    for place in ends:
        kind, value = parts[place]
        lines.append(f"{{:type :{kind}, :f :txn, :value {value}, :process {place}, :index {len(lines)}}}")
    return "\n".join(lines) + "\n"


def answer(text: str) -> str:
    """What `check` says of a history."""
    with tempfile.NamedTemporaryFile("w", encoding="utf-8", newline="") as file:
        file.write(jepsen.transcript(text))
        file.flush()
        return verdict(file.name).answer


# The anomaly, and the same without it.
ANOMALIES: Dict[str, Tuple[List[str], List[str]]] = {
    # Two write two objects, and each is second at one.
    "g0, lists": (
        ["[[:append x 1] [:append y 1]]", "[[:append x 2] [:append y 2]]", "[[:r x [1 2]] [:r y [2 1]]]"],
        ["[[:append x 1] [:append y 1]]", "[[:append x 2] [:append y 2]]", "[[:r x [1 2]] [:r y [1 2]]]"],
    ),
    "g0, registers": (
        ["[[:w x 1] [:w y 1]]", "[[:w x 2] [:w y 2]]", "[[:r x 2] [:r y 1]]"],
        ["[[:w x 1] [:w y 1]]", "[[:w x 2] [:w y 2]]", "[[:r x 2] [:r y 2]]"],
    ),
    # What was aborted is read.
    "g1a, registers": (["fail [[:w x 1]]", "[[:r x 1]]"], ["fail [[:w x 1]]", "[[:r x nil]]"]),
    "g1a, lists": (
        ["fail [[:append x 1]]", "[[:append x 2]]", "[[:r x [1 2]]]"],
        ["fail [[:append x 1]]", "[[:append x 2]]", "[[:r x [2]]]"],
    ),
    # What its writer wrote over is read.
    "g1b, registers": (["[[:w x 1] [:w x 2]]", "[[:r x 1]]"], ["[[:w x 1] [:w x 2]]", "[[:r x 2]]"]),
    "g1b, lists": (["[[:append x 1] [:append x 2]]", "[[:r x [1]]]", "[[:r x [1 2]]]"], ["[[:append x 1] [:append x 2]]", "[[:r x [1 2]]]"]),
    # Each reads what the other wrote.
    "g1c, registers": (["[[:w x 1] [:r y 1]]", "[[:w y 1] [:r x 1]]"], ["[[:w x 1] [:r y nil]]", "[[:w y 1] [:r x 1]]"]),
    "g1c, lists": (["[[:append x 1] [:r y [1]]]", "[[:append y 1] [:r x [1]]]"], ["[[:append x 1] [:r y []]]", "[[:append y 1] [:r x [1]]]"]),
    # One object is seen before a transaction, and another behind it.
    "g-single, registers": (["[[:w x 1] [:w y 1]]", "[[:r x nil] [:r y 1]]"], ["[[:w x 1] [:w y 1]]", "[[:r x 1] [:r y 1]]"]),
    "g-single, lists": (["[[:append x 1] [:append y 1]]", "[[:r x []] [:r y [1]]]"], ["[[:append x 1] [:append y 1]]", "[[:r x []] [:r y nil]]"]),
    # Write skew: each reads what the other writes, as it was before.
    "g2, registers": (["[[:r x nil] [:w y 1]]", "[[:r y nil] [:w x 1]]"], ["[[:r x nil] [:w y 1]]", "[[:r y 1] [:w x 1]]"]),
    "g2, lists": (["[[:r x []] [:append y 1]]", "[[:r y []] [:append x 1]]"], ["[[:r x [1]] [:append y 1]]", "[[:r y []] [:append x 1]]"]),
    "lost update, registers": (["[[:r x nil] [:w x 1]]", "[[:r x nil] [:w x 2]]"], ["[[:r x nil] [:w x 1]]", "[[:r x 1] [:w x 2]]"]),
    "lost update, lists": (
        ["[[:r x []] [:append x 1]]", "[[:r x []] [:append x 2]]", "[[:r x [1 2]]]"],
        ["[[:r x []] [:append x 1]]", "[[:r x [1]] [:append x 2]]", "[[:r x [1 2]]]"],
    ),
    "long fork, registers": (
        ["[[:w x 1]]", "[[:w y 1]]", "[[:r x 1] [:r y nil]]", "[[:r x nil] [:r y 1]]"],
        ["[[:w x 1]]", "[[:w y 1]]", "[[:r x 1] [:r y nil]]", "[[:r x 1] [:r y 1]]"],
    ),
    "long fork, lists": (
        ["[[:append x 1]]", "[[:append y 1]]", "[[:r x [1]] [:r y []]]", "[[:r x []] [:r y [1]]]"],
        ["[[:append x 1]]", "[[:append y 1]]", "[[:r x [1]] [:r y []]]", "[[:r x []] [:r y []]]"],
    ),
    # No two orders of one list are read, no element twice, none that nobody appended.
    "incompatible order": (
        ["[[:append x 1]]", "[[:append x 2]]", "[[:r x [1 2]]]", "[[:r x [2 1]]]"],
        ["[[:append x 1]]", "[[:append x 2]]", "[[:r x [1 2]]]", "[[:r x [1]]]"],
    ),
    "duplicate elements": (["[[:append x 1]]", "[[:r x [1 1]]]"], ["[[:append x 1]]", "[[:r x [1]]]"]),
    "garbage read": (["[[:append x 1]]", "[[:r x [7]]]"], ["[[:append x 1]]", "[[:r x [1]]]"]),
    # A transaction sees what it wrote itself.
    "internal, registers": (["[[:w x 1] [:r x nil]]"], ["[[:w x 1] [:r x 1]]"]),
    "internal, lists": (["[[:append x 1] [:r x []]]"], ["[[:append x 1] [:r x [1]]]"]),
}


class Impossible(unittest.TestCase):
    def test_a_read_that_no_list_can_give_has_no_name(self) -> None:
        for name in ("incompatible order", "duplicate elements"):
            with self.subTest(name), tempfile.TemporaryDirectory() as folder:
                path = os.path.join(folder, "transcript")
                with open(path, "w", encoding="utf-8") as file:
                    file.write(jepsen.transcript(history(*ANOMALIES[name][0])))
                told = str(verdict(path))
                self.assertIn("counted 2 rows of lists where k = x", told)
                self.assertIn("so many can't have been there", told)
                self.assertNotIn("aborted", told)
                self.assertNotIn("n as -1", told)


class Anomalies(unittest.TestCase):
    def test_each_is_explained_by_no_order_and_the_same_without_it_by_one(self) -> None:
        for name, (wrong, right) in ANOMALIES.items():
            with self.subTest(name):
                self.assertEqual(answer(history(*wrong)), "no")
                self.assertEqual(answer(history(*right)), "yes")

    def test_the_order_in_which_they_end_is_no_matter_where_all_are_concurrent(self) -> None:
        for name, (wrong, right) in ANOMALIES.items():
            with self.subTest(name):
                turned = " ".join(str(place) for place in reversed(range(len(right))))
                self.assertEqual(answer(history(*right, order=turned)), "yes")
                turned = " ".join(str(place) for place in reversed(range(len(wrong))))
                self.assertEqual(answer(history(*wrong, order=turned)), "no")

    def test_a_stale_read_is_one_where_time_counts(self) -> None:
        lines = (
            "{:type :invoke :f :txn :value [[:w x 1]] :process 0}", "{:type :ok :f :txn :value [[:w x 1]] :process 0}",
            "{:type :invoke :f :txn :value [[:r x nil]] :process 1}", "{:type :ok :f :txn :value [[:r x nil]] :process 1}",
        )  # fmt: skip
        self.assertEqual(answer("\n".join(lines)), "no")
        with tempfile.NamedTemporaryFile("w") as file:
            file.write(jepsen.transcript("\n".join(lines)))
            file.flush()
            self.assertEqual(verdict(file.name, words=["--no-time"]).answer, "yes")


class Info(unittest.TestCase):
    """What isn't known to have ended."""

    def test_it_may_have_been_done_or_not(self) -> None:
        self.assertEqual(answer(history("info [[:w x 1]]", "[[:r x 1]]")), "yes")
        self.assertEqual(answer(history("info [[:w x 1]]", "[[:r x nil]]")), "yes")
        self.assertEqual(answer(history("info [[:append x 1]]", "[[:append x 2]]", "[[:r x [1 2]]]")), "yes")
        self.assertEqual(answer(history("info [[:append x 1]]", "[[:append x 2]]", "[[:r x [2]]]")), "yes")

    def test_it_is_done_whole_or_not_at_all(self) -> None:
        self.assertEqual(answer(history("info [[:w x 1] [:w y 1]]", "[[:r x 1] [:r y nil]]")), "no")
        self.assertEqual(answer(history("info [[:append x 1] [:append y 1]]", "[[:r x [1]] [:r y []]]")), "no")

    def test_what_it_has_read_isnt_known(self) -> None:
        self.assertEqual(answer(history("info [[:r x 7] [:w y 1]]", "[[:r x nil] [:r y 1]]")), "yes")

    def test_many_that_nobody_has_seen_take_no_room(self) -> None:
        many = [f"info [[:w x {value}]]" for value in range(1, 200)]
        self.assertEqual(answer(history(*many, "[[:r x 7]]")), "yes")

    def test_an_operation_without_an_end_is_like_one(self) -> None:
        text = "{:type :invoke :f :txn :value [[:w x 1]] :process 0}\n{:type :invoke :value [[:r x nil]] :process 1}\n"
        self.assertEqual(answer(text + "{:type :ok :value [[:r x 1]] :process 1}"), "yes")

    def test_more_than_64_that_were_seen_have_sessions_of_their_own(self) -> None:
        many = [f"info [[:w {key} 1]]" for key in range(70)]
        seen = " ".join(f"[:r {key} 1]" for key in range(70))
        text = jepsen.transcript(history(*many, f"[{seen}]"))
        self.assertIn("> 71 BEGIN;\n  71 BEGIN\n", text)
        self.assertEqual(answer(history(*many, f"[{seen}]")), "yes")
        self.assertEqual(answer(history(*many, f"[{seen.replace('69 1', '69 2')}]")), "no")


class Reading(unittest.TestCase):
    def test_forms_of_edn(self) -> None:
        text = '[1 -2 3N nil true :a/b "x\\n\\"y" \\newline #{1} (4 5), {:a [1]} #_ skipped #inst "2020" ; comment\n sym]'
        form = next(edn.Reader(text).forms())
        self.assertEqual(form[:4], (1, -2, 3, None))
        self.assertEqual(form[4:8], (edn.Symbol("true"), edn.Keyword("a/b"), 'x\n"y', "\n"))
        self.assertEqual(form[8:10], (frozenset([1]), (4, 5)))
        self.assertEqual(form[10:], ({edn.Keyword("a"): (1,)}, "2020", edn.Symbol("sym")))
        self.assertEqual(edn.written(form[:8]), '[1 -2 3 nil true :a/b "x\\n\\"y" "\\n"]')

    def test_texts_and_characters_of_edn(self) -> None:
        for text, wanted in (
            (r'"\u0041"', "A"), (r'"\\u0041"', r"\u0041"), (r'"\ud83d\ude00"', "\U0001f600"), (r"\u0041", "A"), (r"\a", "a"), (r"\;", ";"),
            ('"a\u2028b\x85c\rd"', "a\u2028b\x85c\rd"), ("a\u2028b", edn.Symbol("a\u2028b")), ("\u0663", edn.Symbol("\u0663")),
            ("#_ #_ 1 2 3", 3), ("#tag #_ 1 2", 2), ("-0", 0), ("1.50M", edn.Symbol("1.50M")), ("-1/2", edn.Symbol("-1/2")),
        ):  # fmt: skip
            with self.subTest(text):
                self.assertEqual(list(edn.Reader(text).forms()), [wanted])
        told = '"\\u0000\\u001f\\n\\\\\\""'
        self.assertEqual(edn.written(next(edn.Reader(told).forms())), told)

    def test_what_is_no_edn_is_refused_with_its_line(self) -> None:
        for text in (
            '"a', "(1]", "]", "{:a}", "#{1 1}", "{:a 1 :a 2}", "#{{}}", "{[{}] 1}", r'"\q"', r'"\u12"', r'"\ud83d"', r"\foo", r"\ab1", ":", "007",
            "[1 007]", "1abc", "9" * 5000, f"[1 {'9' * 5000}]", "[" * 5000, "[" * 5000 + "]" * 5000, "#a " * 5000 + "1", "#_" * 5000 + "1", "#_", "a\0", '"\ud800"', "\ud800",
        ):  # fmt: skip
            with self.subTest(text[:20]), self.assertRaisesRegex(edn.Malformed, "^history line 2: "):
                list(edn.Reader("1\n" + text).forms())

    def test_what_looks_alike_is_told_apart(self) -> None:
        self.assertEqual(len({edn.Keyword("x"), edn.Symbol("x"), "x", edn.Vector(("x",))}), 4)
        for one, other in (("x", ":x"), ("x", '"x"'), (":x", '["x"]'), ('"\\\\u0041"', '"A"')):
            with self.subTest(one, other=other):
                self.assertEqual(answer(history(f"[[:w {one} 1] [:w {other} 2]]", f"[[:r {one} 1] [:r {other} 2]]")), "yes")
                self.assertEqual(answer(history(f"[[:w {one} 1] [:w {other} 2]]", f"[[:r {one} 2] [:r {other} 2]]")), "no")

    def test_texts_of_any_sign_are_written_on_one_line(self) -> None:
        for text in ("\u2028", "\x85", "\r", "\v", "\x1c", r"\u0000", r"\n"):
            with self.subTest(repr(text)):
                self.assertEqual(answer(history(f'[[:w "a{text}b" "{text}"]]', f'[[:r "a{text}b" "{text}"]]')), "yes")
                self.assertEqual(answer(history(f'[[:w x "{text}"]]', '[[:r x "a"]]')), "no")

    def test_a_history_may_be_one_vector_of_records(self) -> None:
        text = history("[[:w x 1]]", "[[:r x 1]]").replace("{", "#jepsen.history.Op{")
        self.assertEqual(answer(f"[{text}]"), "yes")

    def test_the_nemesis_is_passed_over(self) -> None:
        text = "{:type :info, :process :nemesis, :f :start, :value nil}\n" + history("[[:w x 1]]")
        self.assertEqual(answer(text), "yes")

    def test_keys_and_values_of_any_kind(self) -> None:
        wrong = ['[[:w "it\'s" :a] [:w [1 2] "b\n"]]', '[[:r "it\'s" :a] [:r [1 2] nil]]']
        self.assertEqual(answer(history(*wrong)), "no")
        self.assertEqual(answer(history(wrong[0], '[[:r "it\'s" :a] [:r [1 2] "b\n"]]')), "yes")
        self.assertEqual(answer(history("[[:w x 1]]", "[[:r x 1.0]]")), "no")
        self.assertEqual(answer(history("[[:w x 1]]", "[[:r x true]]")), "no")

    def refused(self, text: str, told: str) -> None:
        with self.assertRaisesRegex(edn.Malformed, told):
            jepsen.transcript(text)

    def test_what_cant_be_said_is_refused_with_its_line(self) -> None:
        good = history("[[:w x 1]]")
        self.refused(good + "{:type :invoke :process 7 :f :add :value [1 2]}", "history line 3: a micro-operation")
        self.refused(good + "{:type :invoke :process 7 :f :read :value nil}\n{:type :ok :process 7 :value 3}", "line 4: the value")
        self.refused(good + "{:type :invoke :process 7 :value [[:w x nil]]}", "line 3: .* writes nil")
        self.refused(good + "\n{:type :invoke :process 7 :value [[:append x 1]]}", "history line .*x is a list")
        self.refused(history("[[:append x 1]]", "[[:append x 1]]"), "line 4: 1 is appended twice to x")
        self.refused(good + "{:type :invoke :process 0 :value []}\n{:type :invoke :process 0 :value []}", "line 4: process 0")
        self.refused(good + "{:type :gone :process 0}", "line 3: the type")
        self.refused(good + "{:type", "line 3: the text ends")
        self.refused(good + "\n]", "line 4: \\] stands too early")
        self.refused(good + "[]", "line 3: a history has operations alone")
        self.refused(f"[{good} 5]", "a history has operations alone")
        for value in ("[:w [{:a 1}] 2]", "[:w x [{:a 1}]]", "[:w {:a 1} 2]"):
            self.refused(good + f"{{:type :ok :process 7 :value [{value}]}}", "line 3: .*is a map, or has one")
        self.refused(good + "{:type :ok :process {} :value []}", "line 3: the process")
        self.refused(good + "{:type :ok :process 7 :value [[:r nil 1]]}", "line 3: the key")
        for long in (f'[[:w x "{"y" * 70000}"]]', f'[[:r "{"y" * 65530}" nil]]', f'[[:w {"y" * 70000} 1]]', f'[[:append {"y" * 70000} 1]]'):
            self.refused(good + f"{{:type :ok :process 7 :value {long}}}", "line 3: .*more than 65536 bytes")


class Back(unittest.TestCase):
    def test_a_history_of_registers_comes_back(self) -> None:
        text = history("[[:r 1 nil] [:w 2 1]]", "[[:r 2 1] [:w 1 2]]", "info [[:w 1 3]]", "[[:r 1 3]]")
        back = jepsen.history(jepsen.transcript(text))

        def told(text: str) -> List[Tuple[str, Tuple[jepsen.Micro, ...]]]:
            return sorted(((one.type, one.micros) for one in jepsen.transactions_of(text)), key=str)

        self.assertEqual(told(back), told(text))
        self.assertEqual(answer(back), "yes")

    def test_a_transcript_of_single_rows(self) -> None:
        text = """> CREATE TABLE t (id text PRIMARY KEY, v bigint, w text);
> 1 BEGIN;
  1 BEGIN
> 1 INSERT INTO t VALUES ('a', 1, NULL);
  1 INSERT 0 1
> 2 BEGIN;
  2 BEGIN
> 2 SELECT * FROM t WHERE id = 'a';
> 1 COMMIT;
  1 COMMIT
  2 SELECT 1
  2 | a\t1\t\\N
> 2 UPDATE t SET w = 'it''s' WHERE id = 'a';
  2 UPDATE 1
> 2 COMMIT;
> 3 BEGIN;
  3 BEGIN
> 3 UPDATE t SET v = 2 WHERE id = 'b';
  3 UPDATE 0
> 3 COMMIT;
  3 ERROR 40001
"""
        lines = jepsen.history(text).split("\n")
        self.assertEqual(
            lines[0],
            '{:type :invoke, :f :txn, :value [[:w ["t" "a" "v"] 1]], :process 1, :time 2, :index 0}',
        )
        self.assertIn(':type :ok, :f :txn, :value [[:w ["t" "a" "v"] 1]], :process 1, :time 10', lines[2])
        self.assertIn(':value [[:r ["t" "a" "v"] nil] [:r ["t" "a" "w"] nil] [:w ["t" "a" "w"] "it\'s"]], :process 2, :time 6', lines[1])
        self.assertIn(":type :invoke, :f :txn, :value [[:r", lines[3])
        self.assertIn(":type :fail", lines[4])
        self.assertIn(":type :info", lines[5])

    def test_other_statements_are_refused_with_their_line(self) -> None:
        begin = "> CREATE TABLE t (id bigint PRIMARY KEY, v bigint);\n> 1 BEGIN;\n  1 BEGIN\n"
        for statement, reply in (
            ("SELECT * FROM t", "SELECT 0"), ("UPDATE t SET v = v + 1 WHERE id = 1", "UPDATE 1"), ("DELETE FROM t WHERE id = 1", "DELETE 1"),
            ("SELECT count(*) FROM t WHERE id = 1", "SELECT 1\n  1 | 1"), ("SELECT v FROM t WHERE id > 1", "SELECT 0"),
        ):  # fmt: skip
            with self.subTest(statement), self.assertRaisesRegex(edn.Malformed, "line 4: a history has reads and writes"):
                jepsen.history(f"{begin}> 1 {statement};\n  1 {reply}\n")

    def test_what_is_no_transcript_is_refused_with_its_line(self) -> None:
        begin = "> CREATE TABLE t (id bigint PRIMARY KEY, v bigint);\n> 1 BEGIN;\n  1 BEGIN\n"
        select, insert = f"{begin}> 1 SELECT v FROM t WHERE id = 1;\n  1 ", "> 1 INSERT INTO t {};\n  1 INSERT 0 1\n"
        for line, text in (
            (4, begin + "  \u00b2 BEGIN\n"), (4, begin + "  2 BEGIN\n"), (4, begin + "> 065 BEGIN;\n"), (4, begin + "> \u0663 BEGIN;\n"),
            (5, select + "SELECT x\n"), (5, select + "BEGIN\n"), (4, select + "SELECT 1\n  1 | x\n"), (6, select + "SELECT 1\n  2 COMMIT\n"),
            (6, select + "SELECT 1\n"), (4, select + "SELECT 1\n  1 | 1\t2\n"), (4, select + "SELECT 2\n  1 | 1\n  1 | 2\n"),
            (5, begin + "> 1 COMMIT;\n> 1 BEGIN;\n"), (1, "> CREATE TABLE t (id);\n"), (1, "> CREATE TABLE t (id int PRIMARY KEY);\n"),
            *((4, begin + insert.format(row)) for row in (
                "VALUES (DEFAULT, 2)", "DEFAULT VALUES", "(v, id) VALUES (1, 2)", "VALUES (1)", "VALUES (?, 1)", "VALUES (1, 2), (3, 4)",
                f"VALUES ({'9' * 5000}, 1)", f"VALUES {'(' * 5000}1, 2{')' * 5000}", "VALUES (1, 2) RETURNING v",
            )),
            (4, begin + "> 1 SELECT v FROM t WHERE id = 1 LIMIT 0;\n  1 SELECT 0\n"),
        ):  # fmt: skip
            with self.subTest(text[:200]), self.assertRaisesRegex(edn.Malformed, f"^history line {line}: "):
                jepsen.history(text)

    def test_output_is_utf_8_whatever_the_locale_is(self) -> None:
        folder = os.path.dirname(os.path.abspath(__file__))
        environment = {**os.environ, "PYTHONIOENCODING": "ascii"}
        run = [sys.executable, "-B", "-m", "pgserial.jepsen"]
        text = history('[[:w "\u6f22" 1] [:r 2 nil]]')
        there = subprocess.run([*run, "-"], input=text.encode(), cwd=folder, capture_output=True, env=environment)
        self.assertEqual((there.returncode, there.stderr), (0, b""))
        self.assertIn("'\"\u6f22\"'", there.stdout.decode())

    def test_from_the_command_line(self) -> None:
        folder = os.path.dirname(os.path.abspath(__file__))
        run = [sys.executable, "-B", "-m", "pgserial.jepsen"]
        text = history("[[:r 1 nil] [:w 2 1]]", "[[:r 2 1] [:w 1 2]]")
        there = subprocess.run([*run, "-"], input=text, cwd=folder, capture_output=True, text=True, check=True)
        back = subprocess.run([*run, "--edn", "-"], input=there.stdout, cwd=folder, capture_output=True, text=True, check=True)
        self.assertEqual(back.stdout.count(":ok"), 2)
        refused = subprocess.run([*run, "-"], input="{:type 3}", cwd=folder, capture_output=True, text=True)
        self.assertEqual((refused.returncode, refused.stdout), (1, ""))
        self.assertRegex(refused.stderr, "^history line 1: ")


if __name__ == "__main__":
    unittest.main()
