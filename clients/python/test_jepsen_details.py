"""Tests of what pgserial.jepsen makes of odd lines: of a history, and of a transcript that becomes one.

    python3 clients/python/test_jepsen_details.py
"""

import unittest

from pgserial import jepsen
from pgserial.edn import Malformed

HEAD = "> CREATE TABLE t (id bigint PRIMARY KEY, v bigint);\n"
ONE = "> 1 BEGIN;\n  1 BEGIN\n> 1 SELECT * FROM t WHERE id = 1;\n  1 SELECT 1\n  1 | 1\t5\n> 1 COMMIT;\n  1 COMMIT\n"


def history(*operations: str) -> str:
    """Operations that are each invoked and ended, one behind the other; `info` may stand before one."""
    lines = []
    for at, operation in enumerate(operations):
        kind, _, value = operation.rpartition(" : ")
        for told in ("invoke", kind or "ok"):
            lines.append(f"{{:type :{told}, :f :txn, :value {value}, :process {at}}}")
    return "\n".join(lines) + "\n"


class OfHistories(unittest.TestCase):
    def test_what_may_have_been_done_and_nobody_has_seen_is_not_told(self) -> None:
        told = jepsen.transcript(history("[[:w 1 5]]", "[[:r 1 5]]", "info : [[:r 1 5]]", "info : [[:w 1 6]]", "info : [[:w 1 5]]"))
        self.assertEqual(told.count(" BEGIN;"), 4)  # with the opening
        self.assertNotIn("process-2 ", told)
        self.assertNotIn("process-3 ", told)
        self.assertIn("process-4 ", told)

    def test_texts_that_are_too_long(self) -> None:
        for letters in ("x" * 70000, "漢" * 22000):
            with self.assertRaisesRegex(Malformed, "more than 65536 bytes"):
                jepsen.transcript(history(f'[[:w 1 "{letters}"]]'))
        self.assertIn("漢" * 16000, jepsen.transcript(history(f'[[:w 1 "{"漢" * 16000}"]]')))


class OfTranscripts(unittest.TestCase):
    """A transcript that becomes a history."""

    def test_lines_that_say_nothing(self) -> None:
        told = jepsen.history(HEAD + ONE)
        self.assertEqual(told.count(":value [[:r 1 5]]"), 1)
        lines = (HEAD + ONE).split("\n")
        found = jepsen.history("\n\n-- a comment\n= a remark\n".join(lines[:4] + ["\n".join(lines[4:])]))
        self.assertEqual(found.count(":value [[:r 1 5]]"), 1)

    def test_lines_that_are_refused(self) -> None:
        for text, words in (
            ("> OPEN x\n", "a transcript that opens a dump"), ("odd\n", "no line of a transcript"), ("> 1x;\n", "no line of a session"), ("> 1 BEGIN;\n> 1 BEGIN;\n", "that awaits a reply"),
            ("> CREATE TABLE;\n", "no table"), ("  1 BEGIN\n", "a reply to nothing"), (ONE.replace("  1 | 1\t5\n", "  1 COMMIT\n"), "a row is due"), (ONE.split("  1 |")[0], "a row is due"),
            (ONE.replace("*", "nothing"), "it shows other things than columns"), (ONE.replace("*", "count(*)"), "reads and writes of single rows"),
            (ONE.replace("*", "id").replace("1\t5", "1"), "it shows the key alone"), (ONE.replace(" WHERE id = 1", ""), "it asks for other rows than that of a key"),
            (ONE.replace("SELECT 1", "MERGE 1"), "no reply to a statement"), (ONE.replace("FROM t", "FROM u"), "there is no table u"),
        ):  # fmt: skip
            with self.subTest(text), self.assertRaisesRegex(Malformed, words):
                jepsen.history(HEAD + text)

    def test_a_begin_that_was_refused_begins_nothing(self) -> None:
        write = "> 1 UPDATE t SET v = 6 WHERE id = 1;\n  1 UPDATE 1\n"
        self.assertEqual(jepsen.history(f"{HEAD}> 1 BEGIN;\n  1 ERROR 53200\n{write}"), "")
        self.assertEqual(jepsen.history(f"{HEAD}> 1 BEGIN;\n  1 BEGIN\n{write}").count("[:w 1 6]"), 2)

    def test_commands_that_are_no_statements(self) -> None:
        lines = "".join(f"> 1 {command};\n  1 {reply}\n" for command, reply in (("EXPORT", "EXPORT 1"), ("IMPORT 1", "IMPORT"), ("POLL", "SAFE"), ("PRUNE", "PRUNE"), ("DUMP", "DUMP 0")))
        self.assertEqual(jepsen.history(HEAD + ONE.replace("> 1 SELECT", lines + "> 1 SELECT")).count(":value [[:r 1 5]]"), 1)
        self.assertEqual(jepsen.history(HEAD + "> CHECKPOINT;\n  CHECKPOINT\n"), "")


if __name__ == "__main__":
    unittest.main()
