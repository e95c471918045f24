"""Tests by recordings that are made at random: no verdict of them is wrong, and the machine that makes them finds faults.

    PGSERIAL=path/to/pgserial python3 clients/python/test_random_recordings.py

Databases as in test_recording.py. random_recordings.py makes more of them, and tells how to make one again.
"""

import os
import tempfile
import time
import unittest
from typing import Any, List, Optional
from unittest import mock

import brute_force
from pgserial import steps, translation
from random_forms import FORMS
from random_recordings import Machine
from test_recorded_threads import tell
from test_recording import DSN, HERE, module

RECORDINGS, ROWS = 200, 90
CALLS = ("copy in", "execute batch", "execute values", "prepared", "several in one text", "server cursor")
EXAMPLES = os.path.join(HERE, "../../examples/transcripts")


class AllOrders(unittest.TestCase):
    """What the recordings are compared with."""

    def test_the_examples(self) -> None:
        judged = 0
        for name in sorted(os.listdir(EXAMPLES)):
            if not name.endswith(".transcript"):
                continue
            with open(os.path.join(EXAMPLES, name), encoding="utf-8") as file:
                text = file.read()
            if "IMPORT" in text:
                continue
            with self.subTest(name):
                judged += 1
                wanted = name.endswith("_serial.transcript")
                self.assertEqual(brute_force.is_serializable(brute_force.Reader(text).transcript()), wanted)
        self.assertGreater(judged, 20)

    def test_statements(self) -> None:
        shapes = {"t": brute_force.Shape(["id", "v", "n"], ["bigint", "bigint", "text"])}
        tables: Any = {"t": {1: (1, 5, b"a"), 2: (2, None, None), 3: (3, -1, b"it's")}}
        for text, reply in (
            ("SELECT * FROM t WHERE id = 1", ["SELECT 1", "| 1\t5\ta"]), ("SELECT n FROM t WHERE v IS NULL", ["SELECT 1", "| \\N"]),
            ("SELECT count(*) FROM t WHERE v < 5 AND v <> 7", ["SELECT 1", "| 1"]), ("SELECT id, id FROM t WHERE n = 'it''s'", ["SELECT 1", "| 3\t3"]),
            ("UPDATE t SET v = v - 3, n = NULL WHERE id BETWEEN 1 AND 2", ["UPDATE 2"]), ("SELECT v FROM t", ["SELECT 3", "| 2", "| \\N", "| -1"]),
            ("INSERT INTO t VALUES (4, -9, 'x')", ["INSERT 0 1"]), ("DELETE FROM t WHERE v >= -1", ["DELETE 2"]), ("SELECT id FROM t WHERE v = NULL", ["SELECT 0"]),
        ):  # fmt: skip
            self.assertEqual(brute_force.Statement(shapes, text).does(tables), reply)
        for text in ("INSERT INTO t VALUES (4, 1, 'x')", "UPDATE t SET v = v - 9223372036854775807 WHERE id = 4"):
            self.assertRaises(brute_force.Fault, brute_force.Statement(shapes, text).does, tables)


class Recordings(unittest.TestCase):
    """Recordings of seeds that are the same each time, but for what threads do."""

    def machine(self, engine: Optional[str] = None, often: bool = False) -> Machine:
        folder = tempfile.TemporaryDirectory(dir="/dev/shm" if os.path.isdir("/dev/shm") else None)
        self.addCleanup(folder.cleanup)
        machine = Machine(folder.name, DSN if engine is None else "", engine, often=often)
        self.addCleanup(machine.close)
        return machine

    def test_no_verdict_is_wrong(self) -> None:
        begun, machine = time.process_time(), self.machine()
        wrong = machine.run(range(1, RECORDINGS + 1))  # which prints them
        self.assertEqual([told.split("\n")[0] for told in wrong], [])
        counts = machine.counts
        tell(f"{RECORDINGS} random recordings in {time.process_time() - begun:.1f} s of this process")
        self.assertGreater(counts["verdict at SERIALIZABLE: yes"], RECORDINGS * 0.3)
        self.assertGreater(counts["verdict at SERIALIZABLE: unknown"], 5)
        self.assertGreater(counts["compared with all orders of the transcript"], RECORDINGS * 0.4)
        self.assertGreater(counts["compared with all orders of what was seen: yes"], 20)
        if DSN:
            self.assertGreater(sum(counts[f"verdict at {level}: no"] for level in ("READ COMMITTED", "REPEATABLE READ")), 2)

    def test_no_verdict_is_wrong_of_what_is_said_by_its_rows(self) -> None:
        machine = self.machine(often=True)
        wrong = machine.run(range(1, ROWS + 1))
        self.assertEqual([told.split("\n")[0] for told in wrong], [])
        counts = machine.counts
        self.assertGreater(sum(counts[name] for name, form in FORMS.items() if form.kind == "by rows"), ROWS)
        self.assertGreater(counts["verdict at SERIALIZABLE: yes"], ROWS * 0.4)
        for name in ("ON CONFLICT", "a product", "kinds are written", "a cascade", "a join with keys", "many by rows", *(CALLS if DSN and module("psycopg2") else ())):
            with self.subTest(name):
                self.assertGreater(counts[name], 0)

    def found(self, *places: Any) -> List[str]:
        """What is found where a fault is planted."""
        machine = self.machine("sqlite3")
        with mock.patch.object(*places), mock.patch("builtins.print"), mock.patch.object(machine, "fewest", lambda world, plan, told: plan):
            for seed in range(1, 1000):
                wrong = machine.run([seed])
                if wrong:
                    return wrong
        return []

    def test_what_is_planted_is_found(self) -> None:
        committed, sums, counts = steps.Session.committed, translation._Update._sum, translation._ChangeTold._counts

        def as_rolled_back(session: Any, lines: str) -> None:
            committed(session, lines.replace("COMMIT", "ROLLBACK"))

        planted = (
            (steps.Session, "committed", as_rolled_back),
            (translation._Update, "_sum", lambda *words: sums(*words).replace("-", "+")),
            (translation._ChangeTold, "_counts", lambda told, count: [0 for _ in counts(told, count)]),
            (translation._Select, "limit", lambda *_: None),
            (steps.Savepoint, "_undo", lambda *_: None),
        )  # fmt: skip
        for place in planted:
            with self.subTest(place[1]):
                wrong = self.found(*place)
                self.assertEqual(len(wrong), 1)
                self.assertRegex(wrong[0], r"(?s)seed \d+ on sqlite3 .*Step\(session=.*transcript:")


if __name__ == "__main__":
    unittest.main()
