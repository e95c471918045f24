"""Tests of pgserial.verdict: what a verdict has, where the judged part of a recording ends, and disks that are full.

    PGSERIAL=path/to/pgserial python3 clients/python/test_verdict.py
"""

import contextlib
import errno
import os
import sqlite3
import subprocess
import sys
import unittest
import warnings
from typing import Any, Callable, Iterator, List

from pgserial.catalog import Refused
from pgserial.recording import Recorder, RecordingWarning, verdict
from pgserial.verdict import judged_part, printable
from test_recording import HERE, OnSqlite


@contextlib.contextmanager
def disk_of(path: str, size: int) -> Iterator[None]:
    """A disk on which a file may have so many bytes; what doesn't fit is written up to there."""
    real = os.write

    def write(file: int, data: Any) -> int:
        with contextlib.suppress(OSError):
            if os.path.samestat(os.fstat(file), os.stat(path)):
                room = size - os.lseek(file, 0, os.SEEK_CUR)
                if room <= 0:
                    raise OSError(errno.ENOSPC, os.strerror(errno.ENOSPC))
                return real(file, data[:room])
        if os.path.exists(path) and os.path.samestat(os.fstat(file), os.stat(path)):
            raise OSError(errno.ENOSPC, os.strerror(errno.ENOSPC))
        return real(file, data)

    os.write = write
    try:
        yield
    finally:
        os.write = real


class Disks(OnSqlite):
    """An application with two transactions and a write that can't be said, on disks of all sizes."""

    def on_disk_of(self, size: int) -> Recorder:
        raw = self.raw()
        raw.execute("UPDATE t SET v = 10 * id")
        with disk_of(self.path, size):
            recorder = self.recorder()
            connection = recorder.wrap(raw)
            connection.execute("UPDATE t SET v = v + 1 WHERE id = 1")
            connection.execute("UPDATE OR REPLACE t SET v = v * 2")  # can't be said
            connection.execute("SELECT * FROM t")
            recorder.close()
        raw.close()
        return recorder

    def test_no_yes_whatever_the_disks_size(self) -> None:
        answers = set()
        with warnings.catch_warnings():
            warnings.simplefilter("ignore", RecordingWarning)
            for size in range(0, 1200, 17):
                recorder = self.on_disk_of(size)
                told = verdict(self.path)
                answers.add(told.answer)
                self.assertIn(told.answer, ("unknown", "refused"), (size, told))
                self.assertIsNotNone(recorder.ended)
                if told.answer == "refused":
                    self.assertLess(size, 80)
        self.assertIn("unknown", answers)

    def test_the_reason_is_there_where_a_line_fits(self) -> None:
        with warnings.catch_warnings():
            warnings.simplefilter("ignore", RecordingWarning)
            self.on_disk_of(10**6)
        with open(self.path, encoding="utf-8") as file:
            size = file.read().index("> 1 UPDATE t SET v = v + 1") + 10
        with self.assertWarnsRegex(RecordingWarning, "No space left"):
            self.on_disk_of(size)
        told = verdict(self.path)
        self.assertEqual(told.answer, "unknown")
        self.assertRegex(told.words, "unknown: from statement [0-9] on: it can't be written, No space left on device .*test_verdict.py")
        self.assertRegex(told.ended or "", "No space left")

    def test_a_disk_that_is_full_from_the_beginning(self) -> None:
        with self.assertWarns(RecordingWarning):
            self.on_disk_of(0)
        told = verdict(self.path)
        self.assertEqual((told.answer, told.committed, os.path.getsize(self.path)), ("unknown", 0, 0))
        self.assertIn("nothing was recorded", told.words)

    def test_a_line_that_isnt_whole_is_told(self) -> None:
        recorder = self.recorder()
        recorder.wrap(self.raw()).execute("UPDATE t SET v = v + 1 WHERE id = 1")
        recorder.flush()
        with open(self.path, "a", encoding="utf-8") as file:
            file.write("> 1 UPDATE t SE")
        told = verdict(self.path)
        self.assertEqual((told.answer, told.committed), ("yes", 1))
        self.assertIn("its last line isn't whole", told.words)
        self.assertEqual(verdict(self.path, strict=True).answer, "unknown")


class Locks(OnSqlite):
    def test_two_recorders_of_one_file(self) -> None:
        recorder = self.recorder()
        recorder.wrap(self.raw()).execute("UPDATE t SET v = 1")
        with self.assertRaisesRegex(Refused, r"another recorder writes .*\{pid\} in the path"):
            Recorder(self.path, ["t"])
        text = f"from pgserial.recording import Recorder; Recorder({self.path!r}, ['t'])"
        done = subprocess.run([sys.executable, "-B", "-c", text], cwd=HERE, capture_output=True, text=True)
        self.assertIn("another recorder writes", done.stderr)
        self.assertEqual(recorder.verdict().committed, 1)
        Recorder(self.path, ["t"]).close()

    def test_a_process_has_a_file_of_its_own(self) -> None:
        recorder = Recorder(os.path.join(self.folder, "of-{pid}"), ["t"])
        recorder.close()
        self.assertEqual(recorder.path, os.path.join(self.folder, f"of-{os.getpid()}"))
        self.assertTrue(os.path.exists(recorder.path))


class Verdicts(OnSqlite):
    def cli(self, *words: str) -> "subprocess.CompletedProcess[str]":
        return subprocess.run([sys.executable, "-B", "-m", "pgserial.recording", self.path, *words], cwd=HERE, capture_output=True, text=True)

    def anomaly(self) -> None:
        """A file that says that two have read what both then wrote."""
        lines = list(self.opening)
        for session in (1, 2):
            lines += [f"> {session} BEGIN;", f"  {session} BEGIN", f"> {session} SELECT v FROM t WHERE id = 1;", f"  {session} SELECT 1", f"  {session} | 10"]
        for session in (1, 2):
            lines += [f"> {session} UPDATE t SET v = 1{session} WHERE id = 1;", f"  {session} UPDATE 1", f"> {session} COMMIT;", f"  {session} COMMIT"]
        with open(self.path, "w", encoding="utf-8") as file:
            file.write("\n".join(lines) + "\n")

    def test_what_a_yes_is_of(self) -> None:
        recorder = self.recorder()
        one, two = recorder.wrap(self.raw()), recorder.wrap(self.raw())
        for connection in (one, two, one):
            connection.execute("BEGIN")
            connection.execute("SELECT * FROM t WHERE id = 1")
            connection.execute("UPDATE t SET v = 3 WHERE id = 1")
            connection.execute("COMMIT")
        two.execute("BEGIN")
        two.execute("UPDATE t SET v = 7 WHERE id = 2")
        two.execute("ROLLBACK")
        two.execute("BEGIN")
        two.execute("COMMIT")  # of nothing
        told = recorder.verdict()
        self.assertEqual((told.answer, told.committed, told.rolled_back, told.sessions, told.statements, told.reads), ("yes", 3, 1, 2, 7, 3))
        self.assertEqual((told.words, told.left_out, told.ended, told.reasons), ("serializable: yes, for 3 transactions of 2 sessions", (), None, ()))
        self.assertEqual((told.status, self.cli().returncode), (0, 0))
        self.assertTrue(self.cli().stdout.endswith("serializable: yes, for 3 transactions of 2 sessions\n"))

    def test_reads_that_arent_known_are_told_with_their_places(self) -> None:
        recorder = self.recorder(project=HERE)
        connection = recorder.wrap(self.raw())

        def report() -> None:
            connection.execute("SELECT sum(v) FROM t")

        for _ in range(3):
            report()
        connection.execute("SELECT v FROM t WHERE v = 1 OR v = 2")
        connection.execute("UPDATE t SET v = v + 1 WHERE id = 1")
        connection.execute("SELECT * FROM t")
        told = recorder.verdict()
        line = report.__code__.co_firstlineno + 1
        self.assertEqual((told.answer, told.reads), ("yes", 1))
        self.assertEqual([(each.kind, each.count) for each in told.left_out], [("the grammar has no function sum", 3), ("the grammar has no OR there", 1)])
        self.assertEqual(told.left_out[0].places, ((f"report (test_verdict.py:{line})", 3),))
        self.assertIn(f"for 2 transactions of 1 session; 4 of 5 reads aren't known (report (test_verdict.py:{line}): the grammar", told.words)
        strict = recorder.verdict(strict=True)
        self.assertEqual((strict.answer, strict.status, self.cli("--strict").returncode, self.cli().returncode), ("unknown", 4, 4, 0))
        self.assertIn("unknown: 4 of 5 reads aren't known", strict.words)

    def test_what_reads_that_arent_known_may_hide(self) -> None:
        """The tables that they name, and who writes these."""
        setup = self.raw()
        setup.executescript('CREATE TABLE "Order lines" (id INTEGER PRIMARY KEY, n BIGINT); CREATE TABLE item (id INTEGER PRIMARY KEY, n BIGINT)')
        recorder = self.recorder(["t", "Order lines", "item"], project=HERE)
        connection = recorder.wrap(self.raw())

        def report() -> None:
            connection.execute("SELECT sum(v) FROM t")
            connection.execute('SELECT max(n), (SELECT max(n) FROM item) FROM "order lines"')

        def pay() -> None:
            connection.execute("UPDATE t SET v = v + 1 WHERE id = 1")
            connection.execute("DELETE FROM t WHERE id = 2")
            connection.execute("INSERT INTO t VALUES (5, 6)")
            connection.execute('INSERT INTO "Order lines" VALUES (1, 2)')

        report()
        pay()
        told = recorder.verdict()
        first = report.__code__.co_firstlineno + 1
        writes = [f"pay (test_verdict.py:{pay.__code__.co_firstlineno + at})" for at in (1, 2, 3, 4)]
        places = [f"report (test_verdict.py:{first + at})" for at in range(2)]
        hidden = {(each.place, each.table, each.writers) for each in (hidden for kind in told.left_out for hidden in kind.hides)}
        self.assertEqual(hidden, {(places[0], "t", tuple(writes[:3])), (places[1], "Order lines", (writes[3],)), (places[1], "item", ())})
        for words in (
            f"{places[0]}: the grammar has no function sum, of t, written by {writes[0]}, {writes[1]} and 1 other place; ",
            f"of Order lines, written by {writes[3]}, and of item, which nothing recorded has written)",
        ):
            self.assertIn(words, told.words)

    def test_nothing_was_recorded(self) -> None:
        connection = self.recorder().wrap(self.raw())
        connection.execute("BEGIN")
        connection.execute("UPDATE t SET v = 1")
        connection.execute("ROLLBACK")
        told = verdict(self.path)
        self.assertEqual((told.answer, told.status, told.rolled_back), ("unknown", 4, 1))
        self.assertRegex(told.words, "^serializable: unknown: nothing was recorded: .*TestCase")
        self.assertEqual(self.cli().returncode, 4)

    def test_a_no_and_its_reasons(self) -> None:
        self.anomaly()
        told = verdict(self.path)
        self.assertEqual((told.answer, told.status, told.committed, self.cli().returncode), ("no", 5, 3, 5))
        self.assertIn("lost update", "\n".join(told.reasons))
        self.assertNotIn("check no", told.reasons)

    def test_a_no_stands_before_what_cant_be_said(self) -> None:
        self.anomaly()
        with open(self.path, "a", encoding="utf-8") as file:
            file.write("> 3 not said, the grammar has no v * 2: UPDATE t SET v = v * 2 (f a.py:1);\n  3 COMMIT\n> 1 BEGIN;\n  9 NONSENSE\n")
        told = verdict(self.path)
        self.assertEqual(told.answer, "no")
        self.assertIn("from statement 7 on: the grammar has no v * 2: UPDATE t SET v = v * 2 (f a.py:1)", told.words)

    def test_a_file_that_is_no_transcript(self) -> None:
        with open(self.path, "w", encoding="utf-8") as file:
            file.write("nonsense\n")
        told = verdict(self.path)
        self.assertEqual((told.answer, told.status, self.cli().returncode), ("refused", 1, 1))
        self.assertRegex(told.words, "^no verdict: transcript line 1; expected `> `, two spaces,")

    def test_the_steps_ran_out(self) -> None:
        self.anomaly()
        program = os.path.join(self.folder, "program")
        with open(program, "w", encoding="utf-8") as file:
            file.write("#!/bin/sh\ncat > /dev/null\necho check unknown\nexit 4\n")
        os.chmod(program, 0o755)
        told = verdict(self.path, program)
        self.assertEqual((told.answer, told.status), ("unknown", 4))
        self.assertIn("the steps ran out", told.words)
        self.assertEqual(self.cli("--program", program).returncode, 4)

    def test_a_recording_that_wasnt_closed(self) -> None:
        self.recorder().wrap(self.raw()).execute("UPDATE t SET v = 1")
        told = verdict(self.path)
        self.assertEqual(told.answer, "yes")
        self.assertIn("it wasn't closed", told.words)
        self.assertEqual(verdict(self.path, strict=True).answer, "unknown")

    def test_a_process_that_ends_closes_its_recording(self) -> None:
        text = f"""
import os, sqlite3
from pgserial.recording import Recorder
connection = Recorder({self.path!r}, ["t"]).wrap(sqlite3.connect({self.file!r}, isolation_level=None))
connection.execute("UPDATE t SET v = 1")
if os.fork() == 0:
    raise SystemExit
os.wait()
connection.execute("UPDATE t SET v = 2")
"""
        done = subprocess.run([sys.executable, "-B", "-c", text], cwd=HERE, capture_output=True, text=True)
        self.assertEqual(done.returncode, 0, done.stderr)
        told = verdict(self.path)
        self.assertEqual((told.answer, told.committed, told.ended), ("yes", 2, None))

    def test_what_would_steer_a_terminal_is_escaped(self) -> None:
        odd = "\x1b]0;x\x07 \x9b31m \u202e\u2066 \u200f \r \ud800"
        self.assertEqual(printable(odd), r"\x1b]0;x\x07 \x9b31m \u202e\u2066 \u200f \r \ud800")
        self.assertEqual(printable("naïve 漢字"), "naïve 漢字")
        raw = self.raw()
        raw.execute("CREATE TABLE w (id TEXT PRIMARY KEY)")
        recorder = self.recorder(["w"])
        connection = recorder.wrap(raw)
        connection.execute("SELECT id FROM w WHERE id = '\x1b[31m' OR id = '\u202e'")
        connection.execute("INSERT INTO w VALUES (?)", ("\x1b]0;x\x07\u202e",))
        with self.assertWarns(RecordingWarning) as warned:
            connection.execute("CREATE TABLE x AS SELECT '\x1b[31m' || '\x9b\u202e' AS y")
        told = str(recorder.verdict()) + self.told.getvalue() + str(warned.warning)
        self.assertEqual([letter for letter in told if letter in "\x1b\x07\x9b\u202e"], [])
        self.assertIn(r"\x1b[31m", told)


class Watched(sqlite3.Connection):
    """A connection beside which others go on once it has done something, and before that has come back."""

    watchers: List[Callable[[], object]] = []

    def execute(self, *words: Any) -> Any:
        cursor = super().execute(*words)
        self.seen()
        return cursor

    def executescript(self, text: str) -> Any:
        cursor = super().executescript(text)
        self.seen()
        return cursor

    def __setattr__(self, name: str, value: object) -> None:
        super().__setattr__(name, value)
        if name == "isolation_level":
            self.seen()

    def seen(self) -> None:
        watchers, self.watchers = self.watchers, []
        for watcher in watchers:
            watcher()


@unittest.skipIf(sqlite3.sqlite_version_info < (3, 35), "SQLite is older than RETURNING")
class Beginnings(OnSqlite):
    """Each beginning of a recording in autocommit, as a killed process may leave it."""

    WRITES = (
        ("UPDATE t SET v = v + 1 WHERE v > 0",), ("INSERT INTO t (v) VALUES (30) RETURNING id",), ("INSERT INTO t VALUES (7, 70), (8, 80)",), ("DELETE FROM t WHERE v > 50",),
        ("UPDATE t SET v = 0 WHERE id = 1",), ("UPDATE t SET v = 3 WHERE id = 1 RETURNING v",), ("UPDATE OR REPLACE t SET v = v * 2",), ("UPDATE t SET v = 5 WHERE id IN (1, 2)",),
        ("UPDATE t SET v = v * 2 WHERE v > 0",), ("INSERT INTO t VALUES (1, 5), (9, 9) ON CONFLICT (id) DO UPDATE SET v = excluded.v",), ("REPLACE INTO t VALUES (1, 6)",),
        ("SAVEPOINT a", "UPDATE t SET v = 9 WHERE id = 1", "RELEASE a"), ("BEGIN", "UPDATE OR REPLACE t SET v = v * 2", "COMMIT"),
        ("BEGIN", "UPDATE t SET v = 8 WHERE id = 2", "isolation_level"), ("BEGIN", "UPDATE t SET v = 7 WHERE id = 2", "executescript"),
        ("BEGIN", "UPDATE OR REPLACE t SET v = v * 2", "ROLLBACK"), ("BEGIN", "SAVEPOINT b", "UPDATE OR REPLACE t SET v = v * 2", "ROLLBACK TO b", "RELEASE b", "UPDATE t SET v = 4 WHERE id = 2", "COMMIT"),
    )  # fmt: skip

    def recorded(self, writes: Any) -> bytes:
        """A recording of writes, each seen by another session before the recorder knows that it was done."""
        raw = self.raw()
        raw.executescript("DELETE FROM t; INSERT INTO t VALUES (1, 10), (2, 20)")
        recorder = self.recorder()
        watched = self.raw(factory=Watched)
        one, two = recorder.wrap(watched), recorder.wrap(self.raw())
        for text in writes:
            watched.watchers = [lambda: two.execute("SELECT * FROM t").fetchall()]
            if text == "isolation_level":
                one.isolation_level = None
            elif text == "executescript":
                one.executescript("SELECT 1;")
            else:
                one.execute(text).fetchall()
        two.execute("SELECT * FROM t")
        two.execute("SELECT * FROM t")
        data = self.text().encode("utf-8")
        recorder.close()
        return data

    def test_no_beginning_is_a_no(self) -> None:
        with warnings.catch_warnings():
            warnings.simplefilter("ignore", RecordingWarning)
            for writes in self.WRITES:
                data = self.recorded(writes)
                start = data.index(b"-- The application begins")
                for end in [at + 1 for at, byte in enumerate(data) if byte == 10 and at > start]:
                    with open(self.path, "wb") as file:
                        file.write(data[:end])
                    told = verdict(self.path)
                    self.assertIn(told.answer, ("yes", "unknown"), (writes, data[:end].decode("utf-8"), str(told)))

    def test_the_whole_recording_is_judged(self) -> None:
        with warnings.catch_warnings():
            warnings.simplefilter("ignore", RecordingWarning)
            for writes in self.WRITES:
                self.recorded(writes)
                told = verdict(self.path)
                is_said = "OR REPLACE" not in "".join(writes) or "ROLLBACK" in "".join(writes)
                self.assertEqual(told.answer, "yes" if is_said else "unknown", (writes, str(told)))
                if is_said:
                    self.assertGreaterEqual(told.committed, 3 if "ROLLBACK" not in writes else 2)


class Marks(unittest.TestCase):
    """Where the judged part ends."""

    def part(self, *lines: str) -> List[str]:
        return judged_part(("\n".join(lines) + "\n").encode("utf-8")).data.decode("utf-8").split("\n")[:-1]

    def test_behind_the_last_line_of_the_session_that_has_written(self) -> None:
        mine = ["> 1 BEGIN;", "  1 BEGIN", "> 1 SELECT v FROM t WHERE id = 1;", "  1 SELECT 1", "  1 | 5"]
        self.assertEqual(self.part(*mine, "> 2 BEGIN;", "  2 BEGIN", "> 1 not said, x;", "  1 COMMIT"), mine)
        self.assertEqual(self.part(*mine, "> 2 BEGIN;", "> 3 not recorded, x;", "  3 COMMIT"), [*mine, "> 2 BEGIN;"])
        self.assertEqual(self.part(*mine, "> 2 not said, x;", "  2 ERROR 0A000"), mine)

    def test_a_later_mark_of_an_earlier_session(self) -> None:
        first = ["> 1 BEGIN;", "  1 BEGIN"]
        self.assertEqual(self.part(*first, "> 2 BEGIN;", "  2 BEGIN", "> 2 not said, x;", "  2 COMMIT", "> 1 not said, y;", "  1 COMMIT"), first)

    def test_a_statement_that_may_have_committed_by_itself(self) -> None:
        before = ["> 2 BEGIN;", "  2 BEGIN"]
        alone = ["-- Session 1 may commit here.", "> 1 BEGIN;", "  1 BEGIN", "> 1 UPDATE t SET v = 0;"]
        done = ["  1 UPDATE 2", "> 1 COMMIT;", "  1 COMMIT"]
        after = ["> 2 SELECT * FROM t;", "  2 SELECT 0"]
        self.assertEqual(self.part(*before, *alone), before)
        self.assertEqual(self.part(*before, *alone, *after), before)
        self.assertEqual(self.part(*before, *alone, *done, *after), before + alone + done + after)
        self.assertEqual(self.part(*before, *alone, *after, "-- Session 1 hasn't committed."), before + alone + after + ["-- Session 1 hasn't committed."])
        for count in range(3):
            self.assertEqual(self.part(*before, *alone, *done[:count], *after), before)

    def test_one_that_was_under_way_there_and_is_known_later(self) -> None:
        alone = ["-- Session 1 may commit here.", "> 1 BEGIN;", "  1 BEGIN", "> 1 UPDATE t SET v = 0;"]
        mark = ["> 2 not said, x;", "  2 COMMIT"]
        self.assertEqual(self.part(*alone, *mark, "  1 UPDATE 2", "> 1 COMMIT;", "  1 COMMIT"), [*alone, "  1 UPDATE 2", "> 1 COMMIT;"])
        self.assertEqual(self.part(*alone, *mark, "  1 ERROR 23505", "> 1 ROLLBACK;", "  1 ROLLBACK"), alone)
        self.assertEqual(self.part(*alone, *mark, "  1 UPDATE 2", "> 1 COMMIT;"), [])

    def test_rows_that_are_missing(self) -> None:
        head = ["> 1 BEGIN;", "  1 BEGIN", "> 1 SELECT v FROM t;"]
        self.assertEqual(self.part(*head, "  1 SELECT 2", "  1 | 5"), head)
        self.assertEqual(self.part(*head, "  1 SELECT 1", "  1 | 5"), [*head, "  1 SELECT 1", "  1 | 5"])
        self.assertEqual(self.part(*head, "  1 SELECT 1"), head)


if __name__ == "__main__":
    unittest.main()
