"""Tests of `verify_end`: a recorder reads the tables at the end, and a yes is of an order that leaves those rows.

    PGSERIAL=path/to/pgserial python3 clients/python/test_recorded_end.py

Databases as in test_recording.py.
"""

import glob
import os
import shutil
import sqlite3
import subprocess
import threading
import time
import unittest
from typing import Any, List

from pgserial.ending import END_BEGINS, END_ENDS, UNREAD, without_ends
from pgserial.keys import Refused
from pgserial.recording import Recorder, Verdict, verdict
from test_recording import DSN, OnSqlite, Room, drivers


class End(OnSqlite):
    """On sqlite3."""

    def recorder(self, tables: Any = ("t",), **named: Any) -> Recorder:
        return super().recorder(tables, **{"verify_end": True, **named})

    def end(self) -> List[List[str]]:
        """The lines of each end that was read."""
        found: List[List[str]] = []
        for part in self.text().split(END_BEGINS + "\n")[1:]:
            found.append(part.split(END_ENDS)[0].split("\n")[:-1])
        return found

    def unknown(self, told: Verdict, *reasons: str) -> None:
        self.assertEqual(told.answer, "unknown", told.words)
        for reason in reasons:
            self.assertIn(reason, told.words)

    def test_the_last_connection_that_closes_reads_it(self) -> None:
        recorder = self.recorder()
        one, two = recorder.wrap(self.raw()), recorder.wrap(self.raw())
        one.execute("UPDATE t SET v = v + 1 WHERE id = 1")
        one.close()
        self.assertEqual(self.end(), [])
        two.execute("DELETE FROM t WHERE id = 2")
        two.close()
        lines = ["> 1 BEGIN;", "  1 BEGIN", "> 1 SELECT * FROM t;", "  1 SELECT 1", "  1 | 1\t11", "> 1 COMMIT;", "  1 COMMIT"]
        self.assertEqual(self.end(), [lines])
        told = recorder.verdict()
        self.assertEqual(self.end(), [lines])
        self.assertEqual((told.answer, told.committed, told.sessions, told.statements), ("yes", 2, 2, 2))

    def test_what_nothing_has_recorded_is_seen_there(self) -> None:
        recorder = self.recorder()
        connection = recorder.wrap(self.raw())
        connection.execute("UPDATE t SET v = v + 1 WHERE id = 1")
        self.raw().execute("UPDATE t SET v = 99 WHERE id = 2")
        connection.close()
        told = recorder.verdict()
        self.unknown(told, "no order leaves the rows that the database has at the end: of table t the database has (2, 99), and that order leaves (2, 20)")
        self.assertEqual(self.told.getvalue().replace(self.folder, "").count("99"), 0)

    def test_rows_that_are_there_or_arent(self) -> None:
        for text, row in (("INSERT INTO t VALUES (7, NULL)", r"(7, \N), and that order leaves no such row"), ("DELETE FROM t WHERE id = 1", "no such row, and that order leaves (1, 11)")):
            recorder = self.recorder()
            connection = recorder.wrap(self.raw())
            connection.execute("UPDATE t SET v = 11 WHERE id = 1")
            connection.execute("BEGIN")
            connection.execute("UPDATE t SET v = v + 1")
            connection.execute("ROLLBACK")
            self.raw().execute(text)
            connection.close()
            self.unknown(recorder.verdict(), row)

    def test_a_no_without_it_stays_one(self) -> None:
        recorder = self.recorder()
        connection = recorder.wrap(self.raw())
        connection.execute("UPDATE t SET v = 11 WHERE id = 1")
        self.raw().execute("UPDATE t SET v = 12 WHERE id = 1")
        connection.execute("SELECT v FROM t WHERE id = 1")
        connection.close()
        self.assertEqual(recorder.verdict().answer, "no")

    def test_what_is_open_is_rolled_back_before(self) -> None:
        recorder = self.recorder()
        connection = recorder.wrap(self.raw())
        connection.execute("UPDATE t SET v = 11 WHERE id = 1")
        connection.execute("BEGIN")
        connection.execute("UPDATE t SET v = 12 WHERE id = 1")
        connection.close()
        self.assertIn("  2 | 1\t11", self.end()[0])
        self.assertEqual(recorder.verdict().answer, "yes")

    def test_where_none_is_closed_an_idle_one_reads_it(self) -> None:
        recorder = self.recorder()
        busy, idle = recorder.wrap(self.raw(isolation_level="DEFERRED")), recorder.wrap(self.raw())
        idle.execute("UPDATE t SET v = 11 WHERE id = 1")
        busy.execute("BEGIN")
        self.assertEqual(recorder.verdict().answer, "yes")
        self.assertIn("  3 | 1\t11", self.end()[0])

    def test_where_none_is_idle_a_yes_is_unknown(self) -> None:
        recorder = self.recorder()
        connection = recorder.wrap(self.raw())
        connection.execute("UPDATE t SET v = 11 WHERE id = 1")
        connection.execute("BEGIN")
        self.unknown(recorder.verdict(), "the rows at the end couldn't be read: no connection was idle")
        self.assertIn(UNREAD, self.comments())

    def test_faults_of_the_reading_dont_reach_the_application(self) -> None:
        recorder = self.recorder()
        connection = recorder.wrap(self.raw())
        connection.execute("UPDATE t SET v = 11 WHERE id = 1")
        connection.wrapped.execute("ALTER TABLE t RENAME TO other")
        connection.close()
        self.unknown(recorder.verdict(), "couldn't be read: OperationalError: no such table: t")
        self.assertEqual(self.end(), [])

    def test_threads_that_close_together_read_it_once(self) -> None:
        recorder = self.recorder()
        connections = [recorder.wrap(self.raw()) for _ in range(8)]
        connections[0].execute("UPDATE t SET v = 11 WHERE id = 1")
        threads = [threading.Thread(target=connection.close) for connection in connections]
        for thread in threads:
            thread.start()
        for thread in threads:
            thread.join()
        self.assertEqual(recorder.verdict().answer, "yes")
        self.assertGreaterEqual(len(self.end()), 1)

    def test_it_is_read_again_only_behind_a_commit(self) -> None:
        recorder = self.recorder()
        for value in (11, 12, 12, None):
            connection = recorder.wrap(self.raw())
            if value is not None:
                connection.execute("UPDATE t SET v = ? WHERE id = 1", (value,))
            connection.close()
        self.assertEqual(len(self.end()), 3)
        self.assertEqual(recorder.verdict().answer, "yes")
        with open(self.path, "rb") as file:
            self.assertNotIn(b"SELECT *", without_ends(file.read()))

    def test_without_it_nothing_is_read(self) -> None:
        recorder = self.recorder(verify_end=False)
        connection = recorder.wrap(self.raw())
        connection.execute("UPDATE t SET v = 11 WHERE id = 1")
        self.raw().execute("UPDATE t SET v = 99 WHERE id = 2")
        connection.close()
        self.assertEqual((recorder.verdict().answer, self.end()), ("yes", []))

    def test_the_anomaly_that_shows_at_the_end_alone(self) -> None:
        """Two blind writes of two rows, done in other orders: only the rows at the end tell."""
        recorder = self.recorder()
        one, two = recorder.wrap(self.raw()), recorder.wrap(self.raw())
        for connection, value in ((one, 1), (two, 2)):
            connection.execute("BEGIN")
            connection.execute("UPDATE t SET v = ? WHERE id < 3", (value,))
            connection.execute("COMMIT")
        self.raw().execute("UPDATE t SET v = 1 WHERE id = 2")
        for connection in (one, two):
            connection.close()
        self.unknown(recorder.verdict(), "the database has (2, 1), and that order leaves (2, 2)")
        self.assertEqual(verdict(self.path).status, 4)


class OfPostgres(Room):
    """A table of PostgreSQL."""

    def connection(self, driver: Any, recorder: Recorder, autocommit: bool) -> Any:
        raw = driver.connect(DSN)
        self.addCleanup(raw.close)
        raw.autocommit = autocommit
        return recorder.wrap(raw)

    def setUp(self) -> None:
        super().setUp()
        setup = drivers()[0].connect(DSN)
        setup.autocommit = True
        for text in ("DROP TABLE IF EXISTS t", "CREATE TABLE t (id int PRIMARY KEY, v bigint, n text)"):
            setup.cursor().execute(text)
        setup.close()


@unittest.skipUnless(drivers(), "PostgreSQL or psycopg2 isn't there (Debian: postgresql, python3-psycopg2)")
class EndOnPostgres(OfPostgres):
    """On PostgreSQL."""

    def test_each_driver_and_mode(self) -> None:
        for driver in drivers():
            for autocommit in (True, False):
                for ends in ("close", "open", "with"):
                    for is_seen in (False, True):
                        with self.subTest(driver.__name__, autocommit=autocommit, ends=ends, is_seen=is_seen):
                            self.judged(driver, autocommit, ends, is_seen)

    def judged(self, driver: Any, autocommit: bool, ends: str, is_seen: bool) -> None:
        recorder = self.recorder(verify_end=True)
        connection = self.connection(driver, recorder, autocommit)
        connection.cursor().execute("DELETE FROM t")
        connection.cursor().execute("INSERT INTO t VALUES (1, 10, 'a\\b')")
        if ends != "with":
            connection.commit()
        if is_seen:
            other = driver.connect(DSN)
            other.autocommit = True
            other.cursor().execute("INSERT INTO t VALUES (2, 20, 'x')")
            other.close()
        if ends == "with":
            with connection:
                pass
        if ends == "close" or (ends == "with" and driver.__name__ == "psycopg2"):
            connection.cursor().execute("BEGIN") if autocommit else connection.cursor().execute("DELETE FROM t")
            connection.close()
        told = recorder.verdict()
        self.assertEqual(told.answer, "unknown" if is_seen else "yes", told.words)
        if is_seen:
            self.assertIn("the database has (2, 20, x), and that order leaves no such row", told.words)


def programs() -> str:
    """The folder of PostgreSQL's programs, the newest ones; nothing where there are none."""
    found = sorted(glob.glob("/usr/lib/postgresql/*/bin/pg_basebackup"), key=lambda path: int(path.split("/")[4]))
    return os.path.dirname(found[-1]) if found else ""


@unittest.skipUnless(programs(), "PostgreSQL isn't there (Debian: postgresql)")
@unittest.skipUnless(drivers(), "PostgreSQL or psycopg2 isn't there (Debian: postgresql, python3-psycopg2)")
class Replica(OfPostgres):
    """On a server and one that follows it, whose replay is held back."""

    def does(self, program: str, *words: str) -> None:
        """One of PostgreSQL's programs, which don't run as root. Its output isn't taken: the server would hold the pipe."""
        user = ["setpriv", "--reuid=nobody", "--regid=nogroup", "--clear-groups"] if os.geteuid() == 0 else []
        with open(os.path.join(self.folder, "log"), "ab") as log:
            subprocess.run([*user, os.path.join(programs(), program), *words], cwd="/", check=True, stdout=log, stderr=log, timeout=120)

    def setUp(self) -> None:
        super().setUp()
        self.ask(DSN, "INSERT INTO t VALUES (1, 10, 'a'), (2, 20, 'b')")
        words = dict(word.split("=", 1) for word in DSN.split())
        room = os.path.join(self.folder, "room")
        os.mkdir(room)
        if os.geteuid() == 0:
            os.chmod(self.folder, 0o755)
            shutil.chown(room, "nobody", "nogroup")
        data = os.path.join(room, "data")
        self.does("pg_basebackup", "-h", words["host"], "-U", words["user"], "-D", data, "-R", "-X", "stream", "--checkpoint=fast")
        most = self.ask(DSN, "SHOW max_connections")[0][0]
        self.does("pg_ctl", "-D", data, "-w", "-o", f"-c listen_addresses= -c unix_socket_directories={room} -c max_connections={most} -c fsync=off", "start")
        self.addCleanup(self.does, "pg_ctl", "-D", data, "-m", "immediate", "stop")
        self.replica = f"host={room} user={words['user']} dbname={words['dbname']}"
        while self.ask(self.replica, "SELECT count(*) FROM t") != [(2,)]:
            time.sleep(0.05)
        self.ask(self.replica, "SELECT pg_wal_replay_pause()")
        while self.ask(self.replica, "SELECT pg_get_wal_replay_pause_state()") != [("paused",)]:
            time.sleep(0.05)

    def ask(self, dsn: str, text: str) -> List[Any]:
        """What a query gives on a connection that isn't recorded."""
        connection = drivers()[0].connect(dsn)
        try:
            connection.autocommit = True
            cursor = connection.cursor()
            cursor.execute(text)
            return list(cursor.fetchall()) if cursor.description is not None else []
        finally:
            connection.close()

    def test_what_it_has_late(self) -> None:
        """A read of it is stale, and no end is read there. The recording doesn't begin with its rows."""
        driver = drivers()[0]
        for last in ("the replica", "the primary"):
            with self.subTest(last):
                recorder = self.recorder(verify_end=True)
                late = driver.connect(self.replica)
                self.addCleanup(late.close)
                with self.assertRaisesRegex(Refused, "is to a read replica, whose rows may be late"):
                    recorder.wrap(late)
                one = self.connection(driver, recorder, True)
                two = recorder.wrap(late)
                one.cursor().execute("UPDATE t SET v = v + 1 WHERE id = 1")
                cursor = two.cursor()
                cursor.execute("SELECT v FROM t WHERE id = 1")
                self.assertEqual(cursor.fetchall(), [(10,)])
                two.commit()
                for connection in (one, two) if last == "the replica" else (two, one):
                    connection.close()
                self.assertRegex(recorder.verdict().text, "stale read(.|\n)*serializable: no")
                told = verdict(self.path, words=["--no-time"])
                self.assertEqual(told.answer, "unknown" if last == "the replica" else "yes", told.words)
                self.assertEqual("the rows at the end couldn't be read: Unsaid: a read replica has the rows late" in told.words, last == "the replica", told.words)
                self.ask(DSN, "UPDATE t SET v = 10 WHERE id = 1")


if __name__ == "__main__":
    unittest.main()
