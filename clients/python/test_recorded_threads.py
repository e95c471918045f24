"""Tests of recordings of many threads: what `check` says of them, that the application ends alike, and what a process that is
killed leaves.

    PGSERIAL=path/to/pgserial python3 clients/python/test_recorded_threads.py

Databases as in test_recording.py. Where $PGSERIAL_FIGURES names a file, it gets the seconds of what was measured.
"""

import contextlib
import itertools
import os
import random
import signal
import sqlite3
import subprocess
import sys
import threading
import time
import unittest
import warnings
from typing import Any, Callable, List, Sequence

from pgserial.recording import RecordingWarning, Verdict, verdict
from test_recording import DSN, HERE, Room, drivers, module

THREADS, TRANSACTIONS = 8, 3000

# ---- the same application with and without a recorder


def application(connect: Callable[[], Any], mark: str, errors: Any) -> List[Any]:
    """What an application sees of calls of all kinds."""
    seen: List[Any] = []

    def take(call: Callable[[], Any]) -> None:
        try:
            value = call()
            seen.append(value if isinstance(value, (int, str, tuple, list, type(None))) else type(value).__name__.replace("Cursor", "cursor"))
        except Exception as error:
            seen.append((type(error).__name__, str(error)))

    connection = connect()
    cursor = connection.cursor()
    for text, parameters in (
        ("INSERT INTO t VALUES (?, ?)", (3, 30)), ("INSERT INTO t VALUES (?, ?)", (3, 31)), ("SELECT * FROM t WHERE id = ?", (3,)), ("SELECT nothing FROM t", ()),
        ("UPDATE t SET v = v + ? WHERE id < ?", (1, 3)), ("SELECT count(*), sum(v) FROM t", ()), ("DELETE FROM t WHERE v = ?", (11,)), ("SELECT", ()), ("", ()),
        ("SELECT v FROM t ORDER BY v DESC", ()), ("UPDATE t SET v = ? WHERE id = ?", (1,)), ("UPDATE t SET v = v * 2 WHERE id = ?", (2,)),
    ):  # fmt: skip
        take(lambda: cursor.execute(text.replace("?", mark), parameters) and None)
        take(lambda: cursor.rowcount)
        take(lambda: [column[0] for column in cursor.description or ()])
        take(cursor.fetchone)
        take(lambda: cursor.fetchmany(1))
        take(cursor.fetchall)
        take(lambda: list(cursor))
        if seen[-7] is not None:
            connection.rollback()
    take(lambda: cursor.executemany(f"UPDATE t SET v = {mark} WHERE id = {mark}", [(5, 1), (6, 2), (7, 9)]) and None)
    take(lambda: cursor.rowcount)
    take(connection.commit)
    take(lambda: cursor.execute("SELECT * FROM t ORDER BY id") and None)
    take(cursor.fetchall)
    take(cursor.close)
    take(cursor.fetchone)
    take(connection.close)
    take(connection.commit)
    take(lambda: connection.cursor())
    return seen


class Alike(Room):
    """The same application ends alike with a recorder and without."""

    def alike(self, make: Callable[[], None], connect: Callable[[], Any], mark: str, errors: Any) -> None:
        make()
        without = application(connect, mark, errors)
        make()
        with warnings.catch_warnings():
            warnings.simplefilter("ignore", RecordingWarning)
            recorder = self.recorder()
            recorded = application(lambda: recorder.wrap(connect()), mark, errors)
        self.assertEqual(recorded, without)
        self.assertGreater(len(without), 80)

    def test_on_sqlite(self) -> None:
        file = os.path.join(self.folder, "db")

        def make() -> None:
            connection = sqlite3.connect(file)
            connection.executescript("DROP TABLE IF EXISTS t; CREATE TABLE t (id INTEGER PRIMARY KEY, v BIGINT); INSERT INTO t VALUES (1, 10), (2, 20)")
            connection.close()

        for level in ("DEFERRED", None, ""):
            with self.subTest(level):
                self.alike(make, lambda: sqlite3.connect(file, isolation_level=level), "?", sqlite3.Error)  # noqa: B023

    @unittest.skipUnless(drivers(), "PostgreSQL or psycopg2 isn't there (Debian: postgresql, python3-psycopg2)")
    def test_on_postgres(self) -> None:
        for driver in drivers():
            for autocommit in (False, True):

                def connect() -> Any:
                    connection = driver.connect(DSN)  # noqa: B023
                    connection.autocommit = autocommit  # noqa: B023
                    return connection

                def make() -> None:
                    connection = driver.connect(DSN)  # noqa: B023
                    connection.cursor().execute("DROP TABLE IF EXISTS t")
                    connection.cursor().execute("CREATE TABLE t (id int PRIMARY KEY, v bigint)")
                    connection.cursor().execute("INSERT INTO t VALUES (1, 10), (2, 20)")
                    connection.commit()
                    connection.close()

                with self.subTest(driver.__name__, autocommit=autocommit):
                    self.alike(make, connect, "%s", driver.Error)


# ---- threads


class Load:
    """Transactions of many threads: each reads two rows, and writes one of seven in ten times."""

    def __init__(self, begin: str, mark: str, error: Any, rows: int = 20) -> None:
        self.begin, self.mark, self.error, self.rows = begin, mark, error, rows
        self.values = itertools.count(1)

    def transaction(self, cursor: Any, chance: random.Random) -> bool:
        """One transaction; whether it committed."""
        try:
            cursor.execute(self.begin)
            one, other = chance.sample(range(self.rows), 2)
            for key in (one, other):
                cursor.execute(f"SELECT v FROM t WHERE id = {self.mark}", (key,))
                cursor.fetchone()
            if chance.random() < 0.7:
                cursor.execute(f"UPDATE t SET v = {self.mark} WHERE id = {self.mark}", (next(self.values), one))
            cursor.execute("COMMIT")
            return True
        except self.error:
            with contextlib.suppress(self.error):
                cursor.execute("ROLLBACK")
            return False

    def thread(self, connection: Any, count: int, seed: int, done: List[int]) -> None:
        chance, cursor = random.Random(seed), connection.cursor()
        while count:
            count -= self.transaction(cursor, chance)
        done.append(seed)
        connection.close()

    def run(self, connections: Sequence[Any], count: int) -> float:
        """The seconds for so many transactions by all of them together."""
        done: List[int] = []
        each = count // len(connections)
        threads = [threading.Thread(target=self.thread, args=(connection, each, seed, done)) for seed, connection in enumerate(connections)]
        begun = time.monotonic()
        for thread in threads:
            thread.start()
        for thread in threads:
            thread.join()
        assert len(done) == len(threads), "a thread has failed"
        return time.monotonic() - begun


def tell(words: str) -> None:
    """Tells a figure to whoever runs this."""
    if os.environ.get("PGSERIAL_FIGURES"):
        with open(os.environ["PGSERIAL_FIGURES"], "a", encoding="utf-8") as file:
            file.write(words + "\n")


class Threads(Room):
    def judged(self, load: Load, connect: Callable[[], Any], name: str, count: int = TRANSACTIONS) -> Verdict:
        """The verdict of a load; its time with a recorder and without is told."""
        without = load.run([connect() for _ in range(THREADS)], count)
        recorder = self.recorder()
        recorded = load.run([recorder.wrap(connect()) for _ in range(THREADS)], count)
        told = recorder.verdict()
        self.assertNotEqual(told.answer, "refused", told.words)
        self.assertEqual((recorder.committed, recorder.ended), (count, None))
        self.assertEqual(sum(line.endswith(" BEGIN;") for line in self.lines()), sum(line.endswith(" BEGIN") for line in self.lines()))
        tell(f"{name}: {count} transactions in {without:.2f} s, recorded in {recorded:.2f} s: {told.answer}")
        return told

    def test_on_sqlite(self) -> None:
        file = os.path.join(self.folder, "db")
        setup = sqlite3.connect(file)
        setup.executescript("PRAGMA journal_mode = WAL; CREATE TABLE t (id INTEGER PRIMARY KEY, v BIGINT)")
        setup.executemany("INSERT INTO t VALUES (?, 0)", [(key,) for key in range(20)])
        setup.commit()
        setup.close()

        def connect() -> Any:
            connection = sqlite3.connect(file, isolation_level=None, check_same_thread=False, timeout=60)
            connection.execute("PRAGMA synchronous = OFF")
            return connection

        for begin in ("BEGIN IMMEDIATE", "BEGIN"):
            with self.subTest(begin):
                self.assertIn(self.judged(Load(begin, "?", sqlite3.OperationalError), connect, f"sqlite3, {begin}").answer, ("yes", "unknown"))

    def test_a_planted_skew_on_sqlite(self) -> None:
        name = "file:planted?mode=memory&cache=shared"

        def connect() -> Any:
            connection = sqlite3.connect(name, uri=True, isolation_level=None)
            self.addCleanup(connection.close)
            connection.execute("PRAGMA read_uncommitted = 1")
            return connection

        connect().executescript("CREATE TABLE t (id INTEGER PRIMARY KEY, v BIGINT); INSERT INTO t VALUES (1, 1), (2, 1)")
        recorder = self.recorder()
        one, two = (recorder.wrap(connect()) for _ in range(2))
        for connection in (one, two):
            connection.execute("BEGIN")
            self.assertEqual(len(connection.execute("SELECT * FROM t WHERE v = 1").fetchall()), 2)
        for connection, key in ((one, 1), (two, 2)):
            connection.execute("UPDATE t SET v = 0 WHERE id = ?", (key,))
            connection.execute("COMMIT")
        self.assertEqual(recorder.verdict().answer, "no")

    @unittest.skipUnless(drivers(), "PostgreSQL or psycopg2 isn't there (Debian: postgresql, python3-psycopg2)")
    def test_on_postgres(self) -> None:
        loads = [(drivers()[0], level, TRANSACTIONS) for level in ("SERIALIZABLE", "REPEATABLE READ", "READ COMMITTED")]
        for driver, level, count in loads + [(driver, "SERIALIZABLE", TRANSACTIONS // 5) for driver in drivers()[1:]]:

            def connect() -> Any:
                connection = driver.connect(DSN)  # noqa: B023
                connection.autocommit = True
                return connection

            setup = connect()
            cursor = setup.cursor()
            cursor.execute("DROP TABLE IF EXISTS t")
            cursor.execute("CREATE TABLE t (id int PRIMARY KEY, v bigint)")
            cursor.execute("INSERT INTO t SELECT n, 0 FROM generate_series(0, 19) AS s(n)")
            setup.close()
            with self.subTest(driver.__name__, level=level):
                told = self.judged(Load(f"BEGIN ISOLATION LEVEL {level}", "%s", driver.Error), connect, f"{driver.__name__}, {level}", count)
                self.assertIn(told.answer, ("yes", "unknown") if level == "SERIALIZABLE" else ("yes", "no", "unknown"))


class Mixed:
    """Transactions of many threads, of statements of all kinds that can be said, and some that only read and can't."""

    TEXTS = ("a", "b", "c\nd", "e'f", "g\\h", None)

    def __init__(self, begin: str, mark: str, error: Any) -> None:
        self.begin, self.mark, self.error = begin, mark, error

    def statement(self, chance: random.Random) -> Any:
        """A statement with its parameters."""
        key, value, text = chance.randint(1, 8), chance.randint(1, 9), chance.choice(self.TEXTS)
        return chance.choice(
            [
                ("SELECT * FROM t WHERE id = ?", (key,)), ("SELECT v, n FROM t WHERE id IN (?, ?)", (key, key + 1)),
                ("SELECT id, n FROM t WHERE id IN (?, ?)", (key, key + 1)), ("SELECT count(*) FROM t WHERE id BETWEEN ? AND ?", (key, key + 2)),
                ("SELECT id FROM t WHERE v > ? ORDER BY v", (value,)), ("SELECT sum(v) FROM t", ()), ("SELECT 1 FROM t WHERE n = ?", (text,)),
                ("SELECT id FROM t WHERE n IS NULL", ()), ("SELECT * FROM t WHERE id = ? LIMIT 1", (key,)), ("UPDATE t SET v = id WHERE id = ?", (key,)),
                ("UPDATE t SET v = v + ? WHERE id = ?", (chance.choice([-2, 3]), key)), ("UPDATE t SET n = ? WHERE v = ?", (text, value)),
                ("UPDATE t SET v = ?, n = ? WHERE id >= ? AND id <= ?", (value, text, key, key + 1)),
                ("UPDATE t SET v = v - 1 WHERE id = ? RETURNING id, v", (key,)), ("INSERT INTO t (n, v, id) VALUES (?, ?, ?)", (text, value, key)),
                ("INSERT INTO t (n) VALUES (?), (?) RETURNING id, v", (text, "x")), ("INSERT INTO t (id, v) VALUES (?, ?), (?, ?)", (key, value, key + 10, value)),
                ("DELETE FROM t WHERE id = ?", (key,)), ("DELETE FROM t WHERE id = ? RETURNING *", (key,)), ("DELETE FROM t WHERE id > ?", (20,)),
            ]  # fmt: skip
        )

    def execute(self, cursor: Any, chance: random.Random) -> None:
        text, parameters = self.statement(chance)
        cursor.execute(text.replace("?", self.mark), parameters)
        if cursor.description:
            cursor.fetchall()

    def within(self, cursor: Any, chance: random.Random) -> None:
        """A statement, or one or two behind a savepoint."""
        if chance.random() < 0.8:
            self.execute(cursor, chance)
            return
        cursor.execute("SAVEPOINT a")
        try:
            self.execute(cursor, chance)
            if chance.random() < 0.5:
                self.execute(cursor, chance)
            cursor.execute("ROLLBACK TO a" if chance.random() < 0.4 else "RELEASE a")
        except self.error:
            cursor.execute("ROLLBACK TO a")

    def transaction(self, cursor: Any, chance: random.Random) -> None:
        """A transaction; one in four is a statement by itself."""
        if chance.random() < 0.25:
            self.execute(cursor, chance)
            return
        cursor.execute(self.begin)
        for _ in range(chance.randint(1, 5)):
            self.within(cursor, chance)
        cursor.execute("COMMIT" if chance.random() < 0.9 else "ROLLBACK")

    def thread(self, connection: Any, count: int, seed: int) -> None:
        chance, cursor = random.Random(seed), connection.cursor()
        for _ in range(count):
            try:
                self.transaction(cursor, chance)
            except self.error:
                with contextlib.suppress(self.error):
                    cursor.execute("ROLLBACK")
        connection.close()


class MixedStatements(Room):
    """Where the database is serializable, a `no` would mean that a statement was said otherwise than it was meant."""

    TABLE = "CREATE TABLE t (v bigint DEFAULT 3, id {} PRIMARY KEY, n text)"

    def judged(self, load: Mixed, connect: Callable[[], Any], seed: int) -> Verdict:
        """The verdict of a load, at whose end all is read."""
        with warnings.catch_warnings():
            warnings.simplefilter("error", RecordingWarning)
            recorder = self.recorder()
            threads = [threading.Thread(target=load.thread, args=(recorder.wrap(connect()), 25, 8 * seed + at)) for at in range(THREADS)]
            for thread in threads:
                thread.start()
            for thread in threads:
                thread.join()
            last = recorder.wrap(connect())
            last.cursor().execute("SELECT * FROM t")
            last.close()
        self.assertIsNone(recorder.ended)
        self.assertGreater(recorder.committed, 50)
        return recorder.verdict()

    def test_on_sqlite(self) -> None:
        for seed in range(3):
            file = os.path.join(self.folder, f"db{seed}")

            def connect() -> Any:
                connection = sqlite3.connect(file, isolation_level=None, timeout=60, check_same_thread=False)  # noqa: B023
                connection.execute("PRAGMA synchronous = OFF")
                return connection

            setup = connect()
            setup.execute("PRAGMA journal_mode = WAL")
            setup.execute(self.TABLE.format("INTEGER"))
            setup.executemany("INSERT INTO t (id, n) VALUES (?, 'first')", [(key,) for key in range(1, 7)])
            setup.close()
            with self.subTest(seed):
                told = self.judged(Mixed("BEGIN", "?", (sqlite3.OperationalError, sqlite3.IntegrityError)), connect, seed)
                self.assertIn(told.answer, ("yes", "unknown"), told)

    @unittest.skipUnless(drivers(), "PostgreSQL or psycopg2 isn't there (Debian: postgresql, python3-psycopg2)")
    def test_on_postgres(self) -> None:
        for seed, driver in itertools.product(range(2), drivers()):

            def connect() -> Any:
                options = "-c default_transaction_isolation=serializable"
                connection = driver.connect(DSN, options=options)  # noqa: B023
                connection.autocommit = True
                return connection

            setup = connect()
            cursor = setup.cursor()
            cursor.execute("DROP TABLE IF EXISTS t")
            cursor.execute(self.TABLE.format("serial"))
            cursor.execute("INSERT INTO t (id, n) SELECT k, 'first' FROM generate_series(1, 6) AS s(k)")
            cursor.execute("SELECT setval('t_id_seq', 100)")
            setup.close()
            with self.subTest(seed, driver=driver.__name__):
                told = self.judged(Mixed("BEGIN", "%s", driver.Error), connect, seed)
                self.assertIn(told.answer, ("yes", "unknown"), told)


class Killed(Room):
    """A recorder that is killed leaves a transcript of what was until then."""

    def killed(self, text: str) -> Verdict:
        child = subprocess.Popen([sys.executable, "-B", "-W", "ignore", "-c", text], cwd=HERE, stdout=subprocess.PIPE, stderr=subprocess.DEVNULL, text=True)
        assert child.stdout
        self.assertEqual(child.stdout.readline(), "running\n")
        until = time.monotonic() + 60
        while self.commits() < 40 and time.monotonic() < until:
            time.sleep(random.uniform(0.05, 0.2))
        child.send_signal(signal.SIGKILL)
        child.wait()
        child.stdout.close()
        self.assertGreaterEqual(self.commits(), 40)
        return verdict(self.path)

    def commits(self) -> int:
        """How many transactions have committed until now."""
        with open(self.path, "rb") as file:
            return file.read().count(b" COMMIT\n")

    def test_on_sqlite(self) -> None:
        for isolation in (None, "DEFERRED"):
            with self.subTest(isolation):
                file = os.path.join(self.folder, f"db{isolation}")
                setup = sqlite3.connect(file)
                setup.executescript("PRAGMA journal_mode = WAL; CREATE TABLE t (id INTEGER PRIMARY KEY, v BIGINT); INSERT INTO t VALUES (1, 0), (2, 0), (3, 0)")
                setup.close()
                told = self.killed(KILLED.format(connect=f"sqlite3.connect({file!r}, isolation_level={isolation!r}, check_same_thread=False, timeout=60)", path=self.path, mark="?"))
                self.assertIn(told.answer, ("yes", "unknown"), told)

    @unittest.skipUnless(drivers(), "PostgreSQL or psycopg2 isn't there (Debian: postgresql, python3-psycopg2)")
    def test_on_postgres(self) -> None:
        driver = drivers()[0]
        for autocommit in (True, False):
            with self.subTest(autocommit=autocommit):
                setup = driver.connect(DSN)
                setup.autocommit = True
                for text in ("DROP TABLE IF EXISTS t", "CREATE TABLE t (id int PRIMARY KEY, v bigint)", "INSERT INTO t VALUES (1, 0), (2, 0), (3, 0)"):
                    setup.cursor().execute(text)
                setup.close()
                told = self.killed(KILLED.format(connect=f"opened({driver.__name__!r}, {DSN!r}, {autocommit})", path=self.path, mark="%s"))
                self.assertIn(told.answer, ("yes", "unknown"), told)

    def test_an_end_that_isnt_whole_is_cut_off(self) -> None:
        first = "> 2 BEGIN;\n  2 BEGIN\n> 2 SELECT * FROM t;\n  2 SELECT 0\n> 2 COMMIT;\n  2 COMMIT\n"
        whole = f"> CREATE TABLE t (id bigint PRIMARY KEY);\n{first}> 1 BEGIN;\n  1 BEGIN\n> 1 SELECT * FROM t;\n"
        for end in ("", "  1 SEL", "  1 SELECT 2\n", "  1 SELECT 2\n  1 | 1\n", "  1 SELECT 2\n  1 | 1\n  1 | ", "  1 SELECT 1\n  1 | 1\n> 1 COM"):
            with self.subTest(end):
                with open(self.path, "w", encoding="utf-8") as file:
                    file.write(whole + end)
                self.assertEqual(verdict(self.path).answer, "yes")


# Eight threads that write the same rows, until the process is killed; in autocommit each statement by itself.
KILLED = """
import importlib, sqlite3, threading
from pgserial.recording import Recorder

def opened(name, dsn, autocommit):
    connection = importlib.import_module(name).connect(dsn)
    connection.autocommit = autocommit
    return connection

def work(connection, number):
    cursor = connection.cursor()
    while True:
        try:
            cursor.execute("UPDATE t SET v = v + 1 WHERE id = {mark}", (1 + number % 3,))
            cursor.execute("SELECT v FROM t WHERE id = {mark}", (1 + number % 3,))
            connection.commit()
        except Exception:
            connection.rollback()

recorder = Recorder({path!r}, ["t"])
connections = [recorder.wrap({connect}) for _ in range(8)]
for number, connection in enumerate(connections):
    threading.Thread(target=work, args=(connection, number), daemon=True).start()
print("running", flush=True)
threading.Event().wait()
"""


class Example(Room):
    def test_the_example_is_judged(self) -> None:
        databases: List[List[str]] = [[]] + ([["--dsn", DSN]] if DSN and module("psycopg2") else [])
        for words, (level, answers) in itertools.product(databases, (("REPEATABLE READ", (5,)), ("SERIALIZABLE", (0,)))):
            with self.subTest(level, words=words):
                command = [sys.executable, "-B", os.path.join(HERE, "recorded_skew.py"), *words, "--level", level, "--transcript", self.path]
                # On a busy machine its threads may happen to run one after the other, and then there is an order.
                for _ in range(10):
                    done = subprocess.run(command, capture_output=True, text=True, timeout=120)
                    self.assertTrue(done.stdout.startswith("the test has passed\n"), done.stderr)
                    if done.returncode in (*answers, 4):
                        break
                self.assertIn(done.returncode, (*answers, 4), done.stdout + done.stderr)


if __name__ == "__main__":
    unittest.main()
