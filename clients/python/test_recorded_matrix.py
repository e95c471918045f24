"""Tests of recordings of PostgreSQL at three isolation levels: each is judged, and at SERIALIZABLE none has an anomaly.

    PGSERIAL=path/to/pgserial PGSERIAL_DSN=.. python3 clients/python/test_recorded_matrix.py

Without PostgreSQL or a driver nothing is tested. Where $PGSERIAL_FIGURES names a file, it gets the seconds of what was measured.
"""

import contextlib
import itertools
import random
import threading
import time
import unittest
from typing import Any, List

from test_recorded_threads import tell
from test_recording import DSN, Room, drivers

LEVELS = ("SERIALIZABLE", "REPEATABLE READ", "READ COMMITTED")


class Load:
    """Transactions of many threads: each reads two rows, some count those of a range with a value, seven in ten change a row."""

    def __init__(self, level: str, error: Any, rows: int, values: int, counts: float) -> None:
        self.level, self.error, self.rows, self.values, self.counts = level, error, rows, values, counts
        self.fresh = itertools.count(1)

    def value(self, chance: random.Random) -> int:
        """One of few values, or one that was never there."""
        return chance.randrange(self.values) if self.values else next(self.fresh)

    def read(self, cursor: Any, chance: random.Random, keys: List[int]) -> None:
        for key in keys:
            cursor.execute("SELECT v FROM t WHERE id = %s", (key,))
            cursor.fetchone()
        if chance.random() < self.counts:
            first = chance.randrange(self.rows)
            cursor.execute("SELECT count(*) FROM t WHERE id >= %s AND id <= %s AND v = %s", (first, first + 5, chance.randrange(self.values)))
            cursor.fetchone()

    def change(self, cursor: Any, chance: random.Random, key: int) -> None:
        turn = chance.random()
        if turn < 0.6:
            cursor.execute("UPDATE t SET v = %s WHERE id = %s", (self.value(chance), key))
        elif turn < 0.65 and self.counts:
            cursor.execute("DELETE FROM t WHERE id = %s", (key,))
        elif turn < 0.7 and self.counts:
            cursor.execute("INSERT INTO t VALUES (%s, %s)", (key, self.value(chance)))

    def transaction(self, cursor: Any, chance: random.Random) -> bool:
        """One transaction; whether it committed."""
        keys = chance.sample(range(self.rows), 2)
        try:
            cursor.execute(f"BEGIN ISOLATION LEVEL {self.level}")
            self.read(cursor, chance, keys)
            self.change(cursor, chance, keys[0])
            cursor.execute("COMMIT")
            return True
        except self.error:
            with contextlib.suppress(self.error):
                cursor.execute("ROLLBACK")
            return False

    def thread(self, connection: Any, count: int, seed: int, done: List[int]) -> None:
        chance, cursor = random.Random(seed), connection.cursor()
        while count:
            count -= self.transaction(cursor, chance)
        done.append(seed)
        connection.close()

    def run(self, connections: List[Any], count: int) -> None:
        """So many transactions by all of them together."""
        done: List[int] = []
        each = count // len(connections)
        threads = [threading.Thread(target=self.thread, args=(connection, each, seed, done)) for seed, connection in enumerate(connections)]
        for thread in threads:
            thread.start()
        for thread in threads:
            thread.join()
        assert len(done) == len(threads), "a thread has failed"


@unittest.skipUnless(drivers(), "PostgreSQL or psycopg2 isn't there (Debian: postgresql, python3-psycopg2)")
class Matrix(Room):
    """Each is judged: SERIALIZABLE as serializable, the other levels either way, and none is left unknown."""

    def judged(self, level: str, count: int, threads: int, rows: int, values: int, counts: float) -> None:
        driver = drivers()[0]

        def connect() -> Any:
            connection = driver.connect(DSN)
            connection.autocommit = True
            return connection

        setup = connect()
        cursor = setup.cursor()
        cursor.execute("DROP TABLE IF EXISTS t")
        cursor.execute("CREATE TABLE t (id int PRIMARY KEY, v bigint)")
        cursor.execute("INSERT INTO t SELECT n, 0 FROM generate_series(0, %s) AS s(n)", (rows - 1,))
        setup.close()
        recorder = self.recorder()
        Load(level, driver.Error, rows, values, counts).run([recorder.wrap(connect()) for _ in range(threads)], count)
        begun = time.monotonic()
        told = recorder.verdict()
        shape = f"{threads} threads, {rows} rows, {values or 'many'} values" + (", counts" if counts else "")
        tell(f"{level}, {recorder.committed} transactions of {shape}: {told.answer} in {time.monotonic() - begun:.2f} s, {len(told.lines)} lines")
        answers = ("yes",) if level == "SERIALIZABLE" else ("yes", "no")
        self.assertIn(told.answer, answers, (level, shape, told.words))

    def judge_levels(self, count: int, threads: int, rows: int, values: int, counts: float = 0) -> None:
        for level in LEVELS:
            with self.subTest(level):
                self.judged(level, count, threads, rows, values, counts)

    def test_few_values(self) -> None:
        self.judge_levels(3000, 8, 300, 4)

    def test_few_values_and_rows_of_many_threads(self) -> None:
        self.judge_levels(3000, 32, 20, 4)

    def test_many_threads(self) -> None:
        self.judge_levels(3000, 32, 300, 0)

    def test_counts(self) -> None:
        self.judge_levels(3000, 8, 100, 4, 0.3)

    def test_counts_of_many_threads(self) -> None:
        self.judge_levels(3000, 32, 300, 4, 0.3)

    def test_ten_thousand(self) -> None:
        self.judge_levels(10000, 8, 2000, 0)

    def test_ten_thousand_of_many_threads(self) -> None:
        self.judge_levels(10000, 32, 300, 4)


if __name__ == "__main__":
    unittest.main()
