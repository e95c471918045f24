"""An application with a fault that its own test doesn't find: recorded as the test runs it, and judged.

    export PGSERIAL=path/to/pgserial
    python3 clients/python/recorded_skew.py                                      # on sqlite3
    python3 clients/python/recorded_skew.py --dsn "host=/tmp dbname=test"        # on PostgreSQL, by psycopg2

Each shift has two doctors. One may go off call while the other stays: `go_off_call` looks first, and writes then. Where
the database isn't serializable, two that look at the same time both go. The test looks when all have come back, and finds
nothing wrong. The recording has what each transaction was answered, and no order of them explains that: a write skew.

PostgreSQL is asked for REPEATABLE READ; with `--level SERIALIZABLE` the verdict is yes. sqlite3 is serializable but for
connections that share a cache and are told to read what isn't committed: so this asks for that, but not with
`--level SERIALIZABLE`.
"""

import argparse
import random
import sqlite3
import sys
import threading
import time
from typing import Any, Callable, List

from pgserial.recording import Recorder

SHIFTS, THREADS, ROUNDS = 4, 8, 10
TABLE = "CREATE TABLE oncall (doctor INTEGER PRIMARY KEY, shift INTEGER NOT NULL, is_on INTEGER NOT NULL)"


# ---- the application; it knows nothing of the recorder


class Application:
    """Doctors who go off call and come back, on any database whose driver takes parameters as `mark`. Where something is
    locked it waits; where the database refuses a transaction for the sake of others it runs it again."""

    def __init__(self, mark: str, begin: str, locked: Any, refused: Any) -> None:
        self.mark, self.begin, self.locked, self.refused = mark, begin, locked, refused

    def execute(self, cursor: Any, text: str, *parameters: Any) -> Any:
        """Executes a statement, and waits while what it needs is locked."""
        while True:
            try:
                cursor.execute(text.replace("?", self.mark), parameters)
                return cursor
            except self.locked:
                time.sleep(random.random() / 1000)

    def go_off_call(self, cursor: Any, doctor: int) -> bool:
        """Takes a doctor off call, unless nobody would be left."""
        on_call = self.execute(cursor, "SELECT doctor FROM oncall WHERE shift = ? AND is_on = 1", doctor // 2).fetchall()
        if len(on_call) < 2:
            return False
        time.sleep(0.002)  # what else there is to do
        self.execute(cursor, "UPDATE oncall SET is_on = 0 WHERE doctor = ?", doctor)
        return True

    def come_back(self, cursor: Any, doctor: int) -> bool:
        """Puts a doctor on call."""
        self.execute(cursor, "UPDATE oncall SET is_on = 1 WHERE doctor = ?", doctor)
        return True

    def run(self, connection: Any, work: Callable[[Any, int], bool], doctor: int) -> bool:
        """Runs work as a transaction."""
        cursor = connection.cursor()
        while True:
            try:
                self.execute(cursor, self.begin)
                done = work(cursor, doctor)
                self.execute(cursor, "COMMIT")
                return done
            except self.refused:
                cursor.execute("ROLLBACK")


# ---- its test


def doctors_day(application: Application, connection: Any, doctor: int) -> None:
    """A doctor goes off call and comes back, again and again."""
    for _ in range(ROUNDS):
        if application.run(connection, application.go_off_call, doctor):
            time.sleep(0.004)
            application.run(connection, application.come_back, doctor)


def test(application: Application, connections: List[Any]) -> str:
    """All doctors at once; at the evening all are on call again."""
    threads = [threading.Thread(target=doctors_day, args=(application, each, at)) for at, each in enumerate(connections)]
    for thread in threads:
        thread.start()
    for thread in threads:
        thread.join()
    cursor = connections[0].cursor()
    cursor.execute("SELECT count(*) FROM oncall WHERE is_on = 1")
    return "passed" if cursor.fetchone() == (2 * SHIFTS,) else "failed"


# ---- the databases


def on_sqlite(level: str) -> Any:
    """What connects to sqlite3, and the application for it."""
    name = "file:recorded_skew?mode=memory&cache=shared"
    is_loose = level != "SERIALIZABLE"

    def connect() -> Any:
        connection = sqlite3.connect(name, uri=True, isolation_level=None, check_same_thread=False)
        connection.execute(f"PRAGMA read_uncommitted = {int(is_loose)}")
        return connection

    begin = "BEGIN" if is_loose else "BEGIN IMMEDIATE"
    return connect, Application("?", begin, sqlite3.OperationalError, ())


def on_postgres(dsn: str, level: str) -> Any:
    """What connects to PostgreSQL, and the application for it."""
    import psycopg2
    import psycopg2.errors

    def connect() -> Any:
        connection = psycopg2.connect(dsn)
        connection.autocommit = True
        return connection

    refused = (psycopg2.errors.SerializationFailure, psycopg2.errors.DeadlockDetected)
    return connect, Application("%s", f"BEGIN ISOLATION LEVEL {level}", (), refused)


def main() -> int:
    words = argparse.ArgumentParser(description=__doc__, formatter_class=argparse.RawDescriptionHelpFormatter)
    words.add_argument("--dsn", help="a PostgreSQL database, in which the table `oncall` is made anew")
    words.add_argument("--level", default="REPEATABLE READ")
    words.add_argument("--transcript", default="recorded_skew.transcript")
    given = words.parse_args()
    connect, application = on_postgres(given.dsn, given.level) if given.dsn else on_sqlite(given.level)

    setup = connect()
    cursor = setup.cursor()
    cursor.execute("DROP TABLE IF EXISTS oncall")
    cursor.execute(TABLE)
    for doctor in range(2 * SHIFTS):
        cursor.execute(f"INSERT INTO oncall VALUES ({doctor}, {doctor // 2}, 1)")

    recorder = Recorder(given.transcript, tables=["oncall"])  # these two lines
    connections = [recorder.wrap(connect()) for _ in range(THREADS)]  # are all that changes
    print("the test has", test(application, connections))
    for connection in [*connections, setup]:
        connection.close()
    verdict = recorder.verdict()
    print(verdict)
    return {"yes": 0, "unknown": 4, "no": 5}.get(verdict.answer, 1)


if __name__ == "__main__":
    sys.exit(main())
