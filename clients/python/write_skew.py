"""An application's transaction that two sessions run at once, tested: what would be a write skew is refused, and the loop
that runs a refused transaction again ends well.

    PGSERIAL=path/to/pgserial python3 clients/python/write_skew.py

A doctor may go off call while another one stays. `go_off_call` looks first and writes then. Under snapshot isolation two
doctors could each see the other, and both would go.
"""

import threading
import unittest
from typing import Callable, List, TypeVar

import pgserial

Result = TypeVar("Result")


# ---- the application, as it would speak to any database


class NobodyLeft(Exception):
    """No other doctor is on call."""


def go_off_call(connection: pgserial.Connection, doctor: str) -> None:
    """Takes a doctor off call, unless nobody would be left."""
    left = connection.execute("SELECT doctor FROM oncall WHERE is_on = 1 AND doctor <> %s", (doctor,)).fetchall()
    if not left:
        raise NobodyLeft
    connection.execute("UPDATE oncall SET is_on = 0 WHERE doctor = %s", (doctor,))


def run(connection: pgserial.Connection, work: Callable[[], Result], tries: int = 5) -> Result:
    """Runs work as a transaction, and again where it is refused for the sake of others. So it does nothing but its
    statements: whatever else it did would be done again."""
    for _ in range(tries - 1):
        try:
            with connection:
                return work()
        except pgserial.SerializationFailure:
            pass
    with connection:
        return work()


# ---- its tests


class WriteSkew(unittest.TestCase):
    def setUp(self) -> None:
        self.db = pgserial.Server(schema="CREATE TABLE oncall (doctor text PRIMARY KEY, is_on bigint NOT NULL);")
        self.addCleanup(self.db.close)
        with self.db.connect() as connection:
            connection.cursor().executemany("INSERT INTO oncall VALUES (%s, 1)", [("ada",), ("bob",)])

    def on_call(self) -> List[str]:
        with self.db.connect() as connection:
            return [doctor for doctor, in connection.execute("SELECT doctor FROM oncall WHERE is_on = 1")]

    def test_the_second_of_two_is_refused(self) -> None:
        ada, bob = self.db.connect(), self.db.connect()
        go_off_call(ada, "ada")
        go_off_call(bob, "bob")  # each has seen the other on call
        ada.commit()
        with self.assertRaises(pgserial.SerializationFailure):
            bob.commit()
        self.assertEqual(self.on_call(), ["bob"])

    def test_run_again_it_sees_what_the_first_has_done(self) -> None:
        ada, bob = self.db.connect(), self.db.connect()
        tries = []

        def work() -> None:
            tries.append(bob.transaction)
            go_off_call(bob, "bob")
            if len(tries) == 1:  # another session comes between the look and the commit
                run(ada, lambda: go_off_call(ada, "ada"))

        self.assertRaises(NobodyLeft, run, bob, work)
        self.assertEqual(len(tries), 2)
        self.assertEqual(self.on_call(), ["bob"])

    def test_on_threads_one_doctor_stays_whoever_is_first(self) -> None:
        stayed = []

        def leave(doctor: str) -> None:
            connection = self.db.connect()
            try:
                run(connection, lambda: go_off_call(connection, doctor))
            except NobodyLeft:
                stayed.append(doctor)

        threads = [threading.Thread(target=leave, args=(doctor,)) for doctor in ("ada", "bob")]
        for thread in threads:
            thread.start()
        for thread in threads:
            thread.join()
        self.assertEqual(self.on_call(), stayed)
        self.assertEqual(len(stayed), 1)
        # The server tells an order in which the transactions, one after the other, would have seen the same.
        self.assertEqual(len(self.db.serial_order()), 3)


if __name__ == "__main__":
    unittest.main()
