"""Tests of recordings of TPC-B and TPC-C: their tables are recorded whole, and runs of them judged at three levels.

    PGSERIAL=path/to/pgserial PGSERIAL_DSN=.. python3 clients/python/test_recorded_tpc.py
"""

import datetime
import unittest
from decimal import Decimal

from recorded_tpc import LEVELS, TPC_B, TPC_C, Client, recorded
from test_recording import DSN, OnPostgres, drivers


@unittest.skipUnless(drivers(), "PostgreSQL or psycopg2 isn't there (Debian: postgresql, python3-psycopg2)")
class Benchmarks(OnPostgres):
    def test_runs_are_judged_at_three_levels(self) -> None:
        for driver in drivers():
            for benchmark in "bc":
                for level in LEVELS:
                    with self.subTest(driver=driver.__name__, benchmark=benchmark, level=level):
                        recorder, told = recorded(driver, DSN, benchmark, level, 12, self.path)
                        self.assertEqual((dict(recorder.left_out), recorder.ended, recorder.committed), ({}, None, 36))
                        # Both are serializable under snapshots, and TPC-B at all levels: each UPDATE adds to what is there.
                        answers = ["yes"] if benchmark == "b" or level != "READ COMMITTED" else ["yes", "no"]
                        self.assertIn(told.answer, answers, told)

    def test_all_columns_are_recorded(self) -> None:
        for driver in drivers():
            for benchmark, tables in (("b", TPC_B), ("c", TPC_C)):
                recorded(driver, DSN, benchmark, "SERIALIZABLE", 0, self.path)
                self.assertNotIn("recorded:", self.comments())
                created = [line for line in self.lines() if line.startswith("> CREATE TABLE")]
                self.assertEqual([line.split()[3] for line in created], list(tables))

    def test_a_lost_update_of_stock_is_found(self) -> None:
        for driver in self.each():
            tables = [f"CREATE TABLE {name} ({columns})" for name, columns in TPC_C.items()]
            self.make(*tables, f"INSERT INTO stock SELECT 1, 1, 50{', NULL' * 10}, 0, 0, 0, NULL")
            recorder = self.recorder(list(TPC_C))
            one, two = (Client(recorder.wrap(self.raw(driver)), seed, datetime.datetime.now) for seed in (1, 2))
            for client in (one, two):
                self.assertEqual(client.ask("SELECT s_quantity FROM stock WHERE s_w_id = 1 AND s_i_id = %s", 1), [(Decimal(50),)])
            for client, left in ((one, 40), (two, 45)):
                client.ask("UPDATE stock SET s_quantity = %s, s_order_cnt = s_order_cnt + 1 WHERE s_i_id = 1 AND s_w_id = 1", left)
                client.connection.commit()
            told = recorder.verdict()
            self.assertEqual((told.answer, dict(recorder.left_out)), ("no", {}))
            self.assertIn("lost update", str(told))


if __name__ == "__main__":
    unittest.main()
