"""Tests of tasks, threads and pools: psycopg's asynchronous connections, psycopg's and psycopg2's pools.

    PGSERIAL=path/to/pgserial PGSERIAL_DSN=".." python3 clients/python/test_asyncio.py

$PGSERIAL_DSN names a database of PostgreSQL, in which the table `t` is made anew.
"""

import asyncio
import contextlib
import sqlite3
import threading
import unittest
import warnings
from typing import Any, List

from pgserial.recording import RecordingWarning
from test_recording import DSN, OnSqlite, Room, module

OPENING = 9  # lines


@unittest.skipUnless(DSN, "PostgreSQL isn't there (Debian: postgresql)")
class OnPostgres(Room):
    def setUp(self) -> None:
        super().setUp()
        driver = module("psycopg2") or module("psycopg")
        with contextlib.closing(driver.connect(DSN)) as connection:
            cursor = connection.cursor()
            cursor.execute("DROP TABLE IF EXISTS t")
            cursor.execute("CREATE TABLE t (id int PRIMARY KEY, v bigint)")
            cursor.execute("INSERT INTO t VALUES (1, 10), (2, 20)")
            connection.commit()

    def body(self) -> List[str]:
        return self.lines()[OPENING:]

    def said(self, *lines: str) -> List[str]:
        """Lines of session 1: commands, and replies behind two blanks."""
        return [f"> 1 {line};" if not line.startswith("  ") else f"  1 {line[2:]}" for line in lines]


@unittest.skipUnless(module("psycopg"), "psycopg isn't there (Debian: python3-psycopg)")
class Asynchronous(OnPostgres):
    async def connect(self, **named: Any) -> Any:
        import psycopg

        connection = await psycopg.AsyncConnection.connect(DSN, **named)
        return self.recorder().wrap(connection)

    def test_statements_and_rows(self) -> None:
        async def main() -> None:
            connection = await self.connect()
            async with connection.cursor() as cursor:
                self.assertIs(await cursor.execute("SELECT * FROM t ORDER BY id"), cursor)
                self.assertEqual((await cursor.fetchone(), await cursor.fetchall(), cursor.rowcount), ((1, 10), [(2, 20)], 2))
                self.assertIs(cursor.connection, connection)
            rows = [row async for row in await connection.execute("SELECT v FROM t WHERE id = %s", (2,))]
            self.assertEqual(rows, [(20,)])
            await connection.cursor().executemany("UPDATE t SET v = %s WHERE id = %s", [(1, 1), (2, 2)])
            await connection.commit()
            await connection.close()
            self.assertTrue(connection.closed)

        asyncio.run(main())
        self.assertEqual(
            self.body(),
            self.said(
                "BEGIN", "  BEGIN", "SELECT * FROM t", "  SELECT 2", "  | 1\t10", "  | 2\t20", "SELECT v FROM t WHERE id = 2", "  SELECT 1", "  | 20",
                "UPDATE t SET v = 1 WHERE id = 1", "  UPDATE 1", "UPDATE t SET v = 2 WHERE id = 2", "  UPDATE 1", "COMMIT", "  COMMIT",
            ),
        )  # fmt: skip

    def test_rows_are_the_applications_own(self) -> None:
        async def main() -> None:
            from psycopg.rows import dict_row

            connection = await self.connect(row_factory=dict_row)
            self.assertEqual(await (await connection.execute("SELECT id FROM t WHERE v = 20")).fetchall(), [{"id": 2}])
            await connection.close()

        asyncio.run(main())
        self.assertIn("  1 | 2", self.body())

    def test_transactions_and_savepoints(self) -> None:
        async def main() -> None:
            connection = await self.connect(autocommit=True)
            await connection.execute("UPDATE t SET v = 3 WHERE id = 2")
            with contextlib.suppress(ZeroDivisionError):
                async with connection.transaction():
                    await connection.execute("UPDATE t SET v = 4 WHERE id = 2")
                    raise ZeroDivisionError
            async with connection.transaction():
                with contextlib.suppress(ZeroDivisionError):
                    async with connection.transaction():
                        await connection.execute("UPDATE t SET v = 5 WHERE id = 2")
                        raise ZeroDivisionError
                await connection.execute("UPDATE t SET v = 6 WHERE id = 2")
            await connection.close()

        asyncio.run(main())
        fates = [line for line in self.body() if line.startswith(("> 1 UPDATE", "> 1 COMMIT", "> 1 ROLLBACK"))]
        self.assertEqual(
            fates,
            self.said(*[line for v, end in ((3, "COMMIT"), (4, "ROLLBACK"), (6, "COMMIT")) for line in (f"UPDATE t SET v = {v} WHERE id = 2", end)]),
        )

    def test_errors(self) -> None:
        async def main() -> None:
            import psycopg

            connection = await self.connect()
            with self.assertRaises(psycopg.errors.UniqueViolation):
                await connection.execute("INSERT INTO t VALUES (1, 1)")
            await connection.rollback()
            async with connection:  # closes it
                await connection.execute("UPDATE t SET v = 7 WHERE id = 1")
            self.assertTrue(connection.closed)

        asyncio.run(main())
        self.assertEqual(
            self.body(),
            self.said("BEGIN", "  BEGIN", "INSERT INTO t VALUES (1, 1)", "  ERROR 23505", "ROLLBACK", "  ROLLBACK")
            + self.said("BEGIN", "  BEGIN", "UPDATE t SET v = 7 WHERE id = 1", "  UPDATE 1", "COMMIT", "  COMMIT"),
        )

    def test_tasks_that_share_a_connection_wait_for_each_other(self) -> None:
        async def main() -> None:
            connection = await self.connect()
            await asyncio.gather(*[connection.execute("UPDATE t SET v = v + 1 WHERE id = 1") for _ in range(8)])
            await connection.commit()
            await connection.close()

        asyncio.run(main())
        self.assertEqual(self.body(), self.said("BEGIN", "  BEGIN", *["UPDATE t SET v = v + 1 WHERE id = 1", "  UPDATE 1"] * 8, "COMMIT", "  COMMIT"))

    def test_a_write_that_is_cancelled_may_have_been_done_or_not(self) -> None:
        import psycopg

        async def main(other: Any) -> Any:
            connection = await self.connect(autocommit=True)
            task = asyncio.ensure_future(connection.execute("UPDATE t SET v = v + 1 WHERE id = 1"))
            await asyncio.sleep(0.3)  # it waits for the row
            task.cancel()
            with self.assertRaises(asyncio.CancelledError):
                await task
            other.rollback()
            await connection.close()
            reader = connection._session.recorder.wrap(await psycopg.AsyncConnection.connect(DSN))
            (value,) = await (await reader.execute("SELECT v FROM t WHERE id = 1")).fetchone()
            await reader.commit()
            await reader.close()
            return value, connection._session.recorder.verdict().answer

        with warnings.catch_warnings(), psycopg.connect(DSN) as other:
            warnings.simplefilter("ignore", RecordingWarning)
            other.execute("UPDATE t SET v = v WHERE id = 1")
            value, answer = asyncio.run(main(other))
        self.assertIn((value, answer), ((10, "yes"), (11, "yes"), (10, "unknown"), (11, "unknown")))

    def test_the_end_is_read_by_another_connection(self) -> None:
        async def main(how: str) -> Any:
            import psycopg

            recorder = self.recorder(verify_end=True)
            connection = recorder.wrap(await psycopg.AsyncConnection.connect(DSN))
            if how == "with":
                async with connection:
                    await connection.execute("UPDATE t SET v = 5 WHERE id = 1")
            else:
                await connection.execute("UPDATE t SET v = 6 WHERE id = 1")
                await connection.commit()
                await connection.execute("UPDATE t SET v = 7 WHERE id = 1")
                await connection.close()
            return recorder.verdict()

        for how, value in (("with", 5), ("close", 6)):
            told = asyncio.run(main(how))
            self.assertEqual((told.answer, told.committed), ("yes", 1), str(told))
            self.assertIn(f"  2 | 1\t{value}", self.body())

    def test_two_that_lose_an_update(self) -> None:
        async def main() -> Any:
            recorder = self.recorder()
            import psycopg

            async def task(name: str) -> None:
                async with recorder.wrap(await psycopg.AsyncConnection.connect(DSN)) as connection:
                    with recorder.named(name):
                        (value,) = await (await connection.execute("SELECT v FROM t WHERE id = 1")).fetchone()
                    reached.append(name)
                    while len(reached) < 2:
                        await asyncio.sleep(0.01)
                    await connection.execute("UPDATE t SET v = %s WHERE id = 1", (value + 1,))

            reached: List[str] = []
            await asyncio.gather(task("one"), task("two"))
            return recorder.verdict()

        told = asyncio.run(main())
        self.assertEqual(told.answer, "no")
        self.assertRegex(str(told), r"\bone\b[\s\S]*\btwo\b|\btwo\b[\s\S]*\bone\b")

    @unittest.skipUnless(module("psycopg_pool"), "psycopg_pool isn't there (Debian: python3-psycopg-pool)")
    def test_eight_tasks_of_a_pool(self) -> None:
        async def main() -> Any:
            from psycopg import AsyncConnection
            from psycopg_pool import AsyncConnectionPool

            recorder = self.recorder()

            async def task(number: int) -> None:
                for _ in range(4):
                    async with pool.connection() as connection, connection.cursor() as cursor:
                        await cursor.execute("SELECT v FROM t WHERE id = %s", (1 + number % 2,))
                        await connection.execute("UPDATE t SET v = v + 1 WHERE id = 1")

            async with AsyncConnectionPool(DSN, min_size=2, max_size=5, connection_class=recorder.connecting(AsyncConnection)) as pool:
                await asyncio.gather(*map(task, range(8)))
            told = recorder.verdict()
            self.assertIsNone(recorder.ended)
            return told

        self.assertEqual(asyncio.run(main()).committed, 32)


class Pools(OnPostgres):
    def threads(self, work: Any) -> None:
        threads = [threading.Thread(target=work) for _ in range(8)]
        for thread in threads:
            thread.start()
        for thread in threads:
            thread.join()

    @unittest.skipUnless(module("psycopg_pool"), "psycopg_pool isn't there (Debian: python3-psycopg-pool)")
    def test_psycopg(self) -> None:
        from psycopg import Connection
        from psycopg_pool import ConnectionPool

        recorder = self.recorder()
        with ConnectionPool(DSN, min_size=2, max_size=4, connection_class=recorder.connecting(Connection)) as pool:

            def work() -> None:
                for _ in range(4):
                    with pool.connection() as connection:
                        connection.execute("UPDATE t SET v = v + 1 WHERE id = 1")

            self.threads(work)
        told = recorder.verdict()
        self.assertEqual((told.answer, told.committed, recorder.ended), ("yes", 32, None))

    @unittest.skipUnless(module("psycopg2"), "psycopg2 isn't there (Debian: python3-psycopg2)")
    def test_psycopg2(self) -> None:
        import psycopg2.extensions
        from psycopg2.pool import ThreadedConnectionPool

        recorder = self.recorder()
        pool = ThreadedConnectionPool(2, 8, DSN, connection_factory=recorder.connecting(psycopg2.extensions.connection))

        def work() -> None:
            for _ in range(4):
                connection = pool.getconn()
                connection.cursor().execute("UPDATE t SET v = v + 1 WHERE id = 1")
                connection.commit()
                pool.putconn(connection)

        self.threads(work)
        pool.closeall()
        told = recorder.verdict()
        self.assertEqual((told.answer, told.committed, recorder.ended), ("yes", 32, None))


class Factory(OnSqlite):
    def test_sqlite3(self) -> None:
        recorder = self.recorder()
        connection = sqlite3.connect(self.file, factory=recorder.connecting(sqlite3.Connection))
        with connection:
            connection.execute("UPDATE t SET v = 5 WHERE id = 1")
        connection.close()
        told = recorder.verdict()
        self.assertEqual((told.answer, told.committed), ("yes", 1))


if __name__ == "__main__":
    unittest.main()
