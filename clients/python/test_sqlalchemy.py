"""Tests of SQLAlchemy's engines that are recorded: what stands in the transcript of sessions, pools, savepoints and errors.

    PGSERIAL=path/to/pgserial python3 clients/python/test_sqlalchemy.py

PostgreSQL is tried where $PGSERIAL_DSN names a database of it, in which the table `accounts` is made anew.
"""

import asyncio
import contextlib
import os
import unittest
import warnings
from typing import Any, Callable, Dict, List

from test_recording import DSN, OnSqlite, Room, module

sqlalchemy = module("sqlalchemy")
ACCOUNTS = [(1, "ada", 10), (2, "bob", 20)]
OPENING = [
    "> CREATE TABLE accounts (id bigint PRIMARY KEY, owner text, balance bigint);", "> 1 BEGIN;", "  1 BEGIN", "> 1 INSERT INTO accounts VALUES (1, 'ada', 10);",
    "  1 INSERT 0 1", "> 1 INSERT INTO accounts VALUES (2, 'bob', 20);", "  1 INSERT 0 1", "> 1 COMMIT;", "  1 COMMIT",
]  # fmt: skip


def url_of(driver: str) -> str:
    """The engine's URL on the tests' PostgreSQL."""
    words = dict(word.split("=", 1) for word in DSN.split())
    return f"postgresql+{driver}://{words['user']}@/{words['dbname']}?host={words['host']}"


def transaction(session: int, *lines: str) -> List[str]:
    """The lines of a transaction that commits."""
    return [line.replace("#", str(session)) for line in ("> # BEGIN;", "  # BEGIN", *lines, "> # COMMIT;", "  # COMMIT")]


def fates(lines: List[str]) -> List[Any]:
    """The updates, each with the end of its transaction."""
    found = []
    for number, line in enumerate(lines):
        if line.startswith("> ") and " UPDATE" in line:
            end = next(other for other in lines[number:] if other.startswith(line[:4]) and other.split(" ")[2] in ("COMMIT;", "ROLLBACK;"))
            found.append((line[4:], end.split(" ")[2]))
    return found


@unittest.skipUnless(sqlalchemy, "sqlalchemy isn't there (Debian: python3-sqlalchemy)")
class OnSqlalchemy(Room):
    """An engine with the table of accounts."""

    def mapped(self) -> Any:
        """The class of an account."""
        from sqlalchemy.orm import declarative_base

        base = declarative_base()

        class Account(base):  # type: ignore
            __tablename__ = "accounts"
            id = sqlalchemy.Column(sqlalchemy.Integer, primary_key=True)
            owner = sqlalchemy.Column(sqlalchemy.String)
            balance = sqlalchemy.Column(sqlalchemy.Integer)

        return Account

    def made(self, bind: Any, account: Any) -> None:
        """Makes the table anew."""
        table = account.__table__
        table.drop(bind, checkfirst=True)
        table.create(bind)
        if bind.dialect.name == "postgresql":
            bind.execute(sqlalchemy.text("ALTER SEQUENCE accounts_id_seq RESTART WITH 10"))
        bind.execute(table.insert(), [dict(zip(("id", "owner", "balance"), row)) for row in ACCOUNTS])

    def body(self) -> List[str]:
        lines = self.lines()
        self.assertEqual(lines[: len(OPENING)], OPENING)
        return lines[len(OPENING) :]


def servers() -> Dict[str, str]:
    """The synchronous engines that there are."""
    return {"psycopg2": url_of("psycopg2")} if DSN and module("psycopg2") else {}


class Engines(OnSqlalchemy):
    def engine(self, url: str, **named: Any) -> Any:
        engine = sqlalchemy.create_engine(url, **named)
        self.addCleanup(engine.dispose)
        self.Account = self.mapped()
        with engine.begin() as connection:
            self.made(connection, self.Account)
        return engine

    def each(self, **named: Any) -> Any:
        """An engine of each kind, which is recorded."""
        for name, url in {"sqlite": f"sqlite:///{self.folder}/db", **servers()}.items():
            with self.subTest(name):
                engine = self.engine(url, **named)
                self.recorded = self.recorder(["accounts"])
                self.assertIs(self.recorded.engine(engine), engine)
                yield engine

    def test_a_session_commits_and_rolls_back(self) -> None:
        from sqlalchemy.orm import Session

        for engine in self.each():
            with Session(engine) as session:
                session.get(self.Account, 1).balance -= 3
                session.commit()
            with Session(engine) as session:  # which is closed without a commit
                session.get(self.Account, 2).balance = 0
                session.flush()
            with Session(engine) as session:
                self.assertEqual([(a.id, a.owner, a.balance) for a in session.query(self.Account).order_by("id")], [(1, "ada", 7), ACCOUNTS[1]])
            engine.dispose()
            if engine.dialect.name == "sqlite":  # whose transactions begin with the first write
                self.assertEqual(fates(self.body()), [("UPDATE accounts SET balance = 7 WHERE id = 1;", "COMMIT;"), ("UPDATE accounts SET balance = 0 WHERE id = 2;", "ROLLBACK;")])
                continue
            read = ["> # SELECT * FROM accounts WHERE id = {0};", "  # SELECT 1", "  # | {1}"]
            left = transaction(1, *[line.format(2, "2\tbob\t20") for line in read], "> # UPDATE accounts SET balance = 0 WHERE id = 2;", "  # UPDATE 1")
            self.assertEqual(
                self.body(),
                transaction(1, *[line.format(1, "1\tada\t10") for line in read], "> # UPDATE accounts SET balance = 7 WHERE id = 1;", "  # UPDATE 1")
                + [line.replace("COMMIT", "ROLLBACK") for line in left]
                + [line.replace("COMMIT", "ROLLBACK") for line in transaction(1, "> # SELECT * FROM accounts;", "  # SELECT 2", "  # | 1\tada\t7", "  # | 2\tbob\t20")],
            )
            self.assertEqual(self.recorded.verdict().answer, "yes")

    def test_autocommit_is_a_transaction_for_each_statement(self) -> None:
        for engine in self.each(isolation_level="AUTOCOMMIT"):
            with engine.connect() as connection:
                for balance in (5, 6):
                    connection.execute(sqlalchemy.text("UPDATE accounts SET balance = :b WHERE id = 1"), {"b": balance})
            update = "> # UPDATE accounts SET balance = {} WHERE id = 1;"
            self.assertEqual(self.body(), transaction(1, update.format(5), "  # UPDATE 1") + transaction(1, update.format(6), "  # UPDATE 1"))

    def test_many_parameters(self) -> None:
        for engine in self.each():
            with engine.begin() as connection:
                done = connection.execute(sqlalchemy.text("UPDATE accounts SET balance = :b WHERE id = :i"), [{"b": 1, "i": 1}, {"b": 2, "i": 2}])
                self.assertEqual(done.rowcount, 2)
                connection.execute(self.Account.__table__.insert(), [{"id": 3, "owner": "it's"}, {"id": 4, "owner": "%s"}])
            self.assertEqual(
                self.body(),
                transaction(
                    1, "> # UPDATE accounts SET balance = 1 WHERE id = 1;", "  # UPDATE 1", "> # UPDATE accounts SET balance = 2 WHERE id = 2;", "  # UPDATE 1",
                    "> # INSERT INTO accounts VALUES (3, 'it''s', NULL);", "  # INSERT 0 1", "> # INSERT INTO accounts VALUES (4, '%s', NULL);", "  # INSERT 0 1",
                ),
            )  # fmt: skip

    @unittest.skipUnless(servers(), "PostgreSQL or psycopg2 isn't there (Debian: postgresql, python3-psycopg2)")
    def test_savepoints_and_errors(self) -> None:
        from sqlalchemy.orm import Session

        for engine in [engine for engine in self.each() if engine.dialect.name == "postgresql"]:
            with Session(engine) as session:
                session.add(self.Account(id=3, balance=1))
                session.flush()
                with self.assertRaises(sqlalchemy.exc.IntegrityError), session.begin_nested():
                    session.execute(sqlalchemy.text("UPDATE accounts SET balance = 9 WHERE id = 1"))
                    session.execute(sqlalchemy.text("INSERT INTO accounts VALUES (2, 'x', 1)"))
                with session.begin_nested():
                    session.add(self.Account(id=4, balance=2))
                session.commit()
            insert = "> # INSERT INTO accounts VALUES ({}, NULL, {});"
            self.assertEqual(self.body(), transaction(1, insert.format(3, 1), "  # INSERT 0 1", insert.format(4, 2), "  # INSERT 0 1"))

    def test_pools(self) -> None:
        pools = [sqlalchemy.pool.NullPool, sqlalchemy.pool.QueuePool, sqlalchemy.pool.StaticPool, sqlalchemy.pool.SingletonThreadPool]
        for pool in pools:
            for engine in self.each(poolclass=pool):
                count = 70 if pool is sqlalchemy.pool.NullPool else 3
                for _ in range(count):
                    with engine.begin() as connection:
                        connection.execute(sqlalchemy.text("UPDATE accounts SET balance = balance + 1 WHERE id = 1"))
                engine.dispose()
                with engine.begin() as connection:
                    row = connection.execute(sqlalchemy.text("SELECT balance FROM accounts WHERE id = 1")).fetchone()
                self.assertEqual((pool, row[0]), (pool, 10 + count))
                self.assertEqual(self.recorded.verdict().answer, "yes")
                self.assertEqual((self.recorded.committed, self.recorded.ended), (count + 1, None))

    def test_parameters_of_asyncpg_in_sqlalchemy_2(self) -> None:
        from pgserial.sql import tokens_of

        tokens = tokens_of("SET v = $2::INTEGER, n = $$a$1$$ WHERE id = $1::BIGINT", "numeric_dollar", True)
        self.assertEqual([token.value for token in tokens if token.kind in ("slot", "string")], [1, "a$1", 0])

    def test_it_begins_when_the_tables_are_there(self) -> None:
        engine = sqlalchemy.create_engine(f"sqlite:///{self.folder}/db")
        self.addCleanup(engine.dispose)
        recorder = self.recorder(["accounts"])
        recorder.engine(engine)
        self.made(engine, self.mapped())
        self.assertEqual(recorder.committed, 1)  # the two rows
        engine.execute("UPDATE accounts SET balance = 1 WHERE id = 1")
        self.assertEqual(recorder.verdict().answer, "yes")
        self.assertEqual(recorder.committed, 2)

    def test_tables_that_never_come(self) -> None:
        recorder = self.recorder(["missing"])
        with recorder.engine(sqlalchemy.create_engine(f"sqlite:///{self.folder}/db")).connect() as connection:
            connection.execute(sqlalchemy.text("SELECT 1"))
        recorder.close()
        self.assertEqual(recorder.committed, 0)
        self.assertRegex(recorder.ended or "", "there is no table missing")

    def test_an_engine_in_use_is_refused(self) -> None:
        from pgserial.recording import Refused

        engine = self.engine(f"sqlite:///{self.folder}/db", poolclass=sqlalchemy.pool.QueuePool)
        with engine.connect(), self.assertRaisesRegex(Refused, "are in use"):
            self.recorder(["accounts"]).engine(engine)
        recorder = self.recorder(["accounts"])
        recorder.engine(engine)
        with engine.begin() as connection:
            connection.execute(sqlalchemy.text("UPDATE accounts SET balance = 1 WHERE id = 1"))
        self.assertEqual((recorder.verdict().answer, recorder.committed), ("yes", 1))


def asynchronous() -> Dict[str, str]:
    """The asynchronous engines that there are."""
    found = {"aiosqlite": "sqlite+aiosqlite:///{}/db"} if module("aiosqlite") else {}
    return {**found, "asyncpg": url_of("asyncpg")} if DSN and module("asyncpg") else found


@unittest.skipUnless(asynchronous(), "neither aiosqlite nor asyncpg is there (Debian: python3-aiosqlite, python3-asyncpg)")
class AsyncEngines(OnSqlalchemy):
    def each(self, does: Callable[[Any], Any], **named: Any) -> Any:
        """What a coroutine gives for an engine of each kind."""
        from sqlalchemy.ext.asyncio import create_async_engine

        async def main(url: str) -> Any:
            engine = create_async_engine(url.format(self.folder), **named)
            self.Account = self.mapped()
            async with engine.begin() as connection:
                await connection.run_sync(lambda bind: self.made(bind, self.Account))
            self.recorded = self.recorder(["accounts"])  # of 1.4, eight tasks that connect first wait for each other forever
            try:
                return await does(self.recorded.engine(engine))
            finally:
                await engine.dispose()

        for name, url in asynchronous().items():
            with self.subTest(name):
                yield asyncio.run(main(url))

    def test_eight_tasks_at_once(self) -> None:
        from sqlalchemy.ext.asyncio import AsyncSession

        async def eight(engine: Any) -> int:
            async def task(number: int) -> int:
                for _ in range(5):
                    async with AsyncSession(engine) as session:
                        with contextlib.suppress(sqlalchemy.exc.DBAPIError), self.recorded.named(f"task{number}"):
                            (await session.get(self.Account, 1 + number % 2)).balance += 1
                            await asyncio.sleep(0)
                            await session.commit()
                return 1

            return sum(await asyncio.gather(*map(task, range(8))))

        for done in self.each(eight, isolation_level="SERIALIZABLE"):
            self.assertEqual(done, 8)
            self.assertIn(self.recorded.verdict().answer, ("yes", "unknown"))
            self.assertGreater(self.recorded.committed, 5)
            self.assertIsNone(self.recorded.ended)
            self.assertLessEqual({f"task{number}" for number in range(8)}, {line.split(" ")[2] for line in self.comments().split("\n") if line.startswith("-- at")})

    def test_forms(self) -> None:
        from sqlalchemy.ext.asyncio import AsyncSession

        update = sqlalchemy.text("UPDATE accounts SET balance = :b WHERE id = :i")

        async def forms(engine: Any) -> Any:
            async with AsyncSession(engine) as session:
                (await session.get(self.Account, 1)).balance = 4
                await session.commit()
            async with engine.connect() as connection:  # which is closed without a commit
                await connection.execute(update, {"b": 5, "i": 1})
            async with engine.connect() as connection:
                await connection.execution_options(isolation_level="AUTOCOMMIT")
                await connection.execute(update, {"b": 6, "i": 2})
            async with engine.begin() as connection:
                await connection.execute(update, [{"b": 7, "i": 1}, {"b": 8, "i": 2}])
                return (await connection.execute(sqlalchemy.text("SELECT id, balance FROM accounts ORDER BY id"))).fetchall()

        for rows in self.each(forms):
            self.assertEqual([tuple(row) for row in rows], [(1, 7), (2, 8)])
            told = "UPDATE accounts SET balance = {} WHERE id = {};"
            self.assertEqual(
                fates(self.body()),
                [(told.format(4, 1), "COMMIT;"), (told.format(5, 1), "ROLLBACK;"), (told.format(6, 2), "COMMIT;")]
                + [(told.format(7, 1), "COMMIT;"), (told.format(8, 2), "COMMIT;")],
            )
            self.assertEqual(self.recorded.verdict().answer, "yes")

    def test_what_nothing_is_added_to_begins_once(self) -> None:
        async def doubles(engine: Any) -> Any:
            async with engine.begin() as connection:
                await connection.execute(sqlalchemy.text("UPDATE accounts SET balance = balance * 2 WHERE id = 1"))

        with warnings.catch_warnings():
            warnings.simplefilter("ignore")
            for _ in self.each(doubles):
                ends = [line.split(" ")[2] for line in self.body() if line.startswith("> 1 ") and line.split(" ")[2] in ("BEGIN;", "COMMIT;", "ROLLBACK;")]
                self.assertEqual(ends, ["BEGIN;", "COMMIT;"], self.body())

    def test_keys_that_the_database_makes(self) -> None:
        from sqlalchemy.ext.asyncio import AsyncSession

        async def makes(engine: Any) -> Any:
            async with AsyncSession(engine) as session:
                made = self.Account(owner="eve", balance=5)
                session.add(made)
                await session.flush()
                key = made.id
                await session.commit()
                await session.execute(sqlalchemy.text("INSERT INTO accounts (owner) VALUES ('max') RETURNING owner"))
                await session.commit()
                return key

        for key in self.each(makes):
            self.assertIn(f"> 1 INSERT INTO accounts VALUES ({key}, 'eve', 5);", self.body())
            told = [line for line in self.body() if "max" in line and line.startswith(">")]
            self.assertFalse([line for line in told if "VALUES (-1" in line or "VALUES (NULL" in line], told)
            self.assertNotEqual(self.recorded.verdict().answer, "no")

    def test_connections_that_are_terminated_give_their_numbers_back(self) -> None:
        async def ends(engine: Any) -> None:
            for _ in range(70):
                connection = await engine.connect()
                await connection.execute(sqlalchemy.text("SELECT balance FROM accounts WHERE id = 1"))
                await connection.invalidate()
                await connection.close()

        for _ in self.each(ends):
            self.assertIsNone(self.recorded.ended)

    def test_savepoints_of_asyncpg(self) -> None:
        from sqlalchemy.ext.asyncio import AsyncSession

        async def nested(engine: Any) -> None:
            async with AsyncSession(engine) as session:
                for key in (2, 3):
                    with contextlib.suppress(sqlalchemy.exc.IntegrityError):
                        async with session.begin_nested():
                            await session.execute(self.Account.__table__.insert(), {"id": key, "owner": "x", "balance": 0})
                await session.commit()
            async with AsyncSession(engine) as session:  # one that has failed, and is committed all the same
                await session.execute(sqlalchemy.text("UPDATE accounts SET balance = 1 WHERE id = 1"))
                with contextlib.suppress(sqlalchemy.exc.DBAPIError):
                    await session.execute(sqlalchemy.text("SELECT nothing FROM accounts"))
                connection = await session.connection()
                await connection.commit()

        for _ in self.each(nested):
            if "asyncpg" not in self.comments():
                continue  # sqlite3's own savepoints outside a transaction are transactions
            self.assertEqual(
                self.body(),
                transaction(1, "> # INSERT INTO accounts VALUES (3, 'x', 0);", "  # INSERT 0 1")
                + ["> 1 BEGIN;", "  1 BEGIN", "> 1 UPDATE accounts SET balance = 1 WHERE id = 1;", "  1 UPDATE 1", "> 1 COMMIT;"],
            )

    def test_two_tasks_of_one_connection_end_the_recording(self) -> None:
        async def two(engine: Any) -> None:
            async with engine.connect() as connection:
                select = sqlalchemy.text("SELECT balance FROM accounts WHERE id = 1")
                await asyncio.gather(*[connection.execute(select) for _ in range(2)], return_exceptions=True)

        with self.assertWarnsRegex(Warning, "two tasks use one connection at once"):
            for _ in self.each(two):
                self.assertIsNotNone(self.recorded.ended)


class AdaptedPsycopg:
    """What SQLAlchemy 2 makes of psycopg's asynchronous connections, as far as its sources matter here. Debian has 1.4."""

    class Cursor:
        def __init__(self, adapted: Any) -> None:
            self._adapted, self._cursor, self._rows = adapted, adapted._connection.cursor(), []  # type: ignore

        def __getattr__(self, name: str) -> Any:
            return getattr(self._cursor, name)

        def execute(self, query: Any, parameters: Any = None) -> Any:
            self._adapted.await_(self._cursor.execute(query, parameters))
            self._rows = list(self._adapted.await_(self._cursor.fetchall())) if self._cursor.description else []

        def fetchone(self) -> Any:
            return self._rows.pop(0) if self._rows else None

        def fetchall(self) -> Any:
            rows, self._rows = self._rows, []
            return rows

        def close(self) -> None:
            self._rows = []

    def __init__(self, connection: Any, await_: Any) -> None:
        self._connection, self.await_ = connection, await_

    @property
    def autocommit(self) -> bool:
        return bool(self._connection.autocommit)

    def cursor(self) -> Any:
        return self.Cursor(self)

    def commit(self) -> None:
        self.await_(self._connection.commit())

    def rollback(self) -> None:
        self.await_(self._connection.rollback())

    def close(self) -> None:
        self.await_(self._connection.close())


AdaptedPsycopg.__module__ = "sqlalchemy.dialects.postgresql.psycopg"


@unittest.skipUnless(DSN, "PostgreSQL isn't there (Debian: postgresql)")
@unittest.skipUnless(module("psycopg"), "psycopg isn't there (Debian: python3-psycopg)")
class Psycopg(OnSqlalchemy):
    def test_an_asynchronous_connection_that_is_adapted(self) -> None:
        import psycopg
        from sqlalchemy.util import await_only, greenlet_spawn

        with psycopg.connect(DSN) as setup:
            setup.execute("DROP TABLE IF EXISTS accounts")
            setup.execute("CREATE TABLE accounts (id int PRIMARY KEY, owner text, balance int)")
            setup.execute("INSERT INTO accounts VALUES (1, 'ada', 10), (2, 'bob', 20)")

        def works(recorded: Any) -> None:
            cursor = recorded.cursor()
            cursor.execute("SELECT balance FROM accounts WHERE id = %(id)s::INTEGER", {"id": 1})
            self.assertEqual((cursor.fetchone(), cursor.fetchone()), ((10,), None))
            cursor.execute("UPDATE accounts SET balance = %(b)s::INTEGER WHERE id = %(id)s::INTEGER", {"id": 1, "b": 5})
            self.assertEqual(cursor.rowcount, 1)
            recorded.commit()
            with self.assertRaises(psycopg.errors.UniqueViolation):
                cursor.execute("INSERT INTO accounts VALUES (1, 'x', 1)")
            recorded.rollback()
            recorded.close()

        async def main() -> None:
            raw = AdaptedPsycopg(await psycopg.AsyncConnection.connect(DSN), await_only)
            recorder = self.recorder(["accounts"])
            await greenlet_spawn(lambda: works(recorder.wrap(raw)))
            self.assertEqual(recorder.verdict().answer, "yes")

        asyncio.run(main())
        read = ["> # SELECT balance FROM accounts WHERE id = 1;", "  # SELECT 1", "  # | 10"]
        self.assertEqual(
            self.body(),
            transaction(1, *read, "> # UPDATE accounts SET balance = 5 WHERE id = 1;", "  # UPDATE 1")
            + ["> 1 BEGIN;", "  1 BEGIN", "> 1 INSERT INTO accounts VALUES (1, 'x', 1);", "  1 ERROR 23505", "> 1 ROLLBACK;", "  1 ROLLBACK"],
        )


if __name__ == "__main__":
    unittest.main()
