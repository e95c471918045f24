"""Tests of the plugin of pytest: which tests fail by their recordings, and what is told.

    PGSERIAL=path/to/pgserial python3 clients/python/test_pytest_plugin.py

Each runs pytest on a folder of its own, with sqlite3; with PostgreSQL where $PGSERIAL_DSN names a database of it.
"""

import os
import re
import subprocess
import sys
import textwrap
import unittest
from typing import Any

from test_recording import DSN, HERE, Room, module

SHOP = """
    import os, sqlite3
    FILE = os.path.join(os.path.dirname(__file__), os.environ.get("PYTEST_XDIST_WORKER", "") * bool(os.environ.get("OWN")) + "db")

    def connect(**named):
        connection = sqlite3.connect("file:" + FILE + "?cache=shared", uri=True, isolation_level=None, check_same_thread=False, **named)
        connection.execute("PRAGMA read_uncommitted = 1")
        return connection

    def reads(connection):
        connection.execute("BEGIN")
        return connection.execute("SELECT v FROM accounts WHERE id = 1").fetchone()[0]

    def writes(connection, value):
        connection.execute("UPDATE accounts SET v = ? WHERE id = 1", (value,))
        connection.execute("COMMIT")
"""
CONFTEST = """
    import pytest, shop

    @pytest.fixture(autouse=True)
    def tables():
        connection = shop.connect()
        connection.executescript("DROP TABLE IF EXISTS accounts; CREATE TABLE accounts (id INTEGER PRIMARY KEY, v BIGINT); INSERT INTO accounts VALUES (1, 10), (2, 20)")
        yield
        connection.close()
"""
LOST = """
    import shop

    def test_lost():
        one, two = shop.connect(), shop.connect()
        values = shop.reads(one), shop.reads(two)
        shop.writes(one, values[0] + 1)
        shop.writes(two, values[1] + 1)
        assert values == (10, 10)

    def test_kept():
        for _ in range(2):
            one = shop.connect()
            shop.writes(one, shop.reads(one) + 1)
"""


@unittest.skipUnless(module("pytest"), "pytest isn't there (Debian: python3-pytest)")
class Plugin(Room):
    def write(self, **files: str) -> None:
        for name, text in files.items():
            with open(os.path.join(self.folder, f"{name}.py"), "w", encoding="utf-8") as file:
                file.write(textwrap.dedent(text))

    def run_pytest(self, *words: str, **environment: str) -> Any:
        """What pytest says of the folder, and its status."""
        command = [sys.executable, "-B", "-m", "pytest", "-p", "no:cacheprovider", "-p", "pgserial.pytest_plugin", *words]
        changed = {**os.environ, "PYTHONPATH": HERE, "TMPDIR": self.folder, "COLUMNS": "300", "PYTEST_DISABLE_PLUGIN_AUTOLOAD": "1", **environment}
        return subprocess.run(command, cwd=self.folder, env=changed, capture_output=True, text=True, timeout=60, check=False)

    def test_a_no_fails_the_test_with_its_reasons(self) -> None:
        self.write(shop=SHOP, conftest=CONFTEST, test_shop=LOST)
        for tables in ("--serializable", "--serializable=accounts"):
            done = self.run_pytest(tables)
            self.assertEqual(done.returncode, 1, done.stdout)
            self.assertRegex(done.stdout, r"1 failed, 1 passed")
            self.assertRegex(done.stdout, r"FAILED test_shop.py::test_lost")
            self.assertRegex(done.stdout, r"read accounts id = 1 v as 10 \(.*shop.py:12\), before \d.* wrote it \(.*shop.py:15\)")
            self.assertIn("lost update", done.stdout)
            self.assertRegex(done.stdout, r"reads.*shop.py:11")
            self.assertRegex(done.stdout, "1 yes, 1 no\n")
            path = re.search(r"The recording is (\S+)", done.stdout)
            self.assertTrue(path and os.path.exists(path[1]))

    def test_without_the_option_nothing_is_recorded(self) -> None:
        self.write(shop=SHOP, conftest=CONFTEST, test_shop=LOST)
        done = self.run_pytest()
        self.assertEqual((done.returncode, "serializable" in done.stdout), (0, False), done.stdout)

    def test_a_mark_and_a_fixture_record_one_test(self) -> None:
        marked = LOST.replace("    def test_lost", "    import pytest\n    @pytest.mark.serializable('accounts')\n    def test_lost")
        self.write(shop=SHOP, conftest=CONFTEST, test_shop=marked.replace("test_kept()", "test_kept(serializable)"))
        done = self.run_pytest("--strict-markers")
        self.assertRegex(done.stdout, "1 failed, 1 passed")
        self.assertRegex(done.stdout, "1 yes, 1 no\n")

    def test_names_are_the_fixtures(self) -> None:
        named = LOST.replace("test_lost()", "test_lost(serializable)").replace("values = shop", "with serializable.named('till'): values = shop")
        self.write(shop=SHOP, conftest=CONFTEST, test_shop=named)
        self.assertRegex(self.run_pytest().stdout, r"till.*shop.py:11")

    def test_what_recorded_nothing_says_so(self) -> None:
        text = """
            import pytest, shop

            def test_nothing():
                shop.connect().execute("SELECT 1")

            @pytest.mark.serializable("accounts")
            def test_rolled_back():
                one = shop.connect()
                shop.reads(one)
                one.execute("ROLLBACK")

            @pytest.mark.serializable("missing")
            def test_missing():
                shop.reads(shop.connect())
            """
        self.write(shop=SHOP, conftest=CONFTEST, test_shop=text)
        done = self.run_pytest("--serializable")
        self.assertEqual(done.stdout.count("nothing was recorded: no transaction that committed"), 1, done.stdout)
        self.assertIn("there is no table missing", done.stdout)
        self.assertIn("2 failed, 1 passed", done.stdout)
        self.assertIn("3 recorded nothing\n", done.stdout)
        self.assertIn("recorded nothing: test_shop.py::test_nothing", done.stdout)

    def test_a_transaction_from_before_is_no_yes(self) -> None:
        text = """
            import pytest, shop

            @pytest.fixture
            def begun():
                connection = shop.connect()
                shop.reads(connection)
                yield connection

            def test_it(begun):
                other = shop.connect()
                shop.reads(other)
                other.execute("COMMIT")
                shop.writes(begun, 5)
            """
        self.write(shop=SHOP, conftest=CONFTEST, test_shop=text)
        done = self.run_pytest("--serializable")
        self.assertIn("a transaction that began before was under way", done.stdout)
        self.assertNotIn("1 yes", done.stdout)

    def test_a_path_is_no_table(self) -> None:
        self.write(shop=SHOP, conftest=CONFTEST, test_shop=LOST)
        done = self.run_pytest("--serializable", "test_shop.py")
        self.assertEqual(done.returncode, 4)
        self.assertIn("takes test_shop.py for a table", done.stderr)
        self.assertIn("1 yes, 1 no", self.run_pytest("--serializable=", "test_shop.py").stdout)

    @unittest.skipUnless(module("xdist"), "pytest-xdist isn't there (Debian: python3-pytest-xdist)")
    def test_workers_that_share_a_database_are_refused(self) -> None:
        kept = LOST[LOST.index("    def test_kept") :]
        many = "\n    import time, shop\n" + "\n".join(kept.replace("test_kept():", f"test_{n}():\n        time.sleep(0.3)") for n in range(4))
        self.write(shop=SHOP, conftest=CONFTEST, test_shop=many)
        done = self.run_pytest("--serializable", "-pxdist", "-n2")
        self.assertNotEqual(done.returncode, 0, done.stdout)
        self.assertRegex(done.stdout, r"workers gw\d and gw\d of pytest-xdist share the file .*/db, so that each would record a part")
        self.assertNotRegex(done.stdout, r"\d no\b")
        done = self.run_pytest("--serializable", "-pxdist", "-n2", OWN="1")
        self.assertRegex(done.stdout, "4 yes\n")
        self.assertEqual(done.returncode, 0, done.stdout)

    @unittest.skipUnless(DSN and module("psycopg"), "PostgreSQL or psycopg isn't there (Debian: postgresql, python3-psycopg)")
    def test_connections_of_psycopg_are_followed(self) -> None:
        text = f"""
            import asyncio, psycopg

            def made(table):
                with psycopg.connect({DSN!r}) as connection:
                    connection.execute(f"DROP TABLE IF EXISTS {{table}}")
                    connection.execute(f"CREATE TABLE {{table}} (id int PRIMARY KEY, v bigint)")
                    connection.execute(f"INSERT INTO {{table}} VALUES (1, 10)")

            made("accounts")

            def test_threads():
                one, two = (psycopg.connect({DSN!r}) for _ in range(2))
                values = [each.execute("SELECT v FROM accounts WHERE id = 1").fetchone()[0] for each in (one, two)]
                for each, value in zip((one, two), values):
                    each.execute("UPDATE accounts SET v = %s WHERE id = 1", (value + 1,))
                    each.commit()
                    each.close()

            def test_tasks():
                async def main():
                    one, two = [await psycopg.AsyncConnection.connect({DSN!r}) for _ in range(2)]
                    values = [(await (await each.execute("SELECT v FROM accounts WHERE id = 1")).fetchone())[0] for each in (one, two)]
                    for each, value in zip((one, two), values):
                        await each.execute("UPDATE accounts SET v = %s WHERE id = 1", (value + 1,))
                        await each.commit()
                        await each.close()

                asyncio.run(main())
            """
        self.write(test_shop=text)
        done = self.run_pytest("--serializable=accounts")
        self.assertIn("2 no\n", done.stdout)
        self.assertEqual(done.stdout.count(": lost update"), 2, done.stdout)

    @unittest.skipUnless(module("sqlalchemy"), "sqlalchemy isn't there (Debian: python3-sqlalchemy)")
    def test_stock_engines_are_followed_from_test_to_test(self) -> None:
        url = "sqlite:///db"
        if DSN and module("psycopg2"):
            from test_sqlalchemy import url_of

            url = url_of("psycopg2")
        text = f"""
            import threading, pytest
            from sqlalchemy import create_engine, text

            engine = create_engine({url!r})
            with engine.begin() as connection:
                connection.execute(text("DROP TABLE IF EXISTS accounts"))
                connection.execute(text("CREATE TABLE accounts (id INTEGER PRIMARY KEY, v BIGINT)"))
                connection.execute(text("INSERT INTO accounts VALUES (1, 10)"))

            def add():
                with engine.begin() as connection:
                    connection.execute(text("UPDATE accounts SET v = v + 1 WHERE id = 1"))

            @pytest.mark.parametrize("n", range(3))
            def test_add(n):
                threads = [threading.Thread(target=add) for _ in range(4)]
                [thread.start() for thread in threads]
                [thread.join() for thread in threads]
                with engine.connect() as connection:
                    assert connection.execute(text("SELECT v FROM accounts")).scalar() == 14 + 4 * n
            """
        self.write(test_shop=text)
        done = self.run_pytest("--serializable=accounts")
        self.assertIn("3 yes\n", done.stdout)


if __name__ == "__main__":
    unittest.main()
