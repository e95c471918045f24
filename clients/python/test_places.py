"""Tests of pgserial.places: which line of an application stands before a transaction and a statement, and beside a reason.

    PGSERIAL=path/to/pgserial python3 clients/python/test_places.py
"""

import asyncio
import os
import re
import sqlite3
import sys
import threading
import unittest
from typing import Any, List

from pgserial.places import Place, Places, places_of, with_places
from pgserial.recording import Recorder
from test_recording import HERE, OnSqlite, Room, module

APPLICATION = '''
def begin(connection):
    connection.execute("BEGIN")

def checkout(connection, key):
    rows = connection.execute("SELECT v FROM t WHERE id = ?", (key,)).fetchall()
    [connection.execute("UPDATE t SET v = 0 WHERE id = ?", (key,)) for _ in rows]

def end(connection):
    connection.execute("COMMIT")
'''


class InAProject(OnSqlite):
    """An application in a folder of its own."""

    def setUp(self) -> None:
        super().setUp()
        self.project = os.path.join(os.path.realpath(self.folder), "project")

    def application(self, file: str) -> Any:
        """The application, as if it stood in a file."""
        names: Any = {}
        exec(compile(APPLICATION, os.path.join(self.project, file), "exec"), names)
        return names

    def at(self) -> List[str]:
        """The lines that tell places, each with the command behind it."""
        lines = self.text().split("\n")
        return [f"{line[6:]}: {after}" for line, after in zip(lines, lines[1:]) if line.startswith("-- at ")]

    def test_each_transaction_and_statement_has_its_line(self) -> None:
        connection = self.recorder(project=self.project).wrap(self.raw())
        shop = self.application("shop/views.py")
        shop["begin"](connection)
        shop["checkout"](connection, 1)
        shop["end"](connection)
        self.assertEqual(
            self.at(),
            ["begin shop/views.py:3: > 1 BEGIN;", "checkout shop/views.py:6: > 1 SELECT v FROM t WHERE id = 1;"]
            + ["checkout shop/views.py:7: > 1 UPDATE t SET v = 0 WHERE id = 1;"],
        )

    def test_a_name_is_the_transactions(self) -> None:
        recorder = self.recorder(project=self.project)
        connection = recorder.wrap(self.raw())
        shop = self.application("a folder/views.py")
        with recorder.named("the\ncheckout"):
            shop["checkout"](connection, 7)
        shop["checkout"](connection, 8)
        self.assertEqual(
            self.at(),
            ["the_checkout a folder/views.py:6: > 1 BEGIN;", "checkout a folder/views.py:6: > 1 SELECT v FROM t WHERE id = 7;"]
            + ["checkout a folder/views.py:6: > 1 BEGIN;", "checkout a folder/views.py:6: > 1 SELECT v FROM t WHERE id = 8;"],
        )

    def test_installed_packages_are_passed_over(self) -> None:
        recorder = self.recorder(project=self.project)
        connection = recorder.wrap(self.raw())
        for file in ("venv/lib/python3/site-packages/orm.py", os.path.join(os.path.dirname(os.__file__), "orm.py")):
            self.application(file)["checkout"](connection, 9)
        here = os.path.basename(__file__)
        self.assertEqual([re.sub(":[0-9]+:.*", "", line).rpartition("/")[2] for line in self.at()], [here] * 4)

    def test_the_projects_line_goes_before_others(self) -> None:
        connection = self.recorder(project=self.project).wrap(self.raw())
        helper: Any = {}
        exec(compile("def run(connection, text):\n    connection.execute(text)\n", os.path.join(self.folder, "elsewhere", "helper.py"), "exec"), helper)
        names: Any = {"run": helper["run"]}
        exec(compile("def sweep(connection):\n    run(connection, 'DELETE FROM t')\n", os.path.join(self.project, "jobs.py"), "exec"), names)
        names["sweep"](connection)
        self.assertEqual({line.partition(": ")[0] for line in self.at()}, {"sweep jobs.py:2"})

    def test_a_task_and_a_thread_have_their_own_names(self) -> None:
        places = Places(HERE)
        seen: List[Any] = []

        async def task(name: str) -> None:
            with places.named(name):
                await asyncio.sleep(0)
                seen.append(places.called(places.place()))

        async def main() -> None:
            await asyncio.gather(task("one"), task("two"))

        with places.named("outer"):
            asyncio.run(main())
            thread = threading.Thread(target=lambda: seen.append(places.called(places.place())))
            thread.start()
            thread.join()
        self.assertEqual([place.name for place in seen], ["one", "two", "<lambda>"])

    @unittest.skipUnless(module("greenlet"), "greenlet isn't there (Debian: python3-greenlet)")
    def test_a_greenlet_has_the_place_that_switched_to_it(self) -> None:
        import greenlet

        places = Places(HERE)
        code = compile("def inner(find):\n    return find()\n", os.path.join(os.path.dirname(os.__file__), "x.py"), "exec")
        names: Any = {}
        exec(code, names)
        place = greenlet.greenlet(names["inner"]).switch(places.place)
        self.assertEqual((place.name, place.file), ("test_a_greenlet_has_the_place_that_switched_to_it", os.path.basename(__file__)))


class Reasons(Room):
    def test_a_no_names_places(self) -> None:
        name = "file:places?mode=memory&cache=shared"

        def connect() -> Any:
            connection = sqlite3.connect(name, uri=True, isolation_level=None)
            self.addCleanup(connection.close)
            connection.execute("PRAGMA read_uncommitted = 1")
            return connection

        connect().executescript("CREATE TABLE t (id INTEGER PRIMARY KEY, v BIGINT); INSERT INTO t VALUES (1, 1), (2, 1)")
        recorder = self.recorder(project=HERE)
        one, two = (recorder.wrap(connect()) for _ in range(2))
        line = sys._getframe().f_lineno + 1
        for name, connection in (("ada", one), ("bob", two)):
            connection.execute("BEGIN")
            connection.execute("SELECT * FROM t WHERE id = 1").fetchall()
            connection.execute("SELECT * FROM t WHERE id = 2").fetchall()
        with recorder.named("not the beginning"):
            for connection, key in ((one, 1), (two, 2)):
                connection.execute("UPDATE t SET v = 0 WHERE id = ?", (key,))
                connection.execute("COMMIT")
        told = recorder.verdict()
        self.assertEqual(told.answer, "no")
        file, words = os.path.basename(__file__), str(told)
        self.assertIn(f"{file}:{line + 2}), before", words)
        self.assertIn(f"{file}:{line + 6}): so", words)
        self.assertEqual(len(re.findall(rf"\b[23]\b.* .?test_a_no_names_places.* ?\(?{file}:{line + 1}\)", words)) > 1, True, words)

    def test_transactions_have_the_numbers_of_check(self) -> None:
        text = (
            "-- at a x.py:1\n> 1 BEGIN;\n-- at b x.py:2\n> 2 BEGIN;\n  2 ERROR 55P03\n  1 BEGIN\n-- at c a file.py:3\n> 2 BEGIN;\n"
            "  2 BEGIN\n-- at a x.py:4\n> 1 UPDATE t SET v = 1;\n  1 UPDATE 1\n"
        )
        placed = places_of(text)
        self.assertEqual(placed.transactions, {1: Place("a", "x.py", 1), 2: Place("c", "a file.py", 3)})
        self.assertEqual(placed.lines[11], Place("a", "x.py", 4))
        self.assertEqual(
            with_places(["1 read t (line 11), before 2 wrote it (line 12): so ..", "cycle 1 2 1", "check no"], text),
            ["1 read t (line 11, x.py:4), before 2 wrote it (line 12): so ..", "cycle 1 2 1", "1 is a (x.py:1)", "2 is c (a file.py:3)", "check no"],
        )

    def test_reasons_that_have_places_stay(self) -> None:
        text = "-- at a x.py:1\n> 1 BEGIN;\n  1 BEGIN\n"
        reasons = ["1 (a, x.py:1) read ..", "check no"]
        self.assertEqual(with_places(reasons, text), reasons)


if __name__ == "__main__":
    unittest.main()
