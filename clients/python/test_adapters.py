"""Tests of what an application has registered for values: adapters, dumpers, typecasters, loaders, converters, factories of
texts, for all connections, one, or a cursor, before its connection is wrapped or after.

    PGSERIAL=path/to/pgserial python3 clients/python/test_adapters.py
"""

import contextlib
import sqlite3
import unittest
import warnings
from typing import Any, Callable, Iterator

import test_recording
from pgserial.recording import Recorder, RecordingWarning
from test_recording import drivers, module

T = ("CREATE TABLE t (id int PRIMARY KEY, v bigint, n text)", "INSERT INTO t VALUES (1, 10, 'a'), (2, 20, 'b')")


@contextlib.contextmanager
def restored(registry: Any) -> Iterator[None]:
    """A registry that is afterwards as it was."""
    kept = dict(registry)
    try:
        yield
    finally:
        registry.clear()
        registry.update(kept)


class Base(int):
    """What has an adapter."""


class Derived(Base):
    """What has none of its own."""


class Turned(test_recording.Room):
    """Values are turned, and nothing is said of them."""

    def judged(self, recorder: Recorder, kinds: int, plain: Any) -> None:
        """At least so many statements were left out, and what was said agrees with what another connection finds."""
        cursor = recorder.wrap(plain).cursor()
        cursor.execute("SELECT * FROM t")
        rows = sorted(tuple(row) for row in cursor.fetchall())
        self.assertIn(rows, ([(1, 10, "a"), (2, 20, "b")], [(1, 10, "a"), (2, 20, "z")]))
        self.assertGreaterEqual(sum(recorder.left_out.values()), kinds)
        told = recorder.verdict()
        self.assertIn(told.answer, ("yes", "unknown"), str(told))

    def sends(self, cursor: Any, mark: str, value: Any, sent: int) -> None:
        """A value is sent as another: in a read, and in a write."""
        cursor.execute(f"SELECT id FROM t WHERE v = {mark}", (value,))
        self.assertEqual([tuple(row) for row in cursor.fetchall()], [(sent // 10,)])
        with warnings.catch_warnings():
            warnings.simplefilter("ignore", RecordingWarning)
            cursor.execute(f"UPDATE t SET n = 'z' WHERE v = {mark}", (value,))
        self.assertEqual(cursor.rowcount, 1)


class OnSqlite(Turned, test_recording.OnSqlite):
    def setUp(self) -> None:
        super().setUp()
        raw = self.raw()
        raw.executescript("; ".join(["DROP TABLE t", *T]).replace("id int", "id INTEGER"))
        self.kept = [(registry, dict(registry)) for registry in (sqlite3.adapters, sqlite3.converters)]

    def each(self, register: Callable[[Any], None], **named: Any) -> Iterator[Any]:
        """A recorder and a connection, where something is registered before it is wrapped, and after."""
        for comes_late in (False, True):
            with self.subTest(late=comes_late):
                raw = self.raw(**named)
                raw.execute("UPDATE t SET n = CASE id WHEN 1 THEN 'a' ELSE 'b' END")
                if not comes_late:
                    register(raw)
                recorder = self.recorder()
                connection = recorder.wrap(raw)
                if comes_late:
                    connection.execute("SELECT v, n FROM t WHERE id = 1")
                    register(connection)
                yield recorder, connection
                for registry, kept in self.kept:
                    registry.clear()
                    registry.update(kept)
                self.judged(recorder, self.kinds, self.raw())

    def test_adapters(self) -> None:
        self.kinds = 1
        for kind, value in ((int, 7), (str, "7"), (Base, Base(7))):
            for _, connection in self.each(lambda _: sqlite3.register_adapter(kind, lambda _: 20)):  # noqa: B023
                self.sends(connection.cursor(), "?", value, 20)

    def test_converters(self) -> None:
        self.kinds = 2
        named = {"detect_types": sqlite3.PARSE_DECLTYPES}
        for recorder, connection in self.each(lambda _: sqlite3.register_converter("BIGINT", lambda _: 77), **named):
            self.assertEqual(connection.execute("SELECT v FROM t WHERE id = 2").fetchall(), [(77,)])
            self.assertEqual(connection.execute("SELECT v FROM t WHERE id = 1").fetchall(), [(77,)])

    def test_factories_of_texts(self) -> None:
        self.kinds = 1

        def register(connection: Any) -> None:
            connection.text_factory = lambda text: "turned"

        for _, connection in self.each(register):
            self.assertEqual(connection.execute("SELECT v, n FROM t WHERE id = 2").fetchall(), [(20, "turned")])

    def test_rows_of_a_factory_are_known(self) -> None:
        connection = self.recorder().wrap(self.raw())
        connection.row_factory = lambda cursor, row: ["turned"]
        self.assertEqual(connection.execute("SELECT v, n FROM t WHERE id = 2").fetchall(), [["turned"]])
        self.assertIn("  1 | 20\tb", self.lines())


@unittest.skipUnless(drivers(), "PostgreSQL or psycopg2 isn't there (Debian: postgresql, python3-psycopg2)")
class OnPostgres(Turned, test_recording.Postgres):
    def each(self, driver: Any, register: Callable[[Any], None], kinds: int, undo: Callable[[], None] = lambda: None) -> Iterator[Any]:  # type: ignore[override]
        """A connection, where something is registered before it is wrapped, and after."""
        for comes_late in (False, True):
            with self.subTest(late=comes_late):
                self.make(*T)
                raw = self.raw(driver, True)
                if not comes_late:
                    register(raw)
                recorder = self.recorder()
                connection = recorder.wrap(raw)
                if comes_late:
                    connection.cursor().execute("SELECT v, n FROM t WHERE id = 1")
                    register(connection.wrapped)
                yield connection
                undo()
                self.judged(recorder, kinds, self.raw(driver, True))

    @unittest.skipUnless(module("psycopg2"), "psycopg2 isn't there (Debian: python3-psycopg2)")
    def test_adapters_of_psycopg2(self) -> None:
        psycopg2 = module("psycopg2")
        extensions = psycopg2.extensions
        for kind, value in ((int, 7), (str, "7"), (Base, Base(7)), (Base, Derived(7))):
            with restored(extensions.adapters):
                kept = dict(extensions.adapters)

                def undo() -> None:
                    extensions.adapters.clear()
                    extensions.adapters.update(kept)  # noqa: B023

                register = lambda _: extensions.register_adapter(kind, lambda _: extensions.AsIs("20"))  # noqa: E731, B023
                for connection in self.each(psycopg2, register, 1, undo):
                    self.sends(connection.cursor(), "%s", value, 20)

    @unittest.skipUnless(module("psycopg2"), "psycopg2 isn't there (Debian: python3-psycopg2)")
    def test_what_is_sent_as_it_is(self) -> None:
        psycopg2 = module("psycopg2")
        self.make("CREATE TABLE t (id int PRIMARY KEY, v bytea)", "INSERT INTO t VALUES (1, 'x')")
        recorder = self.recorder()
        cursor = recorder.wrap(self.raw(psycopg2, True)).cursor()
        cursor.execute("SELECT id FROM t WHERE v = %s", (psycopg2.extensions.AsIs("'x'"),))
        self.assertEqual(sum(recorder.left_out.values()), 1)
        cursor.execute("SELECT id FROM t WHERE v = %s", (psycopg2.Binary(b"x"),))
        self.assertIn("> 1 SELECT id FROM t WHERE v = '\\x78';", self.lines())

    @unittest.skipUnless(module("psycopg2"), "psycopg2 isn't there (Debian: python3-psycopg2)")
    def test_typecasters_of_psycopg2(self) -> None:
        psycopg2 = module("psycopg2")
        extensions = psycopg2.extensions
        made = extensions.new_type((20,), "turned", lambda value, cursor: 77)
        texts = extensions.new_type((25,), "turned", lambda value, cursor: "turned")
        for where in ("all", "connection", "cursor"):
            for caster, column, shown in ((made, "v", 77), (texts, "n", "turned"), (extensions.FLOAT, "v", 20)):
                if caster is extensions.FLOAT:
                    caster = extensions.new_type((20,), "FLOAT", extensions.FLOAT)
                with self.subTest(where, column=column), restored(extensions.string_types):
                    kept = dict(extensions.string_types)

                    def undo() -> None:
                        extensions.string_types.clear()
                        extensions.string_types.update(kept)  # noqa: B023

                    def register(raw: Any) -> None:
                        if where != "cursor":  # noqa: B023
                            extensions.register_type(caster, *([raw] if where == "connection" else []))  # noqa: B023

                    for connection in self.each(psycopg2, register, 1, undo):
                        cursor = connection.cursor()
                        if where == "cursor":
                            extensions.register_type(caster, cursor.wrapped)
                        cursor.execute(f"SELECT {column} FROM t WHERE id = 2")
                        self.assertEqual(cursor.fetchall(), [(shown,)])

    @unittest.skipUnless(module("psycopg"), "psycopg isn't there (Debian: python3-psycopg)")
    def test_dumpers_of_psycopg(self) -> None:
        psycopg = module("psycopg")

        class Text(psycopg.adapt.Dumper):
            oid = 20

            def dump(self, value: Any) -> bytes:
                return b"20"

        class Binary(psycopg.adapt.Dumper):
            format, oid = psycopg.pq.Format.BINARY, 20

            def dump(self, value: Any) -> bytes:
                return (20).to_bytes(8, "big")

        for where in ("connection", "cursor"):
            for dumper in (Text, Binary):
                for kind, value in ((int, 7), (str, "7"), (Base, Derived(7))):
                    with self.subTest(where, dumper=dumper.__name__, kind=kind.__name__):
                        register = (lambda raw: raw.adapters.register_dumper(kind, dumper)) if where == "connection" else lambda raw: None  # noqa: B023
                        for connection in self.each(psycopg, register, 1):
                            cursor = connection.cursor()
                            if where == "cursor":
                                cursor.adapters.register_dumper(kind, dumper)
                            self.sends(cursor, "%s", value, 20)

    @unittest.skipUnless(module("psycopg"), "psycopg isn't there (Debian: python3-psycopg)")
    def test_loaders_of_psycopg(self) -> None:
        psycopg = module("psycopg")

        class Load(psycopg.adapt.Loader):
            def load(self, data: Any) -> Any:
                return 77

        for where in ("connection", "cursor"):
            for name, column in (("int8", "v"), ("text", "n")):
                with self.subTest(where, column=column):
                    register = (lambda raw: raw.adapters.register_loader(name, Load)) if where == "connection" else lambda raw: None  # noqa: B023
                    for connection in self.each(psycopg, register, 1):
                        cursor = connection.cursor()
                        if where == "cursor":
                            cursor.adapters.register_loader(name, Load)
                        cursor.execute(f"SELECT {column} FROM t WHERE id = 2")
                        self.assertEqual(cursor.fetchall(), [(77,)])


for name in [name for name in dir(test_recording.Postgres) if name.startswith("test_")]:
    setattr(OnPostgres, name, None)  # which run in their own file


if __name__ == "__main__":
    unittest.main()
