"""Tests of the client, on the program that $PGSERIAL names, or else on that of this repository; or with servers in this process,
by the library that $PGSERIAL_LIBRARY names. Left out are then those of the child process, each with its reason.

    python3 clients/python/test_pgserial.py
"""

import array
import collections
import enum
import os
import signal
import tempfile
import threading
import time
import unittest
from typing import Any, Callable, Dict, List, Optional, Tuple, Type
from unittest import mock

import pgserial

BUILT = os.path.join(os.path.dirname(os.path.abspath(__file__)), "../../crates/pgserial/out/pgserial")
LIBRARY = os.environ.get("PGSERIAL_LIBRARY")
PROGRAM = LIBRARY or os.environ.get("PGSERIAL") or os.path.abspath(BUILT)
HOW: Dict[str, Any] = {"program": PROGRAM, "in_process": bool(LIBRARY)}
PAIRS = "CREATE TABLE t (id bigint PRIMARY KEY, v bigint);"
KINDS = "CREATE TABLE kinds (id bigint PRIMARY KEY, word text, raw bytea, number bigint NOT NULL);"
FAMILY = """
-- parents and their children
CREATE TABLE parent (id bigint PRIMARY KEY);
CREATE TABLE child (
    id bigint PRIMARY KEY,
    parent bigint NOT NULL REFERENCES parent  -- has to be there
)
"""


def of_a_process(why: str) -> Callable[[Any], Any]:
    """A test of the child process, which a server in this process doesn't have."""
    return unittest.skipIf(LIBRARY is not None, why)


class Case(unittest.TestCase):
    """A test with a server of its own, which ends with it."""

    schema = PAIRS

    def server(self, schema: Optional[str] = None, **words: Any) -> pgserial.Server:
        if schema is None and "dump" not in words:
            schema = self.schema
        server = pgserial.Server(schema=schema, **HOW, **words)
        self.addCleanup(server.close)
        return server

    def pairs(self, *pairs: Tuple[int, Optional[int]], **words: Any) -> pgserial.Server:
        """A server whose transaction 1 has put these rows into t."""
        server = self.server(**words)
        connection = server.connect()
        with connection:
            connection.cursor().executemany("INSERT INTO t VALUES (%s, %s)", pairs)
        connection.close()
        return server


class Starting(Case):
    @of_a_process("a library is found otherwise than a program")
    def test_the_program_is_named_by_an_argument_by_the_environment_or_found_on_the_path(self) -> None:
        with tempfile.TemporaryDirectory() as folder:
            os.symlink(PROGRAM, os.path.join(folder, "pgserial"))
            for environment in ({"PGSERIAL": PROGRAM, "PATH": "/usr/bin:/bin"}, {"PATH": folder + ":/usr/bin:/bin"}):
                with mock.patch.dict(os.environ, environment):
                    if "PGSERIAL" not in environment:
                        del os.environ["PGSERIAL"]
                    pgserial.Server().close()
        with self.assertRaisesRegex(pgserial.InterfaceError, "/no/such/program"):
            pgserial.Server(program="/no/such/program")

    if LIBRARY:  # a program is found otherwise

        def test_the_library_is_named_by_an_argument_or_by_the_environment(self) -> None:
            pgserial.Server(in_process=True).close()
            with self.assertRaisesRegex(pgserial.InterfaceError, "/no/such/library"):
                pgserial.Server(program="/no/such/library", in_process=True)

    def test_tables_are_those_of_the_schema(self) -> None:
        tables = self.server(KINDS + FAMILY).tables
        self.assertEqual(list(tables), ["kinds", "parent", "child"])
        kinds = [(column.name, column.type_code) for column in tables["kinds"]]
        self.assertEqual(kinds[:2], [("id", pgserial.NUMBER), ("word", pgserial.STRING)])
        self.assertEqual(kinds[2:], [("raw", pgserial.BINARY), ("number", pgserial.NUMBER)])

    def test_a_schema_may_be_a_list(self) -> None:
        server = pgserial.Server([PAIRS, "create table u (id text primary key)"], **HOW)
        self.addCleanup(server.close)
        self.assertEqual(list(server.tables), ["t", "u"])

    def test_a_faulty_schema_is_refused(self) -> None:
        blanks = [PAIRS.replace(" (id", f"{blank}(id") for blank in ("\u2028", "\xa0", "\x85", "\x1c", "\v")]
        for schema in ("CREATE TABLE t (id int PRIMARY KEY)", PAIRS + PAIRS, "CREATE TABLE t (v bigint)", *blanks):
            with self.assertRaisesRegex(pgserial.SyntaxError, "CREATE TABLE"):
                self.server(schema)
        for schema in ("1 BEGIN", "OPEN dump", "DROP TABLE t", "\\d"):
            with self.assertRaises(pgserial.ProgrammingError):
                self.server(schema)
        with self.assertRaises(pgserial.ProgrammingError):
            self.server(PAIRS, dump="dump")
        for none in (5, PAIRS.encode(), [PAIRS.encode()], [None]):
            self.assertRaises(pgserial.ProgrammingError, pgserial.Server, none, **HOW)

    def test_a_long_schema_is_refused_too(self) -> None:
        told: List[BaseException] = []

        def start() -> None:
            try:
                self.server(PAIRS * 30000)
            except pgserial.Error as error:
                told.append(error)

        thread = threading.Thread(target=start, daemon=True)
        thread.start()
        thread.join(20)
        self.assertIsInstance(told[0] if told else None, pgserial.SyntaxError)

    def test_a_dump_that_cannot_be_read_is_told(self) -> None:
        with tempfile.TemporaryDirectory() as folder:
            path = os.path.join(folder, "dump")
            with self.assertRaisesRegex(pgserial.OperationalError, f"device: {path}"):
                self.server(dump=path)
            with open(path, "w", encoding="utf-8") as file:
                file.write("-- no dump\n")
            with self.assertRaisesRegex(pgserial.OperationalError, "dump line 1: 22P04"):
                self.server(dump=path)

    def test_there_are_64_sessions(self) -> None:
        server = self.server()
        connections = [server.connect() for _ in range(64)]
        self.assertEqual([connection.session for connection in connections], list(range(1, 65)))
        with self.assertRaises(pgserial.OperationalError):
            server.connect()
        connections[6].close()
        self.assertEqual(server.connect().session, 7)

    def test_connect_starts_a_server_of_its_own(self) -> None:
        connection = pgserial.connect(PAIRS, **HOW)
        with connection.server:
            self.assertEqual(connection.execute("SELECT count(*) FROM t").fetchone(), (0,))


class Values(Case):
    schema = KINDS

    def shown(self, literal: str) -> pgserial.Row:
        """What comes back for a text that stands in a statement."""
        connection = self.server().connect()
        connection.execute(f"INSERT INTO kinds VALUES (1, {literal}, NULL, 0)")
        row = connection.execute("SELECT word FROM kinds").fetchone()
        assert row is not None
        return row

    def test_values_come_back_as_they_went(self) -> None:
        rows = [
            (-(2**63), None, None, 2**63 - 1),
            (1, "", b"", 0),
            (2, "it's 'quoted' \"twice\"", b"\x00\xff\n\\N\t'", -1),
            (3, "\\N", b"\\x00", 1),
            (4, "a\tb\rc\bd\ve\ff\\t\\", bytearray(b"\x01"), 2),
            (5, "ä 漢 \U0001f600 \u2028 \u0085 \x1c%s", memoryview(b"\x02"), 3),
            (2**63 - 1, "\\.", pgserial.Binary(b"x"), 4),
        ]
        connection = self.server().connect()
        with connection:
            connection.cursor().executemany("INSERT INTO kinds VALUES (%s, %s, %s, %s)", rows)
        wanted = [(key, word, None if raw is None else bytes(raw), number) for key, word, raw, number in rows]
        self.assertEqual(connection.execute("SELECT * FROM kinds").fetchall(), wanted)

    def test_texts_that_cannot_be_sent_are_data_errors_and_the_transaction_goes_on(self) -> None:
        connection = self.server().connect()
        connection.begin()
        for text in ("two\nlines", "zero\0byte", "half \ud800"):
            with self.assertRaises(pgserial.DataError):
                connection.execute("INSERT INTO kinds VALUES (1, %s, NULL, 0)", (text,))
        with self.assertRaises(pgserial.DataError):
            connection.execute("INSERT INTO kinds VALUES (1, 'two\nlines', NULL, 0)")
        self.assertEqual(connection.execute("INSERT INTO kinds VALUES (1, 'one', NULL, 0)").rowcount, 1)

    def test_values_go_as_they_are_whatever_they_show(self) -> None:
        class Colour(str, enum.Enum):
            RED = "red"

        class Number(int):
            def __int__(self) -> int:
                return 7

        class Shown(str):
            def replace(self, *_: Any) -> str:
                return "shown"

        connection = self.server().connect()
        connection.execute(Shown("INSERT INTO kinds VALUES (%s, %s, NULL, 0)"), (Number(1), Colour.RED))
        connection.execute("INSERT INTO kinds VALUES (2, %s, NULL, 0)", (Shown("it's"),))
        self.assertEqual(connection.execute("SELECT id, word FROM kinds").fetchall(), [(1, "red"), (2, "it's")])

    def test_numbers_beyond_64_bits_are_refused(self) -> None:
        connection = self.server().connect()
        with self.assertRaises(pgserial.NumericValueOutOfRange):
            connection.execute("INSERT INTO kinds VALUES (%s, NULL, NULL, 0)", (2**63,))
        connection.execute("INSERT INTO kinds VALUES (1, NULL, NULL, %s)", (2**63 - 1,))
        with self.assertRaises(pgserial.NumericValueOutOfRange) as raised:
            connection.execute("UPDATE kinds SET number = number + 1")
        self.assertEqual((raised.exception.sqlstate, raised.exception.place), ("22003", "column 4"))

    def test_signs_before_a_negative_parameter_are_turned(self) -> None:
        connection = self.server().connect()
        connection.execute("INSERT INTO kinds VALUES (-%s, NULL, NULL, + %s)", (-7, -3))
        connection.execute("UPDATE kinds SET number = number + %s WHERE id = %s", (-10, 7))
        connection.execute("UPDATE kinds SET number = number-%s WHERE id>%s AND id<=%s", (-2, -1, 7))
        self.assertEqual(connection.execute("SELECT id, number FROM kinds").fetchall(), [(7, -11)])

    def test_percents_are_doubled_where_parameters_are_given(self) -> None:
        self.assertEqual(self.shown("'100% %s %%'"), ("100% %s %%",))
        connection = self.server().connect()
        connection.execute("INSERT INTO kinds VALUES (%s, '100%%', NULL, 0)", (1,))
        self.assertEqual(connection.execute("SELECT word FROM kinds").fetchone(), ("100%",))

    def test_parameters_have_names_where_they_are_a_mapping(self) -> None:
        connection = self.server().connect()
        values = {"id": 1, "word": "one", "more": "isn't looked at"}
        connection.execute("INSERT INTO kinds VALUES (%(id)s, %(word)s, NULL, %(id)s)", values)
        self.assertEqual(connection.execute("SELECT word, number FROM kinds").fetchone(), ("one", 1))

    def test_parameters_that_do_not_fit_are_refused(self) -> None:
        connection = self.server().connect()
        for operation, values in [
            ("SELECT * FROM kinds WHERE id = %s", ()),
            ("SELECT * FROM kinds WHERE id = %s", (1, 2)),
            ("SELECT * FROM kinds WHERE id = %s", {"id": 1}),
            ("SELECT * FROM kinds WHERE id = %(id)s", (1,)),
            ("SELECT * FROM kinds WHERE id = %(id)s", {}),
            ("SELECT * FROM kinds WHERE word = %s", "a"),
            ("SELECT * FROM kinds WHERE word = '%s'", ("a",)),
            ("SELECT * FROM kinds WHERE word = 'a'%s", ("b",)),
            ("SELECT * FROM kinds WHERE id = %d", (1,)),
            ("SELECT * FROM kinds WHERE id = %s", (True,)),
            ("SELECT * FROM kinds WHERE id = %s", (1.0,)),
        ]:
            with self.subTest(operation, values=values), self.assertRaises(pgserial.ProgrammingError):
                connection.execute(operation, values)  # type: ignore[arg-type]
        self.assertFalse(connection.in_transaction)

    def test_what_is_executed_is_a_text_and_parameters_are_in_an_order(self) -> None:
        connection = self.server().connect()
        cursor, select = connection.cursor(), "SELECT * FROM kinds WHERE id = %s"
        for operation in (None, b"SELECT * FROM kinds", 5, ["SELECT * FROM kinds"]):
            self.assertRaises(pgserial.ProgrammingError, connection.execute, operation)
            self.assertRaises(pgserial.ProgrammingError, cursor.executemany, operation, [()])
            self.assertRaises(pgserial.ProgrammingError, connection.ask, operation)
        for parameters in (5, b"1", bytearray(b"1"), memoryview(b"1"), {1}, frozenset([1]), iter([1]), True, object()):
            with self.subTest(parameters):
                self.assertRaises(pgserial.ProgrammingError, connection.execute, select, parameters)
                self.assertRaises(pgserial.ProgrammingError, cursor.executemany, "DELETE FROM kinds WHERE id = %s", [parameters])
        for several in (None, 5, object()):
            self.assertRaises(pgserial.ProgrammingError, cursor.executemany, "DELETE FROM kinds WHERE id = %s", several)
        self.assertFalse(connection.in_transaction)
        for parameters in ([1], (1,), range(1, 2), collections.deque([1]), array.array("q", [1])):
            self.assertEqual(connection.execute(select, parameters).fetchall(), [])

    def test_a_statement_may_have_several_lines(self) -> None:
        connection = self.server().connect()
        self.assertEqual(connection.execute("\nSELECT word,\n\tid\nFROM kinds\nWHERE id = 1;\n").fetchall(), [])


class Cursors(Case):
    def test_a_description_names_what_is_shown(self) -> None:
        connection = self.server(KINDS).connect()
        for operation, wanted in [
            ("SELECT * FROM kinds", ["id", "word", "raw", "number"]),
            ("select RAW , id,raw from Kinds where id = 1", ["raw", "id", "raw"]),
            ("SELECT count ( * )FROM kinds", ["count"]),
            ("SELECT*FROM kinds", ["id", "word", "raw", "number"]),
        ]:
            description = connection.execute(operation).description
            assert description is not None
            self.assertEqual([column[0] for column in description], wanted)
            self.assertEqual({len(column) for column in description}, {7})
        description = connection.execute("SELECT raw, word, number FROM kinds").description
        assert description is not None
        kinds = [column.type_code for column in description]
        self.assertEqual(kinds, [pgserial.BINARY, pgserial.STRING, pgserial.NUMBER])
        self.assertIsNone(connection.execute("DELETE FROM kinds").description)

    def test_rows_are_fetched_one_by_one_in_parts_and_all(self) -> None:
        connection = self.pairs(*((n, n * n) for n in range(10))).connect()
        cursor = connection.execute("SELECT * FROM t")
        self.assertEqual(cursor.rowcount, 10)
        self.assertEqual(cursor.fetchone(), (0, 0))
        self.assertEqual(cursor.fetchmany(), [(1, 1)])
        cursor.arraysize = 2
        self.assertEqual(cursor.fetchmany(), [(2, 4), (3, 9)])
        self.assertEqual(cursor.fetchmany(3), [(4, 16), (5, 25), (6, 36)])
        self.assertEqual(next(cursor), (7, 49))
        self.assertEqual([n for n, _ in cursor], [8, 9])
        self.assertEqual((cursor.fetchone(), cursor.fetchmany(5), cursor.fetchall()), (None, [], []))
        self.assertEqual(cursor.execute("SELECT v FROM t WHERE id >= 8").fetchall(), [(64,), (81,)])

    def test_rows_are_fetched_by_a_number_from_0_on(self) -> None:
        cursor = self.pairs((1, 10), (2, 20)).connect().execute("SELECT id FROM t")
        self.assertEqual((cursor.fetchone(), cursor.fetchmany(0)), ((1,), []))
        for size in (-1, "1", 1.0):
            self.assertRaises(pgserial.ProgrammingError, cursor.fetchmany, size)
        cursor.arraysize = -1
        self.assertRaises(pgserial.ProgrammingError, cursor.fetchmany)
        self.assertEqual(cursor.fetchall(), [(2,)])

    def test_rowcount_tells_how_many_rows_a_statement_met(self) -> None:
        connection = self.pairs((1, 10), (2, 20), (3, 30)).connect()
        with connection.cursor() as cursor:
            self.assertEqual(cursor.rowcount, -1)
            for operation, wanted in [
                ("UPDATE t SET v = 0 WHERE id > 1", "UPDATE 2"),
                ("SELECT * FROM t", "SELECT 3"),
                ("DELETE FROM t WHERE v = 0", "DELETE 2"),
                ("INSERT INTO t VALUES (4, NULL)", "INSERT 0 1"),
            ]:
                cursor.execute(operation)
                self.assertEqual(cursor.statusmessage, wanted)
                self.assertEqual(cursor.rowcount, int(wanted.split()[-1]))

    def test_executemany_sends_ahead_and_counts(self) -> None:
        connection = self.server().connect()
        cursor = connection.cursor()
        cursor.executemany("INSERT INTO t VALUES (%s, %s)", ((n, 0) for n in range(1000)))
        self.assertEqual(cursor.rowcount, 1000)
        cursor.executemany("UPDATE t SET v = %s WHERE id < %s", [(1, 10), (2, 5)])
        self.assertEqual((cursor.rowcount, cursor.description), (15, None))
        self.assertEqual(cursor.executemany("DELETE FROM t", []).rowcount, 0)
        with self.assertRaises(pgserial.ProgrammingError):
            cursor.executemany("SELECT * FROM t WHERE id = %s", [(1,), (2,)])
        connection.commit()
        with self.assertRaises(pgserial.UniqueViolation):
            cursor.executemany("INSERT INTO t VALUES (%s, 0)", [(1000,), (1001,), (1,), (1002,)])
        connection.rollback()
        self.assertEqual(cursor.execute("SELECT count(*) FROM t").fetchone(), (1000,))

    def test_what_is_closed_or_was_not_executed_is_refused(self) -> None:
        server = self.server()
        connection = server.connect()
        cursor = connection.cursor()
        with self.assertRaises(pgserial.ProgrammingError):
            cursor.fetchone()
        cursor.execute("DELETE FROM t")
        with self.assertRaises(pgserial.ProgrammingError):
            cursor.fetchall()
        cursor.close()
        self.assertRefused(cursor.fetchone, lambda: cursor.execute("SELECT * FROM t"))
        connection.close()
        connection.close()
        self.assertRefused(connection.cursor, connection.commit, connection.rollback, connection.begin)
        other = server.connect()
        server.close()
        self.assertRefused(server.connect, server.serial_order, other.begin, server.dump)

    def assertRefused(self, *uses: Callable[[], object]) -> None:
        """Each raises what is closed raises."""
        for use in uses:
            self.assertRaises(pgserial.InterfaceError, use)

    def test_commands_are_no_statements(self) -> None:
        connection = self.server().connect()
        for command in ("COMMIT", " begin", "DUMP 1 1 out", "Rollback;"):
            with self.assertRaises(pgserial.ProgrammingError):
                connection.execute(command)
        self.assertFalse(connection.in_transaction)


class Refusals(Case):
    schema = FAMILY

    def test_each_code_has_its_exception(self) -> None:
        server = self.server()
        connection = server.connect()
        with connection:
            connection.execute("INSERT INTO parent VALUES (1)")
            connection.execute("INSERT INTO child VALUES (5, 1)")
        for operation, error, base, place in [
            ("INSERT INTO parent VALUES (1)", pgserial.UniqueViolation, pgserial.IntegrityError, "column 1"),
            ("INSERT INTO child VALUES (6, 2)", pgserial.ForeignKeyViolation, pgserial.IntegrityError, "column 2"),
            ("DELETE FROM parent WHERE id = 1", pgserial.ForeignKeyViolation, pgserial.IntegrityError, "table 2"),
            ("INSERT INTO child VALUES (6, NULL)", pgserial.NotNullViolation, pgserial.IntegrityError, "column 2"),
            ("SELECT * FROM nope", pgserial.UndefinedTable, pgserial.ProgrammingError, "byte 14"),
            ("SELECT nope FROM parent", pgserial.UndefinedColumn, pgserial.ProgrammingError, "byte 7"),
            ("SELECT * FROM parent WHERE id = 'a'", pgserial.DatatypeMismatch, pgserial.ProgrammingError, "byte 32"),
            ("SELECT * FROM parent WHERE", pgserial.SyntaxError, pgserial.ProgrammingError, "byte 26"),
            ("SELECT * FROM parent" + " " * 65536, pgserial.ProgramLimitExceeded, pgserial.OperationalError, ""),
            ("SELECT * FROM parent" + " " * 2**20, pgserial.ProgramLimitExceeded, pgserial.OperationalError, None),
        ]:
            with self.subTest(operation[:40]), self.assertRaises(error) as raised:
                connection.execute(operation)
            self.assertIsInstance(raised.exception, base)
            self.assertEqual(raised.exception.sqlstate, error.sqlstate)
            if place is not None:
                self.assertEqual(raised.exception.place, place)
            connection.rollback()

    def test_the_exceptions_are_those_of_pep_249(self) -> None:
        self.assertTrue(issubclass(pgserial.SerializationFailure, pgserial.OperationalError))
        for name in ("Data", "Operational", "Integrity", "Internal", "Programming", "NotSupported"):
            self.assertTrue(issubclass(getattr(pgserial, name + "Error"), pgserial.DatabaseError))
        for name in ("Database", "Interface"):
            self.assertTrue(issubclass(getattr(pgserial, name + "Error"), pgserial.Error))
        self.assertEqual((pgserial.apilevel, pgserial.threadsafety, pgserial.paramstyle), ("2.0", 1, "pyformat"))

    def test_a_failed_transaction_can_only_be_rolled_back(self) -> None:
        connection = self.server().connect()
        connection.execute("INSERT INTO parent VALUES (1)")
        with self.assertRaises(pgserial.UniqueViolation):
            connection.execute("INSERT INTO parent VALUES (1)")
        with self.assertRaises(pgserial.InFailedSqlTransaction):
            connection.execute("SELECT * FROM parent")
        with self.assertRaises(pgserial.InFailedSqlTransaction):
            connection.commit()
        self.assertFalse(connection.in_transaction)
        self.assertEqual(connection.execute("SELECT * FROM parent").fetchall(), [])

    @of_a_process("nothing dies but this process")
    def test_a_server_that_has_died_is_told(self) -> None:
        server = self.server()
        connection = server.connect()
        server._shell._child.kill()
        for _ in range(2):
            with self.assertRaisesRegex(pgserial.OperationalError, "the server has ended with status -9"):
                connection.execute("SELECT * FROM parent")

    def test_a_server_that_is_closed_has_no_transactions(self) -> None:
        server = self.server()
        connection = server.connect()
        connection.execute("SELECT * FROM parent")
        server.close()
        self.assertFalse(connection.in_transaction)
        connection.close()

    @of_a_process("no child is stopped")
    def test_a_child_that_is_stopped_can_be_closed(self) -> None:
        server = self.server()
        server.connect().begin()
        self.stop(server)
        begun = time.monotonic()
        with mock.patch.object(pgserial, "LAST_PATIENCE", 0.1, create=True):
            closing = threading.Thread(target=server.close, daemon=True)
            closing.start()
            closing.join(5)
        is_closed = not closing.is_alive()
        server._shell._child.kill()
        self.assertTrue(is_closed, time.monotonic() - begun)

    @of_a_process("no answer is waited for: a call returns")
    def test_a_server_can_be_closed_while_a_thread_waits_for_its_answer(self) -> None:
        server = self.server()
        told: List[Any] = []
        connection = server.connect()
        self.stop(server)
        waiting = threading.Thread(target=lambda: told.append(self.raised(connection.begin)), daemon=True)
        with mock.patch.object(pgserial, "LAST_PATIENCE", 0.1, create=True):
            waiting.start()
            until = time.monotonic() + 10
            while not server._shell._lost and time.monotonic() < until:
                time.sleep(0.001)
            closing = threading.Thread(target=server.close, daemon=True)
            closing.start()
            closing.join(5)
        is_closed = not closing.is_alive()
        server._shell._child.kill()
        waiting.join(10)
        self.assertTrue(is_closed)
        self.assertTrue(issubclass(told[0], pgserial.Error), told)

    def stop(self, server: pgserial.Server) -> None:
        """Stops the child, and waits until it has stopped."""
        os.kill(server._shell._child.pid, signal.SIGSTOP)
        os.waitpid(server._shell._child.pid, os.WUNTRACED)

    def raised(self, use: Callable[..., object], *words: object) -> Type[BaseException]:
        """The type of what is raised."""
        try:
            use(*words)
        except BaseException as error:
            return type(error)
        return AssertionError

    def test_an_exchange_that_is_broken_off_ends_the_server(self) -> None:
        server = self.server()
        connection = server.connect()
        with mock.patch.object(type(server._shell), "_answer", side_effect=KeyboardInterrupt):
            self.assertRaises(KeyboardInterrupt, connection.begin)
        with self.assertRaisesRegex(pgserial.OperationalError, "broken off"):
            connection.execute("SELECT * FROM parent")


class Transactions(Case):
    def test_commit_shows_and_rollback_takes_back(self) -> None:
        server = self.server()
        one, other = server.connect(), server.connect()
        one.execute("INSERT INTO t VALUES (1, 10)")
        self.assertEqual((one.in_transaction, one.transaction, other.transaction), (True, 1, None))
        self.assertEqual(other.execute("SELECT * FROM t").fetchall(), [])
        one.commit()
        one.commit()
        other.rollback()
        other.rollback()
        self.assertEqual(other.execute("SELECT * FROM t").fetchall(), [(1, 10)])
        one.execute("DELETE FROM t")
        one.rollback()
        other.commit()
        self.assertEqual(other.execute("SELECT * FROM t").fetchall(), [(1, 10)])

    def test_a_with_block_commits_or_rolls_back(self) -> None:
        connection = self.server().connect()
        with connection:
            connection.execute("INSERT INTO t VALUES (1, 10)")
        with self.assertRaises(KeyError), connection:
            connection.execute("INSERT INTO t VALUES (2, 20)")
            raise KeyError
        self.assertFalse(connection.in_transaction)
        self.assertEqual(connection.execute("SELECT * FROM t").fetchall(), [(1, 10)])

    def test_closing_a_connection_rolls_back(self) -> None:
        server = self.server()
        connection = server.connect()
        connection.execute("INSERT INTO t VALUES (1, 10)")
        connection.close()
        self.assertEqual(server.connect().execute("SELECT * FROM t").fetchall(), [])

    def test_a_write_skew_is_refused(self) -> None:
        server = self.pairs((1, 10), (2, 20))
        one, other = server.connect(), server.connect()
        for connection in (one, other):
            self.assertEqual(connection.execute("SELECT * FROM t").fetchall(), [(1, 10), (2, 20)])
        one.execute("UPDATE t SET v = 0 WHERE id = 1")
        other.execute("UPDATE t SET v = 0 WHERE id = 2")
        one.commit()
        with self.assertRaises(pgserial.SerializationFailure) as raised:
            other.commit()
        self.assertEqual((raised.exception.sqlstate, raised.exception.place), ("40001", "cause 2 3 2"))
        self.assertFalse(other.in_transaction)
        self.assertEqual(other.execute("SELECT * FROM t").fetchall(), [(1, 0), (2, 20)])
        self.assertEqual(server.serial_order(), [1, 2])

    def test_the_first_to_write_a_row_goes_on(self) -> None:
        server = self.pairs((1, 0))
        one, other = server.connect(), server.connect()
        other.begin()
        one.execute("UPDATE t SET v = 5 WHERE id = 1")
        with self.assertRaises(pgserial.SerializationFailure) as raised:
            other.execute("UPDATE t SET v = 6 WHERE id = 1")
        self.assertEqual(raised.exception.place, "row")
        one.commit()
        other.rollback()
        self.assertEqual(other.execute("SELECT * FROM t").fetchall(), [(1, 5)])

    def test_the_serial_order_is_not_that_of_commits(self) -> None:
        server = self.pairs((1, 10), (2, 20))
        one, other = server.connect(), server.connect()
        one.begin()
        other.begin()
        one.execute("SELECT * FROM t WHERE id = 1")
        other.execute("UPDATE t SET v = 11 WHERE id = 1")
        other.commit()
        one.execute("UPDATE t SET v = 21 WHERE id = 2")
        one.commit()
        self.assertEqual((one.transaction, other.transaction), (2, 3))
        self.assertEqual(server.serial_order(), [1, 2, 3])

    def test_modes_of_transactions(self) -> None:
        server = self.pairs((1, 10))
        reader = server.connect(read_only=True)
        self.assertEqual(reader.execute("SELECT v FROM t").fetchone(), (10,))
        with self.assertRaises(pgserial.ReadOnlySqlTransaction):
            reader.execute("DELETE FROM t")
        reader.rollback()
        reader.read_only = False
        reader.begin()
        self.assertRaises(pgserial.ActiveSqlTransaction, reader.begin)
        self.assertEqual(reader.execute("DELETE FROM t").rowcount, 1)

    def test_a_snapshot_is_exported_and_imported(self) -> None:
        server = self.pairs((1, 10))
        exporter, importer = server.connect(), server.connect(read_only=True)
        exporter.begin()
        with server.connect() as writer:
            writer.execute("UPDATE t SET v = 11")
        importer.begin()
        self.assertEqual(exporter.ask("EXPORT"), "EXPORT 1")
        self.assertEqual(importer.ask("IMPORT 1"), "IMPORT")
        self.assertEqual(importer.execute("SELECT v FROM t").fetchone(), (10,))
        self.assertRaises(pgserial.ActiveSqlTransaction, importer.ask, "IMPORT 1")
        self.assertRaises(pgserial.ProgrammingError, importer.ask, "COMMIT")


class Dumps(Case):
    def test_a_dump_is_opened_by_another_server(self) -> None:
        server = self.pairs((1, 10), (2, None))
        dump = server.dump()
        table = "COPY t (id, v) FROM stdin;\n1\t10\n2\t\\N\n\\.\n-- rows 2\n"
        self.assertEqual(dump, f"-- dump 2\n{PAIRS}\n{table}-- end\n")
        with tempfile.NamedTemporaryFile("w", encoding="utf-8") as file:
            file.write(dump)
            file.flush()
            opened = self.server(dump=file.name)
        self.assertEqual(list(opened.tables), ["t"])
        with opened.connect() as connection:
            self.assertEqual(connection.execute("SELECT * FROM t").fetchall(), [(1, 10), (2, None)])
        self.assertEqual(opened.dump(jobs=2), dump)

    def test_a_snapshot_that_does_not_become_safe_is_told(self) -> None:
        server = self.pairs((1, 10))
        writer = server.connect()
        writer.execute("UPDATE t SET v = 11")
        self.assertRaises(pgserial.ObjectNotInPrerequisiteState, server.dump, timeout=0.01)
        writer.commit()
        self.assertIn("\n1\t11\n", server.dump())

    def test_a_deferrable_transaction_waits_for_a_safe_snapshot(self) -> None:
        server = self.pairs((1, 10))
        writer, reader = server.connect(), server.connect(deferrable=True)
        writer.execute("UPDATE t SET v = 11")
        rows: List[pgserial.Row] = []
        thread = threading.Thread(target=lambda: rows.extend(reader.execute("SELECT v FROM t").fetchall()))
        thread.start()
        while not reader.in_transaction:
            pass
        self.assertEqual(rows, [])
        writer.commit()
        thread.join(10)
        self.assertEqual(rows, [(10,)])

    def test_a_transaction_whose_snapshot_does_not_become_safe_is_rolled_back(self) -> None:
        server = self.pairs((1, 10))
        writer, reader = server.connect(), server.connect(deferrable=True)
        reader.timeout = 0.01
        writer.execute("UPDATE t SET v = 11")
        with self.assertRaisesRegex(pgserial.ObjectNotInPrerequisiteState, "no snapshot became safe within 0.01 seconds"):
            reader.begin()
        self.assertFalse(reader.in_transaction)
        writer.commit()
        self.assertEqual(reader.execute("SELECT v FROM t").fetchall(), [(11,)])

    def test_answers_of_any_length(self) -> None:
        server = self.server(KINDS)
        connection = server.connect()
        for length in (0, 4000, 4080, 4096, 4097, 9000, 60000):
            connection.execute("INSERT INTO kinds VALUES (%s, %s, NULL, 0)", (length, "x" * length))
            rows = connection.execute("SELECT word FROM kinds WHERE id = %s", (length,)).fetchall()
            self.assertEqual(rows, [("x" * length,)])
        every = connection.execute("SELECT id, word FROM kinds").fetchall()
        self.assertEqual([(key, len(word)) for key, word in every], [(key, key) for key in (0, 4000, 4080, 4096, 4097, 9000, 60000)])

    def waiting(self, server: pgserial.Server, told: List[Any], timeout: Optional[float] = None) -> threading.Thread:
        """A thread that waits for a safe snapshot for as long as it takes, and says what came of it."""
        reader = server.connect(deferrable=True)
        reader.timeout = timeout

        def wait() -> None:
            try:
                told.extend(reader.execute("SELECT v FROM t").fetchall())
            except Exception as error:
                told.append((type(error), reader.in_transaction))

        thread = threading.Thread(target=wait, daemon=True)
        thread.start()
        while not reader.in_transaction:
            pass
        return thread

    def test_a_deferrable_transaction_is_woken_when_the_last_writer_fails(self) -> None:
        for timeout in (None, float("inf")):
            server = self.pairs((1, 10))
            told: List[Any] = []
            writer = server.connect()
            writer.execute("UPDATE t SET v = 11")
            thread = self.waiting(server, told, timeout)
            self.assertRaises(pgserial.UniqueViolation, writer.execute, "INSERT INTO t VALUES (1, 0)")
            thread.join(10)
            self.assertEqual(told, [(10,)])

    def test_a_deferrable_transaction_waits_for_no_server_that_has_gone(self) -> None:
        endings: List[Tuple[Callable[[Any], None], Type[BaseException]]] = [(lambda server: server.close(), pgserial.InterfaceError)]
        if not LIBRARY:  # a server in this process ends by no other way
            endings.append((lambda server: server._shell._child.kill(), pgserial.OperationalError))
        for ends, kind in endings:
            server = self.pairs((1, 10))
            told: List[Any] = []
            server.connect().execute("UPDATE t SET v = 11")
            thread = self.waiting(server, told)
            ends(server)
            thread.join(10)
            self.assertEqual([error for error, _ in told], [kind])


class Room(Case):
    def test_half_of_the_events_make_a_checkpoint_and_the_order_is_kept(self) -> None:
        server = self.server(events=20)
        connection = server.connect()
        for number in range(50):
            with connection:
                connection.execute("INSERT INTO t VALUES (%s, 0)", (number,))
        self.assertEqual(connection.execute("SELECT count(*) FROM t").fetchone(), (50,))
        self.assertEqual(server.serial_order(), list(range(1, 51)))

    def test_no_checkpoint_is_made_while_a_session_is_in_a_transaction(self) -> None:
        server = self.server(events=20)
        connection, idle = server.connect(), server.connect()
        idle.begin()
        self.assertRaises(pgserial.ObjectNotInPrerequisiteState, server.checkpoint)
        with mock.patch.object(pgserial, "PATIENCE", 0.01), self.assertRaises(pgserial.ProgramLimitExceeded):
            for number in range(50):
                with connection:
                    connection.execute("INSERT INTO t VALUES (%s, 0)", (number,))
        idle.commit()
        connection.execute("INSERT INTO t VALUES (100, 0)")
        connection.commit()

    def test_the_last_events_are_kept_for_the_ends_of_transactions(self) -> None:
        server = self.server(events=6)
        one, other = server.connect(), server.connect()
        one.begin()
        other.execute("INSERT INTO t VALUES (1, 0)")
        one.execute("INSERT INTO t VALUES (2, 0)")
        self.assertRaises(pgserial.ProgramLimitExceeded, one.execute, "SELECT * FROM t")
        with mock.patch.object(pgserial, "PATIENCE", 0.01):
            self.assertRaises(pgserial.ProgramLimitExceeded, server.connect().begin)
        one.commit()
        other.commit()
        self.assertEqual(one.execute("SELECT * FROM t").fetchall(), [(1, 0), (2, 0)])
        self.assertEqual(server.serial_order(), [1, 2])


class Threads(Case):
    def test_threads_move_money_and_none_is_lost(self) -> None:
        accounts, threads, moves = 8, 8, 20
        server = self.pairs(*((account, 100) for account in range(accounts)), events=500)
        done: List[int] = []

        def move(thread: int) -> None:
            connection = server.connect()
            for turn in range(moves):
                giver, taker = (thread + turn) % accounts, (thread + 3 * turn + 1) % accounts
                while not self.moved(connection, giver, taker):
                    pass
                assert connection.transaction is not None
                done.append(connection.transaction)

        running = [threading.Thread(target=move, args=(number,)) for number in range(threads)]
        for thread in running:
            thread.start()
        for thread in running:
            thread.join(60)
        self.assertEqual(len(done), threads * moves)
        self.assertEqual(sorted(server.serial_order()), sorted([1, *done]))
        rows = server.connect().execute("SELECT v FROM t").fetchall()
        self.assertEqual(sum(value for value, in rows), 100 * accounts)

    def test_threads_that_share_a_connection_lose_no_work_in_silence(self) -> None:
        connection = self.pairs((1, 0)).connect()
        done: List[int] = []
        refused: List[str] = []

        def add() -> None:
            for _ in range(200):
                try:
                    with connection:
                        connection.execute("UPDATE t SET v = v + 1")
                        connection.execute("SELECT v FROM t")
                    done.append(1)
                except pgserial.ProgrammingError as error:
                    refused.append(str(error))

        running = [threading.Thread(target=add) for _ in range(8)]
        for thread in running:
            thread.start()
        for thread in running:
            thread.join(60)
        self.assertEqual(connection.execute("SELECT v FROM t").fetchone(), (len(done),))
        self.assertEqual({"thread" in text for text in refused}, {True})

    def test_a_transaction_is_of_the_thread_that_has_begun_it(self) -> None:
        server = self.pairs((1, 0))
        connection = server.connect()
        told: List[object] = []

        def other(use: Callable[[], object]) -> None:
            try:
                told.append(use())
            except (pgserial.Error, KeyError) as error:
                told.append(type(error))

        def leave() -> None:
            with connection:
                raise KeyError

        def elsewhere(*uses: Callable[[], object]) -> List[object]:
            for use in uses:
                thread = threading.Thread(target=other, args=(use,))
                thread.start()
                thread.join(10)
            results, told[:] = told[:], []
            return results

        connection.execute("UPDATE t SET v = 1")
        uses = (connection.begin, connection.commit, connection.rollback, lambda: connection.ask("EXPORT"))
        refused = elsewhere(*uses, lambda: connection.execute("SELECT * FROM t"))
        self.assertEqual(refused, [pgserial.ProgrammingError] * 5)
        self.assertEqual(elsewhere(leave), [KeyError])
        connection.commit()
        # Between transactions it goes from one to another; and from one that has ended, to whoever uses it.
        self.assertEqual(elsewhere(lambda: connection.execute("SELECT v FROM t").fetchone()), [(1,)])
        self.assertEqual(connection.execute("UPDATE t SET v = 2").rowcount, 1)
        connection.rollback()
        connection.begin()
        self.assertEqual(elsewhere(connection.close), [None])
        self.assertRaises(pgserial.InterfaceError, connection.commit)

    def moved(self, connection: pgserial.Connection, giver: int, taker: int) -> bool:
        """Moves 1 from one account to another, or is refused."""
        try:
            with connection:
                connection.execute("UPDATE t SET v = v - %s WHERE id = %s", (1, giver))
                connection.execute("UPDATE t SET v = v - %s WHERE id = %s", (-1, taker))
            return True
        except pgserial.SerializationFailure:
            return False


if __name__ == "__main__":
    unittest.main()
