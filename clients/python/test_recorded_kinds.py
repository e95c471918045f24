"""Tests of recordings of columns of other kinds than whole numbers, texts and bytes, and of tables that have other keys.

    PGSERIAL=path/to/pgserial PGSERIAL_DSN=.. python3 clients/python/test_recorded_kinds.py

For each kind: what one transaction does after another is explained, and anomalies that go through the column aren't.
"""

import contextlib
import datetime
import decimal
import enum
import importlib
import ipaddress
import unittest
import uuid
from typing import Any, List, Sequence, Tuple

from pgserial.recording import Recorder, RecordingWarning
from pgserial.setters import setter_of
from test_recording import DSN, OnPostgres, drivers

UTC, INDIA = datetime.timezone.utc, datetime.timezone(datetime.timedelta(hours=5, minutes=30))
NUMBERED = uuid.UUID("12345678-1234-5678-1234-567812345678")


def moment(hour: int, zone: Any = None) -> datetime.datetime:
    """An hour of one day, in UTC, as a zone has it."""
    made = datetime.datetime(2024, 2, 29, hour, 30, 15, 250)
    return made if zone is None else made.replace(tzinfo=UTC).astimezone(zone)


# A type, three values of it, and other spellings of the first that are equal to it.
KINDS: List[Tuple[str, List[Any], List[Any]]] = [
    ("boolean", [True, False, None], ["yes"]),
    ("date", [datetime.date(2024, 2, 29), datetime.date(1969, 12, 31), "2030-01-01"], ["2024-02-29"]),
    ("timestamp", [moment(1), moment(2), moment(3)], ["2024-02-29 01:30:15.00025", "2024-02-29T01:30:15.000250"]),
    ("timestamptz", [moment(1, UTC), moment(2, UTC), moment(3, INDIA)], [moment(1, INDIA), "2024-02-29 07:00:15.00025+05:30", "2024-02-29T01:30:15.00025Z"]),
    ("time", [datetime.time(1, 2, 3, 400), datetime.time(0), "23:59"], ["01:02:03.0004"]),
    ("numeric", [decimal.Decimal("1.00"), decimal.Decimal("-0.5"), decimal.Decimal("NaN")], [decimal.Decimal("1"), 1, "1.000", "+01.0"]),
    ("numeric(12,2)", [decimal.Decimal("1.5"), decimal.Decimal("-0.01"), 3], [decimal.Decimal("1.50"), "1.500", "15e-1"]),
    ("numeric(20,4)", [decimal.Decimal("1.5"), 2, decimal.Decimal("12345678.9")], [decimal.Decimal("1.5000"), "1.50"]),
    ("double precision", [0.1, 1e100, float("inf")], ["0.1", "1e-1", decimal.Decimal("0.10")]),
    ("real", [0.5, 3, -7.25], [decimal.Decimal("0.50"), "0.5"]),
    ("uuid", [str(NUMBERED), str(uuid.UUID(int=5)), str(uuid.UUID(int=6))], [str(NUMBERED).upper(), NUMBERED.hex, "{" + str(NUMBERED) + "}"]),
    ("mood", ["glad", "sad", "it's"], []),
    ("char(5)", ["ab", "c", "défgh"], ["ab  ", "ab   "]),
    ("inet", ["10.0.0.1", "10.0.0.1/8", "2001:db8::1"], ["10.0.0.1/32"]),
    ("text[]", [["a", None, 'b"c\\', "x,y"], [], [["a"], ["b"]]], ['{a,NULL,"b\\"c\\\\","x,y"}']),
    ("int[]", [[1, 2], [3], [[1], [2]]], ["{1,2}", "{ 1 , 2 }"]),
    ("money_of", [decimal.Decimal("1.00"), decimal.Decimal("2.50"), decimal.Decimal("3")], ["1", decimal.Decimal("1.0")]),
    ("positive", [1, 2, 3], []),
    ("jsonb", ['{"b": 1.0, "a": [1, "x"]}', "[]", '"é\\n"'], ['{ "a":[1,"x"] ,"b":1.00}', '{"b":1,"a":[1,"x"]}']),
]
TYPES = (
    "CREATE TYPE mood AS ENUM ('glad', 'sad', 'it''s')", "CREATE DOMAIN money_of AS numeric(9,2) DEFAULT 7 CHECK (VALUE > 0)",
    "CREATE DOMAIN positive AS int CHECK (VALUE > 0)",
)  # fmt: skip


class Recorded(OnPostgres):
    def two(self, driver: Any, tables: Any = ("t",), level: str = "READ COMMITTED") -> Tuple[Recorder, Any, Any]:
        """A recorder and two connections."""
        recorder = self.recorder(tables)
        made = []
        for _ in range(2):
            raw = self.raw(driver)
            raw.cursor().execute(f"SET SESSION CHARACTERISTICS AS TRANSACTION ISOLATION LEVEL {level}")
            raw.commit()
            made.append(recorder.wrap(raw))
        return recorder, made[0], made[1]

    def all_said(self, recorder: Recorder, answer: str) -> None:
        """Nothing is left out, and the verdict is this."""
        told = recorder.verdict()
        self.assertEqual((told.answer, dict(recorder.left_out), recorder.ended), (answer, {}, None), "\n".join(self.lines()))


def ask(connection: Any, text: str, *parameters: Any) -> List[Any]:
    """Executes a statement; its rows, where it has some."""
    cursor = connection.cursor()
    cursor.execute(text, parameters or None)
    return list(cursor.fetchall()) if cursor.description is not None else []


def do(connection: Any, text: str, *parameters: Any) -> None:
    """Executes a statement, and commits it."""
    ask(connection, text, *parameters)
    connection.commit()


@unittest.skipUnless(drivers(), "PostgreSQL or psycopg2 isn't there (Debian: postgresql, python3-psycopg2)")
class Kinds(Recorded):
    def each_kind(self) -> Any:
        for driver in drivers():
            for type_name, values, spellings in KINDS:
                with self.subTest(type_name, driver=driver.__name__):
                    self.make(*TYPES, f"CREATE TABLE t (id int PRIMARY KEY, v {type_name}, w int)")
                    connection = drivers()[0].connect(DSN)
                    cursor = connection.cursor()
                    cursor.execute("INSERT INTO t VALUES (1, %s, 0), (2, %s, 0)", (values[0], values[0]))
                    connection.commit()
                    connection.close()
                    yield driver, type_name, values, spellings

    def typed(self, type_name: str) -> str:
        """A placeholder for a value: one with its type, where it is needed to find what is meant."""
        return f"%s::{type_name}" if type_name.endswith("[]") else "%s"

    def test_one_transaction_after_another_is_explained(self) -> None:
        for driver, type_name, (first, second, third), spellings in self.each_kind():
            recorder, one, two = self.two(driver)
            slot = self.typed(type_name)
            ask(one, f"INSERT INTO t VALUES (3, {slot}, 1), (4, NULL, 2)", third)
            ask(one, f"UPDATE t SET v = {slot}, w = w + 1 WHERE id = 2", second)
            one.commit()
            for same in [first, *spellings]:
                self.assertEqual(ask(two, f"SELECT id FROM t WHERE v = {slot}", same), [(1,)], same)
                ask(two, f"SELECT id, v FROM t WHERE v <> {slot}", same)
            self.assertEqual(len(ask(two, "SELECT v, w FROM t WHERE v IS NOT NULL")), 2 + (third is not None))
            ask(two, "SELECT * FROM t WHERE v IS NULL")
            two.commit()
            for same in spellings:
                ask(two, f"UPDATE t SET v = {slot} WHERE id = 2", same)
                self.assertEqual(len(ask(one, f"SELECT * FROM t WHERE v = {slot}", second)), 1)
                one.commit()
                two.commit()
                self.assertEqual(len(ask(one, f"SELECT * FROM t WHERE v = {slot}", first)), 2)
                one.commit()
                ask(two, f"UPDATE t SET v = {slot} WHERE id = 2", second)
                two.commit()
            ask(one, f"DELETE FROM t WHERE v = {slot}", second)
            one.commit()
            self.all_said(recorder, "yes")

    def test_a_lost_update_is_found(self) -> None:
        for driver, type_name, (first, second, third), _ in self.each_kind():
            recorder, one, two = self.two(driver)
            slot = self.typed(type_name)
            ask(one, "SELECT v FROM t WHERE id = 1")
            ask(two, "SELECT v FROM t WHERE id = 1")
            ask(one, f"UPDATE t SET v = {slot} WHERE id = 1", second)
            one.commit()
            ask(two, f"UPDATE t SET v = {slot} WHERE id = 1", third)
            two.commit()
            self.all_said(recorder, "no")

    def test_a_write_skew_by_a_condition_is_found(self) -> None:
        for driver, type_name, (first, second, _), spellings in self.each_kind():
            recorder, one, two = self.two(driver, level="REPEATABLE READ")
            slot = self.typed(type_name)
            same = [first, *spellings]
            for connection, value in ((one, same[0]), (two, same[-1])):
                self.assertEqual(len(ask(connection, f"SELECT id FROM t WHERE v = {slot}", value)), 2)
            ask(one, f"UPDATE t SET v = {slot} WHERE id = 1", second)
            ask(two, f"UPDATE t SET v = {slot} WHERE id = 2", second)
            one.commit()
            two.commit()
            self.all_said(recorder, "no")

    def test_kinds_whose_values_are_ordered(self) -> None:
        day = datetime.date(2024, 2, 29)
        for driver in self.each():
            self.make(
                "CREATE TABLE t (id int PRIMARY KEY, n numeric(12,2), d date, at timestamptz, ok boolean)",
                "INSERT INTO t VALUES (1, 10.50, '2024-02-29', '2024-02-29 12:00+00', true), (2, -0.5, '1969-01-01', '1960-01-01 00:00:00.000001+00', false)",
            )  # fmt: skip
            recorder, one, two = self.two(driver)
            cases: List[Tuple[str, List[Any], List[int]]] = [
                ("n > %s", [decimal.Decimal("10.4")], [1]), ("n BETWEEN -1 AND 0.00", [], [2]), ("n <= -0.50", [], [2]), ("d < %s", [day], [2]), ("d >= DATE '2024-02-29'", [], [1]),
                ("at > %s", [moment(1, INDIA)], [1]), ("at BETWEEN %s AND %s", [datetime.datetime(1900, 1, 1, tzinfo=UTC), moment(1, UTC)], [2]), ("ok > false", [], [1]),
            ]  # fmt: skip
            for text, values, keys in cases:
                self.assertEqual([row[0] for row in ask(one, f"SELECT id FROM t WHERE {text}", *values)], keys, text)
            ask(one, "UPDATE t SET n = n + %s, d = d + 1 WHERE id = 1", decimal.Decimal("-0.25"))
            ask(one, "UPDATE t SET n = n - 3, d = d - 365 WHERE id = 2")
            one.commit()
            self.assertEqual(ask(two, "SELECT n, d FROM t ORDER BY id"), [(decimal.Decimal("10.25"), datetime.date(2024, 3, 1)), (decimal.Decimal("-3.50"), datetime.date(1968, 1, 2))])
            two.commit()
            self.assertIn("> 1 UPDATE t SET n = n - 25, d = d + 1 WHERE id = 1;", self.lines())
            self.all_said(recorder, "yes")
            recorder = self.recorder()
            do(recorder.wrap(self.raw(driver)), "UPDATE t SET n = n + 0.005 WHERE id = 1")  # which is rounded
            self.assertIn("> 1 UPDATE t SET n = 1026 WHERE id = 1;", self.lines())
            self.assertEqual(sum(recorder.left_out.values()), 1)

    def test_columns_that_are_conditions(self) -> None:
        for driver in self.each():
            self.make("CREATE TABLE t (id int PRIMARY KEY, ok boolean, v int)", "INSERT INTO t VALUES (1, true, 1), (2, false, 1), (3, NULL, 1)")
            recorder, one, _ = self.two(driver)
            for text, keys, said in (
                ("ok", [1], "ok = 1"), ("NOT ok", [2], "ok = 0"), ("(ok) AND v = 1", [1], "ok = 1 AND v = 1"), ("t.ok IS TRUE", [1], "ok = 1"), ("ok IS FALSE", [2], "ok = 0"),
                ("ok IS UNKNOWN", [3], "ok IS NULL"), ("ok IS NOT UNKNOWN", [1, 2], "ok IS NOT NULL"), ("ok = true", [1], "ok = 1"), ("NOT t.ok AND id < 5", [2], "ok = 0 AND id < 5"),
                ("false = ok", [2], "ok = 0"), ("ok <> 'f'", [1], "ok <> 0"),
            ):  # fmt: skip
                self.assertEqual([row[0] for row in ask(one, f"SELECT id FROM t WHERE {text} ORDER BY id")], keys, text)
                self.assertIn(f"> 1 SELECT id FROM t WHERE {said};", self.lines())
            ask(one, "UPDATE t SET v = 2 WHERE NOT ok")
            ask(one, "DELETE FROM t WHERE ok")
            one.commit()
            self.all_said(recorder, "yes")
            recorder, one, two = self.two(driver)
            ask(one, "SELECT id FROM t WHERE ok IS NOT TRUE")
            self.assertGreater(sum(recorder.left_out.values()), 0)

    def test_a_lost_update_of_sums_is_no_anomaly(self) -> None:
        for driver in self.each():
            for text, answer in (("UPDATE t SET n = n + 1.25 WHERE id = 1", "yes"), ("UPDATE t SET n = 11.75 WHERE id = 1", "no")):
                self.make("CREATE TABLE t (id int PRIMARY KEY, n numeric(9,2))", "INSERT INTO t VALUES (1, 10.50)")
                recorder, one, two = self.two(driver)
                if answer == "no":
                    for connection in (one, two):
                        ask(connection, "SELECT n FROM t WHERE id = 1")
                for connection in (one, two):
                    do(connection, text)
                self.assertEqual(ask(one, "SELECT n FROM t"), [(decimal.Decimal("13.00" if answer == "yes" else "11.75"),)])
                one.commit()
                self.all_said(recorder, answer)

    def test_values_that_a_driver_has_wrappers_for(self) -> None:
        for driver in self.each():
            self.make("CREATE TABLE t (id uuid PRIMARY KEY, j json, b jsonb, a inet, n numeric[], d date)")
            recorder, one, two = self.two(driver)
            if driver.__name__ == "psycopg2":
                extras = importlib.import_module("psycopg2.extras")
                extras.register_uuid()
                wrapped: Sequence[Any] = (extras.Json([1, {"b": 2.5}]), extras.Json({"z": None, "aa": True}), extras.Inet("10.0.0.1"))
            else:
                types = importlib.import_module("psycopg.types.json")
                wrapped = (types.Json([1, {"b": 2.5}]), types.Jsonb({"z": None, "aa": True}), ipaddress.ip_address("10.0.0.1"))
            numbers = [decimal.Decimal("1.50"), decimal.Decimal("2")]
            ask(one, "INSERT INTO t VALUES (%s, %s, %s, %s, %s, DATE '2024-02-29')", NUMBERED, *wrapped, numbers)
            one.commit()
            row = ask(two, "SELECT * FROM t WHERE id = %s", NUMBERED)[0]
            self.assertEqual((row[1], row[2]), ([1, {"b": 2.5}], {"z": None, "aa": True}))
            self.assertEqual(len(ask(two, "SELECT id FROM t WHERE b = %s AND d = CAST('2024-02-29' AS date)", wrapped[1])), 1)
            two.commit()
            self.assertIn('> 1 INSERT INTO t VALUES (\'12345678-1234-5678-1234-567812345678\', \'[1,{"b":2.5}]\', \'{"aa":true,"z":null}\', \'10.0.0.1\', \'["1.5","2"]\', 19782);', self.lines())
            self.all_said(recorder, "yes")

    def test_json_that_the_application_reads_as_a_text(self) -> None:
        for driver in self.each():
            self.make("CREATE TABLE t (id int PRIMARY KEY, b jsonb)", "INSERT INTO t VALUES (1, '{\"a\": 1.50}'), (2, '\"x\"'), (3, '7')")
            recorder = self.recorder()
            raw = self.raw(driver)
            if driver.__name__ == "psycopg2":
                importlib.import_module("psycopg2.extras").register_default_jsonb(raw, loads=lambda text: text)
            else:
                importlib.import_module("psycopg.types.json").set_json_loads(lambda text: bytes(text).decode(), raw)
            one = recorder.wrap(raw)
            self.assertEqual(ask(one, "SELECT b FROM t ORDER BY id"), [('{"a": 1.50}',), ('"x"',), ("7",)])
            one.commit()
            self.assertIn('  1 | {"a":1.5}', self.lines())
            self.all_said(recorder, "yes")
            if driver.__name__ == "psycopg2":
                raw = self.raw(driver)
                importlib.import_module("psycopg2.extras").register_default_jsonb(raw, loads=lambda text: "something")
                recorder = self.recorder()
                self.assertEqual(ask(recorder.wrap(raw), "SELECT b FROM t WHERE id = 1"), [("something",)])
                self.assertEqual(list(recorder.left_out.values()), [1])

    def test_a_null_of_json_is_no_null(self) -> None:
        for driver in self.each():
            self.make("CREATE TABLE t (id int PRIMARY KEY, j jsonb)", "INSERT INTO t VALUES (1, NULL)")
            recorder, one, _ = self.two(driver)
            ask(one, "INSERT INTO t VALUES (2, 'null')")
            self.assertEqual(ask(one, "SELECT j FROM t ORDER BY id"), [(None,), (None,)])
            self.assertEqual(ask(one, "SELECT id FROM t WHERE j IS NULL"), [(1,)])
            one.commit()
            self.assertEqual(sum(recorder.left_out.values()), int(driver.__name__ == "psycopg2"))  # which shows no difference
            self.assertEqual(recorder.verdict().answer, "yes")

    def test_values_of_classes_that_may_spell_them_otherwise(self) -> None:
        class Rounded(decimal.Decimal):
            def __str__(self) -> str:
                return format(self, ".1f")

        class Mood(str, enum.Enum):
            glad = "sad"

        for driver in self.each():
            self.make(*TYPES, "CREATE TABLE t (id int PRIMARY KEY, n numeric, m mood, j json[])", "INSERT INTO t VALUES (1, 1.25, 'glad', '{1}'), (2, 7, 'sad', NULL)")
            raw = self.raw(driver, True)
            if driver.__name__ == "psycopg":
                types = importlib.import_module("psycopg.types.enum")
                types.register_enum(types.EnumInfo.fetch(raw, "mood"), raw, Mood)
            recorder = self.recorder()
            connection = recorder.wrap(raw)
            ask(connection, "SELECT id FROM t WHERE n = %s", Rounded("1.25"))
            self.assertEqual(list(recorder.left_out), ["the driver sends something else in place of a Rounded"])
            found = ask(connection, "SELECT m FROM t WHERE id = 1")[0][0]
            if driver.__name__ == "psycopg":
                self.assertIs(found, Mood.glad)
                self.assertIn("a text is no Mood", recorder.left_out)
            else:
                self.assertEqual(ask(connection, "SELECT id FROM t WHERE m = %s", Mood.glad), [(2,)])
                self.assertIn("> 1 SELECT id FROM t WHERE m = 'sad';", self.lines())
            self.assertIn("-- Column j of table t isn't recorded: it is of type json[].", self.comments())
            with self.assertWarnsRegex(RecordingWarning, "it may change what names mean|extra_float_digits|SET may write"):
                ask(connection, "SET extra_float_digits = 0")

    def test_values_that_a_driver_shows_as_others(self) -> None:
        for driver in self.each():
            for text in ("INSERT INTO t (id, v, a) VALUES (1, '24:00', '{1}') RETURNING *", "INSERT INTO t (id, v, a) VALUES (1, '00:00', '[2:3]={1,2}') RETURNING v, id, a"):
                self.make("CREATE TABLE t (id int PRIMARY KEY, v time, a int[])")
                with self.assertWarns(RecordingWarning), contextlib.suppress(driver.DataError):
                    do(self.recorder().wrap(self.raw(driver)), text)

    def test_values_that_are_not_surely_known(self) -> None:
        values: List[Tuple[str, Any]] = [
            ("timestamptz", datetime.datetime(2024, 2, 29, 1)), ("timestamptz", "2024-02-29 01:00"), ("timestamptz", "now"), ("timestamp", moment(1, UTC)),
            ("timestamp(0)", moment(1)), ("time(0)", datetime.time(0, 0, 0, 500000)), ("numeric(5,1)", decimal.Decimal("0.25")), ("date", "yesterday"),
            ("date", "1/2/2024"), ("timestamptz", "infinity"), ("jsonb", "0.1000000000000000055511151231257827"), ("real", 16777217), ("char(3)[]", ["abc", "d   e"]),
            ("numeric(5,1)[]", [decimal.Decimal("0.25")]), ("varchar(2)[]", ["abc"]), ("int[]", "[2:3]={1,2}"), ("uuid", "1234-5678-1234-5678-1234-5678-1234-5678"),
        ]  # fmt: skip
        for driver in drivers():
            for type_name, value in values:
                self.make(f"CREATE TABLE t (id int PRIMARY KEY, v {type_name})")
                recorder = self.recorder()
                connection = recorder.wrap(self.raw(driver, True))
                with self.subTest(type_name, value=value, driver=driver.__name__), contextlib.suppress(driver.DataError):
                    ask(connection, f"SELECT id FROM t WHERE v = {self.typed(type_name)}", value)
                    ask(connection, f"INSERT INTO t VALUES (1, {self.typed(type_name)})", value)
                    shown = ask(connection, "SELECT id, v FROM t")
                    self.assertEqual(len(shown), 1)
                    lines = self.lines_so_far()
                    if recorder.ended is not None:  # what comes back can't be said either
                        self.assertFalse(any(line.startswith("> 1 INSERT") for line in lines))
                        continue
                    inserted = next(line for line in lines if line.startswith("> 1 INSERT"))
                    self.assertEqual(inserted.split(" VALUES (1, ")[1].rstrip(");\n").strip("'"), lines[-3].split("\t")[1].rstrip("\n"))
                    told = recorder.verdict()  # what was written is what was read
                    self.assertEqual(told.answer, "yes", told.words)

    def lines_so_far(self) -> List[str]:
        return [line + "\n" for line in self.lines()]


@unittest.skipUnless(drivers(), "PostgreSQL or psycopg2 isn't there (Debian: postgresql, python3-psycopg2)")
class Keys(Recorded):
    PAIRS = ("CREATE TABLE t (v int DEFAULT 7, a int, b text, PRIMARY KEY (a, b))", "INSERT INTO t VALUES (10, 1, 'x'), (20, 1, 'y,\"'), (30, 2, 'x')")

    def test_a_key_of_several_columns_is_one_text(self) -> None:
        for driver in self.each():
            self.make(*self.PAIRS)
            recorder, one, two = self.two(driver)
            ask(one, "INSERT INTO t (b, a) VALUES (%s, %s)", "new", 3)
            ask(one, "UPDATE t SET v = v + 1 WHERE b = 'x' AND a = 1 AND v > 3")
            ask(one, "UPDATE t SET v = 5 WHERE a = %s AND b IN (%s, %s)", 1, "x", 'y,"')
            self.assertEqual(len(ask(one, "SELECT * FROM t WHERE a = 1 AND b = ANY (%s)", ["x", 'y,"', "none"])), 2)
            one.commit()
            self.assertEqual(ask(two, 'SELECT v, b FROM t WHERE a = 1 AND b = \'y,"\''), [(5, 'y,"')])
            self.assertEqual(len(ask(two, "SELECT * FROM t WHERE a = 1")), 2)
            ask(two, "UPDATE t SET v = 0 WHERE a = 2")
            ask(two, "DELETE FROM t WHERE a = 3 AND b = 'new' AND a = 3")
            two.commit()
            said = [line[4:] for line in self.lines() if line[:1] == ">"]
            self.assertIn("CREATE TABLE t (a_b text PRIMARY KEY, a bigint, b text, v bigint);", [line[2:] for line in self.lines()])
            for text in (
                "INSERT INTO t VALUES ('3,\"new\"', 3, 'new', 7);", "UPDATE t SET v = v + 1 WHERE a_b = '1,\"x\"' AND v > 3;", "UPDATE t SET v = 5 WHERE a_b = '1,\"y,\"\"\"';",
                "SELECT a, b, v FROM t WHERE a_b = '1,\"none\"';".replace("a, b, v", "v, a, b"), "SELECT v, b FROM t WHERE a_b = '1,\"y,\"\"\"';", "SELECT v, a, b FROM t WHERE a = 1;",
                "UPDATE t SET v = 0 WHERE a = 2;", "DELETE FROM t WHERE a_b = '3,\"new\"' AND a = 3;",
            ):  # fmt: skip
                self.assertIn(text, said)
            self.all_said(recorder, "yes")

    def test_texts_of_keys_are_unambiguous(self) -> None:
        for driver in self.each():
            self.make("CREATE TABLE t (a text, b text, c text, PRIMARY KEY (a, b, c))")
            recorder, one, two = self.two(driver)
            rows = [(a, b, c) for a in ("", '"', ",", '","') for b in ("", '"', '","') for c in ("", ",", '"')]
            for row in rows:
                ask(one, "INSERT INTO t VALUES (%s, %s, %s)", *row)
            one.commit()
            for row in rows:
                self.assertEqual(ask(two, "SELECT * FROM t WHERE a = %s AND b = %s AND c = %s", *row), [row])
            two.commit()
            self.all_said(recorder, "yes")

    def test_anomalies_by_such_a_key_are_found(self) -> None:
        for driver in self.each():
            for change in ("UPDATE t SET v = %s WHERE a = 1 AND b = 'x'", "UPDATE t SET v = %s WHERE a = 1 AND b IN ('x')"):
                self.make(*self.PAIRS)
                recorder, one, two = self.two(driver)
                for connection in (one, two):
                    ask(connection, "SELECT v FROM t WHERE b = 'x' AND a = 1")
                ask(one, change, 11)
                one.commit()
                ask(two, change, 12)
                two.commit()
                self.all_said(recorder, "no")
            self.make(*self.PAIRS)
            recorder, one, two = self.two(driver, level="REPEATABLE READ")
            for connection in (one, two):
                self.assertEqual(len(ask(connection, "SELECT b FROM t WHERE a = 1")), 2)
            ask(one, "INSERT INTO t VALUES (0, 1, 'one')")
            ask(two, "INSERT INTO t VALUES (0, 1, 'two')")
            one.commit()
            two.commit()
            self.all_said(recorder, "no")

    def test_a_unique_key_in_place_of_a_primary_one(self) -> None:
        for driver in self.each():
            self.make("CREATE TABLE t (v int UNIQUE, name text NOT NULL, a int NOT NULL, UNIQUE (name, a))", "CREATE UNIQUE INDEX ON t (lower(name))", "INSERT INTO t VALUES (1, 'x', 1)")
            recorder, one, two = self.two(driver)
            for connection in (one, two):
                ask(connection, "SELECT v FROM t WHERE name = 'x' AND a = 1")
            ask(one, "UPDATE t SET v = v + 1 WHERE name = 'x' AND a = 1")
            one.commit()
            ask(two, "UPDATE t SET v = v + 1 WHERE name = 'x' AND a = 1")
            two.commit()
            self.assertIn("> 1 UPDATE t SET v = v + 1 WHERE name_a = '\"x\",1';", self.lines())
            self.all_said(recorder, "no")

    def test_rows_are_numbered_where_there_is_no_key(self) -> None:
        for driver in self.each():
            for text in ("(v int, n text)", "(v int UNIQUE, n text)", "(v int PRIMARY KEY DEFERRABLE, n text)", "(v int, n text, i interval PRIMARY KEY DEFAULT make_interval(secs => random()))"):
                self.make(f"CREATE TABLE t {text}", "INSERT INTO t (v, n) VALUES (1, 'x'), (2, 'x')")
                recorder, one, two = self.two(driver)
                ask(one, "INSERT INTO t (n, v) VALUES ('x', 3), ('y', 4)")
                ask(one, "UPDATE t SET v = v + 10 WHERE n = 'x' AND v > 1")
                one.commit()
                self.assertEqual(sorted(ask(two, "SELECT v, n FROM t WHERE n = 'x'")), [(1, "x"), (12, "x"), (13, "x")])
                ask(two, "DELETE FROM t WHERE v = 4")
                two.commit()
                self.assertIn("> 1 INSERT INTO t VALUES (3, 3, 'x');", self.lines())
                self.all_said(recorder, "yes")
                recorder, one, two = self.two(driver, level="REPEATABLE READ")
                for connection in (one, two):
                    ask(connection, "SELECT count(*) FROM t WHERE n = 'new'")
                ask(one, "INSERT INTO t (v, n) VALUES (5, 'new')")
                ask(two, "INSERT INTO t (v, n) VALUES (6, 'new')")
                one.commit()
                two.commit()
                self.all_said(recorder, "no")

    def test_the_rows_that_are_there_at_the_end(self) -> None:
        for driver in self.each():
            for text, first in (("CREATE TABLE t (v numeric, at date)", "1.50, '2024-02-29'"), ("CREATE TABLE t (v numeric, at date, PRIMARY KEY (v, at))", "2, '1999-01-01'")):
                for is_written, answer in ((False, "yes"), (True, "unknown")):
                    self.make(text, f"INSERT INTO t VALUES ({first}), (7.0, '2000-01-01')")
                    recorder = self.recorder(verify_end=True)
                    connection = recorder.wrap(self.raw(driver))
                    do(connection, "INSERT INTO t VALUES (3.10, '2024-03-01')")
                    do(connection, "DELETE FROM t WHERE v = 7.00")
                    if is_written:
                        do(self.raw(driver), "UPDATE t SET at = '2024-03-02' WHERE v = 3.1")
                    connection.close()
                    told = recorder.verdict()
                    self.assertEqual(told.answer, answer, "\n".join([*self.lines(), str(told)]))

    def test_the_key_is_recorded_with_the_columns_that_are_named(self) -> None:
        for driver in self.each():
            self.make("CREATE TABLE t (a int, b int, v int, w int, PRIMARY KEY (a, b))", "INSERT INTO t VALUES (1, 1, 5, 6)")
            recorder = self.recorder({"t": ["v"]})
            ask(recorder.wrap(self.raw(driver, True)), "UPDATE t SET v = 7, w = 8 WHERE a = 1 AND b = 1")
            self.assertIn("> 1 UPDATE t SET v = 7 WHERE a_b = '1,1';", self.lines())
            self.all_said(recorder, "yes")

    def test_columns_for_which_there_is_no_room(self) -> None:
        for driver in self.each():
            self.make(f"CREATE TABLE t (id int PRIMARY KEY, {', '.join(f'c{number} int' for number in range(1, 41))})", "INSERT INTO t (id) VALUES (1)")
            recorder, one, two = self.two(driver)
            ask(one, "UPDATE t SET c3 = 5, c40 = 6 WHERE id = 1")
            ask(one, "UPDATE t SET c40 = 7 WHERE id = 1 AND c3 = 5")
            self.assertEqual(ask(one, "SELECT c1, c3 FROM t WHERE id = 1"), [(None, 5)])
            self.assertEqual(dict(recorder.left_out), {})
            ask(two, "SELECT c40 FROM t WHERE id = 1")
            one.commit()
            ask(two, "UPDATE t SET c40 = 8 WHERE id = 1")  # a lost update
            two.commit()
            told = recorder.verdict()
            self.assertEqual(told.answer, "yes")
            self.assertEqual([(each.kind, each.count) for each in told.left_out], [("column c40 of table t is one of more than 32 columns", 1)])
            self.assertIn("> 1 SELECT count(*) FROM t WHERE id = 1 AND c3 = 5;", self.lines())

    def test_partitions_by_their_parent(self) -> None:
        for driver in self.each():
            self.make(
                "CREATE TABLE t (at date, id int, v int, PRIMARY KEY (id, at)) PARTITION BY RANGE (at)", "CREATE TABLE early PARTITION OF t FOR VALUES FROM (MINVALUE) TO ('2024-01-01')",
                "CREATE TABLE late PARTITION OF t FOR VALUES FROM ('2024-01-01') TO (MAXVALUE)", "INSERT INTO t VALUES ('2023-05-05', 1, 10), ('2024-05-05', 1, 20)",
            )  # fmt: skip
            recorder, one, two = self.two(driver)
            for connection in (one, two):
                self.assertEqual(len(ask(connection, "SELECT v FROM t WHERE id = 1")), 2)
            ask(one, "UPDATE t SET v = v + 1 WHERE id = 1")
            one.commit()
            ask(two, "UPDATE t SET v = 0 WHERE id = 1 AND at = '2023-05-05'")
            two.commit()
            self.assertIn("  1 UPDATE 2", self.lines())
            self.all_said(recorder, "no")
            connection = self.recorder().wrap(self.raw(driver))
            with self.assertWarnsRegex(RecordingWarning, "table late isn't recorded"):
                do(connection, "UPDATE late SET v = 0")
                connection.commit()

    def test_columns_that_cant_be_said_are_passed_over(self) -> None:
        for driver in self.each():
            self.make(
                "CREATE TABLE t (id int PRIMARY KEY, v int, twice int GENERATED ALWAYS AS (v * 2) STORED, span interval, box point)", "INSERT INTO t (id, v) VALUES (1, 10), (2, 20)",
            )  # fmt: skip
            recorder, one, two = self.two(driver)
            ask(one, "INSERT INTO t VALUES (3, 30, DEFAULT, '1 day', NULL)")
            ask(one, "UPDATE t SET v = 5, span = '2 days' WHERE id = 1")
            self.assertEqual(ask(one, "SELECT v FROM t WHERE id = 1"), [(5,)])
            one.commit()
            self.assertEqual(dict(recorder.left_out), {})
            for connection in (one, two):
                ask(connection, "SELECT twice FROM t WHERE id = 2")
            ask(one, "SELECT id FROM t WHERE twice > 5")
            ask(one, "UPDATE t SET v = 1 WHERE id = 2")
            one.commit()
            ask(two, "UPDATE t SET v = 2 WHERE id = 2")  # a lost update
            two.commit()
            ask(two, "UPDATE t SET v = 1 WHERE span IS NULL")
            two.commit()
            self.assertEqual(recorder.left_out["what an UPDATE has read: other conditions"], 1)
            told = [line for line in self.comments().split("\n") if line.startswith("-- Column")]
            self.assertEqual(told, [f"-- Column {name} of table t isn't recorded: it {why}." for name, why in (("twice", "is generated"), ("span", "is of type interval"), ("box", "is of type point"))])
            self.assertEqual(recorder.left_out["column twice of table t is generated"], 2)

    def test_values_that_cant_be_said_at_the_beginning(self) -> None:
        for driver in self.each():
            self.make("CREATE TABLE t (id int PRIMARY KEY, until date, v int)", "INSERT INTO t VALUES (1, 'infinity', 10)")
            recorder, one, _ = self.two(driver)
            ask(one, "UPDATE t SET v = 11 WHERE id = 1")
            one.commit()
            self.assertIn("-- Column until of table t isn't recorded: it has a value that can't be said", self.comments())
            self.all_said(recorder, "yes")

    TRIGGER = "CREATE FUNCTION twice() RETURNS trigger LANGUAGE plpgsql AS 'DECLARE n int := 2; BEGIN NEW.v = n * NEW.v; RETURN NEW; END'"

    def test_a_trigger_that_sets_columns(self) -> None:
        for driver in self.each():
            self.make(
                "CREATE TABLE t (id int PRIMARY KEY, v int, w text)", "INSERT INTO t VALUES (1, 10, 'a')",
                "CREATE FUNCTION tells() RETURNS trigger LANGUAGE plpgsql AS $$BEGIN -- it tells\n NEW.w := 'v ' || NEW.v; RETURN NEW; END$$",
                "CREATE TRIGGER b BEFORE INSERT OR UPDATE ON t FOR EACH ROW EXECUTE FUNCTION tells()",
            )  # fmt: skip
            recorder, one, _ = self.two(driver)
            do(one, "UPDATE t SET v = v + 1 WHERE id = 1")
            do(one, "INSERT INTO t (id, v) VALUES (2, 20)")
            do(one, "DELETE FROM t WHERE id = 2")
            one.commit()
            self.assertEqual(
                [line for line in self.lines() if line.startswith(("> 1 UPDATE", "> 1 INSERT", "> 1 DELETE"))][1:],
                ["> 1 UPDATE t SET v = v + 1, w = 'v 11' WHERE id = 1;", "> 1 INSERT INTO t VALUES (2, 20, 'v 20');", "> 1 DELETE FROM t WHERE id = 2;"],
            )
            self.assertEqual(dict(recorder.left_out), {"what an UPDATE has read: what it assigns": 1})  # it reads v
            self.assertEqual(recorder.verdict().answer, "yes")

    def test_which_triggers_are_known_to_set_columns_alone(self) -> None:
        rows, writes = 1 + 2 + 4 + 16, frozenset(("insert", "update"))
        for body, columns, reads in (
            ("BEGIN NEW.changed = now(); RETURN NEW; END;", ("changed",), False), ("begin new.a := 1; new.B := new.c + 1; return new; end", ("a", "b"), True),
            ('BEGIN NEW."A" := 1; RETURN NEW; END', ("A",), False), ("BEGIN RETURN NEW; END", None, False), ("BEGIN NEW.a := 1; RETURN OLD; END", None, False),
            ("BEGIN NEW.a := 1; RETURN NULL; END", None, False), ("BEGIN NEW.a := (SELECT max(v) FROM t); RETURN NEW; END", None, False),
            ("BEGIN PERFORM f(); NEW.a := 1; RETURN NEW; END", None, False), ("BEGIN IF NEW.a = 1 THEN NEW.a := 2; END IF; RETURN NEW; END", None, False),
            ("BEGIN NEW := OLD; RETURN NEW; END", None, False), ("BEGIN UPDATE t SET v = 1; RETURN NEW; END", None, False), ("DECLARE x int; BEGIN NEW.a := 1; RETURN NEW; END", None, False),
            ("BEGIN NEW.a := 1 INTO x; RETURN NEW; END", None, False),
        ):  # fmt: skip
            found = setter_of("b", rows, writes, True, "plpgsql", body)
            self.assertEqual(None if found is None else (found.columns, found.reads), None if columns is None else (columns, reads), body)
        body = "BEGIN NEW.a := lower(NEW.b); RETURN NEW; END"
        for bits, is_always, language in ((rows - 1, True, "plpgsql"), (rows - 2, True, "plpgsql"), (rows + 8, True, "plpgsql"), (rows, False, "plpgsql"), (rows, True, "sql")):
            self.assertIsNone(setter_of("b", bits, writes, is_always, language, body))
        known = setter_of("b", rows, writes, True, "plpgsql", body)
        self.assertEqual([known is not None and known.is_quiet(frozenset(reading)) for reading in (("lower",), ())], [True, False])

    def test_triggers_matter_where_the_table_is_written(self) -> None:
        for driver in self.each():
            self.make(
                "CREATE TABLE t (id int PRIMARY KEY, v int)", "INSERT INTO t VALUES (1, 10)", self.TRIGGER, "CREATE TRIGGER b BEFORE UPDATE ON t FOR EACH ROW EXECUTE FUNCTION twice()",
                "CREATE TRIGGER off BEFORE INSERT ON t FOR EACH ROW EXECUTE FUNCTION twice()", "ALTER TABLE t DISABLE TRIGGER off",
            )  # fmt: skip
            recorder, one, _ = self.two(driver)
            self.assertEqual(ask(one, "SELECT v FROM t WHERE id = 1"), [(10,)])
            ask(one, "INSERT INTO t VALUES (2, 20)")
            ask(one, "DELETE FROM t WHERE id = 2")
            one.commit()
            self.assertEqual(recorder.ended, None)
            with self.assertWarnsRegex(RecordingWarning, "table t can't be written, it has trigger b, which may write"):
                do(one, "UPDATE t SET v = 5 WHERE id = 1")
                one.commit()

    def test_a_trigger_that_is_known_to_write_nothing(self) -> None:
        for driver in self.each():
            self.make(
                "CREATE TABLE t (id int PRIMARY KEY, v int)", "CREATE FUNCTION tell() RETURNS trigger LANGUAGE plpgsql AS 'BEGIN NOTIFY changed; RETURN NULL; END'",
                "CREATE TRIGGER n AFTER INSERT ON t EXECUTE FUNCTION tell()",
            )  # fmt: skip
            recorder = self.recorder(reading=["tell"])
            connection = recorder.wrap(self.raw(driver, True))
            ask(connection, "INSERT INTO t VALUES (1, 10)")
            self.all_said(recorder, "yes")


FAMILY = (
    "CREATE TABLE p (id int PRIMARY KEY, v int)", "CREATE TABLE c (id int PRIMARY KEY, p int DEFAULT 9 REFERENCES p ON DELETE {action} ON UPDATE CASCADE, v int)",
    "INSERT INTO p VALUES (1, 10), (2, 20), (9, 90)", "INSERT INTO c VALUES (1, 1, 0), (2, 1, 0), (3, 2, 0)",
)  # fmt: skip


@unittest.skipUnless(drivers(), "PostgreSQL or psycopg2 isn't there (Debian: postgresql, python3-psycopg2)")
class References(Recorded):
    def family(self, action: str, *more: str) -> None:
        self.make(*[text.format(action=action) for text in FAMILY], *more)

    def test_what_a_foreign_key_changes_is_said(self) -> None:
        for driver in self.each():
            for action, said in (
                ("CASCADE", "DELETE FROM c WHERE p = 1;"), ("SET NULL", "UPDATE c SET p = NULL WHERE p = 1;"), ("SET DEFAULT", "UPDATE c SET p = 9 WHERE p = 1;"),
            ):  # fmt: skip
                self.family(action)
                recorder, one, two = self.two(driver, ["p", "c"])
                ask(one, "DELETE FROM p WHERE id = 1")
                ask(one, "DELETE FROM p WHERE id = 77")
                one.commit()
                ask(two, "SELECT * FROM c")
                two.commit()
                self.assertIn("> 1 " + said, self.lines())
                self.assertIn(f"  1 {said.split()[0]} 2", self.lines())
                self.all_said(recorder, "yes")

    def test_an_anomaly_by_a_foreign_key_is_found(self) -> None:
        for driver in self.each():
            self.family("CASCADE")
            recorder, one, two = self.two(driver, ["p", "c"])
            for connection in (one, two):
                ask(connection, "SELECT * FROM c WHERE p = 1")
                ask(connection, "SELECT * FROM c WHERE p = 2")
            ask(one, "DELETE FROM p WHERE id = 1")
            ask(two, "DELETE FROM p WHERE id = 2")
            one.commit()
            two.commit()
            self.all_said(recorder, "no")

    def test_conditions_that_name_no_key(self) -> None:
        for driver in self.each():
            self.family("CASCADE")
            recorder, one, two = self.two(driver, ["p", "c"])
            ask(one, "DELETE FROM p WHERE v > 50")
            ask(one, "DELETE FROM p WHERE v < 15")
            one.commit()
            self.assertEqual(ask(two, "SELECT id FROM c"), [(3,)])
            two.commit()
            for lines in (["> 1 DELETE FROM c WHERE p = 9;", "  1 DELETE 0"], ["> 1 DELETE FROM c WHERE p = 1;", "  1 DELETE 2"]):
                at = self.lines().index(lines[0])
                self.assertEqual(self.lines()[at : at + 2], lines)
            self.all_said(recorder, "yes")
            self.family("CASCADE")
            with self.assertWarnsRegex(RecordingWarning, "a foreign key changes rows of table c, and nobody tells with which others"):
                do(self.recorder(["p", "c"]).wrap(self.raw(driver)), "DELETE FROM p WHERE v < 25")

    def test_what_nobody_tells(self) -> None:
        for driver in self.each():
            for more, connects, told in (
                ((), True, "nobody tells how many rows"), (("CREATE TABLE d (id int PRIMARY KEY, c int REFERENCES c ON DELETE CASCADE)",), False, "table d changes rows"),
                ((Keys.TRIGGER, "CREATE TRIGGER x BEFORE DELETE ON c FOR EACH ROW EXECUTE FUNCTION twice()"), False, "it has trigger x"),
            ):  # fmt: skip
                self.family("CASCADE", *more)
                recorder = self.recorder(["p", "c", "d"] if len(more) == 1 else ["p", "c"])
                connection = recorder.wrap(self.raw(driver, connects))
                with self.assertWarnsRegex(RecordingWarning, told):
                    do(connection, "DELETE FROM p WHERE id = 1")
            self.family("CASCADE")
            with self.assertWarnsRegex(RecordingWarning, "a foreign key of table c changes rows with those of table p"):
                do(self.recorder(["p", "c"]).wrap(self.raw(driver)), "UPDATE p SET id = 5 WHERE id = 1")

    def test_an_upsert_is_an_update_too(self) -> None:
        for driver in self.each():
            upsert = "INSERT INTO p VALUES (1, 1) ON CONFLICT (id) DO UPDATE SET v = 5"
            tell = "CREATE FUNCTION tell() RETURNS trigger LANGUAGE plpgsql AS 'BEGIN RETURN NULL; END'"
            self.family("CASCADE", tell, "CREATE TRIGGER told AFTER UPDATE ON p EXECUTE FUNCTION tell()")
            with self.assertWarnsRegex(RecordingWarning, "it has trigger told"):
                do(self.recorder(["p", "c"]).wrap(self.raw(driver)), upsert)
            self.family("CASCADE", "ALTER TABLE c DROP COLUMN p", "ALTER TABLE p ADD UNIQUE (v)", "ALTER TABLE c ADD p int REFERENCES p (v) ON UPDATE CASCADE")
            with self.assertWarnsRegex(RecordingWarning, "a foreign key of table c changes rows"):
                do(self.recorder(["p", "c"]).wrap(self.raw(driver)), upsert)

    def test_tables_between(self) -> None:
        for driver in self.each():
            self.family("CASCADE", "CREATE TABLE d (id int PRIMARY KEY, c int REFERENCES c ON DELETE CASCADE)")
            connection = self.recorder(["p", "d"]).wrap(self.raw(driver))
            with self.assertWarnsRegex(RecordingWarning, "a foreign key of table c changes rows with those of table p"):
                do(connection, "DELETE FROM p WHERE id = 1")
            connection.rollback()
            connection = self.recorder(["d"], ignoring=["p"]).wrap(self.raw(driver))
            with self.assertWarns(RecordingWarning):
                do(connection, "DELETE FROM p WHERE id = 1")

    def test_foreign_keys_that_are_disabled(self) -> None:
        for driver in self.each():
            self.family("CASCADE", "ALTER TABLE p DISABLE TRIGGER ALL")
            with self.assertWarnsRegex(RecordingWarning, "a foreign key of table c changes rows"):
                do(self.recorder(["p", "c"]).wrap(self.raw(driver)), "DELETE FROM p WHERE id = 1")

    def test_other_tables_than_are_recorded(self) -> None:
        for driver in self.each():
            self.family("CASCADE")
            recorder = self.recorder(["p"])
            connection = recorder.wrap(self.raw(driver))
            ask(connection, "DELETE FROM p WHERE id = 1")
            connection.commit()
            self.all_said(recorder, "yes")

    def test_keys_of_several_columns(self) -> None:
        for driver in self.each():
            self.make(
                "CREATE TABLE p (a int, b text, PRIMARY KEY (a, b))", "CREATE TABLE c (id int PRIMARY KEY, b text, a int, FOREIGN KEY (a, b) REFERENCES p ON DELETE CASCADE)",
                "INSERT INTO p VALUES (1, 'x'), (1, 'y')", "INSERT INTO c VALUES (1, 'x', 1), (2, 'y', 1)",
            )  # fmt: skip
            recorder, one, _ = self.two(driver, ["p", "c"])
            ask(one, "DELETE FROM p WHERE b = 'x' AND a = 1")
            one.commit()
            self.assertIn("> 1 DELETE FROM c WHERE a = 1 AND b = 'x';", self.lines())
            self.all_said(recorder, "yes")


if __name__ == "__main__":
    unittest.main()
