"""Tests of values as a transcript has them, beside PostgreSQL: values stand alike where the database finds them equal, in its order
where that is said, and whatever the driver shows of one stands as its text does.

    PGSERIAL_DSN=.. python3 clients/python/test_recorded_values.py
"""

import unittest
from typing import Any, Dict, List, Sequence, Tuple

from pgserial import BIGINT, TEXT
from pgserial.catalog import Table
from pgserial.kinds import Form
from pgserial.postgres_catalog import postgres_tables
from pgserial.values import Plain, Unsaid, plain
from test_recording import OnPostgres, drivers

# Types, and texts that PostgreSQL reads as values of them.
VALUES: Dict[str, Sequence[str]] = {
    "boolean": ("t", "true", "TRUE", " yes ", "on", "1", "f", "false", "no", "off", "0", "tru", "n"),
    "date": (
        "2024-02-29", "2024-03-01", "1970-01-01", "1969-12-31", "0001-01-01", "9999-12-30", "9999-12-31", "infinity", "-infinity", "20240229", "2024-2-29",
        "Feb 29 2024", "29/02/2024", "epoch", "0044-03-15 BC", " 2024-02-29 ", "10000-01-01",
    ),
    "timestamp": (
        "2024-02-29", "2024-02-29 00:00", "2024-02-29 00:00:00.000", "2024-02-29T00:00:00", "2024-02-29 00:00:00.000001", "2024-02-29 00:00:00.0000014", "2024-02-29 24:00:00",
        "2024-02-29 23:59:60", "2024-02-29 00:00+05", "infinity", "1969-12-31 23:59:59.999999", "0001-01-01 00:00:00", "epoch",
    ),
    "timestamptz": (
        "2024-02-29 00:00+00", "2024-02-29T00:00Z", "2024-02-28 19:00-05", "2024-02-29 05:30+05:30", "2024-02-29 05:30+0530", "2024-02-29 05:30:15+05:30:15", "2024-02-29 00:00 UTC",
        "2024-02-29", "2024-02-29 00:00:00.000001+00", "-infinity", "2024-02-29 00:00:00 +00", "2024-02-28 12:00-12", "1969-12-31 23:00:00-01", "2024-02-29 00:00:00 America/New_York",
    ),
    "time": ("00:00", "00:00:00", "00:00:00.0", "24:00", "23:59:59.999999", "01:02:03.4", "01:02:03.400", "0102", "1:02 AM", "01:02", "23:59:60", "allballs"),
    "numeric": (
        "0", "-0", "0.0", "1", "1.0", "+1", "1e0", "10e-1", ".5", "0.50", "-0.5", "1e10", "10000000000", "NaN", "nan", "Infinity", "inf", "-inf", "1e-30", "123456789012345678901234567890.10",
        "123456789012345678901234567890.1", "  2  ", "0x10", "1_000",
    ),
    "numeric(12,2)": ("0", "-0.00", "1.5", "1.50", "1.500", "1.505", "-3", "9999999999.99", "1e3", "1000", "NaN", "0.01", "-0.01"),
    "double precision": ("0", "-0", "0.1", "0.10", "1e-1", "0.1000000000000000055511151231257827", "0.30000000000000004", "0.3", "NaN", "Infinity", "-Infinity", "1e308", "1e-320", "5e-324", "1", "1.0"),
    "real": ("0", "-0", "0.1", "0.10", "0.100000001", "0.1000000015", "16777216", "16777217", "16777218", "NaN", "Infinity", "1e38", "1e-40", "3.4028235e38"),
    "uuid": ("12345678-1234-5678-1234-567812345678", "12345678123456781234567812345678", "{12345678-1234-5678-1234-567812345678}", "1234-5678-1234-5678-1234-5678-1234-5678", "ABCDEF00-0000-0000-0000-000000000000", "abcdef00-0000-0000-0000-000000000000"),
    "jsonb": (
        "1", "1.0", "1.00", "1e0", "10e-1", "-0", "0", "0.1", "0.10", "0.1000000000000000055511151231257827", '"1"', '"\\u0031"', "null", "true", "[]", "{}", '{"a":1,"b":2}', '{"b":2,"a":1}',
        '{"a":1,"a":3}', '{"a":3}', '[1,[2.0]]', "[1, [2]]", '"é"', '"\\u00e9"', '"a\\nb"', "1e400", "12345678901234567890123", "12345678901234567890123.0", '{"bb":1,"a":2}', '"\\\\"',
    ),
    "char(5)": ("ab", "ab ", "ab   ", "abc", "", "     ", "défgh", "AB"),
    "inet": ("10.0.0.1", "10.0.0.1/32", "10.0.0.1/8", "10.0.0.0/8", "::1", "0:0:0:0:0:0:0:1", "::1/128", "::ffff:1.2.3.4", "::ffff:102:304", "2001:DB8::1", "2001:db8::1/64", "10.0.0.1/08"),
    "cidr": ("10.0.0.0/8", "10.0.0.0", "10.0.0.0/32", "10/8", "10", "192.168/16", "::/0", "2001:db8::/32", "2001:DB8:0::/32"),
    "macaddr": ("08:00:2b:01:02:03", "08-00-2b-01-02-03", "08002b:010203", "08002B010203", "08:00:2B:01:02:03", "08:00:2b:01:02:04", "ff:00:2b:01:02:04"),
    "int[]": ("{1,2}", "{ 1, 2 }", "{1,NULL}", "{}", "{{1},{2}}", "[2:3]={1,2}", "[1:2]={1,2}", '{"1","2"}', "{1,null}"),
    "text[]": ("{a}", '{"a"}', "{ a }", '{" a"}', '{"NULL"}', "{NULL}", "{null}", '{""}', "{}", '{"a,b"}', "{a,b}", '{"a\\"b"}', "{a\\\"b}", '{"\\\\"}', "{{a,b},{c,d}}", "{a b}", '{"{}"}'),
    "numeric(5,1)[]": ("{1,2.0}", "{1.0,2}", "{1.05}", "{1.1}", "{NaN}", "{}"),
    "uuid[]": ("{12345678-1234-5678-1234-567812345678}", "{12345678123456781234567812345678,NULL}", "{}", "{{12345678-1234-5678-1234-567812345678}}"),
    "date[]": ("{2024-02-29}", '{"2024-02-29",NULL}', "{infinity}", "{}", "{{2024-02-29},{2024-02-28}}"),
    "boolean[]": ("{t,f}", "{true,false}", "{NULL,t}", "{}"),
    "mood[]": ("{glad,sad}", '{"glad","it\'s"}', "{}", "{NULL}"),
}  # fmt: skip
# What a driver shows as it shows another value: a time of 24:00 as 00:00, an array without its bounds. Only a statement whose
# text or value isn't said brings these in, and what that has written is read as a text.
ALIKE = frozenset(("24:00", "23:59:60", "[2:3]={1,2}"))
# Texts of which nobody needs to know what they stand for; of all others it is known.
UNSURE = frozenset(
    "tru|n|24:00|9999-12-31|0001-01-01|infinity|-infinity|20240229|2024-2-29|Feb 29 2024|29/02/2024|epoch|0044-03-15 BC|10000-01-01|2024-02-29 00:00:00.0000014|2024-02-29 24:00:00|2024-02-29 23:59:60"
    "|2024-02-29 00:00+05|0001-01-01 00:00:00|2024-02-29|2024-02-29 00:00:00 America/New_York|0102|1:02 AM|23:59:60|allballs|0x10|1_000|1.505|NaN|0.1000000000000000055511151231257827|16777217"
    '|1234-5678-1234-5678-1234-5678-1234-5678|{"a":1,"a":3}|1e400|10.0.0.1/08|10/8|10|192.168/16|08-00-2b-01-02-03|08002b:010203|08002B010203|[2:3]={1,2}|[1:2]={1,2}|{1.05}|{NaN}|{infinity}|12345678901234567890123.0|{a\\"b}'.split("|")
)  # fmt: skip


def stands(kind: Any, value: object) -> Any:
    """What stands for a value; None where nothing surely does."""
    try:
        said = plain(kind, value)
        return kind.stored(said) if isinstance(kind, Form) else said
    except Unsaid:
        return None


@unittest.skipUnless(drivers(), "PostgreSQL or psycopg2 isn't there (Debian: postgresql, python3-psycopg2)")
class Values(OnPostgres):
    def kept(self, driver: Any, type_name: str) -> Tuple[Table, Any, List[str]]:
        """A table that has each text's value once, and the texts that the database reads."""
        self.make("CREATE TYPE mood AS ENUM ('glad', 'sad', 'it''s')", f"CREATE TABLE t (id int PRIMARY KEY, v {type_name})")
        raw = self.raw(driver, True)
        cursor = raw.cursor()
        texts: List[str] = []
        for text in VALUES[type_name]:
            try:
                cursor.execute("INSERT INTO t VALUES (%s, %s)", (len(texts), text))
                texts.append(text)
            except driver.DataError:  # of older versions, or of none
                pass

        def ask(query: str) -> Any:
            cursor.execute(query)
            return cursor.fetchall()

        return postgres_tables(ask, {"t": None})[0], ask, texts

    def test_equal_values_stand_alike_and_others_dont(self) -> None:
        driver = drivers()[0]
        for type_name in VALUES:
            table, ask, texts = self.kept(driver, type_name)
            kind = table.columns[1].kind
            said = [stands(kind, text) for text in texts]
            with self.subTest(type_name):
                self.assertEqual([text for text, each in zip(texts, said) if each is None and text not in UNSURE], [])
                self.assertGreater(len([each for each in said if each is not None]), 3)
            is_ordered = kind in (BIGINT, TEXT) or (isinstance(kind, Form) and kind.is_ordered)
            for one, other, are_equal, is_less in ask("SELECT a.id, b.id, a.v = b.v, a.v < b.v FROM t a, t b"):
                if said[one] is None or said[other] is None:
                    continue
                with self.subTest(type_name, one=texts[one], other=texts[other]):
                    self.assertEqual(said[one] == said[other], are_equal)
                    if is_ordered:
                        self.assertEqual(said[one] < said[other], is_less)

    def test_what_a_driver_shows_stands_as_the_text_does(self) -> None:
        for driver in drivers():
            for type_name in VALUES:
                table, ask, texts = self.kept(driver, type_name)
                kind = table.columns[1].kind
                if type_name == "jsonb":  # of which drivers show other values, that stand in test_recorded_kinds.py
                    continue
                for key, shown in self.shown(ask, len(texts)):
                    if texts[key] in ALIKE:
                        continue
                    own = stands(kind, shown)
                    written: Plain = stands(kind, ask(f"SELECT v::text FROM t WHERE id = {key}")[0][0])
                    with self.subTest(type_name, text=texts[key], shown=shown, driver=driver.__name__):
                        self.assertIn(own, (written, None))
                        if stands(kind, texts[key]) is not None:
                            self.assertEqual(written, stands(kind, texts[key]))
                            if texts[key] != "0001-01-01 00:00:00":  # which a driver shows for infinity too
                                self.assertEqual(own, written)

    def shown(self, ask: Any, count: int) -> List[Tuple[int, Any]]:
        """The values that a driver shows; some drivers can't show all."""
        found = []
        for key in range(count):
            try:
                found.append((key, ask(f"SELECT v FROM t WHERE id = {key}")[0][0]))
            except Exception:  # the driver's, of dates beyond Python's
                continue
        return found


if __name__ == "__main__":
    unittest.main()
