"""Dumps of which a line is turned, and dumps with lines of 100 MB: by any number of workers, and opened by a script."""

import os
import tempfile
from typing import Iterable, List, Union

from tests.room import Room

# The example of docs/DUMPS.md, and the same in version 1.
WHOLE = """-- dump 2
CREATE TABLE p (id bigint PRIMARY KEY, name text NOT NULL);
CREATE TABLE c (id bigint PRIMARY KEY, p bigint REFERENCES p, raw bytea);
COPY p (id, name) FROM stdin;
1\ta
2\tx\\ty
\\.
-- rows 2
COPY c (id, p, raw) FROM stdin;
-5\t2\t\\\\x00ff
7\t\\N\t\\N
\\.
-- rows 2
-- end
"""
FIRST = WHOLE.replace("-- dump 2", "-- dump 1").replace("-- rows 2\n", "")
TEXTS = b"-- dump 2\nCREATE TABLE t (id text PRIMARY KEY);\nCOPY t (id) FROM stdin;\n"
NUMBERS = TEXTS.replace(b"id text", b"id bigint")
LONG, KEY = 100_000_000, 10_000_000  # bytes of a line, and of a key
ROOM = 300_000_000  # bytes of the disk that these take
NO_ROOM = "the folder of temporary files has no room for 300 MB (TMPDIR names another)"


def turned(dump: str, number: int, line: str) -> str:
    """A dump with this line as its number-th."""
    lines = dump.split("\n")
    return "\n".join([*lines[: number - 1], line, *lines[number:]])


def two_thousand(*rows: Union[int, str]) -> str:
    """A dump of a table of 2000 rows, of which the 1000th and the 1001st are these."""
    lines: List[Union[int, str]] = [*range(1, 1000), *rows, *range(1002, 2001)]
    return "-- dump 1\nCREATE TABLE t (id bigint PRIMARY KEY);\nCOPY t (id) FROM stdin;\n" + "".join(f"{line}\n" for line in lines) + "\\.\n-- end\n"


def columns(number: int) -> str:
    return "".join(f", c{each} text" for each in range(1, number + 1))


def tables(number: int) -> str:
    return "-- dump 2\n" + "".join(f"CREATE TABLE t{each} (id bigint PRIMARY KEY);\n" for each in range(1, number + 1))


def end(rows: int) -> bytes:
    return b"\n\\.\n-- rows %d\n-- end\n" % rows


class Turned(Room):
    """Dumps that are refused at a line."""

    def refused(self, line: int, code: str, dump: Union[str, Iterable[bytes]]) -> None:
        with open(self.path("turned"), "wb") as file:
            file.writelines([dump.encode()] if isinstance(dump, str) else dump)
        self.write("opens", "OPEN turned;\n1 BEGIN;\n")
        self.ends(1, f"dump line {line}: {code}", "", "run", "opens")
        for jobs in ("1", "2", "8"):
            self.ends(1, f"dump line {line}: {code}", "", "restore", "turned", "--jobs", jobs, "--out", "out")

    def test_the_example_is_restored(self) -> None:
        for dump in (WHOLE, FIRST):
            self.write("example", dump)
            for jobs in ("1", "2", "8"):
                self.ends(0, "", "RESTORE 2 tables 4 rows\n", "restore", "example", "--jobs", jobs, "--out", "out")
                self.is_text("out", WHOLE)
        self.write("opens", "OPEN example;\n1 BEGIN;\n1 SELECT count(*) FROM c WHERE p IS NULL;\n")
        self.ends(0, "", "1 BEGIN\n1 SELECT 1\n1 | 1\n", "run", "opens")

    def test_lines_of_the_example(self) -> None:
        for dump, number, code, line in (
            (WHOLE, 1, "22P04", "-- dump 3"), (WHOLE, 2, "54000", f"CREATE TABLE p (id bigint PRIMARY KEY{columns(32)});"),
            (WHOLE, 2, "22P04", "CREATE TABLE p (id bigint PRIMARY KEY, select text NOT NULL);"),
            (WHOLE, 2, "22P04", f"CREATE TABLE {'n' * 64} (id bigint PRIMARY KEY);"), (WHOLE, 5, "22P04", "\\"), (WHOLE, 5, "22P04", "\t" * 1_000_000),
            (WHOLE, 8, "22P04", "COPY p (id, name) FROM stdin;"), (WHOLE, 9, "22P04", "COPY c (id, p, raw) FROM stdin;\r"), (WHOLE, 11, "23503", "7\t3\t\\N"),
            (WHOLE, 6, "23502", "2\t\\N"), (WHOLE, 5, "23502", "\\N\ta"), (FIRST, 6, "23502", "2\t\\N"), (WHOLE, 6, "23505", "1\tb"),
            (WHOLE, 10, "22P02", "-5\t2\t\\\\x00f"), (WHOLE, 11, "22P02", "7a\t\\N\t\\N"), (WHOLE, 8, "22P04", "-- rows 3"), (WHOLE, 13, "22P04", "-- rows 1"),
            (FIRST, 1, "22P04", "-- dump 3"), (FIRST, 8, "22P04", "COPY p (id, name) FROM stdin;"), (FIRST, 9, "22P04", "-5\t2\t\\\\x00ff\r"),
        ):
            self.refused(number, code, turned(dump, number, line))

    def test_a_line_behind_the_end(self) -> None:
        self.refused(15, "22P04", f"{WHOLE}\n")
        self.refused(13, "22P04", f"{FIRST}\n")

    def test_rows_of_two_pieces(self) -> None:
        self.refused(1003, "23505", two_thousand(7, "x"))
        self.refused(1004, "23505", two_thousand(1000, 1000))
        self.refused(1003, "22003", two_thousand(9223372036854775808, 7))

    def test_too_many_tables_and_columns(self) -> None:
        self.refused(258, "54000", tables(257))
        self.refused(258, "54000", tables(100_000))
        self.refused(2, "54000", f"-- dump 2\nCREATE TABLE t (id bigint PRIMARY KEY{columns(100_000)});\n")

    def has_room(self) -> bool:
        disk = os.statvfs(tempfile.gettempdir())
        return disk.f_bavail * disk.f_frsize >= ROOM

    def test_long_lines_are_refused(self) -> None:
        if not self.has_room():
            self.skipTest(NO_ROOM)
        self.refused(1, "22P04", [b"-- dump 2", b" " * LONG])
        self.refused(4, "22003", [NUMBERS, b"1" * LONG, end(1)])
        self.refused(4, "22P04", [NUMBERS, b"\t" * LONG, end(1)])
        self.refused(5, "23505", [TEXTS, b"k" * KEY, b"\n", b"k" * KEY, end(2)])

    def test_long_keys_are_restored(self) -> None:
        if not self.has_room():
            self.skipTest(NO_ROOM)
        long = self.write("long", TEXTS + b"k" * KEY + b"\n" + b"k" * (KEY + 1) + end(2))
        for jobs in ("1", "2", "8"):
            self.ends(0, "", "RESTORE 1 tables 2 rows\n", "restore", long, "--jobs", jobs, "--out", "out")
            self.same("whether it is written as it was", True, self.read("out") == self.read("long"))
