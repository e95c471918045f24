"""The databases on which random recordings are made: sqlite3 in a file, and a server of PostgreSQL by either driver."""

import contextlib
import importlib
import os
import random
import shutil
import sqlite3
from typing import Any, Dict, List, Optional, Sequence, Tuple

from random_forms import register

RECORDED: Dict[str, Any] = {"t": ["id", "v", "w", "name"], "u": None, "k": None, "c": None}
COLUMNS = {"t": ("id", "v", "w", "name"), "u": ("id", "v", "user")}  # the key first, as a transcript has them
_ROWS = "INSERT INTO t (id, v, w, name) VALUES (1, 1, 2, 'x'), (2, 2, 3, 'y'), (3, NULL, 2, NULL), (4, 5, 5, 'x')"
_MORE = (
    "INSERT INTO u (v) VALUES (7), (2), (NULL); INSERT INTO k (a, b, done, price, day) VALUES (1, 'x', true, 1.50, '2024-02-29'), (2, 'x', false, NULL, NULL); "
    "INSERT INTO k (a, b, at, data, tag) VALUES (2, 'y ''z', '2024-03-01 10:00:00.000005+00', '{\"a\": 1}', '12345678-9abc-def0-1234-56789abcdef0'); "
    "INSERT INTO c (a, b, n) VALUES (1, 'x', 1), (2, 'y ''z', 0), (1, 'x', 2)"
)

_SQLITE = f"""
CREATE TABLE t (id INTEGER PRIMARY KEY, v BIGINT CHECK (v < 1000), w INT NOT NULL DEFAULT -5, name TEXT DEFAULT 'x', extra NUMERIC);
CREATE TABLE u (id INTEGER PRIMARY KEY, v BIGINT, "user" VARCHAR(9) DEFAULT 'me');
CREATE TABLE k (a INT NOT NULL, b TEXT NOT NULL, done BOOLEAN, price NUMERIC, day DATE, at DATETIME, data TEXT, tag TEXT, PRIMARY KEY (a, b));
CREATE TABLE c (id INTEGER PRIMARY KEY, a INT, b TEXT, n BIGINT, FOREIGN KEY (a, b) REFERENCES k ON DELETE CASCADE);
CREATE TABLE plain (id INTEGER PRIMARY KEY, v BIGINT);
CREATE TABLE log (id INTEGER PRIMARY KEY, note TEXT);
CREATE TABLE noisy (id INTEGER PRIMARY KEY, note TEXT);
CREATE TRIGGER noise AFTER INSERT ON noisy BEGIN UPDATE t SET v = 77 WHERE id = 2; END;
{_ROWS}; {_MORE};
"""

_POSTGRES = (
    "DROP SCHEMA IF EXISTS o CASCADE", "DROP SCHEMA public CASCADE", "CREATE SCHEMA public", "CREATE SCHEMA o",
    "CREATE TABLE t (id int PRIMARY KEY, v bigint CHECK (v < 1000), w bigint NOT NULL DEFAULT -5, name text DEFAULT 'x', extra numeric)",
    'CREATE TABLE u (id bigserial PRIMARY KEY, v bigint, "user" varchar(9) DEFAULT \'me\')',
    "CREATE TABLE k (a int, b text, done boolean, price numeric(9, 2), day date, at timestamptz, data jsonb, tag uuid, PRIMARY KEY (a, b))",
    "CREATE TABLE c (id bigserial PRIMARY KEY, a int, b text, n bigint, FOREIGN KEY (a, b) REFERENCES k ON DELETE CASCADE)",
    "CREATE TABLE o.t (LIKE t INCLUDING ALL)", "CREATE TABLE plain (id serial PRIMARY KEY, v bigint)",
    "CREATE TABLE log (id serial PRIMARY KEY, note text)", "CREATE TABLE noisy (id serial PRIMARY KEY, note text)",
    "CREATE FUNCTION noise() RETURNS trigger LANGUAGE plpgsql AS 'BEGIN UPDATE t SET v = 77 WHERE id = 2; RETURN NEW; END'",
    "CREATE TRIGGER noise AFTER INSERT ON noisy FOR EACH ROW EXECUTE FUNCTION noise()",
    "CREATE FUNCTION f_write(bigint) RETURNS bigint LANGUAGE plpgsql AS 'BEGIN UPDATE t SET w = w + 1 WHERE id = $1; RETURN 1; END'",
    "CREATE FUNCTION f_write(int) RETURNS bigint LANGUAGE sql AS 'SELECT f_write($1::bigint)'",
    "CREATE FUNCTION f_read(int) RETURNS bigint LANGUAGE sql STABLE AS 'SELECT v FROM t WHERE id = $1'",
    "CREATE FUNCTION lower(bigint) RETURNS bigint LANGUAGE sql AS 'SELECT f_write($1)'",
    "CREATE FUNCTION two(bigint, int) RETURNS bigint LANGUAGE sql AS 'SELECT f_write($2::bigint)'",
    "CREATE OPERATOR ### (LEFTARG = bigint, RIGHTARG = int, FUNCTION = two)",
    "CREATE FUNCTION debit(t) RETURNS bigint LANGUAGE sql AS 'SELECT f_write(2::bigint)'",
    "CREATE PROCEDURE p_write(int) LANGUAGE sql AS 'UPDATE t SET w = w + 1 WHERE id = $1'",
    "CREATE VIEW peek AS SELECT id, f_write(id) AS done FROM t",
    "DO 'BEGIN CREATE ROLE other_role; EXCEPTION WHEN OTHERS THEN NULL; END'",
)  # fmt: skip
_RESET = (
    "DROP TABLE IF EXISTS made, o.made; TRUNCATE t, u, k, c, o.t, plain, log, noisy RESTART IDENTITY;"
    f"{_ROWS}; {_MORE}; INSERT INTO o.t SELECT id, v + 50, w, name FROM t"
)
# What another database has, so that a read or write of it shows.
_ELSEWHERE = "UPDATE t SET v = 900 + id, w = 900; UPDATE u SET v = 900 + id"


def module(name: str) -> Any:
    """A module, where it is installed."""
    try:
        return importlib.import_module(name)
    except ImportError:
        return None


class World:
    """A database of one engine."""

    engine = ""
    mark = "?"

    def reset(self, chance: random.Random) -> None:
        """Puts the first rows in place of all that is there."""
        raise NotImplementedError

    def connect(self, chance: random.Random, level: str, is_patient: bool, has_kinds: bool = True) -> Any:
        """A connection of some mode. A patient one waits for locks; some have rows of other kinds than tuples."""
        raise NotImplementedError

    def beside(self) -> Any:
        """A connection to another database, whose tables have the same names; nothing where there is none."""
        raise NotImplementedError

    def beside_path(self) -> str:
        """The file of that, where it is one."""
        return ""

    def errors(self) -> Tuple[Any, ...]:
        """The errors that an application expects."""
        raise NotImplementedError

    def asked(self, text: str) -> List[Sequence[Any]]:
        """The rows of a query, by a connection that nothing records."""
        raise NotImplementedError

    def rows(self) -> Dict[str, List[Sequence[Any]]]:
        """What the recorded tables have."""
        names = {name: ", ".join(f'"{column}"' for column in columns) for name, columns in COLUMNS.items()}
        return {name: sorted(self.asked(f"SELECT {columns} FROM {name}")) for name, columns in names.items()}

    def close(self) -> None:
        """Ends what it has started."""


class Sqlite(World):
    """sqlite3, in a file of its own."""

    engine = "sqlite3"

    def __init__(self, folder: str) -> None:
        self._template, self.path = os.path.join(folder, "template"), os.path.join(folder, "db")
        made = sqlite3.connect(self._template)
        made.executescript(_SQLITE)
        made.close()
        self._journal = "DELETE"
        register(self.engine)

    def reset(self, chance: random.Random) -> None:
        for end in ("", "-wal", "-shm", "-journal"):
            with contextlib.suppress(FileNotFoundError):
                os.unlink(self.path + end)
        shutil.copyfile(self._template, self.path)
        self._journal = chance.choice(("DELETE", "WAL", "MEMORY"))
        other = sqlite3.connect(self.path)
        other.execute(f"PRAGMA journal_mode = {self._journal}")
        other.close()

    def connect(self, chance: random.Random, level: str, is_patient: bool, has_kinds: bool = True) -> Any:
        mode = chance.choice((None, None, "", "DEFERRED", "IMMEDIATE", "EXCLUSIVE"))
        raw = sqlite3.connect(self.path, isolation_level=mode, timeout=0.2 if is_patient else 0, check_same_thread=False)
        raw.execute("PRAGMA synchronous = OFF")
        turn = chance.random() if has_kinds else 1
        if turn < 0.1:
            raw.row_factory = sqlite3.Row
        elif turn < 0.15:
            raw.row_factory = lambda cursor, row: {column[0]: value for column, value in zip(cursor.description, row)}
        return raw

    def beside_path(self) -> str:
        return self.path + "2"

    def beside(self) -> Any:
        with contextlib.suppress(FileNotFoundError):
            os.unlink(self.beside_path())  # of which another recording may have a connection
        shutil.copyfile(self._template, self.beside_path())
        raw = sqlite3.connect(self.beside_path(), isolation_level=None)
        raw.execute("PRAGMA synchronous = OFF")
        raw.executescript(_ELSEWHERE)
        return raw

    def errors(self) -> Tuple[Any, ...]:
        return (sqlite3.Error, sqlite3.Warning)

    def asked(self, text: str) -> List[Sequence[Any]]:
        raw = sqlite3.connect(self.path)
        try:
            return _keyed(raw.execute(text).fetchall())
        finally:
            raw.close()


class Postgres(World):
    """A server of PostgreSQL, whose tables are made anew."""

    mark = "%s"

    def __init__(self, driver: Any, dsn: str, is_alone: bool) -> None:
        self.engine, self._driver, self._dsn = driver.__name__, driver, dsn
        register(self.engine)
        self._own = driver.connect(dsn)
        self._own.autocommit = True
        if not is_alone and self.asked("SELECT pg_try_advisory_lock(20000)") != [(True,)]:
            raise OSError("another machine plays on this database")
        for text in _POSTGRES:
            self._own.cursor().execute(text)
        self._beside = self._made_beside()

    def _made_beside(self) -> Optional[str]:
        """The name of another database with the same tables; nothing where none can be made."""
        name = f"{self.asked('SELECT current_database()')[0][0]}_beside"
        with contextlib.suppress(self._driver.Error):
            if not self.asked(f"SELECT 1 FROM pg_database WHERE datname = '{name}'"):
                self._own.cursor().execute(f'CREATE DATABASE "{name}"')
            other = self._driver.connect(self._dsn, dbname=name)
            other.autocommit = True
            for text in (*_POSTGRES, _RESET):
                other.cursor().execute(text)
            other.close()
            return name
        return None

    def beside(self) -> Any:
        if self._beside is None:
            return None
        raw = self._driver.connect(self._dsn, dbname=self._beside)
        raw.autocommit = True
        raw.cursor().execute(_ELSEWHERE)
        return raw

    def reset(self, chance: random.Random) -> None:
        self._own.cursor().execute(_RESET)

    def connect(self, chance: random.Random, level: str, is_patient: bool, has_kinds: bool = True) -> Any:
        wait = 300 if is_patient else 4
        isolation = level.lower().replace(" ", "\\ ")
        options = f"-c default_transaction_isolation={isolation} -c lock_timeout={wait} -c deadlock_timeout=20"
        named = self._kind(chance) if has_kinds else {}
        for _ in range(20):
            with contextlib.suppress(self._driver.OperationalError):  # to connect takes locks too
                raw = self._driver.connect(self._dsn, options=options, **named)
                raw.autocommit = chance.random() < 0.5
                return raw
        raise OSError("no connection comes about")

    def _kind(self, chance: random.Random) -> Dict[str, Any]:
        turn = chance.random()
        if self.engine == "psycopg2":
            extras = importlib.import_module("psycopg2.extras")
            kinds = {0: extras.DictCursor, 1: extras.RealDictCursor, 2: extras.NamedTupleCursor}
            return {"cursor_factory": kinds[int(turn * 20)]} if turn < 0.15 else {}
        rows = importlib.import_module("psycopg.rows")
        named: Dict[str, Any] = {"row_factory": rows.dict_row if turn < 0.05 else rows.namedtuple_row} if turn < 0.1 else {}
        if 0.1 < turn < 0.2:
            named["cursor_factory"] = importlib.import_module("psycopg").ClientCursor
        return named

    def errors(self) -> Tuple[Any, ...]:
        return (self._driver.Error,)

    def asked(self, text: str) -> List[Sequence[Any]]:
        cursor = self._own.cursor()
        cursor.execute(text)
        return _keyed(cursor.fetchall())

    def close(self) -> None:
        self._own.close()  # and the lock with it


def _keyed(rows: List[Any]) -> List[Sequence[Any]]:
    return [tuple(row) for row in rows]


def worlds(folder: str, dsn: Optional[str]) -> List[World]:
    """All that this machine has."""
    found: List[World] = [Sqlite(folder)]
    if dsn:
        for driver in (module("psycopg2"), module("psycopg")):
            if driver is not None:
                found.append(Postgres(driver, dsn, len(found) > 1))
    return found
