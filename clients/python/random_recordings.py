"""A machine that plays at random against the recorder, and knows what no verdict may be.

    PGSERIAL=path/to/pgserial python3 clients/python/random_recordings.py --count 20000 [--seed 1] [--engine sqlite3] [--jobs 1]

Each recording comes of its seed: some connections, transactions of all forms in random_forms, their steps in some order, or by
threads. At SERIALIZABLE no verdict is `no`, not even of a beginning that a killed process or a full disk leaves, and what a yes
says was done leaves the rows that the database has. At the other levels a verdict is that of all orders, tried one by one: on the
transcript, and, for statements that sqlite3 does alike, on what the application itself has seen. What fails is printed with its
seed, the fewest steps that still fail, the transcript, and what was wanted. Last it prints how often it made each form.
"""

import argparse
import collections
import contextlib
import io
import os
import random
import signal
import sqlite3
import sys
import tempfile
import threading
import time
import warnings
from dataclasses import dataclass, field, replace
from typing import Any, Callable, Counter, Dict, Iterator, List, Optional, Sequence, Tuple

import brute_force
from pgserial.catalog import Refused
from pgserial.recording import Recorder, verdict
from pgserial.verdict import judged_part
from random_forms import FORMS, Cents, Text, Turned, text_of, turning
from random_worlds import COLUMNS, RECORDED, World, worlds

SERIALIZABLE, LEVELS = "SERIALIZABLE", ("READ COMMITTED", "REPEATABLE READ")
MOST_TRIED = 6  # transactions of which all orders are tried


@dataclass(frozen=True)
class Step:
    """A step of a session: what it does, by a seed of its own, so that others may be left out."""

    session: int
    name: str
    seed: int


@dataclass(frozen=True)
class Plan:
    """A recording that is to be made."""

    seed: int
    level: str
    sessions: int
    steps: Tuple[Step, ...]
    is_threaded: bool = False
    room: Optional[int] = None  # how many bytes the disk has left
    is_core: bool = False  # whether it has only forms that sqlite3 does alike
    ignoring: Tuple[str, ...] = ("log",)
    verifies_end: bool = False
    without: Tuple[str, ...] = ()  # forms, steps and circumstances that are left out
    often: bool = False  # whether what isn't said word by word is made most


# ---- plans

_BEGINS, _ENDS = ("begin",), ("commit", "commit", "commit", "commit", "rollback")
# Calls that no text says, and several statements that belong together.
_CALLS = ("copy in", "execute batch", "execute values", "prepared", "a temporary table", "several in one text", "server cursor", "many by rows")
_RARE = (*_CALLS, "close", "autocommit", "with", "many", "adapter", "turning", "reset", "script", "copy", "procedure", "broken parameters", "block", "another database")
_OFTEN = ("kinds are read", "kinds are written", "a cascade", "rows that refer", "REPLACE")  # and all that is said by its rows
_WEIGHTS = {"read": 5, "write": 7, "by rows": 6, "left out": 1, "error": 0.7, "beside": 0.7}


def _statement(chance: random.Random, plan: Plan, engine: str, spoils: bool) -> str:
    names = [name for name, form in FORMS.items() if form.is_on(engine) and (form.is_core or not plan.is_core)]
    if spoils and chance.random() < 0.15:
        return chance.choice([name for name in names if FORMS[name].kind == "spoils"] or names)
    kinds = [name for name in names if FORMS[name].kind != "spoils"]
    return chance.choices(kinds, [_weight(name, plan.often) for name in kinds])[0]


def _weight(name: str, often: bool) -> float:
    """How often a form is made, beside others."""
    kind = FORMS[name].kind
    return 60 if often and (kind == "by rows" or name in _OFTEN) else _WEIGHTS[kind]


def _transaction(chance: random.Random, plan: Plan, engine: str, spoils: bool) -> List[str]:
    """The names of the steps of a transaction."""
    if not plan.is_core and chance.random() < 0.12:
        return [chance.choice(_RARE)]
    if plan.level != SERIALIZABLE:  # reads before writes, so that others come between
        reads = [chance.choice(("read all", "read by key", "read a range", "read by value", "count", "IN", "read nulls")) for _ in range(chance.randint(1, 2))]
        return ["begin", *reads, _statement(chance, plan, engine, spoils), chance.choice(("set", "add", "set by value", "INSERT", "DELETE")), chance.choice(_ENDS)]
    body = [_statement(chance, plan, engine, spoils) for _ in range(chance.choice((1, 1, 2, 2, 3, 4)))]
    if not plan.is_core:
        if chance.random() < (0.7 if plan.often else 0.2):
            body.insert(chance.randint(0, len(body)), chance.choice(_CALLS))
        if chance.random() < 0.15:
            at = chance.randint(0, len(body))
            body[at:at] = ["savepoint"]
            body += [chance.choice(("undo", "undo", "release"))] if chance.random() < 0.8 else []
        if chance.random() < 0.2:
            return body[:2]  # in autocommit, perhaps
    return ["begin", *body, chance.choice(_ENDS)]


def planned(seed: int, engine: str, without: Sequence[str] = (), often: bool = False) -> Plan:
    """The plan of a seed."""
    chance = random.Random(f"{seed} {engine}")
    turn = chance.random() * (0.7 if often else 1)
    level = SERIALIZABLE if engine == "sqlite3" or turn < 0.7 else chance.choice(LEVELS)
    plan = Plan(
        seed, level, chance.choice((1, 2, 2, 3, 3, 4) if level == SERIALIZABLE else (3, 4)), (), is_core=level != SERIALIZABLE or chance.random() < (0 if often else 0.2), often=often,
        is_threaded=chance.random() < 0.15, room=chance.randint(0, 3000) if chance.random() < 0.1 else None,
        ignoring=("log", "noisy") if chance.random() < 0.1 else ("log",), without=tuple(without), verifies_end=chance.random() < 0.5,
    )  # fmt: skip
    if "a full disk" in without:
        plan = replace(plan, room=None)
    most = MOST_TRIED if plan.is_core else 8
    spoils = not plan.is_core and chance.random() < 0.3
    rows: List[List[Step]] = [[] for _ in range(plan.sessions)]
    for _ in range(chance.randint(2 if level == SERIALIZABLE else 5, most)):
        session = chance.randrange(plan.sessions)
        names = [name for name in _transaction(chance, plan, engine, spoils) if name not in without]
        rows[session] += [Step(session, name, chance.randrange(2**32)) for name in names]
    return replace(plan, steps=tuple(_merged(chance, rows, (1,) if level != SERIALIZABLE else (1, 1, 1, 2, 3, 9))))


def _merged(chance: random.Random, rows: List[List[Step]], sizes: Sequence[int]) -> Iterator[Step]:
    """The steps of all sessions in some order, so many of each at once."""
    while any(rows):
        row = chance.choice([row for row in rows if row])
        for _ in range(chance.choice(sizes)):
            if row:
                yield row.pop(0)


# ---- what an application does


@dataclass
class Seen:
    """A transaction as the application has seen it: its statements with their rows and counts, when it began and when it had
    committed."""

    begins: int
    statements: List[Tuple[str, Any, Any, int]] = field(default_factory=list)
    ends: int = 0


class Actor:
    """A session of the application, on a connection that is recorded or isn't."""

    def __init__(self, play: "Play", number: int) -> None:
        self.play, self.number, self.engine = play, number, play.world.engine
        self.errors = play.world.errors()
        self.seen: Optional[Seen] = None
        self.points = 0
        self.blocks: List[Any] = []
        self._chance = random.Random(f"{play.plan.seed} session {number}")
        self.connect()

    def connect(self) -> None:
        self.connection = self.play.connect(self._chance)
        self.bare = getattr(self.connection, "wrapped", self.connection)

    # what is known of its transaction, by the driver's own connection

    def is_autocommit(self) -> bool:
        if self.engine == "sqlite3":
            return self.bare.isolation_level is None
        return bool(self.bare.autocommit)

    def is_open(self) -> bool:
        if self.engine == "sqlite3":
            return bool(self.bare.in_transaction)
        return int(self.bare.info.transaction_status) not in (0, 4)

    # steps

    def does(self, step: Step) -> None:
        """Does a step; errors that an application expects are passed over."""
        chance = random.Random(step.seed)
        made = self.play.made
        try:
            if step.name in FORMS:
                self.executes(text_of(FORMS[step.name], chance, self.engine), chance)
            else:
                if getattr(self, "_" + step.name.replace(" ", "_"))(chance) is False:
                    return
            made[step.name] += 1
        except (*self.errors, ValueError) as error:  # of named tuples with a name twice
            if isinstance(error, ValueError) and "duplicate field name" not in str(error):
                raise
            made[f"{step.name}: refused"] += 1
            self.play.tell(f"session {self.number}: {type(error).__name__}: {str(error).strip()[:80]}")
            self._after_error(chance)

    def _after_error(self, chance: random.Random) -> None:
        self.seen = None
        if self.play.plan.is_core or chance.random() < 0.7:
            with contextlib.suppress(*self.errors):
                self.connection.rollback()
                if self.is_open():
                    self.connection.cursor().execute("ROLLBACK")

    def executes(self, text: Text, chance: random.Random) -> None:
        """Executes a text, and takes its rows in one of the ways that there are."""
        self.play.tell(f"session {self.number}: {text.text} {text.parameters!r}")
        begins = next(self.play.clock)
        cursor = self._cursor(text, chance)
        rows = self._rows(cursor, chance) if cursor.description is not None else None
        if rows and isinstance(rows[0], dict):
            self.play.is_vague |= len(rows[0]) < len(cursor.description)  # columns of one name are one there
            rows = [tuple(row.values()) for row in rows]
        self._saw(begins, text, rows, cursor.rowcount)
        if not self.is_open():  # in autocommit; or behind a COMMIT that psycopg2 hasn't seen
            self._committed()

    def _saw(self, begins: int, text: Text, rows: Any, count: int) -> None:
        if self.seen is None:
            self.seen = Seen(begins)
        self.seen.statements.append((text.portable, text.values, rows, count))

    def _committed(self) -> None:
        if self.seen is not None:
            self.seen.ends = next(self.play.clock)
            self.play.seen.append(self.seen)
        self.seen = None

    def _cursor(self, text: Text, chance: random.Random) -> Any:
        words = (text.parameters,) if text.values or chance.random() < 0.2 and "%" not in text.text else ()
        if self.engine != "psycopg2" and chance.random() < 0.4:
            return self.connection.execute(text.text, *words)
        cursor = self.connection.cursor()
        cursor.execute(text.text, *words)
        return cursor

    def _rows(self, cursor: Any, chance: random.Random) -> Any:
        turn = chance.random()
        if turn < 0.1 and not self.play.plan.is_core:
            if turn >= 0.05:
                cursor.fetchone()
            return None  # not all rows are looked at
        if turn < 0.3:
            return list(iter(cursor.fetchone, None))
        if turn < 0.4:
            return [row for rows in iter(lambda: cursor.fetchmany(2), []) for row in rows]
        return list(cursor) if turn < 0.6 else cursor.fetchall()

    def _begin(self, chance: random.Random) -> None:
        if self.is_open() or (not self.is_autocommit() and (self.engine != "sqlite3" or chance.random() < 0.5)):
            return
        begins = next(self.play.clock)
        self._execute(chance.choice(("BEGIN", "begin transaction", "BEGIN;") + (("BEGIN IMMEDIATE",) if self.engine == "sqlite3" else ("START TRANSACTION",))))
        self.seen = Seen(begins)

    def _execute(self, text: str, *words: Any) -> Any:
        self.play.tell(f"session {self.number}: {text} {words or ''}")
        cursor = self.connection.cursor()
        cursor.execute(text, *words)
        return cursor

    def _commit(self, chance: random.Random) -> None:
        self.play.tell(f"session {self.number}: commit")
        failed = self.engine != "sqlite3" and int(self.bare.info.transaction_status) == 3
        self._ends("COMMIT" if chance.random() < 0.7 else "END", self.connection.commit, chance)
        if failed:
            self.seen = None
        if not self.is_open():
            self._committed()

    def _ends(self, text: str, method: Callable[[], Any], chance: random.Random) -> None:
        if self.is_open() and chance.random() < 0.4:
            self._execute(text)
        else:
            method()
            if self.is_open():  # psycopg2's does nothing about a BEGIN in autocommit
                self._execute(text)

    def _rollback(self, chance: random.Random) -> None:
        self.play.tell(f"session {self.number}: rollback")
        self._ends("ROLLBACK", self.connection.rollback, chance)
        self.seen = None

    # steps that aren't statements

    def _savepoint(self, chance: random.Random) -> None:
        if self.is_open():
            self._execute(f"SAVEPOINT {chance.choice('ab')}")

    def _undo(self, chance: random.Random) -> None:
        self._execute(f"ROLLBACK TO {chance.choice(('', 'SAVEPOINT '))}{chance.choice('ab')}")

    def _release(self, chance: random.Random) -> None:
        self._execute(f"RELEASE {chance.choice(('', 'SAVEPOINT '))}{chance.choice('ab')}")

    def _close(self, chance: random.Random) -> None:
        self.play.tell(f"session {self.number}: close")
        self.connection.close()
        self.seen = None
        self.connect()

    def _autocommit(self, chance: random.Random) -> None:
        if self.engine == "sqlite3":
            self.connection.isolation_level = None if self.bare.isolation_level is not None else "DEFERRED"
        else:
            self.connection.autocommit = not self.bare.autocommit
        self.play.tell(f"session {self.number}: autocommit turned")

    def _with(self, chance: random.Random) -> None:
        """`with connection`, left well or by an exception."""
        if self.engine == "psycopg":
            self._block(chance)
            return
        self.play.tell(f"session {self.number}: with ..")
        with contextlib.suppress(KeyError), self.connection:
            self._some(chance, 2)
            if chance.random() < 0.3:
                raise KeyError
        self.seen = None

    def _some(self, chance: random.Random, count: int) -> None:
        """Some statements that write."""
        for _ in range(chance.randint(1, count)):
            self.executes(text_of(FORMS[chance.choice(("set", "add", "read by key", "INSERT", "DELETE", "job" if "job" in FORMS else "set by value"))], chance, self.engine), chance)

    def _block(self, chance: random.Random) -> None:
        """psycopg's transactions within transactions."""
        if self.engine != "psycopg":
            return
        self.play.tell(f"session {self.number}: with transaction() ..")
        with contextlib.suppress(KeyError), self.connection.transaction(force_rollback=chance.random() < 0.2):
            self._some(chance, 2)
            with contextlib.suppress(KeyError), self.connection.transaction():
                self._some(chance, 1)
                if chance.random() < 0.4:
                    raise KeyError
            if chance.random() < 0.2:
                raise KeyError
        self.seen = None

    def _many(self, chance: random.Random) -> None:
        """`executemany`."""
        mark = self.play.world.mark
        text, several = chance.choice((
            ("INSERT INTO t (id, v, w) VALUES (?, ?, 1)", [(chance.randint(6, 14), chance.randint(0, 9)) for _ in range(chance.randint(0, 3))]),
            ("UPDATE t SET v = ? WHERE id = ?", [(chance.randint(0, 9), chance.randint(1, 7)) for _ in range(chance.randint(1, 3))]),
            ("DELETE FROM t WHERE id = ?", [(chance.randint(1, 7),) for _ in range(2)]),
            ("UPDATE t SET v = v + 1 WHERE v = ?", [(1,), (2,)]), ("INSERT INTO log (note) VALUES (?)", [("x",), ("y",)]),
        ))  # fmt: skip
        self.play.tell(f"session {self.number}: executemany {text} {several}")
        given = iter(several) if chance.random() < 0.3 else several
        self.connection.cursor().executemany(text.replace("?", mark), given)

    def _adapter(self, chance: random.Random) -> None:
        """A value that an adapter turns."""
        mark, value = self.play.world.mark, chance.choice((Cents(3), Turned(5)))
        text = chance.choice(("UPDATE t SET v = ? WHERE id = 1", "SELECT id FROM t WHERE v = ?", "DELETE FROM t WHERE v = ?", "INSERT INTO u (v) VALUES (?) RETURNING id"))
        self._execute(text.replace("?", mark), (value,))

    def _turning(self, chance: random.Random) -> None:
        """Something is registered by which values come or go otherwise."""
        self.play.tell(f"session {self.number}: turning")
        turning(self, chance)

    def _reset(self, chance: random.Random) -> None:
        if self.engine == "psycopg2":
            self.play.tell(f"session {self.number}: reset()")
            self.connection.reset()
            self.seen = None

    def _script(self, chance: random.Random) -> None:
        if self.engine == "sqlite3":
            self.play.tell(f"session {self.number}: executescript")
            self.connection.executescript(chance.choice(("PRAGMA foreign_keys = ON;", "SELECT count(*) FROM t; SELECT 1;", "")))

    def _server_cursor(self, chance: random.Random) -> bool:
        if self.engine == "sqlite3" or self.is_autocommit():
            return False
        cursor = self.connection.cursor("named")
        cursor.execute(chance.choice(("SELECT * FROM t", "SELECT sum(v) FROM t", "SELECT id, v FROM t WHERE w = 2", "SELECT a, b, price FROM k")))
        cursor.fetchone()
        cursor.fetchmany(2)
        if chance.random() < 0.7:
            cursor.fetchall()
        cursor.close()
        return True

    def _copy_in(self, chance: random.Random) -> bool:
        """COPY of some rows into a table, by psycopg2 and psycopg."""
        if self.engine == "sqlite3":
            return False
        rows = [(chance.randint(6, 14), chance.choice((1, 5, None)), chance.choice(("x", "it's", "a\\tb", "\\\\", ""))) for _ in range(chance.randint(1, 3))]
        text = "".join("\t".join("\\N" if value is None else str(value) for value in row) + "\n" for row in rows)
        self.play.tell(f"session {self.number}: COPY {text!r}")
        if self.engine == "psycopg":
            with self.connection.cursor().copy("COPY t (id, v, name) FROM STDIN") as copy:
                for piece in [text[: len(text) // 2], text[len(text) // 2 :]] if chance.random() < 0.3 else rows:
                    (copy.write if isinstance(piece, str) else copy.write_row)(piece)
        elif chance.random() < 0.5:
            self.connection.cursor().copy_from(io.StringIO(text), "t", columns=("id", "v", "name"))
        else:
            self.connection.cursor().copy_expert("COPY t (id, v, name) FROM STDIN", io.StringIO(text))
        return True

    def _batch(self, name: str, text: str, rows: List[Any], **named: Any) -> bool:
        if self.engine != "psycopg2":
            return False
        import psycopg2.extras

        self.play.tell(f"session {self.number}: {name} {text} {rows}")
        getattr(psycopg2.extras, name)(self.connection.cursor(), text, rows, page_size=2, **named)
        return True

    def _execute_batch(self, chance: random.Random) -> bool:
        rows = [(chance.randint(0, 9), chance.randint(1, 6)) for _ in range(3)]
        return self._batch("execute_batch", chance.choice(("UPDATE t SET v = %s WHERE id = %s", "UPDATE t SET v = v * %s WHERE id = %s", "UPDATE t SET v = v + %s WHERE id = %s")), rows)

    def _execute_values(self, chance: random.Random) -> bool:
        rows = [(at, chance.randint(0, 9)) for at in chance.sample(range(4, 14), 3)]
        texts = ("INSERT INTO t (id, v) VALUES %s ON CONFLICT (id) DO UPDATE SET v = excluded.v", "INSERT INTO t (id, v) VALUES %s", "UPDATE t SET v = d.v FROM (VALUES %s) AS d (id, v) WHERE d.id = t.id")
        return self._batch("execute_values", chance.choice(texts), rows)

    def _prepared(self, chance: random.Random) -> bool:
        if self.engine == "sqlite3":
            return False
        what, given = chance.choice((("UPDATE t SET v = $1 WHERE id = $2", (chance.randint(0, 9), chance.randint(1, 6))), ("SELECT id, v FROM t WHERE id = $1", (chance.randint(1, 6),)), ("DELETE FROM t WHERE id = $1", (5,))))
        self._execute(f"PREPARE made AS {what}")
        for _ in range(chance.randint(1, 2)):
            self._execute(f"EXECUTE made ({', '.join(map(str, given))})")
        self._execute("DEALLOCATE made")
        return True

    def _a_temporary_table(self, chance: random.Random) -> None:
        self._execute("CREATE TEMP TABLE chosen (id bigint)")
        self._execute(f"INSERT INTO chosen SELECT id FROM t WHERE w = {chance.randint(0, 3)}")
        self._execute(chance.choice(("UPDATE t SET v = 5 WHERE id IN (SELECT id FROM chosen)", "DELETE FROM t WHERE id IN (SELECT id FROM chosen)", "SELECT t.id, t.v FROM t JOIN chosen ON chosen.id = t.id")))
        self._execute("DROP TABLE chosen")

    def _several_in_one_text(self, chance: random.Random) -> bool:
        if self.engine != "psycopg2":
            return False
        key, value = chance.randint(1, 6), chance.randint(0, 9)
        self._execute(chance.choice((f"UPDATE t SET v = {value} WHERE id = {key}; SELECT id, v FROM t WHERE id = {key}", f"UPDATE t SET v = v * 2 WHERE id = {key}; UPDATE t SET w = {value} WHERE id = {key};", f"SELECT 1; UPDATE t SET v = {value} WHERE id = {key}")))
        return True

    def _many_by_rows(self, chance: random.Random) -> None:
        """`executemany` of what is said by its rows."""
        text, several = chance.choice((("UPDATE t SET v = v * 2 WHERE id = ?", [(1,), (2,)]), ("INSERT INTO t (id, v) VALUES (?, ?) ON CONFLICT (id) DO UPDATE SET v = 7", [(3, 1), (9, 2)]), ("INSERT INTO u (v) VALUES (?)", [(1,), (2,)])))
        self.play.tell(f"session {self.number}: executemany {text} {several}")
        self.connection.cursor().executemany(text.replace("?", self.play.world.mark), several)

    def _copy(self, chance: random.Random) -> None:
        out = io.StringIO()
        if self.engine == "psycopg2":
            self.connection.cursor().copy_expert("COPY t TO STDOUT", out)
        elif self.engine == "psycopg":
            with self.connection.cursor().copy("COPY t TO STDOUT") as copy:
                list(copy)

    def _procedure(self, chance: random.Random) -> None:
        if self.engine == "psycopg2" and "noisy" in self.play.plan.ignoring:
            self.connection.cursor().callproc(chance.choice(("f_read", "f_write")), [2])

    def _another_database(self, chance: random.Random) -> None:
        """A connection to another database, whose tables have the same names, is refused; what it does is none of the recording's."""
        raw = self.play.world.beside()
        if raw is None:
            return
        try:
            if self.engine == "sqlite3" and chance.random() < 0.4:
                self._attached(chance)
                return
            self.play.tell(f"session {self.number}: a connection to another database")
            with contextlib.suppress(Refused):
                self.play.wrapped(raw)
                raise Wrong("a connection to another database is recorded with the first")
            raw.cursor().execute("UPDATE t SET v = v + 1")
            self.play.counts["another database: refused at wrap"] += 1
        finally:
            raw.close()

    def _attached(self, chance: random.Random) -> None:
        """Another file of sqlite3's beside the first, by one connection."""
        self._execute(f"ATTACH '{self.play.world.beside_path()}' AS other")
        self._execute(chance.choice(("SELECT id, v FROM other.t", "UPDATE other.t SET v = 3 WHERE id = 1", "SELECT id, v FROM t", "DELETE FROM other.u")))

    def _broken_parameters(self, chance: random.Random) -> None:
        """Parameters in which the driver finds fault."""
        text, given = chance.choice((("UPDATE t SET v = ? WHERE id = ?", (1,)), ("SELECT v FROM t WHERE id = ?", (object(),)), ("UPDATE t SET v = ? WHERE id = 1", (2**70,))))
        with contextlib.suppress(LookupError, TypeError, ValueError, OverflowError):
            self._execute(text.replace("?", self.play.world.mark), given)


# ---- one recording


class FullDisk:
    """The disk of a recording, which is full when so many bytes are written. It stands in the place of `os.write`."""

    def __init__(self, path: str, room: Optional[int]) -> None:
        self._path, self._room, self.is_full = os.path.realpath(path), room, False
        self._write = os.write

    def __enter__(self) -> "FullDisk":
        if self._room is not None:
            os.write = self._limited  # type: ignore
        return self

    def __exit__(self, *_: object) -> None:
        os.write = self._write

    def _limited(self, file: int, data: Any) -> int:
        if os.path.realpath(f"/proc/self/fd/{file}") != self._path:
            return self._write(file, data)
        assert self._room is not None
        if len(data) > self._room:
            self.is_full = True
            if self._room == 0:
                raise OSError(28, "No space left on device")
        data = memoryview(data)[: self._room]
        self._room -= len(data)
        return self._write(file, data)


class Wrong(Exception):
    """A recording whose verdict is wrong, or in which something else is."""


class Play:
    """Makes the recording of a plan, and judges it."""

    def __init__(self, world: World, plan: Plan, folder: str, counts: Counter[str]) -> None:
        self.world, self.plan, self.counts = world, plan, counts
        self.path = os.path.join(folder, "transcript")
        self.made: Counter[str] = collections.Counter()
        self.seen: List[Seen] = []
        self.clock = iter(range(10**9))
        self.told: List[str] = []
        self.is_vague = False  # whether the application hasn't seen all that came
        self.opened: List[Any] = []  # connections, as the driver has them
        self.recorder: Optional[Recorder] = None
        self._chance = random.Random(f"{plan.seed} judged")

    def tell(self, line: str) -> None:
        self.told.append(line)

    def connect(self, chance: random.Random) -> Any:
        has_kinds = "rows by name" not in self.plan.without
        raw = self.world.connect(chance, self.plan.level, self.plan.is_threaded, has_kinds)
        self.opened.append(raw)
        return self.wrapped(raw)

    def wrapped(self, raw: Any) -> Any:
        """A connection, recorded where the recording is."""
        return raw if self.recorder is None else self.recorder.wrap(raw)

    def run(self) -> None:
        """Does it all; raises Wrong where something is."""
        self.world.reset(random.Random(self.plan.seed))
        self.recorder = Recorder(self.path, RECORDED, reading=["f_read"], ignoring=self.plan.ignoring, verify_end=self.plan.verifies_end)
        with FullDisk(self.path, self.plan.room) as disk:
            try:
                self._acts()
            except Refused as refused:
                self.counts[f"refused at wrap: {str(refused)[:60]}"] += 1
                return
            finally:
                self.recorder.close()
                for raw in self.opened:
                    raw.close()
        for name, count in self.made.items():
            self.counts[name] += count
        if "fault of the recorder" in str(self.recorder.ended):
            raise Wrong(str(self.recorder.ended))
        self._judged(disk.is_full)

    def _acts(self) -> None:
        actors = [Actor(self, number) for number in range(self.plan.sessions)]
        if self.plan.is_threaded:
            self._by_threads(actors)
        else:
            for step in self.plan.steps:
                actors[step.session].does(step)
        for actor in actors:
            if self._chance.random() < 0.9:
                actor.connection.close()

    def _by_threads(self, actors: List[Actor]) -> None:
        faults: List[BaseException] = []

        def run(actor: Actor) -> None:
            try:
                for step in self.plan.steps:
                    if step.session == actor.number:
                        actor.does(step)
                if actor.is_open():
                    actor._rollback(random.Random(1))
            except Exception as fault:
                faults.append(fault)

        threads = [threading.Thread(target=run, args=(actor,)) for actor in actors]
        for thread in threads:
            thread.start()
        for thread in threads:
            thread.join()
        if faults:
            raise faults[0]

    # what may be said of it

    def text(self) -> str:
        with open(self.path, "rb") as file:
            return file.read().decode("utf-8", "replace")

    def _transcript(self) -> brute_force.Transcript:
        """What was judged of it."""
        data = judged_part(self.text().encode("utf-8")).data
        return brute_force.Reader(data.decode("utf-8", "replace")).transcript()

    def _judged(self, is_full: bool) -> None:
        told = verdict(self.path)
        if "no order leaves the rows" in told.words:
            if self.plan.level == SERIALIZABLE:
                raise Wrong(told.words)
            self.counts["an anomaly that the rows at the end show alone"] += 1
        self.counts["the end couldn't be read"] += "rows at the end couldn't be read" in told.words
        assert self.recorder is not None
        self.counts[f"verdict at {self.plan.level}{', of a full disk' if is_full else ''}: {told.answer}"] += 1
        if is_full:
            if told.answer in ("yes", "no"):
                raise Wrong(f"a recording that a full disk has cut says {told.answer}: {told.words}")
            return
        if self.plan.level == SERIALIZABLE:
            if told.answer == "no":
                raise Wrong("a serializable database's recording says no:\n" + "\n".join(told.lines))
            if told.answer == "yes" and self.recorder.ended is None:
                self._leaves_the_rows(told.lines)
            self._beginnings()
        if told.answer in ("yes", "no"):
            self._as_all_orders(told.answer)

    def _leaves_the_rows(self, lines: List[str]) -> None:
        """A yes has an order that leaves the rows that the database has."""
        there = {name: sorted(_copied(row) for row in rows) for name, rows in self.world.rows().items()}
        numbers = [int(word) for line in lines if line.startswith("order ") for word in line.split()[1:]]
        transcript = self._transcript()
        left = brute_force.left_by(transcript, numbers)
        if left is None:
            raise Wrong(f"the order {numbers} doesn't explain the replies")
        copied = {name: rows for name, rows in brute_force.copied(left).items() if name in there}
        if copied == there:
            return
        self.counts["another order was asked for"] += 1
        text = self.text()
        with open(self.path, "a", encoding="utf-8") as file:
            file.write(_end(there))
        told = verdict(self.path)
        with open(self.path, "w", encoding="utf-8") as file:
            file.write(text)
        if told.answer == "no":
            raise Wrong(f"the database has other rows than the recording leaves: {there}, and not {copied}")

    def _beginnings(self) -> None:
        """A process that is killed leaves a beginning, which isn't `no`."""
        if "a kill" in self.plan.without:
            return
        with open(self.path, "rb") as file:
            data = file.read()
        for _ in range(2):
            size = self._chance.randint(0, len(data))
            with open(self.path, "wb") as file:
                file.write(data[:size])
            told = verdict(self.path)
            self.counts[f"verdict of a beginning: {told.answer}"] += 1
            if told.answer == "no":
                raise Wrong(f"the first {size} bytes say no:\n" + "\n".join(told.lines))
        with open(self.path, "wb") as file:
            file.write(data)

    def _as_all_orders(self, answer: str) -> None:
        """The verdict is that of all orders of few transactions."""
        transcript = self._transcript()
        if len(transcript.transactions) <= MOST_TRIED + 1:  # the opening is one
            self.counts["compared with all orders of the transcript"] += 1
            wanted = "yes" if brute_force.is_serializable(transcript) else "no"
            if answer != wanted:
                raise Wrong(f"the verdict is {answer}, and by all orders it is {wanted}")
        assert self.recorder is not None
        if self.plan.is_core and not self.is_vague and len(self.seen) <= MOST_TRIED and self.recorder.ended is None:
            self._as_seen(answer)

    def _as_seen(self, answer: str) -> None:
        """The same of what the application has seen."""
        assert self.recorder is not None
        wanted = "yes" if Orders(self.seen).is_there() else "no"
        self.counts[f"compared with all orders of what was seen: {wanted}"] += 1
        if answer == "no" and wanted == "yes":
            raise Wrong("the verdict is no, and an order explains what the application has seen")
        if answer == "yes" and wanted == "no" and not sum(self.recorder.left_out.values()):
            raise Wrong("the verdict is yes, nothing was left out, and no order explains what the application has seen")


def _copied(row: Sequence[Any]) -> str:
    return "\t".join(_field(value) for value in row)


def _field(value: Any) -> str:
    """A value as a transcript has it: a newline in a text as `\\n`, a backslash as two, and then COPY text."""
    if isinstance(value, str):
        value = value.replace("\\", "\\\\").replace("\n", "\\n").encode("utf-8")
    return brute_force._copied(value)


def _end(there: Dict[str, List[str]]) -> str:
    """A transaction that reads these rows behind all others."""
    lines = ["> 64 BEGIN;", "  64 BEGIN"]
    for name, rows in there.items():
        lines += [f"> 64 SELECT * FROM {name};", f"  64 SELECT {len(rows)}", *[f"  64 | {row}" for row in rows]]
    return "\n".join([*lines, "> 64 COMMIT;", "  64 COMMIT", ""])


# ---- all orders of what was seen, done by sqlite3


class Orders:
    """Tries all orders of some transactions on tables in memory."""

    def __init__(self, seen: List[Seen]) -> None:
        self._seen = seen
        self._made = sqlite3.connect(":memory:", isolation_level=None)
        from random_worlds import _SQLITE

        self._made.executescript(_SQLITE)

    def is_there(self) -> bool:
        """Whether one of them explains all that was seen."""
        try:
            return self._tried(self._seen)
        finally:
            self._made.close()

    def _tried(self, rest: List[Seen]) -> bool:
        if not rest:
            return True
        for one in rest:
            if any(other.ends < one.begins for other in rest if other is not one):
                continue
            self._made.execute("SAVEPOINT a")
            found = all(self._is_alike(*statement) for statement in one.statements)
            found = found and self._tried([other for other in rest if other is not one])
            self._made.execute("ROLLBACK TO a")
            self._made.execute("RELEASE a")
            if found:
                return True
        return False

    def _is_alike(self, text: str, parameters: Any, rows: Any, count: int) -> bool:
        try:
            cursor = self._made.execute(text, parameters)
            found = cursor.fetchall()
        except sqlite3.Error:
            return False
        if rows is None:
            return cursor.rowcount == count
        return sorted(map(_comparable, found)) == sorted(map(_comparable, rows))


def _comparable(row: Any) -> str:
    return repr(tuple(row))


# ---- many recordings


class Machine:
    """Makes recordings, and counts what was in them."""

    def __init__(self, folder: str, dsn: Optional[str], engine: Optional[str] = None, without: Sequence[str] = (), often: bool = False) -> None:
        self.folder, self.without, self.often = folder, without, often
        self.worlds = [world for world in worlds(folder, dsn) if engine is None or world.engine in engine.split(",")]
        self.counts: Counter[str] = collections.Counter()

    def close(self) -> None:
        for world in self.worlds:
            world.close()

    def fault(self, world: World, plan: Plan, counts: Counter[str]) -> Optional[Tuple[str, Play]]:
        """What is wrong with the recording of a plan."""
        play = Play(world, plan, self.folder, counts)
        with warnings.catch_warnings(), contextlib.redirect_stderr(io.StringIO()):
            warnings.simplefilter("ignore")
            try:
                play.run()
            except Wrong as wrong:
                return str(wrong), play
            except Exception as error:
                import traceback

                return f"{type(error).__name__}: {error}\n{traceback.format_exc()}", play
            finally:
                if play.recorder is not None:
                    play.recorder.close()
        return None

    def fewest(self, world: World, plan: Plan, told: str) -> Plan:
        """A plan of fewer steps that fails alike."""
        first = told.split("\n")[0][:25]
        for size in (8, 4, 2, 1):
            at = 0
            while at < len(plan.steps):
                fewer = replace(plan, steps=plan.steps[:at] + plan.steps[at + size :])
                found = self.fault(world, fewer, collections.Counter())
                if found is not None and found[0].split("\n")[0][:25] == first:
                    plan = fewer
                else:
                    at += size
        return plan

    def run(self, seeds: Sequence[int]) -> List[str]:
        """Makes the recordings of these seeds on each engine in turn; what was wrong, in words."""
        wrong: List[str] = []
        for seed in seeds:
            world = self.worlds[seed % len(self.worlds)]
            plan = planned(seed, world.engine, self.without, self.often)
            self.counts[f"recordings on {world.engine}"] += 1
            found = self.fault(world, plan, self.counts)
            if found is not None:
                wrong.append(self._words(world, plan, *found))
                print(wrong[-1], flush=True)
        return wrong

    def _words(self, world: World, plan: Plan, told: str, play: Play) -> str:
        fewest = self.fewest(world, plan, told)
        again = self.fault(world, fewest, collections.Counter())
        told, play = again if again is not None else (told, play)
        steps = "\n".join(f"    {step}" for step in fewest.steps)
        return (
            f"==== seed {plan.seed} on {world.engine} ({fewest.level}, room {fewest.room}, threads {fewest.is_threaded}): {told}\n  steps:\n{steps}\n  told:\n    "
            + "\n    ".join(play.told) + "\n  transcript:\n    " + play.text().replace("\n", "\n    ")
        )  # fmt: skip


@contextlib.contextmanager
def server() -> Iterator[Optional[str]]:
    """A server of PostgreSQL where $PGSERIAL_DSN names none, and there is one."""
    yield os.environ.get("PGSERIAL_DSN")


def main() -> int:
    """Makes recordings."""
    words = argparse.ArgumentParser(description=__doc__, formatter_class=argparse.RawDescriptionHelpFormatter)
    words.add_argument("--count", type=int, default=20000)
    words.add_argument("--seed", type=int, default=1)
    words.add_argument("--engine", help="one, or some with commas")
    words.add_argument("--without", default="", help="names of forms and steps that are left out, with commas")
    words.add_argument("--often", action="store_true", help="make what is said by its rows most, and calls of which no text tells; at SERIALIZABLE alone")
    words.add_argument("--most", type=int, default=5, help="faults after which it ends")
    given = words.parse_args()
    begun = time.process_time()
    signal.signal(signal.SIGTERM, signal.default_int_handler)
    with tempfile.TemporaryDirectory(dir="/dev/shm" if os.path.isdir("/dev/shm") else None) as folder, server() as dsn:
        machine = Machine(folder, dsn, given.engine, given.without.split(","), given.often)
        wrong = 0
        with contextlib.suppress(KeyboardInterrupt):  # what was made until then is told
            for seed in range(given.seed, given.seed + given.count):
                wrong += len(machine.run([seed]))
                if wrong >= given.most:
                    break
        machine.close()
    for name, count in sorted(machine.counts.items()):
        print(f"{count:8} {name}")
    print(f"{wrong} wrong; {time.process_time() - begun:.1f} s of this process")
    return 1 if wrong else 0


if __name__ == "__main__":
    sys.exit(main())
