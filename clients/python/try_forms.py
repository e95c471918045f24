"""Tries each form of statement that an application sends: whether a recording says it, and what is told of an anomaly that
runs through it.

    PGSERIAL=path/to/pgserial PGSERIAL_DSN=.. python3 clients/python/try_forms.py [--table] [--only TEXT] [PLACE ..]

PLACE is psycopg2, psycopg, pg8000, asyncpg (as SQLAlchemy adapts it) or sqlite3; all that are there without one. `--table` prints FORMS.md, `--summary` the table at the README's end.
Each form is done alone, and what it has left is read: the verdict must not be `no`. Then an anomaly is planted that needs
what the form has written, and one that needs what it has read: the verdict must not be a yes that leaves nothing out.
"""

import argparse
import asyncio
import collections
import contextlib
import io
import os
import sqlite3
import sys
import tempfile
import warnings
from typing import Any, Callable, Dict, Iterator, List, NamedTuple, Optional, Sequence, Tuple

import orm_forms
from pgserial.catalog import Refused
from pgserial.recording import Recorder
from statement_forms import FORMS, RECORDED, ROWS, TABLES, Form
from test_recording import DSN, module

COLUMNS, OTHERS = "columns and tables", "several statements, and other commands"
SAID, IN_PART, LEFT_OUT, BESIDE, ENDS, REFUSED = "said", "in part", "left out", "nothing", "ends", "refused"
WORDS = {
    SAID: "said", IN_PART: "said by its rows; what else it read is left out", LEFT_OUT: "left out", BESIDE: "speaks of no rows",
    ENDS: "ends the verdict", REFUSED: "the table is refused",
}  # fmt: skip


class Tried(NamedTuple):
    """What came of a form in one place: how it is said, and what is wrong with that."""

    form: Form
    place: str
    said: str
    why: str
    faults: Tuple[str, ...]


class Place:
    """A database with the tables of the forms, and connections to it."""

    name = ""

    def __init__(self) -> None:
        self.folder = tempfile.TemporaryDirectory()
        self.path = os.path.join(self.folder.name, "recording")

    def does(self, form: Form) -> Any:
        """What the form does here, None where it isn't of this place."""
        return form.postgres

    def fresh(self, form: Form) -> None:
        """Makes the tables anew."""
        raise NotImplementedError

    def raw(self, number: int) -> Any:
        """A connection of the driver's, outside a transaction."""
        raise NotImplementedError

    def do(self, connection: Any, form: Form) -> Any:
        """Does what the form does; its rows."""
        does, cursor = self.does(form), connection.cursor()
        if callable(does):
            return does(cursor)
        if form.many:
            cursor.executemany(self.text(does), form.parameters)
            return None
        if form.parameters is None:
            cursor.execute(does)
        else:
            cursor.execute(self.text(does), form.parameters)
        return cursor.fetchall() if cursor.description is not None else None

    def text(self, text: str) -> str:
        """A text with its parameters' places."""
        return text

    def plain(self, connection: Any, text: str) -> Any:
        """Does a statement that is said whole."""
        cursor = connection.cursor()
        cursor.execute(text)
        return cursor.fetchall() if cursor.description is not None else None

    def contents(self, connection: Any, tables: Sequence[str]) -> Any:
        """All that recorded tables have."""
        return [sorted(map(str, self.plain(connection, f"SELECT * FROM {table}"))) for table in tables]

    @contextlib.contextmanager
    def recorder(self, form: Form) -> Iterator[Recorder]:
        with warnings.catch_warnings(), contextlib.redirect_stderr(io.StringIO()):
            warnings.simplefilter("ignore")
            recorder = Recorder(self.path, self.tables(form))
            try:
                yield recorder
            finally:
                recorder.close()
                self.end()

    def tables(self, form: Form) -> Any:
        """The tables that are recorded."""
        return form.tables

    def tried(self, only: Callable[[Form], bool]) -> List[Tried]:
        """Those forms, tried here."""
        return [Trial(self, form).tried() for form in FORMS if self.does(form) is not None and only(form)]

    def end(self) -> None:
        """Ends what the connections have open."""

    def close(self) -> None:
        """Leaves nothing behind."""
        self.folder.cleanup()

    def plant_write(self, form: Form) -> Optional[str]:
        """The verdict of a write skew that runs through what the form writes."""
        raise NotImplementedError

    def plant_read(self, form: Form) -> Optional[str]:
        """The verdict of one that runs through what it reads, which `form.touch` changes."""
        raise NotImplementedError


_DROPS = """DROP TABLE IF EXISTS t, u, p, z, k, child, unrecorded, made, chosen CASCADE;
DROP FUNCTION IF EXISTS writes(bigint), more(); DROP TYPE IF EXISTS mood, positive CASCADE"""


_EMPTIES = """DELETE FROM t; DELETE FROM u; DELETE FROM p; DELETE FROM z; DELETE FROM unrecorded;
ALTER SEQUENCE p_id_seq RESTART"""


class Postgres(Place):
    """A database of PostgreSQL, by psycopg2 or psycopg. What is planted are write skews, at REPEATABLE READ."""

    def __init__(self, driver: Any, others: Any = None) -> None:
        super().__init__()
        self.driver, self.name = driver, (others or driver).__name__
        self.connections = self.connected() if others is None else []
        self.setup = driver.connect(DSN)
        self.setup.autocommit = True
        cursor = self.setup.cursor()
        cursor.execute("SET client_min_messages = warning")
        self.made_of: Any = None

    def connected(self) -> List[Any]:
        """Two connections."""
        return [self.driver.connect(DSN) for _ in range(2)]

    def does(self, form: Form) -> Any:
        if self.name == "psycopg" and (callable(form.postgres) or form.parameters is not None and form.many):
            return form.postgres if form.many else None
        return form.postgres

    def fresh(self, form: Form) -> None:
        self.end()
        cursor = self.setup.cursor()
        if self.made_of == () and not form.before:
            cursor.execute(_EMPTIES)
        else:
            cursor.execute(_DROPS)
            for text in (*TABLES, *form.before):
                cursor.execute(text.format(bigint="bigint", serial="bigserial PRIMARY KEY", c=' COLLATE "C"') if "{big" in text or "{ser" in text else text)
        cursor.execute("; ".join(ROWS))
        # What changes the tables themselves has them made anew behind it.
        self.made_of = form.before if form.is_planted and form.group != OTHERS else None

    def raw(self, number: int) -> Any:
        return self.connections[number]

    def end(self) -> None:
        for connection in self.connections:
            connection.rollback()

    def close(self) -> None:
        self.end()
        self.setup.cursor().execute(_DROPS)
        for connection in (*self.connections, self.setup):
            connection.close()
        super().close()

    def begin(self, connection: Any) -> Any:
        connection.cursor().execute("SET TRANSACTION ISOLATION LEVEL REPEATABLE READ")
        connection.cursor().execute("SET LOCAL lock_timeout = 2000")
        return connection

    def plant_write(self, form: Form) -> Optional[str]:
        with self.recorder(form) as recorder:
            ada, bob = (recorder.wrap(self.raw(number)) for number in range(2))
            self.begin(ada)
            for table in form.tables:
                self.plain(ada, f"SELECT * FROM {table}")
            self.begin(bob)
            self.plain(bob, "SELECT v FROM z WHERE id = 1")
            self.plain(ada, "UPDATE z SET v = 1 WHERE id = 1")
            ada.commit()
            self.do(bob, form)
            bob.commit()
            return str(recorder.verdict())

    def plant_read(self, form: Form) -> Optional[str]:
        with self.recorder(form) as recorder:
            ada, bob = (recorder.wrap(self.raw(number)) for number in range(2))
            self.begin(bob)
            self.do(bob, form)
            self.begin(ada)
            self.plain(ada, "SELECT v FROM z WHERE id = 1")
            self.plain(ada, str(form.touch))
            ada.commit()
            self.plain(bob, "UPDATE z SET v = 1 WHERE id = 1")
            bob.commit()
            return str(recorder.verdict())


def words_of(dsn: str) -> Dict[str, str]:
    """The words of a DSN as libpq has it."""
    return dict(word.split("=", 1) for word in dsn.split())


class Other(Postgres):
    """A driver of PostgreSQL beside those two, by which the tables are made: forms that are texts are tried."""

    def does(self, form: Form) -> Any:
        text = form.postgres
        return None if callable(text) or form.tables != RECORDED or form.before or ";" in str(text) else text


class Pg8000(Other):
    """pg8000, which isn't known: the kinds of the columns are said."""

    KINDS = {
        "t": {"id": "bigint", "v": "bigint", "w": "bigint", "s": "text"}, "u": {"id": "bigint", "t_id": "bigint", "n": "bigint"},
        "p": {"id": "bigint", "v": "bigint", "s": "text"}, "z": {"id": "bigint", "v": "bigint"},
    }  # fmt: skip

    def __init__(self, driver: Any) -> None:
        self.pg8000 = module("pg8000")
        super().__init__(driver, self.pg8000)
        self.connections = self.connected()

    def does(self, form: Form) -> Any:
        text = super().does(form)
        return None if form.parameters is None and "%" in str(text) else text

    def connected(self) -> List[Any]:
        words = words_of(DSN)
        host = words.get("host", "")
        where = {"unix_sock": f"{host}/.s.PGSQL.{words.get('port', 5432)}"} if host.startswith("/") else {"host": host}
        return [self.pg8000.connect(user=words["user"], database=words["dbname"], **where) for _ in range(2)]

    def tables(self, form: Form) -> Any:
        return {name: self.KINDS[name] for name in form.tables}


class Asyncpg(Other):
    """asyncpg, as SQLAlchemy adapts it. It is used within a task of an event loop; see `tried`."""

    def __init__(self, driver: Any) -> None:
        super().__init__(driver, module("asyncpg"))

    def connected(self) -> List[Any]:
        from sqlalchemy.ext.asyncio import create_async_engine

        words = words_of(DSN)
        engine = create_async_engine(f"postgresql+asyncpg://{words['user']}@/{words['dbname']}?host={words['host']}").sync_engine
        _, named = engine.dialect.create_connect_args(engine.url)
        return [engine.dialect.dbapi.connect(**named) for _ in range(2)]

    def tried(self, only: Callable[[Form], bool]) -> List[Tried]:
        """All forms, tried within a task."""
        from sqlalchemy.util import greenlet_spawn

        def tries() -> List[Tried]:
            self.connections = self.connected()
            results = list(super(Asyncpg, self).tried(only))
            self.end()
            for connection in self.connections:
                connection.close()
            self.connections = []
            return results

        return asyncio.run(greenlet_spawn(tries))


class Sqlite(Place):
    """A database of sqlite3 in memory. What is planted are reads of what isn't committed, by a shared cache."""

    name = "sqlite3"
    count = 0

    def __init__(self) -> None:
        super().__init__()
        self.connections: List[Any] = []

    def does(self, form: Form) -> Any:
        return form.sqlite

    def text(self, text: str) -> str:
        return text.replace("%s", "?")

    def fresh(self, form: Form) -> None:
        for connection in self.connections:
            connection.close()
        Sqlite.count += 1
        name = f"file:forms{os.getpid()}x{self.count}?mode=memory&cache=shared"
        self.connections = [sqlite3.connect(name, uri=True, isolation_level=None, timeout=1) for _ in range(3)]
        cursor = self.connections[2]
        for text in (*TABLES, *form.before, *ROWS):
            cursor.execute(text.format(bigint="INTEGER", serial="INTEGER PRIMARY KEY AUTOINCREMENT", c="") if "{" in text else text)
        for connection in self.connections:
            connection.execute("PRAGMA foreign_keys = ON")
            connection.execute("PRAGMA read_uncommitted = 1")

    def raw(self, number: int) -> Any:
        return self.connections[number]

    def end(self) -> None:
        for connection in self.connections[1::-1]:
            connection.rollback()

    def begin(self, connection: Any) -> Any:
        connection.cursor().execute("BEGIN")
        return connection

    def plant_write(self, form: Form) -> Optional[str]:
        with self.recorder(form) as recorder:
            ada, bob = (recorder.wrap(self.raw(number)) for number in range(2))
            self.begin(bob)
            self.do(bob, form)
            self.begin(ada)
            for table in form.tables:
                self.plain(ada, f"SELECT * FROM {table}")
            ada.commit()
            self.plain(bob, "UPDATE z SET v = 1 WHERE id = 1")
            bob.commit()
            return str(recorder.verdict())

    def plant_read(self, form: Form) -> Optional[str]:
        if not form.is_read:
            return None  # one that writes waits for the other that does
        with self.recorder(form) as recorder:
            ada, bob = (recorder.wrap(self.raw(number)) for number in range(2))
            self.begin(bob)
            self.plain(bob, str(form.touch))
            self.begin(ada)
            self.do(ada, form)
            self.plain(ada, "SELECT v FROM z WHERE id = 1")
            ada.commit()
            self.plain(bob, "UPDATE z SET v = 1 WHERE id = 1")
            bob.commit()
            return str(recorder.verdict())


def _bag(rows: Any) -> Any:
    """Rows in any order."""
    return sorted(map(repr, rows)) if isinstance(rows, list) else rows


def _answer(told: str) -> str:
    """The answer of a verdict's words, with a plus where something is left out."""
    last = told.split("\n")[-1]
    if not last.startswith("serializable: "):
        return ENDS
    answer = last[len("serializable: ") :].split(";")[0].split(":")[0].split(",")[0].strip()
    return answer + ("+" if "n't known" in last else "")


def _statements(path: str) -> int:
    """How many statements the first transaction behind the opening has."""
    with open(path, encoding="utf-8") as file:
        lines = [line for line in file.read().split("\n") if line.startswith("> 1 ")]
    begins = [at for at, line in enumerate(lines) if line.startswith("> 1 BEGIN")]
    inside = lines[begins[1] :] if len(begins) > 1 else []
    return sum(line.split(" ")[2] in ("SELECT", "INSERT", "UPDATE", "DELETE") for line in inside)


class Trial:
    """One form in one place."""

    def __init__(self, place: Place, form: Form) -> None:
        self.place, self.form = place, form
        self.faults: List[str] = []
        self.changes = False  # whether it changes what is recorded
        self.rows: Any = None  # that it shows

    def tried(self) -> Tried:
        """What came of it."""
        try:
            said, why = self._alone()
            if said != REFUSED:
                self._without_recorder()
                self._planted(said)
        except Refused as refused:
            said, why = REFUSED, str(refused)
        except Exception as error:  # the driver's
            self.place.end()
            said, why = ENDS, ""
            self.faults.append(f"{type(error).__name__}: {error}")
        return Tried(self.form, self.place.name, said, why, tuple(self.faults))

    def _alone(self) -> Tuple[str, str]:
        """How it is said, done alone."""
        place, form = self.place, self.form
        place.fresh(form)
        with place.recorder(form) as recorder:
            ada, bob = (recorder.wrap(place.raw(number)) for number in range(2))
            if isinstance(place, Sqlite):
                place.begin(ada)
            before = place.contents(place.connections[-1] if isinstance(place, Sqlite) else bob, form.tables)
            bob.rollback()
            self.rows = place.do(ada, form)
            ada.commit()
            after = place.contents(bob, form.tables)
            bob.commit()
            told = str(recorder.verdict())
        self.changes = before != after
        answer = _answer(told)
        last = told.split("\n")[-1]
        if answer.startswith("no"):
            self.faults.append(f"alone it is {told!r}")
        if answer not in ("yes", "yes+", "no", "no+"):
            return ENDS, last
        count = _statements(place.path)
        if answer.endswith("+"):
            return (IN_PART if count else LEFT_OUT), last
        return (SAID if count else BESIDE), last

    def _without_recorder(self) -> None:
        """Whether its rows are those that come without a recorder, and whether `touch` changes them."""
        place, form = self.place, self.form
        place.fresh(form)
        connection = place.raw(0)
        rows = place.do(connection, form)
        connection.rollback()
        if "now()" not in form.name and "datetime()" not in form.name and "random()" not in form.name and _bag(rows) != _bag(self.rows):
            self.faults.append(f"it shows {self.rows!r} in place of {rows!r}")
        if form.touch is not None and form.is_read:
            place.fresh(form)
            connection = place.raw(0)
            place.plain(connection, form.touch)
            if _bag(place.do(connection, form)) == _bag(rows):
                self.faults.append("what it reads isn't changed")
            connection.rollback()

    def _planted(self, said: str) -> None:
        """Plants anomalies."""
        place, form = self.place, self.form
        if self.changes and form.is_planted:
            place.fresh(form)
            right = ("no", "no+") if said != ENDS else ("no", "no+", ENDS, "unknown", "unknown+")
            passes = said == IN_PART and form.group == COLUMNS  # the column can't be said
            self._judge("what it writes", place.plant_write(form), (*right, "yes+") if passes else right)
        if form.touch is not None:
            place.fresh(form)
            told = place.plant_read(form)
            if told is not None:
                self._judge("what it reads", told, ("no", "no+", "yes+", "unknown", "unknown+", *((ENDS,) if said == ENDS else ())))

    def _judge(self, what: str, told: Optional[str], right: Sequence[str]) -> None:
        if _answer(told or "") not in right:
            self.faults.append(f"an anomaly by {what} is {told!r}")


def postgres_places(names: Sequence[str] = ()) -> List[Place]:
    """Those of PostgreSQL that are there."""
    driver = (module("psycopg2") or module("psycopg")) if DSN else None
    found: List[Place] = [Postgres(module(name)) for name in ("psycopg2", "psycopg") if driver and module(name) and (not names or name in names)]
    if driver and module("pg8000") and (not names or "pg8000" in names):
        found.append(Pg8000(driver))
    if driver and module("asyncpg") and module("sqlalchemy") and (not names or "asyncpg" in names):
        found.append(Asyncpg(driver))
    return found


def places(names: Sequence[str]) -> List[Place]:
    """The places that are there."""
    found = postgres_places(names)
    if not names or "sqlite3" in names:
        found.append(Sqlite())
    return found


def counts(results: Sequence[Tried]) -> Dict[str, int]:
    """How many are said, and how."""
    return dict(collections.Counter(result.said for result in results))


# ---- the README's table


HEAD = """# The forms of statements, and how each is said

Made by `try_forms.py --table`, with psycopg2 on PostgreSQL 15 and with sqlite3. The [README](README.md#what-is-said-and-how) says
what these words mean. Each form is done on the tables of `statement_forms.py`.
"""


def table(results: Sequence[Tried]) -> str:
    """The table of what is said, in Markdown: a line for each form, by its group."""
    by_form: Dict[str, Dict[str, str]] = {}
    groups: Dict[str, str] = {}
    for result in results:
        by_form.setdefault(result.form.name, {})[result.place] = WORDS[result.said]
        groups[result.form.name] = result.form.group
    lines = [HEAD, *_counted(results)]
    for group in dict.fromkeys(groups.values()):
        lines += ["", f"## {group[0].upper()}{group[1:]}", "", "| Form | PostgreSQL | sqlite3 |", "|---|---|---|"]
        lines += [line_of(name, found) for name, found in by_form.items() if groups[name] == group]
    return "\n".join(lines)


def line_of(name: str, found: Dict[str, str]) -> str:
    """The line of a form."""
    shown = name.replace("|", "\\|")
    return f"| `{shown}` | {found.get('psycopg2', '')} | {found.get('sqlite3', '')} |"


SHORT = {SAID: "said", IN_PART: "by their rows", LEFT_OUT: "left out", BESIDE: "no rows", ENDS: "end the verdict", REFUSED: "refused"}


def by_group(results: Sequence[Tried]) -> Dict[str, str]:
    """How many forms of each group are said, and how, in words; of all at the end."""
    found: Dict[str, Dict[str, int]] = {}
    for result in results:
        for group in (result.form.group, "all"):
            number = found.setdefault(group, dict.fromkeys(SHORT, 0))
            number[result.said] += 1
    found["all"] = found.pop("all", {})
    return {group: ", ".join(f"{count} {SHORT[said]}" for said, count in number.items() if count) for group, number in found.items()}


def summary(results: Sequence[Tried]) -> List[str]:
    """The table at the end of the README: a line for each group of forms."""
    of_place = [by_group([result for result in results if result.place == place]) for place in ("psycopg2", "sqlite3")]
    lines = ["| Forms | PostgreSQL | sqlite3 |", "|---|---|---|"]
    return lines + [f"| {group} | {words} | {of_place[1].get(group, '')} |" for group, words in of_place[0].items()]


def mappers() -> List[str]:
    """What share of the operations of object mappers is said."""
    return ["", "## Object mappers", "", *orm_forms.table(orm_forms.done())]


def _counted(results: Sequence[Tried]) -> List[str]:
    """How many forms are said, and how, in each place."""
    lines = ["| | PostgreSQL | sqlite3 |", "|---|---|---|"]
    for said, word in WORDS.items():
        numbers = [sum(result.said == said for result in results if result.place == place) for place in ("psycopg2", "sqlite3")]
        lines.append(f"| {word} | {numbers[0]} | {numbers[1]} |")
    return lines


def main() -> int:
    """Tries, and tells; 1 where something is wrong."""
    words = argparse.ArgumentParser(description=__doc__, formatter_class=argparse.RawDescriptionHelpFormatter)
    words.add_argument("places", nargs="*", metavar="PLACE")
    words.add_argument("--only", default="", help="forms whose name has this")
    words.add_argument("--table", action="store_true")
    words.add_argument("--summary", action="store_true")
    words.add_argument("--all", action="store_true", help="each form, and not only what isn't said")
    given = words.parse_args()
    results: List[Tried] = []
    for place in places(given.places):
        some = place.tried(lambda form: given.only in form.name)
        place.close()
        results += some
        print(f"{place.name}: {len(some)} forms; " + ", ".join(f"{WORDS[said]}: {count}" for said, count in sorted(counts(some).items())), file=sys.stderr)
    if given.table:
        print("\n".join([table(results), *mappers()]))
    if given.summary:
        print("\n".join(summary(results)))
    for result in results:
        if not given.table and not given.summary and (given.all or result.said in (ENDS, REFUSED) or result.faults):
            print(f"{result.place}: {result.form.name[:110]}: {WORDS[result.said]}: {result.why[:260] if result.said in (ENDS, REFUSED) or given.all else ''}")
            for fault in result.faults:
                print(f"    WRONG: {fault[:600]}")
    return 1 if any(result.faults for result in results) else 0


if __name__ == "__main__":
    sys.exit(main())
