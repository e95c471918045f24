"""Records what an application asks of its database and is answered, as a transcript that `pgserial check` reads.

    from pgserial.recording import Recorder

    recorder = Recorder("recording.transcript", tables=["accounts"])
    connection = recorder.wrap(psycopg2.connect(..))  # behaves as the driver's own
    ..                                                # the application, its threads, its tests
    recorder.close()
    print(recorder.verdict())                         # yes, no or unknown, with its reasons

It needs the standard library alone. What the application does goes on whatever becomes of the recording.
"""

import atexit
import collections
import contextlib
import itertools
import os
import sys
import threading
import warnings
import weakref
from typing import Any, Callable, ContextManager, Counter, Deque, Dict, FrozenSet, Iterable, Iterator, List, Optional, Sequence, Set, Tuple

from .catalog import MOST_TABLES, Hazard, Names, Table
from .connections import Connection, Cursor, Transaction, recorded_connection
from .dangers import NO_DANGERS
from .drivers import Driver, driver_of
from .ending import Ending
from .following import Follower
from .keys import Missing, Refused
from .opening import opening_of, trusting, with_setters
from .origins import Attributes
from .output import Output, path_of
from .places import Places
from .plans import Translator, reading_of
from .proxies import Proxy
from .session import Session
from .values import MOST_BYTES, Plain, Spelling
from .verdict import BEGINS, CLOSED, LEFT_OUT, NOT_RECORDED, NOT_SAID, RECORDED, Verdict, main, printable, verdict
from .wanted import wanted_tables

__all__ = ["Connection", "Cursor", "Recorder", "RecordingWarning", "Refused", "Transaction", "Verdict", "verdict"]

_LONGEST_TEXT = 300
_MOST_TOLD = 1000  # places of what is left out that are told apart


class RecordingWarning(UserWarning):
    """The recording has ended, or no verdict speaks of what comes; the application goes on."""


def _shown(text: str) -> str:
    """A text on one line, not too long."""
    line = " ".join(text.split()).encode("utf-8", "backslashreplace").decode("utf-8")
    return line if len(line) <= _LONGEST_TEXT else line[:_LONGEST_TEXT] + " .."


def _said(why: str, text: str, place: str) -> str:
    """Why a statement can't be said, the statement, and its place."""
    return f"{_shown(why.replace(': ', ', '))}: {_shown(text)} ({_shown(place)})" if text else f"{_shown(why)} ({_shown(place)})"


def _reads(count: int) -> str:
    return "1 read" if count == 1 else f"{count} reads"


class Recorder:
    """Writes one transcript of the connections that it wraps.

    `tables` are the tables that are recorded, by name; or a mapping of names to the columns that are recorded, None for
    all; or None for all tables that can be recorded, or a function that names tables, of which those are recorded that can be. They are read when the first connection is wrapped. `reading` names
    functions of the database that write nothing, `ignoring` tables that no verdict is to speak of, and which may be written
    unsaid. `project` is the folder of the application, whose places are named; by default the one in which the process has
    begun. With `verify_end` the tables are read again as the last connection closes, or as the recording does, and a yes is
    of an order that leaves those rows.
    """

    def __init__(
        self, path: Any, tables: Any, reading: Iterable[str] = (), ignoring: Iterable[str] = (), project: Any = None,
        verify_end: bool = False,
    ) -> None:
        self.path = path_of(path)
        self.spelling = Spelling()
        self.places = Places(project)
        self.is_over = False  # whether nothing more is written
        self.unopened: Optional[str] = None  # why it hasn't begun yet
        self.attributes: Attributes = {}  # the numbers of recorded columns, as results tell them
        self.ended: Optional[str] = None  # why nothing behind some place is judged
        self.is_quiet = False  # whether it tells nothing on standard error as it ends
        self.committed = 0  # transactions
        self._left_out: Counter[Tuple[str, str]] = collections.Counter()  # reasons and places, and how often
        self._wanted = None if tables is None or callable(tables) else wanted_tables(tables)
        self._named: Optional[Callable[[], Iterable[str]]] = tables if callable(tables) else None
        self._reading, self._ignoring = tuple(reading), tuple(ignoring)
        self._trusted = frozenset(name.lower() for name in self._reading)
        self._dangers = NO_DANGERS
        self._key: Optional[Tuple[object, ...]] = None  # of the database, and of its tables
        self._names: Dict[bool, Names] = {}
        self._translators: Dict[Tuple[str, bool, FrozenSet[str]], Translator] = {}
        self._tables: Optional[List[Table]] = None
        self._sessions: Dict[int, Session] = {}
        self._used_up: Set[int] = set()  # numbers whose COMMIT stays without a reply
        self._dropped: Deque[Session] = collections.deque()
        self._snapshots: Dict[object, int] = {}
        self._texts: Dict[Tuple[str, str], str] = {}  # of what is left out, the first
        self._ending = Ending(self) if verify_end else None
        self._lock = threading.RLock()
        self._is_elsewhere = False  # whether this is another process than the one that records
        self._output: Optional[Output] = Output(self.path, self._write_late)
        _not_closed.add(self)

    # what an application calls

    def wrap(self, connection: Any, paramstyle: Optional[str] = None) -> Any:
        """The connection, recorded. It behaves as it did. Where its driver isn't known, `paramstyle` is its module's."""
        driver = driver_of(connection, paramstyle)
        with self._lock:
            if isinstance(connection, Proxy) or any(
                session.driver.is_of(connection) for session in self._sessions.values()
            ):
                raise Refused("the connection is wrapped already")
            if self._output is None:
                self._warn(f"the recording {self.path} is closed, and a connection that is wrapped now isn't recorded")
                return recorded_connection(connection, Session(self, driver, 0))
            if not self.is_open:
                self.open(driver)
            self.admit(driver)
            return recorded_connection(connection, self.session(driver))

    def connecting(self, connects: Any) -> Any:
        """What makes connections, as a pool is given it, so that each is recorded: a class of psycopg's (`connection_class`),
        or any function or class that gives a connection (psycopg2's `connection_factory`, sqlite3's `factory`)."""
        from .pools import connecting

        return connecting(self, connects)

    def engine(self, engine: Any) -> Any:
        """An engine of SQLAlchemy, synchronous or not, whose connections are recorded from their next transaction on."""
        from .sqlalchemy import follow_engine

        return follow_engine(Follower(self), engine)

    def named(self, name: str) -> ContextManager[None]:
        """With this, the transactions that begin within are told by a name."""
        return self.places.named(name)

    def place(self) -> str:
        """The application's function and line that has led here."""
        place = self.places.place()
        return "?" if place is None else f"{place.name} {place}"

    def close(self) -> None:
        """Ends the recording, and tells on standard error what it has. A process that has it of another doesn't end it."""
        if not self._is_elsewhere:
            self._read_end(list(self._sessions.values()))
        with self._lock:
            if self._output is None or self._is_elsewhere:
                return
            if not self.is_open and self.unopened is not None:
                self.stop(self.unopened)
            if not self.is_over:
                unread = self._ending.unread() if self._ending is not None else ""
                self.write("".join([*self._left_out_lines(), unread, CLOSED + "\n"]))
                self._write_kept(self._output.write_kept)
                self.is_over = True
            self._output.close()
            self._output = None
        _not_closed.discard(self)
        if sys.stderr is not None and not self.is_quiet:
            with contextlib.suppress(OSError, ValueError):  # standard error may be closed
                print(printable(self.summary()), file=sys.stderr)

    @property
    def left_out(self) -> Counter[str]:
        """Why statements that only read were left out, and how often."""
        told: Counter[str] = collections.Counter()
        for (why, _), count in self._left_out.items():
            told[why] += count
        return told

    def _left_out_lines(self) -> Iterator[str]:
        for (why, place), count in self._left_out.items():
            yield f"{LEFT_OUT} {count}: {_said(why, self._texts.get((why, place), ''), place)}\n"

    def summary(self) -> str:
        """What was recorded, in words."""
        words = f"{self.path}: {self.committed} transactions that committed"
        count = sum(self._left_out.values())
        if count:
            words += f"; left out: {_reads(count)}"
        return f"{words}; no verdict speaks of what came behind this: {self.ended}" if self.ended is not None else words

    def verdict(self, program: Any = None, words: Sequence[str] = (), strict: bool = False) -> Verdict:
        """What `pgserial check` tells of the transcript."""
        self.close()
        return verdict(self.path, program, words, strict)

    def __enter__(self) -> "Recorder":
        return self

    def __exit__(self, *_: object) -> None:
        self.close()

    # the opening

    @property
    def is_open(self) -> bool:
        """Whether the tables have been read."""
        return self._tables is not None

    def open(self, driver: Driver) -> None:
        """Writes the tables, and what they have, as the transcript's beginning."""
        told = [] if self._wanted is not None else self._take_every_table(driver)
        opened = [opening_of(table, rows) for table, rows in driver.opened(self._wanted or {})]
        self._dangers = driver.dangers(self._trusted, [table.real for table, _ in opened])
        self.attributes = driver.attributes([table for table, _ in opened])
        if len(opened) > MOST_TABLES:
            raise Refused(f"a transcript has room for {MOST_TABLES} tables")
        lines = [f"{RECORDED} of {driver.name}.", *told]
        for table, _ in opened:
            lines += _renamed(table)
        lines += ["> " + table.create() for table, _ in opened]
        rows = [line for table, some in opened for line in self._insertions(table, some)]
        if rows:
            lines += ["> 1 BEGIN;", "  1 BEGIN", *rows, "> 1 COMMIT;", "  1 COMMIT"]
        self._tables = [self._trusting(table) for table, _ in opened]
        self.write("".join([line + "\n" for line in [*lines, BEGINS]]))
        self.flush()

    def _take_every_table(self, driver: Driver) -> List[str]:
        """Takes all tables that can be recorded for those that are named, and gives comments on the others, which no verdict
        speaks of."""
        from .everything import every_table

        names, others = every_table(driver, None if self._named is None else self._named())
        if not names:
            raise Missing(others and "; ".join(others.values()) or "there is no table yet")
        self._wanted = wanted_tables(names)
        self._ignoring = (*self._ignoring, *others)
        return [f"-- Table {_shown(name)} isn't recorded: {_shown(why)}" for name, why in others.items()]

    def _trusting(self, table: Table) -> Table:
        """A table with what may write unsaid where it is written, but for the functions that write nothing."""
        trusted = trusting(table, lambda function: function.lower() in self._trusted)
        reading = reading_of(self._dangers, self._trusted)
        trusted = with_setters(trusted, lambda setter: setter.is_quiet(reading) and self._dangers.why(setter.tokens) is None)
        if table.real not in self._dangers.calling:
            return trusted
        why = "a default or a constraint of it calls a function, which may write (name it by reading=[..] where it doesn't)"
        return trusted._replace(hazards=(*trusted.hazards, Hazard(frozenset(("insert", "update")), why)))

    def _insertions(self, table: Table, rows: Iterable[Sequence[Plain]]) -> List[str]:
        """The lines that insert rows."""
        lines = []
        for row in rows:
            literals = [self.spelling.literal(column.kind, value) for column, value in zip(table.columns, row)]
            command = f"INSERT INTO {table.name} VALUES ({', '.join(literals)})"
            if len(command.encode("utf-8")) > MOST_BYTES:
                raise Refused(f"table {table.real} has a row that makes a statement of more than {MOST_BYTES} bytes")
            lines += [f"> 1 {command};", "  1 INSERT 0 1"]
        return lines

    # the end

    @property
    def tables(self) -> Sequence[Table]:
        """The tables that are recorded."""
        return self._tables or ()

    @property
    def verifies_end(self) -> bool:
        """Whether a yes is of an order that leaves the rows that the database has."""
        return self._ending is not None

    def leaves(self, session: Session) -> None:
        """A connection is about to be closed; what it has not committed goes. The last one reads the end."""
        if self._ending is None or self._ending.is_known():
            return
        with self._lock:
            is_last = all(other.is_leaving for other in self._sessions.values()) and session.number in self._sessions
        if is_last and session.lock.acquire(blocking=False):  # another thread's statement may wait for what this one does
            try:
                self._read_end_alone(session)
            finally:
                session.lock.release()

    def _read_end_alone(self, session: Session) -> None:
        """Reads the tables by the connection that is closed last, unless it is within a call."""
        if session.is_busy or session.driver.is_dead():
            return
        if session.driver.is_open():
            with contextlib.suppress(Exception):  # then it isn't idle
                session.driver.roll_back()
        self._read_end([session])

    def _read_end(self, sessions: Iterable[Session]) -> None:
        if self._ending is not None and self._tables is not None:
            for session in sessions:
                self._ending.read(session)

    # what sessions call

    def admit(self, driver: Driver) -> None:
        """Looks at what a connection has of its own, and refuses one that can't be recorded with the others."""
        tables = self._tables or []
        key, others = driver.key(tables)
        if self._key is None:
            self._key = key
        if others:
            raise Refused(f"by the search path of the connection {', '.join(others)} is another table than the recorded one")
        if key != self._key and not self._is_same(driver):
            raise Refused("the connection is to another database than the first that was recorded")
        self.functions_changed(driver)
        driver.looked_at(tables)

    def _is_same(self, driver: Driver) -> bool:
        """Whether a connection whose key says nothing is to the database of one that is recorded."""
        return any(session.driver.meets(driver) for session in list(self._sessions.values()))

    def session(self, driver: Driver) -> Session:
        """The session of a connection that is recorded from now on."""
        with self._lock:
            while self._dropped:
                self._dropped.popleft().close()
            session = Session(self, driver, 0)
            session.number = self.other_number(session)
            return session

    def translator(self, driver: Driver) -> Translator:
        """What says the statements of a driver."""
        key = (driver.style, driver.folds, driver.words)
        found = self._translators.get(key)
        if found is None:
            names = Names(self._tables or [], driver.folds, self._ignoring, driver.words, driver.schema)
            found = self._translators[key] = Translator(names, driver.style, self._reading, self._dangers)
        return found

    def only_reads(self, function: str, driver: Driver) -> bool:
        """Whether a function is known to write nothing."""
        return function.rpartition(".")[2].lower() in self.translator(driver).reading

    def functions_changed(self, driver: Driver) -> None:
        """A connection has functions of its own, or others than before."""
        with self._lock:
            functions = driver.functions(self._trusted)
            if not functions <= self._dangers.functions:
                self._dangers = self._dangers.and_functions(functions)
                self._translators.clear()

    def write(self, text: str, commits: bool = False) -> None:
        """Writes whole lines. They stand in the file at most a second later."""
        with self._lock:
            if self.is_over or not text:
                return
            if self._is_elsewhere:
                self.stop("another process uses a connection that is recorded")
                return
            assert self._output is not None
            try:
                self._output.add(text.encode("utf-8"))
                self.committed += commits
            except OSError as error:
                self._cannot_write(error)

    def flush(self) -> None:
        """Writes what is kept back now, for who reads the file meanwhile."""
        with self._lock:
            if self._output is not None and not self.is_over and not self._is_elsewhere:
                self._write_kept(self._output.write_kept)

    def _write_late(self) -> None:
        """Writes what was kept back for long enough."""
        with self._lock:
            if self._output is not None and not self.is_over:
                self._write_kept(self._output.write_late)

    def _write_kept(self, writes: Callable[[], None]) -> None:
        """Writes what is kept back, or ends the recording where that fails."""
        try:
            writes()
        except OSError as error:
            self._cannot_write(error)

    def _cannot_write(self, error: OSError) -> None:
        """Ends the recording."""
        self._end(f"it can't be written, {error.strerror} ({self.place()})")
        self.is_over = True
        self._warn(f"the recording {self.path} ends: {self.ended}")

    def forked(self) -> None:
        """This is another process: what is kept back is that of the one that records."""
        self._is_elsewhere = True
        self._lock = threading.RLock()
        if self._output is not None:
            self._output.forget()

    def leave_out(self, text: str, why: str) -> None:
        """Counts a statement that can't be said, and only reads; it is told once for each place."""
        with self._lock:
            key = (why, self.place())
            if key not in self._texts and len(self._texts) >= _MOST_TOLD:
                key = (why, "elsewhere")
            self._left_out[key] += 1
            if key not in self._texts:
                self._texts[key] = text
                self.write(f"-- {NOT_SAID}{_said(why, text, key[1])}\n")

    def snapshot(self, name: object) -> int:
        """The number of an exported snapshot."""
        with self._lock:
            return self._snapshots.setdefault(name, len(self._snapshots) + 1)

    def stop(self, why: str) -> None:
        """Ends the recording; what is written so far is judged. The application goes on."""
        with self._lock:
            self.flush()
            if self.is_over:
                return
            self._end(f"{_shown(why)} ({self.place()})")
            self.is_over = True
        self._warn(f"the recording {self.path} ends: {self.ended}")

    def spoil(self, why: str, text: str, number: int, place: Optional[str] = None) -> None:
        """Marks that a session may have written something that the transcript doesn't say. What stands before the session's
        last line is judged; the recording goes on, so that all such statements are found."""
        with self._lock:
            self.flush()
            if self.is_over:
                return
            is_first = self.ended is None
            self._end(_said(why, text, place or self.place()), number)
        if is_first:
            self._warn(f"no verdict will speak of what the recording {self.path} has from here on: {self.ended}")

    def said(self, why: str, text: str) -> str:
        """Why a statement can't be said, the statement, and the place that has led here, on one line."""
        return _said(why, text, self.place())

    def _end(self, said: str, number: Optional[int] = None) -> None:
        """Writes a mark, behind which nothing is judged; or, of a session, nothing behind its last line."""
        self.ended = self.ended or said
        if self._output is None:
            return
        what = NOT_RECORDED if number is None else NOT_SAID
        number = self.free_number() if number is None else number
        texts = (said, "without room to say why")
        self._output.end(*[f"> {number} {what}{each};\n  {number} COMMIT\n".encode("utf-8") for each in texts])

    def free_number(self) -> int:
        """The least number that no session has, and none had whose COMMIT stays without a reply."""
        return next(number for number in itertools.count(1) if number not in self._sessions and number not in self._used_up)

    def _warn(self, words: str) -> None:
        words = printable(words)
        try:
            warnings.warn(words, RecordingWarning, stacklevel=2)
        except RecordingWarning:  # where warnings are errors: the application's call isn't one
            if sys.stderr is not None:
                with contextlib.suppress(OSError, ValueError):
                    print(f"RecordingWarning: {words}", file=sys.stderr)

    # numbers of sessions

    def other_number(self, session: Session) -> int:
        """A number that no session has, for this one."""
        with self._lock:
            if session.number:
                self._sessions.pop(session.number, None)
                self._used_up.add(session.number)
            number = self.free_number()
            self._sessions[number] = session
            return number

    def give_back(self, session: Session) -> None:
        """Its number is free."""
        with self._lock:
            if self._sessions.get(session.number) is session:
                del self._sessions[session.number]

    def drop(self, session: Session) -> None:
        """Its connection went without being closed: it is closed when the next is wrapped."""
        self._dropped.append(session)


_not_closed: "weakref.WeakSet[Recorder]" = weakref.WeakSet()


def _forked() -> None:
    for recorder in list(_not_closed):
        recorder.forked()


if hasattr(os, "register_at_fork"):  # not on Windows
    os.register_at_fork(after_in_child=_forked)


@atexit.register
def _close_all() -> None:
    """Closes the recordings as the process ends."""
    for recorder in list(_not_closed):
        recorder.close()


def _renamed(table: Table) -> List[str]:
    """Comments on names that stand otherwise in the transcript, and on columns that don't stand there."""
    real = _shown(table.real)
    told = [f"-- Table {real} stands as {table.name}."] if table.real != table.name else []
    if table.parts:
        names = ", ".join(table.columns[place].real for place in table.parts)
        told.append(f"-- Column {table.columns[0].name} of table {table.name} is made of its key: {_shown(names)}.")
    if table.numbers is not None:
        told.append(f"-- Table {real} has no key that can be said: {table.columns[0].name} numbers its rows.")
    for column in table.own_columns:
        if column.real != column.name:
            told.append(f"-- Column {_shown(column.real)} of table {real} stands as {column.name}.")
    for name, why in table.passed:
        told.append(f"-- Column {_shown(name)} of table {real} isn't recorded: it {_shown(why)}.")
    recorded = [column.real for column in table.columns]
    missing = [name for name in table.order if name not in recorded and table.why_passed(name) is None]
    if missing:
        told.append(f"-- Of table {real} these columns aren't recorded: {_shown(', '.join(missing))}.")
    return told


if __name__ == "__main__":
    sys.exit(main())
