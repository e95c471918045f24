"""A client of `pgserial shell`, in the form of DB-API 2.0 (PEP 249). It needs the standard library alone.

    import pgserial

    with pgserial.Server(schema="CREATE TABLE t (id bigint PRIMARY KEY, v text)") as db:
        connection = db.connect()
        with connection:  # commits at its end, and rolls back where an exception leaves it
            connection.execute("INSERT INTO t VALUES (%s, %s)", (1, "one"))
        print(connection.execute("SELECT * FROM t").fetchall())

A `Server` is a child process, or with `in_process=True` in this one. Its tables live in its memory, and go with it. Each of its
connections is a session, up to 64 at once, and each transaction is SERIALIZABLE.
"""

import contextlib
import os
import re
import shutil
import subprocess
import tempfile
import threading
import time
from dataclasses import dataclass
from typing import Any, Dict, Iterable, Iterator, List, NamedTuple, Optional, Sequence, Set, Tuple, Type, Union

from .answers import Answer, first_of, row_of
from .bundle import bundled
from .exceptions import (
    BY_SQLSTATE, ActiveSqlTransaction, BadCopyFileFormat, CharacterNotInRepertoire, DatabaseError, DataError, DatatypeMismatch,
    DuplicateTable, Error, ForeignKeyViolation, InFailedSqlTransaction, IntegrityError, InterfaceError, InternalError,
    InvalidTextRepresentation, IoError, NoActiveSqlTransaction, NotNullViolation, NotSupportedError, NumericValueOutOfRange,
    ObjectNotInPrerequisiteState, OperationalError, OutOfMemory, ProgramLimitExceeded, ProgrammingError, ReadOnlySqlTransaction,
    SerializationFailure, SyntaxError, UndefinedColumn, UndefinedTable, UniqueViolation, Warning, refusal,
)  # fmt: skip
from .inside import Inside
from .statements import Parameters, create_lines, statement_of, text_of
from .version import VERSION as __version__

__all__ = [
    "AHEAD", "BIGINT", "BINARY", "BYTEA", "BY_SQLSTATE", "DATETIME", "EVENTS", "MOST_SESSIONS", "NUMBER", "ROWID", "STRING", "TEXT",
    "ActiveSqlTransaction", "BadCopyFileFormat", "Binary", "CharacterNotInRepertoire", "Column", "Connection", "Cursor",
    "DataError", "DatabaseError", "DatatypeMismatch", "DuplicateTable", "Error", "ForeignKeyViolation", "InFailedSqlTransaction",
    "IntegrityError", "InterfaceError", "InternalError", "InvalidTextRepresentation", "IoError", "Kind", "NoActiveSqlTransaction",
    "NotNullViolation", "NotSupportedError", "NumericValueOutOfRange", "ObjectNotInPrerequisiteState", "OperationalError",
    "OutOfMemory", "Parameters", "ProgramLimitExceeded", "ProgrammingError", "ReadOnlySqlTransaction", "Row", "SerializationFailure",
    "Server", "SyntaxError", "UndefinedColumn", "UndefinedTable", "UniqueViolation", "Warning", "__version__", "apilevel", "connect",
    "paramstyle", "threadsafety",
]  # fmt: skip

apilevel = "2.0"
threadsafety = 1  # threads may share the module and servers; a connection is one thread's while its transaction is open
paramstyle = "pyformat"  # `%s` with a sequence, `%(name)s` with a mapping

MOST_SESSIONS = 64
EVENTS = 100_000  # for so many events a server has room, where nothing is said
AHEAD = 100  # so many lines are sent ahead of their answers, which fit into a pipe
PATIENCE = 1.0  # for so many seconds a transaction waits for the end of another, where room is getting short
LAST_PATIENCE = 10.0  # so many seconds a server that is closed has to end by itself

Row = Tuple[Any, ...]  # of None, int, str and bytes
Schema = Union[None, str, Iterable[str]]
Path = Union[None, str, "os.PathLike[str]"]


# ---- kinds of values


@dataclass(frozen=True)
class Kind:
    """The kind of a column: the `type_code` of a cursor's description."""

    name: str


BIGINT, TEXT, BYTEA = Kind("bigint"), Kind("text"), Kind("bytea")
NUMBER, STRING, BINARY = BIGINT, TEXT, BYTEA
DATETIME, ROWID = Kind("datetime"), Kind("rowid")  # no column is of these
Binary = bytes


class Column(NamedTuple):
    """A column as a cursor's description has it: seven items, of which the last five say nothing here."""

    name: str
    type_code: Kind
    display_size: None = None
    internal_size: None = None
    precision: None = None
    scale: None = None
    null_ok: None = None


Tables = Dict[str, List[Column]]

_CREATED = re.compile(r"CREATE TABLE (\w+) \((.*)\);")
_SELECT = re.compile(r"\s*select\s*(.*?)\s*\bfrom\s+(\w+)", re.ASCII | re.DOTALL | re.IGNORECASE)
_ESCAPED = re.compile(rb"\\(.)", re.DOTALL)
_CONTROLS = {b"b": b"\b", b"t": b"\t", b"n": b"\n", b"v": b"\v", b"f": b"\f", b"r": b"\r"}


def _table(line: str) -> Tuple[str, List[Column]]:
    """The name and the columns of a table, of the line by which a dump creates it."""
    created = _CREATED.fullmatch(line)
    assert created, line
    words = [column.split(" ") for column in created[2].split(", ")]
    return created[1], [Column(column[0], Kind(column[1])) for column in words]


def _shown(tables: Tables, statement: str) -> List[Column]:
    """The columns of what a SELECT shows that the server has answered."""
    select = _SELECT.match(statement)
    assert select, statement
    shown, columns = select[1].lower(), tables[select[2].lower()]
    if shown == "*":
        return columns
    if shown.startswith("count") and shown.endswith(")"):
        return [Column("count", BIGINT)]
    named = {column.name: column for column in columns}
    return [named[name.strip()] for name in shown.split(",")]


def _value(kind: Kind, field: bytes) -> Union[None, int, str, bytes]:
    """The value of a field of COPY text."""
    if field == b"\\N":
        return None
    if kind == BIGINT:
        return int(field)
    plain = _ESCAPED.sub(lambda found: _CONTROLS.get(found[1], found[1]), field)
    if kind == BYTEA:
        return bytes.fromhex(plain[2:].decode("ascii"))
    return plain.decode("utf-8")


def _row(columns: Sequence[Column], line: bytes) -> Row:
    """The values of a row of COPY text."""
    return tuple(_value(column.type_code, field) for column, field in zip(columns, line.split(b"\t")))


# ---- the child process


def _program(path: Path) -> str:
    """The program: what is said, or what $PGSERIAL says, or the one that came with this package, or that of the PATH."""
    wanted = path or os.environ.get("PGSERIAL") or bundled("pgserial") or "pgserial"
    found = shutil.which(wanted)
    if found is None:
        raise InterfaceError(f"there is no program {wanted}: name it by `program`, by $PGSERIAL or have it on the PATH")
    return os.path.abspath(found)


class _Shell:
    """A child that answers line by line. It works in a folder of its own, where dumps are written. It takes no lock: who
    holds one of these sees to it that one thread asks at a time."""

    def __init__(self, program: str, dump: Path, events: int) -> None:
        self._folder = tempfile.TemporaryDirectory(prefix="pgserial-")
        self._lost: Optional[str] = None  # why no exchange is possible any more
        words = [program, "shell", *([os.path.abspath(dump)] if dump else []), "--events", str(events)]
        pipe = subprocess.PIPE
        try:
            with open(self.path("told"), "wb") as told:
                # In a session of its own, so that a Ctrl-C which is meant for the caller doesn't end it.
                self._child = subprocess.Popen(
                    words, stdin=pipe, stdout=pipe, stderr=told, cwd=self._folder.name, start_new_session=True
                )
        except OSError as error:
            self._folder.cleanup()
            raise InterfaceError(f"{program} can't be run: {error.strerror}") from None

    def path(self, name: str) -> str:
        """A file of the child's folder."""
        return os.path.join(self._folder.name, name)

    def ask(self, lines: Sequence[str]) -> List[Answer]:
        """The answers to lines, all of which are sent ahead."""
        return [self._answer(first) for first in self._exchange(lines)]

    def tables(self) -> List[str]:
        """The lines that create the tables, and that of their number."""
        return self._listed("\\d", "TABLES ")

    def order(self) -> List[str]:
        """The lines of the serial order since the last checkpoint, and that of its check."""
        return self._listed("\\serial", "check ")

    def dumped(self, session: int, jobs: int) -> str:
        """The dump of a session's safe snapshot."""
        name = f"dump{session}"
        self.ask([f"{session} DUMP {jobs} 1000 {name};"])[0].checked()
        with open(self.path(name), encoding="utf-8", newline="") as file:
            return file.read()

    def _listed(self, word: str, last: str) -> List[str]:
        """The lines of an answer that ends with a line that begins so, or with a refusal."""
        lines = []
        for line in self._exchange([word]):
            lines.append(line.decode("utf-8"))
            while not lines[-1].startswith(("ERROR ", last)):
                lines.append(self._line().decode("utf-8"))
        return lines

    def kill(self) -> None:
        """Ends the child at once, whoever waits for an answer."""
        self._child.kill()

    def look_after(self) -> None:
        """Refuses a child that has ended."""
        if self._child.poll() is not None:
            raise self._ended()

    def close(self) -> None:
        """Ends the child, which what is open goes with."""
        assert self._child.stdin and self._child.stdout
        if self._lost:
            self._child.kill()
        for stream in (self._child.stdin, self._child.stdout):
            with contextlib.suppress(BrokenPipeError):
                stream.close()
        try:
            self._child.wait(LAST_PATIENCE)
        except subprocess.TimeoutExpired:  # a child that is stopped reads no end of its input
            self._child.kill()
            self._child.wait()
        self._lost = "the server is closed"
        self._folder.cleanup()

    def _exchange(self, lines: Sequence[str]) -> Iterator[bytes]:
        """Sends lines, and gives the first line of each answer. Where it is broken off, nobody knows what comes next."""
        if self._lost:
            raise OperationalError(self._lost)
        assert self._child.stdin
        try:
            sent = "".join(line + "\n" for line in lines).encode("utf-8")
            self._lost = "the server is lost: an exchange with it was broken off"
            self._child.stdin.write(sent)
            self._child.stdin.flush()
        except UnicodeEncodeError as error:
            raise DataError("a text with half a character can't be sent") from error
        except BrokenPipeError:
            raise self._ended() from None
        for _ in lines:
            yield self._line()
        self._lost = None

    def _line(self) -> bytes:
        assert self._child.stdout
        line = self._child.stdout.readline()
        if not line.endswith(b"\n"):
            raise self._ended()
        return line[:-1]

    def _answer(self, first: bytes) -> Answer:
        """The answer whose first line this is: how many follow is told by it."""
        text, count = first_of(first)
        return Answer(text, [row_of(self._line()) for _ in range(count)])

    def _ended(self) -> OperationalError:
        """The exception for its end, in its own words."""
        status = self._child.wait()
        with open(self.path("told"), encoding="utf-8", errors="replace") as file:
            told = " ".join(file.read().split("\n")).strip()
        self._lost = f"the server has ended with status {status}" + (f": {told}" if told else "")
        return OperationalError(self._lost)


def _inside(library: Path, dump: Path, events: int) -> Inside:
    """A server in this process, by the library of a path, if one is said."""
    return Inside(None if library is None else os.fspath(library), None if dump is None else os.path.abspath(dump), events)


# ---- servers, connections and cursors


class Server:
    """A server as a child process, with tables of its own: those that `schema` creates, or those of the file `dump`. With
    `in_process` it is in this process, by libpgserial.so; `program` is then the path of that.

    `events` says for how many events its history has room. It is checkpointed by itself, when half of them are used and no
    session is in a transaction. So that transactions can end in any case, an event is kept for the end of each: what would
    take one of these is refused (`ProgramLimitExceeded`).
    """

    def __init__(
        self, schema: Schema = None, dump: Path = None, program: Path = None, events: int = EVENTS, in_process: bool = False
    ) -> None:
        if schema is not None and dump is not None:
            raise ProgrammingError("tables come from a schema or from a dump, and not from both")
        lines = create_lines(schema)
        self._shell: Union[Inside, _Shell] = _inside(program, dump, events) if in_process else _Shell(_program(program), dump, events)
        self._changed = threading.Condition()  # held for each exchange, and notified when a transaction has ended
        self._connections: Dict[int, Connection] = {}
        self._in_transaction: Set[int] = set()
        self._room, self._used, self._begun = events, 0, 0
        self._is_patient = True  # until a wait for the end of a transaction was in vain
        self._order: List[int] = []  # the serial order of what checkpoints have closed
        self._is_closed = False
        try:
            self.tables = self._opened(lines)
        except BaseException:
            self.close()
            raise

    def connect(self, read_only: bool = False, deferrable: bool = False) -> "Connection":
        """A connection with the least session that is free. Its transactions are of that mode; deferrable ones are
        read-only, and wait for a safe snapshot when they begin."""
        with self._held():
            for session in range(1, MOST_SESSIONS + 1):
                if session not in self._connections:
                    connection = Connection(self, session, read_only, deferrable)
                    self._connections[session] = connection
                    return connection
            raise OperationalError(f"a server has {MOST_SESSIONS} sessions, and all are connected")

    def serial_order(self) -> List[int]:
        """The numbers of the committed transactions (`Connection.transaction`), in an order in which each, run alone after
        those before it, has the same replies. The server has checked that it is one."""
        with self._held():
            return self._order + self._order_since_checkpoint()

    def dump(self, jobs: int = 1, timeout: Optional[float] = 10) -> str:
        """The dump of a safe snapshot: a text that `Server(dump=..)`, `pgserial restore` and psql read from a file. It is
        waited for so many seconds, or for as long as it takes, until the snapshot is safe. This needs a session, and has a
        transaction of its own, which isn't committed."""
        connection = self.connect(deferrable=True)
        connection.timeout = timeout
        try:
            connection.begin()
            return self._dumped(connection.session, jobs)
        finally:
            connection.close()

    def checkpoint(self) -> None:
        """Makes the present state the opening of a new history, which has room for as many events again. The serial order
        so far is kept here."""
        with self._held():
            order = self._order_since_checkpoint()
            self._shell.ask(["CHECKPOINT;"])[0].checked()
            self._order += order
            self._used, self._is_patient = 0, True

    def close(self) -> None:
        """Ends the server, and with it all transactions that are open. A thread whose exchange doesn't end loses it."""
        if not self._changed.acquire(timeout=LAST_PATIENCE):
            self._shell.kill()
            self._changed.acquire()
        try:
            if not self._is_closed:
                self._is_closed = True
                self._shell.close()
                self._changed.notify_all()
        finally:
            self._changed.release()

    def __enter__(self) -> "Server":
        return self

    def __exit__(self, *_: object) -> None:
        self.close()

    @contextlib.contextmanager
    def _held(self) -> Iterator[None]:
        """Holds the lock of a server that isn't closed."""
        with self._changed:
            if self._is_closed:
                raise InterfaceError("the server is closed")
            yield

    def _opened(self, lines: Sequence[str]) -> Tables:
        """Creates tables, and asks which there are."""
        for line in lines:
            answer = self._shell.ask([line])[0]
            if answer.error is not None:
                raise refusal(f"{answer.text}, in {line}")
        *created, last = self._shell.tables()
        Answer(last).checked()
        return dict(map(_table, created))

    def _order_since_checkpoint(self) -> List[int]:
        *committed, last = self._shell.order()
        if Answer(last).checked().text != "check yes":
            raise InternalError("the serial order isn't one")
        return [int(line.split(" ")[1]) for line in committed]

    def _dumped(self, session: int, jobs: int) -> str:
        """The dump of a session's safe snapshot."""
        with self._held():
            return self._shell.dumped(session, jobs)

    def _begin(self, session: int, command: str) -> int:
        """Begins a transaction, and gives its number."""
        self._make_room()
        self._ask(session, [command])[0].checked()
        self._in_transaction.add(session)
        self._begun += 1
        return self._begun

    def _make_room(self) -> None:
        """Makes a checkpoint, where half of the events are used and nothing is open. Where a quarter is left, it waits for
        that: other threads end what they have begun, and begin nothing meanwhile."""
        while self._used >= self._room // 4 * 3 and self._in_transaction and self._is_patient:
            self._is_patient = self._changed.wait(PATIENCE)
        if self._used >= self._room // 2 and not self._in_transaction:
            self.checkpoint()

    def _ask(self, session: int, commands: Sequence[str]) -> List[Answer]:
        """The answers to commands of a session, none of which ends its transaction."""
        kept = len(self._in_transaction | {session})
        if self._used + len(commands) + kept > self._room:
            raise ProgramLimitExceeded(f"54000: of {self._room} events the last are kept for the ends of open transactions")
        self._used += len(commands)
        answers = self._shell.ask([f"{session} {command};" for command in commands])
        if any(answer.error is not None for answer in answers):  # a transaction that has failed frees snapshots
            self._changed.notify_all()
        return answers

    def _end(self, session: int, command: str) -> Answer:
        """Ends a session's transaction. Only where memory or events are wanting it goes on."""
        self._used += 1
        answer = self._shell.ask([f"{session} {command};"])[0]
        if not isinstance(answer.error, (OutOfMemory, ProgramLimitExceeded)):
            self._in_transaction.discard(session)
            self._changed.notify_all()
        return answer

    def _wait_safe(self, session: int, timeout: Optional[float]) -> bool:
        """Asks until a deferrable transaction's snapshot is safe, again each time that another transaction has ended or
        failed: whether it became so in time."""
        limit = None if timeout is None else time.monotonic() + timeout
        while self._ask(session, ["POLL"])[0].checked().text == "WAIT":
            if not self._wait_changed(limit):
                return False
        return True

    def _wait_changed(self, limit: Optional[float]) -> bool:
        """Waits until another transaction has ended or failed: whether one has in time. A child that dies notifies nobody,
        so it is looked after now and then."""
        while not self._changed.wait(PATIENCE if limit is None else max(0.0, min(PATIENCE, limit - time.monotonic()))):
            self._shell.look_after()
            if limit is not None and time.monotonic() >= limit:
                return False
        if self._is_closed:
            raise InterfaceError("the server is closed")
        return True


class Connection:
    """A session of a server. A transaction begins with the first statement, or with `begin`, and ends with `commit` or
    `rollback`. `with connection:` commits at its end, and rolls back where an exception leaves it; it doesn't close.

    `read_only` and `deferrable` say of which mode the next transactions are, and `timeout` how many seconds a deferrable one
    waits for a safe snapshot, None for as long as it takes. `transaction` is the number of the present transaction, or of
    the last one: that which a serial order speaks of.

    A transaction belongs to the thread that has begun it, until it has ended or that thread has: another that executes,
    commits or rolls back meanwhile is refused. What two threads did in one transaction would be taken back by either.
    """

    def __init__(self, server: Server, session: int, read_only: bool, deferrable: bool) -> None:
        self.server, self.session = server, session
        self.read_only, self.deferrable = read_only, deferrable
        self.timeout: Optional[float] = 10
        self.transaction: Optional[int] = None
        self._owner: Optional[threading.Thread] = None  # that has begun the transaction
        self._is_closed = False

    @property
    def in_transaction(self) -> bool:
        """Whether a transaction has begun and hasn't ended; one that has failed hasn't."""
        return not (self._is_closed or self.server._is_closed) and self.session in self.server._in_transaction

    def begin(self) -> None:
        """Begins a transaction, whose snapshot is taken now."""
        with self._owned():
            if self.in_transaction:
                raise ActiveSqlTransaction("25001: a transaction has begun")
            mode = " READ ONLY DEFERRABLE" if self.deferrable else " READ ONLY" if self.read_only else ""
            self.transaction = self.server._begin(self.session, "BEGIN" + mode)
            self._owner = threading.current_thread()
            if self.deferrable:
                self._await_safe()

    def _await_safe(self) -> None:
        """Waits for a safe snapshot; rolls back where none comes."""
        try:
            if not self.server._wait_safe(self.session, self.timeout):
                raise ObjectNotInPrerequisiteState(f"55000: no snapshot became safe within {self.timeout} seconds")
        except BaseException:
            with contextlib.suppress(Error):
                self._roll_back()
            raise

    def commit(self) -> None:
        """Commits, where a transaction is there. One that has failed is rolled back, which is told as an exception."""
        with self._owned():
            if self.in_transaction and self.server._end(self.session, "COMMIT").checked().text == "ROLLBACK":
                raise InFailedSqlTransaction("25P02: a statement was refused, so nothing was committed")

    def rollback(self) -> None:
        """Takes back what the transaction has done, where one is there."""
        with self._owned():
            self._roll_back()

    def _roll_back(self) -> None:
        if self.in_transaction:
            self.server._end(self.session, "ROLLBACK").checked()

    def ask(self, command: str) -> str:
        """The answer to EXPORT, IMPORT n, POLL or PRUNE, for which DB-API has no method."""
        if not re.fullmatch(r"EXPORT|IMPORT [0-9]+|POLL|PRUNE", text_of(command)):
            raise ProgrammingError("EXPORT, IMPORT n, POLL and PRUNE can be asked")
        with self._owned():
            return self.server._ask(self.session, [command])[0].checked().text

    def cursor(self) -> "Cursor":
        """A cursor, by which statements are executed and rows fetched."""
        with self._held():
            return Cursor(self)

    def execute(self, operation: str, parameters: Optional[Parameters] = None) -> "Cursor":
        """A new cursor that has executed this."""
        return self.cursor().execute(operation, parameters)

    def close(self) -> None:
        """Rolls back what is open, and gives the session back."""
        with self.server._changed:
            try:
                self._roll_back()
            finally:
                self._is_closed = True
                if self.server._connections.get(self.session) is self:
                    del self.server._connections[self.session]

    def __enter__(self) -> "Connection":
        return self

    def __exit__(self, kind: Optional[Type[BaseException]], *_: object) -> None:
        if kind is None:
            self.commit()
        elif self._is_own():
            self.rollback()

    @contextlib.contextmanager
    def _held(self) -> Iterator[None]:
        """Holds the server's lock, for a connection that isn't closed."""
        with self.server._held():
            if self._is_closed:
                raise InterfaceError("the connection is closed")
            yield

    @contextlib.contextmanager
    def _owned(self) -> Iterator[None]:
        """The same, for a thread whose transaction is open here, or where none is."""
        with self._held():
            if not self._is_own():
                raise ProgrammingError("another thread has a transaction open here: give each thread a connection of its own")
            yield

    def _is_own(self) -> bool:
        """Whether no other thread that goes on has a transaction open here."""
        owner = self._owner
        return not self.in_transaction or owner is None or owner is threading.current_thread() or not owner.is_alive()

    def _answers(self, statements: Sequence[str]) -> List[Answer]:
        """The answers to statements, all of which are sent ahead; a transaction is begun, where none is there."""
        with self._owned():
            if not self.in_transaction:
                self.begin()
            return self.server._ask(self.session, statements)


class Cursor:
    """Statements, one after the other, and the rows of the last one."""

    def __init__(self, connection: Connection) -> None:
        self.connection = connection
        self.arraysize = 1
        self.description: Optional[List[Column]] = None
        self.statusmessage: Optional[str] = None
        self.rowcount = -1
        self._rows: Sequence[bytes] = ()
        self._place = 0
        self._is_closed = False

    def execute(self, operation: str, parameters: Optional[Parameters] = None) -> "Cursor":
        """Executes a statement, with each `%s` replaced by a parameter: None, an int, a str or bytes."""
        self._forget()
        statement = statement_of(operation, parameters)
        answer = self.connection._answers([statement])[0].checked()
        self.statusmessage, self.rowcount, self._rows = answer.text, answer.count, answer.rows
        if answer.text.startswith("SELECT "):
            self.description = _shown(self.connection.server.tables, statement)
        return self

    def executemany(self, operation: str, parameters: Iterable[Parameters]) -> "Cursor":
        """Executes a statement that shows no rows once for each of these, sent ahead of the answers. The first refusal is
        raised; what was sent behind it may have been done: then roll back."""
        self._forget()
        if re.match(r"\s*select\b", text_of(operation), re.ASCII | re.IGNORECASE):
            raise ProgrammingError("a SELECT is executed by itself, so that its rows can be fetched")
        if not isinstance(parameters, Iterable):
            raise ProgrammingError(f"several parameters are an iterable, and no {type(parameters).__name__}")
        count, statements = 0, []
        for values in parameters:
            statements.append(statement_of(operation, values))
            if len(statements) == AHEAD:
                count += self._counted(statements)
                statements = []
        self.rowcount = count + self._counted(statements)
        return self

    def fetchone(self) -> Optional[Row]:
        """The next row, or None."""
        rows = self.fetchmany(1)
        return rows[0] if rows else None

    def fetchmany(self, size: Optional[int] = None) -> List[Row]:
        """The next rows, so many at most."""
        columns = self._columns()
        first, count = self._place, self.arraysize if size is None else size
        if not isinstance(count, int) or count < 0:
            raise ProgrammingError(f"rows are fetched by a number from 0 on, and not by {count!r}")
        self._place = min(first + count, len(self._rows))
        return [_row(columns, line) for line in self._rows[first : self._place]]

    def fetchall(self) -> List[Row]:
        """The rows that are left."""
        return self.fetchmany(len(self._rows))

    def setinputsizes(self, sizes: Sequence[object]) -> None:
        """As PEP 249 wants it: does nothing."""

    def setoutputsize(self, size: int, column: Optional[int] = None) -> None:
        """As PEP 249 wants it: does nothing."""

    def close(self) -> None:
        """Gives up the rows."""
        self._rows = ()
        self._is_closed = True

    def __iter__(self) -> "Cursor":
        return self

    def __next__(self) -> Row:
        row = self.fetchone()
        if row is None:
            raise StopIteration
        return row

    def __enter__(self) -> "Cursor":
        return self

    def __exit__(self, *_: object) -> None:
        self.close()

    def _forget(self) -> None:
        """Nothing was executed yet."""
        if self._is_closed:
            raise InterfaceError("the cursor is closed")
        self.description, self.statusmessage, self.rowcount = None, None, -1
        self._rows, self._place = (), 0

    def _columns(self) -> List[Column]:
        if self._is_closed:
            raise InterfaceError("the cursor is closed")
        if self.description is None:
            raise ProgrammingError("no SELECT was executed")
        return self.description

    def _counted(self, statements: Sequence[str]) -> int:
        """How many rows statements have changed."""
        return sum(answer.checked().count for answer in self.connection._answers(statements)) if statements else 0


def connect(
    schema: Schema = None, dump: Path = None, program: Path = None, events: int = EVENTS, in_process: bool = False
) -> Connection:
    """A connection to a server of its own (`connection.server`), which takes the same words. The server goes on when the
    connection is closed, until it is closed itself or the program ends."""
    return Server(schema, dump, program, events, in_process).connect()
