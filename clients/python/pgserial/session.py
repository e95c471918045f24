"""A session of a recording: the transaction that its connection has open, and what is written of it."""

import contextlib
import threading
from typing import Any, Callable, Dict, Iterator, List, NamedTuple, Optional

from .catalog import Table
from .drivers import NOTHING, Driver
from .places import Place
from .returning import Facts
from .temporary import Temporary
from .verdict import HAS_NOT, MAY_COMMIT

_NOWHERE = -1  # the place of what isn't held back
_UNKNOWN = object()
_OWN_FRAMES = 4  # of `Places.place`, `_at`, `asked`, and who calls that
_ENDS = ("COMMIT", "ROLLBACK", "EXPORT", "IMPORT")  # commands that have no place of their own


class Point(NamedTuple):
    """A savepoint: its name, and how much was held back when it was made."""

    name: object
    held: int


class _Lost(Exception):
    """The connection was closed by another thread."""


class Doubt(NamedTuple):
    """Something that the open transaction has written, and that isn't said: why, its text and place; and its place among
    what is held back, -1 where it isn't."""

    why: str
    text: str
    place: str
    at: int


class Session:
    """The session of one connection. Whoever takes a step holds its lock."""

    def __init__(self, recorder: Any, driver: Driver, number: int) -> None:
        self.recorder, self.driver, self.number = recorder, driver, number
        self.lock = threading.RLock()
        self.is_closed = self.is_leaving = False
        self.is_busy = False  # whether a call is under way
        self.calls = 0  # how many have begun
        self.is_open = False  # whether its transaction's BEGIN is written, and its end isn't
        self.is_explicit = False  # whether a BEGIN of the application's own has begun it
        self.is_alone = False  # whether a statement has begun it that is a transaction by itself
        self.has_failed = False  # whether a statement of it has failed
        self.awaits = False  # whether its COMMIT is written, and was refused so that it may be tried again
        self.has_written = False
        self.changes = 0  # how often it has written, or ended a transaction
        self.may_end = False  # whether a statement may commit by itself, as a comment says
        self.begun_by: object = None  # the savepoint that has begun its transaction
        self.doubts: List[Doubt] = []
        self.held: Optional[List[str]] = None  # what is held back, since a savepoint may undo it
        self.points: List[Point] = []
        self._facts: Dict[str, Facts] = {}  # of the tables that it writes, as the connection's role finds them
        self.temporary = Temporary()
        self.prepared: Dict[str, str] = {}  # texts that PREPARE has given a name
        self._place: Any = _UNKNOWN  # that the call which is under way has come from
        self.changes_role = False  # whether that role may have changed, so that they are looked up each time

    def facts(self, table: Table) -> Facts:
        """What the connection may do about a table; nothing where that can't be asked now, as on a database that is locked."""
        found = None if self.changes_role else self._facts.get(table.name)
        if found is not None:
            return found
        if self.driver.begins_by_asking():
            self.write(self.begun())  # what is asked takes the snapshot of the transaction that it begins
        try:
            found = self.driver.facts(table)
        except Exception:
            return NOTHING
        if found is not NOTHING:
            self._facts[table.name] = found
        return found

    # lines

    def asked(self, command: str) -> str:
        """The line of a command, behind its place."""
        return f"{self._at(command)}> {self.number} {command};\n"

    def _at(self, command: str) -> str:
        """The comment that tells the place of a statement, or of a transaction where it begins one."""
        if command.startswith(_ENDS):
            return ""
        places = self.recorder.places
        found: Optional[Place] = self._place
        if found is _UNKNOWN:
            found = places.place(_OWN_FRAMES)
            self._place = found if self.is_busy else _UNKNOWN
        place: Optional[Place] = places.called(found) if command.startswith("BEGIN") else found
        return "" if place is None else place.comment()

    def answered(self, lines: List[str]) -> str:
        """The lines of a reply."""
        if len(lines) == 1:
            return f"  {self.number} {lines[0]}\n"
        start = f"  {self.number} "
        text = "\n".join(lines).replace("\n", "\n" + start)  # what stands for several lines has newlines between these
        return f"{start}{text}\n" if lines else ""

    def exchange(self, command: str, *reply: str) -> str:
        """A command with its reply."""
        return self.asked(command) + self.answered(list(reply))

    def write(self, text: str) -> None:
        """Writes lines, or holds them back."""
        if self.held is not None:
            self.held.append(text)
        else:
            self.recorder.write(text)

    def flush(self) -> None:
        """Writes what was held back."""
        held, self.held, self.points = self.held, None, []
        self.doubts = [doubt._replace(at=_NOWHERE) for doubt in self.doubts]
        if held:
            self.recorder.write("".join(held))

    def may_commit(self) -> str:
        """The comment that stands before a statement which may commit by itself: where the recording is cut off behind it,
        nobody knows whether it has."""
        self.may_end = True
        return MAY_COMMIT.format(self.number) + "\n"

    def wrote(self) -> None:
        """Its transaction has written."""
        self.has_written = True
        self.changes += 1

    def unsaid(self, why: str, text: str) -> None:
        """Something was written that can't be said. Within a transaction that is a matter when it commits."""
        self.wrote()
        if not self.is_open or not self.driver.is_open() or self.may_end:
            self.recorder.spoil(why, text, self.number)
            return
        self.write(f"-- written, {self.recorder.said(why, text)}\n")
        at = _NOWHERE if self.held is None else len(self.held) - 1
        self.doubts.append(Doubt(why, text, self.recorder.place(), at))

    def tell_doubts(self) -> None:
        """What its transaction has written unsaid may have been committed."""
        for doubt in self.doubts:
            self.recorder.spoil(doubt.why, doubt.text, self.number, doubt.place)

    # transactions

    def begun(self) -> str:
        """The lines by which a transaction begins, where none is open."""
        if self.is_open and self.driver.is_open() is False:
            self._ended_unseen()
        if self.is_open:
            return ""
        self.is_open = True
        self.is_alone = self.driver.is_autocommit() and not self.driver.is_open()
        return self.exchange("BEGIN", "BEGIN")

    def _ended_unseen(self) -> None:
        """Its transaction has ended by something that was no step: it may have been rolled back."""
        if self.has_written and not self.driver.is_dead():
            self.recorder.spoil("a transaction ended by a way that isn't recorded", "", self.number)
        else:
            self.recorder.write(self.exchange("ROLLBACK", "ROLLBACK"))
        self.forget()

    def forget(self) -> None:
        """No transaction is open."""
        self.temporary.forget()
        self.changes += 1
        self.is_open = self.is_explicit = self.awaits = self.has_failed = self.has_written = self.may_end = self.is_alone = False
        self.doubts, self.held, self.points, self.begun_by = [], None, [], None

    def committed(self, lines: str) -> None:
        """Its transaction has committed, as these lines tell last."""
        self.tell_doubts()
        self.temporary.committed()
        self.recorder.write(lines, commits=True)
        self.forget()

    def has_autocommitted(self) -> bool:
        """Whether what was a statement has ended its transaction too."""
        is_open = self.driver.is_open()
        if is_open is None:
            return self.driver.is_autocommit() and not self.is_explicit
        return not is_open

    def settle(self, is_done: bool) -> None:
        """Ends the transaction, where the statement that was its last has ended it."""
        if not self.is_open or not self.has_autocommitted():
            if self.may_end:
                self.may_end = False
                self.recorder.write(HAS_NOT.format(self.number) + "\n")
            return
        self.flush()
        # What was open as the connection was closed or lost is rolled back; a statement by itself had ended before.
        if is_done and (self.is_alone or not self.driver.is_dead()):
            self.committed(self.exchange("COMMIT", "COMMIT"))
        else:
            self.recorder.write(self.exchange("ROLLBACK", "ROLLBACK"))
            self.forget()

    def part(self) -> None:
        """Nobody knows whether its COMMIT was done: its number is used no more."""
        self.forget()
        self.number = self.recorder.other_number(self)

    # steps

    def guarded(self, step: Callable[..., Any], *words: Any) -> Any:
        """Takes a part of a step. Whatever goes wrong with it, the application doesn't feel it."""
        if self.recorder.is_over:
            return None
        try:
            return step(*words)
        except Exception as error:
            if not self.driver.is_dead():
                self.recorder.stop(f"a fault of the recorder, {type(error).__name__}: {error}")
            return None

    def finished(self, step: Any) -> None:
        """Takes what comes behind a call. Where another thread has closed the connection meanwhile, nobody knows more than
        where it was lost."""
        try:
            step.after()
        except Exception as error:
            if self.driver.is_dead():
                self.guarded(step.failed, _Lost())
                self.close()
            else:
                self.recorder.stop(f"a fault of the recorder, {type(error).__name__}: {error}")

    def take(self, planned: Callable[[], Any], call: Callable[[], Any]) -> Any:
        """Does a call of the application, as the step that is planned for it."""
        with self.lock:
            if self.is_busy:  # the lock is this thread's: another task of it, or a function that the database calls back
                self.recorder.stop("two tasks use one connection at once")
                return call()
            self.is_busy = True  # from here on: what a step is planned by may ask the database, and let another task go on
            self.calls += 1
            self._place = _UNKNOWN
            try:
                step = None if self.is_closed else self.guarded(planned)
                if step is not None:
                    return self._taken(step, call)
            finally:
                self.is_busy = False
                self._place = _UNKNOWN
            return call()

    @contextlib.contextmanager
    def lasting(self, planned: Callable[[], Any]) -> Iterator[None]:
        """Takes the step that is planned for what the application does in a block."""
        with self.lock:
            if self.is_busy:
                self.recorder.stop("two tasks use one connection at once")
                yield
                return
            self.is_busy = True
            self.calls += 1
            self._place = _UNKNOWN
            try:
                step = None if self.is_closed else self.guarded(planned)
                if step is None:
                    yield
                    return
                self.guarded(step.before)
                try:
                    yield
                except BaseException as error:
                    self.guarded(step.failed, error)
                    raise
                self.finished(step)
            finally:
                self.is_busy = False
                self._place = _UNKNOWN

    def _taken(self, step: Any, call: Callable[[], Any]) -> Any:
        self.guarded(step.before)
        try:
            value = step.does(call)
        except BaseException as error:
            self.guarded(step.failed, error)
            raise
        self.finished(step)
        return value

    def leaves(self) -> None:
        """Its connection is about to be closed. The last one may read what the tables have at the end."""
        if not self.is_leaving:
            self.is_leaving = True
            self.guarded(self.recorder.leaves, self)

    def close(self) -> None:
        """Its connection is closed, which rolls back what is open. Where a COMMIT stays without a reply, the number is
        used no more."""
        with self.lock:
            if self.is_closed:
                return
            self.is_closed = True
            if self.is_open and not self.awaits:
                self.recorder.write(self.exchange("ROLLBACK", "ROLLBACK"))
            if not self.awaits:
                self.recorder.give_back(self)
            self.forget()
