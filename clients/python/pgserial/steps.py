"""The steps of a session: what is written of each call of the application, before it and when it has come back."""

import re
from typing import Any, Callable, Iterable, List, Optional, Tuple

from . import temporary
from .cascades import Counts
from .drivers import Came, Driver
from .effects import Control, control_of, is_beside, parts_of
from .session import Point, Session
from .sql import Constant, tokens_of
from .origins import Rows
from .plans import Plan
from .prepared import Execution, Prepared, executed_by, prepared_by
from .returning import Addition
from .serving import Serving
from .translation import Arguments, Told
from .values import Unsaid
from .verdict import HAS_NOT

# First words of a statement that ends no transaction, where it stands alone.
_STAYS = frozenset("insert update delete select with merge truncate copy create alter drop comment grant revoke call".split())
_ROLE = re.compile(r"\brole\b|\bauthorization\b|^\s*(?:reset|discard)\b", re.IGNORECASE)  # what may change the role


class Step:
    """What is written before a call of the application, and after it, or where it has failed."""

    addition: Optional[Addition] = None  # what is added to the text that is sent
    serving: Optional[Serving] = None  # what says rows that come later

    is_asked = False  # whether the command of it is written

    def __init__(self, session: Session) -> None:
        self.session = session

    def before(self) -> None:
        """What is written before the call."""
        if self.session.awaits:
            self.session.recorder.stop("a statement came behind a COMMIT that had failed")
        else:
            self.session.write(self.session.begun())

    def does(self, call: Callable[[], Any]) -> Any:
        """Does the call."""
        return call()

    def after(self) -> None:
        """What is written when it has come back."""
        self.session.settle(True)

    def failed(self, error: BaseException) -> None:
        """What is written when it has raised."""
        self.session.has_failed = True
        self.session.settle(False)

    def error(self, error: BaseException) -> str:
        """The reply of an error."""
        return self.session.answered([f"ERROR {self.session.driver.code(error)}"])


class Begin(Step):
    """A BEGIN of the application's own."""

    def __init__(self, session: Session, command: str = "BEGIN") -> None:
        super().__init__(session)
        self._command = command

    def before(self) -> None:
        self.is_asked = not self.session.is_open
        if self.is_asked:
            self.session.write(self.session.asked(self._command))

    def after(self) -> None:
        if self.is_asked:
            self.session.is_open = self.session.is_explicit = True
            self.session.write(self.session.answered(["BEGIN"]))

    def failed(self, error: BaseException) -> None:
        if self.is_asked:
            self.session.write(self.error(error))


class End(Step):
    """What ends a transaction, by a statement or by a method of the connection: that of psycopg2 does nothing about a
    transaction which a statement has begun in autocommit."""

    def __init__(self, session: Session, is_method: bool = False) -> None:
        super().__init__(session)
        self._is_method = is_method

    def ends(self) -> bool:
        """Whether there is something that it ends."""
        return self.session.is_open and not (self._is_method and self.session.driver.methods_are_void())


class Commit(End):
    """A COMMIT. One of a failed transaction rolls it back; one whose connection is lost may have been done."""

    def before(self) -> None:
        session = self.session
        self._reply = "COMMIT"
        if not self.ends():
            return
        if session.driver.is_dead():
            session.recorder.write(session.exchange("ROLLBACK", "ROLLBACK"))
            session.forget()
            return
        self.is_asked = True
        self._reply = "ROLLBACK" if session.driver.is_failed() else "COMMIT"
        if not session.awaits:
            session.flush()
            ahead = session.may_commit() if session.doubts and self._reply == "COMMIT" else ""
            session.write(ahead + session.asked("COMMIT"))

    def after(self) -> None:
        if not self.is_asked:
            return
        session = self.session
        reply = session.answered([self._reply])
        if session.has_failed and not session.driver.tells_failure():
            session.part()  # some databases roll back what has failed, others don't, and the driver doesn't tell
        elif self._reply == "COMMIT":
            if session.doubts:
                session.write(session.answered(["ERROR 0A000"]))  # what has committed can't be said
            session.committed(reply)
        else:
            session.recorder.write(reply)
            session.forget()

    def failed(self, error: BaseException) -> None:
        session = self.session
        if not self.is_asked:
            return
        if not session.driver.is_answer(error):
            session.tell_doubts()
            session.part()
        elif session.driver.is_open():
            session.awaits = True
        else:
            session.write(self.error(error) + (HAS_NOT.format(session.number) + "\n" if session.may_end else ""))
            session.forget()


class Rollback(End):
    """A ROLLBACK."""

    def before(self) -> None:
        session = self.session
        self.is_asked = self.ends()
        if self.is_asked and not session.awaits:
            session.held, session.points = None, []
            session.write(session.asked("ROLLBACK"))

    def after(self) -> None:
        if self.is_asked:
            self.session.write(self.session.answered(["ROLLBACK"]))
            self.session.forget()

    def failed(self, error: BaseException) -> None:
        if self.is_asked and self.session.driver.is_open() and not self.session.awaits:
            self.session.write(self.error(error))
        else:
            self.after()


class Savepoint(Step):
    """SAVEPOINT, RELEASE, and ROLLBACK TO, before which nothing of what it may undo is written."""

    def __init__(self, session: Session, control: Control) -> None:
        super().__init__(session)
        self._control = control
        self._begins = False

    def before(self) -> None:
        session, control = self.session, self._control
        self._begins = control.does == "savepoint" and session.driver.is_open() is False
        super().before()
        if control.does == "release" and control.name == session.begun_by:
            session.recorder.write(session.may_commit())

    def after(self) -> None:
        session, name = self.session, self._control.name
        if self._control.does == "savepoint":
            session.begun_by = name if self._begins else session.begun_by
            session.held = [] if session.held is None else session.held
            session.points.append(Point(name, len(session.held)))
            return
        at = max((at for at, point in enumerate(session.points) if point.name == name), default=None)
        if at is None:
            session.recorder.spoil("a savepoint that isn't recorded", f"{self._control.does} {name}", session.number)
        elif self._control.does == "release":
            del session.points[at:]
            if not session.points:
                session.flush()
            session.settle(True)
        else:
            self._undo(at)

    def _undo(self, at: int) -> None:
        session = self.session
        assert session.held is not None
        session.has_failed = False
        session.changes += 1
        session.temporary.forget()
        start = session.points[at].held
        undone = session.held[start:]
        del session.held[start:]
        del session.points[at + 1 :]
        session.doubts = [doubt for doubt in session.doubts if doubt.at < start]
        if undone:
            session.recorder.leave_out("ROLLBACK TO", "what a savepoint undoes is left out, with what was read between")


class Snapshot(Step):
    """What exports a snapshot, or takes one over."""

    def __init__(self, session: Session, control: Control, cursor: "Executed") -> None:
        super().__init__(session)
        self._control, self._cursor = control, cursor

    def after(self) -> None:
        session = self.session
        if self._control.does == "export":
            number = session.recorder.snapshot(self._cursor.came(True).result.rows[0][0])
            session.write(session.exchange("EXPORT", f"EXPORT {number}"))
        else:
            session.write(session.exchange(f"IMPORT {session.recorder.snapshot(self._control.name)}", "IMPORT"))
        session.settle(True)


class Executed:
    """A cursor on which a statement is executed: what came of it, whose rows are kept for the application."""

    def __init__(self, driver: Driver, raw: Callable[[], Any], keep: Callable[[Came], None], adds: bool = False) -> None:
        self._driver, self.raw, self._keep = driver, raw, keep
        self.adds = adds  # whether what a step adds to a text is sent

    def sent(self, value: object) -> object:
        """What the driver sends in place of a value."""
        return self._driver.sent(value, self.raw())

    def are_sent(self, kinds: Iterable[type]) -> bool:
        """Whether the driver sends numbers or texts, which are these classes, as they are."""
        return self._driver.sends_own(kinds, self.raw())

    def came(self, shows: bool, addition: Optional[Addition] = None) -> Came:
        """What came of it. The application doesn't see what was added."""
        came = self._driver.came(self.raw(), shows)
        if came.ahead is not None and not self.adds:
            self._driver.rewind(self.raw())
            came = came._replace(ahead=None)
        if addition is None:
            self._keep(came)
            return came
        served = came.served if came.served is not None else came.shown
        rows = [] if addition.is_alone else [row[: len(row) - addition.hidden] for row in served]
        self._keep(came._replace(served=rows))
        return came


class Statement(Step):
    """A statement that is said. One that writes a row of a known key and is a transaction by itself is told ahead, with
    its COMMIT, so that wherever the recording is cut off it may have been done or not."""

    def __init__(
        self, session: Session, told: Told, text: str, cursor: Executed, addition: Optional[Addition] = None
    ) -> None:
        self.session = session
        self._told, self._text, self._cursor, self.addition = told, text, cursor, addition
        self.by_rows: Optional[Callable[[str], Told]] = None  # how a query is said that can't be said as it stands
        self._is_ahead = False
        self._counts: Optional[Counts] = None  # of rows that were changed before it
        self._came: Optional[Came] = None

    def before(self) -> None:
        session, told = self.session, self._told
        if session.awaits:
            super().before()
            return
        begins = session.begun()
        self._is_ahead = bool(begins) and told.surely is not None and self._is_alone()
        self.is_asked = told.first is not None and session.held is None
        lines = begins + session.asked(told.first or "") if self.is_asked else begins
        if self._is_ahead:
            lines += session.answered([told.surely or ""]) + session.asked("COMMIT")
        elif begins and told.writes and session.driver.may_commit(self._text):
            lines = session.may_commit() + lines
        if lines:
            session.write(lines)
        if told.cascades is not None:
            self._counts = session.driver.counts(told.cascades.all)

    def does(self, call: Callable[[], Any]) -> Any:
        look = self._told.look()
        if look is None:
            return call()
        return self.session.driver.looking(look, self._told.looked, call, lambda: self.session.guarded(self._fetch))

    def _fetch(self) -> Came:
        """What came of it."""
        if self._came is None:
            self._came = self._cursor.came(self._told.shows, self.addition)
        return self._came

    def _is_alone(self) -> bool:
        return self.session.driver.is_autocommit() and not self.session.driver.is_open()

    def after(self) -> None:
        session, told = self.session, self._told
        try:
            came = self._fetch()
            if came.error is not None:
                raise Unsaid("its rows couldn't be read")
            exchanges = told.exchanges(came.result)
            if told.cascades is not None:
                exchanges += told.cascaded(came.result, self._counts, session.driver.counts(told.cascades.all))
        except Unsaid as unsaid:
            self._cannot_be_said(str(unsaid))
            return
        if told.left_out is not None:
            session.recorder.leave_out(self._text, told.left_out)
        if self._is_ahead:
            self._told_ahead(exchanges[0][1][0])
            return
        if told.writes:
            session.wrote()
        self._write(exchanges)
        session.settle(True)

    def _write(self, exchanges: List[Tuple[str, List[str]]]) -> None:
        session = self.session
        if self.is_asked and len(exchanges) == 1:
            session.write(session.answered(exchanges[0][1]))
            return
        lines = [session.asked(command) + session.answered(reply) for command, reply in exchanges]
        if self.is_asked and exchanges:
            lines[0] = session.answered(exchanges[0][1])
        session.write("".join(lines))

    def _told_ahead(self, reply: str) -> None:
        """It was a transaction by itself, told ahead: whether it was done so."""
        session = self.session
        if not session.has_autocommitted():
            session.recorder.spoil("a statement in autocommit has begun a transaction", self._text, session.number)
        elif reply == self._told.surely:
            session.committed(session.answered(["COMMIT"]))
        else:
            session.recorder.leave_out(self._text, "a statement in autocommit that changed nothing")
            session.recorder.write(session.answered(["ROLLBACK"]))
            session.forget()

    def _cannot_be_said(self, why: str) -> None:
        session = self.session
        if self.is_asked and not self._is_ahead:
            session.write(session.answered(["ERROR 0A000"]))
        if self._told.writes:
            session.unsaid(why, self._text)
        else:
            self._say_rows(why)
        session.settle(True)

    def _say_rows(self, why: str) -> None:
        """Says the rows that a query has returned, and counts what else it has read."""
        session = self.session
        try:
            if self.by_rows is not None and self._came is not None and self._came.error is None:
                told = self.by_rows(why)
                self.is_asked = False
                self._write(told.exchanges(self._came.result))
                if told.left_out is None:
                    return
        except Unsaid:
            pass
        session.recorder.leave_out(self._text, why)

    def failed(self, error: BaseException) -> None:
        session = self.session
        is_answer = session.driver.is_answer(error)
        if self._is_ahead:
            self._failed_ahead(is_answer)
            return
        if self.is_asked:
            session.write(self.error(error))
        if self._told.writes and not is_answer:
            self._broken_off()
        super().failed(error)

    def _broken_off(self) -> None:
        """Nobody knows whether a write was done; nor, where it was a transaction by itself, whether that has committed."""
        session, why = self.session, "a write was broken off, and nobody knows whether it was done"
        if session.may_end or (session.driver.is_autocommit() and session.has_autocommitted()):
            session.recorder.spoil(why, self._text, session.number)
        elif not session.driver.is_dead():
            session.unsaid(why, self._text)

    def _failed_ahead(self, is_answer: bool) -> None:
        session = self.session
        if is_answer:
            session.recorder.write(session.answered(["ROLLBACK"]))
            session.forget()
        else:
            session.part()


class Beside(Step):
    """What speaks of no recorded rows. By itself it is no transaction."""

    def before(self) -> None:
        session = self.session
        if session.is_open or session.driver.is_open() or not session.driver.is_autocommit():
            super().before()


class LeftOut(Beside):
    """A statement that can't be said, and only reads."""

    def __init__(self, session: Session, text: str, why: str) -> None:
        super().__init__(session)
        self._text, self._why = text, why

    def after(self) -> None:
        self.session.recorder.leave_out(self._text, self._why)
        super().after()


class Served(LeftOut):
    """A query whose rows stay on the server."""

    def __init__(self, session: Session, text: str, serving: Optional[Serving]) -> None:
        super().__init__(session, text, "its rows stay on the server")
        self.serving = serving

    def after(self) -> None:
        super().after()
        if self.serving is not None:
            self.serving.opened()


class Prepares(Beside):
    """A PREPARE, which does nothing yet."""

    def __init__(self, session: Session, prepared: Prepared) -> None:
        super().__init__(session)
        self._prepared = prepared

    def after(self) -> None:
        self.session.prepared[self._prepared.name] = self._prepared.text
        super().after()


class OfTemporary(Beside):
    """What makes, writes or drops temporary tables; `why` tells what is read for it, where something is."""

    def __init__(self, session: Session, text: str, why: Optional[str], tokens: List[Any]) -> None:
        super().__init__(session)
        self._text, self._why, self._tokens = text, why, tokens

    def after(self) -> None:
        temporary.done(self._tokens, self.session.temporary)
        if self._why is not None:
            self.session.recorder.leave_out(self._text, self._why)
        if not self.session.is_open:
            self.session.temporary.committed()
            self.session.temporary.forget()
        super().after()


class Spoils(Step):
    """What can't be said, and may write: where it is done and commits, nothing behind it is judged. `stays` tells that it
    can't end its transaction."""

    def __init__(self, session: Session, text: str, why: str, stays: Optional[bool] = None) -> None:
        super().__init__(session)
        self._text, self._why = text, why
        self._stays = stays_open(text) if stays is None else stays

    def before(self) -> None:
        super().before()
        session = self.session
        if not self._stays or session.driver.may_commit(self._text):
            session.recorder.write(session.may_commit())

    def after(self) -> None:
        self.session.unsaid(self._why, self._text)
        self.session.settle(True)

    def failed(self, error: BaseException) -> None:
        if self.session.driver.leaves_nothing(error, self._text):
            super().failed(error)
        else:
            self.after()


class NoText(Spoils):
    """What is executed and can't be read as a text. Where the driver finds fault with it too, nothing is done."""

    def __init__(self, session: Session, operation: Any) -> None:
        super().__init__(session, type(operation).__name__, "what is executed is no text", False)

    def failed(self, error: BaseException) -> None:
        if self.session.driver.is_answer(error):
            Step.failed(self, error)
        else:
            self.after()


class Many(Step):
    """A statement that the driver executes for many parameters at once."""

    def __init__(self, session: Session, told: List[Told], text: str, cursor: Executed) -> None:
        super().__init__(session)
        self._told, self._text, self._cursor = told, text, cursor

    def before(self) -> None:
        super().before()
        session = self.session
        if session.driver.may_commit(self._text):
            session.recorder.write(session.may_commit())

    def after(self) -> None:
        session = self.session
        count = self._cursor.came(False).result.number if self._told else 0
        if count != len(self._told) or not all(told.surely for told in self._told):
            session.unsaid("nobody tells how many rows each of these changed", self._text)
        else:
            session.write("".join([session.exchange(told.first or "", told.surely or "") for told in self._told]))
            session.wrote()
        session.settle(True)

    def failed(self, error: BaseException) -> None:
        if not self.session.driver.is_answer(error):
            self.session.unsaid("writes were broken off, and nobody knows whether they were done", self._text)
        super().failed(error)


class Inner(Step):
    """The end of a transaction of psycopg within one, which is a savepoint."""

    def __init__(self, session: Session, name: object, is_kept: bool) -> None:
        super().__init__(session)
        self._name, self._is_kept = name, is_kept

    def after(self) -> None:
        if not self._is_kept:
            Savepoint(self.session, Control("undo", self._name)).after()
        Savepoint(self.session, Control("release", self._name)).after()

    def failed(self, error: BaseException) -> None:
        # psycopg passes the application's exception on when it has rolled back to the savepoint.
        if self.session.driver.is_open() and not self.session.driver.is_failed():
            self._is_kept = False
            self.after()


class Setting(Step):
    """An attribute of sqlite3's connection that is set, which may commit."""

    def before(self) -> None:
        session = self.session
        if session.is_open and not session.awaits:
            session.recorder.write(session.may_commit())

    def after(self) -> None:
        session = self.session
        if session.is_open and session.driver.is_open() is False:
            session.flush()
            session.committed(session.exchange("COMMIT", "COMMIT"))
        else:
            session.settle(True)

    def failed(self, error: BaseException) -> None:
        self.after()


class Script(Commit):
    """sqlite3's `executescript`: it commits what is open, and then does statements of any kind."""

    def __init__(self, session: Session, text: str) -> None:
        super().__init__(session)
        self._text = text
        self._why = self._why_it_writes()

    def before(self) -> None:
        super().before()
        if self._why is not None:
            self.session.recorder.write(self.session.may_commit())

    def after(self) -> None:
        if self._why is not None:
            self.session.recorder.spoil(self._why, self._text, self.session.number)
        super().after()
        self.session.may_end = False

    def failed(self, error: BaseException) -> None:
        self.after()

    def _why_it_writes(self) -> Optional[str]:
        recorder, tokens = self.session.recorder, tokens_of(self._text, "qmark", False)
        parts = parts_of(tokens)
        if any(control_of(part) for part in parts):
            return "a script has transactions"
        if all(is_beside(part) for part in parts):
            return None
        why: Optional[str] = recorder.translator(self.session.driver).why_it_may_write(tokens)
        if why is None:
            recorder.leave_out(self._text, "a script")
        return why


# ---- the step of a call


def stays_open(text: str) -> bool:
    """Whether a text is one statement that can't end its transaction."""
    words = text.strip().rstrip(";").rstrip().split(None, 1)
    return bool(words) and words[0].lower() in _STAYS and ";" not in text.strip().rstrip(";")


def _plan_of(session: Session, text: str, is_given: bool) -> Plan:
    recorder = session.recorder
    plan: Plan = recorder.translator(session.driver).plan(recorder.spelling, text, is_given)
    return plan


def step_of(session: Session, text: str, parameters: Any, cursor: Executed, is_served: bool) -> Step:
    """The step of executing a text. `is_served` tells that its rows stay on the server, so that they can't be told."""
    plan = _plan_of(session, text, parameters is not None)
    if plan.control is not None:
        return _control_step(session, plan.control, cursor)
    if plan.saying is None and plan.effect is None and plan.rows is None:
        known = _known_step(session, text, parameters, cursor) if plan.writes is not None else None
        return known or _unsaid_step(session, text, plan.why, plan.writes)
    if is_served:
        if plan.effect is not None or (plan.saying is not None and plan.saying.writes):
            return _unsaid_step(session, text, "its rows stay on the server", "it writes")
        return Served(session, text, Serving(session, plan, Arguments(parameters, cursor.sent)) if plan.rows is not None else None)
    return _statement(session, plan, text, Arguments(parameters, cursor.sent), cursor)


def _statement(session: Session, plan: Plan, text: str, arguments: Arguments, cursor: Executed) -> Step:
    """The step of a statement that is said as it stands, or by its rows."""
    told: Optional[Told] = None
    why, writes = plan.why, plan.writes
    if plan.saying is not None:
        writes = "it writes" if plan.saying.writes else None
        try:
            told = plan.templates.told(arguments.parameters, cursor.are_sent) if plan.templates is not None else None
            told = told or plan.saying.told(arguments)
        except Unsaid as unsaid:
            why = str(unsaid)
    if told is not None and (told.is_sure or plan.effect is None):
        addition = None if told.is_whole else _keys_added(session, plan, arguments, cursor)
        return _with_rows(Statement(session, told, text, cursor, addition), session, plan, arguments, cursor)
    if plan.rows is not None:
        addition = _keys_added(session, plan, arguments, cursor)
        return _with_rows(Statement(session, Unknown(why or ""), text, cursor, addition), session, plan, arguments, cursor)
    if plan.effect is not None:
        try:
            return _effect_step(session, plan, text, arguments, cursor)
        except Unsaid as unsaid:
            why = str(unsaid) if plan.saying is None else why
    return Statement(session, told, text, cursor) if told is not None else _unsaid_step(session, text, why, writes)


def _known_step(session: Session, text: str, parameters: Any, cursor: Executed) -> Optional[Step]:
    """The step of what is known by what the connection has done before: it speaks of temporary tables alone, or of a statement
    that was prepared. None of any other."""
    translator = session.recorder.translator(session.driver)
    try:
        tokens = translator.tokens(text, parameters is not None)
        plan = temporary.of(tokens, session.temporary, translator)
        if plan is not None and plan.writes is None:
            return OfTemporary(session, text, plan.why, tokens)
        made = prepared_by(tokens, text)
        if made is not None:
            return Prepares(session, made)
        return _executed_step(session, text, executed_by(tokens, translator.reading), Arguments(parameters, cursor.sent), cursor)
    except Unsaid:
        return None


def _executed_step(
    session: Session, text: str, execution: Optional[Execution], given: Arguments, cursor: Executed
) -> Optional[Step]:
    """The step of an EXECUTE, where what was prepared can be said as it stands."""
    prepared = session.prepared.get(execution.name) if execution is not None else None
    if execution is None or prepared is None:
        return None
    values = [value.value if isinstance(value, Constant) else given.value(value.key) for value in execution.values]
    plan = session.recorder.translator(session.driver).prepared().plan(session.recorder.spelling, prepared, True)
    arguments = Arguments(values)
    if plan.saying is not None:
        told: Told = plan.saying.told(arguments)
        return _with_rows(Statement(session, told, text, cursor), session, plan, arguments, cursor) if told.is_sure else None
    return _with_rows(Statement(session, Unknown(plan.why or ""), text, cursor), session, plan, arguments, cursor) if plan.rows else None


class Unknown(Told):
    """A query that can't be said as it stands."""

    writes, shows = False, True

    def __init__(self, why: str) -> None:
        self._why = why

    def exchanges(self, result: Any) -> List[Any]:
        raise Unsaid(self._why)


def _with_rows(step: Statement, session: Session, plan: Plan, arguments: Arguments, cursor: Executed) -> Statement:
    """A step that says a query's rows, where it can't be said as it stands."""
    if plan.rows is not None:
        rows: Rows = plan.rows
        step.by_rows = lambda why: rows.told(arguments, lambda: session.driver.numbers(cursor.raw()), session.recorder.attributes, why)
    return step


def _keys_added(session: Session, plan: Plan, arguments: Arguments, cursor: Executed) -> Optional[Addition]:
    """What is added to a query that may have to be said by its rows, so that their keys are shown."""
    rows = plan.rows
    if rows is None or not rows.added or not cursor.adds or not session.driver.is_plain(cursor.raw()):
        return None
    if not all(session.facts(table).may_return for table in rows.tables):
        return None
    addition: Optional[Addition] = rows.addition(session.driver.doubles(arguments.are_given))
    return addition


def _effect_step(session: Session, plan: Plan, text: str, arguments: Arguments, cursor: Executed) -> Step:
    """The step of a write that is said by its rows."""
    effect = plan.effect
    if not cursor.adds:
        raise Unsaid("nothing can be added to what is sent")
    facts = session.facts(effect.table)
    if not facts.may_return:
        raise Unsaid("the rows that it writes can't be shown")
    told = effect.told(arguments, facts)
    addition = effect.addition(facts, session.driver.doubles(arguments.are_given))
    if addition is not None and not addition.is_alone and not session.driver.is_plain(cursor.raw()):
        raise Unsaid("its rows are no tuples, so that what is added to them can't be hidden")
    return Statement(session, told, text, cursor, addition)


def _control_step(session: Session, control: Control, cursor: Executed) -> Step:
    if control.does == "begin":
        return Begin(session, str(control.name))
    if control.does in ("commit", "rollback"):
        return Commit(session) if control.does == "commit" else Rollback(session)
    if control.does in ("export", "import"):
        return Snapshot(session, control, cursor)
    return Savepoint(session, control)


def _unsaid_step(session: Session, text: str, why: Optional[str], writes: Optional[str]) -> Step:
    if _ROLE.search(text):
        session.changes_role = True
    if why is None:
        return Beside(session)
    if writes is None:
        return LeftOut(session, text, why)
    return Spoils(session, text, why if writes == "it writes" else f"{why}; {writes}")


def is_written(session: Session, text: str) -> bool:
    """Whether a text for several parameters is a write that can be said."""
    plan = _plan_of(session, text, True)
    return plan.effect is not None or (plan.saying is not None and bool(plan.saying.writes))


def is_looped(session: Session, text: str) -> bool:
    """Whether it is executed once for each. Not so where psycopg makes one transaction of all."""
    driver = session.driver
    is_one = driver.own_transactions and driver.is_autocommit() and not driver.is_open()
    return is_written(session, text) and not is_one


def many_of(session: Session, text: str, several: List[Any], cursor: Executed) -> Step:
    """The step of executing a text for several parameters by one call of the driver."""
    plan = _plan_of(session, text, True)
    if plan.control is not None:
        return _control_step(session, plan.control, cursor)
    if plan.saying is None:
        return _unsaid_step(session, text, plan.why, plan.writes)
    if not plan.saying.writes:
        return LeftOut(session, text, "executemany of a SELECT")
    try:
        return Many(session, [plan.saying.told(Arguments(parameters, cursor.sent)) for parameters in several], text, cursor)
    except Unsaid as unsaid:
        return Spoils(session, text, str(unsaid))
