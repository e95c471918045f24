"""A query whose rows stay on the server until they are asked for: those that come are said, as they come. A cursor shows what
was there as it was opened, so nothing is said once its own transaction has written, or has ended."""

from typing import Any, Sequence

from .plans import Plan
from .session import Session
from .translation import Arguments, Result
from .values import Unsaid


class Serving:
    """One execution of it."""

    def __init__(self, session: Session, plan: Plan, arguments: Arguments) -> None:
        self._session, self._plan, self._arguments = session, plan, arguments
        self._changes = -1  # of the session as it was opened

    def opened(self) -> None:
        """It is opened now."""
        self._changes = self._session.changes

    def say(self, rows: Sequence[Sequence[object]], raw: Any) -> None:
        """Says rows that have come by a cursor."""
        with self._session.lock:
            self._session.guarded(self._say, rows, raw)

    def _say(self, rows: Sequence[Sequence[object]], raw: Any) -> None:
        session, driver = self._session, self._session.driver
        if not rows or not session.is_open or session.changes != self._changes or not driver.is_plain(raw):
            return
        told = self._plan.rows.told(self._arguments, lambda: driver.numbers(raw), session.recorder.attributes, "", True)
        try:
            exchanges = told.exchanges(Result(len(rows), driver.known(raw, rows)))
        except Unsaid:
            return
        session.write("".join([session.asked(command) + session.answered(reply) for command, reply in exchanges]))
