"""The steps of COPY."""

import re
from typing import Callable, Optional

from .copying import Copied, Copying, Given, Teed, copied_by
from .session import Session
from .steps import Executed, LeftOut, Spoils, Step
from .values import Unsaid


class CopiedIn(Spoils):
    """A COPY into a table, whose rows are said."""

    def __init__(self, session: Session, text: str, copying: Copying, cursor: Executed) -> None:
        super().__init__(session, text, "COPY writes", True)
        self._copying, self._cursor = copying, cursor

    def after(self) -> None:
        session = self.session
        try:
            exchanges = self._copying.exchanges(self._cursor.came(False).result.number)
        except Unsaid as unsaid:
            self._why = f"COPY writes: {unsaid}"
            super().after()
            return
        session.wrote()
        session.write("".join([session.asked(command) + session.answered(reply) for command, reply in exchanges]))
        session.settle(True)

    def failed(self, error: BaseException) -> None:
        if self.session.driver.leaves_nothing(error, self._text):
            Step.failed(self, error)
        else:
            Spoils.after(self)  # nobody knows whether it was done


def only_reads(text: str) -> bool:
    """Whether a COPY reads the tables."""
    return re.search(r"\bto\s+(stdout|'|program)", text, re.IGNORECASE) is not None


def copy_of(session: Session, text: str, given: Optional[Given] = None, cursor: Optional[Executed] = None) -> Step:
    """The step of a COPY; `given` has what it copies, where that can be read."""
    if only_reads(text):
        return LeftOut(session, text, "COPY")
    try:
        translator = session.recorder.translator(session.driver)
        return _copied_step(session, text, copied_by(translator.tokens(text, False)), given, cursor)
    except Unsaid as unsaid:
        return Spoils(session, text, f"COPY writes: {unsaid}")


def copied_step(session: Session, copied: Callable[[], Copied], teed: Teed, cursor: Executed) -> Step:
    """The step of psycopg2's `copy_from`."""
    try:
        return _copied_step(session, "copy_from", copied(), teed, cursor)
    except Unsaid as unsaid:
        return Spoils(session, "copy_from", f"COPY writes: {unsaid}", True)


def _copied_step(session: Session, text: str, copied: Copied, given: Optional[Given], cursor: Optional[Executed]) -> Step:
    recorder = session.recorder
    if given is None or cursor is None:
        raise Unsaid("its rows aren't known")
    translator = recorder.translator(session.driver)
    if translator.names.is_ignored(copied.table.name):
        raise Unsaid("the table isn't recorded")
    return CopiedIn(session, text, Copying(translator, recorder.spelling, copied, given.text), cursor)
