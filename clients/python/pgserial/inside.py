"""A server in this process, by libpgserial.so: what `Server(in_process=True)` stands on."""

from typing import Callable, List, Optional, Sequence

from .answers import Answer, first_of, row_of
from .exceptions import DataError, Error, InterfaceError, OperationalError, OutOfMemory, ProgrammingError
from .library import MEMORY, REFUSED, Conversation, Library, LibraryError

_NO_MEMORY = Answer("ERROR 53200")


class Inside:
    """A server that answers line by line, by calls of the library. It takes no lock: who holds one of these sees to it that
    one thread asks at a time."""

    def __init__(self, library: Optional[str], dump: Optional[str], events: int) -> None:
        self._lost: Optional[str] = None  # why no exchange is possible any more
        try:
            loaded = Library(library)
        except (OSError, AttributeError) as error:
            wanted = "name it by `program`, by $PGSERIAL_LIBRARY, or have it where the system looks"
            raise InterfaceError(f"{error}: {wanted}") from None
        self._talk = self._opened(loaded, dump, events)

    @staticmethod
    def _opened(loaded: Library, dump: Optional[str], events: int) -> Conversation:
        """A server of nothing yet, or on the dump of a path."""
        try:
            if dump is None:
                return loaded.open(events)
            with open(dump, "rb") as file:
                return loaded.open(events, file.read())
        except OSError:
            raise OperationalError(f"device: {dump}") from None
        except LibraryError as error:
            if error.status == REFUSED:
                raise OperationalError(f"dump line {error.line}: {error.text.split(' ')[1]}") from None
            raise _exception(error) from None

    def ask(self, lines: Sequence[str]) -> List[Answer]:
        """The answers to lines."""
        self._look()
        try:
            given = [line.encode("utf-8") for line in lines]
        except UnicodeEncodeError as error:
            raise DataError("a text with half a character can't be sent") from error
        self._lost = "the server is lost: an exchange with it was broken off"
        answers = [self._answer(line) for line in given]
        self._lost = None
        return answers

    def tables(self) -> List[str]:
        """The lines that create the tables, and that of their number."""
        return self._told(self._talk.tables)

    def order(self) -> List[str]:
        """The lines of the serial order since the last checkpoint, and that of its check."""
        return self._told(self._talk.serial_order)

    def dumped(self, session: int, jobs: int) -> str:
        """The dump of a session's safe snapshot, made by this thread alone."""
        if not 1 <= jobs <= 64:
            raise ProgrammingError("a dump has 1 to 64 jobs")
        self._look()
        try:
            return self._talk.dump(session)
        except LibraryError as error:
            if error.status == REFUSED:
                Answer(first_of(error.text.encode())[0].rstrip("\n")).checked()
            raise _exception(error) from None

    def kill(self) -> None:
        """Does nothing: each call returns."""

    def look_after(self) -> None:
        """Does nothing: a server in this process doesn't end by itself."""

    def close(self) -> None:
        """Gives back the server's memory."""
        self._lost = "the server is closed"
        self._talk.close()

    def _look(self) -> None:
        if self._lost:
            raise OperationalError(self._lost)

    def _told(self, call: Callable[[], str]) -> List[str]:
        """The lines that a call gives."""
        self._look()
        try:
            return call().split("\n")[:-1]
        except LibraryError as error:
            raise _exception(error) from None

    def _answer(self, line: bytes) -> Answer:
        """The answer to a line. Where memory is refused before anything is done, that is the answer; where it is refused to the
        answer's text, the line is done and its answer lost, and the server with it."""
        try:
            first, *more = self._talk.ask_bytes(line).split(b"\n")
        except LibraryError as error:
            if error.status == MEMORY and not error.is_done:
                return _NO_MEMORY
            raise _exception(error) from None
        text, count = first_of(first)
        return Answer(text, [row_of(row) for row in more[:count]])


def _exception(error: LibraryError) -> Error:
    """What the library couldn't do, as an exception of this package."""
    return OutOfMemory(str(error)) if error.status == MEMORY else OperationalError(str(error))
