"""pgserial's calls in this process, by libpgserial.so: a script's text in, its output out.

    from pgserial.library import Library

    library = Library()
    print(library.run(script))          # the replies to its lines
    print(library.audit(script))        # the serial order of what it committed
    print(library.check(transcript))    # whether some serial order explains a transcript, and why not
    print(library.explore(script))      # the outcomes of every interleaving of its sessions
    with library.open() as talk:        # a server that is kept between calls
        print(talk.ask("1 BEGIN;"))

Each of these but the last keeps nothing. Threads may share a Library: a call gives the interpreter's lock back while it runs.
"""
import ctypes
import os
from typing import Any, Callable, Container, NamedTuple, Optional, Tuple, Union

from .bundle import bundled

ABI = 3
NAME = f"libpgserial.so.{ABI}"
MOST_EVENTS = 100_000
MOST_SCHEDULES = 1_000_000
DONE, REFUSED, NEEDS_ROOM, FULL, MEMORY, NO_TEXT, DEVICE, MISUSE, UNPRINTED, NO_ORDER, UNKNOWN, TOO_MANY = range(12)
ANSWERS = {DONE: "yes", NO_ORDER: "no", UNKNOWN: "unknown"}  # of a check
WORDS = {
    REFUSED: "line {line}",
    FULL: "54000: there is to be room for no event",
    MEMORY: "53200: out of memory",
    NO_TEXT: "22021: the text isn't UTF-8",
    DEVICE: "line {line}: there are no files for an OPEN or a DUMP",
    MISUSE: "the arguments can't be right",
    TOO_MANY: "there are more schedules than may be run",
}
FIRST_ROOM = 1 << 12  # bytes
# How many bits the numbers have that a call takes, as pgserial.h declares them.
EVENTS_BITS, SESSION_BITS, SCHEDULES_BITS, SIZE_BITS = 32, 32, 64, 8 * ctypes.sizeof(ctypes.c_size_t)
Text = Union[str, bytes, bytearray, memoryview]
Value = Union[None, int, str, bytes, bytearray, memoryview]  # of a literal's place


class LibraryError(Exception):
    """Why a text wasn't done: the status, its line (0 where it is none's matter), and the output of the lines before; or what
    is told of a dump. `is_done` where a line is done and memory was refused to its answer alone."""

    def __init__(self, status: int, line: int, text: str, is_done: bool = False) -> None:
        super().__init__(WORDS.get(status, f"status {status}").format(line=line))
        self.status, self.line, self.text, self.is_done = status, line, text, is_done


class Checked(NamedTuple):
    """What a check answers, `yes`, `no` or `unknown`, and what `pgserial check` prints of it."""

    answer: str
    text: str

    def __str__(self) -> str:
        return self.text


class _Report(ctypes.Structure):
    _fields_ = [("length", ctypes.c_size_t), ("line", ctypes.c_uint64)]


class _Handle(ctypes.Structure):
    _fields_ = [("at", ctypes.c_void_p), ("is_open", ctypes.c_ubyte)]


class Prepared(NamedTuple):
    """A line that a conversation has read once: its number there, and how many places it has, which are its literals."""

    number: int
    places: int


class Conversation:
    """A server that is kept between calls, which answers lines as `pgserial shell` does. `with library.open() as talk:` closes
    it. One thread uses it at a time. Where memory is refused (`MEMORY`), nothing has changed, and it goes on."""

    def __init__(self, library: "Library", most_events: int, dump: Optional[Text] = None) -> None:
        self._loaded, self._handle, self._report = library._loaded, _Handle(), _Report()
        self._words = ctypes.byref(self._handle), ctypes.byref(self._report)
        self._out = ctypes.create_string_buffer(FIRST_ROOM)
        if dump is None:
            self._check(self._loaded.pgserial_open(self._words[0], _fitting("the number of events", most_events, EVENTS_BITS)))
            return
        given, out, most_events = _bytes(dump), self._out, _fitting("the number of events", most_events, EVENTS_BITS)
        status = self._loaded.pgserial_open_dump(self._words[0], given, len(given), most_events, out, len(out), self._words[1])
        self._check(status, ctypes.string_at(out, self._report.length).decode())

    def __enter__(self) -> "Conversation":
        return self

    def __exit__(self, *_: object) -> None:
        self.close()

    def _check(self, status: int, text: str = "") -> None:
        if status != DONE:
            raise LibraryError(status, self._report.line, text)

    def _answer(self, status: int) -> bytes:
        """The answer of a call that has ended so."""
        if status not in (DONE, REFUSED, UNPRINTED):
            self._check(status)
        handle, report = self._words
        out = self._out
        made = self._loaded.pgserial_reply(handle, out, FIRST_ROOM, report)
        if made == NEEDS_ROOM:
            out = ctypes.create_string_buffer(self._report.length)
            made = self._loaded.pgserial_reply(handle, out, len(out), report)
        if made != DONE:
            raise LibraryError(made, 0, "", is_done=True)
        text = ctypes.string_at(out, self._report.length)
        if status == REFUSED:
            raise LibraryError(status, 0, text.decode())
        return text

    def ask_bytes(self, line: bytes) -> bytes:
        """The answer to a line of bytes, which has no newline."""
        handle, report = self._words
        return self._answer(self._loaded.pgserial_call(handle, line, len(line), report))

    def ask(self, line: Text) -> str:
        """The answer to a line, which has no newline."""
        return self.ask_bytes(_bytes(line)).decode("utf-8", "backslashreplace")

    def prepare(self, line: Text) -> Prepared:
        """A Prepared: a session's line, which has no newline, read once."""
        given, (handle, report) = _bytes(line), self._words
        status = self._loaded.pgserial_prepare(handle, given, len(given), report)
        if status != DONE:
            raise LibraryError(status, 0, "")
        return Prepared(self._report.line, self._report.length)

    def _bind(self, number: int, place: int, value: Value) -> int:
        handle, status = self._words[0], MISUSE
        if value is None:
            status = self._loaded.pgserial_bind_null(handle, number, place)
        elif not isinstance(value, int):
            given = _bytes(value)
            bind = self._loaded.pgserial_bind_text if isinstance(value, str) else self._loaded.pgserial_bind_bytea
            status = bind(handle, number, place, given, len(given))
        elif -(1 << 63) <= value < 1 << 63:
            status = self._loaded.pgserial_bind_bigint(handle, number, place, value)
        return status

    def execute(self, line: Prepared, *values: Value) -> int:
        """How many rows a Prepared of this conversation shows or has changed, with these values (None, an int, a str or bytes) for
        its first places; the others have those that they had last. `answer` has its reply."""
        number = _fitting("the number of a line", line.number, SIZE_BITS)
        for place, value in enumerate(values, 1):
            status = self._bind(number, place, value)
            if status != DONE:
                raise LibraryError(status, 0, "")
        status = self._loaded.pgserial_execute(self._words[0], number, self._words[1])
        if status == DONE:
            rows: int = self._report.line
            return rows
        if status != REFUSED:
            raise LibraryError(status, 0, "")
        raise LibraryError(status, 0, self.answer())

    def answer(self) -> str:
        """The last answer."""
        return self._answer(DONE).decode("utf-8", "backslashreplace")

    def forget(self) -> None:
        """Forgets the lines that were read once."""
        self._check(self._loaded.pgserial_forget(self._words[0]))

    def dump(self, session: int) -> str:
        """A dump of the safe snapshot of a session's transaction."""
        handle, report = self._words
        session = _fitting("the number of a session", session, SESSION_BITS)
        return self._answer(self._loaded.pgserial_dump(handle, session, report)).decode("utf-8")

    def serial_order(self) -> str:
        """The committed transactions since the last checkpoint in the serial order, and the check of that."""
        return self._answer(self._loaded.pgserial_serial_order(*self._words)).decode()

    def tables(self) -> str:
        """The CREATE TABLE lines of the tables, and their number."""
        return self._answer(self._loaded.pgserial_tables(*self._words)).decode()

    def close(self) -> None:
        """Gives back the server's memory; nothing where that was done."""
        if self._handle.is_open:
            self._check(self._loaded.pgserial_close(self._words[0]))


def _fitting(what: str, number: int, bits: int) -> int:
    """A number of so many bits, which ctypes would cut; an OverflowError where it has more."""
    if not 0 <= number < 1 << bits:
        raise OverflowError(f"{what} is {number}, which isn't from 0 to {(1 << bits) - 1}")
    return number


def _bytes(text: Text) -> bytes:
    return text.encode() if isinstance(text, str) else bytes(text)


class Library:
    """The library of a path, of `$PGSERIAL_LIBRARY`, the one that came with this package, or where the system finds it."""

    def __init__(self, path: Optional[str] = None) -> None:
        self._loaded = ctypes.CDLL(path or os.environ.get("PGSERIAL_LIBRARY") or bundled(NAME) or NAME)
        self._loaded.pgserial_abi.restype = ctypes.c_uint32
        abi = self._loaded.pgserial_abi()
        if abi != ABI:
            raise OSError(f"{self._loaded._name} has the declarations of version {abi}, and not {ABI}")
        self._run, self._audit, self._check = [self._call(name, ctypes.c_uint32) for name in ("run", "audit", "check")]
        self._explore = self._call("explore", ctypes.c_uint32, ctypes.c_uint64)
        handle, report = ctypes.POINTER(_Handle), ctypes.POINTER(_Report)
        self._loaded.pgserial_open.argtypes = [handle, ctypes.c_uint32]
        self._loaded.pgserial_call.argtypes = [handle, ctypes.c_char_p, ctypes.c_size_t, report]
        self._loaded.pgserial_reply.argtypes = [handle, ctypes.c_void_p, ctypes.c_size_t, report]
        self._loaded.pgserial_close.argtypes = [handle]
        self._loaded.pgserial_open_dump.argtypes = [
            handle, ctypes.c_char_p, ctypes.c_size_t, ctypes.c_uint32, ctypes.c_void_p, ctypes.c_size_t, report]
        self._loaded.pgserial_dump.argtypes = [handle, ctypes.c_uint32, report]
        self._loaded.pgserial_serial_order.argtypes = [handle, report]
        self._loaded.pgserial_tables.argtypes = [handle, report]
        number = ctypes.c_size_t
        self._loaded.pgserial_prepare.argtypes = [handle, ctypes.c_char_p, ctypes.c_size_t, report]
        self._loaded.pgserial_bind_bigint.argtypes = [handle, number, number, ctypes.c_int64]
        self._loaded.pgserial_bind_text.argtypes = [handle, number, number, ctypes.c_char_p, ctypes.c_size_t]
        self._loaded.pgserial_bind_bytea.argtypes = [handle, number, number, ctypes.c_char_p, ctypes.c_size_t]
        self._loaded.pgserial_bind_null.argtypes = [handle, number, number]
        self._loaded.pgserial_execute.argtypes = [handle, number, report]
        self._loaded.pgserial_forget.argtypes = [handle]

    def _call(self, name: str, *numbers: Any) -> Callable[..., int]:
        """A function of the library that takes a text and such numbers."""
        call: Any = getattr(self._loaded, f"pgserial_{name}")
        call.restype = ctypes.c_int
        call.argtypes = [ctypes.c_char_p, ctypes.c_size_t, *numbers,
                         ctypes.c_void_p, ctypes.c_size_t, ctypes.POINTER(_Report)]
        made: Callable[..., int] = call
        return made

    @staticmethod
    def _answer(call: Callable[..., int], text: Text, *numbers: int, right: Container[int] = (DONE,)) -> Tuple[int, str]:
        """A call's status, which is one of the right ones, and its output, with as much room as that needs."""
        given = text.encode("utf-8", "surrogateescape") if isinstance(text, str) else bytes(text)
        report, room, status = _Report(), FIRST_ROOM, NEEDS_ROOM
        while status == NEEDS_ROOM:
            out = ctypes.create_string_buffer(room)
            status = call(given, len(given), *numbers, out, room, ctypes.byref(report))
            room = report.length
        answer = "" if status == MISUSE else out.raw[:report.length].decode("utf-8", "backslashreplace")
        if status not in right:
            raise LibraryError(status, report.line, answer)
        return status, answer

    def run(self, script: Text, most_events: int = MOST_EVENTS) -> str:
        """The replies to the lines of a script, as `pgserial run` prints them."""
        return self._answer(self._run, script, _fitting("the number of events", most_events, EVENTS_BITS))[1]

    def audit(self, script: Text, most_events: int = MOST_EVENTS) -> str:
        """The committed transactions of a script in the serial order, as `pgserial audit` prints them."""
        return self._answer(self._audit, script, _fitting("the number of events", most_events, EVENTS_BITS))[1]

    def check(self, transcript: Text, has_time: bool = True) -> Checked:
        """A Checked: whether some serial order explains the replies of a transcript, as `pgserial check` prints it. With time, who
        had ended before another began comes before it."""
        status, text = self._answer(self._check, transcript, int(has_time), right=ANSWERS)
        return Checked(ANSWERS[status], text)

    def explore(self, script: Text, most_events: int = MOST_EVENTS, most_schedules: int = MOST_SCHEDULES) -> str:
        """The outcomes of every interleaving of a script's lines after its setup, as `pgserial explore` prints them."""
        most_events = _fitting("the number of events", most_events, EVENTS_BITS)
        most_schedules = _fitting("the number of schedules", most_schedules, SCHEDULES_BITS)
        return self._answer(self._explore, script, most_events, most_schedules)[1]

    def open(self, most_events: int = MOST_EVENTS, dump: Optional[Text] = None) -> Conversation:
        """A Conversation: a server that is kept between calls, on the tables of a dump where one is given."""
        return Conversation(self, most_events, dump)
