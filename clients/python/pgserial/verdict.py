"""What `pgserial check` tells of a recording, and what its answer is of: how many transactions, which reads aren't known, and
where the recording has ended.

A recording is a transcript. Beside what `check` reads it has comments, and perhaps marks, which `check` refuses: a command
`not said, ..` of a session that is answered as if it were done, behind whose last line nothing is judged; or a command `not
recorded, ..`, behind which nothing is."""

import argparse
import re
import subprocess
import sys
import unicodedata
from typing import Any, Dict, List, NamedTuple, Optional, Sequence, Set, Tuple

from . import InterfaceError, _program
from .ending import other_row, why_unread, without_ends
from .hidden import Hidden, Writers
from .output import write_all_kept
from .places import with_places

NOT_SAID = "not said, "  # how the command of a session's mark begins, and a comment on a read
NOT_RECORDED = "not recorded, "  # how the command of a mark begins that is no session's
LEFT_OUT = "-- left out"
RECORDED = "-- Recorded by pgserial.recording"  # the first line of a recording
BEGINS = "-- The application begins here."  # behind the rows that were there
CLOSED = "-- The recording was closed."
MAY_COMMIT = "-- Session {} may commit here."
HAS_NOT = "-- Session {} hasn't committed."

_BEGINS = BEGINS.encode("ascii")
_STATUSES = {"yes": 0, "unknown": 4, "no": 5, "refused": 1}  # those of `check`
_ANSWERS = {0: "yes", 4: "unknown", 5: "no"}
_BESIDE = (b"BEGIN", b"COMMIT", b"ROLLBACK", b"EXPORT", b"IMPORT")  # commands that are no statements
_NOTHING = (
    "nothing was recorded: no transaction that committed has a statement of the recorded tables. Look whether the tests roll "
    "back what they do (as Django's TestCase does), or whether the application has connected by other ways than the one that "
    "is recorded"
)
_MOST_LINES = 200
_MOST_PLACES = 3


class LeftOut(NamedTuple):
    """Reads that aren't known: why, how many, and of which places; each place is a function and its file and line. `hides`
    are the recorded tables that the first text of each place names, with the places that write them."""

    kind: str
    count: int  # type: ignore[assignment]  # in place of the tuple's method
    places: Tuple[Tuple[str, int], ...] = ()
    hides: Tuple[Hidden, ...] = ()


class Verdict(NamedTuple):
    """What `check` tells of a recording.

    `answer` is `yes`, `no`, `unknown`, or `refused` where it is no transcript. The transactions, sessions and statements are
    those that were judged. `ended` tells why the recording speaks of the beginning alone, `reasons` why the answer is no yes.
    """

    answer: str
    words: str
    lines: List[str]
    committed: int = 0
    rolled_back: int = 0
    sessions: int = 0
    statements: int = 0
    reads: int = 0
    left_out: Tuple[LeftOut, ...] = ()
    ended: Optional[str] = None
    reasons: Tuple[str, ...] = ()

    @property
    def status(self) -> int:
        """The status with which `pgserial check` would end."""
        return _STATUSES[self.answer]

    @property
    def text(self) -> str:
        """The reasons and the verdict, as they are printed at a terminal."""
        return "\n".join(printable(line) for line in [*self.lines[-_MOST_LINES:], self.words])

    def __str__(self) -> str:
        return self.text


def printable(text: str) -> str:
    """A text as it may stand at a terminal: what would steer it, or turn the order of letters, is escaped."""
    return text if text.isascii() and text.isprintable() else "".join(map(_letter, text))


def _letter(letter: str) -> str:
    if unicodedata.category(letter) in ("Cc", "Cf", "Cs", "Zl", "Zp"):
        return letter.encode("unicode_escape").decode("ascii")
    return letter


# ---- what a recording has


class Counted(NamedTuple):
    """What the judged part of a recording has. `number` is that of its statements whether refused or not."""

    committed: int
    rolled_back: int
    sessions: int
    statements: int
    reads: int
    number: int


class _Counting:
    """Counts the transactions and statements of lines; those of the rows that were there aren't the application's."""

    def __init__(self) -> None:
        self.committed = self.rolled_back = self.statements = self.reads = self.number = 0
        self.sessions: Set[bytes] = set()
        self._asked: Dict[bytes, bytes] = {}  # what a session awaits a reply to
        self._has: Dict[bytes, int] = {}  # statements of its open transaction

    def take(self, line: bytes) -> None:
        """One more line."""
        if line[:2] == b"> ":
            session, _, command = line[2:].partition(b" ")
            if session.isdigit():
                self._asked[session] = command
                self.number += not command.startswith(_BESIDE)
        elif line[:2] == b"  ":
            session, _, reply = line[2:].partition(b" ")
            asked = None if reply[:2] == b"| " else self._asked.pop(session, None)
            if asked is not None:
                self._answered(session, asked, reply)

    def _answered(self, session: bytes, asked: bytes, reply: bytes) -> None:
        is_refused = reply.startswith(b"ERROR")
        if asked.startswith((b"COMMIT", b"ROLLBACK")):
            has = self._has.pop(session, 0)
            is_committed = reply == b"COMMIT"
            self.committed += is_committed and has > 0
            self.rolled_back += not is_committed and has > 0
            if is_committed and has:
                self.sessions.add(session)
        elif not is_refused and not asked.startswith(_BESIDE):
            self._has[session] = self._has.get(session, 0) + 1
            self.statements += 1
            self.reads += asked.startswith(b"SELECT")

    def counted(self) -> Counted:
        """What was counted."""
        return Counted(self.committed, self.rolled_back, len(self.sessions), self.statements, self.reads, self.number)


def counted(data: bytes) -> Counted:
    """What a part of a recording has."""
    counting = _Counting()
    for line in data.split(b"\n"):
        if line[:2] == b"--":
            if line == _BEGINS:
                counting = _Counting()
        else:
            counting.take(line)
    return counting.counted()


class Cut(NamedTuple):
    """The part of a recording that is judged, and why it is no more than that: by a mark, or since it was broken off."""

    data: bytes
    mark: Optional[str]
    marks: Tuple[str, ...]
    is_whole: bool  # whether the last line is ended


_MARK = re.compile(rb"> ([0-9]+) not (said|recorded), (.*);")


class _Span:
    """A statement that may commit by itself, and whose reply wasn't known before: where it begins, and its later lines."""

    def __init__(self, start: int) -> None:
        self.start = start
        self.end: Optional[int] = None  # where its transaction has ended, or hasn't by itself
        self.lines: List[Tuple[int, bytes]] = []


class _Scan:
    """Finds where the judged part of a recording ends."""

    def __init__(self) -> None:
        self.place = 0
        self.spans: List[_Span] = []
        self.marks: List[str] = []
        self.mark_at: Optional[int] = None  # the first place behind which a mark lets nothing be judged
        self._open: Dict[bytes, _Span] = {}  # by session
        self._last: Dict[bytes, int] = {}  # where the last line of a session has ended

    def take(self, line: bytes) -> None:
        """One more line, which is ended."""
        end = self.place + len(line) + 1
        head = line[:2]
        if head == b"--":
            self._comment(line, end)
        elif head in (b"> ", b"  "):
            session, _, words = line[2:].partition(b" ")
            if head == b"> ":
                self._asked(session, line, words, end)
            else:
                self._answered(session, line, words, end)
        self.place = end

    def _comment(self, line: bytes, end: int) -> None:
        if line == _BEGINS:
            self._last.clear()  # what was there is no session's
        if line[:11] != b"-- Session ":
            return
        session = line[11:].partition(b" ")[0]
        if line.endswith(b" may commit here."):
            self._close(session, end)
            self._open[session] = span = _Span(self.place)
            self.spans.append(span)
            self._last[session] = end
        elif line.endswith(b" hasn't committed."):
            self._close(session, end)

    def _close(self, session: bytes, end: int) -> None:
        span = self._open.pop(session, None)
        if span is not None:
            span.end = end

    def _asked(self, session: bytes, line: bytes, command: bytes, end: int) -> None:
        found = _MARK.fullmatch(line)
        if found:
            self.marks.append(found[3].decode("utf-8", "replace"))
            at = self._last.get(session, self.place) if found[2] == b"said" else self.place
            self.mark_at = at if self.mark_at is None else min(at, self.mark_at)
            if found[2] == b"said":
                self._open.pop(session, None)  # it stays without an end
            return
        if session in self._open:
            self._open[session].lines.append((self.place, line))
        self._last[session] = end

    def _answered(self, session: bytes, line: bytes, reply: bytes, end: int) -> None:
        if session in self._open:
            self._open[session].lines.append((self.place, line))
            if reply in (b"COMMIT", b"ROLLBACK"):
                self._close(session, end)
        self._last[session] = end

    def cut(self) -> int:
        """Where the judged part ends: before what can't be said, and before each statement of which nobody knows whether
        it has committed by itself."""
        at = self.place if self.mark_at is None else self.mark_at
        starts = [span.start for span in self.spans if span.end is None and span.start < at]
        return min(starts, default=at)

    def rest(self, at: int) -> bytes:
        """What is known of the statements that were under way there: up to their COMMIT, which may have been done."""
        told: List[bytes] = []
        for span in self.spans:
            if span.start < at and span.end is not None and span.end > at:
                told += _up_to_commit([line for place, line in span.lines if place >= at])
        return b"".join(line + b"\n" for line in told)


def _up_to_commit(lines: List[bytes]) -> List[bytes]:
    """The lines up to a COMMIT that was answered so; none where it wasn't."""
    at = next((at for at, line in enumerate(lines) if line.endswith(b" COMMIT;")), None)
    return [] if at is None or not lines[-1].endswith(b" COMMIT") else lines[: at + 1]


def _without_rows_missing(data: bytes) -> bytes:
    """Lines without a last SELECT some of whose rows are missing."""
    end = len(data)
    while end:
        start = data.rfind(b"\n", 0, end - 1) + 1
        if b" | " not in data[start : start + 7]:
            break
        end = start
    else:
        return data
    head = data[start : end - 1].split(b" ")
    rows = data.count(b"\n", end)
    if head[:2] == [b"", b""] and head[3:4] == [b"SELECT"] and re.fullmatch(rb"[0-9]{1,18}", head[-1]) and rows < int(head[-1]):
        return data[:start]
    return data


def judged_part(data: bytes) -> Cut:
    """The part of a recording that is judged."""
    lines = data.split(b"\n")
    last = lines.pop()
    scan = _Scan()
    for line in lines:
        scan.take(line)
    at = scan.cut()
    part = _without_rows_missing(data[:at]) + scan.rest(at)
    return Cut(part, scan.marks[0] if scan.mark_at is not None else None, tuple(dict.fromkeys(scan.marks)), not last)


_LEFT = re.compile(re.escape(LEFT_OUT) + r" ([0-9]{1,18}): (.*)")


def _place_of(said: str) -> Tuple[str, str]:
    """What a comment says, and its place."""
    what, _, place = said[:-1].rpartition(" (") if said.endswith(")") else (said, "", "")
    name, _, file = place.partition(" ")
    return (what, f"{name} ({file})" if file else place) if what else (said, "")


def left_out_of(text: str) -> Tuple[LeftOut, ...]:
    """The reads that a recording says it hasn't: with their counts where it was closed, else once for each place."""
    lines = text.split("\n")
    found = [(int(each[1]), each[2]) for each in map(_LEFT.fullmatch, lines) if each]
    if not found:
        start = "-- " + NOT_SAID
        found = [(1, line[len(start) :]) for line in lines if line.startswith(start)]
    kinds: Dict[str, Dict[str, int]] = {}
    hides: Dict[str, Dict[Hidden, None]] = {}
    writers = Writers(text, BEGINS) if found else None
    for count, said in found:
        what, place = _place_of(said)
        kind, _, statement = what.partition(": ")
        places = kinds.setdefault(kind, {})
        places[place] = places.get(place, 0) + count
        hides.setdefault(kind, {}).update(dict.fromkeys(writers.hidden(statement, place) if writers is not None else ()))
    return tuple(
        LeftOut(kind, sum(places.values()), tuple((place, count) for place, count in places.items() if place), tuple(hides[kind]))
        for kind, places in kinds.items()
    )


# ---- the verdict


def _number(count: int, noun: str) -> str:
    return f"{count:,} {noun}" if count == 1 else f"{count:,} {noun}s"


def _reads_words(left_out: Sequence[LeftOut], reads: int, is_closed: bool) -> str:
    """How many reads aren't known, and of which places."""
    count = sum(each.count for each in left_out)
    if not count:
        return ""
    many = f"{count:,} of {_number(reads + count, 'read')}" if is_closed else f"at least {_number(count, 'read')}"
    told: Dict[str, str] = {}
    for each in left_out:
        for place, _ in each.places:
            named = [str(hidden) for hidden in each.hides if hidden.place == place]
            told.setdefault(place, each.kind + (f", of {', and of '.join(named)}" if named else ""))
    shown = [f"{place}: {kind}" for place, kind in list(told.items())[:_MOST_PLACES]]
    if len(told) > _MOST_PLACES:
        shown.append(f"and {_number(len(told) - _MOST_PLACES, 'other place')}")
    where = "" if not shown else " (" + "; ".join(shown) + ")"
    return f"{many} {'is' if count == 1 else 'are'}n't known{where}"


class _Judging:
    """Makes a verdict of a recording and of what `check` has told of its judged part."""

    def __init__(self, data: bytes, cut: Cut) -> None:
        text = data.decode("utf-8", "replace")
        self._cut, self._counted = cut, counted(without_ends(cut.data))
        self._unread = why_unread(text)
        self.other_row: Optional[str] = None  # in which no order leaves the tables as the database has them
        self._left_out = left_out_of(text)
        is_recording = data.startswith(RECORDED.encode("ascii"))
        self._is_closed = not is_recording or (CLOSED.encode("ascii") + b"\n") in data[-1000:]
        self._is_whole = cut.is_whole

    def _ended(self) -> Optional[str]:
        """Why it speaks of the beginning alone."""
        if self._cut.mark is not None:
            return f"from statement {self._counted.number + 1:,} on: {self._cut.mark}"
        if not self._is_whole:
            return "its last line isn't whole: the recording was broken off there"
        return None if self._is_closed else "it wasn't closed: what its process did last isn't known"

    def verdict(self, status: int, lines: List[str], error: str, is_strict: bool) -> Verdict:
        """The verdict."""
        answer = _ANSWERS.get(status, "refused")
        reads = _reads_words(self._left_out, self._counted.reads, self._is_closed)
        beside = [each for each in (reads, self._ended()) if each]
        if answer == "refused":
            why = error or f"the program ended with status {status}"
            return self._made(answer, f"no verdict: {why}", [], (why,))
        reasons = self._why_unknown(answer, reads, is_strict)
        if answer == "yes" and reasons:
            rest = [each for each in beside if each not in reasons]
            return self._made("unknown", "; ".join([f"serializable: unknown: {'; '.join(reasons)}", *rest]), [], tuple(reasons))
        if answer == "unknown":
            reasons = ["the steps ran out: say --steps with more of them"]
        said = f"serializable: {answer}, for {self._what()}"
        shown = reasons if answer == "unknown" else []
        told = [line for line in lines if not line.startswith("check ")] if answer == "no" else reasons
        return self._made(answer, "; ".join([said, *shown, *beside]), lines, tuple(told))

    def _why_unknown(self, answer: str, reads: str, is_strict: bool) -> List[str]:
        """Why a yes is none."""
        if answer != "yes":
            return []
        ended = self._ended()
        reasons = [ended] if ended is not None and (self._cut.mark is not None or is_strict) else []
        if not self._counted.committed:
            return reasons or [_NOTHING]
        if self.other_row is not None:
            reasons.append(f"no order leaves the rows that the database has at the end: {self.other_row}")
        elif self._unread is not None and self._cut.mark is None:
            reasons.append(f"the rows at the end couldn't be read: {self._unread}")
        return reasons + ([reads] if reads and is_strict else [])

    def _what(self) -> str:
        """What was judged."""
        return f"{_number(self._counted.committed, 'transaction')} of {_number(self._counted.sessions, 'session')}"

    def _made(self, answer: str, words: str, lines: List[str], reasons: Tuple[str, ...]) -> Verdict:
        has = self._counted
        return Verdict(
            answer, words, lines, has.committed, has.rolled_back, has.sessions, has.statements, has.reads,
            self._left_out, self._ended(), reasons + self._cut.marks[1:],
        )  # fmt: skip


def verdict(path: Any, program: Any = None, words: Sequence[str] = (), strict: bool = False) -> Verdict:
    """What `pgserial check` tells of a recording, which may be the beginning that a killed process has left.

    Where `strict`, a yes over reads that aren't known is `unknown`."""
    write_all_kept()
    with open(path, "rb") as file:
        data = file.read()
    cut = judged_part(data)
    command = [_program(program), "check", "-", *words]
    done = _checked(command, cut.data)
    judging = _Judging(data, cut)
    if done.returncode == _STATUSES["no"] and without_ends(cut.data) != cut.data:
        with_end, done = done, _checked(command, without_ends(cut.data))
        if done.returncode == _STATUSES["yes"]:
            judging.other_row = other_row(command[0], cut.data, _lines(done))
        elif done.returncode == _STATUSES["no"]:
            done = with_end
    lines = _lines(done)
    if done.returncode == _STATUSES["no"]:
        lines = with_places(lines, cut.data.decode("utf-8", "replace"))
    error_words = "; ".join(done.stderr.decode("utf-8", "replace").split("\n")[:2]).strip("; ")
    return judging.verdict(done.returncode, lines, error_words, strict)


def _checked(command: Sequence[str], data: bytes) -> "subprocess.CompletedProcess[bytes]":
    """What a program tells of some data."""
    try:
        return subprocess.run(command, input=data, capture_output=True, check=False)
    except OSError as error:
        raise InterfaceError(f"{command[0]} can't be run: {error.strerror}") from None


def _lines(done: "subprocess.CompletedProcess[bytes]") -> List[str]:
    return done.stdout.decode("utf-8", "replace").split("\n")[:-1]


def main() -> int:
    """python3 -m pgserial.recording TRANSCRIPT: the verdict of a recording; its status is that of `pgserial check`."""
    words = argparse.ArgumentParser(prog="python3 -m pgserial.recording", description=main.__doc__)
    words.add_argument("transcript")
    words.add_argument("--program", help="the program pgserial, where it is neither $PGSERIAL nor on the PATH")
    words.add_argument("--no-time", action="store_true", help="whoever committed first may come second")
    words.add_argument("--strict", action="store_true", help="a yes over reads that aren't known is unknown")
    given = words.parse_args()
    try:
        told = verdict(given.transcript, given.program, ["--no-time"] if given.no_time else [], given.strict)
    except (OSError, InterfaceError) as error:
        print(printable(str(error)), file=sys.stderr)
        return 1
    print(told)
    return told.status
