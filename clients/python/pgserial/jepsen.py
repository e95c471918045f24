"""Jepsen's histories as transcripts, and transcripts as histories.

    python3 -m pgserial.jepsen --check history.edn            # the verdict, with Elle's names of anomalies
    python3 -m pgserial.jepsen history.edn > history.transcript
    python3 -m pgserial.jepsen --edn recording.transcript > recording.edn

A history is EDN, JSON as elle-cli reads it, or what Jepsen prints (history.txt). Its operations have micro-operations, as Elle
takes them: `[:r k v]` and `[:w k v]` on registers, `[:append k v]` and `[:r k [v ..]]` on lists. Or they are reads, writes and
compare-and-sets of registers, or transfers and reads of a bank.
"""

import argparse
import io
import os
import re
import shutil
import subprocess
import sys
import tempfile
from typing import IO, Iterator, List, NamedTuple, Optional, Sequence, Tuple

from . import InterfaceError, _program, elle
from .backwards import history
from .edn import Malformed
from .jepsen_writer import Writer
from .micros import Micro, Micros
from .operations import events, operations
from .survey import Survey
from .verdict import printable

__all__ = ["Micro", "Transaction", "history", "transactions_of", "transcript", "written_to"]


class Transaction(NamedTuple):
    """A transaction of a history: how it ended, what it did, its process, and its line."""

    type: str
    micros: Tuple[Micro, ...]
    process: str
    line: int


def transactions_of(text: str) -> List[Transaction]:
    """The transactions of a history, in the order in which they began."""
    read = Micros()
    told = [
        (max(number, -1), Transaction(kind, read.of(one), one.process, one.line))
        for number, kind, one in events(operations(io.StringIO(text)))
        if kind != "invoke"
    ]
    return [each for _, each in sorted(told, key=lambda pair: pair[0])]


def looked_at(file: IO[str]) -> Survey:
    """What a history has, which is a file that can be read anew."""
    file.seek(0)
    survey = Survey()
    survey.look(events(operations(file)))
    return survey


def lines_of(file: IO[str], survey: Survey, name: str) -> Iterator[str]:
    """The lines of a history's transcript, several at once."""
    writer = Writer(survey, name)
    file.seek(0)
    return writer.lines(events(operations(file)))


def transcript(history: str, name: str = "history") -> str:
    """The transcript of a history. An operation that failed is left out; one that isn't known to have ended has a COMMIT
    without a reply. Refuses (`Malformed`) what it can't say, with its line. The places of transactions are lines of the
    history, which has a name."""
    file = io.StringIO(history)
    return "".join(lines_of(file, looked_at(file), name))


def _opened(path: str) -> IO[str]:
    """A file that can be read twice: standard input isn't, so it is kept."""
    if path != "-":
        return open(path, encoding="utf-8", newline="\n")
    kept = tempfile.TemporaryFile()
    shutil.copyfileobj(sys.stdin.buffer, kept)
    kept.seek(0)
    return io.TextIOWrapper(kept, encoding="utf-8", newline="\n")


def name_of(path: str) -> str:
    """The name of a history's file, on one line."""
    return re.sub(r"[^\x21-\x7e]+", "_", os.path.basename(path)) if path != "-" else "history"


def written_to(path: str, out: IO[bytes]) -> None:
    """Writes the transcript of a history's file."""
    with _opened(path) as file:
        for lines in lines_of(file, looked_at(file), name_of(path)):
            out.write(lines.encode("utf-8"))


# ---- the verdict


class Judged(NamedTuple):
    """What `check` says of a history: yes, no or unknown, Elle's names of the anomalies, and the lines."""

    answer: str
    anomalies: Tuple[str, ...]
    lines: List[str]

    @property
    def status(self) -> int:
        """The status with which `pgserial check` has ended."""
        return {"yes": 0, "unknown": 4, "no": 5}[self.answer]

    def __str__(self) -> str:
        told = [f"anomalies: {', '.join(self.anomalies)}"] if self.anomalies else []
        return "\n".join(printable(line) for line in [*self.lines, *told, f"serializable: {self.answer}"])


def judged(path: str, program: Optional[str] = None, words: Sequence[str] = ()) -> Judged:
    """What `check` says of a history's file. `words` are words for it."""
    with _opened(path) as file, tempfile.NamedTemporaryFile() as made:
        survey = looked_at(file)
        if survey.bank.accounts and "--no-time" in words:
            raise Malformed(1, "what a bank's accounts had at first is told by time, so --no-time isn't for banks")
        for lines in lines_of(file, survey, name_of(path)):
            made.write(lines.encode("utf-8"))
        made.flush()
        done = subprocess.run([_program(program), "check", made.name, *words], stdout=subprocess.PIPE, stderr=subprocess.PIPE, check=False)
        if done.returncode not in (0, 4, 5):
            raise InterfaceError(done.stderr.decode("utf-8", "replace").strip())
        told = done.stdout.decode("utf-8", "replace").split("\n")[:-2]
        if done.returncode != 5:
            return Judged("yes" if done.returncode == 0 else "unknown", (), [] if done.returncode == 0 else told)
        history = _history_of(file, survey, made.name, told)
    reasons, names = elle.named(history, told)
    return Judged("no", names, reasons)


def _history_of(file: IO[str], survey: Survey, made: str, told: List[str]) -> elle.History:
    """What the history says of the transactions that reasons name."""
    with open(made, encoding="utf-8", newline="\n") as lines:
        history = elle.History(survey.lists, elle.found_in(lines, elle.numbers_in(told)))
    file.seek(0)
    history.look(events(operations(file)), survey.micros)
    file.seek(0)
    history.look_again(events(operations(file)), survey.micros)
    return history


def main() -> int:
    """Writes the transcript of a history, or with --edn the history of a transcript."""
    words = argparse.ArgumentParser(description=__doc__, formatter_class=argparse.RawDescriptionHelpFormatter)
    words.add_argument("file", help="- is standard input")
    words.add_argument("--edn", action="store_true", help="a transcript is read, and a history written")
    words.add_argument("--check", action="store_true", help="tell the verdict, with Elle's names of anomalies; the status is that of `pgserial check`")
    words.add_argument("--no-time", action="store_true", help="with --check: whoever committed first may come second")
    words.add_argument("--program", help="with --check: the program pgserial, where it is neither $PGSERIAL nor on the PATH")
    given = words.parse_args()
    try:
        if given.check:
            told = judged(given.file, given.program, ["--no-time"] if given.no_time else [])
            print(told)
            return told.status
        if given.edn:
            with open(0 if given.file == "-" else given.file, encoding="utf-8", newline="") as file:
                sys.stdout.buffer.write(history(file.read()).encode("utf-8"))
        else:
            written_to(given.file, sys.stdout.buffer)
    except (Malformed, OSError, UnicodeDecodeError, InterfaceError) as error:
        print(re.sub("^history line", "transcript line", str(error)) if given.edn else error, file=sys.stderr)
        return 1
    return 0


if __name__ == "__main__":
    sys.exit(main())
