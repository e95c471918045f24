"""The rows that the database has at the end of a recording, which stand there as a transaction that reads all tables, between
two comments: an order that leaves others doesn't explain the recording."""

import re
import subprocess
from typing import Any, Dict, Iterator, List, Optional, Sequence, Tuple

from .catalog import Table
from .opening import opening_of
from .values import Spelling, Unsaid

END_BEGINS = "-- The end, as the database has it."
END_ENDS = "-- That was the end."
UNREAD = "-- The end couldn't be read: "
_END = re.compile(re.escape(END_BEGINS).encode("ascii") + rb"\n.*?\n" + re.escape(END_ENDS).encode("ascii") + rb"\n", re.DOTALL)
_NEVER = "no connection was idle as the recording was closed"


def end_lines(number: int, spelling: Spelling, tables: Sequence[Tuple[Table, Sequence[Sequence[object]]]]) -> str:
    """A transaction of a session that finds these rows."""
    lines = [END_BEGINS, f"> {number} BEGIN;", f"  {number} BEGIN"]
    for table, rows in tables:
        kept, said = opening_of(table, rows)
        if kept.columns != table.columns:
            raise Unsaid(f"table {table.real} has values that can't be said")
        first = 0 if table.numbers is None else 1  # nobody knows the numbers of rows that have no key
        columns = kept.columns[first:]
        fields = ["\t".join(spelling.copy_text(column.kind, value) for column, value in zip(columns, row[first:])) for row in said]
        shown = ", ".join(column.name for column in columns) if first else "*"
        lines += [f"> {number} SELECT {shown} FROM {table.name};", f"  {number} SELECT {len(fields)}", *[f"  {number} | {row}" for row in fields]]
    return "\n".join([*lines, f"> {number} COMMIT;", f"  {number} COMMIT", END_ENDS, ""])


class Ending:
    """Reads the tables as the last connection closes, and where that hasn't been as the recording is closed."""

    def __init__(self, recorder: Any) -> None:
        self._recorder = recorder
        self._known_at = 0  # how many transactions had committed when it was read last
        self._why = _NEVER

    def is_known(self) -> bool:
        """Whether nothing has committed since it was read."""
        return bool(self._known_at == self._recorder.committed)

    def read(self, session: Any) -> None:
        """Reads the tables by a connection that is idle. Whatever goes wrong with it, the application doesn't feel it."""
        recorder = self._recorder
        if recorder.is_over or self.is_known() or not session.lock.acquire(blocking=False):
            return
        try:
            if session.is_closed or session.driver.is_dead() or session.driver.is_open():
                return
            number = recorder.free_number()
            committed = recorder.committed
            recorder.write(end_lines(number, recorder.spelling, session.driver.rows_now(recorder.tables)))
            self._known_at = committed
        except Exception as error:
            self._why = f"{type(error).__name__}: {' '.join(str(error).split())}"
        finally:
            session.lock.release()

    def unread(self) -> str:
        """The line that tells why it isn't known; nothing where it is."""
        return "" if self.is_known() else f"{UNREAD}{self._why}\n"


# ---- what a verdict makes of it


def without_ends(data: bytes) -> bytes:
    """A recording without what the database had at its end."""
    return _END.sub(b"", data)


def why_unread(text: str) -> Optional[str]:
    """Why the end isn't known, where it was to be."""
    found = [line for line in text.split("\n")[-20:] if line.startswith(UNREAD)]
    return found[-1][len(UNREAD) :] if found else None


def _statements(text: str) -> Iterator[Tuple[int, int, str]]:
    """The statements that were done: the number of their transaction, of which session, and their text."""
    asked: Dict[str, Tuple[int, str]] = {}
    begun: Dict[str, int] = {}  # the line of the BEGIN of a session's transaction
    found: List[Tuple[int, int, str]] = []
    begins: List[int] = []
    for at, line in enumerate(text.split("\n")):
        session, _, words = line[2:].partition(" ")
        if line.startswith("> ") and session.isdigit():
            asked[session] = at, words
        elif line.startswith("  ") and not words.startswith("| ") and session in asked:
            begin, command = asked.pop(session)
            if command.startswith("BEGIN") and words == "BEGIN":
                begun[session] = begin
                begins.append(begin)
            elif not words.startswith("ERROR") and session in begun and not command.startswith(("COMMIT", "ROLLBACK")):
                found.append((begun[session], at, command))
    numbers = {begin: number for number, begin in enumerate(sorted(begins), 1)}
    for begin, at, command in found:
        yield numbers[begin], at, command


def other_row(program: str, data: bytes, lines: Sequence[str]) -> str:
    """The first row that the order of a yes leaves otherwise than the database has it. `data` is a recording with its end."""
    ends = _END.findall(data)
    order = [int(word) for line in lines if line.startswith("order ") for word in line.split()[1:]]
    done: Dict[int, List[str]] = {}
    for number, _, command in _statements(without_ends(data).decode("utf-8", "replace")):
        done.setdefault(number, []).append(command)
    script = [line[2:] for line in data.decode("utf-8", "replace").split("\n") if line.startswith("> CREATE ")]
    for number in order:
        script += ["1 BEGIN;", *[f"1 {command}" for command in done.get(number, ())], "1 COMMIT;"]
    reads = [line.partition(b" ")[2].partition(b" ")[2].decode("utf-8") for line in ends[-1].split(b"\n") if re.match(rb"> [0-9]+ SELECT .* FROM ", line)]
    script += ["1 BEGIN;", *[f"1 {command}" for command in reads]]
    events = str(len(script) + 1000)
    run = subprocess.run([program, "run", "-", "--events", events], input="\n".join([*script, ""]).encode("utf-8"), capture_output=True, check=False)
    left = _rows_by_table(run.stdout.decode("utf-8", "replace").split("\n"), reads, "1 ")
    there = _rows_by_table(ends[-1].decode("utf-8", "replace").split("\n"), reads, "  ")
    for table, rows in there.items():
        for key in sorted({**rows, **left.get(table, {})}):
            has, leaves = rows.get(key), left.get(table, {}).get(key)
            if has != leaves:
                return f"of table {table} the database has {_shown(has)}, and that order leaves {_shown(leaves)}"
    return "the order that was found leaves the database's rows, and has to stand behind them"


def _shown(row: Optional[str]) -> str:
    return "no such row" if row is None else "(" + row.replace("\t", ", ") + ")"


def _rows_by_table(lines: Sequence[str], reads: Sequence[str], start: str) -> Dict[str, Dict[str, str]]:
    """The rows of the last SELECTs, one for each table, by their keys."""
    names = [read.split()[-1].rstrip(";") for read in reads]
    starts = [at for at, line in enumerate(lines) if line.startswith(start) and re.search(r" ?SELECT [0-9]+$", line)][-len(names) :]
    found: Dict[str, Dict[str, str]] = {}
    for name, at in zip(names, starts):
        count = int(lines[at].split()[-1])
        rows = [line.partition(" | ")[2] for line in lines[at + 1 : at + 1 + count]]
        found[name] = {row.partition("\t")[0]: row for row in rows}
    return found
