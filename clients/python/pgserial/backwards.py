"""A transcript as a history of Jepsen's, where each statement reads or writes one row by its key."""

import re
from typing import Any, Dict, List, NamedTuple, Optional, Sequence, Tuple

from . import BIGINT, BYTEA, TEXT, Kind, _value
from . import sql
from .edn import Keyword, Malformed, Vector, written
from .effects import READING
from .values import Unsaid, plain

READ, WRITE = Keyword("r"), Keyword("w")


_SESSION = "[1-9][0-9]{0,9}"
_KINDS = {kind.name: kind for kind in (BIGINT, TEXT, BYTEA)}


class _Recorded:
    """A transaction of a transcript."""

    def __init__(self, session: int, line: int) -> None:
        self.session, self.begins, self.ends = session, line, 0
        self.type = "fail"  # one that never ended was never committed
        self.micros: List[Tuple[Keyword, Any, Any]] = []


class _Asked(NamedTuple):
    text: str
    line: int


class _Table(NamedTuple):
    names: List[str]
    kinds: List[Kind]


class _History:
    """Reads a transcript of single rows."""

    def __init__(self) -> None:
        self._tables: Dict[str, _Table] = {}
        self._asked: Dict[int, _Asked] = {}
        self._open: Dict[int, _Recorded] = {}
        self.all: List[_Recorded] = []
        self._rows: List[str] = []  # of the SELECT whose rows follow
        self._due: Optional[Tuple[_Recorded, _Asked, int]] = None

    def read(self, number: int, line: str) -> None:
        """One more line."""
        if line[:2] == "> ":
            self._ask(number, line[2:])
        elif line[:2] == "  ":
            self._answer(number, line[2:])
        elif line and line[:2] not in ("--", "= "):
            raise Malformed(number, "no line of a transcript")

    def _ask(self, number: int, line: str) -> None:
        found = re.fullmatch(rf"({_SESSION}) (.*);", line)
        if found and int(found[1]) in self._asked:
            raise Malformed(number, "a session asks that awaits a reply")
        if found:
            self._asked[int(found[1])] = _Asked(found[2], number)
        elif line[:1].isdigit():
            raise Malformed(number, "no line of a session")
        elif line.startswith("OPEN "):
            raise Malformed(number, "a transcript that opens a dump")
        elif line != "CHECKPOINT;":
            self._create(number, line)

    def _create(self, number: int, line: str) -> None:
        found = re.fullmatch(r"create\s+table\s+(\w+)\s*\((.*)\)\s*;", line, re.IGNORECASE)
        columns = [column.lower().split() for column in found[2].split(",")] if found else []
        if not found or any(len(column) < 2 or column[1] not in _KINDS for column in columns):
            raise Malformed(number, "no table")
        self._tables[found[1].lower()] = _Table([column[0] for column in columns], [_KINDS[column[1]] for column in columns])

    def _answer(self, number: int, line: str) -> None:
        found = re.fullmatch(rf"({_SESSION}) (.*)", line)
        if self._due is not None:
            self._row(number, line)
        elif found and int(found[1]) in self._asked:
            self._take(int(found[1]), self._asked.pop(int(found[1])), found[2], number)
        elif line not in ("CHECKPOINT", "CREATE TABLE") and not line.startswith("ERROR "):
            raise Malformed(number, "a reply to nothing")

    def _row(self, number: int, line: str) -> None:
        assert self._due is not None
        one, asked, left = self._due
        before = f"{one.session} | "
        if not line.startswith(before):
            raise Malformed(number, "a row is due")
        self._rows.append(line[len(before) :])
        self._due = (one, asked, left - 1)
        if left == 1:
            rows, self._rows, self._due = self._rows, [], None
            self._statement(one, asked, len(rows), rows)

    def _take(self, session: int, asked: _Asked, said: str, number: int) -> None:
        """What came of a command."""
        word = asked.text.split(" ")[0]
        if word == "BEGIN" and said == "BEGIN":
            self._open[session] = _Recorded(session, asked.line)
            self.all.append(self._open[session])
        elif word in ("COMMIT", "ROLLBACK"):
            one = self._open.pop(session, None)
            if one is not None:
                one.type, one.ends = ("ok" if said == "COMMIT" else "fail"), number
        elif (
            session in self._open
            and not said.startswith("ERROR")
            and word not in ("EXPORT", "IMPORT", "POLL", "PRUNE", "DUMP")
        ):
            self._answered(self._open[session], asked, said, number)

    def _answered(self, one: _Recorded, asked: _Asked, said: str, number: int) -> None:
        found = re.fullmatch(r"(?:SELECT|UPDATE|DELETE|INSERT 0) ([0-9]{1,18})", said)
        if not found:
            raise Malformed(number, "no reply to a statement")
        count = int(found[1])
        if said.startswith("SELECT ") and count:
            self._due = (one, asked, count)
        else:
            self._statement(one, asked, count, [])

    def _statement(self, one: _Recorded, asked: _Asked, count: int, rows: List[str]) -> None:
        try:
            tree = sql.Parser(sql.tokens_of(asked.text, "qmark", False), READING).statement()
            one.micros += self._micros(tree, count, rows)
        except Unsaid as unsaid:
            raise Malformed(asked.line, f"a history has reads and writes of single rows: {unsaid}") from None
        except (ValueError, RecursionError):
            raise Malformed(asked.line, "a statement or a row that can't be read") from None

    def end(self, number: int) -> None:
        """No line follows."""
        if self._due is not None:
            raise Malformed(number, "a row is due")
        for session, asked in self._asked.items():
            one = self._open.pop(session, None) if asked.text == "COMMIT" else None
            if one is not None:
                one.type = "info"
        for one in self.all:
            one.ends = one.ends or number

    # micro-operations

    def _micros(self, tree: Any, count: int, rows: List[str]) -> List[Tuple[Keyword, Any, Any]]:
        name = tree.table.name.text
        if name not in self._tables:
            raise Unsaid(f"there is no table {name}")
        table = self._tables[name]
        if tree.table.alias or tree.table.schema or getattr(tree, "returning", ()) or getattr(tree, "limit", None) is not None:
            raise Unsaid("no statement of a transcript")
        if isinstance(tree, sql.Insert):
            values = self._inserted(table, tree)
            return [
                (WRITE, self._key(name, values[0], at), value) for at, value in enumerate(values) if at and value is not None
            ]
        row = self._row_of(table, tree.where)
        if isinstance(tree, sql.Select):
            return self._reads(name, table, tree, row, rows)
        if isinstance(tree, sql.Delete):
            raise Unsaid("a DELETE")
        return [self._write(name, table, row, column.text, value, count) for column, value in tree.assigned]

    def _inserted(self, table: _Table, tree: sql.Insert) -> List[Any]:
        """The values of the one row that an INSERT has."""
        row = tree.rows[0]
        if tree.columns is not None or len(tree.rows) > 1 or len(row) != len(table.kinds):
            raise Unsaid("an INSERT of other than one value for each column")
        if not all(isinstance(value, sql.Constant) for value in row):
            raise Unsaid("it inserts something else than values")
        return [plain(kind, value.value) for kind, value in zip(table.kinds, row)]

    def _row_of(self, table: _Table, where: Sequence[Any]) -> Any:
        """The key that conditions ask for."""
        if len(where) != 1 or not isinstance(where[0], sql.Comparison) or where[0].sign != "=":
            raise Unsaid("it asks for other rows than that of a key")
        if where[0].column.name.text != table.names[0] or not isinstance(where[0].value, sql.Constant):
            raise Unsaid("it asks for other rows than that of a key")
        return plain(table.kinds[0], where[0].value.value)

    def _reads(
        self, name: str, table: _Table, tree: sql.Select, row: Any, rows: List[str]
    ) -> List[Tuple[Keyword, Any, Any]]:
        places = [at for item in tree.shown for at in self._places(table, item)]
        fields = rows[0].encode("utf-8").split(b"\t") if rows else []
        if len(rows) > 1 or (rows and len(fields) != len(places)):
            raise Unsaid("its rows are other than one, or have other fields than it shows")
        values = [_value(table.kinds[at], field) for at, field in zip(places, fields)] or [None] * len(places)
        told = [(READ, self._key(name, row, at), value) for at, value in zip(places, values) if at]
        if not told:
            raise Unsaid("it shows the key alone")
        return told

    def _places(self, table: _Table, item: Any) -> List[int]:
        if isinstance(item, sql.Star):
            return list(range(len(table.names)))
        if not isinstance(item, sql.Column) or item.name.text not in table.names:
            raise Unsaid("it shows other things than columns")
        return [table.names.index(item.name.text)]

    def _write(self, name: str, table: _Table, row: Any, column: str, value: Any, count: int) -> Tuple[Keyword, Any, Any]:
        if not isinstance(value, sql.Constant) or value.value is None or column not in table.names:
            raise Unsaid("it writes something else than a value")
        at = table.names.index(column)
        key = self._key(name, row, at)
        return (WRITE, key, plain(table.kinds[at], value.value)) if count else (READ, key, None)

    def _key(self, name: str, row: Any, at: int) -> Any:
        """The key of a field: that of its row, where one table has one column beside the key."""
        is_only = len(self._tables) == 1 and len(self._tables[name].names) == 2
        return row if is_only else Vector((name, row, self._tables[name].names[at]))


def history(text: str) -> str:
    """The history of a transcript whose statements read and write single rows by their keys: its transactions have one
    operation each. Refuses (`Malformed`) any other statement, with its line."""
    read = _History()
    number = 0
    for number, line in enumerate(text.split("\n")[:-1], 1):
        read.read(number, line)
    read.end(number + 1)
    events = []
    for one in read.all:
        if one.micros:
            invoked = [(does, key, None if does == READ else value) for does, key, value in one.micros]
            events += [
                (one.begins, "invoke", one, invoked),
                (one.ends, one.type, one, one.micros if one.type == "ok" else invoked),
            ]
    events.sort(key=lambda event: event[0])
    return "".join(_operation(index, *event) + "\n" for index, event in enumerate(events))


def _operation(index: int, line: int, kind: str, one: _Recorded, micros: Sequence[Any]) -> str:
    told: Dict[str, Any] = {
        "type": Keyword(kind),
        "f": Keyword("txn"),
        "value": [list(micro) for micro in micros],
        "process": one.session,
    }
    return written({Keyword(name): value for name, value in {**told, "time": line, "index": index}.items()})
