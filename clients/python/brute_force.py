"""Transcripts judged by trying every order of their committed transactions: what `pgserial check` says is compared with it.

It shares no code with the package. Statements are read and done as docs/FORMATS.md has them, on tables that are mappings of
keys to rows. It is for transcripts of few transactions: it takes the factorial of their number.
"""

import re
from dataclasses import dataclass, field
from typing import Any, Dict, Iterator, List, Optional, Sequence, Tuple

Row = Tuple[Any, ...]
Tables = Dict[str, Dict[Any, Row]]
_TOKEN = re.compile(r"\s*(?:(?P<word>[A-Za-z_][A-Za-z0-9_]*)|(?P<number>[0-9]+)|'(?P<text>(?:[^']|'')*)'|(?P<sign><>|<=|>=|[(),;*=<>+-]))")
_LEAST, _MOST = -(2**63), 2**63 - 1
_ESCAPES = {"\b": "\\b", "\t": "\\t", "\n": "\\n", "\v": "\\v", "\f": "\\f", "\r": "\\r", "\\": "\\\\"}


class Raw(bytes):
    """A bytea; a text is kept as its bytes in UTF-8, so that it compares by these."""


class Fault(Exception):
    """A statement that its database would have refused."""


@dataclass
class Shape:
    """The columns of a table: their names, and their kinds, the key's first."""

    names: List[str]
    kinds: List[str]


@dataclass
class Exchange:
    """A statement and the lines of its reply."""

    text: str
    reply: List[str]


@dataclass
class Transaction:
    """One that committed, or may have: the line of its BEGIN, and that of the reply to its COMMIT."""

    begins: int
    number: int
    exchanges: List[Exchange] = field(default_factory=list)
    ends: Optional[int] = None  # the line of COMMIT's reply; None where it has none
    asked: bool = False  # whether COMMIT was sent


@dataclass
class Transcript:
    """The tables, and the transactions that committed or may have, in the order of their BEGINs."""

    shapes: Dict[str, Shape]
    transactions: List[Transaction]


# ---- reading


def _shape(line: str) -> Tuple[str, Shape]:
    found = re.fullmatch(r"> CREATE TABLE (\w+) \((.*)\);", line)
    assert found, line
    columns = [column.split() for column in found[2].split(", ")]
    return found[1], Shape([column[0] for column in columns], [column[1] for column in columns])


class _Session:
    """What a session has asked, and hasn't been answered."""

    def __init__(self) -> None:
        self.open: Optional[Transaction] = None
        self.waiting = ""
        self.asked_at = 0
        self.reply: List[str] = []


class Reader:
    """Reads a transcript, line by line."""

    def __init__(self, text: str) -> None:
        self.shapes: Dict[str, Shape] = {}
        self.done: List[Transaction] = []
        self._sessions: Dict[str, _Session] = {}
        self._begun: List[Transaction] = []
        for at, line in enumerate(text.split("\n")):
            if line.startswith("> CREATE"):
                name, shape = _shape(line)
                self.shapes[name] = shape
            elif line.startswith("> "):
                self._command(at, *line[2:].split(" ", 1))
            elif line.startswith("  "):
                self._reply(at, *line[2:].split(" ", 1))

    def _command(self, at: int, number: str, command: str) -> None:
        session = self._sessions.setdefault(number, _Session())
        session.waiting, session.asked_at, session.reply = command[:-1], at, []
        if command == "COMMIT;" and session.open is not None:
            session.open.asked = True
            self.done.append(session.open)

    def _reply(self, at: int, number: str, reply: str) -> None:
        session = self._sessions[number]
        if reply.startswith("| "):
            session.reply.append(reply)
        elif session.waiting.startswith("BEGIN"):
            if reply == "BEGIN":
                session.open = Transaction(session.asked_at, 0)
                self._begun.append(session.open)
        elif session.waiting in ("COMMIT", "ROLLBACK"):
            self._ended(at, session, reply)
        elif session.open is not None and not reply.startswith("ERROR"):
            session.reply = [reply]
            session.open.exchanges.append(Exchange(session.waiting, session.reply))

    def _ended(self, at: int, session: _Session, reply: str) -> None:
        if session.open is not None and session.open.asked:
            if session.waiting == "COMMIT" and reply == "COMMIT":
                session.open.ends = at
            else:
                self.done.remove(session.open)
        session.open = None

    def transcript(self) -> Transcript:
        """What was read. Transactions have the numbers of their BEGINs, in the order in which these were sent."""
        for number, transaction in enumerate(sorted(self._begun, key=lambda each: each.begins), 1):
            transaction.number = number
        return Transcript(self.shapes, sorted(self.done, key=lambda each: each.begins))


# ---- statements


class Statement:
    """Reads a statement's text, and does it."""

    def __init__(self, shapes: Dict[str, Shape], text: str) -> None:
        self._tokens: List[Tuple[str, str]] = []
        at, end = 0, len(text.rstrip())
        while at < end:
            found = _TOKEN.match(text, at)
            assert found, text[at:]
            kind = found.lastgroup or ""
            self._tokens.append((kind, found[kind].lower() if kind == "word" else found[kind].replace("''", "'")))
            at = found.end()
        self._at = 0
        self._shapes = shapes

    def _next(self) -> str:
        self._at += 1
        return self._tokens[self._at - 1][1]

    def _is(self, word: str) -> bool:
        is_it = self._at < len(self._tokens) and self._tokens[self._at][1] == word and self._tokens[self._at][0] != "text"
        self._at += is_it
        return is_it

    def _table(self) -> str:
        name = self._next()
        self._shape = self._shapes[name]
        return name

    def _literal(self, kind: str) -> Any:
        sign = "-" if self._is("-") else ""
        token, value = self._tokens[self._at]
        self._at += 1
        if token == "word" and value == "null":
            return None
        if kind == "bigint":
            return int(sign + value)
        return Raw(bytes.fromhex(value[2:])) if kind == "bytea" else value.encode("utf-8")

    def does(self, tables: Tables) -> List[str]:
        """Does it, and gives the reply's lines."""
        form = self._next()
        return {"select": self._select, "insert": self._insert, "update": self._update, "delete": self._delete}[form](tables)

    def _conditions(self) -> List[Tuple[int, str, Any, Any]]:
        """The conditions: a column's place, a sign, and what it is compared with."""
        told: List[Tuple[int, str, Any, Any]] = []
        joins = self._is("where")
        while joins:
            place = self._shape.names.index(self._next())
            kind = self._shape.kinds[place]
            if self._is("is"):
                told.append((place, "is not" if self._is("not") else "is", None, None))
                assert self._is("null")
            elif self._is("between"):
                low = self._literal(kind)
                assert self._is("and")
                told.append((place, "between", low, self._literal(kind)))
            else:
                told.append((place, self._next(), self._literal(kind), None))
            joins = self._is("and")
        return told

    def _found(self, rows: Dict[Any, Row]) -> List[Row]:
        conditions = self._conditions()
        self._end()
        return [row for row in rows.values() if all(_holds(row[place], *rest) for place, *rest in conditions)]

    def _end(self) -> None:
        assert self._at == len(self._tokens), self._tokens[self._at :]

    def _select(self, tables: Tables) -> List[str]:
        names: List[str] = []
        while not names or self._is(","):
            names.append(self._next())
            if names == ["count"] and self._is("("):
                assert self._is("*") and self._is(")")
                names = ["count(*)"]
        assert self._is("from")
        rows = self._found(tables[self._table()])
        if names == ["count(*)"]:
            return ["SELECT 1", f"| {len(rows)}"]
        shown = self._shape.names if names == ["*"] else names
        places = [self._shape.names.index(name) for name in shown]
        fields = ["| " + "\t".join(_copied(row[place]) for place in places) for row in rows]
        return [f"SELECT {len(rows)}", *fields]

    def _insert(self, tables: Tables) -> List[str]:
        assert self._is("into")
        rows = tables[self._table()]
        assert self._is("values") and self._is("(")
        row: List[Any] = []
        for kind in self._shape.kinds:
            row.append(self._literal(kind))
            assert self._is(",") or self._is(")")
        self._end()
        if row[0] is None or row[0] in rows:
            raise Fault
        rows[row[0]] = tuple(row)
        return ["INSERT 0 1"]

    def _assigned(self) -> List[Tuple[int, Any, int]]:
        """What is assigned: a column's place, the place of another, or None, and a number or a value."""
        told: List[Tuple[int, Any, Any]] = []
        while not told or self._is(","):
            place = self._shape.names.index(self._next())
            assert self._is("=")
            kind, value = self._tokens[self._at]
            if kind == "word" and value in self._shape.names:
                other = self._shape.names.index(self._next())
                sign = {"+": 1, "-": -1}[self._next()]
                told.append((place, other, sign * int(self._next())))
            else:
                told.append((place, None, self._literal(self._shape.kinds[place])))
        return told

    def _update(self, tables: Tables) -> List[str]:
        rows = tables[self._table()]
        assert self._is("set")
        assigned = self._assigned()
        found = self._found(rows)
        for row in found:
            made = list(row)
            for place, other, value in assigned:
                if other is not None:
                    value = None if row[other] is None else row[other] + value
                    if value is not None and not _LEAST <= value <= _MOST:
                        raise Fault
                made[place] = value
            rows[row[0]] = tuple(made)
        return [f"UPDATE {len(found)}"]

    def _delete(self, tables: Tables) -> List[str]:
        assert self._is("from")
        rows = tables[self._table()]
        found = self._found(rows)
        for row in found:
            del rows[row[0]]
        return [f"DELETE {len(found)}"]


def _holds(value: Any, sign: str, other: Any, high: Any) -> bool:
    if sign in ("is", "is not"):
        return (value is None) == (sign == "is")
    if value is None or other is None or (sign == "between" and high is None):
        return False
    if sign == "between":
        return bool(other <= value <= high)
    signs = {"=": value == other, "<>": value != other, "<": value < other, "<=": value <= other, ">": value > other}
    return bool(signs[sign] if sign in signs else value >= other)


def _copied(value: Any) -> str:
    """A value as COPY text. Texts are kept as their bytes in UTF-8, so that they compare so; byteas as such."""
    if value is None:
        return "\\N"
    if isinstance(value, Raw):
        return "\\\\x" + value.hex()
    if isinstance(value, bytes):
        return "".join(_ESCAPES.get(letter, letter) for letter in value.decode("utf-8"))
    return str(value)


# ---- orders


def explains(shapes: Dict[str, Shape], transaction: Transaction, tables: Tables) -> Optional[Tables]:
    """The tables that a transaction leaves, run alone on some, where it gets its replies so; else None."""
    tables = {name: dict(rows) for name, rows in tables.items()}
    for exchange in transaction.exchanges:
        try:
            reply = Statement(shapes, exchange.text).does(tables)
        except Fault:
            return None
        if reply[0] != exchange.reply[0] or sorted(reply[1:]) != sorted(exchange.reply[1:]):
            return None
    return tables


def _may_be_next(transaction: Transaction, rest: Sequence[Transaction]) -> bool:
    """Whether nobody else had ended before it began."""
    return not any(other.ends is not None and other.ends < transaction.begins for other in rest if other is not transaction)


def orders(transcript: Transcript, rest: Sequence[Transaction], tables: Tables) -> Iterator[Tuple[List[int], Tables]]:
    """Each order of transactions that explains the replies, with the tables that it leaves. Those without a reply to their
    COMMIT may be left out."""
    if all(transaction.ends is None for transaction in rest):
        yield [], tables
    for transaction in rest:
        if not _may_be_next(transaction, rest):
            continue
        left = explains(transcript.shapes, transaction, tables)
        if left is not None:
            others = [other for other in rest if other is not transaction]
            for order, end in orders(transcript, others, left):
                yield [transaction.number, *order], end


def is_serializable(transcript: Transcript) -> bool:
    """Whether some order explains the replies."""
    empty: Tables = {name: {} for name in transcript.shapes}
    return next(orders(transcript, transcript.transactions, empty), None) is not None


def left_by(transcript: Transcript, numbers: Sequence[int]) -> Optional[Tables]:
    """The tables that an order leaves; None where it doesn't explain the replies."""
    by_number = {transaction.number: transaction for transaction in transcript.transactions}
    tables: Optional[Tables] = {name: {} for name in transcript.shapes}
    for number in numbers:
        tables = None if tables is None else explains(transcript.shapes, by_number[number], tables)
    return tables


def copied(tables: Tables) -> Dict[str, List[str]]:
    """Tables as lines of COPY text."""
    return {name: sorted("\t".join(_copied(value) for value in row) for row in rows.values()) for name, rows in tables.items()}
