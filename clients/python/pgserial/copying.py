"""COPY into a table: the rows that an application gives, read beside the driver, are said as an INSERT each."""

import re
import sys
from itertools import groupby
from typing import Any, Callable, List, NamedTuple, Optional, Tuple

from . import sql
from .plans import Translator
from .sql import Constant, Name, Token
from .translation import Arguments, Exchange, Result, _Insert
from .values import Spelling, Unsaid

MOST_ROWS = 10000
_MOST_TEXT = 1 << 26  # characters
_LETTERS = {"b": "\b", "f": "\f", "n": "\n", "r": "\r", "t": "\t", "v": "\v"}
_ESCAPED = re.compile(r"\\([0-7]{1,3}|x[0-9a-fA-F]{1,2}|.)", re.DOTALL)


class Copied(NamedTuple):
    """A COPY of a table from what the application gives, in PostgreSQL's own form of text."""

    table: sql.Table
    columns: Optional[Tuple[Name, ...]]
    delimiter: str = "\t"
    null: str = "\\N"


def copied_by(tokens: List[Token]) -> Copied:
    """A COPY that has no options."""
    parser = sql.Parser([token for token in tokens if not token.is_sign(";")], frozenset())
    if not parser._take_word("copy"):
        raise Unsaid("it is no COPY")
    schema, name = None, parser._name()
    if parser._take_sign("."):
        schema, name = name, parser._name()
    columns: Optional[Tuple[Name, ...]] = None
    if parser._take_sign("("):
        columns = parser._names()
    if not (parser._take_word("from") and parser._take_word("stdin")) or parser._token() is not None:
        raise Unsaid("its COPY has options")
    return Copied(sql.Table(schema, name, None), columns)


class Given:
    """What an application gives to be copied, of which what the driver takes is kept."""

    def __init__(self, encoding: str = "ascii") -> None:
        self._encoding = encoding
        self._pieces: List[Any] = []
        self._size = 0

    def keep(self, data: Any) -> None:
        """Keeps a piece, a text or bytes."""
        if self._size <= _MOST_TEXT:
            self._pieces.append(data if isinstance(data, str) else bytes(data))
            self._size += len(data)

    def text(self) -> str:
        """What was kept."""
        if self._size > _MOST_TEXT:
            raise Unsaid("it copies more than is kept")
        try:
            # A letter's bytes may stand in two pieces.
            return "".join(
                "".join(pieces) if is_text else b"".join(pieces).decode(self._encoding)
                for is_text, pieces in groupby(self._pieces, lambda piece: isinstance(piece, str))
            )
        except UnicodeDecodeError:
            raise Unsaid("nobody knows how its bytes are encoded") from None


class Teed(Given):
    """A file that the driver reads, of which what was read is kept."""

    def __init__(self, file: Any) -> None:
        super().__init__()
        self._file = file

    def __getattr__(self, name: str) -> Any:
        return getattr(self._file, name)

    def read(self, *words: Any) -> Any:
        """What the file gives."""
        return self._kept(self._file.read(*words))

    def readline(self, *words: Any) -> Any:
        """The file's next line."""
        return self._kept(self._file.readline(*words))

    def _kept(self, data: Any) -> Any:
        if isinstance(data, (str, bytes)):
            self.keep(data)
        return data


class Written(Given):
    """What writes to the server in a COPY of psycopg, by its own writer, which may have to be awaited."""

    def __init__(self, own: Any, encoding: str) -> None:
        super().__init__(encoding)
        self._own = own

    def write(self, data: Any) -> Any:
        """Sends a piece."""
        self.keep(data)
        return self._own.write(data)

    def finish(self, error: Optional[BaseException] = None) -> Any:
        """Ends the COPY, which fails where there is an error."""
        return self._own.finish(error)


def written_by(cursor: Any, kind: str) -> Optional[Written]:
    """What writes for a cursor of psycopg in the place of its own writer of that kind; nothing where it takes none, as before 3.1."""
    made = getattr(sys.modules.get("psycopg.copy"), kind, None)
    return None if made is None else Written(made(cursor), cursor.connection.info.encoding)


def _field(text: str, null: str) -> Optional[str]:
    """The value of a field."""
    return None if text == null else _ESCAPED.sub(_unescaped, text)


def _unescaped(found: "re.Match[str]") -> str:
    word = found[1]
    if word[0] in "01234567" or (word[0] == "x" and len(word) > 1):
        raise Unsaid("it has bytes by their numbers")
    return _LETTERS.get(word, word)


def _split(line: str, delimiter: str) -> List[str]:
    """The fields of a line; a delimiter behind a backslash is a letter."""
    if "\\" not in line:
        return line.split(delimiter)
    fields, start, at = [], 0, 0
    while at < len(line):
        if line[at] == "\\":
            at += 2
        elif line[at] == delimiter:
            fields.append(line[start:at])
            start = at = at + 1
        else:
            at += 1
    return [*fields, line[start:]]


def rows_of(text: str, copied: Copied) -> List[List[Optional[str]]]:
    """The rows of what was copied."""
    if "\r" in text or re.search(r"\\\n", text):
        raise Unsaid("its lines end otherwise")
    lines = text.split("\n")
    if lines and lines[-1] == "":
        lines.pop()
    if "\\." in lines:
        lines = lines[: lines.index("\\.")]
    if len(lines) > MOST_ROWS:
        raise Unsaid(f"it copies more than {MOST_ROWS} rows")
    return [[_field(field, copied.null) for field in _split(line, copied.delimiter)] for line in lines]


def copied_from(table: Any, columns: Any, separator: Any, null: Any) -> Copied:
    """What psycopg2's `copy_from` copies: a table's name is one name, in quotes."""
    if not all(isinstance(each, str) for each in (table, separator, null)):
        raise Unsaid("what it copies is no text")
    names = None if columns is None else tuple(Name(str(name), True) for name in columns)
    return Copied(sql.Table(None, Name(table, True), None), names, separator, null)


class Copying:
    """A COPY into a recorded table."""

    def __init__(self, translator: Translator, spelling: Spelling, copied: Copied, teed: Callable[[], str]) -> None:
        self._translator, self._spelling, self._copied, self._teed = translator, spelling, copied, teed

    def exchanges(self, number: int) -> List[Exchange]:
        """An INSERT for each row."""
        rows = rows_of(self._teed(), self._copied)
        if number not in (-1, len(rows)):
            raise Unsaid(f"it has copied {number} rows, and {len(rows)} were given")
        if not rows:
            return []
        values = tuple(tuple(Constant(value) for value in row) for row in rows)
        tree = sql.Insert(self._copied.table, self._copied.columns, values, ())
        saying = _Insert(self._translator.names, self._spelling, tree)
        if self._copied.columns is None and {len(row) for row in rows} != {len(saying.table.order)}:
            raise Unsaid("it has other columns than the table")  # as those that the database makes
        return saying.told(Arguments(None)).exchanges(Result(len(rows)))
