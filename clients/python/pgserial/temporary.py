"""Temporary tables, which one connection alone has: what is written there is no matter, and what is read for it is counted."""

from typing import Any, Dict, List, NamedTuple, Optional, Set

from .effects import parts_of, written_table
from .sql import Name, Token

_BETWEEN = ("global", "local", "if", "not", "exists")
# What may call functions, or tie a table to others.
_UNSURE = ("default", "check", "generated", "like", "inherits", "partition", "of", "references")
# Types that are the database's own, by their first words: what users have made may call functions.
_TYPES = frozenset(
    "smallint int integer bigint int2 int4 int8 smallserial serial bigserial numeric decimal real double float float4 float8 boolean bool text varchar "
    "character char name uuid json jsonb bytea date time timetz timestamp timestamptz interval".split()
)
_CONSTRAINTS = ("primary", "unique", "constraint", "foreign", "exclude")


class Temporary:
    """The temporary tables of a connection; what was made in the open transaction goes where that rolls back."""

    def __init__(self) -> None:
        self._kept: Set[str] = set()
        self._new: Dict[str, bool] = {}  # whether it stays when the transaction commits

    def has(self, name: Name) -> bool:
        """Whether this is one of them."""
        return name.text in self._kept or name.text in self._new

    def make(self, name: str, stays: bool) -> None:
        """One is made."""
        self._new[name] = stays

    def drop(self, name: str) -> None:
        """One is dropped."""
        self._kept.discard(name)
        self._new.pop(name, None)

    def committed(self) -> None:
        """The transaction has committed."""
        self._kept |= {name for name, stays in self._new.items() if stays}

    def forget(self) -> None:
        """The transaction has ended, or a part of it is undone."""
        self._new = {}


class Made(NamedTuple):
    """CREATE TEMPORARY TABLE: its name, whether it stays behind a COMMIT, and the query that fills it."""

    name: Name
    stays: bool
    query: List[Token]


def made_by(tokens: List[Token]) -> Optional[Made]:
    """What a text makes; None where it makes no temporary table, or does more."""
    parts = parts_of(tokens)
    words = [token for token in (parts[0] if len(parts) == 1 else []) if not token.is_word(*_BETWEEN)]
    if len(words) < 4 or not (words[0].is_word("create") and words[1].is_word("temp", "temporary") and words[2].is_word("table")):
        return None
    if words[3].kind not in ("word", "name") or words[4:5] and words[4].is_sign("."):
        return None
    values = [token.value for token in words]
    drops = any(values[at : at + 3] == ["on", "commit", "drop"] for at in range(len(values)))
    depth, start = 0, len(words)
    for at, token in enumerate(words):
        depth += token.is_sign("(") - token.is_sign(")")
        if token.is_word("as") and depth == 0:
            start = at + 1
            break
    return Made(Name(words[3].value, words[3].kind == "name"), not drops, words[start:])


def dropped_by(tokens: List[Token]) -> List[Name]:
    """The tables that a plain DROP TABLE or TRUNCATE names; none of any other text."""
    words = [token for token in tokens if not token.is_sign(";", ",")]
    start = 2 if len(words) > 2 and words[0].is_word("drop") and words[1].is_word("table") else 0
    if not start and len(words) > 1 and words[0].is_word("truncate"):
        start = 2 if words[1].is_word("table") else 1
    rest = [token for token in words[start:] if not token.is_word("if", "exists")] if start else []
    return [Name(token.value, token.kind == "name") for token in rest] if all(token.kind in ("word", "name") for token in rest) else []


def _are_plain(tokens: List[Token]) -> bool:
    """Whether all columns that a text makes are of types of the database's own."""
    depth = 0
    for before, token, after, behind in zip((None, *tokens), tokens, (*tokens[1:], None), (*tokens[2:], None, None)):
        if depth == 1 and before is not None and before.is_sign("(", ",") and not token.is_word(*_CONSTRAINTS):
            if after is None or after.kind != "word" or after.value not in _TYPES or (behind is not None and behind.is_sign(".")):
                return False
        depth += token.is_sign("(") - token.is_sign(")")
    return True


def _is_qualified(tokens: List[Token], name: Name) -> bool:
    """Whether a table's name stands behind that of a schema which has no temporary ones."""
    at = next(at for at, token in enumerate(tokens) if token.value == name.text and at)
    return tokens[at - 1].is_sign(".") and not tokens[at - 2].is_word("pg_temp", "temp")


def of(tokens: List[Token], temporary: Temporary, translator: Any) -> Any:
    """What is to be done about a text that makes, writes or drops temporary tables alone: a plan for it; None of any other."""
    made = made_by(tokens)
    if made is not None and not translator.is_recorded(made.name) and not any(token.is_word(*_UNSURE) for token in tokens):
        if made.query or translator.folds or _are_plain(tokens):  # SQLite has no types that users have made
            return translator.made_temporary(made.query)
    written = written_table(tokens)
    if written is not None and temporary.has(written) and not _is_qualified(tokens, written):
        return translator.ignored(tokens, written)
    dropped = dropped_by(tokens)
    return translator.nothing() if dropped and all(temporary.has(name) for name in dropped) else None


def done(tokens: List[Token], temporary: Temporary) -> None:
    """What a text that was done has made or dropped."""
    made = made_by(tokens)
    if made is not None:
        temporary.make(made.name.text, made.stays)
    elif tokens and tokens[0].is_word("drop"):
        for name in dropped_by(tokens):
            temporary.drop(name.text)
