"""PREPARE and EXECUTE as statements: what was prepared on a connection under a name, and with which values it is executed."""

from typing import Any, FrozenSet, List, NamedTuple, Optional

from .shapes import Pieces
from .sql import Constant, Parser, Slot, Token
from .values import Unsaid


class Prepared(NamedTuple):
    """A name, and the text that it stands for."""

    name: str
    text: str


class Execution(NamedTuple):
    """A name, and the values with which it is executed: constants and parameters."""

    name: str
    values: List[Any]


def prepared_by(tokens: List[Token], text: str) -> Optional[Prepared]:
    """What a PREPARE prepares; None of any other text."""
    if len(tokens) < 4 or not tokens[0].is_word("prepare") or any(token.is_sign(";") for token in tokens[:-1]):
        return None
    at = Pieces(tokens).past(2) if tokens[2].is_sign("(") else 2
    if at + 1 >= len(tokens) or not tokens[at].is_word("as"):
        return None
    return Prepared(str(tokens[1].value), text[tokens[at + 1].start :])


def executed_by(tokens: List[Token], reading: FrozenSet[str]) -> Optional[Execution]:
    """What an EXECUTE executes; None of any other text."""
    words = [token for token in tokens if not token.is_sign(";")]
    if len(words) < 2 or not words[0].is_word("execute") or len(words) == 3:
        return None
    if len(words) == 2:
        return Execution(str(words[1].value), [])
    if not words[2].is_sign("("):
        return None
    pieces = Pieces(words)
    if pieces.past(2) != len(words):
        return None
    values = []
    for first, last in pieces.split(3, len(words) - 1, ","):
        parser = Parser(words[first:last], reading)
        value = parser._value()
        if parser._token() is not None or not isinstance(value, (Constant, Slot)):
            raise Unsaid("an EXECUTE with other values than constants and parameters")
        values.append(value)
    return Execution(str(words[1].value), values)
