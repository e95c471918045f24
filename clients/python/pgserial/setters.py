"""Triggers that set columns of the row which is written, and do nothing else: their functions are read, where they are
`BEGIN NEW.changed := now(); .. RETURN NEW; END` in plpgsql. RETURNING shows what they have set."""

from typing import FrozenSet, Iterable, List, NamedTuple, Optional, Sequence, Tuple

from .shapes import _reads_columns, called_unknown
from .sql import Token, tokens_of
from .values import Unsaid

_ROW, _BEFORE, _OTHERS = 1, 2, 8 + 32 + 64  # bits of a trigger's type: of each row, before it, by DELETE, TRUNCATE, or instead


class Setter(NamedTuple):
    """A trigger that sets columns: its name, the statements by which it does, these columns, what it sets them to, and whether
    other columns or rows are read for that."""

    name: str
    verbs: FrozenSet[str]
    columns: Tuple[str, ...]
    tokens: Tuple[Token, ...]
    reads: bool

    def is_quiet(self, reading: FrozenSet[str]) -> bool:
        """Whether it calls no other functions than these, which write nothing."""
        return called_unknown(self.tokens, reading) is None


def setter_of(name: str, bits: int, verbs: FrozenSet[str], is_always: bool, language: str, body: str) -> Optional[Setter]:
    """A trigger that sets columns, and is fired by each row; None of any other."""
    if not (bits & _ROW and bits & _BEFORE) or bits & _OTHERS or not is_always or language != "plpgsql":
        return None
    try:
        found = list(_assignments(tokens_of(body, "qmark", False)))
    except Unsaid:
        return None
    tokens = tuple(token for _, value in found for token in value)
    if not found or any(token.is_word("select", "from", "table", "into") for token in tokens):
        return None
    return Setter(name, verbs, tuple(column for column, _ in found), tokens, _reads_columns(tokens))


def _statements(tokens: Sequence[Token]) -> Iterable[List[Token]]:
    statement: List[Token] = []
    for token in tokens:
        if token.is_sign(";"):
            yield statement
            statement = []
        else:
            statement.append(token)
    if statement:
        yield statement


def _assignments(tokens: Sequence[Token]) -> Iterable[Tuple[str, List[Token]]]:
    """The columns that a function assigns, with what it assigns; refuses one that does anything else."""
    statements = list(_statements(tokens))
    if len(statements) < 2 or not statements[0] or not statements[0][0].is_word("begin"):
        raise Unsaid("it has declarations")
    statements[0] = statements[0][1:]
    returns, ends = statements[-2:]
    if [token.value for token in returns] != ["return", "new"] or [token.value for token in ends] != ["end"]:
        raise Unsaid("it returns another row")
    for statement in statements[:-2]:
        start = [token.value for token in statement[:2]]
        signs = [token.value for token in statement[3:5]]
        width = 1 if signs[:1] in (["="], [":="]) else 2 if signs == [":", "="] else 0
        if start != ["new", "."] or not width or len(statement) <= 3 + width or statement[2].kind not in ("word", "name"):
            raise Unsaid("it does something else")
        yield str(statement[2].value), statement[3 + width :]
