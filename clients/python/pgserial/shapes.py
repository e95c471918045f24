"""The parts of statements that the grammar of transcripts lacks: which table is written and how, what is shown of which
tables, which conditions can be said, and whether more is read than these."""

from typing import Any, FrozenSet, Iterator, List, NamedTuple, Optional, Sequence, Tuple

from . import sql
from .sql import BEFORE_PARENTHESES, Cast, Constant, Made, Name, Parser, Slot, Star, Table, Token
from .values import Unsaid

Tokens = Sequence[Token]
_OPENS, _CLOSES = ("(", "["), (")", "]")
_NO_FUNCTIONS = BEFORE_PARENTHESES | frozenset("conflict set rollup cube sets do returning only tablesample system bernoulli".split())
_NO_COLUMNS = frozenset(
    "null true false default as cast array distinct is not and or between case when then else end current_timestamp "
    "current_date current_time localtime localtimestamp".split()
)
_WRITING = ("insert", "update", "delete", "merge", "into", "call", "truncate", "execute", "replace")


_SCALAR = BEFORE_PARENTHESES | frozenset(
    "coalesce nullif greatest least lower upper length char_length substr substring trim ltrim rtrim btrim replace concat "
    "concat_ws abs round floor ceil ceiling mod power sqrt sign random now clock_timestamp date datetime strftime date_trunc "
    "date_part extract age to_char to_date to_timestamp to_number left right lpad rpad reverse md5 ifnull iif typeof".split()
) - frozenset(("over", "filter", "within"))
# Functions that read no rows.
_PURE = (_SCALAR - frozenset("in exists any all some select from join where having".split())) | frozenset(
    "nextval currval gen_random_uuid uuid_generate_v4 statement_timestamp transaction_timestamp hex unhex quote repeat encode decode".split()
)


class Reading(Made):
    """An expression that may read columns or rows."""


class Pieces:
    """A statement's tokens, each with how deep it stands between parentheses, brackets or CASE and END."""

    def __init__(self, tokens: Tokens) -> None:
        self.tokens = list(tokens)
        self.depths: List[int] = []
        depth = 0
        for token in tokens:
            depth -= token.is_sign(*_CLOSES) or token.is_word("end")
            self.depths.append(depth)
            depth += token.is_sign(*_OPENS) or token.is_word("case")
        if depth:
            raise Unsaid("its parentheses don't end")

    def find(self, start: int, end: int, *words: str) -> int:
        """The first of some words that stands in no parentheses; `end` where there is none."""
        depth = self.depths[start] if start < end else 0
        return next((at for at in range(start, end) if self.depths[at] == depth and self.tokens[at].is_word(*words)), end)

    def split(self, start: int, end: int, sign: str) -> Iterator[Tuple[int, int]]:
        """The pieces between commas that stand in no parentheses."""
        depth, first = self.depths[start] if start < end else 0, start
        for at in range(start, end):
            if self.depths[at] == depth and self.tokens[at].is_sign(sign):
                yield first, at
                first = at + 1
        yield first, end

    def past(self, at: int) -> int:
        """Behind the parenthesis that ends the one at a place."""
        depth = self.depths[at]
        end = next((place for place in range(at + 1, len(self.tokens)) if self.depths[place] <= depth), None)
        if end is None:
            raise Unsaid("its parentheses don't end")
        return end + 1


class Assigned(NamedTuple):
    """A column that is assigned: a value, a sum, or Made; and whether more is read for it than that says."""

    name: Name
    value: Any
    reads: bool


class Conflict(NamedTuple):
    """What is done about rows that are there: nothing, or an assignment; REPLACE puts others in their place."""

    does: str  # nothing, update, replace
    target: Optional[Tuple[Name, ...]]  # columns, None where none are named
    assigned: Tuple[Assigned, ...]
    has_condition: bool


class Write(NamedTuple):
    """A statement that writes rows of one table. `reads` names what it has read and its conditions don't say."""

    verb: str  # INSERT, UPDATE, DELETE
    table: Table
    conditions: Tuple[Any, ...]
    reads: Tuple[str, ...]
    assigned: Tuple[Assigned, ...]
    columns: Optional[Tuple[Name, ...]]  # of INSERT
    rows: Optional[Tuple[Tuple[Any, ...], ...]]  # of INSERT .. VALUES
    conflict: Optional[Conflict]
    returning: Optional[Tuple[Any, ...]]  # what its own RETURNING shows, None where it has none


class Source(NamedTuple):
    """A table that a query reads; without a name one that is none of the database's."""

    table: Optional[Table]


class Read(NamedTuple):
    """A query: what it shows, of which tables; and where it is of one table, the conditions that could be read."""

    items: Tuple[Any, ...]  # columns and stars; Made for what else is shown
    sources: Tuple[Source, ...]
    conditions: Tuple[Any, ...]
    is_whole: bool  # whether all rows that meet the conditions are shown, each once or as often as there are such
    is_distinct: bool  # whether each is shown once
    is_merged: bool  # whether columns of two tables may stand for one another
    with_names: FrozenSet[str]
    end: Optional[int]  # where in the text what it shows ends, if more may be shown of each row and nothing else changes


def _reader(pieces: Pieces, start: int, end: int, reading: FrozenSet[str]) -> Parser:
    return Parser(pieces.tokens[start:end], reading)


def _whole(parser: Parser, value: Any) -> Any:
    """What was read, where nothing stands behind it."""
    if parser._token() is not None:
        raise Unsaid("more stands there")
    return value


def _reads_columns(tokens: Tokens) -> bool:
    """Whether an expression may read columns or rows: any word that is no sure keyword, no type of a value and no function
    that is known to read nothing."""
    for at, token in enumerate(tokens):
        if token.kind not in ("word", "name") or (token.kind == "word" and token.value in _NO_COLUMNS):
            continue
        before, after = tokens[at - 1] if at else None, tokens[at + 1] if at + 1 < len(tokens) else None
        is_type = before is not None and (before.is_sign("::") or before.is_word("as"))
        is_call = after is not None and after.is_sign("(") and token.value in _PURE
        is_typed = after is not None and after.kind == "string"
        if not (is_type or is_call or is_typed):
            return True
    return False


def _conjuncts(pieces: Pieces, start: int, end: int) -> Iterator[Tuple[int, int]]:
    """The conditions that AND joins; only one where OR stands beside it."""
    depth = pieces.depths[start] if start < end else 0
    if pieces.find(start, end, "or") < end:
        yield start, end
        return
    first, between = start, 0
    for at in range(start, end):
        token = pieces.tokens[at]
        if pieces.depths[at] != depth:
            continue
        between += token.is_word("between")
        if token.is_word("and"):
            if between:
                between -= 1
            else:
                yield first, at
                first = at + 1
    yield first, end


def _conditions(pieces: Pieces, start: int, end: int, reading: FrozenSet[str]) -> Tuple[Tuple[Any, ...], bool]:
    """The conditions that can be read, and whether others stand beside them."""
    found: List[Any] = []
    others = False
    for first, last in _conjuncts(pieces, start, end) if start < end else ():
        try:
            parser = _reader(pieces, first, last, reading)
            found += _whole(parser, parser._condition())
        except Unsaid:
            others = True
    return tuple(found), others


def _value(pieces: Pieces, start: int, end: int, reading: FrozenSet[str]) -> Tuple[Any, bool]:
    """A value that is written, a sum, or Made; and whether it reads more than that says."""
    try:
        parser = _reader(pieces, start, end, reading)
        return _whole(parser, parser._sum()), False
    except Unsaid:
        tokens = pieces.tokens[start:end]
        return Made(" ".join(str(token.value) for token in tokens)), _reads_columns(tokens)


def _assigned(pieces: Pieces, start: int, end: int, reading: FrozenSet[str]) -> Tuple[Assigned, ...]:
    """What stands behind SET."""
    found: List[Assigned] = []
    for first, last in pieces.split(start, end, ","):
        if first < last and pieces.tokens[first].is_sign("("):
            found += _several_assigned(pieces, first, last, reading)
            continue
        parser = _reader(pieces, first, last, reading)
        name = parser._name()
        if not parser._take_sign("="):
            raise Unsaid("what it assigns can't be read")
        found.append(Assigned(name, *_value(pieces, first + 2, last, reading)))
    return tuple(found)


def _several_assigned(pieces: Pieces, first: int, last: int, reading: FrozenSet[str]) -> List[Assigned]:
    """`(a, b) = (1, 2)`, or any other expression of several values."""
    end = pieces.past(first)
    parser = _reader(pieces, first + 1, end, reading)
    names = parser._names()
    if not (end < last and pieces.tokens[end].is_sign("=")):
        raise Unsaid("what it assigns can't be read")
    at = end + 1 + (end + 1 < last and pieces.tokens[end + 1].is_word("row"))
    if at < last and pieces.tokens[at].is_sign("(") and pieces.past(at) == last:
        values = list(pieces.split(at + 1, last - 1, ","))
        if len(values) == len(names):
            return [Assigned(name, *_value(pieces, *where, reading)) for name, where in zip(names, values)]
    tokens = pieces.tokens[at:last]
    return [Assigned(name, Made("several values"), _reads_columns(tokens)) for name in names]


def _without_end(tokens: Tokens) -> List[Token]:
    """The tokens without the semicolons at their end."""
    kept = list(tokens)
    while kept and kept[-1].is_sign(";"):
        kept.pop()
    if not kept or any(token.is_sign(";") for token in kept):
        raise Unsaid("it is no single statement")
    return kept


def _past_with(pieces: Pieces) -> Tuple[int, FrozenSet[str], bool]:
    """Behind WITH and what it names; these names, and whether it is recursive."""
    tokens = pieces.tokens
    if not tokens[0].is_word("with"):
        return 0, frozenset(), False
    is_recursive = len(tokens) > 1 and tokens[1].is_word("recursive")
    at, names = 1 + is_recursive, []
    while at < len(tokens):
        names.append(str(tokens[at].value))
        at = pieces.find(at, len(tokens), "as") + 1
        while at < len(tokens) and tokens[at].is_word("not", "materialized"):
            at += 1
        if at >= len(tokens) or not tokens[at].is_sign("("):
            break
        at = pieces.past(at)
        if at < len(tokens) and tokens[at].is_sign(","):
            at += 1
            continue
        return at, frozenset(names), is_recursive
    raise Unsaid("its WITH can't be read")


def _refuse_other_writes(tokens: Tokens, start: int = 0) -> None:
    """Refuses a statement of which another part writes too."""
    for at in range(start, len(tokens)):
        token = tokens[at]
        if token.kind != "word" or token.value not in _WRITING:
            continue
        before = tokens[at - 1] if at else None
        is_call = at + 1 < len(tokens) and tokens[at + 1].is_sign("(") and token.value == "replace"
        is_lock = token.value == "update" and before is not None and before.is_word("for", "key", "do")
        if not is_call and not is_lock:
            raise Unsaid(f"{str(token.value).upper()} stands in it")


def refuse_functions(tokens: Tokens, reading: FrozenSet[str], passed: Sequence[int] = ()) -> None:
    """Refuses a function of which nobody knows whether it writes. At the places that are passed over stand names of tables."""
    found = called_unknown(tokens, reading, passed)
    if found is not None:
        raise Unsaid(f"it calls {found}")


def called_unknown(tokens: Tokens, reading: FrozenSet[str], passed: Sequence[int] = ()) -> Optional[str]:
    """A function of which nobody knows whether it writes."""
    for at, (token, after) in enumerate(zip(tokens, tokens[1:])):
        if not after.is_sign("(") or token.kind not in ("word", "name") or at in passed:
            continue
        is_name = at > 0 and (tokens[at - 1].is_word("as") or (tokens[at - 1].is_sign(",") and _is_with_name(tokens, at)))
        is_with = at > 0 and tokens[at - 1].is_word("with", "recursive")
        if token.value not in reading and token.value not in _NO_FUNCTIONS and not is_name and not is_with:
            return str(token.value)
    return None


def _is_with_name(tokens: Tokens, at: int) -> bool:
    """Whether `name (..) AS (` stands there."""
    depth = 0
    for place in range(at + 1, len(tokens)):
        depth += tokens[place].is_sign("(") - tokens[place].is_sign(")")
        if depth == 0:
            return place + 2 < len(tokens) and tokens[place + 1].is_word("as") and tokens[place + 2].is_sign("(")
    return False


# ---- what writes


def write_of(tokens: Tokens, reading: FrozenSet[str]) -> Write:
    """A statement that writes rows of one table."""
    pieces = Pieces(_without_end(tokens))
    start, _, _ = _past_with(pieces)
    verb = str(pieces.tokens[start].value) if start < len(pieces.tokens) else ""
    _refuse_other_writes(pieces.tokens[:start], 0)
    if verb in ("insert", "replace"):
        return _insert(pieces, start, reading)
    if verb == "update":
        return _update(pieces, start, reading)
    if verb == "delete":
        return _delete(pieces, start, reading)
    raise Unsaid("it is no INSERT, UPDATE or DELETE")


def shown_write(tokens: Tokens) -> Tuple[Tokens, Optional[Token]]:
    """The statement that writes in `WITH name AS (..) SELECT * FROM name`, and the token behind it; or the tokens as they are."""
    try:
        kept = _without_end(tokens)
        pieces = Pieces(kept)
        start, names, is_recursive = _past_with(pieces)
    except Unsaid:
        return tokens, None
    behind = kept[start:]
    is_all = len(behind) == 4 and behind[0].is_word("select") and behind[1].is_sign("*") and behind[2].is_word("from")
    if is_recursive or not is_all or len(names) != 1 or [str(behind[3].value)] != list(names) or not kept[2].is_word("as"):
        return tokens, None
    opens = next(at for at, token in enumerate(kept) if token.is_sign("("))
    within = kept[opens + 1 : start - 1]
    is_written = bool(within) and within[0].is_word("insert", "update", "delete") and any(token.is_word("returning") for token in within)
    return (within, kept[start - 1]) if is_written else (tokens, None)


def _table(pieces: Pieces, start: int, reading: FrozenSet[str]) -> Tuple[Table, int]:
    """The table that is written, and what stands behind it."""
    parser = Parser(pieces.tokens[start:], reading)
    table = parser._table()
    return table, start + parser._place


def _inserted_table(pieces: Pieces, start: int, reading: FrozenSet[str]) -> Tuple[Table, int]:
    """The table behind INTO, whose alias stands behind AS."""
    parser = Parser(pieces.tokens[start:], reading)
    schema, name = None, parser._name()
    if parser._take_sign("."):
        schema, name = name, parser._name()
    alias = parser._name() if parser._take_word("as") else None
    return Table(schema, name, alias), start + parser._place


def _returning(pieces: Pieces, start: int, end: int, reading: FrozenSet[str]) -> Tuple[int, Optional[Tuple[Any, ...]]]:
    """Where RETURNING stands, or the end; and what it shows."""
    at = pieces.find(start, end, "returning")
    return at, (None if at == end else tuple(_items(pieces, at + 1, end, reading)))


def _update(pieces: Pieces, start: int, reading: FrozenSet[str]) -> Write:
    tokens, end = pieces.tokens, len(pieces.tokens)
    table, at = _table(pieces, start + 1, reading)
    if at >= end or not tokens[at].is_word("set"):
        raise Unsaid("its SET can't be read")
    _refuse_other_writes(tokens, at)
    refuse_functions(tokens, reading)
    stop, returning = _returning(pieces, at, end, reading)
    if pieces.find(at, stop, "order", "limit") < stop:
        raise Unsaid("it has a LIMIT")
    where = pieces.find(at, stop, "where")
    source = pieces.find(at, where, "from")
    assigned = _assigned(pieces, at + 1, source, reading)
    conditions, others = _conditions(pieces, where + 1, stop, reading)
    reads = ["other conditions"] * others + ["other tables"] * (source < where or start > 0)
    return Write("UPDATE", table, conditions, tuple(reads), assigned, None, None, None, returning)


def _delete(pieces: Pieces, start: int, reading: FrozenSet[str]) -> Write:
    tokens, end = pieces.tokens, len(pieces.tokens)
    if start + 1 >= end or not tokens[start + 1].is_word("from"):
        raise Unsaid("its FROM can't be read")
    table, at = _table(pieces, start + 2, reading)
    if at < end and not tokens[at].is_word("where", "using", "returning"):
        raise Unsaid("its table can't be read")
    _refuse_other_writes(tokens, at)
    refuse_functions(tokens, reading)
    stop, returning = _returning(pieces, at, end, reading)
    if pieces.find(at, stop, "order", "limit") < stop:
        raise Unsaid("it has a LIMIT")
    where = pieces.find(at, stop, "where")
    conditions, others = _conditions(pieces, where + 1, stop, reading)
    has_tables = pieces.find(at, where, "using") < where or start > 0
    reads = ["other conditions"] * others + ["other tables"] * has_tables
    return Write("DELETE", table, conditions, tuple(reads), (), None, None, None, returning)


def _insert(pieces: Pieces, start: int, reading: FrozenSet[str]) -> Write:
    tokens, end = pieces.tokens, len(pieces.tokens)
    at, does = start + 1, "replace" if tokens[start].is_word("replace") else ""
    if at + 1 < end and tokens[at].is_word("or"):
        does = {"ignore": "nothing", "replace": "replace"}.get(str(tokens[at + 1].value), "")
        if not does:
            raise Unsaid(f"it has OR {str(tokens[at + 1].value).upper()}")
        at += 2
    if at >= end or not tokens[at].is_word("into"):
        raise Unsaid("its INTO can't be read")
    table, at = _inserted_table(pieces, at + 1, reading)
    columns: Optional[Tuple[Name, ...]] = None
    _refuse_other_writes(tokens, at)
    refuse_functions(tokens, reading, (at - 1,))
    if at < end and tokens[at].is_sign("("):
        columns = _reader(pieces, at + 1, pieces.past(at), reading)._names()
        at = pieces.past(at)
    stop, returning = _returning(pieces, at, end, reading)
    where, conflict = _conflict(pieces, at, stop, reading)
    if does:
        # OR IGNORE passes over other faults of a row too.
        conflict = Conflict(does, () if does == "nothing" else None, (), False) if conflict is None else None
        if conflict is None:
            raise Unsaid("it has two ways about conflicts")
    rows, is_query = _values(pieces, at, where, reading)
    reads = ["what it selects"] * is_query + ["other tables"] * (start > 0)
    if rows is not None and any(isinstance(value, Reading) for row in rows for value in row):
        reads.append("a subquery")
    return Write("INSERT", table, (), tuple(reads), (), columns, rows, conflict, returning)


def _values(pieces: Pieces, start: int, end: int, reading: FrozenSet[str]) -> Tuple[Optional[Tuple[Tuple[Any, ...], ...]], bool]:
    """The rows behind VALUES; else None, and whether a query has them."""
    tokens = pieces.tokens
    if start + 1 < end and tokens[start].is_word("overriding"):
        start = pieces.find(start, end, "values", "select", "with", "table")
    if start + 1 < end and tokens[start].is_word("default") and tokens[start + 1].is_word("values"):
        return ((),), False
    if start >= end or not tokens[start].is_word("values"):
        return None, True
    rows: List[Tuple[Any, ...]] = []
    for first, last in pieces.split(start + 1, end, ","):
        if first >= last or not tokens[first].is_sign("(") or pieces.past(first) != last:
            return None, True
        rows.append(tuple(_inserted(pieces, *where, reading) for where in pieces.split(first + 1, last - 1, ",")))
    return tuple(rows), False


def _inserted(pieces: Pieces, start: int, end: int, reading: FrozenSet[str]) -> Any:
    try:
        parser = _reader(pieces, start, end, reading)
        return _whole(parser, parser._value())
    except Unsaid:
        text = " ".join(str(token.value) for token in pieces.tokens[start:end])
        return Reading(text) if _reads_columns(pieces.tokens[start:end]) else Made(text)


def _conflict(pieces: Pieces, start: int, end: int, reading: FrozenSet[str]) -> Tuple[int, Optional[Conflict]]:
    """Where ON CONFLICT stands, or the end; and what it does."""
    tokens = pieces.tokens
    at = pieces.find(start, end, "conflict")
    if at == end or not tokens[at - 1].is_word("on"):
        return end, None
    stands, target = at - 1, None
    do = pieces.find(at, end, "do")
    if at + 1 < do and tokens[at + 1].is_sign("(") and pieces.past(at + 1) == do:
        target = _reader(pieces, at + 2, do, reading)._names()
    elif at + 1 < do:
        target = ()  # a constraint, or an index with conditions
    if do + 1 < end and tokens[do + 1].is_word("nothing"):
        return stands, Conflict("nothing", target, (), False)
    if not (do + 2 < end and tokens[do + 1].is_word("update") and tokens[do + 2].is_word("set")):
        raise Unsaid("its ON CONFLICT can't be read")
    if pieces.find(do, end, "on") < end:
        raise Unsaid("it has two ways about conflicts")
    where = pieces.find(do, end, "where")
    return stands, Conflict("update", target, _assigned(pieces, do + 3, where, reading), where < end)


# ---- what reads


def _items(pieces: Pieces, start: int, end: int, reading: FrozenSet[str]) -> List[Any]:
    """What is shown: columns and stars, and Made for the rest."""
    found: List[Any] = []
    for first, last in pieces.split(start, end, ","):
        try:
            parser = _reader(pieces, first, last, reading)
            item = _whole(parser, parser._item())
            found.append(item if isinstance(item, (Star, sql.Column, Constant, Slot, Cast)) else Reading("count"))
        except Unsaid:
            tokens = pieces.tokens[first:last]
            if any(token.is_sign("*") for token in tokens[-1:]):
                raise
            text = " ".join(str(token.value) for token in tokens)
            found.append(Reading(text) if _reads_columns(tokens) else Made(text))
    return found


_ENDS_FROM = ("where", "group", "having", "window", "order", "limit", "offset", "fetch", "for")
_JOINS = ("join", "inner", "left", "right", "full", "outer", "cross", "natural")
_GROUPS = ("rollup", "cube", "grouping")


def read_of(tokens: Tokens, reading: FrozenSet[str]) -> Read:
    """A query that isn't one of several joined by UNION and its kin."""
    pieces = Pieces(_without_end(tokens))
    start, with_names, is_recursive = _past_with(pieces)
    tokens, end = pieces.tokens, len(pieces.tokens)
    if is_recursive or start >= end or not tokens[start].is_word("select"):
        raise Unsaid("it is no plain query")
    if pieces.find(start, end, "union", "intersect", "except", "into") < end or any(token.is_word(*_GROUPS) for token in tokens):
        raise Unsaid("it joins queries, or groups")
    _refuse_other_writes(tokens)
    refuse_functions(tokens, reading)
    first = start + 1
    is_distinct, is_on = first < end and tokens[first].is_word("distinct"), False
    if first < end and tokens[first].is_word("distinct", "all"):
        first += 1
        if first < end and tokens[first].is_word("on"):
            first, is_on = pieces.past(first + 1), True
    source = pieces.find(first, end, "from")
    stop = pieces.find(source, end, *_ENDS_FROM)
    items = tuple(_items(pieces, first, source, reading))
    sources, is_merged = _sources(pieces, source + 1, stop, reading)
    where = stop + 1 if stop < end and tokens[stop].is_word("where") else stop
    behind = pieces.find(where, end, *_ENDS_FROM[1:])
    conditions, others = _conditions(pieces, where, behind, reading) if where > stop else ((), False)
    cut = pieces.find(behind, end, "group", "having", "limit", "offset", "fetch", "skip") < end
    cut = cut or any(token.is_word("tablesample") for token in tokens[source:stop])
    is_by_rows = _is_by_rows(pieces, first, source)
    is_whole = is_by_rows and not (cut or others or is_on or with_names or len(sources) != 1)
    is_plain = is_by_rows and not is_distinct and pieces.find(behind, end, "group", "having") == end and source < end
    return Read(
        items, sources, conditions if len(sources) == 1 else (), is_whole, is_distinct, is_merged, with_names,
        tokens[source].start if is_plain else None,
    )  # fmt: skip


def _is_by_rows(pieces: Pieces, start: int, end: int) -> bool:
    """Whether all that is shown is one value for each row: no aggregates, and nothing that makes several rows of one."""
    tokens = pieces.tokens[start:end]
    calls = [token for token, after in zip(tokens, tokens[1:]) if after.is_sign("(") and token.kind in ("word", "name")]
    return all(token.value in _SCALAR for token in calls)


def _sources(pieces: Pieces, start: int, end: int, reading: FrozenSet[str]) -> Tuple[Tuple[Source, ...], bool]:
    """The tables of FROM, in their order; and whether columns may be merged."""
    found: List[Source] = []
    is_merged = pieces.find(start, end, "natural", "using") < end
    for first, last in pieces.split(start, end, ",") if start < end else ():
        at = first
        while at < last:
            stop = pieces.find(at, last, *_JOINS)
            found.append(_source(pieces, at, stop, reading))
            at = stop
            while at < last and pieces.tokens[at].is_word(*_JOINS):
                at += 1
    return tuple(found), is_merged


def _source(pieces: Pieces, start: int, end: int, reading: FrozenSet[str]) -> Source:
    """One table, with what joins it."""
    end = pieces.find(start, end, "on", "using", "tablesample")
    try:
        parser = _reader(pieces, start, end, reading)
        return Source(_whole(parser, parser._table()))
    except Unsaid:
        return Source(None)
