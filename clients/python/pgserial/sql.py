"""What applications write as SQL, read into trees: the statements that a transcript may be able to say, and of all others
whether they only read. Names are resolved elsewhere."""

import re
from decimal import Decimal
from typing import Any, Callable, Dict, FrozenSet, List, NamedTuple, Optional, Pattern, Tuple, Union

from .values import Unsaid

# ---- tokens


class Token(NamedTuple):
    """A token: a word in small letters, a quoted name, a number, a string, bytes, a parameter, or a sign."""

    kind: str
    value: Any
    start: int

    def is_word(self, *words: str) -> bool:
        """Whether it is one of these words."""
        return self.kind == "word" and self.value in words

    def is_sign(self, *signs: str) -> bool:
        """Whether it is one of these signs."""
        return self.kind == "sign" and self.value in signs


MOST_DIGITS = 1000  # of a number that is taken for a whole one
Key = Union[int, str]  # of a parameter: its place, counted from 0, or its name

_PERCENT = r"(?P<slot>%(?:\((?P<slot_name>[^)]*)\))?[sbt](?!\w))|(?P<percent>%%)"
_COLON = r"(?P<slot>(?<!:):(?P<slot_name>[^\W\d]\w*))"
# What stands for a parameter, by the driver's style. sqlite3 takes both `?` and names.
_SLOTS = {
    "pyformat": _PERCENT,
    "format": _PERCENT,
    "qmark": r"(?P<slot>\?(?P<slot_number>[0-9]{0,9})|[:@$](?P<slot_name>[^\W\d]\w*))",
    "named": _COLON,
    "numeric": r"(?P<slot>(?<!:):(?P<slot_number>[0-9]{1,9}))",
    "numeric_dollar": r"(?P<slot>\$(?P<slot_number>[0-9]{1,9}))",
}
_BEFORE = r"""(?P<space>[ \t\r\f\v\x0a]+)|(?P<line>--[^\n]*)|(?P<comment>/\*)|(?P<string>'(?:[^']|'')*')
|(?P<escaped>[eE]'(?:[^'\\]|''|\\.)*')|(?P<bytes>[xX]'(?:[0-9a-fA-F]{2})*')
|(?P<dollar>\$(?P<tag>[A-Za-z_]*)\$(?s:(?P<inside>.*?))\$(?P=tag)\$)|(?P<quoted>"(?:[^"]|"")+"|`[^`]+`)
|(?P<number>\d+(?:\.\d*)?(?:[eE][+-]?\d+)?|\.\d+)|(?P<word>[^\W\d][\w$]*)|(?P<cast>::)|"""
_AFTER = r"|(?P<sign><>|!=|<=|>=|==|\|\||[^ \t-\r\w'\"`])"
_BARE = re.compile(_BEFORE.replace("\n", "") + _AFTER[1:])


def _lexer(style: str) -> Pattern[str]:
    return re.compile(_BEFORE.replace("\n", "") + _SLOTS[style] + _AFTER)


_LEXERS: Dict[str, Pattern[str]] = {style: _lexer(style) for style in _SLOTS}
PARAMSTYLES = tuple(_LEXERS)
_INSIDE_COMMENT = re.compile(r"/\*|\*/")


def _past_comment(text: str, start: int) -> int:
    """Where a comment ends; one may stand in another."""
    depth, place = 1, start + 2
    while depth:
        mark = _INSIDE_COMMENT.search(text, place)
        if mark is None:
            raise Unsaid("a comment isn't ended")
        depth += 1 if mark[0] == "/*" else -1
        place = mark.end()
    return place


def _string(text: str, percent_is_doubled: bool) -> str:
    """The text between quotes."""
    inside = text[1:-1].replace("''", "'")
    if not percent_is_doubled:
        return inside
    if "%" in inside.replace("%%", ""):
        raise Unsaid("a parameter stands between quotes")
    return inside.replace("%%", "%")


def _number(text: str) -> object:
    return int(text) if text.isdigit() and len(text) <= MOST_DIGITS else Decimal(text)


def _pass_line(comment: str) -> None:
    """Refuses a comment that ends at a carriage return for some databases, and goes on for others."""
    if "\r" in comment.rstrip("\r"):
        raise Unsaid("a carriage return stands in a comment")


def _token(found: "re.Match[str]", count: int, doubled: bool) -> Token:
    """The token that was found, behind parameters of so many places."""
    kind, text, start = found.lastgroup or "", found[0], found.start()
    groups = found.groupdict()
    if groups.get("slot") is not None:
        name, number = groups.get("slot_name"), groups.get("slot_number")
        key: Key = name if name is not None else int(number) - 1 if number else count
        return Token("slot", key, start)
    if groups["dollar"] is not None:
        return Token("string", groups["inside"], start)
    if kind == "word":
        return Token("word", text.lower(), start)
    if kind == "string":
        return Token("string", _string(text, doubled), start)
    if kind == "number":
        return Token("number", _number(text), start)
    if kind == "quoted":
        return Token("name", text[1:-1].replace('""', '"'), start)
    if kind == "bytes":
        return Token("bytes", bytes.fromhex(text[2:-1]), start)
    if kind == "escaped":
        if "\\" in text:
            raise Unsaid("a text with escapes of its own")
        return Token("string", _string(text[1:], doubled), start)
    return Token("sign", "%" if kind == "percent" else text, start)


def tokens_of(text: str, style: str, is_given: bool = False) -> List[Token]:
    """The tokens of a text. In the styles with percent signs these mean something only where parameters are given."""
    is_percent = style in ("format", "pyformat")
    lexer = _BARE if is_percent and not is_given else _LEXERS[style]
    tokens: List[Token] = []
    place, count = 0, 0
    if "\0" in text:
        raise Unsaid("a zero byte stands in it")
    while place < len(text):
        found = lexer.match(text, place)
        if found is None:
            raise Unsaid(f"what begins with {text[place : place + 20]!r}")
        place = _past_comment(text, place) if found["comment"] else found.end()
        if found["line"]:
            _pass_line(found["line"])
        if found["comment"] or found["space"] or found["line"]:
            continue
        token = _token(found, count, is_percent and is_given)
        if token.kind == "slot" and isinstance(token.value, int):
            count = max(count, token.value + 1)  # one without a number comes behind the greatest before it
        tokens.append(token)
    return tokens


# ---- trees


class Name(NamedTuple):
    """A name as it is written; one that isn't quoted is in small letters."""

    text: str
    is_quoted: bool


class Constant(NamedTuple):
    """A value that is written."""

    value: object


class Slot(NamedTuple):
    """A parameter."""

    key: Key


Value = Union[Constant, Slot]


class Cast(NamedTuple):
    """A value with its type."""

    value: Any
    type: str


class Column(NamedTuple):
    """A column, behind its table's name where it has one."""

    name: Name
    table: Optional[Name]


class Sum(NamedTuple):
    """A column, plus or minus a value."""

    column: Column
    sign: str
    amount: Any


class Made(NamedTuple):
    """What the database makes: an expression, or DEFAULT."""

    text: str


class Star(NamedTuple):
    """All columns."""

    table: Optional[Name]


class Count(NamedTuple):
    """How many rows there are."""


class Comparison(NamedTuple):
    """A column compared with a value."""

    column: Column
    sign: str
    value: Any


class Between(NamedTuple):
    """A column between two values."""

    column: Column
    low: Any
    high: Any


class IsNull(NamedTuple):
    """A column that is null, or isn't."""

    column: Column
    is_not: bool


class Truth(NamedTuple):
    """A column that is true, or false."""

    column: Column
    is_true: bool


class In(NamedTuple):
    """A column that has one of some values: those written, or those of a parameter."""

    column: Column
    values: Tuple[Any, ...]


Condition = Union[Comparison, Between, IsNull, Truth, In]


class Table(NamedTuple):
    """A table that is named, behind its schema, and how the statement calls it."""

    schema: Optional[Name]
    name: Name
    alias: Optional[Name]


class Select(NamedTuple):
    """A SELECT of one table."""

    table: Table
    shown: Tuple[Any, ...]
    where: Tuple[Condition, ...]
    limit: Any


class Insert(NamedTuple):
    """An INSERT; `rows` is empty where all values are defaults."""

    table: Table
    columns: Optional[Tuple[Name, ...]]
    rows: Tuple[Tuple[Any, ...], ...]
    returning: Tuple[Any, ...]


class Update(NamedTuple):
    """An UPDATE."""

    table: Table
    assigned: Tuple[Tuple[Name, Any], ...]
    where: Tuple[Condition, ...]
    returning: Tuple[Any, ...]


class Delete(NamedTuple):
    """A DELETE."""

    table: Table
    where: Tuple[Condition, ...]
    returning: Tuple[Any, ...]


Statement = Union[Select, Insert, Update, Delete]

# ---- the parser

# Words that may stand before a parenthesis, and are no functions.
BEFORE_PARENTHESES = frozenset(
    "in values exists and or not any all some select from join on using where having by over filter as with union intersect "
    "except when then else case between is like ilike offset limit distinct array row lateral cast order partition varchar "
    "char numeric decimal character bit time timestamp float within recursive materialized of interval".split()
)

# Types that may stand before a text.
_TYPED = frozenset("date time timestamp timestamptz numeric decimal real double bool boolean uuid json jsonb inet bytea".split())
_BEHIND_CONDITION = ("and", "order", "limit", "offset", "fetch", "for", "returning")
_ENDS_ITEM = ("from", "where", "returning", "order", "limit", "for")
_NO_ALIAS = frozenset(
    _ENDS_ITEM
    + ("set", "values", "default", "on", "using", "join", "as", "and", "or", "offset", "fetch", "isnull", "notnull")
    + ("group", "having", "window", "inner", "left", "right", "full", "cross", "natural", "union", "intersect", "except")
)
_NO_VALUE = frozenset(("select", "case", "not", "exists", "array", "row", "distinct", "cast"))
_COMPARES = {"=": "=", "==": "=", "<>": "<>", "!=": "<>", "<": "<", "<=": "<=", ">": ">", ">=": ">="}
_TURNED = {"<": ">", "<=": ">=", ">": "<", ">=": "<="}


def negated(number: Any) -> Any:
    """A number with the other sign, and all its digits."""
    return number.copy_negate() if isinstance(number, Decimal) else -number


def _are_one(one: Any, other: Constant) -> bool:
    """Whether two values are the same whole number, of which no digit was lost."""
    return one == other and isinstance(one.value, int) and isinstance(other.value, int)


class Parser:
    """Reads one statement by recursive descent."""

    def __init__(self, tokens: List[Token], reading: FrozenSet[str]) -> None:
        self._tokens = tokens
        self._reading = reading  # functions that write nothing
        self._place = 0

    def statement(self) -> Statement:
        """The statement; refuses any that isn't of the forms below."""
        forms: Dict[Any, Callable[[], Statement]] = {
            "select": self._select, "insert": self._insert, "update": self._update, "delete": self._delete
        }  # fmt: skip
        first = self._next()
        form = forms.get(first.value) if first.kind == "word" else None
        if form is None:
            raise Unsaid(f"it begins with {first.value!r}")
        statement = form()
        self._take_sign(";")
        if self._token() is not None:
            raise Unsaid(self._unlike())
        return statement

    # tokens

    def _token(self, ahead: int = 0) -> Optional[Token]:
        place = self._place + ahead
        return self._tokens[place] if place < len(self._tokens) else None

    def _next(self) -> Token:
        token = self._token()
        if token is None:
            raise Unsaid("it ends too early")
        self._place += 1
        return token

    def _is_word(self, *words: str) -> bool:
        token = self._token()
        return token is not None and token.is_word(*words)

    def _is_sign(self, *signs: str) -> bool:
        token = self._token()
        return token is not None and token.is_sign(*signs)

    def _take_word(self, *words: str) -> bool:
        taken = self._is_word(*words)
        self._place += taken
        return taken

    def _take_sign(self, *signs: str) -> bool:
        taken = self._is_sign(*signs)
        self._place += taken
        return taken

    def _expect(self, taken: bool) -> None:
        if not taken:
            raise Unsaid(self._unlike())

    def _unlike(self) -> str:
        token = self._token()
        if token is not None and token.is_sign("?", ":", "%"):
            return f"{token.value} stands there, which begins no parameter in this driver's paramstyle"
        return "it ends too early" if token is None else f"the grammar has no {str(token.value)[:30].upper()} there"

    # names

    def _name(self) -> Name:
        token = self._next()
        if token.kind not in ("word", "name"):
            self._place -= 1
            raise Unsaid(self._unlike())
        return Name(token.value, token.kind == "name")

    def _table(self) -> Table:
        self._take_word("only")
        name, schema = self._name(), None
        if self._take_sign("."):
            schema, name = name, self._name()
        return Table(schema, name, self._alias())

    def _alias(self) -> Optional[Name]:
        token = self._token(1) if self._is_word("as") else self._token()
        if token is not None and token.kind == "name" and "[" in token.value:
            raise Unsaid("a name with a type, by which sqlite3 may convert what is shown")
        token = self._token()
        if self._take_word("as"):
            return self._name()
        if token is not None and (token.kind == "name" or (token.kind == "word" and token.value not in _NO_ALIAS)):
            return self._name()
        return None

    def _column(self) -> Column:
        name, table = self._name(), None
        while self._take_sign("."):
            name, table = self._name(), name
        if self._is_sign("("):
            raise Unsaid(f"the grammar has no function {name.text}")
        return Column(name, table)

    # values

    def _value(self) -> Any:
        """A value that is written or a parameter, perhaps with its type."""
        token = self._next()
        if token.kind in ("number", "string", "bytes"):
            value: Any = Constant(token.value)
        elif token.kind == "slot":
            value = Slot(token.value)
        elif token.is_word("null"):
            value = Constant(None)
        elif token.is_word("true", "false"):
            value = Constant(token.value == "true")
        elif token.kind == "word" and self._is_typed():
            self._place -= 1
            type_name = self._type()
            value = Cast(Constant(self._next().value), type_name)
        elif token.is_sign("+", "-"):
            number = self._next()
            self._expect(number.kind == "number")
            value = Constant(negated(number.value) if token.value == "-" else number.value)
        elif token.is_sign("("):
            value = self._value()
            self._expect(self._take_sign(")"))
        elif token.is_word("cast"):
            self._expect(self._take_sign("("))
            value = self._value()
            self._expect(self._take_word("as"))
            value = Cast(value, self._type())
            self._expect(self._take_sign(")"))
        else:
            self._place -= 1
            raise Unsaid(self._unlike())
        return self._casts(value)

    def _casts(self, value: Any) -> Any:
        while self._take_sign("::"):
            value = Cast(value, self._type())
        return value

    def _is_typed(self) -> bool:
        """Whether the word that was taken is a type's, with a text behind it: `date '2020-01-01'`."""
        before, self._place = self._place, self._place - 1
        if not self._is_word(*_TYPED):
            self._place = before
            return False
        try:
            self._type()
            token = self._token()
            return token is not None and token.kind == "string"
        except Unsaid:
            return False
        finally:
            self._place = before

    def _type(self) -> str:
        name = self._name().text
        if name == "character" and self._take_word("varying"):
            name = "varchar"
        if name == "double" and self._take_word("precision"):
            name = "double precision"
        if name in ("time", "timestamp") and self._is_word("with", "without"):
            name = f"{name} {self._next().value} time zone"
            self._expect(self._take_word("time") and self._take_word("zone"))
        if self._take_sign("["):
            self._expect(self._take_sign("]"))
            name += "[]"
        if self._is_sign("("):
            raise Unsaid("a type with a length")
        return name

    def _is_value(self, may_be_typed: bool = True) -> bool:
        """Whether a value comes next, and no column."""
        token = self._token()
        if token is None:
            return False
        if token.kind in ("number", "string", "bytes", "slot"):
            return True
        if token.is_word("null", "cast", "true", "false") or token.is_sign("+", "-", "("):
            return True
        self._place += 1
        is_typed = may_be_typed and token.kind == "word" and self._is_typed()
        self._place -= 1
        return is_typed

    # conditions

    def _where(self) -> Tuple[Condition, ...]:
        return tuple(self._conditions()) if self._take_word("where") else ()

    def _conditions(self) -> List[Condition]:
        conditions = self._condition()
        while self._take_word("and"):
            conditions += self._condition()
        return conditions

    def _condition(self) -> List[Condition]:
        """One condition, or those between parentheses."""
        before = self._place
        fault: Optional[Unsaid] = None
        if self._take_sign("("):
            try:
                inside = self._conditions()
                self._expect(self._take_sign(")"))
                return inside
            except Unsaid as unsaid:
                fault = unsaid  # which tells more than what begins with a value does
                self._place = before
        if self._is_word("not"):
            return [self._untrue()]
        try:
            return self._turned() if self._is_value() else [self._compared(self._column())]
        except Unsaid as unsaid:
            raise fault or unsaid from None

    def _untrue(self) -> Condition:
        """NOT before a column."""
        after = self._token(1)
        self._expect(after is not None and after.kind in ("word", "name"))
        self._place += 1
        column = self._column()
        self._expect(self._ends_condition())
        return Truth(column, False)

    def _ends_condition(self) -> bool:
        """Whether nothing of a condition stands behind a column."""
        return self._token() is None or self._is_sign(")", ";") or self._is_word(*_BEHIND_CONDITION)

    def _turned(self) -> List[Condition]:
        """A value compared with a column; or a number with itself, which says nothing."""
        value, sign = self._value(), self._next()
        self._expect(sign.kind == "sign" and sign.value in _COMPARES)
        said, token = _COMPARES[sign.value], self._token()
        if said == "=" and token is not None and token.kind == "number" and _are_one(value, Constant(token.value)):
            self._place += 1
            return []
        return [Comparison(self._column(), _TURNED.get(said, said), value)]

    def _compared(self, column: Column) -> Condition:
        """What stands behind a column."""
        if self._take_word("between"):
            low = self._value()
            self._expect(self._take_word("and"))
            return Between(column, low, self._value())
        if self._ends_condition():
            return Truth(column, True)
        if self._take_word("is"):
            return self._is(column)
        if self._take_word("in"):
            return In(column, self._listed())
        sign = self._next()
        if sign.kind != "sign" or sign.value not in _COMPARES:
            self._place -= 1
            raise Unsaid(self._unlike())
        if sign.value == "=" and self._take_word("any"):
            return In(column, self._listed())
        return Comparison(column, _COMPARES[sign.value], self._value())

    def _is(self, column: Column) -> Condition:
        """What stands behind IS."""
        is_not = self._take_word("not")
        if not is_not and self._is_word("true", "false"):
            return Truth(column, self._next().value == "true")
        token = self._token()
        if not is_not and token is not None and token.kind == "number":
            return Comparison(column, "=", self._value())
        self._expect(self._take_word("null", "unknown"))
        return IsNull(column, is_not)

    def _listed(self) -> Tuple[Any, ...]:
        """The values of a list; a parameter without parentheses may have several, and is told by its Slot."""
        if not self._take_sign("("):
            return (self._value(),)
        values = [self._value()]
        while self._take_sign(","):
            values.append(self._value())
        self._expect(self._take_sign(")"))
        return tuple(values)

    # what is shown

    def _shown(self) -> Tuple[Any, ...]:
        items = [self._item()]
        while self._take_sign(","):
            items.append(self._item())
        return tuple(items)

    def _item(self) -> Any:
        if self._take_sign("*"):
            return Star(None)
        if self._is_word("count"):
            ahead = self._token(1)
            if ahead is not None and ahead.is_sign("("):
                return self._count()
        if self._is_value(False):  # a text behind a column's name may be what sqlite3 calls it
            item: Any = self._value()
            self._alias()
            return item
        token, after = self._token(), self._token(1)
        if token and after and after.is_sign(".") and self._is_all_of_table():
            table = self._name()
            self._place += 2
            return Star(table)
        if self._is_word(*_NO_VALUE):
            raise Unsaid(self._unlike())
        column = self._column()
        self._expect(not self._is_sign("+", "-", "*", "/", "||", "[", "%", "::"))
        self._alias()
        return column

    def _is_all_of_table(self) -> bool:
        last = self._token(2)
        return last is not None and last.is_sign("*")

    def _count(self) -> Count:
        """`count(*)`, or the count of a number."""
        self._place += 2
        star = self._next()
        self._expect((star.is_sign("*") or star.kind == "number") and self._take_sign(")"))
        self._expect(not self._is_word("over", "filter"))
        self._alias()
        return Count()

    def _returning(self) -> Tuple[Any, ...]:
        return self._shown() if self._take_word("returning") else ()

    # statements

    def _select(self) -> Select:
        self._take_word("all")
        shown = self._shown()
        self._expect(self._take_word("from"))
        table, where = self._table(), self._where()
        if self._take_word("order"):
            self._pass_until("limit", "offset", "fetch", "for")
        limit = self._value() if self._take_word("limit") else None
        if self._take_word("for"):
            self._lock()
        return Select(table, shown, where, limit)

    def _pass_until(self, *words: str) -> None:
        """Passes over what changes no bag of rows. A function there may write."""
        while self._token() is not None and not self._is_word(*words) and not self._is_sign(";"):
            self._known_function()
            self._place += 1

    def _known_function(self) -> None:
        token, after = self._token(), self._token(1)
        if token and after and token.kind in ("word", "name") and after.is_sign("("):
            if token.value not in self._reading and token.value not in BEFORE_PARENTHESES:
                raise Unsaid(f"it calls {token.value}")

    def _lock(self) -> None:
        """FOR UPDATE and its kin, which change no rows; but SKIP LOCKED leaves some out."""
        self._take_word("no")
        self._take_word("key")
        self._expect(self._take_word("update", "share"))
        if self._take_word("of"):
            self._name()
        self._take_word("nowait")

    def _insert(self) -> Insert:
        self._expect(self._take_word("into"))
        table, columns = self._table(), None
        if self._take_sign("("):
            columns = self._names()
        if self._take_word("default"):
            self._expect(self._take_word("values"))
            return Insert(table, (), ((),), self._returning())
        self._expect(self._take_word("values"))
        rows = [self._row()]
        while self._take_sign(","):
            rows.append(self._row())
        return Insert(table, columns, tuple(rows), self._returning())

    def _names(self) -> Tuple[Name, ...]:
        names = [self._name()]
        while self._take_sign(","):
            names.append(self._name())
        self._expect(self._take_sign(")"))
        return tuple(names)

    def _row(self) -> Tuple[Any, ...]:
        self._expect(self._take_sign("("))
        values = [self._made_or_value()]
        while self._take_sign(","):
            values.append(self._made_or_value())
        self._expect(self._take_sign(")"))
        return tuple(values)

    def _made_or_value(self) -> Any:
        """A value, or an expression whose value the database makes."""
        before = self._place
        if self._is_value():
            try:
                value = self._value()
                if self._is_sign(",", ")"):
                    return value
            except Unsaid:
                pass
            self._place = before
        return self._made()

    def _made(self) -> Made:
        """An expression, up to the comma or parenthesis behind it, or to WHERE or RETURNING."""
        first, depth = self._place, 0
        self._expect(not self._is_sign("?", ":", "%"))
        while depth or not (
            self._is_sign(",", ")", ";") or self._token() is None or self._is_word("where", "returning", "from")
        ):
            self._known_function()
            token = self._next()
            if token.is_word("select"):
                raise Unsaid("a SELECT stands in it")
            depth += token.is_sign("(") - token.is_sign(")")
        self._expect(self._place > first)
        return Made(" ".join(str(token.value) for token in self._tokens[first : self._place]))

    def _update(self) -> Update:
        table = self._table()
        self._expect(self._take_word("set"))
        assigned = [self._assigned()]
        while self._take_sign(","):
            assigned.append(self._assigned())
        return Update(table, tuple(assigned), self._where(), self._returning())

    def _assigned(self) -> Tuple[Name, Any]:
        name = self._name()
        self._expect(self._take_sign("="))
        before = self._place
        try:
            value = self._sum()
            if self._token() is None or self._is_sign(",", ";") or self._is_word("where", "returning"):
                return name, value
        except Unsaid:
            pass
        self._place = before
        return name, self._made()

    def _sum(self) -> Any:
        """A value, a column, or a column plus or minus a value."""
        if self._take_sign("("):
            inside = self._sum()
            self._expect(self._take_sign(")"))
            return self._casts(inside)
        if self._is_value():
            value = self._value()
            return Sum(self._column(), "+", value) if self._take_sign("+") else value
        column = self._column()
        if self._take_sign("+"):
            return Sum(column, "+", self._value())
        if self._take_sign("-"):
            return Sum(column, "-", self._value())
        return Sum(column, "+", Constant(0))

    def _delete(self) -> Delete:
        self._expect(self._take_word("from"))
        return Delete(self._table(), self._where(), self._returning())
