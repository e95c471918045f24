"""What is to be done about each text that an application sends: it is said, controls a transaction, speaks of no rows, only
reads, or may write."""

from typing import Any, Dict, FrozenSet, Iterable, List, NamedTuple, Optional, Tuple

from . import shapes, sql
from .catalog import Names
from .dangers import NO_DANGERS, Dangers
from .effects import READING, Control, control_of, is_beside, unknown_function, why_it_may_write, written_table
from .origins import Rows
from .returning import Effect
from .sql import Parser, tokens_of
from .templates import Templates
from .translation import SAYINGS
from .values import Spelling, Unsaid


_MOST_PLANS = 4096
_AS_IT_STANDS = True  # of a name


class Plan(NamedTuple):
    """What is to be done about a text: it is said, or controls a transaction, or speaks of no rows that are recorded, or
    can't be said; then `why`, and `writes` tells whether it may write. By `effect` a write is said by its rows, by `rows` a query is;
    `templates` have what was said of it with other parameters."""

    saying: Any = None
    templates: Optional[Templates] = None
    effect: Any = None
    rows: Any = None
    control: Optional[Control] = None
    why: Optional[str] = None
    writes: Optional[str] = None


def reading_of(dangers: Dangers, trusted: Iterable[str]) -> FrozenSet[str]:
    """Functions that write nothing: of a name that users have made one of too, nobody knows which is called."""
    return (READING - dangers.functions) | frozenset(name.lower() for name in trusted)


class Translator:
    """Says statements in the words of a transcript."""

    def __init__(self, names: Names, style: str, reading: Iterable[str] = (), dangers: Dangers = NO_DANGERS) -> None:
        self.names, self._style, self._dangers = names, style, dangers
        self.reading = reading_of(dangers, reading)
        self._plans: Dict[Tuple[str, bool], Plan] = {}
        self._prepared: Optional[Translator] = None

    def prepared(self) -> "Translator":
        """What says the statements that PREPARE prepares."""
        if self._prepared is None:
            self._prepared = Translator(self.names, "numeric_dollar", self.reading, self._dangers)
        return self._prepared

    def plan(self, spelling: Spelling, text: str, is_given: bool) -> Plan:
        """What is to be done about a text, with which parameters were given or not."""
        plan = self._plans.get((text, is_given))
        if plan is None:
            if len(self._plans) >= _MOST_PLANS:
                self._plans.clear()
            plan = self._plans[text, is_given] = self._made(spelling, text, is_given)
        return plan

    def _made(self, spelling: Spelling, text: str, is_given: bool) -> Plan:
        try:
            tokens = tokens_of(text, self._style, is_given)
        except Unsaid as unsaid:
            return Plan(why=str(unsaid), writes="it can't be read")
        control = control_of(tokens)
        if control is not None:
            return Plan(control=control)
        if is_beside(tokens, self._dangers.are_fixed):
            why = self._why_created(tokens) if tokens and tokens[0].is_word("create") else None
            return Plan() if why is None else Plan(why=why, writes="it writes")
        try:
            tree = Parser(tokens, self.reading).statement()
            saying = SAYINGS[type(tree)](self.names, spelling, tree)
            plan = Plan(saying, Templates(saying, text))
        except Unsaid as unsaid:
            plan = self._unsaid(tokens, str(unsaid))
        except RecursionError:
            return self._unsaid(tokens, "it is nested too deeply")
        return plan._replace(**self._by_rows(spelling, tokens, text, plan))

    def _by_rows(self, spelling: Spelling, tokens: List[sql.Token], text: str, plan: Plan) -> Dict[str, Any]:
        """How it is said by its rows, where it can be so."""
        writes = plan.saying.writes if plan.saying is not None else plan.writes is not None
        try:
            if writes:
                return self._effect(spelling, tokens, text, plan) if self._dangers.why(tokens) is None else {}
            if plan.saying is not None or plan.why is not None:
                return {"rows": Rows(self.names, spelling, tokens, self._read_of(tokens))}
        except (Unsaid, RecursionError, IndexError):
            pass
        return {}

    def _effect(self, spelling: Spelling, tokens: List[sql.Token], text: str, plan: Plan) -> Dict[str, Any]:
        within, behind = shapes.shown_write(tokens)
        write = shapes.write_of(within, self.reading)
        try:
            return {"effect": Effect(self.names, spelling, write, tokens, text, behind)}
        except Unsaid as unsaid:
            return {} if plan.why is None else {"why": str(unsaid)}

    def _read_of(self, tokens: List[sql.Token]) -> Optional[shapes.Read]:
        try:
            return shapes.read_of(tokens, self.reading)
        except Unsaid:
            return None

    def _unsaid(self, tokens: List[sql.Token], why: str) -> Plan:
        """What can't be said: whether it may write."""
        written = written_table(tokens)
        if self.names.is_ignored(written):
            assert written is not None
            return self.ignored(tokens, written)
        writes = self.why_it_may_write(tokens)
        if writes is None and not any(token.is_word("from", "table", "fetch") for token in tokens):
            return Plan()
        return Plan(why=why, writes=writes)

    def why_it_may_write(self, tokens: List[sql.Token]) -> Optional[str]:
        """Why a text that can't be said may write; None where it only reads."""
        return why_it_may_write(tokens, self.reading, self._dangers.are_fixed) or self._dangers.why(tokens)

    def _why_created(self, tokens: List[sql.Token]) -> Optional[str]:
        """Why a table that is created may change what a recorded one has, or which table its name means."""
        words = [token.value for token in tokens if token.kind == "word"]
        if "table" not in words:
            return self._dangers.why(tokens)
        if "inherits" in words:
            return "a table that inherits may do so of a recorded one"
        start = next(at for at, token in enumerate(tokens) if token.is_word("table")) + 1
        is_lenient = [token.value for token in tokens[start : start + 3]] == ["if", "not", "exists"]
        names = tokens[start + 3 * is_lenient :]
        is_qualified = len(names) > 2 and names[1].is_sign(".")
        name = sql.Name(str(names[2 if is_qualified else 0].value) if names else "", _AS_IT_STANDS)
        if self.names.is_ignored(name) and "partition" in words:
            return f"table {name.text} may be a partition of a recorded one"
        is_there = is_lenient and not is_qualified and self._dangers.is_first(self.names.recorded(name))
        if self.names.is_recorded(name) and not self.names.folds and not is_there:
            return f"a table of the name {name.text} is created"
        return self._dangers.why(tokens)

    def tokens(self, text: str, is_given: bool) -> List[sql.Token]:
        """The tokens of a text."""
        return tokens_of(text, self._style, is_given)

    def is_recorded(self, name: sql.Name) -> bool:
        """Whether a recorded table has this name."""
        return self.names.is_recorded(name)

    @property
    def folds(self) -> bool:
        """Whether names are the same whatever the case of their letters, as in SQLite."""
        return self.names.folds

    def nothing(self) -> Plan:
        """What is to be done about what is no matter."""
        return Plan()

    def made_temporary(self, query: List[sql.Token]) -> Optional[Plan]:
        """What makes a temporary table of a query, or an empty one; None where that may write."""
        if not query:
            return Plan()
        return None if self.why_it_may_write(query) is not None else Plan(why="what is read to make a temporary table")

    def ignored(self, tokens: List[sql.Token], written: sql.Name) -> Plan:
        """What writes a table that no verdict is to speak of: whether it may write others, and whether it reads some."""
        why = unknown_function(tokens, self.reading, written) or self._dangers.why(tokens) or self._dangers.why_written(written.text)
        why = why or self.names.why_written(written)
        if why is not None:
            return Plan(why=f"table {written.text} isn't recorded", writes=why)
        if any(token.kind in ("word", "name") and self.names.is_recorded(sql.Name(token.value, True)) for token in tokens):
            return Plan(why=f"what is read to write table {written.text}")
        return Plan()
