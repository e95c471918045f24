"""A write that the grammar of transcripts lacks, said by what it did: one statement for each row that it has put, changed or
deleted, as RETURNING shows them. Where the application doesn't ask for these, RETURNING is added, and hidden from it."""

import contextlib
from typing import Any, Dict, FrozenSet, List, NamedTuple, Optional, Sequence, Tuple

from . import BIGINT, sql
from .cascades import Counts, cascades_of
from .catalog import Names
from .kinds import Form
from .shapes import Assigned, Write
from .sql import Constant, Made, Slot, Star, Sum, Token
from .translation import Arguments, Exchange, Look, Result, Told, _behind_where, _Saying, _within
from .values import Plain, Spelling, Unsaid, plain


class Addition(NamedTuple):
    """What is added to a statement's text at a place: so many columns behind those that the application asks for."""

    text: str
    at: int
    hidden: int
    is_alone: bool  # whether the application asks for none

    def to(self, operation: Any, text: str) -> Any:
        """The statement with it: bytes where it was bytes."""
        if isinstance(operation, bytes):
            behind = len(text[self.at :].encode("utf-8", "surrogateescape"))
            cut = len(operation) - behind
            return operation[:cut] + self.text.encode("utf-8") + operation[cut:]
        return text[: self.at] + self.text + text[self.at :]

    def without(self, query: bytes) -> bytes:
        """What was sent, without it."""
        added = self.text.replace("%%", "%").encode("utf-8")
        before, _, behind = query.rpartition(added)
        return before + behind if added in query else query


class Facts(NamedTuple):
    """What a connection may do about a table, as its catalog tells."""

    may_return: bool  # whether RETURNING is no matter: privileges, policies, rules, triggers
    tells_put: bool  # whether a row tells whether it was put or changed
    may_look: bool  # whether the keys that are there can be looked up before, since no other connection can write then
    has_other_unique: bool  # whether other columns than the key may find a row that is there


class _Condition(NamedTuple):
    """The conditions that can be said; the keys that are listed, where the key is one of several; whether there are others."""

    texts: Tuple[str, ...]
    key: Plain  # that they name, None where they name none
    keys: Optional[Tuple[Plain, ...]]
    are_others: bool


class Effect(_Saying):
    """A write, said by its rows."""

    shows_written = True

    def __init__(
        self, names: Names, spelling: Spelling, write: Write, tokens: Sequence[Token], text: str, behind: Optional[Token] = None
    ) -> None:
        self.verb_name = write.verb.lower()
        super().__init__(names, spelling, write)
        if self.table.numbers is not None and (write.verb != "INSERT" or write.conflict is not None):
            raise Unsaid(f"table {self.table.real} has no key")
        if write.conflict is not None:
            self.refuse_hazards({"update": "update", "replace": "delete"}.get(write.conflict.does, ""))
        self.write = write
        self.qualifies = not names.folds
        ends = behind or next((token for token in tokens if token.is_sign(";")), None)
        self._at = len(text) if ends is None else ends.start
        self.own = None if write.returning is None else self._own_shown(write.returning)
        self.changed = [each for each in write.assigned if not names.is_other_column(self.table, each.name)]
        self.moves = any(names.place(self.table, each.name) in self.table.key_places for each in self.changed)
        self._set_by_triggers()
        self._refuse_cascades()
        self.needed = self._needed()
        self.shows_passed, self.passes = self.passes, None

    def _set_by_triggers(self) -> None:
        """What triggers set stands in the place of what is assigned."""
        setters = [each for each in self.table.setters if self.verb_name in each.verbs]
        others = [each for each in self.table.setters if self.write.conflict is not None]
        columns = {name: each.reads for each in setters for name in each.columns}
        set_by = [Assigned(sql.Name(name, True), Made("a trigger"), reads) for name, reads in columns.items()]
        set_by = [each for each in set_by if not self.names.is_other_column(self.table, each.name)]
        places = {self.names.place(self.table, each.name) for each in set_by}
        if (set_by and self.moves) or others or not places.isdisjoint(self.table.key_places):
            raise Unsaid(f"a trigger of table {self.table.real} sets columns")
        if self.write.verb == "UPDATE":
            self.changed = [each for each in self.changed if self.names.place(self.table, each.name) not in places] + set_by

    def _refuse_cascades(self) -> None:
        """Refuses what changes other rows by foreign keys."""
        conflict = self.write.conflict
        assigned = [each.name for each in (*self.write.assigned, *(conflict.assigned if conflict is not None else ()))]
        for cascade in self.table.cascades:
            is_changed = any(self.names.is_column(name, real) for name in assigned for real in cascade.referenced)
            may_delete = conflict is not None and conflict.does == "replace"
            if (may_delete and cascade.on_delete is not None) or (is_changed and cascade.on_update is not None):
                raise Unsaid(f"a foreign key of table {cascade.child} changes rows with those of table {self.table.real}")

    def _own_shown(self, items: Sequence[Any]) -> Tuple[Tuple[int, int], ...]:
        """The recorded columns that its own RETURNING shows."""
        if "other tables" in self.write.reads and any(isinstance(item, Star) and item.table is None for item in items):
            raise Unsaid("its RETURNING shows all columns of several tables")
        shown: List[Tuple[int, int]] = []
        width = 0
        for item in items:
            places: List[Optional[int]] = [None] if isinstance(item, Made) else self._places(item)
            shown += [(width + at, place) for at, place in enumerate(places) if place is not None]
            width += len(places)
        return tuple(shown)

    def _places(self, item: Any) -> List[Optional[int]]:
        try:
            return self._shown(item)
        except Unsaid:
            if isinstance(item, Star):
                raise
            return [None]

    def _needed(self) -> Tuple[int, ...]:
        """The columns whose new values are needed, the key first."""
        table = self.table
        if self.write.verb == "INSERT" or self.moves:
            return tuple(range(len(table.columns) - len(table.own_columns), len(table.columns)))
        return tuple(dict.fromkeys([*table.key_places, *(self.names.place(table, each.name) for each in self.changed)]))

    def shows_more(self) -> bool:
        """Whether its own RETURNING shows what isn't said."""
        return any(not isinstance(item, (Star, sql.Column, Constant, Slot)) for item in self.write.returning or ()) or any(
            self._places(item) == [None] for item in self.write.returning or () if isinstance(item, sql.Column)
        )

    def addition(self, facts: Facts, is_doubled: bool) -> Optional[Addition]:
        """What is added so that all is known; None where its own RETURNING shows that."""
        own = self.own
        tells = self.tells_put(facts)
        if own is not None and not tells and {place for _, place in own} >= set(self.needed) and not self._needs_texts():
            return None
        called = (self.called.alias or self.called.name).text
        before = _quoted(called) + "." if self.qualifies else ""
        columns = [before + _quoted(self.table.columns[place].real) + self._shown_as(place) for place in self.needed]
        columns += [f"({before}xmax = 0)::int"] * tells
        text = ", ".join(columns)
        text = text.replace("%", "%%") if is_doubled else text
        return Addition(("\nRETURNING " if own is None else "\n, ") + text + " ", self._at, len(columns), own is None)

    def _shown_as(self, place: int) -> str:
        """What makes a column's new value a text, where that of the driver may not tell all of it."""
        return "::text" if self.qualifies and isinstance(self.table.columns[place].kind, Form) else ""

    def _needs_texts(self) -> bool:
        """Whether a needed value isn't surely known by what the driver shows: an array's bounds, or 24:00."""
        forms = [self.table.columns[place].kind for place in self.needed if self._shown_as(place)]
        return any(isinstance(form, Form) and (form.type == "time" or form.type.endswith("[]")) for form in forms)

    def tells_put(self, facts: Facts) -> bool:
        """Whether a row must tell whether it was put or changed."""
        conflict = self.write.conflict
        return conflict is not None and conflict.does == "update" and not facts.may_look

    def told(self, arguments: Arguments, facts: Facts) -> "EffectTold":
        """One execution of it."""
        kinds = {"INSERT": _Put, "UPDATE": _Moved if self.moves else _Changed, "DELETE": _Deleted}
        return kinds[self.write.verb](self, arguments, facts)

    def assigned_there(self) -> List[Assigned]:
        """What is assigned to recorded columns of a row that is there."""
        conflict = self.write.conflict
        assigned = conflict.assigned if conflict is not None else ()
        return [each for each in assigned if not self.names.is_other_column(self.table, each.name)]

    # conditions

    def condition(self, arguments: Arguments) -> _Condition:
        """The conditions that can be said: all of them together, or those that can be each by itself."""
        others = bool(self.write.reads)
        try:
            return self._together(arguments, others)
        except Unsaid:
            return _Condition(tuple(self._one_by_one(arguments)), None, None, True)

    def _together(self, arguments: Arguments, others: bool) -> _Condition:
        where = self.where(self.write.conditions, arguments)
        if where.lists_no_keys:
            return _Condition(where.texts, None, None, True)
        if where.place is not None:
            return _Condition(where.texts, None, where.keys or where.values, others)
        keys = [self._equal_to(each, arguments) for each in self.write.conditions if where.has_key and self._asks_for_key(each)]
        return _Condition(where.texts, keys[0] if keys else None, None, others)

    def _asks_for_key(self, condition: Any) -> bool:
        is_equal = isinstance(condition, sql.In) or (isinstance(condition, sql.Comparison) and condition.sign == "=")
        return is_equal and self.place(condition.column) == 0

    def _one_by_one(self, arguments: Arguments) -> List[str]:
        """The texts of those conditions that can be said."""
        texts: List[str] = []
        for each in self.write.conditions:
            with contextlib.suppress(Unsaid):
                where = self.where([each], arguments)
                texts += where.texts
        return texts

    def _equal_to(self, condition: Any, arguments: Arguments) -> Plain:
        """The key that a condition names."""
        column = self.table.columns[0]
        if isinstance(condition, sql.In):
            return self._listed(condition, arguments)[0]
        return self.plain(column, condition.value, arguments)

    def of_row(self, key: Plain, texts: Sequence[str] = ()) -> str:
        """The conditions of one row."""
        column = self.table.columns[0]
        named = f"{column.name} = {self.literal(column, key)}"
        return _behind_where((named, *[text for text in texts if text != named]))


def _quoted(name: str) -> str:
    return '"' + name.replace('"', '""') + '"'


Values = Dict[int, Any]  # of a row by the columns' places
_PUT = -1  # the place at which a row tells whether it was put


class EffectTold(Told):
    """One execution of a write that is said by its rows."""

    shows = True
    why = ""

    def __init__(self, effect: Effect, arguments: Arguments, facts: Facts) -> None:
        self.effect, self.facts = effect, facts
        self.reads = list(effect.write.reads)
        if any(each.reads or isinstance(each.value, Sum) for each in effect.write.assigned if each not in effect.changed):
            self.reads.append("what it assigns to columns that aren't recorded")
        if effect.shows_passed is not None:
            self.reads.append(effect.shows_passed)
        self._prepare(arguments)
        if effect.shows_more():
            self.reads.append("what RETURNING shows")
        self._tell()

    def _tell(self) -> None:
        if self.reads:
            self.left_out = f"what {_verb_of(self.effect)} has read: {', '.join(dict.fromkeys(self.reads))}"

    def count(self, what: str) -> None:
        """Counts what is read and isn't said."""
        self.reads.append(what)
        self._tell()

    def _prepare(self, arguments: Arguments) -> None:
        """What is known before the statement is sent."""

    def rows(self, result: Result) -> List["Values"]:
        """The values of each row by their columns' places, the key among them; at PUT whether it was put."""
        effect = self.effect
        if result.number not in (-1, len(result.rows)):
            raise Unsaid(f"{len(result.rows)} of {result.number} rows that it wrote were shown")
        addition = effect.addition(self.facts, False)
        if addition is None:
            found = [{place: row[at] for at, place in effect.own or ()} for row in result.rows]
        else:
            width = addition.hidden
            found = [dict(zip((*effect.needed, _PUT), row[len(row) - width :])) for row in result.rows]
        for values in found:
            values[0] = self._key_of(values)
        return found

    def _key_of(self, values: "Values") -> Plain:
        """The key of a row."""
        table = self.effect.table
        if table.numbers is not None:
            return table.key_of(())
        plains = [plain(table.columns[place].kind, values[place]) for place in table.key_places]
        return plains[0] if table.columns[0].real else table.key_of((None, *plains))

    def literal(self, row: "Values", place: int) -> str:
        """A value of a row as a literal."""
        return self.effect.literal(self.effect.table.columns[place], row[place])

    def shown(self, result: Result) -> List[Exchange]:
        """What its own RETURNING has shown: a SELECT for each row."""
        effect = self.effect
        own = tuple(each for each in effect.own or () if effect.write.returning is not None)
        if not own:
            return []
        keys = [row[0] for row in self.rows(result)]
        return [effect.select(own, effect.of_row(key), [row]) for key, row in zip(keys, result.rows)]


def _verb_of(effect: Effect) -> str:
    verb = effect.write.verb
    return f"an {verb}" if verb[0] in "IU" else f"a {verb}"


class _Deleted(EffectTold):
    """A DELETE."""

    def _prepare(self, arguments: Arguments) -> None:
        self.cascades = cascades_of(self.effect)
        self._condition = self.effect.condition(arguments)
        if self._condition.are_others and not self.reads:
            self.reads.append("other conditions")

    def exchanges(self, result: Result) -> List[Exchange]:
        """What RETURNING shows, and a DELETE for each row."""
        table = self.effect.table
        done = _by_key(self, [row[0] for row in self.rows(result)])
        texts = self._condition.texts
        told = [(_within(f"DELETE FROM {table.name}{self.effect.of_row(key, texts)}"), [f"DELETE {count}"]) for key, count in done]
        return [*_counted(self, len(result.rows)), *self.shown(result), *told]

    def cascaded(self, result: Result, before: Optional[Counts], after: Optional[Counts]) -> List[Exchange]:
        """What foreign keys have changed with its rows."""
        assert self.cascades is not None
        return self.cascades.exchanges(len(result.rows), self.rows(result), before, after)


def _counted(told: Any, count: int) -> List[Exchange]:
    """How many rows meet the conditions, where these are all that it has read."""
    condition, effect = told._condition, told.effect
    if condition.are_others or condition.keys is not None or (condition.key is not None and count == 1):
        return []
    return [(_within(f"SELECT count(*) FROM {effect.table.name}{_behind_where(condition.texts)}"), ["SELECT 1", f"| {count}"])]


def _by_key(told: Any, keys: List[Plain]) -> List[Tuple[Plain, int]]:
    """The keys of the rows that were changed, each once; where the conditions list keys, of those too that weren't."""
    found = list(dict.fromkeys(keys))
    if len(found) != len(keys):
        raise Unsaid("it shows a row twice")
    condition = told._condition
    if condition.keys is None or condition.are_others:
        return [(key, 1) for key in found]
    if not set(found) <= set(condition.keys):
        raise Unsaid("it has other keys than were named")
    return [(key, int(key in found)) for key in condition.keys]


class _Changed(EffectTold):
    """An UPDATE that leaves the keys as they are."""

    def _prepare(self, arguments: Arguments) -> None:
        effect = self.effect
        self._condition = effect.condition(arguments)
        if self._condition.are_others and not self.reads:
            self.reads.append("other conditions")
        self._texts = [self._assignment(each, arguments) for each in effect.changed]
        if not self._texts:
            self.reads.append("it writes no recorded column")

    def _assignment(self, assigned: Assigned, arguments: Arguments) -> Tuple[int, Optional[str]]:
        """An assignment as it can be said; None where the new value is said."""
        effect = self.effect
        place = effect.names.place(effect.table, assigned.name)
        try:
            return place, effect.assignment(assigned.name, assigned.value, arguments)
        except Unsaid:
            if assigned.reads or isinstance(assigned.value, Sum):
                self.reads.append("what it assigns")
            return place, None

    def exchanges(self, result: Result) -> List[Exchange]:
        """An UPDATE for each row, and what RETURNING shows."""
        rows = self.rows(result)
        by_key = {row[0]: row for row in rows}
        done = _by_key(self, [row[0] for row in rows])
        told = [self._update(key, by_key.get(key), count) for key, count in done if self._texts]
        return [*_counted(self, len(result.rows)), *told, *self.shown(result)]

    def _update(self, key: Plain, row: Optional[Values], count: int) -> Exchange:
        effect = self.effect
        said = [text or f"{effect.table.columns[place].name} = {self._new(row, place)}" for place, text in self._texts]
        where = effect.of_row(key, self._condition.texts)
        return _within(f"UPDATE {effect.table.name} SET {', '.join(said)}{where}"), [f"UPDATE {count}"]

    def _new(self, row: Optional[Values], place: int) -> str:
        """A new value; of a row that wasn't there any."""
        return "NULL" if row is None else self.literal(row, place)


class _Moved(EffectTold):
    """An UPDATE that writes keys: the rows are deleted, and others put."""

    def _prepare(self, arguments: Arguments) -> None:
        effect = self.effect
        self._condition = effect.condition(arguments)
        if effect.table.parts:
            raise Unsaid("it writes a key of several columns")
        assigned = next(each for each in effect.changed if effect.names.place(effect.table, each.name) == 0)
        self._from = self._source(assigned.value, arguments)
        self.reads.append("the other columns of rows whose key is written")

    def _source(self, value: Any, arguments: Arguments) -> Any:
        """Where a row was before: at the key that the conditions name, or so far away."""
        effect = self.effect
        if isinstance(value, Sum) and effect.place(value.column) == 0 and effect.table.columns[0].kind == BIGINT:
            amount = effect.plain(effect.table.columns[0], value.amount, arguments)
            if isinstance(amount, int):
                return lambda key: key - amount if value.sign == "+" else key + amount
        if self._condition.key is None:
            raise Unsaid("it writes the key, and nobody tells which rows it found")
        old = self._condition.key
        return lambda key: old

    def exchanges(self, result: Result) -> List[Exchange]:
        """A DELETE and an INSERT for each row."""
        effect, rows = self.effect, self.rows(result)
        pairs = [(self._from(row[0]), row) for row in rows]
        if len({old for old, _ in pairs}) < len(pairs):
            raise Unsaid("it writes several keys, and nobody tells which rows it found")
        texts = self._condition.texts
        gone = [(f"DELETE FROM {effect.table.name}{effect.of_row(old, texts)}", ["DELETE 1"]) for old, _ in pairs]
        put = [(_within(_insert_text(self, row)), ["INSERT 0 1"]) for _, row in pairs]
        return [*_counted(self, len(rows)), *gone, *put, *self.shown(result)]


def _insert_text(told: EffectTold, row: Values) -> str:
    """An INSERT of a row as it stands."""
    table = told.effect.table
    if any(row[place] is None for place in table.key_places):
        raise Unsaid("a key that is null")  # which SQLite takes
    literals = [told.literal(row, place) for place in range(len(table.columns))]
    return f"INSERT INTO {table.name} VALUES ({', '.join(literals)})"


class _Put(EffectTold):
    """An INSERT. Rows that were there may have been left, changed, or replaced."""

    def _prepare(self, arguments: Arguments) -> None:
        effect, conflict = self.effect, self.effect.write.conflict
        self._found: Optional[FrozenSet[Plain]] = None  # the keys that were there, where they were looked up
        self._given = None if conflict is None else self._values_given(arguments)
        if conflict is None:
            return
        self._is_by_key = self._finds_by_key(conflict.target)
        self._refuse_unknown()
        if not self._is_by_key or self._given is None or conflict.has_condition:
            self.reads.append("what was there")
        self._arguments = arguments
        if any(effect.names.place(effect.table, each.name) in effect.table.key_places for each in effect.assigned_there()):
            raise Unsaid("it writes the key of what is there")

    def _refuse_unknown(self) -> None:
        """Refuses what nobody tells: which rows were put, and which changed or replaced."""
        conflict, facts = self.effect.write.conflict, self.facts
        assert conflict is not None
        if conflict.does == "nothing" or facts.tells_put:
            return
        is_known = facts.may_look and self._given is not None and self._is_by_key
        if not is_known or (conflict.does == "replace" and facts.has_other_unique):
            raise Unsaid("nobody tells which rows it has put, and which were there")

    def look(self) -> Optional[Look]:
        effect, conflict = self.effect, self.effect.write.conflict
        if conflict is None or conflict.does == "nothing" or self.facts.tells_put:
            return None
        table, places = _quoted(effect.table.real), effect.table.key_places
        columns = [_quoted(effect.table.columns[place].real) for place in places]
        keys = ", ".join("(" + ", ".join(_sql_literal(each[place]) for place in places) + ")" for each in self._given or ())
        asked = f"SELECT {', '.join(columns)} FROM {table} WHERE ({', '.join(columns)}) IN (VALUES {keys})"
        return Look(asked, f"DELETE FROM {table} WHERE 0")

    def looked(self, rows: Sequence[Sequence[object]]) -> None:
        with contextlib.suppress(Unsaid):
            self._found = frozenset(self._key_of(dict(zip(self.effect.table.key_places, row))) for row in rows)

    def _finds_by_key(self, target: Optional[Tuple[sql.Name, ...]]) -> bool:
        """Whether a row that is there is found by the key."""
        effect = self.effect
        if target is None:
            return not self.facts.has_other_unique
        try:
            return sorted(effect.names.place(effect.table, name) for name in target) == sorted(effect.table.key_places)
        except Unsaid:
            return False

    def _values_given(self, arguments: Arguments) -> Optional[List[Values]]:
        """The values of the rows of VALUES that are known; None where a key isn't."""
        effect, write = self.effect, self.effect.write
        if write.rows is None:
            return None
        named = write.columns if write.columns is not None else tuple(sql.Name(real, True) for real in effect.table.order)
        found: List[Values] = []
        for row in write.rows:
            values: Values = {}
            for name, value in zip(named, row):
                with contextlib.suppress(Unsaid):
                    place = effect.names.place(effect.table, name)
                    if not isinstance(value, Made):
                        values[place] = effect.plain(effect.table.columns[place], value, arguments)
            if any(values.get(place) is None for place in effect.table.key_places):
                return None
            with contextlib.suppress(Unsaid):
                values[0] = self._key_of(values)
            found.append(values)
        return found

    # what came of it

    def exchanges(self, result: Result) -> List[Exchange]:
        """An INSERT for each row that was put; of those that were there a SELECT, an UPDATE, or a DELETE before it."""
        rows = self.rows(result)
        conflict = self.effect.write.conflict
        if conflict is None:
            if self.effect.write.rows is not None and len(rows) != len(self.effect.write.rows):
                raise Unsaid(f"{len(rows)} of {len(self.effect.write.rows)} rows were inserted")
            return [*map(self._put, rows), *self._shown(result)]
        if conflict.does != "nothing" and self._found is None and not self.facts.tells_put:
            raise Unsaid("the keys that were there couldn't be read")
        does = {"nothing": self._left, "update": self._changed, "replace": self._replaced}[conflict.does]
        return [*does(rows), *self._shown(result)]

    def _shown(self, result: Result) -> List[Exchange]:
        return self.shown(result) if self.effect.write.conflict is not None else []

    def _put(self, row: Values) -> Exchange:
        return _within(_insert_text(self, row)), ["INSERT 0 1"]

    def _there(self, key: Plain) -> Exchange:
        """A row that was there."""
        effect = self.effect
        return effect.select(((0, 0),), effect.of_row(key), [(key,)])

    def _left(self, rows: List[Values]) -> List[Exchange]:
        by_key = {row[0]: row for row in rows}
        if self._given is None or not self._is_by_key:
            return [self._put(row) for row in rows]
        told = []
        for each in self._given:
            row = by_key.pop(each[0], None)
            told.append(self._there(each[0]) if row is None else self._put(row))
        if by_key:
            raise Unsaid("it has put other keys than were named")
        return told

    def _changed(self, rows: List[Values]) -> List[Exchange]:
        told, seen = [], set()
        for row in rows:
            key = row[0]
            was_there = row[_PUT] == 0 if self._found is None else key in self._found or key in seen
            told.append(self._change(key, row) if was_there else self._put(row))
            seen.add(key)
        for each in self._given or () if self._is_by_key else ():
            if each[0] not in seen:
                told.append(self._there(each[0]))
        return told

    def _replaced(self, rows: List[Values]) -> List[Exchange]:
        told: List[Exchange] = []
        seen = set(self._found or ())
        for row in rows:
            key = row[0]
            if key in seen:
                told.append((f"DELETE FROM {self.effect.table.name}{self.effect.of_row(key)}", ["DELETE 1"]))
            seen.add(key)
            told.append(self._put(row))
        return told

    def _change(self, key: Plain, row: Values) -> Exchange:
        """The UPDATE of a row that was there."""
        effect = self.effect
        assert effect.write.conflict is not None
        given: Values = next((each for each in self._given or () if each[0] == key), {})
        said = []
        for each in effect.assigned_there():
            said.append(self._assignment(each, row, given))
        if not said:
            return self._there(key)
        return _within(f"UPDATE {effect.table.name} SET {', '.join(said)}{effect.of_row(key)}"), ["UPDATE 1"]

    def _assignment(self, assigned: Assigned, row: Values, given: Values) -> str:
        effect = self.effect
        place = effect.names.place(effect.table, assigned.name)
        column = effect.table.columns[place]
        value = _with_given(effect, assigned.value, given)
        try:
            if not _is_excluded(value):
                return effect.assignment(assigned.name, value, self._arguments)
        except Unsaid:
            pass
        if not _is_excluded(value) and (assigned.reads or isinstance(value, Sum)):
            self.count("what it assigns")
        return f"{column.name} = {self.literal(row, place)}"


def _is_excluded(value: Any) -> bool:
    """Whether a value is a column of the row that wasn't put."""
    return isinstance(value, Sum) and value.amount == Constant(0) and value.column.table is not None and value.column.table.text.lower() == "excluded"


def _with_given(effect: Effect, value: Any, given: Values) -> Any:
    """`t.v + excluded.w` as a sum, where the row's value is known."""
    if not isinstance(value, Made):
        return value
    words = value.text.split(" ")
    if len(words) < 5 or words[-3:-1] != ["excluded", "."] or words[-4] not in ("+", "-"):
        return value
    before = words[:-4]
    if len(before) == 3 and before[1] == ".":
        column = sql.Column(sql.Name(before[2], True), sql.Name(before[0], True))
    elif len(before) == 1:
        column = sql.Column(sql.Name(before[0], True), None)
    else:
        return value
    try:
        number = given.get(effect.names.place(effect.table, sql.Name(words[-1], True)))
    except Unsaid:
        return value
    return Sum(column, words[-4], Constant(number)) if isinstance(number, int) else value


def _sql_literal(value: Plain) -> str:
    """A value as SQLite reads it."""
    if isinstance(value, bytes):
        return f"x'{value.hex()}'"
    if isinstance(value, str):
        return "'" + value.replace("'", "''") + "'"
    return "NULL" if value is None else str(value)
