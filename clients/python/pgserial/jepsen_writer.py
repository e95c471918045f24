"""The transcript of a history of Jepsen's, written event by event.

A list is told by its length, since its elements have one order: an append by the length that comes of it."""

import heapq
from typing import Dict, Iterable, Iterator, List, Tuple

from . import BIGINT, TEXT
from .edn import Malformed
from .micros import ADD, APPEND, BALANCE, CAS, READ, WRITE, Micro
from .operations import NIL, SPACE, Event, Operation
from .survey import DONE, SKIPPED, Survey
from .values import MOST_BYTES, Spelling
from .verdict import BEGINS


class _Column:
    """How a column's values are spelled: numbers, or the texts of EDN."""

    def __init__(self, is_number: bool) -> None:
        self.kind = BIGINT if is_number else TEXT
        self._spelling = Spelling()

    def literal(self, text: str) -> str:
        """A value as a literal."""
        return text if self.kind is BIGINT else self._spelling.literal(TEXT, text)

    def value(self, text: str) -> str:
        """A value, which may be null, as a literal."""
        return "NULL" if text == NIL else self.literal(text)

    def copy_text(self, text: str) -> str:
        """A value as a field."""
        if text == NIL:
            return "\\N"
        return text if self.kind is BIGINT else self._spelling.copy_text(TEXT, text)


def _is_too_long(command: str) -> bool:
    return len(command) * 4 > MOST_BYTES and len(command.encode("utf-8")) > MOST_BYTES


class Writer:
    """Writes the transcript of a history that was looked at. `name` is the history's, for the places of its transactions."""

    def __init__(self, survey: Survey, name: str) -> None:
        self._survey, self._name = survey, name
        self._value = _Column(survey.is_number["value"])
        self._register, self._list, self._account = (_Column(survey.is_number[what]) for what in ("register", "list", "account"))
        self._sessions: Dict[int, int] = {}  # of the operations that are open, by their numbers
        self._free: List[int] = []  # numbers of sessions that are given back, least first
        self._last = 0  # the greatest number of a session so far
        for key, text, line in survey.long:
            if any(map(_is_too_long, self._commands_of(key, text))):
                raise Malformed(line, f"a key or a value makes a statement of more than {MOST_BYTES} bytes")

    def _commands_of(self, key: str, text: str) -> List[str]:
        """The statements that a key or a value may stand in."""
        if key in self._survey.lists:
            return [self._of_list(APPEND, key, text)[0], self._list_row(key)]
        if key in self._survey.registers:
            return [self._of_register(READ, key, NIL)[0], self._of_register(CAS if " " in text else WRITE, key, text)[0], self._register_row(key)]
        return [self._of_account(ADD, key, "-1")[0], self._account_row(key)]

    def lines(self, told: Iterable[Event]) -> Iterator[str]:
        """The lines, several at once."""
        fates = self._survey.fates
        yield from self._opening()
        for number in fates.others():
            if fates.of(number) != SKIPPED:
                yield self._begin(number, "txn")
        for number, kind, one in told:
            if kind == "invoke":
                if fates.of(number) != SKIPPED:
                    yield self._begin(number, f"process-{one.process}")
            elif number in self._sessions:
                yield self._end(number, one)

    # the opening

    def _opening(self) -> Iterator[str]:
        survey = self._survey
        for name, keys, column, value in (
            ("registers", survey.registers, self._register, f"v {self._value.kind.name}"),
            ("lists", survey.lists, self._list, "n bigint"),
            ("accounts", survey.bank.accounts, self._account, "v bigint"),
            ("opening", survey.bank.perhaps, _Column(True), "v bigint"),
        ):
            if keys:
                yield f"> CREATE TABLE {name} (k {column.kind.name} PRIMARY KEY, {value});\n"
        yield "> 1 BEGIN;\n  1 BEGIN\n"
        for command in self._rows():
            yield f"> 1 {command};\n  1 INSERT 0 1\n"
        yield "> 1 COMMIT;\n  1 COMMIT\n"
        yield from self._undone()
        yield BEGINS + "\n"

    def _rows(self) -> Iterator[str]:
        survey = self._survey
        yield from map(self._register_row, survey.registers)
        yield from map(self._list_row, sorted(survey.lists))
        yield from map(self._account_row, survey.bank.accounts)
        if survey.bank.perhaps:
            yield "INSERT INTO opening VALUES (0, 0)"

    def _register_row(self, key: str) -> str:
        return f"INSERT INTO registers VALUES ({self._register.literal(key)}, NULL)"

    def _list_row(self, key: str) -> str:
        return f"INSERT INTO lists VALUES ({self._list.literal(key)}, 0)"

    def _account_row(self, account: str) -> str:
        return f"INSERT INTO accounts VALUES ({self._account.literal(account)}, {self._survey.bank.balances.get(account, 0)})"

    def _undone(self) -> Iterator[str]:
        """What takes back transfers that the first read may have seen or not, each of which may have been done or not; and
        what comes behind these and before all else."""
        perhaps = self._survey.bank.perhaps
        for told in perhaps:
            session = self._session()
            yield f"> {session} BEGIN;\n  {session} BEGIN\n> {session} SELECT v FROM opening WHERE k = 0;\n  {session} SELECT 1\n  {session} | 0\n"
            for _, account, amount in told.micros:
                yield self._exchange(session, (ADD, account, str(-int(amount))))
            yield f"> {session} COMMIT;\n"
        if perhaps:
            session = self._session()
            yield f"> {session} BEGIN;\n  {session} BEGIN\n> {session} UPDATE opening SET v = 1 WHERE k = 0;\n  {session} UPDATE 1\n"
            yield f"> {session} COMMIT;\n  {session} COMMIT\n"
            heapq.heappush(self._free, session)

    # transactions

    def _session(self) -> int:
        """The least number of a session that is free."""
        if self._free:
            return heapq.heappop(self._free)
        self._last += 1
        return self._last

    def _begin(self, number: int, name: str) -> str:
        session = self._sessions[number] = self._session()
        return f"-- at {name} {self._name}:{self._survey.fates.line(number)}\n> {session} BEGIN;\n  {session} BEGIN\n"

    def _end(self, number: int, one: Operation) -> str:
        session, is_done = self._sessions.pop(number), self._survey.fates.of(number) == DONE
        micros = self._survey.micros.of(one)
        told = [self._exchange(session, micro) for micro in micros if is_done or micro[0] not in (READ, BALANCE)]
        if not is_done:
            return "".join(told) + f"> {session} COMMIT;\n"
        heapq.heappush(self._free, session)
        return "".join(told) + f"> {session} COMMIT;\n  {session} COMMIT\n"

    def _exchange(self, session: int, micro: Micro) -> str:
        """A micro-operation as a statement with its reply."""
        does, key, value = micro
        if does in (BALANCE, ADD):
            command, row = self._of_account(does, key, value)
        elif key in self._survey.lists:
            command, row = self._of_list(does, key, value)
        else:
            command, row = self._of_register(does, key, value)
        if row:
            return f"> {session} {command};\n  {session} SELECT 1\n  {session} | {row}\n"
        return f"> {session} {command};\n  {session} UPDATE 1\n"

    def _of_register(self, does: str, key: str, value: str) -> Tuple[str, str]:
        """A statement, and the row that it shows, where it does."""
        where = f"WHERE k = {self._register.literal(key)}"
        if does == READ:
            return f"SELECT v FROM registers {where}", self._value.copy_text(value)
        if does == CAS:
            old, value = (each.replace(SPACE, " ") for each in value.split(" "))
            where += " AND v IS NULL" if old == NIL else f" AND v = {self._value.literal(old)}"
        return f"UPDATE registers SET v = {self._value.literal(value)} {where}", ""

    def _of_account(self, does: str, key: str, value: str) -> Tuple[str, str]:
        where = f"WHERE k = {self._account.literal(key)}"
        if does == BALANCE:
            return f"SELECT v FROM accounts {where}", value
        return f"UPDATE accounts SET v = v {'-' if value[0] == '-' else '+'} {value.lstrip('-')} {where}", ""

    def _of_list(self, does: str, key: str, value: str) -> Tuple[str, str]:
        told = self._survey.lists[key]
        where = f"WHERE k = {self._list.literal(key)}"
        if does == READ:
            seen = told.seen(value)
            if seen is None:  # there is one row of each list
                return f"SELECT count(*) FROM lists {where}", "2"
            return f"SELECT n FROM lists {where}", str(seen)
        place = told.appended.get(value, 0)
        if not place:  # it comes behind all that anybody has read
            return f"UPDATE lists SET n = n + 1 {where} AND n >= {told.length}", ""
        return f"UPDATE lists SET n = {place} {where} AND n = {place - 1}", ""
