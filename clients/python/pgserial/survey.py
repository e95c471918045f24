"""What a history has, as it must be known before a transcript of it begins: the order of each list's elements, the kinds of keys
and values, which operations say anything, and what a bank's accounts had at first."""

import re
from array import array
from typing import Dict, Iterable, List, NamedTuple, Optional, Set, Tuple

from .edn import Malformed
from .micros import ADD, APPEND, BALANCE, CAS, READ, WRITE, Micro, Micros, elements_of
from .operations import NIL, SPACE, Event, Operation

SKIPPED, DONE, PERHAPS = range(3)  # what becomes of an operation
_LONG = 8000  # keys and values from which on a statement may be too long
_NUMBER = re.compile("-?[0-9]+")


class ListOfKey:
    """A list: its elements in their order, which is that of its longest read, and where each stands."""

    def __init__(self, line: int) -> None:
        self.line = line
        self.longest = ""  # between the brackets
        self.appended: Dict[str, int] = {}  # the place of each element, counted from 1; 0 where nobody has read it
        self.length = 0
        self.once = 0  # how many at its beginning are all different
        self.unappended: Dict[str, int] = {}  # the places of those that nobody has appended

    def arrange(self) -> None:
        """Gives the elements their places, once all reads are known."""
        seen: Set[str] = set()
        for at, element in enumerate(elements_of(f"[{self.longest}]"), 1):
            if element not in seen and len(seen) == at - 1:
                self.once = at
            if element not in seen:
                (self.appended if element in self.appended else self.unappended)[element] = at
            seen.add(element)
            self.length = at

    def seen(self, value: str) -> Optional[int]:
        """How long the list was when this was read; None where it is no beginning of the longest, or has an element twice, so
        that no list can give it."""
        inner = "" if value == NIL else value[1:-1]
        if not inner:
            return 0
        if not self.is_beginning(inner):
            return None
        length = inner.count(" ") + 1
        return length if length <= self.once else None

    def is_beginning(self, inner: str) -> bool:
        """Whether the elements are those at the beginning of the longest read."""
        return self.longest.startswith(inner) and self.longest[len(inner) : len(inner) + 1] in ("", " ")


class Told(NamedTuple):
    """An operation that isn't known to have been done, and what it writes."""

    number: int
    micros: Tuple[Micro, ...]


class Fates:
    """What becomes of each operation, by its number, and its line."""

    def __init__(self) -> None:
        self._fates, self._lines = bytearray(), array("Q")
        self._other_fates, self._other_lines = bytearray(), array("Q")  # of those that weren't invoked

    def invoked(self, line: int) -> None:
        """One more."""
        self._fates.append(SKIPPED)
        self._lines.append(line)

    def give(self, number: int, fate: int, line: Optional[int] = None) -> None:
        """What becomes of one."""
        if number >= 0:
            self._fates[number] = fate
            self._lines[number] = self._lines[number] if line is None else line
        elif -number > len(self._other_fates):
            self._other_fates.append(fate)
            self._other_lines.append(line or 0)
        else:
            self._other_fates[-number - 1] = fate

    def of(self, number: int) -> int:
        """What becomes of an operation."""
        return self._fates[number] if number >= 0 else self._other_fates[-number - 1]

    def line(self, number: int) -> int:
        """The line that tells what it has done."""
        return self._lines[number] if number >= 0 else self._other_lines[-number - 1]

    def others(self) -> List[int]:
        """The numbers of those that weren't invoked."""
        return list(range(-1, -len(self._other_fates) - 1, -1))


class Bank:
    """What the accounts had at first: what the first read tells, but for what was surely done before it. Of what may have been
    done before it or after, nobody knows."""

    def __init__(self) -> None:
        self.accounts: Dict[str, int] = {}  # with the line of the first transfer or read of each
        self.balances: Dict[str, int] = {}
        self.perhaps: List[Told] = []  # the transfers that may have been done before
        self._begun: Dict[int, int] = {}  # how many operations had ended when one began
        self._ended: List[Told] = []
        self._open: Dict[int, Tuple[Micro, ...]] = {}
        self._is_read = False

    def invoked(self, number: int, micros: Tuple[Micro, ...]) -> None:
        """An operation begins."""
        if not self._is_read and micros:
            self._open[number] = micros
        elif not self._is_read and self._ended:
            self._begun[number] = len(self._ended)

    def take(self, number: int, kind: str, micros: Tuple[Micro, ...], line: int) -> None:
        """An operation ends."""
        for _, account, _ in micros:
            self.accounts.setdefault(account, line)
        told = Told(number, micros)
        if kind == "fail":
            self.perhaps = [each for each in self.perhaps if each.number != number]
            self._open.pop(number, None)
        elif kind == "ok" and micros and micros[0][0] == BALANCE:
            if not self._is_read:
                self._read(self._begun.get(number, 0), micros)
        elif self._is_read:
            self.perhaps += [told] if number < 0 else []  # which may have begun at any time
        elif kind == "ok" and micros:
            self._open.pop(number, None)
            self._ended.append(told)
        elif micros:
            self._open[number] = micros

    def _read(self, surely: int, micros: Tuple[Micro, ...]) -> None:
        """The first read. So many of the transfers had ended before it began."""
        self._is_read = True
        self.balances = {account: int(balance) for _, account, balance in micros}
        for each in self._ended[:surely]:
            for _, account, amount in each.micros:
                self.balances[account] = self.balances.get(account, 0) - int(amount)
        self.perhaps = self._ended[surely:] + [Told(number, each) for number, each in self._open.items()]
        self._ended, self._open, self._begun = [], {}, {}

    def check(self) -> None:
        """Refuses accounts of which nobody knows what they had."""
        for account, line in self.accounts.items():
            if self._is_read and account not in self.balances:
                raise Malformed(line, f"account {account} isn't in the first read, which tells what the accounts had")


class Survey:
    """Looks at each event of a history."""

    def __init__(self) -> None:
        self.micros = Micros()
        self.lists: Dict[str, ListOfKey] = {}
        self.registers: Dict[str, int] = {}  # with the line of each
        self.bank = Bank()
        self.fates = Fates()
        self.is_number = {"list": True, "register": True, "value": True, "account": True}
        self.long: List[Tuple[str, str, int]] = []  # keys and values by which a statement may be too long, with their lines
        self._perhaps: List[Told] = []
        self._unknown: Dict[str, int] = {}  # keys of which nothing was read but nil
        self._seen: Dict[str, Set[str]] = {}  # the values of each register that were read

    def look(self, events: Iterable[Event]) -> None:
        """Looks at all of them."""
        for number, kind, one in events:
            if kind == "invoke":
                self.fates.invoked(one.line)
                if one.does in ("transfer", "read"):
                    self.bank.invoked(number, self.micros.of(one) if one.does == "transfer" else ())
            else:
                self._end(number, kind, one)
        self._arrange()

    def _end(self, number: int, kind: str, one: Operation) -> None:
        micros = self.micros.of(one)
        if one.does in ("transfer", "read"):
            self.bank.take(number, kind, micros if micros and micros[0][0] in (ADD, BALANCE) else (), one.line)
        for does, key, value in micros:
            if does == APPEND:
                self._append(key, value, one)
            elif does == READ:
                self._read(key, value, one, kind == "ok")
            elif does == WRITE:
                self.registers.setdefault(key, one.line)
                self._look_at("value", value, one, key)
            elif does == CAS:
                self.registers.setdefault(key, one.line)
                for each in value.split(" "):
                    self._look_at("value", each, one, key) if each != NIL else None
            else:
                self._look_at("account", key, one, key)
        if kind == "info":
            self._perhaps.append(Told(number, tuple([each for each in micros if each[0] not in (READ, BALANCE)])))
        self.fates.give(number, DONE if kind == "ok" else SKIPPED, one.line)

    def _look_at(self, what: str, text: str, one: Operation, key: str) -> None:
        """Whether a key or a value is a number, and not too long."""
        if not (text.isdigit() and text.isascii() and len(text) < 19) and self.is_number[what]:
            self.is_number[what] = _NUMBER.fullmatch(text) is not None and -(2**63) <= int(text) < 2**63
        if len(text) + len(key) > _LONG:
            self.long.append((key, text, one.line))

    def _list(self, key: str, one: Operation) -> ListOfKey:
        found = self.lists.get(key)
        if found is None:
            found = self.lists[key] = ListOfKey(one.line)
            self._look_at("list", key, one, key)
        return found

    def _append(self, key: str, value: str, one: Operation) -> None:
        appended = self._list(key, one).appended
        if value in appended:
            raise Malformed(one.line, f"{value.replace(SPACE, ' ')} is appended twice to {key}")
        appended[value] = 0

    def _read(self, key: str, value: str, one: Operation, is_known: bool) -> None:
        if not is_known:
            return
        if value[0] == "[":
            found = self._list(key, one)
            if len(value) > len(found.longest) + 2:
                found.longest = value[1:-1]
        elif value == NIL:
            self._unknown.setdefault(key, one.line)
        else:
            self.registers.setdefault(key, one.line)
            self._look_at("value", value, one, key)
            seen = self._seen.get(key)
            if seen is None:
                seen = self._seen[key] = set()
            seen.add(value)

    def _arrange(self) -> None:
        for key in self.lists.keys() & self.registers.keys():
            raise Malformed(max(self.lists[key].line, self.registers[key]), f"{key} is a list elsewhere")
        for key, line in self._unknown.items():
            if key not in self.lists:
                self.registers.setdefault(key, line)
        for each in self.lists.values():
            each.arrange()
        for key, line in self.registers.items():
            self._look_at("register", key, Operation("", "", "", None, line), key)
        self.bank.check()
        for told in self._perhaps:
            if any(map(self._is_observed, told.micros)):
                self.fates.give(told.number, PERHAPS)
        self._perhaps, self._seen, self._unknown = [], {}, {}

    def _is_observed(self, micro: Micro) -> bool:
        """Whether anybody has read what an operation wrote. Without that, whatever order there is with it, there is one
        without it."""
        does, key, value = micro
        if does == APPEND:
            return self.lists[key].appended[value] > 0
        return does in (ADD, CAS) or value in self._seen.get(key, ())
