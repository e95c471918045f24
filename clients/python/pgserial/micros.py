"""What the operations of a history do, as micro-operations: reads and writes of registers, reads of lists and appends to them,
reads of accounts and sums. Operations of other forms are told by these."""

import re
from typing import Any, List, Optional, Sequence, Tuple

from .edn import Keyword, Malformed, Map, Reader, Vector, written
from .operations import ATOM, NIL, SPACE, FromJson, Operation, Unread

READ, WRITE, APPEND = "r", "w", "append"
CAS = "cas"  # writes where it has found a value: the two have a space between them
BALANCE, ADD = "balance", "add"  # of accounts
REGISTER = "register"  # the key of a history's only register
Micro = Tuple[str, str, str]  # what it does, to which key, and the value: as texts, a list's between brackets
_ALL_DONE = (READ, WRITE, APPEND)

_LIST = rf"\[(?:{ATOM}(?: {ATOM})*)?\]"
_MICROS = re.compile(rf"\[:(r|w|append) ({ATOM}) ({ATOM}|{_LIST})\]")
_BANK, _KEYED, _PLAIN = "transfers", "registers that have keys", "one register"


def has_element_of_map(form: Any) -> bool:
    """Whether a form is a map, or one stands in it."""
    try:
        hash(form)
        return False
    except TypeError:
        return True


def list_text(elements: Sequence[Any]) -> str:
    """A list as text: its elements have spaces between them, and none within."""
    return "[" + " ".join([written(each).replace(" ", SPACE) for each in elements]) + "]"


def elements_of(text: str) -> List[str]:
    """The elements of a list's text."""
    return text[1:-1].split(" ") if len(text) > 2 else []


def _is_micro(form: Any) -> bool:
    return isinstance(form, Vector) and len(form) > 0 and (form[0].name if isinstance(form[0], Keyword) else form[0]) in _ALL_DONE


def _read(text: str, line: int) -> Any:
    """The form of a text, which stands in a line."""
    try:
        return next(Reader(text).forms(), None)
    except Malformed as fault:
        raise Malformed(line, fault.why) from None


def _of_json(value: Any) -> Optional[Tuple[Micro, ...]]:
    """What most operations of JSON do: those whose keys and values are numbers. None for others."""
    told: List[Micro] = []
    for micro in value if isinstance(value, list) else [None]:
        if type(micro) is not list or len(micro) != 3 or micro[0] not in _ALL_DONE or type(micro[1]) is not int:
            return None
        does, key, each = micro
        if type(each) is int:
            told.append((does, str(key), str(each)))
        elif does == READ and each is None:
            told.append((does, str(key), NIL))
        elif does == READ and type(each) is list and set(map(type, each)) <= {int}:
            told.append((does, str(key), "[" + " ".join(map(str, each)) + "]"))
        else:
            return None
    return tuple(told)


class Micros:
    """Reads what operations do. A history has one kind of those that aren't transactions."""

    def __init__(self) -> None:
        self._kind = ""

    def of(self, one: Operation) -> Tuple[Micro, ...]:
        """What an operation does."""
        value = one.value
        if isinstance(value, Unread):
            found = _MICROS.findall(value)
            if found and "[" + " ".join(["[:%s %s %s]" % each for each in found]) + "]" == value:
                return self._checked(one, tuple(found))
            value = _read(value, one.line)
        elif isinstance(value, FromJson):
            quick = _of_json(value.value)
            if quick is not None:
                return quick
            value = value.form(one.line)
        if one.does in ("read", "write", "cas", "transfer") and not (isinstance(value, Vector) and value and all(map(_is_micro, value))):
            return self._single(one, value)
        if not isinstance(value, Vector):
            raise Malformed(one.line, "the value of an operation is a vector of micro-operations")
        return tuple(self._micro(one, each) for each in value)

    def _checked(self, one: Operation, micros: Tuple[Micro, ...]) -> Tuple[Micro, ...]:
        for does, key, value in micros:
            if key == NIL or (value == NIL and does != READ):
                self._refuse_nil(one, f"[:{does} {key} {value}]", key)
        return micros

    def _refuse_nil(self, one: Operation, said: str, key: Any) -> None:
        if key in (None, NIL):
            raise Malformed(one.line, f"the key of {said} is nil")
        raise Malformed(one.line, f"{said} writes nil, which is what stands for no value")

    def _micro(self, one: Operation, form: Any) -> Micro:
        if not _is_micro(form) or len(form) != 3:
            raise Malformed(one.line, f"a micro-operation is [:r k v], [:w k v] or [:append k v], and not {written(form)}")
        does, key, value = form
        does = does.name if isinstance(does, Keyword) else str(does)
        if key is None or (value is None and does != READ):
            self._refuse_nil(one, written(form), key)
        if has_element_of_map(form):
            raise Malformed(one.line, f"a key or a value of {written(form)} is a map, or has one")
        is_list = isinstance(value, Vector) and does == READ
        text = list_text(value) if is_list else written(value)
        return does, written(key), text.replace(" ", SPACE) if does == APPEND else text

    # what isn't a transaction

    def _single(self, one: Operation, value: Any) -> Tuple[Micro, ...]:
        if one.does == "transfer":
            return self._transfer(one, value)
        if isinstance(value, Map):
            return self._balances(one, value)
        if has_element_of_map(value):
            raise Malformed(one.line, f"a value of {written(value)} is a map, or has one")
        if one.does == "read" and value is None:
            if one.type == "ok":
                self._is_of_kind(one, _PLAIN)
            return ((READ, REGISTER, NIL),)
        return self._of_register(one, value)

    def _of_register(self, one: Operation, value: Any) -> Tuple[Micro, ...]:
        """A read, a write, or one that writes where it has read a value; of a register that has a key, or of the only one."""
        is_pair = isinstance(value, Vector) and len(value) == 2
        is_keyed = is_pair and (one.does != "cas" or (isinstance(value[1], Vector) and len(value[1]) == 2))
        key, rest = (written(value[0]), value[1]) if is_keyed else (REGISTER, value)
        self._is_of_kind(one, _KEYED if is_keyed else _PLAIN)
        if one.does == "cas":
            if not isinstance(rest, Vector) or len(rest) != 2:
                raise Malformed(one.line, f"the value of a cas is the one that was there and the new one, and not {written(rest)}")
            return ((CAS, key, f"{written(rest[0]).replace(' ', SPACE)} {self._new(one, rest[1]).replace(' ', SPACE)}"),)
        return ((READ, key, written(rest)),) if one.does == "read" else ((WRITE, key, self._new(one, rest)),)

    def _new(self, one: Operation, value: Any) -> str:
        if value is None:
            raise Malformed(one.line, f"this {one.does} writes nil, which is what stands for no value")
        return written(value)

    def _is_of_kind(self, one: Operation, kind: str) -> None:
        if self._kind not in ("", kind):
            raise Malformed(one.line, f"this is of {kind}, and what came before of {self._kind}")
        self._kind = kind

    def _transfer(self, one: Operation, value: Any) -> Tuple[Micro, ...]:
        told = [value.get(Keyword(name)) for name in ("from", "to", "amount")] if isinstance(value, Map) else []
        if not told or None in told or not isinstance(told[2], int) or has_element_of_map(tuple(told)):
            raise Malformed(one.line, "the value of a transfer is a map with :from, :to and an :amount, which is a number")
        self._is_of_kind(one, _BANK)
        return (ADD, written(told[0]), str(-told[2])), (ADD, written(told[1]), str(told[2]))

    def _balances(self, one: Operation, value: Map) -> Tuple[Micro, ...]:
        if one.does != "read" or not all(isinstance(balance, int) for balance in value.values()):
            raise Malformed(one.line, "a map is what reads of a bank have: its accounts with their balances, which are numbers")
        self._is_of_kind(one, _BANK)
        return tuple((BALANCE, written(account), str(balance)) for account, balance in value.items())
