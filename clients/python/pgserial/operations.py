"""The operations of a history, one after another as they are needed: of EDN, of JSON as elle-cli reads it, or of the lines that
Jepsen prints (history.txt, and jepsen.log). Keys, values and processes are told by their texts in EDN, equal ones by one text."""

import json
import re
from typing import Any, Callable, Dict, Iterable, Iterator, List, NamedTuple, Optional, Pattern, Tuple

from .edn import Keyword, Malformed, Map, Reader, Symbol, Vector, written

TYPES = ("invoke", "ok", "fail", "info")
NIL = "nil"
SPACE = "\0"  # what a space of a list's element stands as, so that elements are told apart by spaces


class Unread(str):
    """A value's text in EDN, which hasn't been read."""


class Operation(NamedTuple):
    """An operation: its type, its process, the name of what it does (empty where it has none), its value, its line."""

    type: str
    process: str
    does: str
    value: Any
    line: int


class FromJson:
    """A value of JSON, which hasn't been looked at."""

    def __init__(self, value: Any) -> None:
        self.value = value

    def form(self, line: int) -> Any:
        """The form that EDN would have."""
        return _form(self.value, line)


Lines = Iterator[str]

# ---- EDN

_WHOLE = "(?:-?[1-9][0-9]{0,17}|0)"
ATOM = rf'(?:{_WHOLE}|:?[A-Za-z][A-Za-z0-9_/.-]*|"[A-Za-z0-9_.:-]*")'  # each is its own text
_IN_VECTOR = r"[^][\"\\;#(){}^,\n]*"
_VECTOR = rf"\[{_IN_VECTOR}\]"
for _ in range(2):  # a micro-operation in one, and a list in that
    _VECTOR = rf"\[{_IN_VECTOR}(?:{_VECTOR}{_IN_VECTOR})*\]"
_VALUE = rf"({NIL}|{_WHOLE}|{_VECTOR})"
_HEAD = r"(?:#jepsen\.history\.Op ?)?\{"
_MOST_SHAPES = 8
_ENTRIES = {"type": rf":type :({'|'.join(TYPES)})", "process": ":process ([0-9]{1,18})", "f": r":f :([a-z-]+)", "value": f":value {_VALUE}"}


class _Shapes:
    """Reads lines that have one operation each, by the order of their entries: as those did that were read before."""

    def __init__(self) -> None:
        self._known: List[Tuple[Pattern[str], bool]] = []

    def learn(self, line: str, operation: Map) -> None:
        """Keeps the order of an operation's entries, where a line has it alone."""
        names = [key.name if isinstance(key, Keyword) else "" for key in operation]
        if not all(re.fullmatch("[a-z-]+", name) for name in names) or not {"type", "process", "value"} <= set(names):
            return
        order = sorted(set(names) & set(_ENTRIES), key=names.index)
        groups = {name: f"(?P<{name}>" + _ENTRIES[name].partition("(")[2] for name in order}
        entries = [_ENTRIES[name].partition("(")[0] + groups[name] if name in groups else f":{name} {ATOM}" for name in names]
        shape = re.compile(_HEAD + ",? ".join(entries) + r"\},?\s*")
        if len(self._known) < _MOST_SHAPES and shape.fullmatch(line):
            self._known.append((shape, "f" in names))

    def read(self, line: str, number: int) -> Optional[Operation]:
        """The operation of a line; None where it isn't known to be one."""
        for at, (shape, has_name) in enumerate(self._known):
            found = shape.fullmatch(line)
            if found is not None:
                if at:
                    self._known.insert(0, self._known.pop(at))
                kind, process, value = found.group("type", "process", "value")
                return Operation(kind, process, found["f"] if has_name else "", Unread(value), number)
        return None


def _of_map(operation: Map) -> Optional[Operation]:
    """An operation of its map; None where it isn't a client's."""
    told, process = operation.get(Keyword("type")), operation.get(Keyword("process"))
    if not isinstance(told, Keyword) or told.name not in TYPES:
        raise Malformed(operation.line, "the type of an operation is :invoke, :ok, :fail or :info")
    if isinstance(process, Keyword):  # the nemesis
        return None
    if _has_map(process):
        raise Malformed(operation.line, "the process of an operation is a map, or has one")
    does = operation.get(Keyword("f"))
    return Operation(told.name, written(process), does.name if isinstance(does, Keyword) else "", operation.get(Keyword("value")), operation.line)


def _of_edn(lines: Lines) -> Iterator[Operation]:
    reader, shapes = Reader(lines), _Shapes()
    items = reader.items()
    while True:
        found = reader.line()
        read = None if found is None else shapes.read(*found)
        if read is not None:
            yield read
            continue
        if found is not None:
            reader.again()
        form = next(items, None)
        if form is None:
            return
        if not isinstance(form, Map):
            raise reader.fault("a history has operations alone, each a map")
        read = _of_map(form)
        if read is not None:
            yield read
            if found is not None:
                shapes.learn(found[0], form)


def _has_map(form: Any) -> bool:
    """Whether a form is a map, or one stands in it."""
    try:
        hash(form)
        return False
    except TypeError:
        return True


# ---- JSON


def _form(value: Any, line: int) -> Any:
    """A value of JSON as the form that EDN would have. Maps' keys that are numbers are so."""
    if isinstance(value, (bool, float)):
        return Symbol(json.dumps(value))
    if isinstance(value, list):
        return Vector(_form(each, line) for each in value)
    if isinstance(value, dict):
        told = Map({_form_of_key(key): _form(each, line) for key, each in value.items()})
        told.line = line
        return told
    return value


def _form_of_key(key: str) -> Any:
    return int(key) if re.fullmatch(_WHOLE, key) else Keyword(key)


def _of_object(told: Any, line: int) -> Optional[Operation]:
    """An operation of an object; None where it isn't a client's."""
    if not isinstance(told, dict):
        raise Malformed(line, "a history has operations alone, each an object")
    kind, process, does = told.get("type"), told.get("process"), told.get("f")
    if kind not in TYPES:
        raise Malformed(line, "the type of an operation is invoke, ok, fail or info")
    if isinstance(process, str):  # the nemesis
        return None
    if isinstance(process, (dict, list)):
        raise Malformed(line, "the process of an operation is an object or an array")
    return Operation(kind, written(_form(process, line)), does if isinstance(does, str) else "", FromJson(told.get("value")), line)


class _Json:
    """Reads one object after another, of one array or not."""

    _SPACES = re.compile(r"[\s,]*")

    def __init__(self, lines: Lines) -> None:
        self._lines, self._text, self._place = lines, "", 0
        self._line, self._counted = 1, 0  # the line of a place
        self._decoder = json.JSONDecoder()

    def _number(self) -> int:
        self._line += self._text.count("\n", self._counted, self._place)
        self._counted = self._place
        return self._line

    def _more(self) -> bool:
        """Reads on, as much again as is at hand; whether there was more."""
        self._number()
        parts, has = [self._text[self._place :]], 0
        for line in self._lines:
            parts.append(line)
            has += len(line)
            if has > len(parts[0]):
                break
        self._text, self._place, self._counted = "".join(parts), 0, 0
        return has > 0

    def _next(self) -> str:
        """The next letter that says something; empty at the end."""
        while True:
            found = self._SPACES.match(self._text, self._place)
            self._place = found.end() if found else self._place
            if self._place < len(self._text) or not self._more():
                return self._text[self._place : self._place + 1]

    def _object(self) -> Any:
        while True:
            try:
                told, self._place = self._decoder.raw_decode(self._text, self._place)
                return told
            except (ValueError, RecursionError):
                if not self._more():
                    raise Malformed(self._number(), "this is no JSON") from None

    def operations(self) -> Iterator[Operation]:
        is_array = self._next() == "["
        self._place += is_array
        while self._next() not in ("", "]"):
            line = self._number()
            read = _of_object(self._object(), line)
            if read is not None:
                yield read
        if is_array != (self._next() == "]"):
            raise Malformed(self._number(), "an array isn't closed" if is_array else "] stands too early")
        self._place += is_array
        if self._next():
            raise Malformed(self._number(), "something stands behind the array")


# ---- lines that Jepsen prints

_PRINTED = re.compile(rf"(?:(.*?)\bjepsen\.util(?::| -)?[ \t]+)?(\S+)[ \t]+:({'|'.join(TYPES)})[ \t]+(?:{NIL}|:(\S+))[ \t]+(.*)", re.DOTALL)
_WHOLE_VALUE = re.compile(_VALUE)


def _printed(line: str, number: int) -> Optional[Operation]:
    """The operation of a line; None where it has none, or not a client's."""
    found = _PRINTED.fullmatch(line)
    if found is None:
        return None
    value, tab, _ = found[5].rstrip("\r\n").partition("\t")
    if _WHOLE_VALUE.fullmatch(value):
        told: Any = Unread(value)
    else:
        try:
            told = next(Reader(value).forms(), None)
        except Malformed as fault:
            raise Malformed(number, fault.why) from None
        _give_line(told, number)
    return Operation(found[3], found[2], found[4] or "", told, number)


def _give_line(form: Any, number: int) -> None:
    if isinstance(form, Map):
        form.line = number


def _of_log(lines: Lines) -> Iterator[Operation]:
    """Of a log other lines are passed over; of a history, which has nothing else, they are refused."""
    is_log = False
    for number, line in enumerate(lines, 1):
        read = _printed(line, number)
        is_log = is_log or "jepsen.util" in line or (number == 1 and read is None)
        if read is None and line.strip() and ("jepsen.util" in line and re.search(r":(invoke|ok|fail|info)\s", line) or not is_log):
            raise Malformed(number, "no operation: a process, a type, a function and a value, with tabs between them")
        if read is not None and not read.process.startswith(":"):
            yield read


# ---- all of them

_MOST_LOOKED_AT = 100


def _form_of_file(lines: Lines) -> Tuple[Callable[[Lines], Iterator[Operation]], List[str]]:
    """How to read a history, and its lines that were looked at."""
    seen: List[str] = []
    begins = ""
    while len(begins) < 2 and len(seen) < _MOST_LOOKED_AT:
        line = next(lines, None)
        if line is None:
            break
        seen.append(line)
        begins = re.sub(r"[\s\[]+", "", "".join(seen))[:2]
    if begins == '{"':
        return _of_json, seen
    return (_of_edn if not begins or begins[0] in "{}()[]#;" else _of_log), seen


def _of_json(lines: Lines) -> Iterator[Operation]:
    return _Json(lines).operations()


def _chained(first: List[str], rest: Lines) -> Lines:
    yield from first
    yield from rest


def operations(lines: Iterable[str]) -> Iterator[Operation]:
    """The clients' operations of a history. Refuses (`Malformed`) what is none, with its line."""
    each = iter(lines)
    read, seen = _form_of_file(each)
    return read(_chained(seen, each))


Event = Tuple[int, str, Operation]


def events(read: Iterable[Operation]) -> Iterator[Event]:
    """What begins and ends: the operation's number, the type, and the operation that tells what was done. They are numbered as
    they are invoked, and one that wasn't from -1 down. What isn't known to have ended may have been done; what it has read
    isn't known."""
    pending: Dict[str, Tuple[int, Operation]] = {}
    invoked = others = 0
    for one in read:
        if one.type == "invoke":
            if one.process in pending:
                raise Malformed(one.line, f"process {one.process} has an operation that hasn't ended")
            pending[one.process] = invoked, one
            yield invoked, "invoke", one
            invoked += 1
        elif one.process in pending:
            number, begun = pending.pop(one.process)
            yield number, one.type, one if one.type == "ok" else begun
        elif one.type != "info" or _is_vector(one.value):
            others += 1
            yield -others, one.type, one
    for number, begun in pending.values():
        yield number, "info", begun


def _is_vector(value: Any) -> bool:
    if isinstance(value, Unread):
        return value.startswith("[")
    return isinstance(value, Vector) or (isinstance(value, FromJson) and isinstance(value.value, list))
