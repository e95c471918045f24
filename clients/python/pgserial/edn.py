"""A reader and a writer of EDN, as far as Jepsen's histories need it (https://github.com/edn-format/edn)."""

import io
import re
from dataclasses import dataclass
from typing import Any, Dict, Iterable, Iterator, List, Optional, Tuple, Union

MOST_NESTED = 100


class Malformed(ValueError):
    """What is no EDN, with its line."""

    def __init__(self, line: int, why: str) -> None:
        super().__init__(f"history line {line}: {why}")
        self.line, self.why = line, why


@dataclass(frozen=True)
class Keyword:
    """A keyword, without its colon."""

    name: str


@dataclass(frozen=True)
class Symbol:
    """A symbol, or a number that isn't whole."""

    name: str


class Vector(Tuple[Any, ...]):
    """A vector or a list."""


class Map(Dict[Any, Any]):
    """A map, and the line in which it begins."""

    line = 0


_SPACES = " \t\n\r\f\v,"
_ENDS = {"(": ")", "[": "]", "{": "}", "#{": "}"}
_WHOLE = r"[+-]?(?:0|[1-9][0-9]*)"
_DELIMITED = r"(?![^\s,;\"()\[\]{}])"
_TOKEN = re.compile(
    rf"(?P<space>[\s,]+|;[^\n]*)|(?P<numbers>\[(?:{_WHOLE}\s+)*{_WHOLE}\])|"
    r'(?P<string>"(?:[^"\\]|\\.)*")|(?P<character>\\(?:u[0-9a-fA-F]{4}|[a-z]+|\S)' + _DELIMITED + ")"
    r"|(?P<open>#\{|[(\[{])|(?P<close>[)\]}])|(?P<discard>#_)|(?P<tag>#(?=[a-zA-Z])|\^)|(?P<atom>[^\x00-\x20,;\"\\()\[\]{}\ud800-\udfff][^\x00-\x20,;\"()\[\]{}\ud800-\udfff]*)",
    re.ASCII | re.DOTALL,
)
_CHARACTERS = {"newline": "\n", "space": " ", "tab": "\t", "return": "\r", "formfeed": "\f", "backspace": "\b"}
_ESCAPES = {"n": "\n", "t": "\t", "r": "\r", "f": "\f", "b": "\b", '"': '"', "\\": "\\"}
_ESCAPE = re.compile(r"\\(u[0-9a-fA-F]{4}|.)", re.DOTALL)
_HALF = re.compile("[\ud800-\udfff]")
_INTEGER = re.compile(rf"({_WHOLE})N?")
_NUMBER = re.compile(rf"{_WHOLE}(?:\.[0-9]*)?(?:[eE][+-]?[0-9]+)?M?|{_WHOLE}/[0-9]+")
_LIKE_NUMBER = re.compile(r"[+-]?[0-9]")


def _escaped(found: "re.Match[str]") -> str:
    """What an escape stands for; KeyError where it is none."""
    return chr(int(found[1][1:], 16)) if len(found[1]) == 5 else _ESCAPES[found[1]]


def _unescaped(text: str) -> str:
    """A text between quotes, of its escapes; two halves of a character are one. ValueError or KeyError where it is none."""
    plain = _ESCAPE.sub(_escaped, text)
    return plain.encode("utf-16", "surrogatepass").decode("utf-16") if _HALF.search(plain) else plain


def _character(name: str) -> str:
    """The character of this name; ValueError or KeyError where there is none."""
    if len(name) == 1:
        return name
    return _unescaped("\\" + name) if len(name) == 5 and name[0] == "u" else _CHARACTERS[name]


class Reader:
    """Reads one form after another of a text, or of its lines, which are read as they are needed."""

    def __init__(self, text: Union[str, Iterable[str]]) -> None:
        self._lines = iter(io.StringIO(text, newline="\n") if isinstance(text, str) else text)
        self._text, self._place, self._depth = "", 0, 0  # what is at hand, and how far that is read
        self._first = 1  # the line in which it begins

    def _line(self, place: int) -> int:
        """The line of a place of what is at hand, counted from 1."""
        return self._first + self._text.count("\n", 0, place)

    def fault(self, why: str) -> Malformed:
        """What is wrong where the reader stands."""
        return Malformed(self._line(self._place), why)

    def _more(self) -> bool:
        """Reads on, as much again as is at hand; whether there was more."""
        self._first = self._line(self._place)
        parts = [self._text[self._place :]]
        wanted, has = len(parts[0]), 0
        for line in self._lines:
            parts.append(line)
            has += len(line)
            if has > wanted:
                break
        self._text, self._place = "".join(parts), 0
        return has > 0

    def line(self) -> Optional[Tuple[str, int]]:
        """The next whole line, and its number, where none is begun and there is one."""
        if self._text[self._place :].strip(_SPACES):
            return None
        self._first, self._text, self._place = self._line(len(self._text)), "", 0
        line = next(self._lines, None)
        if line is None:
            return None
        self._text, self._place = line, len(line)
        return line, self._first

    def again(self) -> None:
        """Reads the line once more that was given last."""
        self._place = 0

    def _token(self) -> Optional[Tuple[str, str, int]]:
        """The next token that says something: its kind, its text, its place."""
        while self._place < len(self._text) or self._more():
            found = _TOKEN.match(self._text, self._place)
            if found is None:
                if self._text[self._place] == '"' and self._more():  # a text of several lines
                    continue
                raise self.fault("this is no EDN")
            place, self._place = self._place, found.end()
            if found.lastgroup != "space":
                return found.lastgroup or "", found[0], place
        return None

    def items(self) -> Iterator[Any]:
        """The forms of the text, or those of the one vector that it is."""
        token = self._undiscarded()
        is_vector = token is not None and token[0] == "open" and token[1] in ("(", "[")
        closes = _ENDS[token[1]] if is_vector and token is not None else None
        if is_vector:
            token = self._undiscarded()
        while token is not None and (token[0], token[1]) != ("close", closes):
            yield self._form(token)
            token = self._undiscarded()
        if closes is not None and token is None:
            raise self.fault("the text ends too early")
        if closes is not None and self._undiscarded() is not None:
            raise self.fault("a history that is one vector has something behind it")

    def forms(self) -> Iterator[Any]:
        """The forms of the text."""
        while True:
            token = self._undiscarded()
            if token is None:
                return
            yield self._form(token)

    def _undiscarded(self) -> Optional[Tuple[str, str, int]]:
        """The next token behind the forms that are discarded, one for each sign of it."""
        due = 0
        while True:
            token = self._token()
            if token is None and due:
                raise self.fault("the text ends too early")
            if token is not None and token[0] == "discard":
                due += 1
            elif token is not None and due:
                self._form(token)
                due -= 1
            else:
                return token

    def _due(self) -> Tuple[str, str, int]:
        token = self._undiscarded()
        if token is None:
            raise self.fault("the text ends too early")
        return token

    def _form(self, token: Tuple[str, str, int]) -> Any:
        kind, text, _ = token
        try:
            if kind == "numbers":  # most of a long history
                return Vector(map(int, text[1:-1].split()))
            if kind == "string":
                return _unescaped(text[1:-1])
            if kind == "character":
                return _character(text[1:])
            if kind == "atom":
                return self._atom(text)
        except (KeyError, ValueError):
            told = text if len(text) < 30 else text[:30] + ".."
            raise self.fault(f"{told} is no text, character, word or number that can be read") from None
        return self._nested(token)

    def _nested(self, token: Tuple[str, str, int]) -> Any:
        """A form that has others within."""
        self._depth += 1
        if self._depth > MOST_NESTED:
            raise self.fault(f"more than {MOST_NESTED} forms stand within one another")
        kind, text, place = token
        if kind == "open":
            form = self._collection(text, self._line(place) if text == "{" else 0)
        elif kind == "tag":  # a record or a date: what it tags says all that is needed
            self._form(self._due())
            form = self._form(self._due())
        else:
            raise self.fault(f"{text} stands too early")
        self._depth -= 1
        return form

    def _atom(self, text: str) -> Any:
        """A word or a number. True, false, and a number with a fraction are symbols: each is like nothing but itself."""
        if text == "nil":
            return None
        if text.startswith(":"):
            if len(text) == 1:
                raise ValueError(text)
            return Keyword(text[1:])
        whole = _INTEGER.fullmatch(text)
        if whole:
            return int(whole[1])
        if _LIKE_NUMBER.match(text) and not _NUMBER.fullmatch(text):
            raise ValueError(text)
        return Symbol(text)

    def _collection(self, opens: str, line: int) -> Any:
        forms = self._until(_ENDS[opens])
        if opens in ("(", "["):
            return Vector(forms)
        if opens == "{" and len(forms) % 2:
            raise self.fault("a map has a key without a value")
        keys = forms if opens == "#{" else forms[::2]
        try:
            if len(set(keys)) < len(keys):
                raise self.fault("a map has a key, or a set an element, twice")
        except TypeError:
            raise self.fault("a map's key, or a set's element, is a map or has one") from None
        if opens == "#{":
            return frozenset(keys)
        told = Map(zip(keys, forms[1::2]))
        told.line = line
        return told

    def _until(self, closes: str) -> List[Any]:
        """The forms up to a closing sign."""
        forms: List[Any] = []
        while True:
            token = self._due()
            if token[0] != "close":
                forms.append(self._form(token))
            elif token[1] == closes:
                return forms
            else:
                raise self.fault(f"{token[1]} stands where {closes} is due")


_TO_ESCAPES = {
    **{number: f"\\u{number:04x}" for number in range(32)},
    **str.maketrans({"\\": "\\\\", '"': '\\"', "\n": "\\n", "\t": "\\t", "\r": "\\r"}),
}


def written(value: Any) -> str:
    """A value as EDN."""
    if value is None:
        return "nil"
    if isinstance(value, Keyword):
        return ":" + value.name
    if isinstance(value, Symbol):
        return value.name
    if isinstance(value, str):
        return '"' + value.translate(_TO_ESCAPES) + '"'
    if isinstance(value, dict):
        return "{" + ", ".join(f"{written(key)} {written(each)}" for key, each in value.items()) + "}"
    if isinstance(value, frozenset):
        return "#{" + " ".join(sorted(map(written, value))) + "}"
    if isinstance(value, (tuple, list)):
        return "[" + " ".join(map(written, value)) + "]"
    return str(value)
