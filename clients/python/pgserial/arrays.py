"""Arrays as PostgreSQL writes them: `{1,2,NULL,"a b"}`."""

import re
from typing import List, Tuple

from .values import Unsaid

_ITEM = re.compile(r'\s*(?:"(?P<quoted>(?:[^"\\]|\\.)*)"|(?P<bare>[^{}",\\\s](?:[^{}",\\]*[^{}",\\\s])?))\s*', re.DOTALL)
_DEEPEST = 6  # dimensions, of PostgreSQL's arrays


def elements_of(text: str) -> List[object]:
    """The elements of an array, each a text or None, or a list of these."""
    elements, end = _elements(text.strip(), 0, 1)
    if end != len(text.strip()):
        raise _unread(text)
    return elements


def _unread(text: str) -> Unsaid:
    return Unsaid(f"nobody knows how the database reads {text[:40]!r} as an array")


def _elements(text: str, start: int, depth: int) -> Tuple[List[object], int]:
    """The elements behind a brace, and where what is behind them begins."""
    if text[start : start + 1] != "{" or depth > _DEEPEST:
        raise _unread(text)
    place = start + 1
    if text[place : place + 1] == "}":
        return [], place + 1
    elements: List[object] = []
    while True:
        element, place = _one(text, place, depth)
        elements.append(element)
        place += 1
        if text[place - 1 : place] == "}":
            return elements, place
        if text[place - 1 : place] != ",":
            raise _unread(text)


def _one(text: str, place: int, depth: int) -> Tuple[object, int]:
    if text[place : place + 1] == "{":
        return _elements(text, place, depth + 1)
    found = _ITEM.match(text, place)
    if found is None:
        raise _unread(text)
    if found["quoted"] is not None:
        return re.sub(r"\\(.)", r"\1", found["quoted"], flags=re.DOTALL), found.end()
    return None if found["bare"].upper() == "NULL" else found["bare"], found.end()
