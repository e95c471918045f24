"""What reads that aren't known may hide: the recorded tables that they name, and the places that write these."""

import re
from typing import Dict, List, NamedTuple, Tuple

_CREATED = re.compile(r"^> CREATE TABLE (\w+) ", re.MULTILINE)
_RENAMED = re.compile(r"^-- Table (.+) stands as (\w+)\.$", re.MULTILINE)
_WRITTEN = re.compile(r"^-- at (\S+) (.+)\n> [0-9]+ (?:INSERT INTO|UPDATE|DELETE FROM) (\w+)", re.MULTILINE)
_MOST_SHOWN = 2  # places that write a table


class Hidden(NamedTuple):
    """A table that a read of some place names, and the places that write it."""

    place: str
    table: str
    writers: Tuple[str, ...]

    def __str__(self) -> str:
        if not self.writers:
            return f"{self.table}, which nothing recorded has written"
        more = len(self.writers) - _MOST_SHOWN
        shown = [*self.writers[:_MOST_SHOWN], *(["1 other place"] if more == 1 else [f"{more} other places"] if more > 0 else [])]
        joined = " and ".join([", ".join(shown[:-1]), shown[-1]]) if len(shown) > 1 else shown[0]
        return f"{self.table}, written by {joined}"


class Writers:
    """Which places of a recording write which tables."""

    def __init__(self, text: str, begins: str) -> None:
        opening, _, rest = text.partition(begins)
        renamed: Dict[str, str] = {found[2]: found[1] for found in _RENAMED.finditer(opening)}
        tables = [found[1] for found in _CREATED.finditer(opening)]
        self._named = [(renamed.get(table, table), self._pattern(renamed.get(table, table))) for table in tables]
        self._writers: Dict[str, Dict[str, None]] = {renamed.get(table, table): {} for table in tables}
        for found in _WRITTEN.finditer(rest):
            places = self._writers.get(renamed.get(found[3], found[3]))
            if places is not None:
                places[f"{found[1]} ({found[2]})"] = None

    def _pattern(self, name: str) -> "re.Pattern[str]":
        return re.compile(rf"(?<!\w){re.escape(name)}(?!\w)", re.IGNORECASE)

    def hidden(self, text: str, place: str) -> List[Hidden]:
        """What a read of this text hides, as far as it names recorded tables."""
        return [Hidden(place, table, tuple(self._writers[table])) for table, pattern in self._named if pattern.search(text)]
