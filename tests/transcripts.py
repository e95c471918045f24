"""The reader of transcripts, whose form docs/FORMATS.md describes: the scripts of tests/*.transcript, the transcripts of
tests/check, and the conversations of tests/shell."""

import dataclasses
import os
import re
from typing import Dict, Iterator, List, Tuple

from tests.program import TOP

# What begins a line: a script's, a reply, an audit's, of the file `dump`, of the file `out`, on standard error.
MARKS = ("> ", "  ", "= ", "< ", "| ", "! ")
# The folders whose transcripts are for `check`, and for `shell`.
CHECKED, HELD = "check", "shell"
ROOM = os.path.join(TOP, "tests")


@dataclasses.dataclass
class Script:
    """A script of a transcript: its file, its name, the words behind the command, the lines behind each mark, what `--transcript`
    tells of it, which is all that is asked and answered but for lines that are passed over; and each line with its answer."""

    file: str
    folder: str
    name: str
    words: List[str]
    lines: Dict[str, List[str]] = dataclasses.field(default_factory=lambda: {mark: [] for mark in MARKS})
    told: List[str] = dataclasses.field(default_factory=list)
    turns: List[Tuple[str, List[str]]] = dataclasses.field(default_factory=list)

    @property
    def is_checked(self) -> bool:
        return self.folder == CHECKED

    def add(self, line: str) -> None:
        """One more line."""
        mark, rest = line[:2].ljust(2), line[2:]
        self.lines[mark].append(rest)
        if mark == "> ":
            self.turns.append((rest, []))
        elif mark == "  " and self.turns:
            self.turns[-1][1].append(rest)
        if mark == "  " or (mark == "> " and rest != "" and not rest.startswith("--")):
            self.told.append(line)

    def text(self, mark: str) -> str:
        return "".join(line + "\n" for line in self.lines[mark])


def scripts_of(path: str) -> List[Script]:
    """The scripts of a file, in their order."""
    with open(path, encoding="utf-8", newline="") as opened:
        text = opened.read()
    if not text.endswith("\n"):
        raise ValueError(f"{path}: the last line isn't ended")
    above, file = os.path.split(os.path.abspath(path))
    folder = os.path.basename(above)
    scripts: List[Script] = []
    for number, line in enumerate(text[:-1].split("\n"), 1):
        if line.startswith("-- script "):
            name, _, words = line[len("-- script ") :].partition(": ")
            if name in [script.name for script in scripts]:
                raise ValueError(f"{path}:{number}: a second script of that name")
            scripts.append(Script(file, folder, name, words.split()))
        elif line[:2] in MARKS or (line == ">" and folder == HELD):
            if not scripts:
                scripts.append(Script(file, folder, file, []))
            scripts[-1].add(line)
        elif line.startswith("-- at ") and scripts and scripts[-1].is_checked:
            scripts[-1].told.append(line)
        elif line != "" and not line.startswith("--"):
            raise ValueError(f"{path}:{number}: a line without a mark")
    if not scripts:
        raise ValueError(f"{path}: no script")
    return scripts


def files(folder: str = "") -> List[str]:
    """The transcripts of tests/, or of a folder there."""
    room = os.path.join(ROOM, folder)
    return [os.path.join(room, name) for name in sorted(os.listdir(room)) if name.endswith(".transcript")]


# ---- worked scripts that stand in the Rust code of tests too

ESCAPES = {"t": "\t", "n": "\n", "\\": "\\", '"': '"'}


def constants() -> Iterator[Tuple[str, str, str, List[str]]]:
    """The marked constants of tests: where each stands, the file and the name of its script, and its lines."""
    marked = re.compile(r'// As in tests/(\S+): ([^\n]*)\n(?:pub )?const (\w+): &str =\s*"((?:[^"\\]|\\.)*)";', re.S)
    for crate in sorted(os.listdir(os.path.join(TOP, "crates"))):
        folder = os.path.join(TOP, "crates", crate, "src")
        for file in sorted(os.listdir(folder)) if crate.endswith("_tests") else ():
            with open(os.path.join(folder, file), encoding="utf-8") as source:
                text = source.read()
            found = marked.findall(text)
            if len(found) != text.count("// As in tests/"):
                raise ValueError(f"{crate}/{file}: a mark without its constant")
            for where, name, constant, body in found:
                body = re.sub(r"\\(\n\s*|.)", lambda e: ESCAPES.get(e.group(1), ""), body, flags=re.S)
                yield f"{crate}/{file}: {constant}", where, name, body.splitlines()
