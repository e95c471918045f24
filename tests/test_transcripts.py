"""The scripts of tests/*.transcript, and the transcripts of tests/check, each a test of its name: line by line.

docs/FORMATS.md describes their form. A script whose words are `--why` has the remarks below its replies. Those of tests/check are
transcripts that `check` reads, with the words behind a script's name; it prints the lines behind `= `. Worked scripts that
stand in a test's Rust code too are compared with these, where the constant is marked `// As in tests/FILE: NAME`.
"""

import contextlib
import json
import os
import re
import tempfile
import unittest
from typing import Any, Dict, Iterator, List, Optional, Tuple

from tests import program, transcripts
from tests.program import Differs
from tests.transcripts import CHECKED, MARKS, Script

# How a check ends by its last line, or by the answer of its object.
ENDED = {"check yes": 0, "check unknown": program.UNKNOWN, "check no": program.NO}


def lines_of(data: bytes) -> List[str]:
    """The lines of what was printed; a last one without its newline has a mark."""
    lines = data.decode("utf-8", "backslashreplace").split("\n")
    return lines[:-1] if lines[-1] == "" else lines[:-1] + [lines[-1] + " (without a newline)"]


def same_lines(script: Script, what: str, wanted: List[str], came: List[str]) -> None:
    """What a script prints, tells or writes must be these lines."""
    differs = program.difference(wanted, came)
    if differs:
        place, line, other = differs
        raise Differs(f"{script.name}: {what} line {place}", line, other, len(script.told))


def ended(words: List[str], last: str) -> int:
    """How a check ends that prints this last line; in JSON it is the only one."""
    return ENDED[f"check {json.loads(last)['answer']}" if "--json" in words else last]


def ends(script: Script, folder: str, words: List[str], wanted: List[str]) -> None:
    """Runs the program, which must end with these lines on standard output, and those of the script on standard error."""
    told = script.lines["! "]
    done = program.run(*words, folder=folder)
    status = 0 if not told else program.DEVICE if told[0].startswith("device: ") else program.REFUSED
    if words[0] == "check" and not told:
        status = ended(words, wanted[-1])
    said = " ".join(words)
    same_lines(script, f"`{said}` prints", wanted, lines_of(done.stdout))
    # Behind its first line standard error has words for a person.
    same_lines(script, f"`{said}` tells", told, lines_of(done.stderr)[:1])
    if done.returncode != status:
        raise Differs(f"{script.name}: `{said}` ends", status, done.returncode)


def has_transcript(script: Script) -> bool:
    """Whether a script is done to its end, in the order of its lines."""
    return not script.lines["! "] and "--free" not in script.words


def transcript_try(script: Script) -> Tuple[List[str], List[str]]:
    """The words by which a script's transcript is printed, and that; remarks aren't in it, nor is the word for them."""
    words = [word for word in script.words if word != "--why"]
    return ["run", "script", "--transcript", *words], [line for line in script.told if not re.match(r"(  )?\d+ # ", line)]


def look_at_checked(script: Script) -> None:
    """A transcript of tests/check."""
    with tempfile.TemporaryDirectory() as folder:
        with open(os.path.join(folder, "transcript"), "w", encoding="utf-8", newline="") as file:
            file.write("".join(line + "\n" for line in script.told))
        ends(script, folder, ["check", "transcript", *script.words], script.lines["= "])


def restored(script: Script) -> str:
    """What a restore of the script's dump prints: how many tables and rows what it writes has."""
    out = script.lines["| "]
    tables = sum(line.startswith("CREATE TABLE ") for line in out)
    rows = sum(int(line[len("-- rows ") :]) for line in out if line.startswith("-- rows "))
    return f"RESTORE {tables} tables {rows} rows"


def tries_of(script: Script) -> Iterator[Tuple[List[str], List[str]]]:
    """The command lines by which a script is tried, and what each prints."""
    told = script.lines["! "]
    yield ["run", "script", *script.words], script.lines["  "]
    if has_transcript(script):
        yield transcript_try(script)
    if script.lines["= "] or (told and "--free" not in script.words):
        yield ["audit", "script", *script.words], script.lines["= "]
    for jobs in ("1", "2", "8") if is_restored(script) else ():
        yield ["restore", "dump", "--jobs", jobs, "--out", "out"], [] if told else [restored(script)]


def is_restored(script: Script) -> bool:
    return script.lines["> "] == ["OPEN dump;"]


def look_at(script: Script) -> None:
    """A script, or a transcript of tests/check: raises where the program does otherwise."""
    if script.is_checked:
        look_at_checked(script)
        return
    for words, wanted in tries_of(script):
        with tempfile.TemporaryDirectory() as folder:
            for name, mark in (("script", "> "), ("dump", "< ")):
                with open(os.path.join(folder, name), "w", encoding="utf-8", newline="") as file:
                    file.write(script.text(mark))
            ends(script, folder, words, wanted)
            if script.lines["| "] and (words[0] == "restore" or not is_restored(script)):
                out = os.path.join(folder, "out")
                with open(out if os.path.exists(out) else os.devnull, "rb") as written:
                    same_lines(script, f"`{' '.join(words)}` writes", script.lines["| "], lines_of(written.read()))


# ---- constants in the tests' Rust code


def as_marked(script: Script) -> List[List[str]]:
    """The lines that a script has behind `> `, its replies, its audit, and what it writes to `out`."""
    return [script.lines[mark] for mark in ("> ", "  ", "= ", "| ")]


def constant_lines(lines: List[str]) -> List[Optional[List[str]]]:
    """The same of a constant's lines; nothing where it has none of that kind. They are marked as a transcript's are; or
    have `> ` before each command, which lacks its semicolon, and the replies bare; or are the script's lines alone."""
    marked = [[line[2:] for line in lines if line.startswith(mark)] for mark in ("> ", "  ", "= ")]
    asked, replies, audit = marked
    if replies or any(line.endswith(";") for line in asked):
        return [*marked, None]
    if not asked:
        return [lines, None, None, None]
    asked, replies, out, dumps = [], [], [], False
    for line in lines:
        if line.startswith("> "):
            dumps = line.endswith(" DUMP")
            line = line[2:].replace(" BEGIN DEFERRABLE", " BEGIN READ ONLY DEFERRABLE")
            asked.append(line + (" 2 1 out;" if dumps else ";"))
            replies += [line] if dumps else []
        elif line.startswith("= "):
            dumps = False
        elif dumps:
            out.append(line)
        else:
            (asked if line.startswith("CREATE TABLE ") else replies).append(line)
    return [asked, replies, audit or None, out]


class Constants(unittest.TestCase):
    """Constants of tests in Rust that have the text of a worked script."""

    def test_each_marked_constant_is_its_script(self) -> None:
        scripts = {(script.file, script.name): script for path in transcripts.files() for script in transcripts.scripts_of(path)}
        for where, file, name, lines in transcripts.constants():
            with self.subTest(where):
                script = scripts.get((file, name))
                if script is None:
                    raise Differs(where, f"a script `{name}` in tests/{file}", "none")
                for wanted, came in zip(as_marked(script), constant_lines(lines)):
                    if came is not None:
                        same_lines(script, where, wanted, came)


# ---- that a turned line is seen


@contextlib.contextmanager
def turned(script: Script, mark: str, lines: List[str]) -> Iterator[None]:
    """A script that has other lines behind a mark for a while."""
    kept, script.lines[mark] = script.lines[mark], lines
    try:
        yield
    finally:
        script.lines[mark] = kept


class Turned(unittest.TestCase):
    """A turned line of each kind is seen, of the first script that has one."""

    def setUp(self) -> None:
        self.scripts = [script for folder in ("", CHECKED) for path in transcripts.files(folder) for script in transcripts.scripts_of(path)]

    def test_lines_of_each_mark(self) -> None:
        for mark, is_checked in [*((mark, False) for mark in MARKS[1:3] + MARKS[4:]), ("= ", True)]:
            script = next(script for script in self.scripts if script.lines[mark] and script.is_checked == is_checked)
            lines = script.lines[mark]
            for other in ([*lines[:-1], lines[-1] + "x"], lines[:-1], lines + lines[-1:]):
                with self.subTest(f"{script.name}: `{mark}`"), turned(script, mark, other):
                    # Without its one `! ` line a refused script is still seen: its standard error is another.
                    self.assertRaises((Differs, KeyError), look_at, script)

    def test_lines_of_a_printed_transcript(self) -> None:
        script = next(script for script in self.scripts if has_transcript(script) and not script.is_checked and "--why" not in script.words)
        told = script.told
        for other in ([*told[:-1], told[-1] + "x"], told[1:], told[:1] + told):
            with self.subTest(script.name):
                script.told = other
                self.assertRaises(Differs, look_at, script)


# ---- a test for each script


def test_of(script: Script) -> Any:
    def test(_: unittest.TestCase) -> None:
        look_at(script)

    return test


def name_of(text: str, taken: Dict[str, Any]) -> str:
    """The name of a test that isn't taken, of a text."""
    name = "test_" + re.sub(r"\W+", "_", text).strip("_")
    return name if name not in taken else name_of(text + " again", taken)


def classes() -> Iterator[Tuple[str, type]]:
    """A class of tests for each file, with a test for each script."""
    for folder in ("", CHECKED):
        for path in transcripts.files(folder):
            tests: Dict[str, Any] = {}
            for script in transcripts.scripts_of(path):
                tests[name_of(script.name, tests)] = test_of(script)
            title = (folder + "_" if folder else "") + os.path.basename(path).partition(".")[0]
            yield title, type(title, (unittest.TestCase,), {**tests, "__module__": __name__})


globals().update(dict(classes()))
