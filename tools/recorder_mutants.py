#!/usr/bin/env python3
"""recorder_mutants try [--count N] [--seed S] [--module NAME..] [--dsn DSN]: changes a statement of the recorder's modules at a
time, in a copy of clients/python, and runs the tests that come to its lines, until one fails.

recorder_mutants list: how many there are. recorder_mutants table: writes docs/RECORDER-MUTANTS.md of docs/recorder-mutants.jsonl,
which has a line for each mutant that was tried: its module, the function it stands in, its text before and after, what came of it,
and a note, which is written by hand.

A statement is removed, a condition is turned, or a constant is changed. Texts that only tell something aren't changed. --again
tries those alone that have survived. Which test comes to which lines is found once for a text of the tests, and is kept in out/.
"""

import argparse
import ast
import collections
import hashlib
import io
import itertools
import json
import os
import runpy
import shutil
import signal
import subprocess
import sys
import tempfile
import threading
import time
import unittest
from dataclasses import dataclass
from typing import Any, Callable, Dict, List, Optional, Sequence, Set, Tuple

TOP = os.path.dirname(os.path.dirname(os.path.abspath(__file__)))
FOLDER = os.path.join(TOP, "clients/python")
PAGE = os.path.join(TOP, "docs/RECORDER-MUTANTS.md")
RESULTS = os.path.join(TOP, "docs/recorder-mutants.jsonl")
KEPT = os.path.join(TOP, "out/recorder-tests")
MODULES = (
    "recording", "session", "steps", "connections", "drivers", "effects", "translation", "values", "verdict", "output", "opening", "ending", "catalog",
    "sqlite_catalog", "sent", "keys", "following", "sql", "returning", "shapes", "plans", "proxies", "dangers", "cascades",
)  # fmt: skip
TESTS = (
    "test_translation", "test_recording", "test_recorded_endings", "test_recorded_details", "test_recorded_end", "test_verdict", "test_returning",
    "test_identity", "test_dangers", "test_adapters", "test_recorded_oddities", "test_recorded_closed", "test_places", "test_recorded_values",
    "test_recorded_sqlite", "test_recorded_kinds", "test_asyncio", "test_sqlalchemy", "test_output", "test_in_process", "test_sql_reasons",
    "test_tables", "test_temporary", "test_shapes", "test_postgres_details", "test_frameworks", "test_record",
)  # fmt: skip
MOST_SECONDS = 60.0  # for one test, traced: those that take longer are left out
ENOUGH = 20.0  # seconds of tests for a mutant, the fastest first
PATIENCE = 240  # seconds until a mutant's tests count as never ending
MACHINES = ("sqlite3", "psycopg2")  # on which random recordings come last


_TURNED = {
    ast.Lt: "<=", ast.LtE: "<", ast.Gt: ">=", ast.GtE: ">", ast.Eq: "!=", ast.NotEq: "==", ast.In: "not in", ast.NotIn: "in", ast.Is: "is not",
    ast.IsNot: "is",
}  # fmt: skip


@dataclass(frozen=True)
class Mutant:
    """A changed text of a module: from which place to which other, and what stands there then."""

    module: str
    function: str
    kind: str
    start: int
    end: int
    line: int
    before: str
    after: str

    @property
    def name(self) -> str:
        """Its name, which stays where other lines change."""
        return f"{self.module}.{self.function}: {self.kind}: {_short(self.before)}" + (f" -> {_short(self.after)}" if self.kind != "removed" else "")

    def told(self) -> Dict[str, Any]:
        """What is kept of it."""
        after = "" if self.kind == "removed" else _short(self.after)
        return {"module": self.module, "in": self.function, "kind": self.kind, "text": _short(self.before), "after": after}

    def text(self, source: str) -> str:
        """The module with it."""
        return source[: self.start] + self.after + source[self.end :]


def _short(text: str) -> str:
    line = " ".join(text.split())
    return line if len(line) <= 90 else line[:87] + "..."


# ---- which there are


class Finder(ast.NodeVisitor):
    """Finds the mutants of a module."""

    def __init__(self, module: str, source: str) -> None:
        self.module, self.source = module, source
        self.found: List[Mutant] = []
        self._names: List[str] = []
        lines = source.split("\n")
        self._starts = [0]
        for line in lines:
            self._starts.append(self._starts[-1] + len(line) + 1)
        self._encoded = [line.encode("utf-8") for line in lines]

    def _place(self, line: int, column: int) -> int:
        return self._starts[line - 1] + len(self._encoded[line - 1][:column].decode("utf-8"))

    def _add(self, node: Any, kind: str, after: str) -> None:
        start, end = self._place(node.lineno, node.col_offset), self._place(node.end_lineno, node.end_col_offset)
        before = self.source[start:end]
        if self._names and before != after:
            self.found.append(Mutant(self.module, ".".join(self._names), kind, start, end, node.lineno, before, after))

    def _inside(self, node: Any) -> None:
        self._names.append(node.name)
        for child in node.body:
            self.visit(child)
        self._names.pop()

    visit_FunctionDef = visit_ClassDef = _inside

    def visit_Expr(self, node: ast.Expr) -> None:
        if not isinstance(node.value, ast.Constant):
            self._add(node, "removed", "pass")
            self.generic_visit(node)

    def visit_Assign(self, node: ast.Assign) -> None:
        if any(isinstance(target, (ast.Attribute, ast.Subscript)) for target in node.targets):
            self._add(node, "removed", "pass")
        self.generic_visit(node)

    def visit_AugAssign(self, node: ast.AugAssign) -> None:
        self._add(node, "removed", "pass")
        self.generic_visit(node)

    def visit_Raise(self, node: ast.Raise) -> None:
        self._add(node, "removed", "pass")

    def visit_Return(self, node: ast.Return) -> None:
        if node.value is None:
            self._add(node, "removed", "pass")
        self.generic_visit(node)

    def _turn(self, test: Any) -> None:
        if isinstance(test, ast.UnaryOp) and isinstance(test.op, ast.Not):
            self._add(test, "turned", ast.get_source_segment(self.source, test.operand) or "")
        elif isinstance(test, ast.Compare) and len(test.ops) == 1:
            left, right = (ast.get_source_segment(self.source, each) for each in (test.left, test.comparators[0]))
            self._add(test, "turned", f"{left} {_TURNED[type(test.ops[0])]} {right}")
        else:
            self._add(test, "turned", f"(not ({ast.get_source_segment(self.source, test)}))")

    def visit_If(self, node: ast.If) -> None:
        self._turn(node.test)
        self.generic_visit(node)

    def visit_While(self, node: ast.While) -> None:
        self.generic_visit(node)

    def visit_IfExp(self, node: ast.IfExp) -> None:
        self._turn(node.test)
        self.generic_visit(node)

    def visit_BoolOp(self, node: ast.BoolOp) -> None:
        for value in node.values:
            self._add(value, "constant", "True" if isinstance(node.op, ast.And) else "False")
        self.generic_visit(node)

    def visit_comprehension(self, node: ast.comprehension) -> None:
        for test in node.ifs:
            self._add(test, "constant", "True")
        self.generic_visit(node)

    def visit_Constant(self, node: ast.Constant) -> None:
        if isinstance(node.value, bool):
            self._add(node, "constant", str(not node.value))
        elif isinstance(node.value, int):
            self._add(node, "constant", str(node.value + 1))

    def visit_JoinedStr(self, node: ast.JoinedStr) -> None:
        """What is only told isn't looked into."""

    def visit_Assert(self, node: ast.Assert) -> None:
        """What only tells types isn't either."""


def source_of(module: str) -> str:
    with open(os.path.join(FOLDER, "pgserial", module + ".py"), encoding="utf-8") as file:
        return file.read()


def mutants(modules: Sequence[str]) -> List[Mutant]:
    """All mutants of some modules, each of another name."""
    found: Dict[str, Mutant] = {}
    for module in modules:
        source = source_of(module)
        finder = Finder(module, source)
        finder.visit(ast.parse(source))
        for mutant in finder.found:
            found.setdefault(mutant.name, mutant)
    return list(found.values())


def drawn(all_of_them: Sequence[Mutant], count: int, seed: int) -> List[Mutant]:
    """So many of them, by a seed; more of a module come later where the seed is the same."""
    return sorted(all_of_them, key=lambda each: hashlib.sha256(f"{seed} {each.name}".encode("utf-8")).digest())[:count]


# ---- the tests, and the lines that they come to


class Traced(unittest.TestResult):
    """Keeps the lines of the package to which each test comes, and its seconds; nothing of one that fails."""

    def __init__(self) -> None:
        super().__init__()
        self.found: Dict[str, Any] = {}
        self._seen: Set[Tuple[str, int]] = set()
        self._begun, self._failed = 0.0, 0

    def call(self, frame: Any, event: str, word: Any) -> Any:
        file = frame.f_code.co_filename
        if os.path.basename(os.path.dirname(file)) != "pgserial":
            return None
        name, seen = os.path.basename(file)[:-3], self._seen

        def line(frame: Any, event: str, word: Any) -> Any:
            seen.add((name, frame.f_lineno))
            return line

        return line(frame, event, word)

    def startTest(self, test: unittest.TestCase) -> None:
        super().startTest(test)
        self._seen = set()
        self._begun, self._failed = time.monotonic(), len(self.failures) + len(self.errors) + len(self.skipped)

    def stopTest(self, test: unittest.TestCase) -> None:
        super().stopTest(test)
        if len(self.failures) + len(self.errors) + len(self.skipped) == self._failed:
            self.found[test.id()] = [round(time.monotonic() - self._begun, 3), sorted(self._seen)]


def _traced(module: str, path: str) -> None:
    """Runs the tests of a module, and writes what they come to."""
    result = Traced()
    threading.settrace(result.call)
    tests = unittest.defaultTestLoader.loadTestsFromName(module)
    sys.settrace(result.call)
    try:
        tests.run(result)
    finally:
        sys.settrace(None)
    with open(path, "w", encoding="utf-8") as file:
        json.dump(result.found, file)


def _checksum(*paths: str) -> str:
    """Of the text of the package, and of some files."""
    told = hashlib.sha256()
    package = os.path.join(FOLDER, "pgserial")
    for path in [*(os.path.join(package, name) for name in sorted(os.listdir(package)) if name.endswith(".py")), *paths]:
        with open(path, "rb") as file:
            told.update(file.read())
    return told.hexdigest()[:16]


# ---- trying


def forked(call: Callable[[], Any], folder: str, environment: Dict[str, str], seconds: float) -> Optional[int]:
    """The status of a child that does a call in a folder; None where it doesn't end in time. What it has started ends with it."""
    child = os.fork()
    if child == 0:
        status = 70
        try:
            os.setpgid(0, 0)
            os.chdir(folder)
            os.environ.update(environment)
            sys.path[0] = folder
            nothing = os.open(os.devnull, os.O_RDWR)
            for number in (0, 1, 2):
                os.dup2(nothing, number)
            status = int(call() or 0)
        except SystemExit as end:
            status = int(end.code or 0)
        finally:
            os._exit(status)
    until = time.monotonic() + seconds
    try:
        while time.monotonic() < until:
            ended, status = os.waitpid(child, os.WNOHANG)
            if ended:
                return os.waitstatus_to_exitcode(status)
            time.sleep(0.01)
        return None
    finally:
        try:
            os.killpg(child, signal.SIGKILL)
            os.waitpid(child, 0)
        except (ProcessLookupError, ChildProcessError):
            pass


def _first_failure(names: Sequence[str], path: str) -> int:
    """Runs tests until one fails, whose name it writes."""
    result = unittest.TestResult()
    result.failfast = True
    result.buffer = False
    sys.stdout = sys.stderr = io.StringIO()
    for name in names:
        with open(path, "w", encoding="utf-8") as file:
            file.write(name)
        unittest.defaultTestLoader.loadTestsFromName(name).run(result)
        if not result.wasSuccessful():
            return 1
    return 0


def _machine(engine: str) -> int:
    """Makes some recordings at random."""
    sys.argv = ["random_recordings.py", "--seed", "1", "--count", "30", "--most", "1", "--engine", engine]
    runpy.run_path("random_recordings.py", run_name="__main__")
    return 0


class Copy:
    """A copy of the client, in which one module is changed at a time."""

    def __init__(self, folder: str, dsn: str, plays: bool, first: Sequence[str], modules: Sequence[str]) -> None:
        self.folder = os.path.join(folder, "clients/python")
        shutil.copytree(FOLDER, self.folder, ignore=shutil.ignore_patterns("__pycache__"))
        compileall = [sys.executable, "-m", "compileall", "-q", "--invalidation-mode", "checked-hash", self.folder]
        subprocess.run(compileall, check=True)  # so that a changed module alone is compiled
        for other in ("examples", "docs", "tests"):
            os.symlink(os.path.join(TOP, other), os.path.join(folder, other))
        self._environment = {"PGSERIAL_DSN": dsn, "TMPDIR": folder, "PYTHONPATH": self.folder, "PYTHONWARNINGS": "ignore"}
        self._dsn, self._plays, self._first, self._modules, self._told = dsn, plays, first, modules, os.path.join(folder, "told")
        self._tests: Dict[str, Tuple[float, Set[Tuple[str, int]]]] = {}
        self._sources = {module: source_of(module) for module in MODULES}

    def maps(self) -> None:
        """Finds which test comes to which lines."""
        os.makedirs(KEPT, exist_ok=True)
        for module in self._modules:
            text = os.path.join(FOLDER, module + ".py")
            if not os.path.exists(text):
                continue
            kept = os.path.join(KEPT, f"{module}-{_checksum(text)}-{'server' if self._dsn else 'none'}")
            if not os.path.exists(kept):
                forked(lambda: _traced(module, kept), self.folder, self._environment, 1200)  # noqa: B023
            with open(kept, encoding="utf-8") as file:
                found = json.load(file)
            print(f"{module}: {len(found)} tests in {sum(seconds for seconds, _ in found.values()):.1f} s", flush=True)
            self._tests.update({name: (seconds, {tuple(each) for each in lines}) for name, (seconds, lines) in found.items()})

    def tests_of(self, mutant: "Mutant") -> List[str]:
        """The tests that come to its lines, the fastest first."""
        lines = {(mutant.module, mutant.line + at) for at in range(mutant.before.count("\n") + 1)}
        found = [(name, seconds) for name, (seconds, seen) in self._tests.items() if not lines.isdisjoint(seen) and seconds < MOST_SECONDS]
        found = found or [(name, seconds) for name, (seconds, _) in self._tests.items()]  # of a class, whose lines are run once
        found.sort(key=lambda each: (each[0].partition(".")[0] not in self._first, each[1]))
        so_far = itertools.accumulate(seconds for _, seconds in found)
        return [name for total, (name, seconds) in zip(so_far, found) if total - seconds < ENOUGH]

    def killer(self, mutant: "Mutant") -> Optional[str]:
        """The test that fails with a mutant; None where all pass."""
        path = os.path.join(self.folder, "pgserial", mutant.module + ".py")
        with open(path, "w", encoding="utf-8") as file:
            file.write(mutant.text(self._sources[mutant.module]))
        try:
            names = self.tests_of(mutant)
            if names and forked(lambda: _first_failure(names, self._told), self.folder, self._environment, PATIENCE) != 0:
                with open(self._told, encoding="utf-8") as file:
                    return file.read()
            engines = MACHINES[: 2 if self._dsn else 1] if names and self._plays and mutant.module != "verdict" else ()
            for engine in engines:
                if forked(lambda: _machine(engine), self.folder, self._environment, PATIENCE) != 0:  # noqa: B023
                    return f"random recordings on {engine}"
            return None
        finally:
            with open(path, "w", encoding="utf-8") as file:
                file.write(self._sources[mutant.module])


def results() -> Dict[str, Dict[str, Any]]:
    """What was tried, by the mutants' names."""
    if not os.path.exists(RESULTS):
        return {}
    with open(RESULTS, encoding="utf-8") as file:
        return {name_of(told): told for told in map(json.loads, file)}


def name_of(told: Dict[str, Any]) -> str:
    """The name of a mutant that was tried."""
    return f"{told['module']}.{told['in']}: {told['kind']}: {told['text']}" + (f" -> {told['after']}" if told["after"] else "")


def keep(tried: Dict[str, Dict[str, Any]]) -> None:
    """Writes what was tried."""
    with open(RESULTS, "w", encoding="utf-8") as file:
        for name in sorted(tried):
            file.write(json.dumps(tried[name], ensure_ascii=False) + "\n")


def tries(given: argparse.Namespace) -> int:
    """Tries mutants, and keeps what came of each."""
    all_of_them = mutants(given.module or MODULES)
    known = results()
    if given.again:
        chosen = [mutant for mutant in all_of_them if mutant.name in known and not known[mutant.name]["seen by"]]
    else:
        chosen = [mutant for mutant in drawn(all_of_them, given.count, given.seed) if mutant.name not in known]
    for name in ("sqlite3", "psycopg2", "psycopg", "ctypes", "asyncio", "decimal", "sqlalchemy"):
        try:
            __import__(name)  # once, for all children
        except ImportError:
            pass
    with tempfile.TemporaryDirectory(dir="/dev/shm" if os.path.isdir("/dev/shm") else None) as folder:
        copy = Copy(folder, given.dsn, given.machine, given.first, given.tests)
        copy.maps()
        for at, mutant in enumerate(chosen, 1):
            begun = time.monotonic()
            killer = copy.killer(mutant)
            tried = results()
            note = tried.get(mutant.name, {}).get("note", "")
            tried[mutant.name] = {**mutant.told(), "seen by": killer or "", "note": "" if killer else note}
            keep(tried)
            print(f"{at} of {len(chosen)}, {time.monotonic() - begun:.1f} s: {'survives' if killer is None else killer}: {mutant.name}", flush=True)
    return 0


# ---- the page

_HEAD = """# Mutants of the recorder

`tools/recorder_mutants.py try` changes one statement of the recorder's modules, in a copy. It removes it, turns a condition, or changes a constant. Then the tests that come to its lines run until one fails, the fastest first, and recordings at random last. With `--dsn` tests on PostgreSQL run too. A seed draws which mutants are tried.

`recorder-mutants.jsonl` has what came of each, with a note where one survives. `tools/recorder_mutants.py table` writes this page of it.
"""


def _cell(name: str) -> str:
    return name.replace("|", "\\|").replace("`", "'")


def page() -> str:
    """The page."""
    by_module: Dict[str, List[Dict[str, Any]]] = collections.defaultdict(list)
    for told in results().values():
        by_module[told["module"]].append(told)
    lines = [_HEAD, "| Module | Tried | Seen by a test | Survive |", "|---|---|---|---|"]
    totals = [0, 0, 0]
    for module in sorted(by_module):
        some = by_module[module]
        counts = [len(some), sum(bool(told["seen by"]) for told in some), sum(not told["seen by"] for told in some)]
        totals = [total + count for total, count in zip(totals, counts)]
        lines.append(f"| {module} | " + " | ".join(map(str, counts)) + " |")
    lines += ["| all | " + " | ".join(map(str, totals)) + " |", ""]
    survivors = sorted((name, told["note"]) for name, told in results().items() if not told["seen by"])
    if survivors:
        lines += ["## Those that survive", "", "| Mutant | Why |", "|---|---|"]
        lines += [f"| `{_cell(name)}` | {note} |" for name, note in survivors]
    return "\n".join(lines) + "\n"


def table() -> int:
    """Writes the page."""
    with open(PAGE, "w", encoding="utf-8") as file:
        file.write(page())
    without = [name for name, told in results().items() if not told["seen by"] and not told["note"]]
    print(f"{len(results())} tried; {len(without)} survive without a note")
    return 0


def main() -> int:
    words = argparse.ArgumentParser(description=__doc__, formatter_class=argparse.RawDescriptionHelpFormatter)
    words.add_argument("does", choices=("try", "list", "table"))
    words.add_argument("--count", type=int, default=500)
    words.add_argument("--seed", type=int, default=1)
    words.add_argument("--module", nargs="*")
    words.add_argument("--dsn", default="", help="a database of PostgreSQL that the tests may change")
    words.add_argument("--again", action="store_true", help="those alone that have survived")
    words.add_argument("--tests", nargs="*", default=TESTS, help="modules of tests that run")
    words.add_argument("--first", nargs="*", default=(), help="modules of tests that run before others")
    words.add_argument("--machine", action="store_true", help="recordings at random too, where all tests pass")
    given = words.parse_args()
    if given.does == "try":
        return tries(given)
    if given.does == "table":
        return table()
    for module in given.module or MODULES:
        print(f"{len(mutants([module])):5} {module}")
    return 0


if __name__ == "__main__":
    sys.exit(main())
