"""Which checks there are: the modules of tests, and of the client in Python, found by their names; and how many cases each has.

cases.txt has a line for each check: its name, the cases that it had, and the seconds that it took. A check may have more cases
than stand there, and never fewer.
"""

import dataclasses
import glob
import os
import re
import subprocess
import sys
from typing import Dict, List, Tuple

from tests import postgres
from tests.program import TOP

TABLE = os.path.join(TOP, "tests/cases.txt")
CLIENT = os.path.join(TOP, "clients/python")
# What is said of a check that isn't in the table: it is taken to last so long.
UNKNOWN_SECONDS = 10.0
# The checks that need no program of the sources, so that they run while it is compiled.
WITHOUT_PROGRAM = ("starts", "preflight", "runner", "mutants")
# The checks that mostly wait, so that others run beside them.
WAITING = ("starts",)
DRIVERS = ("psycopg2", "psycopg", "asyncpg", "pg8000", "sqlalchemy", "django", "pytest", "hypothesis", "peewee")


@dataclasses.dataclass
class Check:
    """Tests of one module: its name here, the module's, the folder from which Python finds it, and which Python runs it."""

    name: str
    module: str
    folder: str
    python: Tuple[str, ...]
    least: int = 0
    seconds: float = UNKNOWN_SECONDS

    def needs_program(self) -> bool:
        return self.name not in WITHOUT_PROGRAM

    def is_busy(self) -> bool:
        return self.name not in WAITING

    def needs_server(self) -> bool:
        """Whether its tests speak of PostgreSQL."""
        path = os.path.join(self.folder, *self.module.split(".")) + ".py"
        with open(path, encoding="utf-8") as file:
            return re.search(r"DSN|postgres\.|OnPostgres|\bdrivers\(", file.read()) is not None

    def name_of(self, test: str) -> str:
        """A test's name here, of unittest's."""
        return test.replace(self.module, self.name, 1) if test.startswith(self.module) else f"{self.name}: {test}"


def python_with_drivers() -> Tuple[str, bool]:
    """The Python that has most drivers of PostgreSQL and frameworks, of this one and Debian's; and whether it has all."""
    asked = f"import importlib.util; print(sum(importlib.util.find_spec(name) is not None for name in {DRIVERS}))"
    found = []
    for python in dict.fromkeys((sys.executable, "/usr/bin/python3")):
        try:
            done = subprocess.run([python, "-c", asked], stdout=subprocess.PIPE, text=True, check=True, timeout=60)
            found.append((int(done.stdout), python))
        except (OSError, subprocess.SubprocessError):
            continue
    number, python = max(found, key=lambda each: each[0])
    return python, number == len(DRIVERS)


def table() -> Dict[str, Tuple[int, float]]:
    """Of each check in the table, how many cases it has at least, and how many seconds it takes."""
    known = {}
    with open(TABLE, encoding="utf-8") as file:
        for number, line in enumerate(file, 1):
            words = line.split()
            if words and not line.startswith("#"):
                if len(words) != 3 or not words[1].isdigit():
                    sys.exit(f"test: tests/cases.txt:{number}: a line is a check, its cases and its seconds")
                known[words[0]] = int(words[1]), float(words[2])
    return known


def found() -> List[Check]:
    """All checks, in the order of their names; those of the client behind the others."""
    checks = []
    for path in sorted(glob.glob(os.path.join(TOP, "tests/test_*.py"))):
        name = os.path.basename(path)[len("test_") : -len(".py")]
        checks.append(Check(name, f"tests.test_{name}", TOP, (sys.executable, "-B")))
    path, has_all = python_with_drivers()
    python = (path, "-B", "-W", "error::ResourceWarning")
    for path in sorted(glob.glob(os.path.join(CLIENT, "test_*.py"))):
        name = os.path.basename(path)[len("test_") : -len(".py")]
        checks.append(Check(f"python/{name}", f"test_{name}", CLIENT, python))
    known = table()
    has_all = has_all and postgres.programs() is not None
    for check in checks:
        check.least, check.seconds = known.get(check.name, (0, UNKNOWN_SECONDS))
        if check.folder == CLIENT and not has_all:
            # Its cases are those of the drivers that are there.
            check.least = 0
    return checks


def lost(checks: List[Check]) -> List[str]:
    """The checks of the table that aren't there any more."""
    return sorted(set(table()) - {check.name for check in checks})


def write_table(counted: Dict[str, Tuple[int, float]]) -> None:
    """Writes what a run has counted; of other checks what stands there."""
    with open(TABLE, encoding="utf-8") as file:
        head = [line for line in file if line.startswith("#")]
    known = {**table(), **counted}
    with open(TABLE, "w", encoding="utf-8") as file:
        file.writelines(head)
        file.writelines(f"{name} {least} {seconds:.1f}\n" for name, (least, seconds) in sorted(known.items()))
