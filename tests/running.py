"""A check that runs in a process of its own, and what it has told so far; and how all that a run has started is ended."""

import ctypes
import dataclasses
import json
import os
import signal
import subprocess
import tempfile
import time
from typing import Any, Dict, List, Set

from tests.checks import Check
from tests.program import TOP

WORKER = os.path.join(TOP, "tests/worker.py")
BECOME_SUBREAPER = 36
# Seconds for which what is asked to end has to.
ENDING = 5
# Seconds that a test may take; $PGSERIAL_TEST_LIMIT gives another number.
LIMIT = 900


@dataclasses.dataclass
class Failure:
    """A test that failed: its name here, and what is told of it."""

    test: str
    told: Dict[str, Any]
    is_timed: bool

    def size(self) -> int:
        """How large it is: one that is of no case comes behind those of cases."""
        return int(self.told["size"]) + (0 if self.told["case"] else 1 << 20)

    def alone(self) -> str:
        """The name by which the test is run alone."""
        return self.test.split(" ")[0].rstrip(":")


@dataclasses.dataclass
class Result:
    """What a check has told: of tests that have ended, the cases that passed and failed, and those that were skipped, with reasons."""

    passed: int = 0
    seconds: float = 0.0
    processor: float = 0.0  # the seconds of processors that it and what it has waited for took
    failures: List[Failure] = dataclasses.field(default_factory=list)
    skipped: Dict[str, int] = dataclasses.field(default_factory=dict)

    def skips(self) -> int:
        return sum(self.skipped.values())

    def cases(self) -> int:
        return self.passed + len(self.failures) + self.skips()


class Running:
    """A check as it runs, of which these tests or all are done."""

    def __init__(self, check: Check, tests: List[str], environment: Dict[str, str], folder: str) -> None:
        self.check, self.result, self.test, self.part, self.late = check, Result(), "", b"", ""
        self.begun = self.heard = time.monotonic()
        self.limit = float(environment.get("PGSERIAL_TEST_LIMIT", LIMIT))
        self.log = tempfile.TemporaryFile(dir=folder)
        self.pipe, pipe = os.pipe()
        os.set_blocking(self.pipe, False)
        words = [*check.python, WORKER, check.folder, check.module, str(pipe), *tests]
        self.child = subprocess.Popen(
            words, cwd=check.folder, stdin=subprocess.DEVNULL, stdout=self.log, stderr=self.log, pass_fds=[pipe], env=environment, start_new_session=True)
        os.close(pipe)

    def read(self) -> bool:
        """Takes what it tells: whether more may come."""
        while True:
            try:
                piece = os.read(self.pipe, 65536)
            except BlockingIOError:
                return True
            if not piece:
                self.finish()
                return False
            *lines, self.part = (self.part + piece).split(b"\n")
            for line in lines:
                self.take(json.loads(line))

    def end_late(self) -> None:
        """Ends a test that takes too long, and the check with it."""
        if time.monotonic() - self.heard > self.limit and self.child.poll() is None:
            self.late = f"it hasn't ended in {self.limit:.0f} s"
            os.killpg(self.child.pid, signal.SIGKILL)

    def take(self, told: Dict[str, Any]) -> None:
        """Takes one line."""
        self.heard = time.monotonic()
        if "began" in told:
            self.test = told["began"]
            return
        result, self.test = self.result, ""
        name = self.check.name_of(told["ended"])
        result.failures += [Failure(name, each, told["timed"]) for each in told["failed"]]
        if told["skipped"] is not None:
            result.skipped[told["skipped"]] = result.skipped.get(told["skipped"], 0) + 1
        else:
            result.passed += max(0, told["cases"] - len(told["failed"]))

    def finish(self) -> None:
        """Waits for the process, which has told all."""
        os.close(self.pipe)
        status = self.wait()
        self.result.seconds = time.monotonic() - self.begun
        if status not in (0, 1) or self.test or not self.result.cases():
            self.log.seek(0)
            said = self.log.read().decode("utf-8", "backslashreplace")[-2000:]
            name = self.check.name_of(self.test) if self.test else self.check.name
            why = self.late or f"it ended with {status}"
            self.result.failures.append(Failure(name, {"case": "", "said": f"{why}:\n{said}", "size": 0, "where": ""}, False))
        self.log.close()


    def wait(self) -> int:
        """Waits for the process, and takes notice of what it took: its status."""
        if self.child.returncode is None:
            _, status, used = os.wait4(self.child.pid, 0)
            self.child.returncode = -os.WTERMSIG(status) if os.WIFSIGNALED(status) else os.WEXITSTATUS(status)
            self.result.processor = used.ru_utime + used.ru_stime
        return self.child.returncode


# ---- ending what was started


def adopt() -> None:
    """Has processes that lose their parent become children of this one."""
    ctypes.CDLL(None, use_errno=True).prctl(BECOME_SUBREAPER, 1, 0, 0, 0)


def parents() -> Dict[int, int]:
    """The parent of each process of the machine."""
    known = {}
    for name in os.listdir("/proc"):
        if name.isdigit():
            try:
                with open(f"/proc/{name}/stat", encoding="utf-8", errors="replace") as file:
                    known[int(name)] = int(file.read().rpartition(")")[2].split()[1])
            except (OSError, ValueError, IndexError):
                continue
    return known


def below(process: int) -> List[int]:
    """All processes below one."""
    known, found = parents(), [process]
    for one in found:
        found += [child for child, parent in known.items() if parent == one]
    return found[1:]


def reap(own: Set[int]) -> None:
    """Takes notice of children that have ended and were adopted; not of its own, before which it stops."""
    try:
        while True:
            ended = os.waitid(os.P_ALL, 0, os.WEXITED | os.WNOHANG | os.WNOWAIT)
            if ended is None or ended.si_pid in own:
                return
            os.waitpid(ended.si_pid, os.WNOHANG)
    except ChildProcessError:
        pass


def end_all() -> None:
    """Ends all processes that this one has started, and those that they have: asked first, and then at once."""
    asked: List[int] = []
    until = time.monotonic() + ENDING
    while True:
        reap(set())
        left = below(os.getpid())
        if not left:
            return
        for process in left:
            number = signal.SIGKILL if time.monotonic() > until else signal.SIGTERM if process not in asked else 0
            try:
                os.kill(process, number)
            except ProcessLookupError:
                continue
        asked = left
        time.sleep(0.05)
