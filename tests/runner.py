"""./pgserial test [NAME..]: runs the tests of the program of these sources, without a proof.

NAME is that of a check, as `shell`, or of tests of it, as `shell.Terminal` or `shell.Terminal.test_why`; without one all are run.
"""

import argparse
import contextlib
import os
import select
import shutil
import signal
import subprocess
import sys
import tempfile
import time
from typing import Any, Dict, List, Optional, Tuple

from tests import checks, postgres, preflight, program, running
from tests.checks import Check
from tests.running import Failure, Running

TELL = 0.2  # seconds between two counters
FEW = 5  # tests of a check that are told of which failed
LONG = 600  # characters that are told of what was wanted, and of what came


class Shown:
    """What is shown: a line for each check as it ends, and a counter where standard output is a terminal."""

    def __init__(self, of: int) -> None:
        self.of, self.ended, self.begun = of, 0, time.monotonic()
        self.is_terminal = sys.stdout.isatty()
        self.at = 0.0

    def line(self, text: str) -> None:
        print(("\r\x1b[K" if self.is_terminal else "") + text, flush=True)
        self.at = 0.0

    def counter(self, live: List[Running], also: str = "") -> None:
        """How far it is."""
        if not self.is_terminal or time.monotonic() - self.at < TELL:
            return
        self.at = time.monotonic()
        failed = sum(len(each.result.failures) for each in live)
        now = [f"{each.check.name} {each.result.cases()}" for each in live]
        text = f"{self.ended} of {self.of} checks, {time.monotonic() - self.begun:.0f} s; now {', '.join([*now, *([also] if also else [])])}"
        text += f"; {failed} failed" if failed else ""
        print("\r\x1b[K" + text[: shutil.get_terminal_size().columns - 1], end="", flush=True)


def cut(text: str) -> str:
    """A text that isn't too long to be looked at."""
    return text if len(text) <= LONG else f"{text[:LONG]}.. ({len(text)} characters)"


def explained(failure: Failure) -> List[str]:
    """What is told of a test that failed."""
    told = failure.told
    lines = [f"  {failure.test}" + (f": {cut(told['case'])}" if told["case"] else "") + (f" ({told['where']})" if told["where"] else "")]
    if "wanted" in told:
        lines += [f"    wanted: {cut(told['wanted'])}", f"    came:   {cut(told['came'])}"]
    else:
        lines += ["    " + line for line in cut(told["said"]).splitlines()]
    return [*lines, f"    alone:  ./pgserial test {failure.alone()}"]


class Run:
    """A run of checks: what has passed, failed and been skipped."""

    def __init__(self, asked: argparse.Namespace, chosen: List[Tuple[Check, List[str]]], folder: str) -> None:
        self.asked, self.chosen, self.folder = asked, chosen, folder
        self.shown = Shown(len(chosen))
        self.passed = self.failed = self.skipped = 0
        self.again: List[Tuple[Check, Failure]] = []
        self.counted: Dict[str, Tuple[int, float]] = {}
        self.server: Optional[postgres.Server] = None
        self.environment = {**os.environ, "TMPDIR": folder, "PGSERIAL_TEST_JOBS": str(max(1, asked.jobs // 2))}
        self.environment.pop("PGSERIAL_DSN", None)

    def start_server(self) -> None:
        """Starts PostgreSQL, where it is there and one of the checks may use it."""
        where = postgres.programs()
        if where is None or not any(check.needs_server() for check, _ in self.chosen):
            return
        inner = os.path.join(self.folder, "server")
        os.mkdir(inner, 0o755)
        try:
            self.server = postgres.Server(where, inner).__enter__()
        except subprocess.SubprocessError as error:
            sys.exit(f"test: PostgreSQL is there and doesn't start: {getattr(error, 'stderr', '') or error}")

    def start(self, check: Check, tests: List[str]) -> Running:
        """Starts a check, with a database of its own where there is PostgreSQL."""
        environment = dict(self.environment)
        if self.server and check.needs_server():
            environment["PGSERIAL_DSN"] = self.server.database(f"{check.name.replace('/', '_')}_{time.monotonic_ns()}")
        return Running(check, tests, environment, self.folder)

    def together(self) -> None:
        """Runs all checks, so many side by side, the longest first; and while the program is compiled those that need none."""
        waiting = sorted(self.chosen, key=lambda each: -each[0].seconds)
        live: List[Running] = []
        compiling = self.compile()
        while waiting or live:
            if compiling and compiling.poll() is not None:
                self.take_program(compiling)
                compiling = None
            for each in self.startable(waiting, live, compiling is not None):
                waiting.remove(each)
                live.append(self.start(*each))
            select.select([each.pipe for each in live], [], [], TELL)
            for run in list(live):
                run.end_late()
                if not run.read():
                    live.remove(run)
                    self.ended(run)
            self.shown.counter(live, "compiling" if compiling else "")
            running.reap({each.child.pid for each in live} | ({compiling.pid} if compiling else set()))

    def startable(self, waiting: List[Tuple[Check, List[str]]], live: List[Running], compiles: bool) -> List[Tuple[Check, List[str]]]:
        """Those that can start now: as many side by side as was asked for, a compilation among them; those that mostly wait don't count."""
        able = [each for each in waiting if not compiles or not each[0].needs_program()]
        room = max(0, self.asked.jobs - compiles - sum(each.check.is_busy() for each in live))
        return [each for each in able if not each[0].is_busy()] + [each for each in able if each[0].is_busy()][:room]

    def compile(self) -> "Optional[subprocess.Popen[str]]":
        """Starts to compile the program where it isn't there; nothing where it is, or nothing needs it."""
        if not any(check.needs_program() for check, _ in self.chosen):
            return None
        path, told = self.asked.program, "given"
        if not path:
            told, path = program.chosen()
        if self.asked.unproved and told == "proved":
            return self.quick()
        if self.asked.proved and told != "proved":
            sys.exit("test: no proved program of these sources is there: ./pgserial build, or rt ci, makes one")
        if os.access(path, os.X_OK):
            self.name_program(path, told)
            return None
        return self.quick()

    def quick(self) -> "subprocess.Popen[str]":
        """What compiles the program without proof, and prints its path."""
        return subprocess.Popen([os.path.join(program.TOOLS, "quick.py")], stdout=subprocess.PIPE, text=True)

    def take_program(self, compiling: "subprocess.Popen[str]") -> None:
        path = compiling.communicate()[0].strip()
        if compiling.returncode:
            sys.exit("test: the program isn't compiled, so it isn't tested")
        self.name_program(path, "unproved")

    def name_program(self, path: str, told: str) -> None:
        self.environment["PGSERIAL"] = os.path.abspath(path)
        self.shown.line(f"the program: {path} ({told})")

    def ended(self, run: Running) -> None:
        """A check has ended."""
        check, result = run.check, run.result
        self.shown.ended += 1
        whole = not any(tests for each, tests in self.chosen if each is check)
        late = self.tried_again(check, result.failures)
        failures = [failure for failure in result.failures if failure not in late]
        if whole and not result.skipped and result.cases() < check.least:
            said = f"{result.cases()} cases, where tests/cases.txt has {check.least}"
            failures.append(Failure(check.name, {"case": "", "said": said, "size": sys.maxsize, "where": ""}, False))
        if whole and not result.skipped:
            self.counted[check.name] = (result.cases(), result.seconds)
        self.passed, self.failed, self.skipped = self.passed + result.passed, self.failed + len(failures), self.skipped + result.skips()
        mark = "FAILED" if failures else "again " if late else "ok    "
        self.shown.line(f"{mark} {check.name:28}{result.cases():6} cases {result.seconds:7.1f} s, {result.processor:.1f} s of processors" + (f", {result.skips()} skipped" if result.skipped else ""))
        self.explain(failures)
        for reason, count in result.skipped.items():
            self.shown.line(f"  skipped: {count} of {check.name}: {reason}")

    def tried_again(self, check: Check, failures: List[Failure]) -> List[Failure]:
        """Those of the failures whose tests are run again alone: tests of times, and all others where that was asked for and they are few."""
        tests: Dict[str, List[Failure]] = {}
        for failure in sorted(failures, key=Failure.size):
            tests.setdefault(failure.alone(), []).append(failure)
        tests.pop(check.name, None)
        any_test = self.asked.again and len(tests) <= FEW
        chosen = [each for each in tests.values() if any_test or all(failure.is_timed for failure in each)]
        self.again += [(check, each[0]) for each in chosen]
        return [failure for each in chosen for failure in each]

    def explain(self, failures: List[Failure]) -> None:
        """Tells of the smallest case of each test that failed, of a few, and which others there are."""
        smallest: Dict[str, Failure] = {}
        for failure in sorted(failures, key=Failure.size):
            smallest.setdefault(failure.test, failure)
        for test, failure in list(smallest.items())[:FEW]:
            for line in explained(failure):
                self.shown.line(line)
            others = sum(other.test == test for other in failures) - 1
            if others:
                self.shown.line(f"    and {others} larger cases of this test")
        if len(smallest) > FEW:
            self.shown.line(f"  and {len(smallest) - FEW} more tests: {', '.join(list(smallest)[FEW:])}")

    def alone(self) -> None:
        """Runs tests again that have failed beside others, one by one."""
        for check, before in self.again:
            test = before.alone()[len(check.name) + 1 :]
            once_more = self.start(check, [test])
            while once_more.read():
                select.select([once_more.pipe], [], [], TELL)
                self.shown.counter([once_more])
            after = once_more.result.failures
            self.passed, self.failed = self.passed + (not after), self.failed + bool(after)
            self.shown.line(f"{'FAILED' if after else 'ok    '} {before.test}, which failed beside others, {'fails' if after else 'passes'} alone")
            self.shown.line("  beside others:")
            self.explain([before])
            if after:
                self.shown.line("  alone:")
                self.explain(after)

    def status(self) -> int:
        """The last line, and the status."""
        self.shown.line(f"{self.passed} passed, {self.failed} failed, {self.skipped} skipped")
        return 1 if self.failed else 0


def choose(names: List[str], found: List[Check]) -> List[Tuple[Check, List[str]]]:
    """The checks of these names, and which tests of each are run: all where there is none."""
    if not names:
        return [(check, []) for check in found]
    chosen: Dict[str, Tuple[Check, List[str]]] = {}
    for name in names:
        head, _, test = name.partition(".")
        check = next((each for each in found if each.name == head), None)
        if check is None:
            sys.exit(f"test: no check is named {head}: {', '.join(each.name for each in found)}")
        tests = chosen.setdefault(head, (check, []))[1]
        tests += [test] if test else []
    return list(chosen.values())


def words(given: List[str]) -> argparse.Namespace:
    """What was asked for."""
    parser = argparse.ArgumentParser(prog="./pgserial test", description=__doc__, formatter_class=argparse.RawDescriptionHelpFormatter)
    parser.add_argument("names", nargs="*", metavar="NAME", help="a check, or tests of it; --list has their names")
    parser.add_argument("--jobs", type=int, default=len(os.sched_getaffinity(0)), metavar="N", help="how many checks run side by side; as many as there are processors where it isn't given")
    parser.add_argument("--proved", action="store_true", help="by the proved program, and by no other")
    parser.add_argument("--unproved", action="store_true", help="by a program that is compiled without proof, even where the proved one is there")
    parser.add_argument("--program", metavar="FILE", help="by this program")
    parser.add_argument("--list", action="store_true", help="lists the checks, with the cases and the seconds of each")
    parser.add_argument("--preflight", action="store_true", help="looks for what the gate refuses before it proves anything, in less than a minute: disk, memory, layout, files, names, documents")
    parser.add_argument("--again", action="store_true", help="run a test that fails once more, alone, as tests of times are, where a check has only a few of them; both runs are told, and the second one counts")
    parser.add_argument("--count", action="store_true", help="writes into tests/cases.txt how many cases each check has")
    asked = parser.parse_args(given)
    if sum(map(bool, (asked.proved, asked.unproved, asked.program))) > 1:
        parser.error("of --proved, --unproved and --program one may be given")
    if asked.jobs < 1:
        parser.error("--jobs N: N is 1 or more")
    return asked


def interrupted(number: int, _: Any) -> None:
    sys.exit(128 + number)


def run_all(asked: argparse.Namespace, chosen: List[Tuple[Check, List[str]]]) -> int:
    """Runs checks; nothing that was started is left at the end."""
    for number in (signal.SIGINT, signal.SIGTERM, signal.SIGHUP):
        signal.signal(number, interrupted)
    running.adopt()
    folder = tempfile.mkdtemp(prefix="pgserial-test-")
    os.chmod(folder, 0o1777)
    run = Run(asked, chosen, folder)
    try:
        run.start_server()
        run.together()
        run.alone()
        if asked.count:
            checks.write_table(run.counted)
        return run.status()
    finally:
        for number in (signal.SIGINT, signal.SIGTERM, signal.SIGHUP):
            signal.signal(number, signal.SIG_IGN)
        with contextlib.suppress(OSError, subprocess.SubprocessError):
            if run.server:
                run.server.__exit__()
        running.end_all()
        shutil.rmtree(folder, ignore_errors=True)


def main(given: List[str]) -> int:
    asked = words(given)
    if asked.preflight:
        return preflight.main()
    found = checks.found()
    gone = checks.lost(found)
    if gone:
        print(f"test: tests/cases.txt has checks that aren't there: {', '.join(gone)}", file=sys.stderr)
        return 1
    if asked.list:
        for check in found:
            print(f"{check.name:28}{check.least:6} cases {check.seconds:7.1f} s")
        return 0
    return run_all(asked, choose(asked.names, found))
