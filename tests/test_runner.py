"""How `./pgserial test` runs checks: in a small repository, whose checks are as each case needs them."""

import ast
import glob
import os
import pty
import re
import select
import shutil
import signal
import subprocess
import sys
import tempfile
import time
import unittest
import unittest.mock
from typing import List, Tuple

from tests.program import TOP

PATIENCE = 60
OWN = ("__init__", "__main__", "checks", "postgres", "preflight", "program", "runner", "running", "worker")
GOOD = """
import unittest


class Good(unittest.TestCase):
    def test_one(self):
        pass

    def test_many(self):
        for number in range(5):
            with self.subTest(number):
                pass
"""
BAD = """
import unittest
from tests.program import Case


class Bad(Case):
    def test_large(self):
        self.same("a long case " * 9, "w" * 1000, "c" * 1000)

    def test_small(self):
        self.same("small", "this", "that")
        self.same("smaller", "this", "this")
        self.same("tiny", 1, 2)
"""
LACKING = """
import unittest


@unittest.skipIf(True, "nothing is there (Debian: everything)")
class Lacking(unittest.TestCase):
    def test_one(self):
        self.fail()
"""
TIMED = """
import os
import unittest
from tests.program import timed


class Timed(unittest.TestCase):
    @timed
    def test_slow(self):
        with open("seen", "a") as file:
            file.write("x")
        self.assertGreaterEqual(os.path.getsize("seen"), {times})
"""
WAVERS = TIMED.replace("    @timed\n", "")
BROKEN = "import nothing_of_this_name\n"
DIES = """
import os
import unittest


class Dies(unittest.TestCase):
    def test_that_ends_it(self):
        os.write(2, b"what it says last")
        os._exit(7)
"""
# The cases of a generator's, of which the second fails; and a loop that ends in one though nothing has failed.
GIVEN = """
import unittest


class Given(unittest.TestCase):
    def each(self):
        for name in ("first", "second", "third"):
            with self.subTest(name):
                yield name

    def test_given(self):
        for name in self.each():
            self.assertEqual(name, "first")

    def test_left(self):
        for name in self.each():
            break
"""
# Has a process that takes the processor for half a second, and then waits for half a second.
BUSY = """
import subprocess
import sys
import time
import unittest


class Busy(unittest.TestCase):
    def test_busy(self):
        subprocess.run([sys.executable, "-c", "import time\\nwhile time.process_time() < 0.5: pass"], check=True)
        time.sleep(0.5)
"""
# Starts a process of a session of its own, as a compilation is, and waits.
WAITS = """
import subprocess
import time
import unittest


class Waits(unittest.TestCase):
    def test_long(self):
        subprocess.Popen(["sleep", "1234.5"], start_new_session=True)
        open("waits", "w").close()
        time.sleep(600)
"""


class Runner(unittest.TestCase):
    """A repository that has the runner, a program that does nothing, and few checks."""

    def setUp(self) -> None:
        folder = tempfile.TemporaryDirectory()
        self.addCleanup(folder.cleanup)
        self.top = os.path.join(folder.name, "repository")
        for name in ("tests", "tools", "clients/python"):
            os.makedirs(os.path.join(self.top, name))
        for name in OWN:
            shutil.copy(os.path.join(TOP, "tests", f"{name}.py"), os.path.join(self.top, "tests"))
        self.write("tests/cases.txt", "# The cases.\n")
        self.program = self.write("program", "#!/bin/sh\n")
        os.chmod(self.program, 0o755)

    def write(self, name: str, text: str) -> str:
        path = os.path.join(self.top, name)
        with open(path, "w", encoding="utf-8") as file:
            file.write(text)
        return path

    def check(self, name: str, text: str) -> None:
        self.write(f"tests/test_{name}.py", text)

    def command(self, *words: str) -> List[str]:
        return [sys.executable, "-B", os.path.join(self.top, "tests"), "--program", self.program, *words]

    def run_it(self, *words: str) -> Tuple[int, str, List[str]]:
        """How a run ends: the status, what it prints, and the first words of each line that tells of a check."""
        done = subprocess.run(self.command(*words), stdout=subprocess.PIPE, stderr=subprocess.STDOUT, text=True, timeout=PATIENCE)
        return done.returncode, done.stdout, [" ".join(line.split()[:4]) for line in done.stdout.splitlines() if re.match(r"ok |FAILED |again ", line)]

    def test_each_check_has_a_line_and_the_last_line_counts(self) -> None:
        self.check("good", GOOD)
        self.write("clients/python/test_more.py", GOOD)
        status, printed, lines = self.run_it()
        self.assertEqual((status, sorted(lines)), (0, ["ok good 6 cases", "ok python/more 6 cases"]))
        self.assertEqual(printed.splitlines()[-1], "12 passed, 0 failed, 0 skipped")

    def test_the_smallest_failure_is_told_with_the_command_that_runs_it_alone(self) -> None:
        self.check("good", GOOD)
        self.check("bad", BAD)
        status, printed, lines = self.run_it()
        self.assertEqual((status, sorted(lines)), (1, ["FAILED bad 4 cases", "ok good 6 cases"]))
        told = r"\n  bad\.Bad\.test_small: tiny \(tests/test_bad\.py:13\)\n    wanted: 1\n    came:   2\n    alone:  \./pgserial test bad\.Bad\.test_small\n"
        self.assertRegex(printed, told + r"    and 1 larger cases of this test\n  bad\.Bad\.test_large: ")
        self.assertIn("w" * 600 + ".. (1000 characters)", printed)
        self.assertEqual(printed.splitlines()[-1], "7 passed, 3 failed, 0 skipped")

    def test_tests_are_run_by_their_names(self) -> None:
        self.check("good", GOOD)
        self.check("bad", BAD)
        self.assertEqual(self.run_it("bad.Bad.test_small")[1].splitlines()[-1], "1 passed, 2 failed, 0 skipped")
        self.assertEqual(self.run_it("good.Good.test_one", "good.Good.test_many")[1].splitlines()[-1], "6 passed, 0 failed, 0 skipped")
        status, printed, _ = self.run_it("better")
        self.assertEqual((status, printed), (1, "test: no check is named better: bad, good\n"))

    def test_what_the_machine_lacks_is_named_once(self) -> None:
        self.check("lacking", LACKING)
        status, printed, _ = self.run_it()
        self.assertEqual((status, printed.splitlines()[-2:]), (0, [
            "  skipped: 1 of lacking: nothing is there (Debian: everything)", "0 passed, 0 failed, 1 skipped"]))

    def test_fewer_cases_than_the_table_has_are_a_failure(self) -> None:
        self.check("good", GOOD)
        self.write("tests/cases.txt", "# The cases.\ngood 7 1.0\n")
        status, printed, _ = self.run_it()
        self.assertEqual(status, 1)
        self.assertIn("6 cases, where tests/cases.txt has 7", printed)
        self.assertEqual(self.run_it("good.Good.test_one")[0], 0)
        self.write("tests/cases.txt", "# The cases.\ngood 5 1.0\n")
        self.assertEqual(self.run_it("--count")[0], 0)
        with open(os.path.join(self.top, "tests/cases.txt"), encoding="utf-8") as file:
            self.assertRegex(file.read(), r"\A# The cases\.\ngood 6 \d+\.\d\n\Z")

    def test_a_line_of_the_table_that_is_none_is_named(self) -> None:
        self.check("good", GOOD)
        self.write("tests/cases.txt", "# The cases.\n<<<<<<< HEAD\n")
        status, printed, _ = self.run_it()
        self.assertEqual((status, printed), (1, "test: tests/cases.txt:2: a line is a check, its cases and its seconds\n"))

    def test_a_check_that_is_gone_is_a_failure(self) -> None:
        self.check("good", GOOD)
        self.write("tests/cases.txt", "gone 7 1.0\n")
        status, printed, _ = self.run_it()
        self.assertEqual((status, printed), (1, "test: tests/cases.txt has checks that aren't there: gone\n"))

    def test_times_that_fail_are_measured_again_alone(self) -> None:
        self.check("timed", TIMED.format(times=2))
        status, printed, lines = self.run_it()
        self.assertEqual((status, lines[0]), (0, "again timed 1 cases"))
        self.assertRegex(printed, r"(?s)ok     timed\.Timed\.test_slow, which failed beside others, passes alone\n  beside others:\n.*1 not greater than or equal to 2")
        self.assertEqual(printed.splitlines()[-1], "1 passed, 0 failed, 0 skipped")

    def test_what_fails_is_run_again_alone_where_that_is_asked_for(self) -> None:
        self.check("wavers", WAVERS.format(times=2))
        self.assertEqual(self.run_it("--again")[0], 0)
        os.unlink(os.path.join(self.top, "seen"))
        status, printed, lines = self.run_it()
        self.assertEqual((status, lines), (1, ["FAILED wavers 1 cases"]))
        os.unlink(os.path.join(self.top, "seen"))
        status, printed, lines = self.run_it("--again")
        self.assertEqual((status, lines[0]), (0, "again wavers 1 cases"))
        self.assertRegex(printed, r"(?s)ok     wavers\.Timed\.test_slow, which failed beside others, passes alone\n  beside others:\n.*1 not greater than or equal to 2")

    def test_what_fails_twice_or_in_many_tests_is_a_failure(self) -> None:
        self.check("bad", BAD)
        status, printed, _ = self.run_it("--again")
        self.assertEqual((status, printed.splitlines()[-1]), (1, "1 passed, 2 failed, 0 skipped"))
        self.assertRegex(printed, r"(?s)FAILED bad\.Bad\.test_small, which failed beside others, fails alone\n  beside others:\n.*tiny.*  alone:\n.*tiny")
        many = "".join(f"    def test_{number}(self):\n        self.fail()\n" for number in range(6))
        self.check("bad", f"import unittest\n\n\nclass Bad(unittest.TestCase):\n{many}")
        status, printed, _ = self.run_it("--again")
        self.assertEqual((status, printed.splitlines()[-1]), (1, "0 passed, 6 failed, 0 skipped"))

    def test_times_that_fail_twice_are_told_twice(self) -> None:
        self.check("timed", TIMED.format(times=9))
        status, printed, _ = self.run_it()
        self.assertEqual(status, 1)
        self.assertRegex(printed, r"(?s)FAILED timed\.Timed\.test_slow, which failed beside others, fails alone\n  beside others:\n.*1 not .* 9.*\n  alone:\n.*2 not .* 9")
        self.assertEqual(printed.splitlines()[-1], "0 passed, 1 failed, 0 skipped")

    def test_a_check_that_cannot_be_read_or_dies_fails(self) -> None:
        self.check("broken", BROKEN)
        self.check("dies", DIES)
        status, printed, _ = self.run_it()
        self.assertEqual(status, 1)
        self.assertIn("nothing_of_this_name", printed)
        self.assertRegex(printed, r"(?s)dies\.Dies\.test_that_ends_it.*it ended with 7:\n.*what it says last")
        self.assertEqual(printed.splitlines()[-1], "0 passed, 2 failed, 0 skipped")

    def test_a_test_that_takes_too_long_is_ended(self) -> None:
        self.check("good", GOOD)
        self.check("waits", WAITS)
        with unittest.mock.patch.dict(os.environ, {"PGSERIAL_TEST_LIMIT": "8"}):
            status, printed, _ = self.run_it()
        self.assertEqual((status, printed.splitlines()[-1]), (1, "6 passed, 1 failed, 0 skipped"))
        self.assertRegex(printed, r"waits\.Waits\.test_long\n    it hasn't ended in 8 s:")
        self.assertEqual(sleepers(), [])

    def test_an_interrupt_ends_all_that_was_started(self) -> None:
        self.check("waits", WAITS)
        for number in (signal.SIGINT, signal.SIGTERM):
            environment = {**os.environ, "TMPDIR": os.path.dirname(self.top)}
            with subprocess.Popen(self.command(), stdout=subprocess.PIPE, stderr=subprocess.STDOUT, env=environment, start_new_session=True) as child:
                self.wait_until(lambda: os.path.exists(os.path.join(self.top, "waits")))
                os.remove(os.path.join(self.top, "waits"))
                os.killpg(child.pid, number)
                child.communicate(timeout=PATIENCE)
                self.assertEqual(child.returncode, 128 + number)
            self.assertEqual(sleepers(), [])
            self.assertEqual(os.listdir(os.path.dirname(self.top)), ["repository"])

    def wait_until(self, holds) -> None:  # type: ignore[no-untyped-def]
        until = time.monotonic() + PATIENCE
        while not holds():
            self.assertLess(time.monotonic(), until)
            time.sleep(0.02)

    def test_a_terminal_is_shown_how_far_it_is(self) -> None:
        self.check("good", GOOD.replace("pass\n\n", "__import__('time').sleep(1)\n\n"))
        master, slave = pty.openpty()
        child = subprocess.Popen(self.command(), stdout=slave, stderr=slave, stdin=subprocess.DEVNULL)
        os.close(slave)
        shown = b""
        try:
            while select.select([master], [], [], PATIENCE)[0]:
                shown += os.read(master, 65536)
        except OSError:
            pass
        os.close(master)
        self.assertEqual(child.wait(PATIENCE), 0)
        self.assertRegex(shown.decode(), r"(?s)\r\x1b\[K0 of 1 checks, \d s; now good \d.*\r\x1b\[Kok     good .*\r\x1b\[K6 passed, 0 failed, 0 skipped\r\n\Z")

    def test_the_proved_program_and_no_other(self) -> None:
        self.check("good", GOOD)
        self.write("crates.txt", "pgserial:\n")
        os.makedirs(os.path.join(self.top, "crates/pgserial/src"))
        self.write("crates/pgserial/src/main.rt", "")
        for name in ("sources", "quick.py"):
            shutil.copy(os.path.join(TOP, "tools", name), os.path.join(self.top, "tools"))
        words = [sys.executable, "-B", os.path.join(self.top, "tests")]
        done = subprocess.run([*words, "--proved"], stdout=subprocess.PIPE, stderr=subprocess.STDOUT, text=True, timeout=PATIENCE)
        self.assertEqual((done.returncode, done.stdout), (1, "test: no proved program of these sources is there: ./pgserial build, or rt ci, makes one\n"))
        done = subprocess.run([*words, "--proved", "--unproved"], stdout=subprocess.PIPE, stderr=subprocess.STDOUT, text=True, timeout=PATIENCE)
        self.assertEqual(done.returncode, 2)

    def test_what_ends_a_loop_over_cases_is_told_of_its_case(self) -> None:
        self.check("given", GIVEN)
        status, printed, _ = self.run_it("given.Given.test_given")
        self.assertEqual(status, 1)
        self.assertRegex(printed, r"given\.Given\.test_given: \[second\] \(tests/test_given\.py:\d+\)\n    'second' != 'first'\n")
        self.assertNotIn("GeneratorExit", printed)
        status, printed, _ = self.run_it("given.Given.test_left")
        self.assertEqual(status, 1)
        self.assertIn("GeneratorExit", printed)

    def test_a_line_has_the_seconds_of_processors(self) -> None:
        """Those of what a check has started too; and not those for which it waits."""
        self.check("busy", BUSY)
        found = re.search(r"^ok +busy +1 cases +([\d.]+) s, ([\d.]+) s of processors$", self.run_it()[1], re.M)
        assert found
        passed, taken = map(float, found.groups())
        self.assertGreaterEqual(taken, 0.5)
        self.assertGreaterEqual(passed, taken + 0.4)

    def test_the_list_has_cases_and_seconds(self) -> None:
        self.check("good", GOOD)
        self.write("tests/cases.txt", "good 6 2.5\n")
        self.assertRegex(self.run_it("--list")[1], r"\Agood +6 cases +2\.5 s\n\Z")


def reasons(path: str) -> List[str]:
    """The reasons for which a file's tests are skipped, as far as they are written there."""
    with open(path, encoding="utf-8") as file:
        tree = ast.parse(file.read())
    named = {target.id: node.value for node in tree.body if isinstance(node, ast.Assign) for target in node.targets if isinstance(target, ast.Name)}
    found = []
    for call in [node for node in ast.walk(tree) if isinstance(node, ast.Call) and node.args]:
        if getattr(call.func, "attr", getattr(call.func, "id", "")) in ("skipUnless", "skipIf", "skipTest", "SkipTest"):
            said = call.args[-1]
            said = named.get(said.id, said) if isinstance(said, ast.Name) else said
            found += [ast.unparse(said)] if isinstance(said, (ast.Constant, ast.JoinedStr)) else []
    return found


class Reasons(unittest.TestCase):
    def test_what_the_machine_lacks_is_told_with_its_package(self) -> None:
        """But where no package has it: an older SQLite, the toolchain, a folder, what the kernel gives."""
        known = re.compile(r"\(Debian: |SQLite is older than|folder of temporary files|/dev/full|there are no locks|rt isn't on the PATH|toolchain is where")
        files = [path for folder in ("tests", "clients/python") for path in glob.glob(os.path.join(TOP, folder, "test_*.py"))]
        told = {path: [reason for reason in reasons(path) if not known.search(reason)] for path in files}
        self.assertEqual({os.path.relpath(path, TOP): found for path, found in told.items() if found}, {})
        self.assertGreater(sum(len(reasons(path)) for path in files), 50)


def sleepers() -> List[str]:
    """The processes that a check here starts, if one is left."""
    found = []
    for process in filter(str.isdigit, os.listdir("/proc")):
        try:
            with open(f"/proc/{process}/cmdline", encoding="utf-8", errors="replace") as file:
                found += [process] if file.read() == "sleep\x001234.5\0" else []
        except OSError:
            continue
    return found
