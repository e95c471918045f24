"""worker.py FOLDER MODULE PIPE [TEST..]: runs the tests of a module for tests/runner.py, or these of them, and writes a line of
JSON for each as it begins and as it ends into the pipe.

MODULE is found from FOLDER. Each case counts that a test looks at by subTest, and else the test.
"""

import json
import os
import sys
import time
import traceback
import unittest
from typing import Any, Dict, List, Optional, TextIO


TOP = os.path.dirname(os.path.dirname(os.path.abspath(__file__)))


def told_of(test: Any, error: Any) -> Dict[str, Any]:
    """What is told of a failure: the case, what was wanted and came, how large that is, and where it is."""
    kind, value, trace = error
    frames = [frame for frame in traceback.extract_tb(trace) if f"{os.sep}unittest{os.sep}" not in frame.filename]
    own = [frame for frame in frames if os.path.basename(frame.filename).startswith("test_")] or frames
    where = f"{os.path.relpath(own[-1].filename, TOP)}:{own[-1].lineno}" if own else ""
    if hasattr(value, "wanted"):
        return {"case": value.case, "wanted": value.wanted, "came": value.came, "size": value.size, "where": value.where or where}
    text = str(value) if isinstance(value, AssertionError) else "".join(traceback.format_exception_only(kind, value)).strip()
    case = test._subDescription() if hasattr(test, "_subDescription") else ""
    return {"case": case, "said": text, "size": len(text), "where": where}


class Teller(unittest.TestResult):
    """Tells of each test as it begins and as it ends."""

    def __init__(self, pipe: TextIO) -> None:
        super().__init__()
        self.pipe = pipe
        self.begun, self.cases = 0.0, 0
        self.failures_told: List[Dict[str, Any]] = []
        self.skip: Optional[str] = None
        self.left: Optional[Dict[str, Any]] = None  # of a case of a generator's that a loop over it left

    def tell(self, **what: Any) -> None:
        print(json.dumps(what), file=self.pipe, flush=True)

    def startTest(self, test: unittest.TestCase) -> None:
        super().startTest(test)
        self.begun, self.cases, self.failures_told, self.skip, self.left = time.monotonic(), 0, [], None, None
        self.tell(began=test.id())

    def stopTest(self, test: unittest.TestCase) -> None:
        super().stopTest(test)
        self.name_left()
        method = getattr(test, getattr(test, "_testMethodName", ""), None)
        self.tell(
            ended=test.id(), cases=max(1, self.cases), failed=self.failures_told, skipped=self.skip,
            seconds=time.monotonic() - self.begun, timed=bool(getattr(method, "is_timed", False)))

    def name_left(self) -> None:
        """Where a loop over a generator's cases ended within one, that is the case of what ended it. (The generator goes on to the
        next one meanwhile, since a case keeps to itself what ends it.)"""
        if self.left is None:
            return
        for told in self.failures_told:
            told["case"] = told["case"] or self.left["case"]
        self.failures_told = self.failures_told or [self.left]

    def fail(self, test: Any, error: Any) -> None:
        """Notes a failure; that of a class or a module, which has no test of its own, is told at once."""
        self.failures_told.append(told_of(test, error))
        if not isinstance(test, unittest.TestCase) and not hasattr(test, "test_case"):
            self.tell(ended=test.id(), cases=1, failed=self.failures_told, skipped=None, seconds=0, timed=False)
            self.failures_told = []

    def addSubTest(self, test: Any, subtest: Any, err: Any) -> None:
        super().addSubTest(test, subtest, err)
        self.cases += 1
        if err is not None and issubclass(err[0], GeneratorExit):
            self.left = self.left or told_of(subtest, err)
        elif err is not None:
            self.fail(subtest, err)

    def addFailure(self, test: Any, err: Any) -> None:
        super().addFailure(test, err)
        self.fail(test, err)

    def addError(self, test: Any, err: Any) -> None:
        super().addError(test, err)
        self.fail(test, err)

    def addSkip(self, test: Any, reason: str) -> None:
        super().addSkip(test, reason)
        self.skip = reason
        if not isinstance(test, unittest.TestCase):
            self.tell(ended=test.id(), cases=1, failed=[], skipped=reason, seconds=0, timed=False)


def main() -> int:
    folder, module, pipe, *names = sys.argv[1:]
    sys.path[0] = folder
    sys.dont_write_bytecode = True
    loader = unittest.defaultTestLoader
    suite = loader.loadTestsFromNames([f"{module}.{name}" for name in names] or [module])
    with os.fdopen(int(pipe), "w", encoding="utf-8") as told:
        result = Teller(told)
        suite.run(result)
    return 0 if result.wasSuccessful() else 1


if __name__ == "__main__":
    sys.exit(main())
