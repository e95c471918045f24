"""A folder of scripts and dumps in which the program is run, for tests of files, streams and command lines that fail."""

import os
import resource
import signal
import subprocess
from typing import Any, Callable, Dict, Optional

from tests.program import PATIENCE, Case, Differs, program

BEGUN = "1 BEGIN READ ONLY DEFERRABLE;\n1 POLL;\n"
# What the two lines of BEGUN are answered.
SAFE = "1 BEGIN\n1 SAFE 0\n"
DUMP = "-- dump 2\nCREATE TABLE t (id bigint PRIMARY KEY);\nCOPY t (id) FROM stdin;\n1\n2\n\\.\n-- rows 2\n-- end\n"


def dump_of(rows: int, version: int = 2) -> str:
    """A dump of as many rows, numbered from 1."""
    lines = "".join(f"{row}\n" for row in range(1, rows + 1))
    told = f"-- rows {rows}\n" if version == 2 else ""
    return f"-- dump {version}\nCREATE TABLE t (id bigint PRIMARY KEY);\nCOPY t (id) FROM stdin;\n{lines}\\.\n{told}-- end\n"


def takes_nothing() -> bool:
    """Whether the machine has a file /dev/full that is opened and takes nothing."""
    try:
        with open("/dev/full", "wb", buffering=0) as full:
            full.write(b"x")
    except OSError as error:
        return error.errno == 28
    return False


# A file that is opened and takes nothing; without it one that isn't opened.
FULL = "/dev/full" if takes_nothing() else "."
NO_FULL = "there is no /dev/full (it is the kernel's)"


def with_a_kilobyte(is_killed: bool = False) -> None:
    """Lets this process write 1024 bytes into a file; with more it fails, or is killed."""
    resource.setrlimit(resource.RLIMIT_FSIZE, (1024, 1024))
    resource.setrlimit(resource.RLIMIT_CORE, (0, 0))
    signal.signal(signal.SIGXFSZ, signal.SIG_DFL if is_killed else signal.SIG_IGN)


class Room(Case):
    """A folder with these files, in which the program is run."""

    def setUp(self) -> None:
        super().setUp()
        for name, text in {
            "dump": DUMP, "begun": BEGUN, "dumps": f"OPEN dump;\n{BEGUN}1 DUMP 1 1000 out;\n", "opens_gone": "OPEN gone;\n",
            "opens_a_folder": "OPEN .;\n", "dumps_to_full": f"{BEGUN}1 DUMP 2 1 {FULL};\n1 COMMIT;\n", "dumps_late": f"{BEGUN}1 DUMP 2 1 {FULL};\n1 WAIT;\n",
            "dumps_to_gone": f"{BEGUN}1 DUMP 2 1 gone/out;\n1 COMMIT;\n", "dumps_to_a_folder": f"{BEGUN}1 DUMP 2 1 .;\n1 COMMIT;\n",
            "many_replies": "11 ROLLBACK;\n" * 20000, "thousand": dump_of(1000), "like_a_setup": "1 BEGIN;\n1 COMMIT;\n2 PRUNE;\n1 PRUNE;\n",
            "late": "OPEN gone;\n1 BEGIN;\n1 WAIT;\n", "late_too": "OPEN begun;\n1 COMMIT ;\n1 BEGIN",
            "opens_gone_and_dumps": f"OPEN gone;\n1 DUMP 1 1 {FULL};\n", "opens_no_dump": f"OPEN begun;\n1 DUMP 1 1 {FULL};\n",
            "opens_gone_and_checkpoints": "OPEN gone;\nCHECKPOINT;\n",
        }.items():
            self.write(name, text)

    def path(self, name: str) -> str:
        return os.path.join(self.folder, name)

    def read(self, name: str) -> bytes:
        with open(self.path(name), "rb") as file:
            return file.read()

    def run_it(self, *words: str, given: Optional[bytes] = None, before: Optional[Callable[[], None]] = None, **how: Any) -> "subprocess.CompletedProcess[bytes]":
        """Runs the program here: `before` is called in its process first."""
        streams: Dict[str, Any] = {"stdin": subprocess.DEVNULL, "stdout": subprocess.PIPE, "stderr": subprocess.PIPE, **how}
        if given is not None:
            del streams["stdin"]
        command = [streams.pop("program", program()), *words]
        return subprocess.run(command, cwd=self.folder, input=given, preexec_fn=before, timeout=PATIENCE, **streams)

    def ends(self, status: int, told: str, printed: str, *words: str, **how: Any) -> "subprocess.CompletedProcess[bytes]":
        """Runs the program, which must end so: with this first line on standard error, and this on standard output."""
        done = self.run_it(*words, **how)
        wanted = (status, told and told + "\n", printed)
        lines = (done.stderr or b"").decode("utf-8", "backslashreplace").splitlines(keepends=True)
        came = (done.returncode, "".join(lines[:1]), (done.stdout or b"").decode("utf-8", "backslashreplace"))
        with self.subTest(" ".join(words)):
            if wanted != came:
                raise Differs(" ".join(words), wanted, came)
        return done

    def is_text(self, name: str, wanted: Any) -> None:
        """A file must have this text, or that of another file's bytes."""
        self.same(name, wanted if isinstance(wanted, bytes) else wanted.encode(), self.read(name) if os.path.exists(self.path(name)) else b"nothing")

    def is_gone(self, name: str) -> None:
        self.same(f"whether {name} is there", False, os.path.lexists(self.path(name)))

    def no_parts(self) -> None:
        """Nothing stays beside a file that is written anew."""
        parts = [name for at, _, names in os.walk(self.folder) for name in names if name.startswith(".pgserial-")]
        self.same("what stays beside a file", [], parts)
