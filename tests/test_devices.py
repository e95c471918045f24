"""Files and streams of the machine that fail: what can't be read or written, certificates, files that are written anew whole or not at
all, and standard streams."""

import os
import resource
import shutil
import signal
import subprocess
import time
import unittest
from typing import Any, Dict, List

from tests.program import TOP, Differs, program
from tests.room import BEGUN, DUMP, FULL, NO_FULL, SAFE, Room, dump_of, with_a_kilobyte

RECORDED = os.path.join(TOP, "examples/transcripts/g1a")
STALE = os.path.join(TOP, "examples/transcripts/stale_read")


def text_of(path: str) -> str:
    with open(path, encoding="utf-8", newline="") as file:
        return file.read()


class Files(Room):
    """Files that can't be read or written."""

    def test_files_that_cannot_be_read(self) -> None:
        for path in ("gone", ".", "dump/file", ""):
            for words in (("run", path), ("audit", path), ("restore", path, "--out", "out")):
                self.ends(3, f"device: {path}", "", *words)
        self.ends(3, "device: gone", "", "run", "opens_gone")
        self.ends(3, "device: .", "", "audit", "opens_a_folder")

    def test_memory_that_does_not_hold_the_events(self) -> None:
        """What a history is to have room for is asked for first; that it isn't there stands behind the first line."""
        def roomless() -> None:
            resource.setrlimit(resource.RLIMIT_AS, (4000000 << 10, 4000000 << 10))

        for words in ("run begun", "run begun --why", "run begun --transcript", "audit begun", "draw begun --out picture", "explore begun",
                      "shell dump", "run dumps --why", "shell"):
            done = self.run_it(*words.split(), "--events", "4294967295", given=b"1 BEGIN;\n", before=roomless)
            self.same(words, (1, b"script line 0\nno room for 4294967295 events (--events)\n"), (done.returncode, done.stderr))

    def test_files_that_cannot_be_written(self) -> None:
        for path in ("gone/out", ".", "dump/file", "", FULL):
            for words in (("restore", "dump"), ("restore", "thousand", "--jobs", "8"), ("draw", "begun")):
                self.ends(3, f"device: {path}", "", *words, "--out", path)
        asked = "> 1 BEGIN READ ONLY DEFERRABLE;\n  1 BEGIN\n> 1 POLL;\n  1 SAFE 0\n"
        for script, path in (("dumps_to_full", FULL), ("dumps_to_gone", "gone/out"), ("dumps_to_a_folder", ".")):
            self.ends(3, f"device: {path}", SAFE, "run", script)
            self.ends(3, f"device: {path}", asked, "run", script, "--transcript")
            self.ends(3, f"device: {path}", "", "audit", script)

    def test_of_two_that_cannot_be_written_it_is_the_first(self) -> None:
        self.write("both", f"{BEGUN}1 DUMP 1 1 gone/out;\n1 DUMP 1 1 {FULL};\n")
        self.write("again", f"{BEGUN}1 DUMP 1 1 {FULL};\n1 DUMP 1 1 gone/out;\n")
        self.ends(3, "device: gone/out", SAFE, "run", "both")
        self.ends(3, f"device: {FULL}", SAFE, "run", "again")

    def test_what_fails_behind_a_checkpoint_leaves_its_report_alone(self) -> None:
        behind = "2 BEGIN READ ONLY DEFERRABLE;\n2 POLL;\n2 DUMP 1 1 gone/out;\n2 COMMIT;\n"
        self.write("script", f"1 BEGIN READ ONLY;\n1 COMMIT;\nCHECKPOINT;\n{behind}")
        self.ends(3, "device: gone/out", "txn 1 key 0 2 2\ncheck yes\n", "audit", "script")
        self.ends(3, "device: gone/out", "1 BEGIN\n1 COMMIT\nCHECKPOINT\n2 BEGIN\n2 SAFE 0\n", "run", "script")


class Certificates(Room):
    """Certificates: one that is written and read again, and files that can't be read or written, or hold none."""

    def setUp(self) -> None:
        super().setUp()
        self.stale = text_of(f"{STALE}.out")
        self.ends(5, "", self.stale, "check", f"{STALE}.transcript", "--certificate", "timed")
        self.timed = self.read("timed").decode().splitlines(keepends=True)

    def check(self, lines: List[str], status: int, told: str, printed: str = "", transcript: str = f"{STALE}.transcript") -> None:
        """A certificate of these lines."""
        self.write("other", "".join(lines))
        self.ends(status, told, printed, "check", transcript, "--certificate", "other")

    def test_one_that_is_written_is_read_again(self) -> None:
        wanted = text_of(f"{RECORDED}.out")
        for _ in range(2):
            self.ends(5, "", wanted, "check", f"{RECORDED}.transcript", "--certificate", "found")
            written = os.stat(self.path("found")).st_ino
        self.same("whether one that is read is written again", written, os.stat(self.path("found")).st_ino)
        self.ends(1, "certificate line 2", "", "check", f"{RECORDED}_serial.transcript", "--certificate", "found")

    def test_files_that_fail_or_hold_none(self) -> None:
        recorded = f"{RECORDED}.transcript"
        self.ends(1, "certificate line 1", "", "check", recorded, "--certificate", "dump")
        self.ends(3, "device: .", "", "check", recorded, "--certificate", ".")
        self.ends(3, "device: dump/file", "", "check", recorded, "--certificate", "dump/file")
        self.ends(3, "device: gone/found", text_of(f"{RECORDED}.out"), "check", recorded, "--certificate", "gone/found")

    def test_one_that_rests_on_time(self) -> None:
        self.ends(1, "certificate line 2", "", "check", f"{STALE}.transcript", "--certificate", "timed", "--no-time")

    def test_one_without_its_last_line_with_that_twice_or_with_another(self) -> None:
        self.check(self.timed[:2], 1, "certificate line 3")
        self.check(self.timed + self.timed[-1:], 1, "certificate line 4")
        self.check([*self.timed[:2], "cycle 3 9\n", *self.timed[3:]], 1, "certificate line 3")

    def test_a_cycle_from_its_other_end(self) -> None:
        lines = self.stale.splitlines(keepends=True)
        told = "".join("cycle 2 3 2: stale read\n" if line.startswith("cycle ") else line for line in lines)
        self.check([*self.timed[:2], "cycle 2 3\n", *self.timed[3:]], 5, "", told)

    def test_one_within_a_supposition_and_once_more(self) -> None:
        unanswered = self.write("unanswered", text_of(f"{STALE}.transcript") + "> 4 BEGIN;\n  4 BEGIN\n> 4 COMMIT;\n")
        *lines, _, _ = self.stale.splitlines(keepends=True)
        inner = "".join(f"  {line}" for line in lines)
        counts = "judged: transactions 4, sessions 3, statements 4, without a reply to COMMIT 1\n"
        outer = "".join([*lines, counts, "check no\n"])
        for supposed, told, contrary in (
            ("before 2 3", "2 comes before 3", "3 comes before 2"), ("present 4", "4 committed", "4 didn't commit"),
            ("absent 4", "4 didn't commit", "4 committed"),
        ):
            certificate = [self.timed[0], f"suppose {supposed}\n", *self.timed[1:], *self.timed[1:]]
            self.check(certificate, 5, "", f"suppose {told}:\n{inner}so {contrary}\n{outer}", unanswered)


class Replaced(Room):
    """A file is whole, or as it was, or not there; and nothing stays beside it."""

    def setUp(self) -> None:
        super().setUp()
        head, tail = "-- dump 2\nCREATE TABLE t (id text PRIMARY KEY);\nCOPY t (id) FROM stdin;\n", "\n\\.\n-- rows 1\n"
        # 1020 bytes stand before the last line.
        self.write("crossing", head + "k" * (1020 - len(head) - len(tail)) + tail + "-- end\n")

    def restored(self, rows: int, *words: str, **how: Any) -> None:
        self.ends(0, "", f"RESTORE 1 tables {rows} rows\n", "restore", *words, **how)

    def test_a_restore_that_has_too_little_room(self) -> None:
        for dump in ("thousand", "crossing"):
            self.write("held", DUMP)
            self.ends(3, "device: held", "", "restore", dump, "--jobs", "2", "--out", "held", before=with_a_kilobyte)
            self.is_text("held", DUMP)
            done = self.run_it("restore", dump, "--jobs", "2", "--out", "held", before=lambda: with_a_kilobyte(True))
            self.same("how it is killed", -signal.SIGXFSZ, done.returncode)
            self.is_text("held", DUMP)
            for name in os.listdir(self.folder):
                if name.startswith(".pgserial-"):
                    os.remove(self.path(name))
            self.ends(3, "device: fresh", "", "restore", dump, "--jobs", "2", "--out", "fresh", before=with_a_kilobyte)
            self.is_gone("fresh")
            self.no_parts()

    def test_a_dump_that_has_too_little_room(self) -> None:
        self.write("held", DUMP)
        self.write("script", f"OPEN thousand;\n{BEGUN}1 DUMP 2 10 held;\n")
        self.ends(3, "device: held", SAFE, "run", "script", before=with_a_kilobyte)
        self.ends(3, "device: held", "", "run", "script", "--free", before=with_a_kilobyte)
        self.is_text("held", DUMP)

    def test_where_two_reasons_came_none_is_told(self) -> None:
        other = BEGUN.replace("1 ", "2 ")
        self.write("script", f"{BEGUN}1 DUMP 1 1 gone/out;\n{other}2 DUMP 1 1 dump/file;\n")
        done = self.ends(3, "device: gone/out", "", "run", "script", "--free")
        self.same("lines", 1, done.stderr.count(b"\n"))

    def test_a_file_that_is_restored_onto_itself(self) -> None:
        thousand = self.read("thousand")
        self.write("itself", thousand)
        self.ends(3, "device: itself", "", "restore", "itself", "--jobs", "2", "--out", "itself", before=with_a_kilobyte)
        self.is_text("itself", thousand)
        self.restored(1000, "itself", "--out", "itself")
        self.is_text("itself", thousand)
        self.no_parts()

    def test_permissions_stay_and_a_link_leads_where_it_led(self) -> None:
        self.write("itself", self.read("thousand"))
        os.chmod(self.path("itself"), 0o600)
        os.symlink("itself", self.path("link"))
        self.restored(2, "dump", "--out", "link")
        self.is_text("itself", DUMP)
        self.same("link, and permissions", (True, 0o600), (os.path.islink(self.path("link")), os.stat(self.path("itself")).st_mode & 0o777))

    def test_a_name_may_be_as_long_as_names_may_be(self) -> None:
        self.restored(2, "dump", "--out", "n" * 255)
        self.is_text("n" * 255, DUMP)

    def test_what_is_no_file_is_written_itself(self) -> None:
        os.mkfifo(self.path("pipe"))
        with open(self.path("got"), "wb") as got, subprocess.Popen(["cat", "pipe"], cwd=self.folder, stdout=got) as reader:
            self.restored(2, "dump", "--out", "pipe")
            reader.wait(60)
        self.is_text("got", DUMP)
        self.same("whether the pipe is there", True, os.path.exists(self.path("pipe")) and not os.path.isfile(self.path("pipe")))
        self.ends(0, "", f"{DUMP}RESTORE 1 tables 2 rows\n", "restore", "dump", "--out", "/dev/stdout")

    def test_of_two_at_once_to_one_path_it_is_one(self) -> None:
        self.write("many", dump_of(20000))
        either = (self.read("many"), self.read("thousand"))
        for _ in range(10):
            with subprocess.Popen([program(), "restore", "many", "--jobs", "2", "--out", "both"], cwd=self.folder, stdout=subprocess.DEVNULL) as other:
                self.restored(1000, "thousand", "--out", "both")
                self.same("one of two at once", True, self.read("both") in either)
                self.same("how the other ends", 0, other.wait(60))
            self.same("one of two at the end", True, self.read("both") in either)
        self.no_parts()

    def test_of_three_sessions_that_dump_at_once_to_one_path_it_is_one(self) -> None:
        sessions = "".join(BEGUN.replace("1 ", f"{session} ") + f"{session} DUMP 2 10 free;\n" for session in (1, 2, 3))
        self.write("script", f"OPEN thousand;\n{sessions}")
        told = "".join(f"{session} BEGIN\n{session} SAFE 0\n{session} DUMP\n" for session in (1, 2, 3))
        for _ in range(10):
            self.ends(0, "", f"{told}check yes\n", "run", "script", "--free")
            self.is_text("free", self.read("thousand"))
        self.no_parts()

    def test_who_may_not_write_a_file_or_its_folder_replaces_nothing(self) -> None:
        """Root may: it takes another's place for that."""
        other: Dict[str, Any] = {"user": 65534, "group": 65534, "extra_groups": []} if os.getuid() == 0 else {}
        for name in ("ours", "theirs"):
            os.mkdir(self.path(name))
            self.write(f"{name}/held", DUMP)
        shutil.copy(program(), self.path("ours/program"))
        self.write("ours/thousand", self.read("thousand"))
        os.chmod(self.folder, 0o755)
        for name, mode in (("ours/held", 0o444), ("theirs/held", 0o644), ("theirs", 0o555)):
            os.chmod(self.path(name), mode)
        if other:
            for at, _, names in os.walk(self.folder):
                if at != self.folder:
                    for path in [at, *(os.path.join(at, name) for name in names)]:
                        os.chown(path, 65534, 65534)
        self.addCleanup(os.chmod, self.path("theirs"), 0o755)
        how = {**other, "program": self.path("ours/program")}
        if subprocess.run(["test", "-x", self.path("ours/program")], **other).returncode:
            self.skipTest("nobody reaches the folder of temporary files (TMPDIR names another)")
        for name in ("ours/held", "theirs/held"):
            self.ends(3, f"device: {name}", "", "restore", "ours/thousand", "--out", name, **how)
            self.is_text(name, DUMP)
        done = self.ends(3, "device: theirs/fresh", "", "restore", "ours/thousand", "--out", "theirs/fresh", **how)
        self.same("why", [b"permission denied"], done.stderr.splitlines()[1:])
        self.is_gone("theirs/fresh")
        self.no_parts()


class Streams(Room):
    """Standard streams that fail or are closed, and sessions that end with a transaction open."""

    def test_killed_in_the_midst_what_was_printed_are_whole_lines(self) -> None:
        """But where the system had written a part when the signal came."""
        torn = 0
        for turn in range(1, 6):
            with open(self.path("printed"), "wb") as printed, subprocess.Popen([program(), "run", "many_replies"], cwd=self.folder, stdout=printed) as run:
                time.sleep(turn / 100)
                run.kill()
            with self.subTest(turn):
                data = self.read("printed")
                torn += bool(data) and not data.endswith(b"\n")
        self.assertLessEqual(torn, 1, "runs that were killed and printed a line that isn't whole")

    def test_nobody_waits_for_a_session_that_ends_with_its_transaction_open(self) -> None:
        lines = ("CREATE TABLE t (id bigint PRIMARY KEY)", "2 BEGIN", "2 INSERT INTO t VALUES (1)", "1 BEGIN READ ONLY DEFERRABLE", "1 WAIT",
                 "1 SELECT * FROM t", "3 BEGIN", "3 INSERT INTO t VALUES (1, 2)")
        self.write("leaves", "".join(f"{line};\n" for line in lines))
        told = "1 BEGIN\n1 SAFE 0\n1 SELECT 0\n2 BEGIN\n2 INSERT 0 1\n3 BEGIN\n3 ERROR 42601 byte 14\ncheck yes\n"
        for _ in range(20):
            self.ends(0, "", told, "run", "leaves", "--free")

    def outputs_fail(self, **how: Any) -> None:
        """Standard output takes nothing."""
        for words in ("run begun", "run dumps", "run begun --transcript", "run many_replies", "explore like_a_setup", f"check {RECORDED}.transcript",
                      "audit begun", "restore dump --out out", "--help", "run dumps_to_full"):
            self.ends(3, "device: -", "", *words.split(), **how)
        self.ends(3, f"device: {FULL}", "", "restore", "dump", "--out", FULL, **how)
        self.ends(3, "device: gone", "", "run", "gone", **how)
        self.ends(1, "script line 4", "", "run", "dumps_late", **how)
        self.is_text("out", DUMP)

    @unittest.skipUnless(FULL == "/dev/full", NO_FULL)
    def test_an_output_that_takes_nothing(self) -> None:
        with open("/dev/full", "wb") as full:
            self.outputs_fail(stdout=full)

    def test_an_output_that_is_closed(self) -> None:
        self.outputs_fail(stdout=None, before=lambda: os.close(1))

    def test_an_input_that_is_closed_or_a_folder(self) -> None:
        folder = os.open(self.folder, os.O_RDONLY)
        self.addCleanup(os.close, folder)
        ways: List[Dict[str, Any]] = [{"before": lambda: os.close(0)}, {"stdin": folder}]
        for how in ways:
            for words in ("run -", "", "restore - --out out"):
                self.ends(3, "device: -", "", *words.split(), **how)

    def test_a_reader_that_goes_early(self) -> None:
        reader, writer = os.pipe()
        with subprocess.Popen([program(), "run", "many_replies"], cwd=self.folder, stdout=writer, stderr=subprocess.PIPE) as run:
            os.close(writer)
            os.read(reader, 1)
            os.close(reader)
            told = run.communicate(timeout=60)[1]
        self.same("how it ends", (3, [b"device: -"]), (run.returncode, told.splitlines()[:1]))

    def test_a_standard_error_that_is_closed(self) -> None:
        for status, printed, words in (
            (3, "", "run gone"), (1, "", "restore begun --out out"), (2, "", "walk"), (0, f"{SAFE}1 DUMP\n", "run dumps"),
        ):
            self.ends(status, "", printed, *words.split(), stderr=None, before=lambda: os.close(2))
        done = self.run_it("run", "dumps_late", "--free", stdout=None, before=lambda: os.close(1))
        if done.stderr.splitlines()[:1] != [f"device: {FULL}".encode()]:
            raise Differs("run dumps_late --free", f"device: {FULL}", done.stderr)
