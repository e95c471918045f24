"""`pgserial shell` through pipes, line by line: the conversations of tests/shell, each a test of its name; what can't be written
down there; how it ends; and how long 100,000 lines take of which each waits for the answer before."""

import os
import select
import subprocess
import tempfile
import time

from tests import transcripts
from tests.program import Case, Differs, program, timed
from tests.test_transcripts import name_of

PATIENCE = 30  # seconds for an answer
SLOW = 20  # seconds for the lines of `lockstep`, which take under 3 where the machine has nothing else to do
QUICK = 5  # seconds for the lines of `skipped`, which take under 1
LINES = 100_000
MOST_BYTES = 1 << 20  # of a line
PAIRS = b"CREATE TABLE t (id bigint PRIMARY KEY, v bigint);\n"
LONGEST = b"1 DELETE FROM t".ljust(MOST_BYTES - 1) + b";"


class Talk:
    """A running shell: what is sent to it, and the lines that it answers."""

    def __init__(self, program, words=(), folder=None):
        pipe = subprocess.PIPE
        self.child = subprocess.Popen(
            [program, "shell", *words], stdin=pipe, stdout=pipe, stderr=pipe, cwd=folder, bufsize=0)
        self.pending = b""

    def send(self, data):
        try:
            while data:
                data = data[os.write(self.child.stdin.fileno(), data):]
        except BrokenPipeError:
            pass  # what it has to say of that is looked at by who reads

    def line(self):
        """The next line, without its newline, or what there is of it where no more comes."""
        while b"\n" not in self.pending:
            if not select.select([self.child.stdout], [], [], PATIENCE)[0]:
                break
            piece = os.read(self.child.stdout.fileno(), 65536)
            if not piece:
                break
            self.pending += piece
        line, newline, self.pending = self.pending.partition(b"\n")
        return line.decode("utf-8", "backslashreplace") if newline else f"{line!r} and no newline"

    def end(self):
        """Ends the input: what was printed still, what standard error begins with, and the status."""
        try:
            told = self.child.communicate(timeout=PATIENCE)
        except subprocess.TimeoutExpired:
            self.child.kill()
            told = self.child.communicate()
        printed = (self.pending + told[0]).decode("utf-8", "backslashreplace")
        return printed, told[1].decode("utf-8", "backslashreplace").partition("\n")[0], self.child.returncode


# ---- conversations


def is_answer(came, wanted):
    """Whether a line is what is wanted; one that ends in ` ..` may have any words there."""
    return came.startswith(wanted[:-2]) and len(came) > len(wanted) - 2 if wanted.endswith(" ..") else came == wanted


def hold(script, folder):
    """Holds a conversation in a folder: raises where it goes otherwise than it should."""
    if script.lines["< "]:
        with open(os.path.join(folder, "dump"), "w", encoding="utf-8", newline="") as file:
            file.write(script.text("< "))
    talk = Talk(program(), script.words, folder)
    wrong = None
    for sent, wanted in script.turns:
        talk.send(sent.encode() + b"\n")
        pairs = [(talk.line(), line) for line in wanted]
        wrong = next(((sent, line, came) for came, line in pairs if not is_answer(came, line)), None)
        if wrong:
            break
    ended = talk.end()
    if wrong:
        raise Differs(f"{script.name}: `{wrong[0]}`", *wrong[1:])
    told = script.lines["! "][0] if script.lines["! "] else ""
    status = 0 if not told else 3 if told.startswith("device: ") else 1
    if ended != ("", told, status):
        raise Differs(f"{script.name}: how it ends", ("", told, status), ended)
    path = os.path.join(folder, "out")
    if script.lines["| "]:
        with open(path if os.path.exists(path) else os.devnull, encoding="utf-8") as file:
            text = file.read()
        if text != script.text("| "):
            raise Differs(f"{script.name}: what it writes", script.text("| "), text)


def test_of(script):
    return lambda self: hold(script, self.folder)


def classes():
    """A class of tests for each file of tests/shell, with a test for each conversation."""
    for path in transcripts.files(transcripts.HELD):
        tests = {}
        for script in transcripts.scripts_of(path):
            tests[name_of(script.name, tests)] = test_of(script)
        title = os.path.basename(path).partition(".")[0]
        yield title, type(title, (Case,), {**tests, "__module__": __name__})


globals().update(dict(classes()))


class Turned(Case):
    """A turned answer of a conversation is seen."""

    def test_turned_answers(self):
        scripts = [script for path in transcripts.files(transcripts.HELD) for script in transcripts.scripts_of(path)]
        script = next(script for script in scripts if script.turns and script.turns[0][1])
        for lines in (["x"], []):
            script.turns[0] = (script.turns[0][0], lines)
            with self.subTest(lines):
                self.assertRaises(Differs, hold, script, self.folder)


# ---- what can't be written down

# What is sent, and what must come of it: the lines printed, of which one that ends in ` ..` may have any words there.
TALKS = {
    "no line": (b"", []),
    "a line that the end cuts off": (b"1 BEGIN;\n1 COMMIT;", ["1 BEGIN", "ERROR 42601 .."]),
    "a comment that the end cuts off": (b"1 BEGIN;\n--", ["1 BEGIN", "ERROR 42601 .."]),
    "a line of a mebibyte": (
        PAIRS + b"1 BEGIN;\n" + LONGEST + b"\n1 COMMIT;\n",
        ["CREATE TABLE", "1 BEGIN", "1 ERROR 54000", "1 ROLLBACK"]),
    "a line of more": (
        PAIRS + b"1 BEGIN;\n" + LONGEST + b";\n1 COMMIT;\n",
        ["CREATE TABLE", "1 BEGIN", "ERROR 54000 ..", "1 COMMIT"]),
    "lines of much more": (
        (b"x" * (3 * MOST_BYTES) + b"\n") * 2 + b"-" + b"x" * MOST_BYTES + b"\n1 BEGIN;\n",
        ["ERROR 54000 .."] * 3 + ["1 BEGIN"]),
    "comments, of much more and no UTF-8": (
        (b"--" + b"x" * (3 * MOST_BYTES) + b"\n-- \xff\n") + PAIRS + b"-- \xff\n"
        + b"1 BEGIN;\n-- \xff\n--" + b"\xff" * MOST_BYTES + b"\n1 COMMIT;\n",
        ["CREATE TABLE", "1 BEGIN", "1 COMMIT"]),
    "a long line that the end cuts off": (b"1 BEGIN;\n" + b"x" * (2 * MOST_BYTES), ["1 BEGIN", "ERROR 54000 .."]),
    "no UTF-8": (
        b"-\xff\n" + PAIRS + b"1 BEGIN;\n1 SELECT '\xc3';\n\xff\n1 COMMIT;\n",
        ["ERROR 42601 ..", "CREATE TABLE", "1 BEGIN", "ERROR 42601 ..", "ERROR 42601 ..", "1 COMMIT"]),
    "a zero byte": (
        b"CREATE TABLE t (id text PRIMARY KEY);\n\0\n1 BEGIN;\n1 INSERT INTO t VALUES ('\0');\n\x001 COMMIT;\n"
        b"1 COMMIT;\n",
        ["CREATE TABLE", "ERROR 42601 ..", "1 BEGIN", "1 ERROR 22021 byte 22", "ERROR 42601 ..", "1 ROLLBACK"]),
    "carriage returns": (
        b"CREATE TABLE t\r(id text PRIMARY KEY);\n1 BEGIN;\r\n1 BEGIN;\n1 INSERT INTO t\rVALUES ('a\rb');\n"
        b"1 SELECT * FROM t;\n\r\n",
        ["CREATE TABLE", "ERROR 42601 ..", "1 BEGIN", "1 INSERT 0 1", "1 SELECT 1", "1 | a\\rb", "ERROR 42601 .."]),
    "a space behind a line": (b"1 BEGIN; \n1 BEGIN;\n", ["ERROR 42601 ..", "1 BEGIN"]),
    "many lines sent ahead": (
        PAIRS + b"1 BEGIN;\n1 INSERT INTO t VALUES (1, 0);\n"
        + b"1 UPDATE t SET v = v + 1;\n1 SELECT v FROM t;\n" * 2500,
        ["CREATE TABLE", "1 BEGIN", "1 INSERT 0 1"]
        + [line for n in range(1, 2501) for line in ("1 UPDATE 1", "1 SELECT 1", f"1 | {n}")]),
}


def talks(program):
    """What is wrong with the answers to what is sent at once."""
    for name, (sent, wanted) in TALKS.items():
        try:
            done = subprocess.run([program, "shell"], input=sent, capture_output=True, timeout=PATIENCE)
        except subprocess.TimeoutExpired:
            yield f"{name}: it doesn't end"
            continue
        got = done.stdout.decode("utf-8", "backslashreplace").split("\n")
        wanted = wanted + [""]
        wrong = [(g, w) for g, w in zip(got, wanted) if not (is_answer(g, w) if w else g == w)]
        if done.returncode or done.stderr or len(got) != len(wanted) or wrong:
            first = wrong[0] if wrong else (len(got), len(wanted))
            yield f"{name}: it ends with {done.returncode}, {first[0]} and not {first[1]}, {done.stderr[:200]!r}"


def ends(program):
    """What is wrong with how it ends: where nobody reads, where the output takes nothing, at bad command lines."""
    talk = Talk(program)
    talk.child.stdout.close()
    talk.send(b"1 BEGIN;\n")
    if talk.child.wait(PATIENCE) != 3:
        yield f"a closed reader: it ends with {talk.child.returncode}, and not 3"
    if talk.child.stderr.read().split(b"\n")[0] != b"device: -":
        yield "a closed reader: `device: -` isn't told"
    talk.child.stdin.close()
    talk.child.stderr.close()
    if os.path.exists("/dev/full"):
        with open("/dev/full", "wb") as full:
            done = subprocess.run(
                [program, "shell"], input=b"1 BEGIN;\n", stdout=full, stderr=subprocess.PIPE, timeout=PATIENCE)
        if (done.returncode, done.stderr.split(b"\n")[0]) != (3, b"device: -"):
            yield f"an output that takes nothing: it ends with {done.returncode} and tells {done.stderr!r}"
    for line in ("--events", "--events 0", "--events x", "--events 1 --events 2", "a b", "--free"):
        words = line.split()
        done = subprocess.run([program, "shell", *words], input=b"1 BEGIN;\n", capture_output=True, timeout=PATIENCE)
        if (done.returncode, done.stdout) != (2, b"") or not done.stderr:
            yield f"shell {line}: it ends with {done.returncode}, prints {done.stdout!r} and tells {done.stderr!r}"


def unopened(program):
    """What is wrong with what is told of a dump that isn't opened: what `restore` tells."""
    key = "id bigint PRIMARY KEY"
    head = "-- dump 2\n"
    with tempfile.TemporaryDirectory() as folder:
        for text in ("", "no dump\n", head, f"{head}CREATE TABLE t ({key});\nCREATE TABLE t ({key});\n"):
            path = os.path.join(folder, "dump")
            with open(path, "w", encoding="utf-8") as file:
                file.write(text)
            told = [
                subprocess.run([program, *words], input=b"", capture_output=True, timeout=PATIENCE)
                for words in (["shell", path], ["restore", path, "--out", os.path.join(folder, "out")])]
            shell, restore = [(done.returncode, done.stdout, done.stderr) for done in told]
            if shell != restore or shell[0] != 1 or shell[2].count(b"\n") != 2:
                yield f"a faulty dump: shell tells {shell}, and restore {restore}"


# ---- how long it takes


def lockstep(program):
    """The seconds for lines of which each is sent when the one before it was answered."""
    talk = Talk(program, ["--events", str(2 * LINES)])
    sent, told = talk.child.stdin.fileno(), talk.child.stdout.fileno()
    lines = [PAIRS, b"1 BEGIN;\n"]
    lines += [b"1 INSERT INTO t VALUES (%d, 0);\n" % key for key in range(101)] + [b"1 COMMIT;\n"]
    update, select = b"1 UPDATE t SET v = v + 1 WHERE id = %d;\n", b"1 SELECT v FROM t WHERE id = %d;\n"
    for n in range((LINES - len(lines)) // 4):
        lines += [b"1 BEGIN;\n", update % (n % 100), select % (n % 100), b"1 COMMIT;\n"]
    begun = time.monotonic()
    for line in lines:
        os.write(sent, line)
        answer = os.read(told, 4096)
        if line.startswith(b"1 SELECT"):
            while answer.count(b"\n") < 2:
                answer += os.read(told, 4096)
        if b"ERROR" in answer or not answer.endswith(b"\n"):
            talk.child.kill()
            raise ValueError(f"{line!r} is answered {answer!r}")
    seconds = time.monotonic() - begun
    talk.end()
    return seconds


def skipped(program):
    """The seconds for as many empty lines and comments before the first session line, and 100 comments of a mebibyte."""
    lines = [b"\n", b"-- %s\n" % (b"x" * 30)] * (LINES // 2) + [b"--%s\n" % (b"x" * (MOST_BYTES - 2))] * 100
    begun = time.monotonic()
    done = subprocess.run([program, "shell"], input=b"".join([PAIRS, *lines, b"1 BEGIN;\n"]), capture_output=True, timeout=PATIENCE)
    seconds = time.monotonic() - begun
    if (done.returncode, done.stdout, done.stderr) != (0, b"CREATE TABLE\n1 BEGIN\n", b""):
        raise ValueError(f"empty lines and comments: it ends with {done.returncode}, {done.stdout[-200:]!r}, {done.stderr[-200:]!r}")
    return seconds


class Pipes(Case):
    """What can't be written down as a conversation."""

    def none(self, wrong):
        """None of these may be wrong."""
        for told in wrong:
            with self.subTest(told):
                self.fail(told)

    def test_what_is_sent_at_once(self):
        self.none(talks(program()))

    def test_how_it_ends(self):
        self.none(ends(program()))

    def test_dumps_that_are_not_opened(self):
        self.none(unopened(program()))

    @timed
    def test_the_seconds_of_lines_that_are_passed_over(self):
        seconds = skipped(program())
        self.assertLess(seconds, QUICK, f"seconds of {LINES} empty lines and comments, and 100 of a mebibyte")

    @timed
    def test_the_seconds_of_lines_in_lockstep(self):
        self.assertLess(lockstep(program()), SLOW, f"seconds of {LINES} lines in lockstep")
