"""libpgserial of the calls of these sources, compiled without proof: from C, what wrong arguments are answered, and a handle while
each request for memory is refused in turn; the examples in C and Rust; from Python the scripts and transcripts of examples and
tests, compared with what stands there and with what the program prints; and the client's tests with servers in process."""

import importlib
import os
import random
import re
import shutil
import subprocess
import sys
import tempfile
import unittest

from tests import transcripts
from tests.program import TOP, Differs, program, side_by_side
from tests.test_shell import is_answer
from tools import library
from tools.library import STRICT, C, RUST, run

NO_COMPILER = "a C compiler isn't there (Debian: gcc)"
NO_SANITIZER = "an address sanitizer isn't there (Debian: libasan8, libubsan1)"
NO_VALGRIND = "valgrind isn't there (Debian: valgrind)"
NO_RUST = "cargo isn't there (Debian: cargo)"
# The tests in C, with what they are linked with, and what they print; and what watches one.
TESTS = {"test_misuse": ([], rb"\A\Z"), "test_memory": (["-Wl,--wrap=malloc,--wrap=calloc,--wrap=realloc"], rb"\A[1-9]\d\d+ requests for memory were refused, .*\n\Z")}
VALGRIND = ["valgrind", "-q", "--leak-check=full", "--error-exitcode=9"]
# Asks for the calls, whose compilation takes half a second, and says whether it was this process that compiled them.
ASKING = """
import sys, time
sys.path.insert(0, sys.argv[1])
from tools import library

def compiles(archive):
    print("compiled")
    time.sleep(0.5)
    open(archive, "w").close()

library.KEPT, library.compile_calls = f"echo {sys.argv[2]}; echo sum", compiles
print(library.compiled_calls())
"""
# Where transcripts are, and how many schedules of a script of tests/ are run at most.
TRANSCRIPTS = ("examples/transcripts", "tests/check", "tests")
FEW = 1000
# What a script may end by that isn't done, as the program tells it, and the library's status.
ENDS = {"script line ": 1, "device: ": 6}
DEVICE = 6
# Lines whose literals are given other values, of what kinds these are, and how many are done.
BOUND_SETUP = ("CREATE TABLE t (id bigint PRIMARY KEY, v bigint, n text, b bytea);", "1 BEGIN;", "2 BEGIN;")
BOUND = (("1 INSERT INTO t VALUES (?, ?, ?, ?);", "intb"), ("2 INSERT INTO t VALUES (?, ?, ?, ?);", "intb"),
         ("1 SELECT * FROM t WHERE id BETWEEN ? AND ? AND v IS NOT NULL AND n = ?;", "iit"), ("2 SELECT count(*) FROM t WHERE v < ?;", "n"),
         ("1 UPDATE t SET v = v ?+, n = ? WHERE id = ?;", "+ti"), ("2 UPDATE t SET v = ? WHERE n <> ? AND id > ?;", "nti"),
         ("1 DELETE FROM t WHERE id = ?;", "i"), ("1 COMMIT;", ""), ("1 BEGIN;", ""), ("2 ROLLBACK;", ""), ("2 BEGIN;", ""))
ROUNDS = 2000
SEED = 7


def printed(words, script):
    """What a program prints for a script."""
    with open(script, "rb") as file:
        return run(words, stdin=file)


def has_sanitizer(folder):
    """Whether the machine's cc has an address sanitizer that runs."""
    source, program = os.path.join(folder, "nothing.c"), os.path.join(folder, "nothing")
    with open(source, "w", encoding="utf-8") as file:
        file.write("int main(void) { return 0; }\n")
    words = ["cc", "-fsanitize=address,undefined", "-o", program, source]
    return all(subprocess.run(it, capture_output=True).returncode == 0 for it in (words, [program]))


# What the example in C prints of a server that is kept.
KEPT = b"""\
CREATE TABLE
1 BEGIN
1 INSERT 0 1
1 COMMIT
2 BEGIN
2 SAFE 1
-- dump 2
CREATE TABLE oncall (doctor text PRIMARY KEY);
COPY oncall (doctor) FROM stdin;
ada
\\.
-- rows 1
-- end
1 BEGIN
1 SELECT 1
1 | ada
1 COMMIT
"""


def expected():
    """What the examples print of a script."""
    script = os.path.join(TOP, "examples/write_skew.script")
    with open(os.path.join(TOP, "examples/write_skew.out"), "rb") as file:
        return script, file.read() + b"txn 1 key 1 1 1\ntxn 2 key 2 1 2\ncheck yes\n"


def status_of(told):
    """The status of a script whose fault the program tells so; 0 where it has none."""
    return next((status for begin, status in ENDS.items() if told and told[0].startswith(begin)), 0)


def look_at_script(lib, module, script):
    """A script of tests/: raises where what is told of it differs."""
    words = dict(zip(script.words[::2], script.words[1::2]))
    events = int(words.get("--events", module.MOST_EVENTS))
    told = script.lines["! "]
    for name, call, mark in (("run", lib.run, "  "), ("audit", lib.audit, "= ")):
        want = script.text(mark)
        try:
            got, status, line = call(script.text("> "), events), 0, 0
        except module.LibraryError as error:
            got, status, line = error.text, error.status, error.line
        is_filed = any(line.startswith("OPEN ") or " DUMP " in line for line in script.lines["> "])
        if (is_filed and status == DEVICE) or (name == "audit" and not want and not told):
            continue
        case = f"{script.file}: {script.name}: {name}"
        same(case, (want, status_of(told)), (got, status), len(script.told))
        if status == 1:
            same(case, told[0], f"script line {line}")


def same(case, wanted, came, size=None):
    if wanted != came:
        raise Differs(case, wanted, came, size)


def is_plain(script):
    """Whether a script is run as it stands, in order."""
    return not script.is_checked and not {"--free", "--why", "--no-check"} & set(script.words)


def by_library(module, call):
    """What a call prints, and how it ends."""
    try:
        return str(call()), "done"
    except module.LibraryError as error:
        ends = {module.REFUSED: f"line {error.line}", module.DEVICE: "device", module.TOO_MANY: "too many"}
        return error.text, ends.get(error.status, f"status {error.status}")


def by_program(words, text):
    """What the program prints of a text, and how it ends, in the same words. It is run where no file is."""
    with tempfile.TemporaryDirectory() as folder:
        done = subprocess.run([program(), *words], input=text.encode(), cwd=folder, capture_output=True, timeout=300)
    told = done.stderr.decode().split("\n")[0]
    line = re.match(r"(?:script|transcript) (line \d+)$", told)
    end = {0: "done", 4: "done", 5: "done", 3: "device"}.get(done.returncode, line[1] if line else told)
    if told.startswith("explore: no session"):
        end = "line 0"
    elif told.startswith("explore: ") and "schedules, more than" in told:
        end = "too many"
    return done.stdout.decode(), end


def text_of(path):
    with open(os.path.join(TOP, path), encoding="utf-8", newline="") as file:
        return file.read()


def end_of_told(told):
    """How a check ends of which this stands behind `! `."""
    return told[0][len("transcript "):] if told and told[0].startswith("transcript ") else "device" if told else "done"


def transcripts_of():
    """The transcripts of examples and tests: a name, the text, whether time counts, and what `check` prints and how it ends,
    where that stands there."""
    for folder in TRANSCRIPTS:
        for name in sorted(os.listdir(os.path.join(TOP, folder))):
            path = os.path.join(folder, name)
            if not name.endswith(".transcript"):
                continue
            if folder.startswith("examples"):
                yield name, text_of(path), True, (text_of(path[:-len("transcript")] + "out"), "done")
                continue
            for script in transcripts.scripts_of(os.path.join(TOP, path)):
                if script.is_checked and set(script.words) - {"--no-time"}:
                    continue
                known = (script.text("= "), end_of_told(script.lines["! "])) if script.is_checked else None
                text = "".join(line + "\n" for line in script.told)
                yield f"{name}: {script.name}", text, "--no-time" not in script.words, known


def scripts_to_explore():
    """The scripts of examples and tests: a name, the text, how many schedules are run at most, and what `explore` prints and
    how it ends, where that stands there."""
    for name in sorted(os.listdir(os.path.join(TOP, "examples"))):
        if name.endswith(".script"):
            text = text_of(f"examples/{name}")
            known = name.startswith("explored_") and (text_of(f"examples/{name[:-len('script')]}out"), "done")
            yield name, text, 1_000_000, known
            if known:
                yield name, text, 1, ("", "too many")
                yield name, text, (1 << 32) + 1, known
    for path in transcripts.files():
        for script in transcripts.scripts_of(path):
            yield f"{script.file}: {script.name}", script.text("> "), FEW, None


def literal(value):
    """A value as it is written in a statement."""
    if value is None:
        return "NULL"
    if isinstance(value, bytes):
        return "'\\x" + value.hex() + "'"
    return str(value) if isinstance(value, int) else "'" + value.replace("'", "''") + "'"


def written_out(line, values):
    """A line with values for its places; behind `?+` a number is added."""
    parts = re.split(r"(\?\+|\?)", line)
    left = list(values)
    for at in range(1, len(parts), 2):
        value = left.pop(0)
        parts[at] = literal(value) if parts[at] == "?" else f"{'-' if value < 0 else '+'} {abs(value)}"
    return "".join(parts)


def look_at_check(lib, module, name, text, has_time, want):
    """A transcript: raises where its check differs."""
    got = by_library(module, lambda: lib.check(text, has_time))
    same(f"{name}: check", want, got, len(text))
    if got[1] == "done":
        same(f"{name}: the answer of its check", got[0].splitlines()[-1], f"check {lib.check(text, has_time).answer}")


def hold(lib, script):
    """A conversation of tests/shell."""
    with lib.open() as talk:
        for sent, wanted in script.turns:
            got = talk.ask(sent).splitlines()
            if len(got) != len(wanted) or not all(map(is_answer, got, wanted)):
                raise Differs(f"{script.name}: `{sent}`", wanted, got)


def read_once(lib, module, script):
    """A script whose lines are each read once and then done: raises where it differs from its replies."""
    with lib.open() as talk, lib.open() as other:
        for line in script.text("> ").splitlines():
            want = talk.ask(line)
            try:
                other.execute(other.prepare(line))
                got = other.answer()
            except module.LibraryError as error:
                got = error.text or other.ask(line)
            same(f"{script.file}: {script.name}: `{line}`, read once", want, got)


class Kept(unittest.TestCase):
    """The calls that are compiled and kept."""

    def test_those_who_need_them_at_once_wait_for_one_compilation(self):
        with tempfile.TemporaryDirectory() as folder:
            asking = [subprocess.Popen([sys.executable, "-B", "-c", ASKING, TOP, folder], stdout=subprocess.PIPE, text=True) for _ in range(3)]
            told = [each.communicate(timeout=60)[0] for each in asking]
            self.assertEqual("".join(told).count("compiled\n"), 1)
            self.assertEqual([it.splitlines()[-1] for it in told], [os.path.join(folder, "library/sum.a")] * 3)


@unittest.skipUnless(shutil.which("cc"), NO_COMPILER)
class Made(unittest.TestCase):
    """The library, in a folder."""

    folder = ""

    @classmethod
    def setUpClass(cls):
        if not Made.folder:
            folder = tempfile.TemporaryDirectory()
            unittest.addModuleCleanup(folder.cleanup)
            archive = os.path.join(folder.name, "liblibrary_c.a")
            library.build(folder.name, library.compiled_calls())
            Made.folder = folder.name


class FromC(Made):
    """The tests and the example in C."""

    def compiled(self, name, *flags):
        """A test in C, compiled with these words: its path."""
        made = os.path.join(self.folder, name)
        run(["cc", *STRICT, "-g", *flags, f"-I{self.folder}", "-o", made, f"{C}/{name}.c", f"{C}/pgserial.c",
             f"{self.folder}/libpgserial.a", "-lpthread", *TESTS[name][0]])
        return made

    def sanitized(self, name):
        """A test in C that tells of no fault, as an address sanitizer watches it and that of undefined behaviour."""
        if not has_sanitizer(self.folder):
            self.skipTest(NO_SANITIZER)
        self.assertRegex(run([self.compiled(name, "-fsanitize=address,undefined", "-fno-sanitize-recover=all")]), TESTS[name][1])

    def watched(self, name):
        """A test in C that tells of no fault, as valgrind watches it."""
        self.assertRegex(run([*VALGRIND, self.compiled(name)]), TESTS[name][1])

    def example(self, name, *words):
        """The example, compiled with these words: its path."""
        made = os.path.join(self.folder, name)
        run(["cc", *STRICT, "-O2", f"-I{self.folder}", "-o", made, f"{C}/example.c", *words])
        return made

    def shared(self):
        return self.example("shared", f"-L{self.folder}", "-lpgserial", f"-Wl,-rpath,{self.folder}")

    def test_wrong_arguments(self):
        self.sanitized("test_misuse")

    def test_refused_memory(self):
        self.sanitized("test_memory")

    @unittest.skipUnless(shutil.which("valgrind"), NO_VALGRIND)
    def test_wrong_arguments_under_valgrind(self):
        self.watched("test_misuse")

    @unittest.skipUnless(shutil.which("valgrind"), NO_VALGRIND)
    def test_refused_memory_under_valgrind(self):
        self.watched("test_memory")

    def test_the_example(self):
        script, want = expected()
        self.assertEqual(printed([self.example("static", f"{self.folder}/libpgserial.a")], script), want + KEPT)

    def test_the_example_with_the_shared_library(self):
        script, want = expected()
        self.assertEqual(printed([self.shared()], script), want + KEPT)

    @unittest.skipUnless(shutil.which("valgrind"), NO_VALGRIND)
    def test_the_example_under_valgrind(self):
        script, want = expected()
        self.assertEqual(printed([*VALGRIND, self.shared()], script), want + KEPT)


class FromRust(Made):
    """The package for Rust, and its examples, by the folder's static library."""

    def cargo(self, *words, **how):
        """What cargo prints, without a network."""
        if not shutil.which("cargo") or subprocess.run(["cargo", "--version"], capture_output=True).returncode:
            self.skipTest(NO_RUST)
        environment = {**os.environ, "CARGO_TARGET_DIR": os.path.join(self.folder, "target"), "PGSERIAL_LIB_DIR": self.folder, "RUSTFLAGS": "-D warnings"}
        return run(["cargo", *words, "--offline", "--locked", "--quiet"], cwd=RUST, env=environment, **how)

    def test_the_example(self):
        script, want = expected()
        with open(script, "rb") as file:
            self.assertEqual(self.cargo("run", "--example", "script", stdin=file), want)

    def test_its_own_tests(self):
        """Those of its modules, its examples, and of the example in its first page."""
        told = self.cargo("test").decode()
        passed = [int(count) for count in re.findall(r"test result: ok. (\d+) passed; 0 failed; 0 ignored", told)]
        self.assertEqual((len(passed), told.count("test result:")), (4, 4), told)
        self.assertGreaterEqual(sum(passed), 9, told)

    def test_a_folder_that_has_none(self):
        """Where the library isn't found, what is said names the variable."""
        asked = {**os.environ, "CARGO_TARGET_DIR": os.path.join(self.folder, "none"), "PKG_CONFIG": "/nonexistent"}
        asked.pop("PGSERIAL_LIB_DIR", None)
        self.cargo("--version")
        done = subprocess.run(["cargo", "check", "--offline", "--locked"], cwd=RUST, env=asked, capture_output=True, text=True)
        self.assertNotEqual(done.returncode, 0)
        self.assertIn("name the folder that has it by PGSERIAL_LIB_DIR", done.stderr)


class FromPython(Made):
    """Scripts, transcripts and conversations."""

    @classmethod
    def setUpClass(cls):
        super().setUpClass()
        sys.path.insert(0, os.path.join(TOP, "clients/python"))
        cls.addClassCleanup(sys.path.remove, sys.path[0])
        cls.module = importlib.import_module("pgserial.library")
        cls.library = cls.module.Library(os.path.join(cls.folder, "libpgserial.so"))
        cls.scripts = [script for path in transcripts.files() for script in transcripts.scripts_of(path) if is_plain(script)]

    def test_scripts(self):
        for script in self.scripts:
            with self.subTest(f"{script.file}: {script.name}"):
                look_at_script(self.library, self.module, script)

    def test_a_line_that_is_left_out_is_seen(self):
        script = next(script for script in self.scripts if script.lines["= "])
        for mark in ("  ", "= "):
            kept, script.lines[mark] = script.lines[mark], script.lines[mark][1:]
            with self.subTest(mark):
                self.assertRaises(Differs, look_at_script, self.library, self.module, script)
            script.lines[mark] = kept

    def test_checks(self):
        for name, text, has_time, known in transcripts_of():
            if known:
                with self.subTest(name):
                    look_at_check(self.library, self.module, name, text, has_time, known)

    def test_a_turned_check_is_seen(self):
        name, text, has_time, known = next(it for it in transcripts_of() if it[3])
        self.assertRaises(Differs, look_at_check, self.library, self.module, name, text, has_time, (known[0][1:], known[1]))

    def test_checks_beside_the_program(self):
        asked = [(name, text, words) for name, text, _, _ in transcripts_of() for words in ([], ["--no-time"])]
        told = side_by_side(lambda it: by_program(["check", "-", *it[2]], it[1]), asked)
        for (name, text, words), want in zip(asked, told):
            with self.subTest(name):
                look_at_check(self.library, self.module, name, text, not words, want)

    def test_explore(self):
        for name, text, most, known in scripts_to_explore():
            if known:
                with self.subTest(name):
                    same(f"{name}: explore", known, by_library(self.module, lambda: self.library.explore(text, most_schedules=most)))

    def test_explore_beside_the_program(self):
        asked = list(scripts_to_explore())
        told = side_by_side(lambda it: by_program(["explore", "-", "--most", str(it[2])], it[1]), asked)
        for (name, text, most, _), want in zip(asked, told):
            with self.subTest(name):
                same(f"{name}: explore", want, by_library(self.module, lambda: self.library.explore(text, most_schedules=most)))

    def test_conversations(self):
        for script in [script for path in transcripts.files(transcripts.HELD) for script in transcripts.scripts_of(path)]:
            filed = any(script.lines[mark] for mark in ("! ", "< ", "| "))
            if not script.words and not filed and not any(sent.startswith("\\") for sent, _ in script.turns):
                with self.subTest(script.name):
                    hold(self.library, script)

    def test_lines_that_are_read_once(self):
        for script in self.scripts:
            with self.subTest(f"{script.file}: {script.name}"):
                read_once(self.library, self.module, script)

    def test_values_in_the_place_of_literals(self):
        """Lines with other values in the place of their literals are answered as the lines with these values written out."""
        draw = random.Random(SEED)
        kinds = {"i": lambda: draw.randrange(-2, 9), "n": lambda: draw.choice([None, draw.randrange(-9, 9)]), "+": lambda: draw.randrange(-5, 6),
                 "t": lambda: draw.choice([None, "", "a", "it's", "\u00e4\t"]), "b": lambda: draw.choice([None, b"", b"\xff\0"])}
        with self.library.open() as talk, self.library.open() as other:
            for conversation in (talk, other):
                for line in BOUND_SETUP:
                    conversation.ask(line)
            lines = [(line, kind, other.prepare(written_out(line, [kinds[each]() for each in kind]))) for line, kind in BOUND]
            for _ in range(ROUNDS):
                line, kind, prepared = draw.choice(lines)
                values = [kinds[each]() for each in kind]
                want = talk.ask(written_out(line, values))
                try:
                    other.execute(prepared, *values)
                    got = other.answer()
                except self.module.LibraryError as error:
                    got = error.text
                with self.subTest(line):
                    same(written_out(line, values), want, got)
            self.assertEqual(talk.serial_order(), other.serial_order())

    def test_numbers_that_a_call_would_cut(self):
        """Cut to their kind's bits, they would be session 1, the line 1, and room for many events."""
        with self.library.open() as talk:
            for line in ("CREATE TABLE t (id bigint PRIMARY KEY);", "1 BEGIN READ ONLY DEFERRABLE;", "1 POLL;"):
                talk.ask(line)
            line = talk.prepare("2 BEGIN;")
            for call, number in ((talk.dump, 2**32 + 1), (lambda it: talk.execute(line._replace(number=it)), 2**64 + line.number), (self.library.open, -5)):
                with self.subTest(number):
                    self.assertRaises(OverflowError, call, number)
            self.assertIn("CREATE TABLE t", talk.dump(1))
            talk.execute(line)
            self.assertEqual(talk.answer(), "2 BEGIN\n")

    def test_the_client_in_process(self):
        words = [sys.executable, "-B", "-W", "error::ResourceWarning", os.path.join(TOP, "clients/python/test_pgserial.py")]
        environment = {**os.environ, "PGSERIAL_LIBRARY": os.path.join(self.folder, "libpgserial.so")}
        done = subprocess.run(words, env=environment, capture_output=True, text=True, timeout=300)
        self.assertEqual(done.returncode, 0, done.stderr)
