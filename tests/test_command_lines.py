"""Command lines, and what is said of them: mistaken ones, which of two faults is told, the words behind a fault's first line, and help."""

from tests.room import FULL, Room

TABLE = "CREATE TABLE t (id bigint PRIMARY KEY"
RETURNED = "the line ends in a carriage return (CRLF): lines end in a newline alone"
ONE_LINE = "CREATE TABLE must stand on one line in a script, up to its `;`"
COMMENT = "a comment needs a line of its own that starts with `--`, outside CREATE TABLE"
LINE_BEGINS = "expected a session's number and a space, as in `1 BEGIN;`, or CREATE TABLE, OPEN or `--`"
NO_DUMP = "not a pgserial dump, or its lines end in carriage returns (CRLF): the first line must be `-- dump 2` or `-- dump 1`"
# What is told of a script behind the first line, and the words behind `run`.
EXPLAINED = (
    ("`int`: unknown type: use bigint, text or bytea", "CREATE TABLE t (id int PRIMARY KEY);\n", ()),
    ("`select`: reserved word: choose another name", "CREATE TABLE select (id bigint PRIMARY KEY);\n", ()),
    ("`)`: expected the first column as name type PRIMARY KEY [REFERENCES table]", "CREATE TABLE t (id bigint);\n", ()),
    ("`NOT`: expected a column as name type [NOT NULL] [REFERENCES table]", f"{TABLE}, v text REFERENCES t NOT NULL);\n", ()),
    ("duplicate column name", f"{TABLE}, id text);\n", ()),
    ("too many columns: at most 32", TABLE + "".join(f", c{number} text" for number in range(1, 33)) + ");\n", ()),
    ("there is a table of this name already", f"{TABLE});\n{TABLE});\n", ()),
    ("the table that it references doesn't come before it", f"{TABLE}, p bigint REFERENCES p);\n", ()),
    ("the column's type isn't that of the key that it references", f"{TABLE});\nCREATE TABLE u (id text PRIMARY KEY REFERENCES t);\n", ()),
    ("the line must end in `;`", "1 BEGIN\n", ()),
    ("the line must end in `;`", f"{TABLE})\n", ()),
    *((RETURNED, line + "\r\n", ()) for line in ("1 BEGIN;", "1 COMMIT ;", "CHECKPOINT;", "OPEN dump;", "")),
    *((ONE_LINE, lines, ()) for lines in (f"{TABLE},\n", "CREATE TABLE t (\n    id bigint PRIMARY KEY\n);\n", "create table t\n(id bigint primary key);\n")),
    *((COMMENT, f"{begun} -- the key\n", ()) for begun in ("CREATE TABLE t (", "CREATE TABLE t (id bigint", TABLE, f"{TABLE},", f"{TABLE}) ;", " ")),
    ("`-`: expected a column as name type [NOT NULL] [REFERENCES table]", f"{TABLE}, v bigint - -1);\n", ()),
    ("no newline at the end of the last line", "1 BEGIN;", ()),
    ("byte order mark: write UTF-8 without one", b"\xef\xbb\xbf1 BEGIN;\n", ()),
    ("invalid UTF-8 from byte 26 on, counted from 0", b"1 INSERT INTO t VALUES ('x\xff');\n", ()),
    ("`65`: a session's number is 1 to 64, without leading zeros", "65 BEGIN;\n", ()),
    (f"`BEGIN`: {LINE_BEGINS}", "BEGIN;\n", ()),
    ("`COMMIT`: expected `;` right after this word", "1 COMMIT ;\n", ()),
    ("`WAIT`: WAIT works only with `run --free`: use POLL here", "1 WAIT;\n", ()),
    ("CHECKPOINT isn't allowed with --free", "CHECKPOINT;\n", ("--free",)),
    ("CREATE TABLE must come before the first session's line, and not with OPEN", f"1 BEGIN;\n{TABLE});\n", ()),
    (f"`1\\x1b[31mBEGIN;`: {LINE_BEGINS}", "1\x1b[31mBEGIN;\n", ()),
    (f"`{'x' * 200}`: {LINE_BEGINS}", "x" * 900 + ";\n", ()),
    ("no such file or directory", "OPEN gone;\n", ()),
    ("is a directory", "OPEN .;\n", ()),
    (NO_DUMP, "OPEN begun;\n", ()),
    ("unexpected line, a carriage return at its end (CRLF), or the dump ends too early", "OPEN crossed;\n", ()),
    ("no such file or directory", "OPEN a\x1b[31mb;\n", ()),
)
# What the system says of a transcript's path, how that is shown, and the path.
UNOPENED = (
    ("gone", "gone", "no such file or directory"), (".", ".", "is a directory"),
    ("dump/file", "dump/file", "not a directory"), ("a\x1b[31mb", "a\\x1b[31mb", "no such file or directory"),
    ("x" * 250, "x" * 200 + "..", "no such file or directory"),
)
MISTAKEN = """
run
run gone more
run gone --free --free
run gone --no-check
run gone --free --no-check --no-check
run gone --free --no-check --why
run gone --events
run gone --events 0
run late --events 4294967296
run gone --events x
run gone --events 1 --events 2
run --jobs 2 gone
run gone --free --jobs 2
run --transcript
run gone --transcript --transcript
run gone --transcript --free
run gone --transcript --why
run gone --why --free
--free gone
--jobs 2
audit
audit gone more
audit gone --free
audit gone --no-check
audit gone --events 0
audit begun --jobs 2
restore
restore gone
restore --out gone/out
restore gone --out
restore gone --out gone/out --jobs 0
restore begun --out gone/out --jobs 65
restore gone --out gone/out --jobs x
restore gone --out gone/out --jobs 1 --jobs 2
restore dump --out out --out gone/out
restore dump --out out --events 1
restore gone --out gone/out --free
restore gone --out gone/out --no-check
draw
draw gone
draw --out gone/out
draw gone more --out gone/out
draw gone --out gone/out --dot --dot
draw gone --out gone/out --events 0
check
check gone more
check gone --no-time --no-time
check gone --json --json
check gone --steps 0
check gone --steps 4294967296
check gone --certificate
walk gone
""".strip().split("\n")
# What stands on one of the two streams behind some words.
SAYS = (
    ("Usage: pgserial run <SCRIPT>", "run"), ("Usage: pgserial audit <SCRIPT>", "audit"), ("Usage: pgserial restore --out <FILE> <DUMP>", "restore"),
    ("progress goes to standard error", "--help"), ("progress goes to standard error", "restore --help"),
    *(("1 to 4294967295 [default: 100000]", f"{command} --help") for command in ("run", "audit", "explore", "draw", "shell")),
    *(("1 to 64 [default: 1]", f"{command} --help") for command in ("restore", "explore")),
    ("1 to 9223372036854775807 [default: 1000000]", "explore --help"), ("0 to 9223372036854775807; ", "explore --help"),
    ("1 to 4294967295 [default: 1000000]", "check --help"),
)


class Explained(Room):
    """The words after a fault's first line, in which no control byte stands."""

    def test_faulty_scripts(self) -> None:
        self.write("crossed", "".join(self.read("dump").decode().splitlines(keepends=True)[:4]))
        for said, script, words in EXPLAINED:
            self.write("faulty", script)
            done = self.run_it("run", "faulty", *words)
            lines = done.stderr.decode().split("\n")
            self.same(f"{script!r}", (said, True), ("\n".join(lines[1:-1]), all(" " <= sign <= "~" for line in lines for sign in line)))

    def test_transcripts_whose_lines_end_in_carriage_returns(self) -> None:
        """Each such line is refused, but a CREATE TABLE, which may have one before its end, and what is passed over."""
        passed = [f"> {TABLE});", "-- a comment", "= txn 1"]
        refused = ["", "> 1 BEGIN;", "  1 BEGIN", "> 1 SELECT * FROM t;", "  1 SELECT 1", "  1 | 1", "> CHECKPOINT;", "  CHECKPOINT"]
        lines = [*passed, *refused]
        for number in range(1, len(lines) + 1):
            self.write("recorded", "".join(f"{line}\r\n" if at == number else f"{line}\n" for at, line in enumerate(lines, 1)))
            wanted = f"transcript line {number}\n{RETURNED}\n" if number > len(passed) else ""
            self.same(f"line {number}", wanted, self.run_it("check", "recorded").stderr.decode())
        self.write("recorded", "".join(f"{line}\r\n" for line in lines))
        self.same("each line", f"transcript line 4\n{RETURNED}\n", self.run_it("check", "recorded").stderr.decode())

    def test_a_dump_whose_lines_end_in_carriage_returns(self) -> None:
        """Its first line is refused, by which it would be known."""
        self.write("dumped", self.read("dump").replace(b"\n", b"\r\n").decode())
        self.write("opens_dumped", "OPEN dumped;\n")
        for words in (("restore", "dumped", "--out", "out"), ("run", "opens_dumped")):
            self.same(words[0], f"dump line 1: 22P04\n{NO_DUMP}\n", self.run_it(*words).stderr.decode())

    def test_transcripts_that_are_not_there(self) -> None:
        for path, shown, said in UNOPENED:
            self.write("opens_recorded", f"> OPEN {path};\n")
            for name in (path, "opens_recorded"):
                done = self.ends(3, f"device: {shown}", "", "check", name)
                self.same(f"why {path}", [said], done.stderr.decode().splitlines()[1:])


class Unread(Room):
    """Transcripts that are refused at a line."""

    def unread(self, line: int, text: str) -> None:
        self.write("recorded", text)
        self.ends(1, f"transcript line {line}", "", "check", "recorded")

    def test_replies_that_nothing_has_asked_for(self) -> None:
        self.unread(1, "  CHECKPOINT\n")
        self.unread(1, "  ERROR 55000\n")
        self.unread(3, "> CHECKPOINT;\n  CHECKPOINT\n  CHECKPOINT\n")

    def test_counts_with_leading_zeros(self) -> None:
        begun = f"> {TABLE});\n> 1 BEGIN;\n  1 BEGIN\n"
        for count in ("01", "00", "001"):
            self.unread(5, f"{begun}> 1 SELECT * FROM t;\n  1 SELECT {count}\n  1 | 1\n> 1 COMMIT;\n  1 COMMIT\n")
            self.unread(5, f"{begun}> 1 DELETE FROM t;\n  1 DELETE {count}\n> 1 COMMIT;\n  1 COMMIT\n")


class CommandLines(Room):
    """Command lines alone."""

    def mistaken(self, *words: object) -> None:
        """The program must end with 2, print nothing, and tell something."""
        done = self.run_it(*words)  # type: ignore[arg-type]
        self.same(f"{words}", (2, b"", True), (done.returncode, done.stdout, bool(done.stderr)))

    def test_mistaken_ones(self) -> None:
        for line in MISTAKEN:
            self.mistaken(*line.split())
        self.mistaken("run", b"a\xff")

    def test_mistaken_ones_come_before_what_a_script_has_wrong(self) -> None:
        for script in ("late", "opens_gone", "opens_no_dump", "dumps_to_full"):
            self.mistaken("run", script, "--jobs", "2")
            self.mistaken("run", script, "--free", "--jobs", "2")
            self.mistaken("audit", script, "--events", "0")

    def test_what_is_said_of_usage_and_numbers(self) -> None:
        for text, line in SAYS:
            done = self.run_it(*line.split())
            self.same(f"{line}: {text}", True, text.encode() in done.stdout + done.stderr)

    def test_help_is_printed(self) -> None:
        for line in ("--help", "run --help", "audit -h", "restore --help", "help run"):
            done = self.run_it(*line.split())
            self.same(line, (0, True, b""), (done.returncode, bool(done.stdout), done.stderr))

    def test_help_for_a_command_is_asked_for_in_two_ways(self) -> None:
        for command in ("run", "audit", "restore", "check", "draw", "explore", "shell"):
            self.ends(0, "", self.run_it(command, "--help").stdout.decode(), "help", command)

    def test_the_version(self) -> None:
        for word in ("--version", "-V"):
            self.ends(0, "", "pgserial 0.1.0\n", word)


class FirstOfTwo(Room):
    """Which of two faults is told."""

    def test_of_scripts_that_are_run_audited_or_drawn(self) -> None:
        for words in (("run",), ("audit",), ("draw", "--out", "picture")):
            self.ends(1, "script line 3", "", *words, "late")
            self.ends(1, "script line 4", "", *words, "dumps_late")
            self.ends(1, "script line 2", "", *words, "late_too")
            self.ends(3, "device: gone", "", *words, "opens_gone_and_dumps")
            self.ends(1, "dump line 1: 22P04", "", *words, "opens_no_dump")
        self.is_gone("picture")

    def test_with_a_transcript(self) -> None:
        self.ends(3, "device: gone", "", "run", "gone", "--transcript")
        self.ends(1, "script line 3", "", "run", "late", "--transcript")
        self.ends(3, "device: gone", "", "run", "opens_gone", "--transcript")
        self.ends(1, "dump line 1: 22P04", "", "run", "opens_no_dump", "--transcript")

    def test_on_threads(self) -> None:
        self.ends(1, "script line 2", "", "run", "opens_gone_and_checkpoints", "--free")
        self.ends(3, "device: gone", "", "run", "opens_gone_and_checkpoints")
        self.ends(3, "device: gone", "", "run", "opens_gone_and_dumps", "--free")
        self.ends(3, "device: gone", "", "run", "late", "--free")
        self.ends(1, "dump line 1: 22P04", "", "run", "opens_no_dump", "--free")

    def test_of_a_dump_and_the_file_that_it_is_restored_to(self) -> None:
        for path in ("gone/out", ".", FULL):
            self.ends(3, "device: gone", "", "restore", "gone", "--out", path)
            self.ends(3, "device: .", "", "restore", ".", "--out", path)
            self.ends(1, "dump line 1: 22P04", "", "restore", "begun", "--out", path)

