"""How the program's time grows with its work.

Each kind of work is run at three sizes, and measured by its processor seconds and the exponent by which these grow from the
middle size to the greatest: 1 is linear, 2 the square. Some are measured by a ratio too, to another kind of the same size. The
limits have slack, since a machine has other work: what crosses one in each of four trials is a defect, and no chance.

Workers are measured by the seconds that pass, and by those of processors. Beside them stand as many programs at once, each with
its share of the work, which are run by turns with them, on the same processors. So it matters little how many processors
there are, or what else they do. A pass that takes three times as long as it should is one too many.
"""
import contextlib
import glob
import math
import random
import re
import resource
import subprocess
import time
import unittest
from typing import Callable, NamedTuple, Optional, Tuple

from tests.program import Case, Differs, program, timed

TABLE = "CREATE TABLE t (id bigint PRIMARY KEY, v bigint NOT NULL, name text);\n"
TRIALS = 4  # of what crosses a limit
TRIES = 2
TURNS = 3  # how often passing seconds are taken, by turns with those beside them
WORKERS = 4
MOST_WORK = 1.7  # times the processor seconds of those beside workers that these may take: they do the same
PAUSE = 0.003  # seconds between two looks at workers
LEAST = 0.005  # seconds: less can't be told apart
PATIENCE = 120  # seconds for a run, which takes a few where nothing is wrong


def in_turn(transactions):
    """A script of one session, a transaction for each list of statements."""
    return "".join("1 BEGIN;\n" + "".join(f"1 {it};\n" for it in each) + "1 COMMIT;\n" for each in transactions)


def insert(key):
    return f"INSERT INTO t VALUES ({key}, 0, 'a')"


def add(key):
    return f"UPDATE t SET v = v + 1 WHERE id = {key}"


def by_key(key):
    return f"SELECT v FROM t WHERE id = {key}"


def filled(rows):
    return in_turn([[insert(key) for key in range(rows)]])


def inserts(n):
    return in_turn([insert(key)] for key in range(n))


def updates(n):
    return in_turn([add(0)] for _ in range(n))


def points(n):
    """Statements by key, on a table that grows."""
    draw = random.Random(2)
    return in_turn([insert(key), by_key(draw.randrange(key + 1)), add(draw.randrange(key + 1))] for key in range(n // 3))


def one_long(n):
    return in_turn([[insert(0)] + [add(0)] * n])


def sessions(n):
    """Eight sessions that read and update rows of 200, their lines mixed at random."""
    draw, lines, left = random.Random(5), [], {}
    for _ in range(n * 3):
        session = draw.randrange(8) + 2
        if session not in left:
            left[session] = 2
            lines.append(f"{session} BEGIN;\n")
        elif left[session] == 0:
            del left[session]
            lines.append(f"{session} COMMIT;\n")
        else:
            left[session] -= 1
            lines.append(f"{session} {by_key(draw.randrange(200))};\n{session} {add(draw.randrange(200))};\n")
    return "".join(lines)


def pairs(n):
    """Pairs of transactions in one another's way, on 1,000 rows."""
    draw, lines = random.Random(7), []
    for _ in range(n // 2):
        a, b, c = draw.sample(range(1000), 3)
        lines.append(f"1 BEGIN;\n2 BEGIN;\n1 {by_key(a)};\n2 {by_key(b)};\n1 {add(b)};\n2 {add(c)};\n1 COMMIT;\n2 COMMIT;\n")
    return "".join(lines)


def pairs_beside(begin):
    """The same, beside a transaction that stays open."""
    return lambda n: f"9 {begin};\n9 {by_key(1)};\n" + pairs(n)


def beside_40(begin, *statements):
    """The same, beside 40 transactions that stay open and have done these statements of their own keys."""
    def script(n):
        lines = "".join(f"{session} {begin};\n" + "".join(f"{session} {it(session)};\n" for it in statements) for session in range(3, 43))
        return lines + pairs(n)
    return script


def own_row(session):
    return insert(1000 + session)


def own_range(session):
    return f"SELECT count(*) FROM t WHERE id >= {session * 20} AND id < {session * 20 + 10}"


def pairs_beside_safe(n):
    """The same, beside a READ ONLY transaction that began beside a writer which then ended, so that its snapshot is safe."""
    return f"8 BEGIN;\n9 BEGIN READ ONLY;\n9 {by_key(1)};\n8 {add(1)};\n8 COMMIT;\n" + pairs(n)


def pairs_beside_polls(n):
    """The same, beside a writer that stays open and a deferrable transaction that polls after each pair."""
    return "8 BEGIN;\n9 BEGIN READ ONLY DEFERRABLE;\n" + pairs(n).replace("2 COMMIT;\n", "2 COMMIT;\n9 POLL;\n")


def pairs_beside_readers(n):
    """The same, beside 40 READ ONLY transactions that begin as they go, each beside a pair's two, and stay open."""
    lines = pairs(n).splitlines(keepends=True)
    step = len(lines) // 40 // 8 * 8
    for session in range(42, 2, -1):
        place = (session - 3) * step + 2
        lines[place:place] = [f"{session} BEGIN READ ONLY;\n", f"{session} {by_key(1)};\n"]
    return "".join(lines)


def eight_short(n):
    """Eight sessions, each with its own rows and its own transactions."""
    each = [in_turn([[add(session * 100 + key % 100)] for key in range(n // 8)]) for session in range(8)]
    return "".join(line.replace("1 ", f"{session + 1} ", 1) for lines in zip(*(it.splitlines(keepends=True) for it in each)) for session, line in enumerate(lines))


def two_bulk(n):
    """Two transactions, open at once, that insert half of the rows each."""
    lines = "".join(f"1 {insert(key)};\n2 {insert(key + n)};\n" for key in range(n // 2))
    return "1 BEGIN;\n2 BEGIN;\n" + lines + "1 COMMIT;\n2 COMMIT;\n"


def last_rows(n):
    """Ranges at the end of a table of n rows: each reads its ten rows alone."""
    return in_turn([[f"SELECT count(*) FROM t WHERE id >= {n - 10}"] * 20000])


def views(_):
    """Transactions on threads, each of which takes a view of n rows to read some of them and then commits a change."""
    return in_turn([[f"SELECT * FROM t WHERE id BETWEEN {key} AND {key}", add(key)] for key in range(4000)])


def counts(n):
    return in_turn([["SELECT count(*) FROM t WHERE v >= 5"] * 20])


def refusals(n):
    """Pairs of transactions of which one is refused, by a row and by a dangerous structure in turn."""
    row = "1 BEGIN;\n2 BEGIN;\n1 {0};\n2 {0};\n2 ROLLBACK;\n1 COMMIT;\n".format(add(1))
    skew = f"1 BEGIN;\n2 BEGIN;\n1 {by_key(1)};\n2 {by_key(2)};\n1 {add(2)};\n2 {add(1)};\n2 COMMIT;\n1 COMMIT;\n"
    return (row + skew) * (n // 2)


class Kind(NamedTuple):
    """A kind of work."""
    name: str
    rows: Optional[int]  # that are there first, whose time isn't counted; none: as many as the size
    script: Callable[[int], str]
    sizes: Tuple[int, int, int]
    most: float  # the greatest exponent that it may have
    beside: Optional[Tuple[str, float]] = None  # another kind, and the greatest ratio to it
    words: Tuple[str, ...] = ()
    command: str = "run"


KINDS = [
    Kind("one INSERT a transaction", 0, inserts, (2000, 8000, 32000), 1.6),
    Kind("one UPDATE a transaction", 1, updates, (2000, 8000, 32000), 1.6),
    Kind("INSERT, SELECT, UPDATE by key", 0, points, (2000, 8000, 32000), 1.6),
    Kind("one UPDATE a transaction, explored", 1, updates, (2000, 8000, 32000), 1.6, ("one UPDATE a transaction", 2.2), command="explore"),
    Kind("one transaction of n UPDATEs", 0, one_long, (2000, 8000, 32000), 1.6),
    Kind("8 sessions at once", 200, sessions, (1000, 4000, 16000), 1.7),
    Kind("pairs in conflict", 1000, pairs, (1000, 4000, 16000), 1.6),
    Kind("pairs beside a READ ONLY one", 1000, pairs_beside("BEGIN READ ONLY"), (1000, 4000, 16000), 1.7, ("pairs in conflict", 4)),
    Kind("pairs beside a read-write one", 1000, pairs_beside("BEGIN"), (1000, 4000, 16000), 1.7, ("pairs in conflict", 4)),
    Kind("pairs beside 40 that do nothing", 1000, beside_40("BEGIN"), (1000, 4000, 16000), 1.6, ("pairs in conflict", 4)),
    Kind("pairs beside 40 READ ONLY ones", 1000, beside_40("BEGIN READ ONLY", lambda _: by_key(1)), (1000, 4000, 16000), 1.6, ("pairs in conflict", 4)),
    Kind("pairs beside 40 that wrote a row", 1000, beside_40("BEGIN", own_row), (1000, 4000, 16000), 1.6, ("pairs in conflict", 6)),
    Kind("pairs beside 40 that read a range", 1000, beside_40("BEGIN", own_range), (1000, 4000, 16000), 1.6, ("pairs in conflict", 6)),
    Kind("pairs beside a safe READ ONLY one", 1000, pairs_beside_safe, (1000, 4000, 16000), 1.6, ("pairs in conflict", 3)),
    Kind("pairs beside 40 safe readers", 1000, pairs_beside_readers, (1000, 4000, 16000), 1.7, ("pairs in conflict", 6)),
    Kind("pairs beside one that polls", 1000, pairs_beside_polls, (1000, 4000, 16000), 1.6, ("pairs in conflict", 4)),
    Kind("8 sessions, own rows", 1000, eight_short, (1000, 4000, 16000), 1.6),
    Kind("8 sessions on threads, own rows", 1000, eight_short, (1000, 4000, 16000), 2.0, ("8 sessions, own rows", 12), ("--free",)),
    Kind("two bulk writers at once", 0, two_bulk, (2000, 8000, 32000), 1.6),
    Kind("ranges at the end of n rows", None, last_rows, (1000, 8000, 64000), 0.6),
    Kind("views of n rows", None, views, (1000, 8000, 64000), 0.6, words=("--free",)),
    Kind("refusals, each explained", 10, refusals, (250, 1000, 4000), 2.0, words=("--why",)),
    # 32,000 rows may lie in a cache that 128,000 exceed, which alone makes a row cost twice as much.
    Kind("20 counts of n rows", None, counts, (8000, 32000, 128000), 1.9),
]


def spent():
    """Processor seconds of all programs that have ended."""
    used = resource.getrusage(resource.RUSAGE_CHILDREN)
    return used.ru_utime + used.ru_stime


def seconds(program, script, command, more):
    """Processor seconds of a command on a script."""
    before = spent()
    words = [program, command, "-", "--events", "4000000", *more]
    subprocess.run(words, input=script.encode(), stdout=subprocess.DEVNULL, check=True, timeout=PATIENCE)
    return spent() - before


def least(program, script, kind):
    return min(seconds(program, script, kind.command, kind.words) for _ in range(TRIES))


def measured(program, kind):
    """The seconds at each size, and the exponent from the middle one to the greatest."""
    took = []
    for size in kind.sizes:
        before = TABLE + filled(size if kind.rows is None else kind.rows)
        spent = least(program, before + kind.script(size), kind) - least(program, before, kind)
        took.append(max(spent, LEAST))
    return took, math.log(took[2] / took[1]) / math.log(kind.sizes[2] / kind.sizes[1])


def told(kind, took, exponent, ratio):
    """A line of what was measured, and whether it is within the limits."""
    fits = exponent <= kind.most and (ratio is None or ratio <= kind.beside[1])
    times = "".join(f"{size:>9}: {spent:.3f}" for size, spent in zip(kind.sizes, took))
    beside = f"  {ratio:.1f} times {kind.beside[0]} (at most {kind.beside[1]})" if ratio is not None else ""
    return f"{times.strip()}  exponent {exponent:.2f} (at most {kind.most}){beside}", fits


# ---- seconds that pass


class Pass(NamedTuple):
    """Work whose passing seconds are told: the words of one program, those of others beside it, the greatest ratio, and how
    many of its workers run at a time at least. Those of a restore wait for the rows to be taken, and for the file."""
    name: str
    words: str
    beside: Tuple[str, ...]
    most: float
    least: float
    ends: int = 0  # with this exit status


# Four workers take about as long as four programs do for a quarter each. Sessions on threads aren't among these: beside their
# lines in order they take 1.2 times as long, and 2.9 times where 20 others want the same four processors.
PASSES = [
    Pass("explore by workers", f"explore skew --sample {WORKERS * 5000} --jobs {WORKERS}", ("explore skew --sample 5000",) * WORKERS, 2.5, 2),
    Pass("restore by workers", f"restore whole --jobs {WORKERS} --out /dev/null", ("restore part --out /dev/null",) * WORKERS, 2.5, 1.25),
    Pass("reading by workers", f"restore unended --jobs {WORKERS} --out out", ("restore part_unended --out out",) * WORKERS, 2.5, 1.4, 1),
]


def dump_of(rows):
    lines = "".join(f"{key}\t{key * 7}\tname {key}\n" for key in range(rows))
    return f"-- dump 1\n{TABLE}COPY t (id, v, name) FROM stdin;\n{lines}\\.\n-- end\n"


def files_of_passes():
    """The files that these read."""
    skew = "".join(f"{line};\n" for line in (
        "CHECKPOINT", "1 BEGIN", "2 BEGIN", f"1 {by_key(1)}", f"2 {by_key(2)}", f"1 {add(2)}", f"2 {add(1)}", "1 COMMIT", "2 COMMIT"))
    files = {"skew": TABLE + filled(5) + skew, "whole": dump_of(WORKERS * 50000), "part": dump_of(50000)}
    # Of a dump without its last line all rows are read, and nothing is written.
    unended = {name: files[dump].removesuffix("-- end\n") for name, dump in (("unended", "whole"), ("part_unended", "part"))}
    return {**files, **unended}


def at_a_time(process):
    """How many threads of a process run, or wait for a processor, on average until it ends."""
    counts = []
    while process.poll() is None:
        states = []
        for task in glob.glob(f"/proc/{process.pid}/task/*/stat"):
            with contextlib.suppress(OSError), open(task, encoding="utf-8") as file:
                states.append(file.read().rpartition(")")[2].split()[0])
        counts.append(states.count("R"))
        time.sleep(PAUSE)
    return sum(counts) / max(len(counts), 1)


def passing(program, folder, commands, ends):
    """The seconds until programs that run at once have all ended, those of processors that they take, and how many threads
    of the first run at a time."""
    begun, before = time.monotonic(), spent()
    streams = {"stdout": subprocess.DEVNULL, "stderr": subprocess.DEVNULL if ends else None}
    running = [subprocess.Popen([program, *words.split()], cwd=folder, **streams) for words in commands]
    threads = at_a_time(running[0])
    ended = [each.wait() for each in running]
    if set(ended) != {ends}:
        raise subprocess.SubprocessError(f"{commands}: {ended}")
    return time.monotonic() - begun, spent() - before, threads


def ratios(program, folder, each):
    """How many times as long as what stands beside it some work takes, in the turn in which that is least; how many times its
    processor seconds, the least of both; and how many of its threads run at a time, in the turn in which those are most."""
    turns = [tuple(passing(program, folder, commands, each.ends) for commands in ([each.words], each.beside)) for _ in range(TURNS)]
    work, beside = (min(turn[at][1] for turn in turns) for at in (0, 1))
    return min(own[0] / others[0] for own, others in turns), work / beside, max(own[2] for own, _ in turns)


class Kinds(unittest.TestCase):
    """Kinds of work: none grows faster than it may."""


class Passes(Case):
    """Work by several workers, which takes no longer than the same work by programs beside it."""

    def look_at(self, each: Pass) -> None:
        for name, text in files_of_passes().items():
            self.write(name, text)
        for _ in range(TRIALS):
            passed, work, threads = ratios(program(), self.folder, each)
            if passed <= each.most and work <= MOST_WORK and threads >= each.least:
                return
        wanted = f"at most {each.most} times as long as those beside it, {MOST_WORK} times their processor seconds, at least {each.least} threads at a time"
        raise Differs(each.name, wanted, f"{passed:.1f} times as long, {work:.1f} times their seconds, {threads:.1f} threads")


def look_at(kind: Kind) -> None:
    """A kind of work must be within its limits in one of a few trials."""
    for _ in range(TRIALS):
        try:
            took, exponent = measured(program(), kind)
        except subprocess.TimeoutExpired:
            raise Differs(kind.name, "to grow no faster than it may", f"a run of at most {kind.sizes[2]} didn't end in {PATIENCE} s") from None
        ratio = took[2] / least_of(kind.beside[0]) if kind.beside else None
        line, fits = told(kind, took, exponent, ratio)
        if fits:
            MEASURED[kind.name] = took[2]
            return
    raise Differs(kind.name, "to grow no faster than it may", line)


# What each kind took at its greatest size, once it was measured.
MEASURED = {}


def least_of(name: str) -> float:
    """What a kind takes at its greatest size: others are compared with it."""
    if name not in MEASURED:
        MEASURED[name] = measured(program(), next(kind for kind in KINDS if kind.name == name))[0][2]
    return MEASURED[name]


def name_of(name: str) -> str:
    return "test_" + re.sub(r"\W+", "_", name)


def add_tests() -> None:
    """Adds a test for each kind of work, in their order, and one for each pass."""
    for place, kind in enumerate(KINDS):
        setattr(Kinds, f"test_{place:02}_{name_of(kind.name)[5:]}", timed(lambda _, kind=kind: look_at(kind)))
    for each in PASSES:
        setattr(Passes, name_of(each.name), timed(lambda self, each=each: self.look_at(each)))


add_tests()
