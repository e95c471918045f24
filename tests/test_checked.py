"""Transcripts that the program makes of the scripts of examples/ and of random ones: each has the script's lines, and the replies that
`run` prints, and `check` has to explain it; and the same with a read value that nobody wrote, or with a number of changed rows
that there never were, which it must not explain.

Then histories of up to seven transactions on a database that isolates them badly: what `check` says is compared with a reader
of this file's own. It runs the order of a yes, and tries all orders at a no. The reasons of a no that has a certificate are
read line by line: the transactions, lines, values and numbers in them have to be those of the history, and a cycle's steps and
its name have to follow. A certificate that is written is read again; and it is turned, a number, a word, a line or two at a
time, and read with the transcript of the same transactions run one after the other, which has an order: so each of them must
be refused."""
import collections
import glob
import os
import random
import re
import subprocess
import unittest
from tempfile import TemporaryDirectory

from tests.program import TOP, Case, Differs, program, side_by_side

# How many random scripts there are, and histories.
SCRIPTS, HISTORIES = 1000, 333

def statement(chance):
    """A statement on one of two tables of few rows."""
    table, key, value = chance.choice("tu"), chance.randint(1, 5), chance.randint(1, 99)
    return chance.choice([
        f"SELECT * FROM {table}", f"SELECT v FROM {table} WHERE id = {key}",
        f"SELECT count(*) FROM {table} WHERE id BETWEEN {key} AND {key + 2}",
        f"UPDATE {table} SET v = {value} WHERE id = {key}", f"UPDATE {table} SET v = v + 1",
        f"INSERT INTO {table} VALUES ({key}, {value})", f"DELETE FROM {table} WHERE id = {key}"])

def script(chance):
    """Random transactions of a few sessions, whose lines stand in any order."""
    lines = ["CREATE TABLE t (id bigint PRIMARY KEY, v bigint);", "CREATE TABLE u (id bigint PRIMARY KEY, v bigint);"]
    sessions = []
    for session in range(1, chance.randint(2, 5)):
        own = []
        for _ in range(chance.randint(1, 3)):
            own.append(f"{session} BEGIN{chance.choice(['', '', '', ' READ ONLY'])};")
            own += [f"{session} {statement(chance)};" for _ in range(chance.randint(1, 4))]
            own.append(f"{session} {chance.choice(['COMMIT', 'COMMIT', 'COMMIT', 'ROLLBACK'])};")
        sessions.append(own)
    while any(sessions):
        lines.append(chance.choice([own for own in sessions if own]).pop(0))
    return "\n".join(lines) + "\n"

# What is turned of a reply: a row, into one that nobody wrote, and how many rows were changed, into more than there are.
TURNS = [
    (r"  ([0-9]+) \| (.*)", lambda reply: f"  {reply[1]} | " + "\t".join(["123456"] * (reply[2].count("\t") + 1))),
    (r"  ([0-9]+) UPDATE [0-9]+", lambda reply: f"  {reply[1]} UPDATE 123456"),
    (r"  ([0-9]+) DELETE [0-9]+", lambda reply: f"  {reply[1]} DELETE 123456")]

def falsified(transcript):
    """The transcript with the last reply of each such kind that a committed transaction got turned, where there is one."""
    lines = transcript.split("\n")
    ends, left = {}, list(TURNS)
    for at in reversed(range(len(lines))):
        end = re.fullmatch(r"  ([0-9]+) (COMMIT|ROLLBACK|BEGIN|ERROR .*)", lines[at])
        if end:
            ends[end[1]] = end[2]
        for form, turn in list(left):
            reply = re.fullmatch(form, lines[at])
            if reply and ends.get(reply[1]) == "COMMIT":
                left.remove((form, turn))
                yield "\n".join(lines[:at] + [turn(reply)] + lines[at + 1:])

def done(program, words, text):
    """How the program ends on a text, and what it prints."""
    run = subprocess.run([program, *words], input=text.encode(), capture_output=True, cwd=TOP)
    return run.returncode, run.stdout.decode().split("\n")

def fault(program, script):
    """What is wrong with the transcript of a script, if anything; and how many false ones were looked at."""
    status, told = done(program, ["run", "-", "--transcript"], script)
    asked = [line for line in script.split("\n")[:-1] if line and not line.startswith("--")]
    replies = done(program, ["run", "-"], script)[1][:-1]
    if status != 0 or [line[2:] for line in told if line.startswith("> ")] != asked:
        return Differs(script, "its transcript has its lines", told), 0
    if [line[2:] for line in told if line.startswith("  ")] != replies or len(told) != len(asked) + len(replies) + 1:
        return Differs(script, "its transcript has its replies", told), 0
    transcript = "\n".join(told)
    answer = done(program, ["check", "-"], transcript)[1][-2:]
    if answer != ["check yes", ""]:
        return Differs(script, "check yes", answer), 0
    false = list(falsified(transcript))
    for wrong in false:
        answer = done(program, ["check", "-"], wrong)[1][-2:]
        if answer != ["check no", ""]:
            return Differs(wrong, "check no, since a reply is false", answer), 0
    return None, len(false)

# ---- histories, and a reader of transcripts

TABLES = "".join(f"> CREATE TABLE {table} (id bigint PRIMARY KEY, v bigint);\n" for table in "tu")
LEAST, MOST = 0, 7  # transactions of a history
TURNED = 40  # certificates that are turned, and as many that say something of numbers of rows
NUMBERED = ("too-many", "too-few", "overfull", "lacking")  # the first words of lines about numbers of rows
# The first words of lines that have one form.
FORMS = (("source", "later", "common"), ("sourceless", "found"), ("too-many", "too-few"), ("cycle", "overfull", "lacking"))

def changed(rows, change):
    return {key: change(key, value) for key, value in rows.items()}

def is_met(part, key, value):
    """Whether a row satisfies one part of a condition."""
    name, how, number = part.split()
    has = value if name == "v" else key
    return {"=": has == int(number), "<": has < int(number), ">": has > int(number)}[how]

def is_chosen(statement, key, value):
    """Whether a row satisfies the condition of a statement, if it has one."""
    condition = statement.partition(" WHERE ")[2]
    if "BETWEEN" in condition:
        least, most = [int(number) for number in re.findall(r"\d+", condition)]
        return least <= key <= most
    return not condition or all(is_met(part, key, value) for part in condition.split(" AND "))

def answer(tables, statement):
    """The reply to a statement, line by line, and the tables after it; no reply where it would be refused."""
    kind, (table, *numbers) = statement.split()[0], re.findall(r"\b[tu]\b|\d+", statement)
    rows, numbers = tables[table], [int(number) for number in numbers]
    if kind == "INSERT":
        key, value = numbers
        return None if key in rows else (["INSERT 0 1"], {**tables, table: {**rows, key: value}})
    chosen = {key: value for key, value in sorted(rows.items()) if is_chosen(statement, key, value)}
    if "count" in statement:
        return ["SELECT 1", f"| {len(chosen)}"], tables
    if kind == "SELECT":
        shown = [f"| {key}\t{value}" if "*" in statement else f"| {value}" for key, value in chosen.items()]
        return [f"SELECT {len(shown)}", *shown], tables
    if kind == "DELETE":
        return [f"DELETE {len(chosen)}"], {**tables, table: {key: rows[key] for key in rows if key not in chosen}}
    new = changed(chosen, lambda _, value: value + 1 if "+" in statement else numbers[0])
    return [f"UPDATE {len(chosen)}"], {**tables, table: {**rows, **new}}

def merged(tables, view, before):
    """Tables with what a transaction has changed in its view of them since before."""
    made = {}
    for table in tables:
        rows = dict(tables[table])
        for key in {*view[table], *before[table]}:
            if view[table].get(key) != before[table].get(key):
                rows.pop(key, None)
                rows.update({key: view[table][key]} if key in view[table] else {})
        made[table] = rows
    return made

def near(chance):
    """A statement on one of few rows."""
    table, key, value = chance.choice("ttu"), chance.randint(1, 2), chance.randint(11, 99)
    return chance.choice([
        *[f"SELECT v FROM {table} WHERE id = {key}"] * 4, f"SELECT * FROM {table}", f"SELECT count(*) FROM {table} WHERE id BETWEEN 1 AND 3",
        *[f"UPDATE {table} SET v = {value} WHERE id = {key}"] * 4, f"UPDATE {table} SET v = v + 1",
        f"SELECT count(*) FROM {table} WHERE v < {value}", f"SELECT v FROM {table}", f"UPDATE {table} SET v = {value} WHERE v < 50",
        *[f"SELECT count(*) FROM {table} WHERE v > {value - 10} AND v < {value + 40}"] * 2, f"UPDATE {table} SET v = {value} WHERE v > 10 AND v < 50",
        f"DELETE FROM {table} WHERE v > {value} AND v < {value + 20}", f"SELECT v FROM {table} WHERE v > 10 AND v < {value}",
        *[f"INSERT INTO {table} VALUES ({key + 1}, {value})"] * 2, f"DELETE FROM {table} WHERE id = {key + 1}"])

def drawn(chance, count):
    """The lines of random transactions of three sessions, in the order in which they come: session, transaction, text."""
    waiting = {session: [] for session in (1, 2, 3)}
    for at in range(count):
        texts = [near(chance) for _ in range(chance.randint(2, 4))]
        if at == 0:
            texts = [f"INSERT INTO {table} VALUES ({key}, 10)" for table in "tu" for key in (1, 2)]
        waiting[1 if at == 0 else chance.randint(1, 3)] += [(at, text) for text in ("BEGIN", *texts, "COMMIT")]
    order = []
    while any(waiting.values()):
        session = 1 if waiting[1] and waiting[1][0][0] == 0 else chance.choice([one for one in waiting if waiting[one]])
        order.append((session, *waiting[session].pop(0)))
    return order

def told(order, replies):
    """A transcript of lines, whose statements have these replies; those without one are left out."""
    text, left = TABLES, {at: list(of_one) for at, of_one in replies.items()}
    for session, at, asked in order:
        reply = [asked] if asked in ("BEGIN", "COMMIT") else left[at].pop(0)
        if reply is not None:
            text += "\n".join([f"> {session} {asked};", *(f"  {session} {line}" for line in reply)]) + "\n"
    return text

def badly(order, level):
    """The replies where a transaction sees what had committed when it began, or has by now, or all that was written."""
    committed, all_written, views, replies = {"t": {}, "u": {}}, {"t": {}, "u": {}}, {}, collections.defaultdict(list)
    for _, at, asked in order:
        if asked == "BEGIN":
            views[at] = before = (committed, committed)
            continue
        view, before = views[at]
        if asked == "COMMIT":
            committed = merged(committed, view, before)
            continue
        seen = {"snapshot": view, "committed": merged(committed, view, before), "written": all_written}[level]
        done = answer(seen, asked)
        replies[at].append(done and done[0])
        if done:
            all_written = merged(all_written, done[1], seen)
            views[at] = (merged(view, done[1], seen), before)
    return replies

def one_by_one(order):
    """The replies where transactions run alone, in the order of their COMMITs."""
    tables, replies = {"t": {}, "u": {}}, collections.defaultdict(list)
    for ended in [at for _, at, asked in order if asked == "COMMIT"]:
        for asked in [asked for _, at, asked in order if at == ended][1:-1]:
            done = answer(tables, asked)
            replies[ended].append(done and done[0])
            tables = done[1] if done else tables
    return replies

def read(transcript):
    """The transactions of a transcript, by number: where each begins and ends, and its statements with their replies and
    lines."""
    transactions, opened, asked = {}, {}, {}
    for number, line in enumerate(transcript.split("\n")[:-1]):
        mark, session, text = line[:2], *line[2:].split(" ", 1)
        if mark == "> " and text.rstrip(";") == "BEGIN":
            opened[session] = len(transactions) + 1
            transactions[opened[session]] = [number, None, []]
        elif mark == "> " and session in ("1", "2", "3"):
            asked[session] = text.rstrip(";")
            if asked[session] != "COMMIT":
                transactions[opened[session]][2].append((asked[session], [], number + 1))
        elif mark == "  " and text == "COMMIT":
            transactions[opened[session]][1] = number
        elif mark == "  " and text != "BEGIN":
            transactions[opened[session]][2][-1][1].append(text)
    return transactions

def after(tables, transaction):
    """The tables after a transaction that runs alone, if it gets the replies that were recorded."""
    for asked, reply, _ in transaction[2]:
        done = answer(tables, asked)
        if not done or sorted(done[0]) != sorted(reply):
            return None
        tables = done[1]
    return tables

def counted(transcript, transactions):
    """The line that says how much was judged."""
    lines = transcript.split("\n")
    sessions = {lines[begin].split(" ")[1] for begin, _, _ in transactions.values()}
    statements = sum(len(statements) for _, _, statements in transactions.values())
    return f"judged: transactions {len(transactions)}, sessions {len(sessions)}, statements {statements}, without a reply to COMMIT 0"

def may_come(transactions, number, left):
    return all(transactions[other][1] > transactions[number][0] for other in left)

def is_order(transactions, order, tables):
    """Whether an order has all transactions, and explains them."""
    for at, number in enumerate(order):
        if not may_come(transactions, number, order[at + 1:]):
            return False
        tables = after(tables, transactions[number])
        if tables is None:
            return False
    return sorted(order) == sorted(transactions)

def has_order(transactions, tables, left):
    """Whether some order of those that are left explains them."""
    for number in left:
        rest = [other for other in left if other != number]
        if may_come(transactions, number, rest):
            made = after(tables, transactions[number])
            if made is not None and has_order(transactions, made, rest):
                return True
    return not left

# ---- why there is no order, in words

# How one comes before another, by the lines that say so.
TIME, READ, OVERWRITTEN, OTHER = "time", "read", "overwritten", "other"
SEEN = r"(\d+) read ([tu]) id = (\d+)( v)?(?: as (absent|there|\d+))? \(line (\d+)\)"
NUMBER = r"(\d+) (counted|updated|deleted) (\d+) (rows?) of ([tu])(?: where (.*))? \(line (\d+)\), "
VERBS = {"SELECT": "counted", "UPDATE": "updated", "DELETE": "deleted"}

class Untrue(Exception):
    """A line of reasons that isn't true of its transcript."""

def must(holds, line):
    if not holds:
        raise Untrue(line)

def looks(statement, table, key):
    """Whether a statement looks at a row."""
    if not re.search(rf"\b{table}\b", statement):
        return False
    if statement.startswith("INSERT"):
        return int(re.findall(r"\d+", statement)[0]) == key
    return " WHERE v" in statement or is_chosen(statement, key, 0)

def looking(transaction, table, key):
    return [answered for answered in transaction[2] if looks(answered[0], table, key)]

def writing(transaction, table, key):
    return [answered for answered in looking(transaction, table, key) if not answered[0].startswith("SELECT")]

def found(transaction, table, key):
    """What a transaction found at a key, where one reply shows that: a value, or whether there was a row."""
    for asked, reply, _ in looking(transaction, table, key):
        kind, number, rows = asked.split()[0], reply[0].split()[-1], [row[2:].split("\t") for row in reply[1:]]
        if kind == "INSERT" or number == "0" or rows == [["0"]] and "BETWEEN" in asked:
            if " WHERE v" not in asked:
                return "absent"
        elif "*" in asked and "count" not in asked:
            return next((value for at, value in rows if at == str(key)), "absent")
        elif f"WHERE id = {key}" in asked:
            return rows[0][0] if rows else "there"
        elif kind != "SELECT":
            return None
    return None

def seen(transactions, told, line):
    """The reader of a row, and the row, of which a line tells what was found."""
    number, table, key, column, value, at = told
    reader, spot = transactions[int(number)], (table, int(key))
    must(int(at) == looking(reader, *spot)[0][2], line)
    must(not (column and value in ("absent", "there")), line)
    known = found(reader, *spot)
    must((value == "absent") == (known == "absent") if known else True, line)
    must(value in (known, "there") if known not in (None, "there") else True, line)
    return int(number), spot

def wrote(transactions, number, spot, at, line):
    """The number of a writer whose first statement that may write a row stands in a line."""
    must(int(at) == writing(transactions[int(number)], *spot)[0][2], line)
    return int(number)

def by_time(transactions, told, line):
    first, end, second, begin = [int(number) for number in told]
    must((end, begin) == (transactions[first][1] + 1, transactions[second][0] + 1) and end < begin, line)
    return (first, second), TIME, None

def by_overwriting(transactions, told, line):
    reader, spot = seen(transactions, told[:6], line)
    return (reader, wrote(transactions, told[6], spot, told[7], line)), OVERWRITTEN, spot

def by_reading(transactions, told, line):
    reader, spot = seen(transactions, told[:6], line)
    return (wrote(transactions, told[6], spot, told[7], line), reader), READ, spot

def by_another(transactions, told, line):
    _, spot = seen(transactions, told[:6], line)
    source = wrote(transactions, told[6], spot, told[7], line)
    return (wrote(transactions, told[8], spot, told[9], line), source), OTHER, None

def by_all(transactions, told, line):
    reader, _ = seen(transactions, told[:6], line)
    return (int(told[6]), reader), OTHER, None

# What one line says, before the pair that follows from it.
FACTS = [
    (r"(\d+) ended \(line (\d+)\) before (\d+) began \(line (\d+)\)", by_time),
    (SEEN + r", before (\d+) wrote it \(line (\d+)\)", by_overwriting),
    (SEEN + r", as (\d+) left it \(line (\d+)\)", by_reading),
    (SEEN + r", as (\d+) left it \(line (\d+)\) and not (\d+), which wrote it before \(line (\d+)\)", by_another),
    (SEEN + r", and all who may have left it come after (\d+)", by_all)]

def name_of(transactions, cycle, known):
    """The name of the anomaly that a cycle shows, if it has one."""
    steps = list(zip(cycle, cycle[1:]))
    kinds, spots = [known[step][0] for step in steps], {known[step][1] for step in steps}
    of_two = {
        (OVERWRITTEN, OVERWRITTEN): "lost update" if len(spots) == 1 else "write skew", (OVERWRITTEN, READ): "read skew",
        (READ, READ): "circular information flow", (OVERWRITTEN, TIME): "stale read"}
    if len(steps) == 2:
        return of_two.get(tuple(sorted(kinds)))
    if kinds.count(OVERWRITTEN) != 2 or OTHER in kinds:
        return None
    only_reads = [all(asked.startswith("SELECT") for asked, _, _ in transactions[number][2]) for number in cycle]
    if len(steps) == 3:
        return "read-only anomaly" if any(only_reads) else None
    return "long fork" if len(steps) == 4 and kinds.count(READ) == 2 else None

def end_of_source(transactions, spot, value):
    """What is said of a value that nobody can have left in a row."""
    sums = [asked for transaction in transactions.values() for asked, _, _ in writing(transaction, *spot) if re.search(r" SET v = \w+ [+-] ", asked)]
    written = [[re.search(r"v = (\d+)$|v = (\d+) |, (\d+)\)", asked) for asked, _, _ in writing(transaction, *spot)]
               for transaction in transactions.values()]
    values = [[next(filter(None, one.groups())) if one else None for one in of_one] for of_one in written if of_one]
    if sums or not value or not value.isdigit() or any(of_one[-1] == value for of_one in values):
        return ", as nobody can have left it"
    any_wrote = any(value in of_one for of_one in values)
    return ", as nobody left it in the end: intermediate read" if any_wrote else ", which nobody wrote: aborted read"

def number_told(transactions, told, line):
    """The transaction and the statement of which a line tells how many rows it chose."""
    number, verb, rows, word, table, condition, at = told
    asked, reply = next(((asked, reply) for asked, reply, own in transactions[int(number)][2] if own == int(at)), ("", [""]))
    must(VERBS.get(asked.split(" ")[0]) == verb and re.search(rf"\b{table}\b", asked), line)
    must((condition or "") == asked.partition(" WHERE ")[2].lower(), line)
    must(rows == (reply[1][2:] if "count" in asked else reply[0].split()[-1]) and (word == "row") == (rows == "1"), line)
    return int(number), int(at)

def contrary(supposed):
    pair = re.fullmatch(r"(\d+) comes before (\d+)", supposed)
    return f"{pair[2]} comes before {pair[1]}" if pair else supposed

class Reasons:
    """What lines of reasons have told so far, and under which suppositions."""

    def __init__(self, transactions):
        self.transactions, self.known, self.supposed, self.numbers, self.is_closed = transactions, {}, [], [], False

    def suppose(self, supposed):
        self.supposed.append((supposed, dict(self.known)))
        self.add(supposed)

    def add(self, told):
        pair = re.fullmatch(r"(\d+) comes before (\d+)", told)
        self.known[int(pair[1]), int(pair[2])] = OTHER, None

    def is_fact(self, line):
        """Whether a line tells a pair, or a number of rows with one row among them or not."""
        fact, _, pair = line.partition(": so ")
        for form, rule in FACTS:
            told = re.fullmatch(form, fact)
            if told:
                (first, second), kind, spot = rule(self.transactions, told.groups(), line)
                must(pair == f"{first} comes before {second}", line)
                self.known[first, second] = kind, spot
                return True
        told = re.fullmatch(NUMBER + r"([tu]) id = (\d+) (not )?among them", line)
        if told:
            self.numbers.append(number_told(self.transactions, told.groups()[:7], line))
            must(told[8] == told[5], line)
        return bool(told)

    def is_end(self, line):
        """Whether a line tells a contradiction."""
        told = re.fullmatch(r"cycle ([\d ]+)(?:: (.*))?", line)
        if told:
            cycle = [int(number) for number in told[1].split()]
            must(cycle[0] == cycle[-1] and all(step in self.known for step in zip(cycle, cycle[1:])), line)
            must(told[2] == name_of(self.transactions, cycle, self.known), line)
            return True
        told = re.fullmatch(SEEN + r"(, as nobody .*|, which nobody .*)", line)
        if told:
            _, spot = seen(self.transactions, told.groups()[:6], line)
            must(told[7] == end_of_source(self.transactions, spot, told[5]), line)
            return True
        told = re.fullmatch(r"the replies of (\d+) about ([tu]) id = (\d+) can't all be \(line (\d+)\): non-repeatable read", line)
        if told:
            must(int(told[4]) == looking(self.transactions[int(told[1])], told[2], int(told[3]))[0][2], line)
            return True
        told = re.fullmatch(NUMBER + r"but (?:more were there|so many can't have been there)(: phantom)?", line)
        if told:
            number, at = number_told(self.transactions, told.groups()[:7], line)
            others = [one for one in self.numbers if one[0] == number and one[1] != at]
            must(bool(told[8]) == bool(others), line)
        return bool(told)

    def take(self, line):
        """Takes the next line: two spaces stand before it for each supposition under which it stands."""
        text, depth = line.lstrip(" "), len(self.supposed)
        if self.is_closed:
            must(depth, line)
            supposed, self.known = self.supposed.pop()
            must(line == "  " * (depth - 1) + f"so {contrary(supposed)}", line)
            self.add(contrary(supposed))
            self.is_closed = False
            return
        must(line == "  " * depth + text, line)
        if text.startswith("suppose "):
            self.suppose(text[len("suppose "):-1])
        elif not self.is_fact(text):
            must(self.is_end(text), line)
            self.is_closed = True

def untrue(transactions, lines):
    """A line of reasons that isn't true of its transcript, or doesn't follow, or isn't in its place; none where all are."""
    reasons = Reasons(transactions)
    try:
        for line, before in zip(lines, ["", *lines]):
            must(line != before, line)
            reasons.take(line)
        must(reasons.is_closed and not reasons.supposed, lines[-1])
    except (Untrue, LookupError, ValueError) as fault:
        return f"{fault}"
    return None

# ---- what is said of histories

def is_numbered(lines):
    """Whether a certificate says something of numbers of rows."""
    return any(line.split()[0] in NUMBERED for line in lines)

def turned(lines):
    """Certificates that differ in a number, a first word, a line, or the order of two lines behind the first."""
    for at in range(1, len(lines)):
        yield lines[:at] + lines[at + 1:]
        if at + 1 < len(lines) and lines[at] != lines[at + 1]:
            yield lines[:at] + [lines[at + 1], lines[at]] + lines[at + 2:]
        for number in re.finditer(r"[0-9]+", lines[at]):
            more = str(int(number[0]) + 1)
            yield lines[:at] + [lines[at][:number.start()] + more + lines[at][number.end():]] + lines[at + 1:]
        word, _, others = lines[at].partition(" ")
        for other in [other for form in FORMS if word in form for other in form if other != word]:
            yield lines[:at] + [f"{other} {others}"] + lines[at + 1:]

def checked(program, folder, name, transcript, lines=None):
    """How `check` ends with a certificate's file, what it prints, and what it says is wrong; and that file."""
    path = os.path.join(folder, name)
    if lines is not None:
        with open(path, "w", encoding="utf-8") as file:
            file.write("\n".join(lines) + "\n")
    run = subprocess.run([program, "check", "-", "--certificate", path], input=transcript.encode(), capture_output=True)
    return run.returncode, run.stdout.decode(), run.stderr.decode().split("\n")[0], path

def history(program, folder, seed):
    """What is wrong with what is said of a history, if anything; the verdict; and its certificate, with a transcript of the
    same transactions that has an order."""
    chance = random.Random(seed)
    order = drawn(chance, LEAST + seed % (MOST + 1 - LEAST))
    transcript = told(order, badly(order, chance.choice(["snapshot", "committed", "written"])))
    transactions, nothing = read(transcript), {"t": {}, "u": {}}
    status, printed, _, path = checked(program, folder, f"{seed}", transcript)
    verdict = printed.split("\n")[-2].split()[-1]
    wrong = None
    if verdict == "yes" and not is_order(transactions, [int(n) for n in printed.split("\n")[0].split()[1:]], nothing):
        wrong = "isn't explained by its order"
    if verdict == "no" and has_order(transactions, nothing, list(transactions)):
        wrong = "has an order"
    if (verdict, status) not in (("yes", 0), ("no", 5), ("unknown", 4)) or (verdict != "no" and os.path.exists(path)):
        wrong = f"ends with {status}"
    if printed.split("\n")[-3] != counted(transcript, transactions):
        wrong = f"isn't counted so: {printed}"
    if wrong or not os.path.exists(path):
        return wrong, verdict, None, transcript
    with open(path, encoding="utf-8") as file:
        lines = file.read().split("\n")[:-1]
    false = untrue(transactions, printed.split("\n")[:-3])
    if false is not None:
        wrong = f"has this reason, which isn't true or not in its place: {false}"
    if checked(program, folder, f"{seed}", transcript)[:2] != (status, printed):
        wrong = "has a certificate that isn't taken again"
    return wrong, verdict, (lines, told(order, one_by_one(order))), transcript

def taken(program, folder, name, lines, transcript):
    """Whether a certificate is taken with a transcript that has an order, or isn't refused as it should be."""
    status, printed, says, _ = checked(program, folder, name, transcript, lines)
    return status != 1 or printed != "" or not re.fullmatch(r"certificate line [1-9][0-9]*", says)

class Scripts(Case):
    """Transcripts of scripts."""

    def explained(self, scripts):
        """Each script's transcript must be explained, and not with a false reply; how many of these there were."""
        found = side_by_side(lambda named: fault(program(), named[1]), scripts)
        for (name, _), (wrong, _) in zip(scripts, found):
            with self.subTest(name):
                if wrong:
                    raise wrong
        return sum(false for _, false in found)

    def test_examples(self):
        scripts = []
        for path in sorted(glob.glob(os.path.join(TOP, "examples", "*.script"))):
            with open(path, encoding="utf-8") as file:
                scripts.append((os.path.basename(path), file.read()))
        self.assertGreater(self.explained(scripts), 0)

    def test_random_scripts(self):
        scripts = [(f"seed {seed}", script(random.Random(seed))) for seed in range(SCRIPTS)]
        self.assertGreater(self.explained(scripts), SCRIPTS)

class Histories(unittest.TestCase):
    """Histories of transactions on a database that isolates them badly."""

    @classmethod
    def setUpClass(cls):
        folder = TemporaryDirectory()
        cls.addClassCleanup(folder.cleanup)
        cls.folder = folder.name
        cls.found = side_by_side(lambda seed: history(program(), folder.name, seed), range(HISTORIES))
        cls.having = [certificate for _, _, certificate, _ in cls.found if certificate]

    def test_each_verdict_is_that_of_a_reader_beside_the_program(self):
        for seed, (wrong, verdict, _, transcript) in enumerate(self.found):
            with self.subTest(f"seed {seed}"):
                if wrong:
                    raise Differs(transcript, f"a verdict that holds, and not that this, a {verdict}, {wrong}", verdict)

    def test_there_are_both_verdicts_and_certificates_by_numbers_of_rows(self):
        verdicts = collections.Counter(verdict for _, verdict, _, _ in self.found)
        self.assertGreater(min(verdicts["yes"], verdicts["no"]), 50)
        self.assertEqual(verdicts["unknown"], 0)
        self.assertGreater(sum(is_numbered(lines) for lines, _ in self.having), 3)

    def test_certificates_are_refused_with_a_transcript_that_has_an_order(self):
        numbered = [certificate for certificate in self.having[TURNED:] if is_numbered(certificate[0])]
        tries = [(lines, transcript) for whole, transcript in self.having[:TURNED] + numbered[:TURNED] for lines in (whole, *turned(whole))]
        bad = side_by_side(lambda at: taken(program(), self.folder, f"t{at}", *tries[at]), range(len(tries)))
        for at, ((lines, transcript), is_bad) in enumerate(zip(tries, bad)):
            with self.subTest(f"certificate {at}"):
                if is_bad:
                    raise Differs(transcript + "-- with the certificate\n" + "\n".join(lines), "refused", "taken")
