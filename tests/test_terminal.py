"""`pgserial shell` at a pseudo-terminal: sessions that are typed, that of docs/SHELL.md among them, and what is shown of each line."""

import contextlib
import os
import pty
import re
import select
import subprocess
import tempfile
import time

from tests import pictures
from tests.program import TOP, Case, Differs, program

PATIENCE = 30  # seconds for an answer
WAITING = 0.4  # seconds for which an answer waits whose time is told


class Terminal:
    """A shell at a pseudo-terminal."""

    def __init__(self, program, words=(), folder=None):
        self.master, slave = pty.openpty()
        self.child = subprocess.Popen(
            [program, "shell", *words], stdin=slave, stdout=slave, stderr=slave, cwd=folder, start_new_session=True)
        os.close(slave)

    def until(self, wanted):
        """What is shown until it ends so, as a regular expression; raises where that doesn't come."""
        read, shown, limit = b"", "", time.monotonic() + PATIENCE
        while not re.search(wanted + r"\Z", shown):
            if not select.select([self.master], [], [], max(0, limit - time.monotonic()))[0]:
                raise ValueError(f"at a terminal `{wanted}` doesn't come behind {shown!r}")
            try:
                piece = os.read(self.master, 65536)
            except OSError:  # the other side is closed
                piece = b""
            if not piece:
                raise ValueError(f"at a terminal it ends before `{wanted}` comes, behind {shown!r}")
            read += piece
            shown = read.decode("utf-8", "backslashreplace").replace("\r\n", "\n")
        return shown

    def type(self, line, prompt):
        """What is shown behind a line that is typed, up to the prompt; without the line's echo."""
        left = line.encode() + b"\n"
        while left:
            left = left[os.write(self.master, left):]
        shown = self.until(r"(?:\A|\n)" + re.escape(prompt))
        return shown.partition("\n")[2][: -len(prompt)]

    def end(self, typed):
        """The status at the end."""
        os.write(self.master, typed)
        status = self.child.wait(PATIENCE)
        os.close(self.master)
        return status


# What is typed, the prompt that follows, and what must be shown between, as a regular expression.
TYPED = [
    ("create table doctor (id bigint primary key, name text);", "1=> ", r"CREATE TABLE\n"),
    ("BEGIN;", "1*=> ", r"1 BEGIN\n"),
    ("insert into doctor values (1, 'ada');", "1*=> ", r"1 INSERT 0 1\n"),
    ("insert into doctor values (20, null);", "1*=> ", r"1 INSERT 0 1\n"),
    ("select * from doctor;", "1*=> ", r" id \| name ?\n----\+------\n 1  \| ada *\n 20 \| \\N *\n\(2 rows\)\n"),
    ("select * from nurse;", "1!=> ", r"1 ERROR 42P01 byte 14 [^\n]*undefined_table[^\n]*\n"),
    ("Commit;", "1=> ", r"1 ROLLBACK\n"),
    ("64 begin read only", "1=> ", r"64 BEGIN\n"),
    ("64", "64*=> ", r""),
    ("\\?", "64*=> ", r"(?s).*\\serial.*"),
    ("\\nothing", "64*=> ", r"[^\n]+\n"),
    ("\\d nurse", "64*=> ", r"[^\n]+\n"),
    ("-- a comment", "64*=> ", r""),
    ("", "64*=> ", r""),
    ("65", "64*=> ", r"[^\n]+\n"),
]

# What somebody types who knows psql.
HELP = r"(?s)SELECT .*\\serial.*\\q, exit, quit +ends the shell\n[^\n]*`rlwrap pgserial shell`\.\n"
CLOSED = r"ERROR 42601: CREATE TABLE must come before the first transaction: [^\n]*\n"
SLIP = r"ERROR 42601: not a valid statement or command: \\\? lists them\n"
STUMBLES = [
    ("help", "1=> ", HELP),
    ("Help;", "1=> ", HELP),
    ("create table t (id int primary key)", "1=> ", r"ERROR 42601: [^\n(]*int[^\n(]*\n"),
    ("create table t;", "1=> ", r"ERROR 42601: [^\n]+\n"),
    ("create table t (", "1-> ", r""),
    ("  id bigint primary key,", "1-> ", r""),
    ("\\?", "1=> ", HELP),
    ("CREATE  TABLE t", "1-> ", r""),
    ("(id bigint primary key,", "1-> ", r""),
    ("-- what it is worth, (in cents);", "1-> ", r""),
    ("", "1-> ", r""),
    ("\tv bigint", "1-> ", r""),
    (");", "1=> ", r"CREATE TABLE\n"),
    ("create table o (id bigint", "1-> ", r""),
    ("primary key;", "1=> ", r"ERROR 42601: [^\n]+\n"),
    ("\\timing on", "1=> ", r"Timing is on\.\n"),
    ("\\timing ON", "1=> ", r"Timing is on\.\n"),
    ("2 begin", "1=> ", r"2 BEGIN\nTime: \d+\.\d{3} ms\n"),
    ("\\timing perhaps", "1=> ", r"\\timing takes on or off\n"),
    ("\\timing off", "1=> ", r"Timing is off\.\n"),
    ("\\timing off;", "1=> ", r"Timing is off\.\n"),
    ("\\timing", "1=> ", r"Timing is on\.\n"),
    ("\\timing", "1=> ", r"Timing is off\.\n"),
    ("\\draw", "1=> ", r"\\draw FILE: missing file name\n"),
    ("\\dump;", "1=> ", r"\\dump FILE: missing file name\n"),
    ("\\i ", "1=> ", r"\\i FILE: missing file name\n"),
    ("create table u (id bigint primary key)", "1=> ", CLOSED),
    ("\\autocommit", "1=> ", r"Autocommit is off\.\n"),
    ("insert into t values (1, 1);", "1=> ", r"1 ERROR 25P01 \(no_active_sql_transaction: no transaction is open; send BEGIN, on a line of its own\)\n"),
    ("\\autocommit perhaps", "1=> ", r"\\autocommit takes on or off\n"),
    ("\\autocommit ON;", "1=> ", r"Autocommit is on\.\n"),
    ("begin", "1*=> ", r"1 BEGIN\n"),
    ("2 insert into t values (1, 1, 1);", "1*=> ",
     r"2 ERROR 42601: not a valid statement, or it doesn't have a value for each column: byte 14\n"),
    ("selec * from t", "1!=> ", r"1 ERROR 42601: not a valid statement: byte 0\n"),
    ("rollback", "1=> ", r"1 ROLLBACK\n"),
    ("begin", "1*=> ", r"1 BEGIN\n"),
    ("Update t set id = 2;", "1!=> ",
     r"1 ERROR 42601: not a valid statement, or it sets the key, or a column twice: byte 13\n"),
]

# A write skew, and why its second commit was refused.
REFUSED = [
    ("create table doctor (id bigint primary key, oncall bigint not null)", "1=> ", r"CREATE TABLE\n"),
    ("begin", "1*=> ", r"1 BEGIN\n"),
    ("insert into doctor values (1, 1);", "1*=> ", r"1 INSERT 0 1\n"),
    ("insert into doctor values (2, 1);", "1*=> ", r"1 INSERT 0 1\n"),
    ("commit", "1=> ", r"1 COMMIT\n"),
    ("begin", "1*=> ", r"1 BEGIN\n"),
    ("2 begin", "1*=> ", r"2 BEGIN\n"),
    ("select * from doctor;", "1*=> ", r"(?s).*\(2 rows\)\n"),
    ("2 select count(*) from doctor where oncall = 1;", "1*=> ", r"(?s).*\(1 row\)\n"),
    ("2 update doctor set oncall = 0 where id = 1;", "1*=> ", r"2 UPDATE 1\n"),
    ("update doctor set oncall = 0 where id = 2;", "1*=> ", r"1 UPDATE 1\n"),
    ("2 commit", "1*=> ", r"2 COMMIT\n"),
    ("commit", "1=> ", r"1 ERROR 40001 cause 3 2 3 \(serialization_failure: run the transaction again\)\n"),
    ("\\why", "1=> ",
     r"1 # transaction 3 \(session 2, line 6\) read doctor whole \(line 8\); "
     r"transaction 2 \(session 1, line 5\) wrote doctor id = 2 \(line 10\)\n"
     r"1 # transaction 2 read doctor whole \(line 7\); transaction 3 wrote doctor id = 1 \(line 9\)\n"
     r"1 # so each would have to come before the other; 3 committed first\. Run transaction 2 again\.\n"),
    ("\\d doctor", "1=> ",
     r" column \| kind   \| null        \| references ?\n-+\+-+\+-+\+-+\n id     \| bigint \| primary key \| +\n oncall \| bigint \| not null    \| +\n"
     r"\(2 rows\)\n"),
]

# What is typed by habit from psql and from sqlite3's shell: a page.
OF_PSQL = r"invalid command: [^\n]*\n"
HABITS = [
    ("\\l", "1=> ", OF_PSQL),
    (".tables", "1=> ", r"TABLES 0\n"),
    (".mode column", "1=> ", r"commands begin with a backslash here: [^\n]*\n"),
    ("create table account (", "1-> ", r""),
    ("  id bigint primary key,  -- the number (of four digits);", "1-> ", r""),
    ("  owner text not null,\t-- whose it is", "1-> ", r""),
    ("  cents bigint", "1-> ", r""),
    (");", "1=> ", r"CREATE TABLE\n"),
    ("create table entry (id bigint primary key, account bigint references account,", "1-> ", r""),
    ("  cents bigint)", "1=> ", r"CREATE TABLE\n"),
    ("\\dt", "1=> ", r"CREATE TABLE account [^\n]*\nCREATE TABLE entry [^\n]*\nTABLES 2\n"),
    ("creat table t (id bigint primary key);", "1=> ", SLIP),
    ("insert into account values (1, 'ada', 100);", "1=> ", r"1 INSERT 0 1\n"),
    ("insert into account values (2, 'bob;--', 50); insert into account values (3, 'eve''s; ;', null);", "1=> ", r"1 INSERT 0 1\n1 INSERT 0 1\n"),
    ("select *", "1-> ", r""),
    ("  from account  -- all of them; really", "1-> ", r""),
    ("", "1-> ", r""),
    ("  where cents >= 50;", "1=> ", r" id \| owner +\| cents \n-+\+-+\+-+\n 1  \| ada +\| 100 +\n 2  \| bob;-- \| 50 +\n\(2 rows\)\n"),
    ("select count(*) from account", "1-> ", r""),
    (";", "1=> ", r" count \n-+\n 3 +\n\(1 row\)\n"),
    ("select owner from account where id = 3; -- only this", "1=> ", r" owner +\n-+\n eve's; ; \n\(1 row\)\n"),
    ("\\x", "1=> ", r"rows are always shown as a table, each on its line\n"),
    ("update account set cents = 0", "1-> ", r""),
    ("\\r", "1=> ", r"Query buffer reset \(cleared\)\.\n"),
    ("begin isolation level serializable; commit;", "1=> ", r"1 BEGIN\n1 COMMIT\n"),
    ("START TRANSACTION;", "1*=> ", r"1 BEGIN\n"),
    ("2 update account set cents = 5 where id = 1;", "1*=> ", r"2 UPDATE 1\n"),
    ("update account set cents = cents + 1 where id = 1;", "1!=> ", r"1 ERROR 40001 [^\n]*run the transaction again\)\n"),
    ("END;", "1=> ", r"1 ROLLBACK\n"),
    ("2 begin; 2 update account set cents = 6 where id = 1;", "1=> ", r"2 BEGIN\n2 UPDATE 1\n"),
    ("update account set cents = 7 where id = 1;", "1=> ",
     r"1 ERROR 40001 row [^\n]*run the transaction again\)\nthe statement was rolled back: run it again\n"),
    ("2 abort", "1=> ", r"2 ROLLBACK\n"),
    ("create table audit (id bigint primary key);", "1=> ", CLOSED),
    ("selec * from account;", "1=> ", SLIP),
    ("select * from acount;", "1=> ", r"1 ERROR 42P01 byte 14 [^\n]*\n"),
    ("insert into account values (1, 'dup', 0);", "1=> ", r"1 ERROR 23505 [^\n]*\n"),
    ("insert into account values (9, 'not ended);", "1=> ", r"1 ERROR 42601: [^\n]*\n"),
    ("begin; update account set cents = 0 where id = 2; rollback;", "1=> ", r"1 BEGIN\n1 UPDATE 1\n1 ROLLBACK\n"),
    ("begin; select id from account where id = 1", "1*-> ", r"1 BEGIN\n"),
    (";commit", "1=> ", r" id \n-+\n 1  \n\(1 row\)\n1 COMMIT\n"),
    ("\\e", "1=> ", r"no editor here: [^\n]*\\i FILE\n"),
    ("\\set AUTOCOMMIT off", "1=> ", r"no variables here: \\autocommit [^\n]*\n"),
    ("\\h", "1=> ", HELP),
    ("delete from account where id = 3; select id from account;", "1=> ", r"1 DELETE 1\n id \n-+\n 1  \n 2  \n\(2 rows\)\n"),
    ("\\i windows", "1=> ",
     r"1=> select id from account\n1-> where id = 2;\n id \n-+\n 2  \n\(1 row\)\n1=> delete from account where id = 2; select count\(\*\) from account;\n"
     r"1 DELETE 1\n count \n-+\n 1 +\n\(1 row\)\n"),
    ("\\serial", "1=> ", r"(?s)txn .*\ncheck yes\n"),
    ("2; begin; \\i windows", "2*=> ", r"2 BEGIN\n\\i must be typed on a line of its own: [^\n]*\n"),
]

# Statements by themselves, beside transactions of other sessions.
ALONE = [
    ("create table t (id bigint primary key, v bigint);", "1=> ", r"CREATE TABLE\n"),
    ("insert into t values (1, 0); insert into t values (2, 0);", "1=> ", r"1 INSERT 0 1\n1 INSERT 0 1\n"),
    ("2 begin; 2 select count(*) from t where v = 0;", "1=> ", r"2 BEGIN\n count \n-+\n 2 +\n\(1 row\)\n"),
    ("2 insert into t values (3, 0);", "1=> ", r"2 INSERT 0 1\n"),
    ("3 select * from t where id = 3;", "1=> ", r" id \| v \n-+\+-+\n\(0 rows\)\n"),
    ("2 commit; select id from t where id = 3;", "1=> ", r"2 COMMIT\n id \n-+\n 3  \n\(1 row\)\n"),
    ("\\timing on", "1=> ", r"Timing is on\.\n"),
    ("select v from t where id = 1;", "1=> ", r" v \n-+\n 0 \n\(1 row\)\nTime: \d+\.\d{3} ms\n"),
    ("\\timing off", "1=> ", r"Timing is off\.\n"),
    ("begin", "1*=> ", r"1 BEGIN\n"),
    ("insert into t values (4, 0); selec * from t;", "1!=> ", r"1 INSERT 0 1\n1 ERROR 42601: [^\n]*\n"),
    ("insert into t values (5, 0);", "1!=> ", r"1 ERROR 25P02 [^\n]*\n"),
    ("commit", "1=> ", r"1 ROLLBACK\n"),
    ("select count(*) from t;", "1=> ", r" count \n-+\n 3 +\n\(1 row\)\n"),
    ("\\autocommit off", "1=> ", r"Autocommit is off\.\n"),
    ("select count(*) from t;", "1=> ", r"1 ERROR 25P01 [^\n]*\n"),
]

# There must be room for all that a transaction asks, and for its end.
FEW = r"line ignored: --events is too small for a transaction; [^\n]*\n"
TABLE = ("create table t (id bigint primary key)", "1=> ", r"CREATE TABLE\n")
ONE_EVENT = [TABLE, ("begin", "1=> ", FEW), ("insert into t values (1);", "1=> ", FEW), ("\\dump d", "1=> ", FEW),
             ("create table u (id bigint primary key)", "1=> ", r"CREATE TABLE\n")]
TWO_EVENTS = [TABLE, ("insert into t values (1);", "1=> ", FEW), ("\\dump d", "1=> ", FEW), ("begin", "1*=> ", r"1 BEGIN\n(the history is nearly full[^\n]*\n)?"),
              ("2 begin", "1*=> ", r"line ignored: the history is full[^\n]*\n"), ("insert into t values (1);", "1*=> ", r"line ignored: the history is full[^\n]*\n"),
              ("commit", "1=> ", r"1 COMMIT\n(the history is nearly full[^\n]*\n)?"), ("begin", "1=> ", r"line ignored: the history is full[^\n]*\n"), ("checkpoint", "1=> ", r"CHECKPOINT\n"),
              ("begin", "1*=> ", r"1 BEGIN\n(the history is nearly full[^\n]*\n)?"), ("rollback", "1=> ", r"1 ROLLBACK\n(the history is nearly full[^\n]*\n)?")]

# Lines of which a terminal passes on a part alone, and those that are just short enough.
LONG = r"ERROR 54000: the line is longer than a terminal passes on; use \\i FILE\n"
PASSED_ON = 4094
LONG_LINES = [
    ("create table t (id bigint primary key, v bigint)", "1=> ", r"CREATE TABLE\n"),
    ("begin".ljust(4200) + ";", "1=> ", LONG),
    ("begin", "1*=> ", r"1 BEGIN\n"),
    ("insert into t values (1, 1);", "1*=> ", r"1 INSERT 0 1\n"),
    ("insert into t values (2, 1);", "1*=> ", r"1 INSERT 0 1\n"),
    ("delete from t where v = 1" + " " * 4100 + "and id = 1;", "1*=> ", LONG),
    ("delete from t where id = 1".ljust(PASSED_ON) + ";", "1*=> ", LONG),
    ("-- a comment".ljust(4300), "1*=> ", LONG),
    ("delete from t where id = 1".ljust(PASSED_ON - 1) + ";", "1*=> ", r"1 DELETE 1\n"),
    ("select * from t;", "1*=> ", r" id \| v ?\n----\+---\n 2  \| 1 \n\(1 row\)\n"),
    ("\\i long", "1*=> ", r"(?s)1\*=> delete [^\n]*\n1 DELETE 1\n"),
]

# Names in letters of any case; characters of two columns and of none; those that would control the terminal.
SHOWN = [
    ("create table Doctor (id bigint primary key, name text)", "1=> ", r"CREATE TABLE\n"),
    ("\\d DOCTOR", "1=> ",
     r" column \| kind   \| null        \| references ?\n-+\+-+\+-+\+-+\n id     \| bigint \| primary key \| +\n name   \| text   \| +\| +\n\(2 rows\)\n"),
    ("begin", "1*=> ", r"1 BEGIN\n"),
    ("insert into doctor values (1, '\u65e5\u672c');", "1*=> ", r"1 INSERT 0 1\n"),
    ("insert into doctor values (2, 'e\u0301');", "1*=> ", r"1 INSERT 0 1\n"),
    ("insert into doctor values (3, 'abcdef');", "1*=> ", r"1 INSERT 0 1\n"),
    ("select * from doctor;", "1*=> ",
     " id \\| name   \n----\\+--------\n 1  \\| \u65e5\u672c   \n 2  \\| e\u0301      \n 3  \\| abcdef \n\\(3 rows\\)\n"),
    ("update doctor set name = '\u009b31m\u00e9\u0085' where id = 3;", "1*=> ", r"1 UPDATE 1\n"),
    ("select name from doctor where id = 3;", "1*=> ", " name *\n-+\n \\\\x9b31m\u00e9\\\\x85 \n\\(1 row\\)\n"),
    ("update doctor set name = 'a\u202eb\u202ac\u2066d\u2069\u2029\u2065\u206a' where id = 3;", "1*=> ", r"1 UPDATE 1\n"),
    ("select name from doctor where id = 3;", "1*=> ",
     " name +\n-+\n a\\\\u202eb\\\\u202ac\\\\u2066d\\\\u2069\u2029\u2065\u206a *\n\\(1 row\\)\n"),
    ("\\i \u009b31m", "1*=> ", r"\\x9b31m: no such file, or it can't be read\n"),
    ("\\draw no/\u009b31m", "1*=> ", r"no/\\x9b31m can't be written\n"),
]

# A row that reads like a refusal is none, and no code is named in it; that of a refusal is.
LIKE_ERRORS = [
    ("create table t (id bigint primary key, word text)", "1=> ", r"CREATE TABLE\n"),
    ("begin", "1*=> ", r"1 BEGIN\n"),
    ("insert into t values (1, 'ERROR 40001');", "1*=> ", r"1 INSERT 0 1\n"),
    ("insert into t values (2, 'ERROR 25P01 row');", "1*=> ", r"1 INSERT 0 1\n"),
    ("select word from t;", "1*=> ", r" word *\n-+\n ERROR 40001 *\n ERROR 25P01 row *\n\(2 rows\)\n"),
    ("select * from t;", "1*=> ", r" id \| word *\n-+\+-+\n 1  \| ERROR 40001 *\n 2  \| ERROR 25P01 row *\n\(2 rows\)\n"),
    ("3 rollback", "1*=> ", r"3 ERROR 25P01 \(no_active_sql_transaction: no transaction is open; send BEGIN, on a line of its own\)\n"),
]

# Why a transaction was refused that is asked for behind a checkpoint alone, and whose lines are counted from the one before.
BEHIND = [
    ("create table t (id bigint primary key)", "1=> ", r"CREATE TABLE\n"),
    ("3 begin", "1=> ", r"3 BEGIN\n"),
    ("3 insert into t values (9);", "1=> ", r"3 INSERT 0 1\n"),
    ("3 commit", "1=> ", r"3 COMMIT\n"),
    ("checkpoint", "1=> ", r"CHECKPOINT\n"),
    ("begin", "1*=> ", r"1 BEGIN\n"),
    ("2 begin", "1*=> ", r"2 BEGIN\n"),
    ("insert into t values (1);", "1*=> ", r"1 INSERT 0 1\n"),
    ("2 insert into t values (1);", "1*=> ", r"2 ERROR 40001 row[^\n]*\n"),
    ("2 rollback", "1*=> ", r"2 ROLLBACK\n"),
    ("commit", "1=> ", r"1 COMMIT\n"),
    ("checkpoint", "1=> ", r"CHECKPOINT\n"),
    ("begin", "1*=> ", r"1 BEGIN\n"),
    ("\\why", "1*=> ",
     r"2 # transaction 2 \(session 1, line 1\) has written t id = 1 and hasn't ended\n"
     r"2 # so the first to write the row goes on\. Run transaction 3 again\.\n"),
]

# Why a transaction was refused is told as it was then, whatever comes behind it.
HOLDER = r"2 # transaction 1 \(session 1, line 1\) has written t id = 1 and hasn't ended\n2 # so the first to write the row goes on\. Run transaction 2 again\.\n"
RECALLED = [
    ("create table t (id bigint primary key)", "1=> ", r"CREATE TABLE\n"),
    ("\\why", "1=> ", r"no serialization failure yet\n"),
    ("begin", "1*=> ", r"1 BEGIN\n"),
    ("insert into t values (1);", "1*=> ", r"1 INSERT 0 1\n"),
    ("2 begin", "1*=> ", r"2 BEGIN\n"),
    ("2 insert into t values (1);", "1*=> ", r"2 ERROR 40001 row[^\n]*\n"),
    ("\\why", "1*=> ", HOLDER),
    ("2 rollback", "1*=> ", r"2 ROLLBACK\n"),
    ("commit", "1=> ", r"1 COMMIT\n"),
    ("\\why", "1=> ", HOLDER),
    ("checkpoint", "1=> ", r"CHECKPOINT\n"),
    ("begin", "1*=> ", r"1 BEGIN\n"),
    ("\\why", "1*=> ", HOLDER),
]

# What is left out before a transaction begins: a slip must not end the time in which tables are created.
LEFT_OUT = r"line ignored: CREATE TABLE or OPEN must come first, then BEGIN\n"
EARLY = [
    ("select 1;", "1=> ", LEFT_OUT),
    ("begin", "1=> ", LEFT_OUT),
    ("checkpoint", "1=> ", LEFT_OUT),
    ("poll", "1=> ", LEFT_OUT),
    ("65", "1=> ", LEFT_OUT),
    ("\\dump d", "1=> ", LEFT_OUT),
    ("creat table t (id bigint primary key)", "1=> ", SLIP),
    ("create table t (id bigint primary key)", "1=> ", r"CREATE TABLE\n"),
    ("create table u (", "1-> ", r""),
    ("  id bigint primary key, n varchar(20),", "1-> ", r""),
    ("  m bigint", "1-> ", r""),
    (");", "1=> ", r"ERROR 42601: [^\n]+\n"),
    ("\\autocommit off", "1=> ", r"Autocommit is off\.\n"),
    ("insert into t values (1);", "1=> ", LEFT_OUT),
    ("creat table t (id bigint primary key)", "1=> ", LEFT_OUT),
    ("\\autocommit on", "1=> ", r"Autocommit is on\.\n"),
    ("2 beginning", "1=> ", SLIP),
    ("create table u (id bigint primary key)", "1=> ", r"CREATE TABLE\n"),
    ("\\dump d", "1=> ", r"1 DUMP\n"),
    ("insert into u values (1);", "1=> ", r"1 INSERT 0 1\n"),
]

# The last events are kept for the ends of transactions, of which a dump is one.
USED = r"line ignored: the history is full \(--events\); COMMIT or ROLLBACK each transaction, then CHECKPOINT makes room\n"
FULL = [
    ("create table t (id bigint primary key)", "1=> ", r"CREATE TABLE\n"),
    ("begin", "1*=> ", r"1 BEGIN\n"),
    ("2 begin", "1*=> ", r"2 BEGIN\n"),
    ("insert into t values (1);", "1*=> ", r"1 INSERT 0 1\n"),
    ("wait", "1*=> ", r"ERROR 42601: [^\n]*WAIT[^\n]*\n"),
    ("\\dump a b", "1*=> ", r"a dump's path can't contain spaces\n"),
    ("\\dump d", "1*=> ", r"3 WAIT\nnothing was dumped: [^\n]+\n"),
    ("\\dump d", "1*=> ", USED),
    ("insert into t values (2);", "1*=> ", USED),
    ("5 commit", "1*=> ", USED),
    ("3 begin", "1*=> ", USED),
    ("selec", "1*=> ", USED),
    ("\\d", "1*=> ", r"CREATE TABLE[^\n]+\nTABLES 1\n"),
    ("Commit", "1=> ", r"1 COMMIT\n"),
    ("checkpoint", "1=> ", r"ERROR 55000 [^\n]*\n"),
    ("2 rollback", "1=> ", r"2 ROLLBACK\n(the history is nearly full[^\n]+\n)?"),
    ("begin", "1=> ", USED),
    ("checkpoint", "1=> ", r"CHECKPOINT\n"),
    ("begin", "1*=> ", r"1 BEGIN\n"),
    ("select * from t;", "1*=> ", r" id ?\n----\n 1 *\n\(1 row\)\n"),
    ("\\i marked", "1=> ", r"1\*=> rollback\n1 ROLLBACK\n"),
]


def documented():
    """The session that docs/SHELL.md shows, in the form of TYPED; it ends with what ends the shell."""
    with open(os.path.join(TOP, "docs/SHELL.md"), encoding="utf-8") as file:
        lines = file.read().split("```")[1].split("\n")[2:-1]
    turns = []
    for line in lines:
        prompt = re.match(r"\d+[*!]?[=-]> ", line)
        if prompt:
            turns.append((prompt[0], line[len(prompt[0]):], []))
        else:
            turns[-1][2].append(re.escape(line) + "\n")
    return [(typed, follows[0], "".join(shown)) for (_, typed, shown), follows in zip(turns, turns[1:])]


def typed_as(turns, last, words=()):
    """Types a session at a terminal that is ended so, of a shell with these words: what each line shows, beside what is wanted."""
    with tempfile.TemporaryDirectory() as folder:
        with open(os.path.join(folder, "long"), "w", encoding="utf-8") as file:
            file.write("delete from t where v = 1".ljust(2 * PASSED_ON) + "and id = 2;\n")
        with open(os.path.join(folder, "marked"), "w", encoding="utf-8-sig") as file:
            file.write("rollback\n")
        with open(os.path.join(folder, "windows"), "w", encoding="utf-8", newline="\r\n") as file:
            file.write("select id from account\nwhere id = 2;\ndelete from account where id = 2; select count(*) from account;\n")
        with at_a_terminal(words, folder) as terminal:
            for line, prompt, wanted in turns:
                shown = terminal.type(line, prompt)
                yield line, wanted, shown
            status = terminal.end(last)
            yield f"status behind {last!r}", "0", f"{status}"


@contextlib.contextmanager
def at_a_terminal(words=(), folder=None):
    """A shell at a terminal, which is ended where something is wrong."""
    terminal = Terminal(program(), words, folder)
    try:
        terminal.until(r"(?:\A|\n)1=> ")
        yield terminal
    except BaseException:
        terminal.child.kill()
        terminal.child.wait()
        raise


# A write skew, whose second COMMIT is refused, from session 1's prompt.
SKEW = [
    ("begin", "1*=> "), ("2 begin", "1*=> "), ("select id from t where id = 1;", "1*=> "), ("2 select id from t where id = 2;", "1*=> "),
    ("insert into t values (2);", "1*=> "), ("2 insert into t values (1);", "1*=> "), ("commit", "1=> "), ("2 commit", "1=> ")]
WHY = """2 # transaction {0} (session 1, line {2}) read t id = 1 (line {4}); transaction {1} (session 2, line {3}) wrote t id = 1 (line {7})
2 # transaction {1} read t id = 2 (line {5}); transaction {0} wrote t id = 2 (line {6})
2 # so each would have to come before the other; {0} committed first. Run transaction {1} again.
"""


def drawn_there(shell, folder):
    """What is wrong with what `\\why` and `\\draw` tell of events behind a checkpoint, and behind more than are drawn."""
    drawing, asked = pictures, []

    def picture():
        told = shell.type("\\draw out", "1=> ")
        if told != "drawn to out\n":
            yield f"at a terminal a picture is told as {told!r}"
        with open(os.path.join(folder, "out"), encoding="utf-8") as file:
            shown = drawing.Picture(file.read())
        first = max(len(asked) - drawing.MOST, 0)
        titles = [f"line {number}: {line};" for number, line in list(enumerate(asked, 1))[first:]]
        if shown.titles() != titles:
            yield f"at a terminal a picture has the events {shown.titles()}, and not {titles}"
        if ("since its last checkpoint" in shown.heading, "the last" in shown.heading) != (True, first > 0):
            yield f"at a terminal a picture of {len(asked)} events has the heading {shown.heading}"

    def skew(number):
        first = len(asked) + 1
        for line, prompt in SKEW:
            shell.type(line, prompt)
            words = line.rstrip(";").replace("begin", "BEGIN").replace("commit", "COMMIT")
            asked.append(words if words[0].isdigit() else f"1 {words}")
        why = shell.type("\\why", "1=> ")
        if why != WHY.format(number, number + 1, *range(first, first + 6)):
            yield f"at a terminal it is told behind {first - 1} events why a transaction was refused: {why!r}"

    for line in ("create table t (id bigint primary key)", "3 begin", "3 insert into t values (9);", "3 commit", "checkpoint"):
        shell.type(line, "1=> ")
    # A checkpoint that is refused takes nothing away, and a line that is refused as none adds nothing.
    for line, prompt in ("begin", "1*=> "), ("checkpoint", "1*=> "), ("WAIT", "1*=> "), ("commit", "1=> "):
        shell.type(line, prompt)
    asked += ["1 BEGIN", "1 COMMIT"]
    yield from skew(3)
    yield from picture()
    with open(os.path.join(folder, "many"), "w", encoding="utf-8") as file:
        file.write("delete from t;\n".join(["begin\n", "commit\n"]) + "begin\ncommit\n" * 205)
    shell.type("\\i many", "1=> ")
    asked += ["1 BEGIN", "1 delete from t", "1 COMMIT"] + ["1 BEGIN", "1 COMMIT"] * 205
    yield from skew(211)
    yield from picture()


# What is refused with a code, where session 1 has a transaction alone.
REFUSALS = {
    "22003": "insert into t values (9223372036854775808, 1, null, '');", "22P02": "insert into t values (1, 1, '0', '');",
    "22P04": "open none", "23502": "insert into t values (1, 1, null, null);", "23503": "insert into t values (1, 2, null, '');",
    "23505": "insert into p values (1);", "25001": "begin", "25006": "2 insert into p values (3);", "25P01": "3 commit",
    "25P02": "4 select * from p;", "42703": "select w from p;", "42804": "insert into p values ('');", "42P01": "select * from q;", "55000": "poll"}


def named_there(shell, folder):
    """What is wrong with the names of codes, which are those of docs/FORMATS.md."""
    with open(os.path.join(TOP, "docs/FORMATS.md"), encoding="utf-8") as file:
        names = dict(re.findall(r"^\| (\w{5}) \| (\w+) \|", file.read(), re.M))
    with open(os.path.join(folder, "none"), "w", encoding="utf-8") as file:
        file.write("no dump\n")

    def told(line):
        os.write(shell.master, line.encode() + b"\n")
        return shell.until(r"\n1[*!]?=> ").partition("\n")[2].rpartition("\n")[0]

    shown = {"22P04": told(REFUSALS["22P04"])}
    told("create table p (id bigint primary key)")
    told("create table t (id bigint primary key, p bigint references p, raw bytea, w text not null)")
    for line in ("begin", "insert into p values (1);", "commit", "2 begin read only", "4 begin", "4 select * from q;"):
        told(line)
    for code, line in REFUSALS.items():
        if code not in shown:
            told("begin")
            shown[code] = told(line)
            told("rollback")
    for code, answer in shown.items():
        if not re.fullmatch(rf"(\d )?ERROR {code}( [^\n(]+)? \({names[code]}: [^\n]+\)", answer):
            yield f"at a terminal `{REFUSALS[code]}` shows {answer!r}, and not the name {names[code]}"


def timed_there(shell, folder):
    """What is wrong with how long an answer took, as it is told: less than the time for which it had to wait for a reader of
    its pipe, or more than has passed here."""
    shell.type("create table t (id bigint primary key)", "1=> ")
    shell.type("\\timing on", "1=> ")
    for line in ("begin read only deferrable", "poll"):
        shell.type(line, "1*=> ")
    pipe = os.path.join(folder, "pipe")
    os.mkfifo(pipe)
    begun = time.monotonic()
    os.write(shell.master, b"dump 1 1 pipe\n")
    time.sleep(WAITING)
    with open(pipe, "rb") as reader:
        reader.read()
    shown = shell.until(r"ms\n1\*=> ")
    passed = time.monotonic() - begun
    told = re.search(r"1 DUMP\nTime: (\d+\.\d{3}) ms\n1\*=> \Z", shown)
    if not told or not WAITING / 2 <= float(told[1]) / 1000 <= passed:
        yield f"at a terminal an answer that took {passed:.3f} s, of which {WAITING} s waiting, is told as {shown!r}"


class Sessions(Case):
    """Sessions that are typed."""

    def type(self, turns, last, words=()):
        """Each line of a session must show what is wanted, a regular expression."""
        for line, wanted, shown in typed_as(turns, last, words):
            with self.subTest(line):
                if not re.fullmatch(wanted, shown):
                    raise Differs(f"`{line}`", wanted, shown)

    def test_that_of_the_documents(self):
        self.type(documented(), b"\\q\n")

    def test_of_a_first_user(self):
        self.type(TYPED, b"\x04")

    def test_of_somebody_who_knows_psql(self):
        self.type(STUMBLES, b"Exit\n")

    def test_of_somebody_who_types_by_habit(self):
        self.type(HABITS, b".quit\n")

    def test_of_statements_by_themselves(self):
        self.type(ALONE, b"\\q;\n")

    def test_with_room_for_one_event_or_two(self):
        self.type(ONE_EVENT, b"\\q\n", ("--events", "1"))
        self.type(TWO_EVENTS, b"\\q\n", ("--events", "2"))

    def test_with_a_refused_commit(self):
        self.type(REFUSED, b"\\q\n")

    def test_with_long_lines(self):
        self.type(LONG_LINES, b"quit;\n")

    def test_with_names_and_wide_characters(self):
        self.type(SHOWN, b"\x04")

    def test_with_refusals_that_are_recalled(self):
        self.type(RECALLED, b"\x04")

    def test_with_rows_like_errors(self):
        self.type(LIKE_ERRORS, b"\x04")

    def test_with_a_reason_behind_a_checkpoint(self):
        self.type(BEHIND, b"\x04")

    def test_with_slips_before_the_first_transaction(self):
        self.type(EARLY, b"\x04")

    def test_with_few_events(self):
        self.type(FULL, b"\x04", ("--events", "9"))

    def test_a_beginning_that_the_end_cuts_off(self):
        """It is refused on a line of its own, and the prompt stands there again."""
        with at_a_terminal() as shell:
            shell.type("create table t (id bigint primary key)", "1=> ")
            shell.type("begin", "1*=> ")
            os.write(shell.master, b"select\x04\x04")
            self.assertRegex(shell.until(r"\n1\*=> "), r"\Aselect\nERROR 42601 the input ends in the middle of a line[^\n]*\n1\*=> \Z")
            self.assertEqual(shell.type("commit", "1=> "), "1 COMMIT\n")
            self.assertEqual(shell.end(b"\x04"), 0)


class AtLength(Case):
    """Sessions whose answers are looked at more closely."""

    def look_at(self, looks):
        with at_a_terminal((), self.folder) as shell:
            for wrong in looks(shell, self.folder):
                with self.subTest(wrong):
                    self.fail(wrong)
            self.assertEqual(shell.end(b"\x04"), 0)

    def test_pictures_and_reasons_behind_a_checkpoint_and_of_many_events(self):
        self.look_at(drawn_there)

    def test_seconds(self):
        self.look_at(timed_there)

    def test_names_of_codes(self):
        self.look_at(named_there)
