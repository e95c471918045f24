/* test_misuse.c: what the library's calls answer to arguments that are wrong, too small or many at once; 1 where that isn't
 * as pgserial.h says. `tests/test_library.py` runs it, by an address sanitizer or valgrind where there is one.
 */
#include <pthread.h>
#include <stdio.h>
#include <stdlib.h>
#include <string.h>

#include "pgserial.h"

#define EVENTS 100
#define THREADS 8
#define ROUNDS 50

static const char script[] =
    "CREATE TABLE t (id bigint PRIMARY KEY);\n1 BEGIN;\n1 INSERT INTO t VALUES (7);\n1 SELECT * FROM t;\n1 COMMIT;\n";
static const char replies[] = "1 BEGIN\n1 INSERT 0 1\n1 SELECT 1\n1 | 7\n1 COMMIT\n";
static int faults;

static void check(int holds, const char *what)
{
    if (!holds) {
        printf("not as it should be: %s\n", what);
        faults = 1;
    }
}

static int run(const char *text, size_t length, char *out, size_t room, struct pgserial_report *report)
{
    return pgserial_run(text, length, EVENTS, out, room, report);
}

/* Arguments that can't be right do nothing. */
static void misuse(void)
{
    char out[64] = "as before";
    struct pgserial_report report = {1, 2};
    size_t beyond = (size_t)PTRDIFF_MAX + 1;
    check(run(script, 1, out, 64, NULL) == PGSERIAL_MISUSE, "a null `report`");
    check(run(NULL, 1, out, 64, &report) == PGSERIAL_MISUSE, "a null text");
    check(run(script, 1, NULL, 64, &report) == PGSERIAL_MISUSE, "a null room");
    check(run(script, beyond, out, 64, &report) == PGSERIAL_MISUSE, "a text that is too long");
    check(run(script, 1, out, beyond, &report) == PGSERIAL_MISUSE, "a room that is too long");
    check(run(out, 8, out, 64, &report) == PGSERIAL_MISUSE, "a text in the room");
    check(run((char *)&report, 8, out, 64, &report) == PGSERIAL_MISUSE, "a text in `report`");
    check(run(script, 1, (char *)&report, sizeof report, &report) == PGSERIAL_MISUSE, "a room in `report`");
    check(report.length == 1 && report.line == 2 && strcmp(out, "as before") == 0, "what misuse leaves");
}

/* Each end of a script is report, with its line. */
static void ends(void)
{
    char out[64];
    struct pgserial_report report;
    check(run("\xff", 1, out, 64, &report) == PGSERIAL_NO_TEXT && report.length == 0, "bytes that aren't UTF-8");
    check(run("\n\nx\n", 4, out, 64, &report) == PGSERIAL_REFUSED && report.line == 3, "a faulty line");
    check(run("OPEN d;\n", 8, out, 64, &report) == PGSERIAL_DEVICE && report.line == 0, "an OPEN");
    check(run(NULL, 0, NULL, 0, &report) == PGSERIAL_DONE && report.length == 0, "nothing");
    check(pgserial_run("", 0, 0, out, 64, &report) == PGSERIAL_FULL, "room for no event");
    static const char dumps[] = "1 BEGIN READ ONLY DEFERRABLE;\n1 DUMP 1 1 d;\n1 POLL;\n1 DUMP 1 1 d;\n1 COMMIT;\n";
    check(run(dumps, sizeof dumps - 1, out, 64, &report) == PGSERIAL_DEVICE && report.line == 4, "a DUMP");
    check(report.length == 31 && memcmp(out, "1 BEGIN\n1 ERROR 55000\n1 SAFE 0\n", 31) == 0, "the replies before it");
}

/* Each room that is too small is left as it was, and its size is report. */
static void rooms(void)
{
    size_t needed = sizeof replies - 1;
    for (size_t room = 0; room <= needed + 2; room++) {
        struct pgserial_report report = {0, 9};
        char *out = malloc(room + 1);
        if (out == NULL)
            return;
        memset(out, '~', room + 1);
        int status = run(script, sizeof script - 1, room == 0 ? NULL : out, room, &report);
        size_t written = room < needed ? 0 : needed;
        check(status == (room < needed ? PGSERIAL_NEEDS_ROOM : PGSERIAL_DONE), "the status by the room");
        check(report.length == needed && report.line == 0, "the size by the room");
        check(memcmp(out, replies, written) == 0, "the replies by the room");
        for (size_t at = written; at <= room; at++)
            check(out[at] == '~', "what follows the replies");
        free(out);
    }
}

/* A transcript's check, and a script's exploration: how each ends, and that each can be asked again with more room. */
static void searches(void)
{
    static const char asked[] = "> 1 BEGIN;\n  1 BEGIN\n> 1 COMMIT;\n  1 COMMIT\n", faulty[] = "> 1 BEGIN;\n\xff\n";
    static const char yes[] = "order 1\njudged: transactions 1, sessions 1, statements 0, without a reply to COMMIT 0\ncheck yes\n";
    static const char interleaved[] = "1 BEGIN;\n1 COMMIT;\n2 BEGIN;\n2 COMMIT;\n";
    static const char lone[] = "CREATE TABLE t (id bigint PRIMARY KEY);\n1 BEGIN;\nCHECKPOINT;\n";
    char out[256];
    struct pgserial_report report = {1, 2};
    check(pgserial_check(NULL, 1, 1, out, 64, &report) == PGSERIAL_MISUSE, "a null transcript");
    check(pgserial_explore(out, 8, 9, 9, out, 64, &report) == PGSERIAL_MISUSE, "a script in the room");
    check(report.length == 1 && report.line == 2, "what misuse leaves");
    const size_t length = sizeof yes - 1;
    check(pgserial_check(asked, sizeof asked - 1, 1, out, length - 1, &report) == PGSERIAL_NEEDS_ROOM && report.length == length, "a check's room");
    check(pgserial_check(asked, sizeof asked - 1, 1, out, length, &report) == PGSERIAL_DONE && memcmp(out, yes, length) == 0, "a check");
    check(pgserial_check(faulty, sizeof faulty - 1, 1, out, 64, &report) == PGSERIAL_REFUSED && report.line == 2, "a faulty transcript");
    check(pgserial_check("> OPEN d;\n", 10, 1, out, 64, &report) == PGSERIAL_DEVICE && report.length == 0, "a transcript's OPEN");
    check(pgserial_explore(interleaved, sizeof interleaved - 1, 9, 6, out, 8, &report) == PGSERIAL_NEEDS_ROOM, "the outcomes' room");
    check(report.length > 8 && pgserial_explore(interleaved, sizeof interleaved - 1, 9, 6, out, 256, &report) == PGSERIAL_DONE
          && memcmp(out, "schedules 6\n", 12) == 0, "the outcomes");
    check(pgserial_explore(interleaved, sizeof interleaved - 1, 9, 5, out, 64, &report) == PGSERIAL_TOO_MANY, "too many schedules");
    check(pgserial_explore(interleaved, sizeof interleaved - 1, 0, 6, out, 64, &report) == PGSERIAL_FULL, "a setup without room");
    check(pgserial_explore(lone, sizeof lone - 1, 9, 6, out, 64, &report) == PGSERIAL_REFUSED && report.line == 3, "an open setup");
    check(pgserial_explore("", 0, 9, 6, out, 64, &report) == PGSERIAL_REFUSED && report.line == 0, "nothing to explore");
    check(pgserial_explore("\xff", 1, 9, 6, out, 64, &report) == PGSERIAL_NO_TEXT, "a script that isn't UTF-8");
    check(pgserial_explore("OPEN d;\n", 8, 9, 6, out, 64, &report) == PGSERIAL_DEVICE && report.line == 0, "a script's OPEN");
}

/* Calls from several threads. */
static void *call_often(void *wrong)
{
    for (int round = 0; round < ROUNDS; round++) {
        char out[sizeof replies];
        struct pgserial_report report;
        int status = run(script, sizeof script - 1, out, sizeof out, &report);
        if (status != PGSERIAL_DONE || memcmp(out, replies, sizeof replies - 1) != 0)
            *(int *)wrong = 1;
    }
    return NULL;
}

static void threads(void)
{
    pthread_t thread[THREADS];
    int wrong[THREADS] = {0};
    for (int at = 0; at < THREADS; at++)
        if (pthread_create(&thread[at], NULL, call_often, &wrong[at]) != 0)
            exit(2);
    for (int at = 0; at < THREADS; at++) {
        pthread_join(thread[at], NULL);
        check(!wrong[at], "calls from several threads");
    }
}

/* No call takes a handle whose flag is neither 0 nor 1. */
static void strange(struct pgserial_handle *handle)
{
    struct pgserial_report report = {1, 2};
    char out[8];
    check(pgserial_open(handle, 9) == PGSERIAL_MISUSE && pgserial_close(handle) == PGSERIAL_MISUSE, "a strange flag");
    check(pgserial_open_dump(handle, "", 0, 9, out, 8, &report) == PGSERIAL_MISUSE, "a dump by a strange flag");
    check(pgserial_call(handle, "1 BEGIN;", 8, &report) == PGSERIAL_MISUSE && pgserial_reply(handle, out, 8, &report) == PGSERIAL_MISUSE, "a line by a strange flag");
    check(pgserial_dump(handle, 1, &report) == PGSERIAL_MISUSE && pgserial_tables(handle, &report) == PGSERIAL_MISUSE
          && pgserial_serial_order(handle, &report) == PGSERIAL_MISUSE, "what a strange flag tells");
    check(pgserial_prepare(handle, "1 BEGIN;", 8, &report) == PGSERIAL_MISUSE && pgserial_execute(handle, 1, &report) == PGSERIAL_MISUSE
          && pgserial_forget(handle) == PGSERIAL_MISUSE, "a line that is read by a strange flag");
    check(pgserial_bind_bigint(handle, 1, 1, 1) == PGSERIAL_MISUSE && pgserial_bind_text(handle, 1, 1, "", 0) == PGSERIAL_MISUSE
          && pgserial_bind_bytea(handle, 1, 1, "", 0) == PGSERIAL_MISUSE && pgserial_bind_null(handle, 1, 1) == PGSERIAL_MISUSE, "a place by a strange flag");
    check(report.length == 1 && report.line == 2, "what a strange flag leaves");
}

/* A handle: its lines, and what is wrong with it. */
static void handles(void)
{
    static const char *const lines[] = {"CREATE TABLE t (id bigint PRIMARY KEY);", "1 BEGIN;", "1 INSERT INTO t VALUES (7);", "no line"};
    static const char *const answers[] = {"CREATE TABLE\n", "1 BEGIN\n", "1 INSERT 0 1\n"};
    struct pgserial_handle handle = PGSERIAL_SHUT, wrong = {NULL, 1};
    struct pgserial_report report = {1, 2};
    char out[64];
    check(pgserial_close(&handle) == PGSERIAL_MISUSE, "a shut handle that is closed");
    check(pgserial_call(&handle, lines[0], 1, &report) == PGSERIAL_MISUSE, "a line to a shut handle");
    check(pgserial_reply(&handle, out, 64, &report) == PGSERIAL_MISUSE, "an answer of a shut handle");
    check(pgserial_open(NULL, 9) == PGSERIAL_MISUSE && pgserial_open(&wrong, 9) == PGSERIAL_MISUSE, "no handle");
    for (int flag = 2; flag < 256; flag++)
        strange(&(struct pgserial_handle){out, (unsigned char)flag});
    check(pgserial_open(&handle, 0) == PGSERIAL_FULL, "a handle with room for no event");
    check(pgserial_open(&handle, EVENTS) == PGSERIAL_DONE, "a handle that is opened");
    check(pgserial_open(&handle, EVENTS) == PGSERIAL_MISUSE, "an open handle that is opened");
    check(pgserial_call(&handle, "1 BEGIN;\n", 9, &report) == PGSERIAL_MISUSE, "a line with its newline");
    check(pgserial_reply(&handle, out, 0, &report) == PGSERIAL_DONE && report.length == 0, "the answer to no line");
    for (size_t at = 0; at < 3; at++) {
        size_t length = strlen(answers[at]);
        check(pgserial_call(&handle, lines[at], strlen(lines[at]), &report) == PGSERIAL_DONE && report.length == length, lines[at]);
        check(pgserial_reply(&handle, out, length - 1, &report) == PGSERIAL_NEEDS_ROOM && report.length == length, lines[at]);
        check(pgserial_reply(&handle, out, 64, &report) == PGSERIAL_DONE && memcmp(out, answers[at], length) == 0, lines[at]);
    }
    check(pgserial_call(&handle, lines[3], 7, &report) == PGSERIAL_DONE && report.length > 12, "a faulty line");
    check(pgserial_close(&handle) == PGSERIAL_DONE && pgserial_close(&handle) == PGSERIAL_MISUSE, "a handle that is closed twice");
}

/* The answer to a line is this. */
static void answers(struct pgserial_handle *handle, const char *line, const char *wanted)
{
    struct pgserial_report report;
    char out[256];
    size_t length = strlen(wanted);
    check(pgserial_call(handle, line, strlen(line), &report) == PGSERIAL_DONE && report.length == length, line);
    check(pgserial_reply(handle, out, sizeof out, &report) == PGSERIAL_DONE && memcmp(out, wanted, length) == 0, line);
}

/* The last answer is this. */
static void is_answer(struct pgserial_handle *handle, const char *wanted, const char *what)
{
    struct pgserial_report report;
    char out[256];
    size_t length = strlen(wanted);
    check(pgserial_reply(handle, out, sizeof out, &report) == PGSERIAL_DONE && report.length == length, what);
    check(memcmp(out, wanted, length) == 0, what);
}

#define TABLE "CREATE TABLE t (id bigint PRIMARY KEY);\n"
#define DUMP "-- dump 2\n" TABLE "COPY t (id) FROM stdin;\n7\n\\.\n-- rows 1\n-- end\n"

/* What a handle tells of itself, and what is wrong with asking for that. */
static void dumps(void)
{
    struct pgserial_handle handle = PGSERIAL_SHUT, other = PGSERIAL_SHUT;
    struct pgserial_report report = {1, 2};
    char out[256] = "as before";
    check(pgserial_dump(&handle, 1, &report) == PGSERIAL_MISUSE, "a dump of a shut handle");
    check(pgserial_serial_order(&handle, &report) == PGSERIAL_MISUSE, "the order of a shut handle");
    check(pgserial_tables(&handle, &report) == PGSERIAL_MISUSE, "the tables of a shut handle");
    check(pgserial_open(&handle, EVENTS) == PGSERIAL_DONE, "a handle that is opened");
    check(pgserial_dump(&handle, 1, NULL) == PGSERIAL_MISUSE, "a dump without a report");
    check(pgserial_dump(&handle, 0, &report) == PGSERIAL_MISUSE && pgserial_dump(&handle, 65, &report) == PGSERIAL_MISUSE,
          "a dump of no session");
    check(report.length == 1 && report.line == 2, "what misuse leaves");
    check(pgserial_dump(&handle, 64, &report) == PGSERIAL_REFUSED && report.length == 15 && report.line == 0, "an early dump");
    is_answer(&handle, "64 ERROR 55000\n", "an early dump");
    check(pgserial_tables(&handle, &report) == PGSERIAL_DONE && report.length == 9, "no tables");
    is_answer(&handle, "TABLES 0\n", "no tables");
    answers(&handle, "CREATE TABLE t (id bigint PRIMARY KEY);", "CREATE TABLE\n");
    check(pgserial_tables(&handle, &report) == PGSERIAL_DONE, "tables, before the server runs");
    is_answer(&handle, TABLE "TABLES 1\n", "tables, before the server runs");
    check(pgserial_serial_order(&handle, &report) == PGSERIAL_DONE, "the order, before the server runs");
    is_answer(&handle, "check yes\n", "the order, before the server runs");
    answers(&handle, "1 BEGIN;", "1 BEGIN\n");
    answers(&handle, "1 INSERT INTO t VALUES (7);", "1 INSERT 0 1\n");
    check(pgserial_dump(&handle, 1, &report) == PGSERIAL_REFUSED, "a dump without a safe snapshot");
    is_answer(&handle, "1 ERROR 55000\n", "a dump without a safe snapshot");
    answers(&handle, "CHECKPOINT;", "ERROR 55000\n");
    answers(&handle, "1 COMMIT;", "1 COMMIT\n");
    answers(&handle, "2 BEGIN READ ONLY DEFERRABLE;", "2 BEGIN\n");
    answers(&handle, "2 POLL;", "2 SAFE 1\n");
    check(pgserial_dump(&handle, 2, &report) == PGSERIAL_DONE && report.length == strlen(DUMP), "a dump");
    is_answer(&handle, DUMP, "a dump");
    answers(&handle, "2 COMMIT;", "2 COMMIT\n");
    check(pgserial_serial_order(&handle, &report) == PGSERIAL_DONE && report.length == 42, "the order");
    is_answer(&handle, "txn 1 key 1 1 1\ntxn 2 key 1 2 6\ncheck yes\n", "the order");
    check(pgserial_tables(&handle, &report) == PGSERIAL_DONE, "tables");
    is_answer(&handle, TABLE "TABLES 1\n", "tables");
    answers(&handle, "CHECKPOINT;", "CHECKPOINT\n");

    report.length = 1, report.line = 2;
    check(pgserial_open_dump(&handle, DUMP, strlen(DUMP), EVENTS, out, 64, &report) == PGSERIAL_MISUSE, "an open handle on a dump");
    check(pgserial_open_dump(&other, DUMP, strlen(DUMP), 0, out, 64, &report) == PGSERIAL_FULL, "a dump with room for no event");
    check(pgserial_open_dump(&other, out, 8, EVENTS, out, 64, &report) == PGSERIAL_MISUSE, "a dump in the room");
    check(pgserial_open_dump(&other, DUMP, strlen(DUMP), EVENTS, out, 64, &report) == PGSERIAL_DONE, "a dump that is opened");
    check(report.length == 1 && report.line == 2 && strcmp(out, "as before") == 0, "what opening leaves");
    is_answer(&other, "", "the answer after a dump is opened");
    answers(&other, "1 BEGIN;", "1 BEGIN\n");
    answers(&other, "1 SELECT * FROM t;", "1 SELECT 1\n1 | 7\n");
    check(pgserial_close(&other) == PGSERIAL_DONE && pgserial_close(&handle) == PGSERIAL_DONE, "handles that are closed");
    check(pgserial_open_dump(&other, "x\n", 2, EVENTS, out, 18, &report) == PGSERIAL_NEEDS_ROOM && report.length == 19
          && strcmp(out, "as before") == 0, "a faulty dump, without the room to tell it");
    check(pgserial_open_dump(&other, "x\n", 2, EVENTS, out, 64, &report) == PGSERIAL_REFUSED && report.line == 1
          && memcmp(out, "ERROR 22P04 line 1\n", 19) == 0, "a faulty dump");
    check(pgserial_close(&other) == PGSERIAL_MISUSE, "a handle on a faulty dump");
}

/* The line of a number is done, and its reply is this. */
static void executes(struct pgserial_handle *handle, size_t number, int wanted, uint64_t rows, const char *text)
{
    struct pgserial_report report = {1, 2};
    check(pgserial_execute(handle, number, &report) == wanted && report.length == 0 && report.line == rows, text);
    is_answer(handle, text, text);
}

/* Reads a line once: it has this number and so many places. */
static void reads(struct pgserial_handle *handle, const char *line, size_t number, size_t places)
{
    struct pgserial_report report = {1, 2};
    check(pgserial_prepare(handle, line, strlen(line), &report) == PGSERIAL_DONE && report.line == number && report.length == places, line);
}

/* What lines that are read once do, and what is wrong with them. */
static void prepared(void)
{
    static char longer[65537];
    static const char select[] = "1 SELECT * FROM t WHERE id = 0 AND v BETWEEN -9 AND 9 AND n IS NOT NULL;";
    struct pgserial_handle handle = PGSERIAL_SHUT;
    struct pgserial_report report = {1, 2};
    check(pgserial_prepare(&handle, "1 BEGIN;", 8, &report) == PGSERIAL_MISUSE, "a line of a shut handle");
    check(pgserial_execute(&handle, 1, &report) == PGSERIAL_MISUSE && pgserial_forget(&handle) == PGSERIAL_MISUSE, "a shut handle's line");
    check(pgserial_bind_bigint(&handle, 1, 1, 1) == PGSERIAL_MISUSE && pgserial_bind_null(NULL, 1, 1) == PGSERIAL_MISUSE, "a shut handle's place");
    check(pgserial_open(&handle, EVENTS) == PGSERIAL_DONE, "a handle that is opened");
    answers(&handle, "CREATE TABLE t (id bigint PRIMARY KEY, v bigint, n text, b bytea);", "CREATE TABLE\n");
    check(pgserial_prepare(&handle, "1 BEGIN;", 8, &report) == PGSERIAL_REFUSED, "a line that is read before the server runs");
    answers(&handle, "2 BEGIN;", "2 BEGIN\n");
    check(pgserial_prepare(&handle, "CHECKPOINT;", 11, &report) == PGSERIAL_REFUSED, "a checkpoint that is read");
    check(pgserial_prepare(&handle, "no line", 7, &report) == PGSERIAL_REFUSED && report.length == 1 && report.line == 2, "no line that is read");
    check(pgserial_prepare(&handle, "1 BEGIN;\n", 9, &report) == PGSERIAL_MISUSE, "a line that is read with its newline");
    check(pgserial_execute(&handle, 1, &report) == PGSERIAL_MISUSE && pgserial_execute(&handle, 0, &report) == PGSERIAL_MISUSE, "no line that is done");
    is_answer(&handle, "2 BEGIN\n", "what reading leaves");
    reads(&handle, "1 BEGIN;", 1, 0);
    reads(&handle, "1 INSERT INTO t VALUES (7, 1, 'a', NULL);", 2, 4);
    reads(&handle, select, 3, 3);
    reads(&handle, "1 UPDATE t SET v = v - 1, n = 'x' WHERE id >= 7;", 4, 3);
    reads(&handle, "1 DELETE FROM t WHERE id = 7;", 5, 1);
    reads(&handle, "1 SELECT * FROM u;", 6, 0);
    executes(&handle, 2, PGSERIAL_REFUSED, 0, "1 ERROR 25P01\n");
    executes(&handle, 1, PGSERIAL_DONE, 0, "1 BEGIN\n");
    executes(&handle, 2, PGSERIAL_DONE, 1, "1 INSERT 0 1\n");
    check(pgserial_bind_bigint(&handle, 2, 1, -8) == PGSERIAL_DONE && pgserial_bind_text(&handle, 2, 3, "b\xc3\xa4", 3) == PGSERIAL_DONE, "values");
    check(pgserial_bind_bytea(&handle, 2, 4, "\xff\0", 2) == PGSERIAL_DONE && pgserial_bind_null(&handle, 2, 2) == PGSERIAL_DONE, "more values");
    executes(&handle, 2, PGSERIAL_DONE, 1, "1 INSERT 0 1\n");
    executes(&handle, 3, PGSERIAL_DONE, 0, "1 SELECT 0\n");
    check(pgserial_bind_bigint(&handle, 3, 1, 7) == PGSERIAL_DONE, "another key");
    executes(&handle, 3, PGSERIAL_DONE, 1, "1 SELECT 1\n1 | 7\t1\ta\t\\N\n");
    check(pgserial_bind_bigint(&handle, 4, 1, 5) == PGSERIAL_DONE && pgserial_bind_text(&handle, 4, 2, "", 0) == PGSERIAL_DONE, "values of SET");
    executes(&handle, 4, PGSERIAL_DONE, 1, "1 UPDATE 1\n");
    executes(&handle, 3, PGSERIAL_DONE, 1, "1 SELECT 1\n1 | 7\t6\t\t\\N\n");
    check(pgserial_bind_null(&handle, 4, 1) == PGSERIAL_DONE && pgserial_bind_bigint(&handle, 4, 3, -8) == PGSERIAL_DONE, "a sum with null");
    executes(&handle, 4, PGSERIAL_DONE, 2, "1 UPDATE 2\n");
    answers(&handle, "1 SELECT * FROM t;", "1 SELECT 2\n1 | -8\t\\N\t\t\\\\xff00\n1 | 7\t\\N\t\t\\N\n");
    executes(&handle, 5, PGSERIAL_DONE, 1, "1 DELETE 1\n");
    check(pgserial_bind_text(&handle, 2, 3, "a\0b", 3) == PGSERIAL_DONE && pgserial_execute(&handle, 2, &report) == PGSERIAL_MISUSE, "a zero byte");
    is_answer(&handle, "1 DELETE 1\n", "what a zero byte leaves");
    memset(longer, 'x', sizeof longer);
    check(pgserial_bind_text(&handle, 2, 3, longer, sizeof longer) == PGSERIAL_DONE && pgserial_bind_bigint(&handle, 2, 1, 9) == PGSERIAL_DONE, "a text above a line's limit");
    executes(&handle, 2, PGSERIAL_DONE, 1, "1 INSERT 0 1\n");
    answers(&handle, "1 DELETE FROM t WHERE id = 9;", "1 DELETE 1\n");
    check(pgserial_bind_text(&handle, 5, 1, "a", 1) == PGSERIAL_DONE && pgserial_execute(&handle, 5, &report) == PGSERIAL_MISUSE, "a key of another kind");
    is_answer(&handle, "1 DELETE 1\n", "what a value of another kind leaves");
    executes(&handle, 6, PGSERIAL_REFUSED, 0, "1 ERROR 42P01 byte 14\n");
    check(pgserial_bind_bigint(&handle, 5, 2, 1) == PGSERIAL_MISUSE && pgserial_bind_bigint(&handle, 5, 0, 1) == PGSERIAL_MISUSE, "no place");
    check(pgserial_bind_bigint(&handle, 7, 1, 1) == PGSERIAL_MISUSE && pgserial_bind_bigint(&handle, 0, 1, 1) == PGSERIAL_MISUSE, "no line's place");
    check(pgserial_bind_text(&handle, 2, 3, "\xff", 1) == PGSERIAL_MISUSE && pgserial_bind_text(&handle, 2, 3, NULL, 1) == PGSERIAL_MISUSE, "no text");
    check(pgserial_forget(&handle) == PGSERIAL_DONE && pgserial_execute(&handle, 1, &report) == PGSERIAL_MISUSE, "lines that are forgotten");
    reads(&handle, "1 COMMIT;", 1, 0);
    check(pgserial_close(&handle) == PGSERIAL_DONE, "a handle that is closed");
}

int main(void)
{
    char out[64];
    struct pgserial_report report;
    check(pgserial_abi() == PGSERIAL_ABI, "the version");
    misuse();
    ends();
    rooms();
    searches();
    threads();
    handles();
    dumps();
    prepared();
    check(pgserial_audit(script, sizeof script - 1, EVENTS, out, 64, &report) == PGSERIAL_DONE && report.length == 26
          && memcmp(out, "txn 1 key 1 1 1\ncheck yes\n", 26) == 0, "the order");
    return faults;
}
