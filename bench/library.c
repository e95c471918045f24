/* library.c: transactions of INSERT, SELECT and UPDATE by key, through a handle of libpgserial, by lines that are read once and
 * as texts, and by prepared statements of sqlite3 in memory: the processor seconds of each, the least of some runs that come
 * in turn. `bench/library` compiles and runs it.
 */
#include <sqlite3.h>
#include <stdio.h>
#include <stdlib.h>
#include <string.h>
#include <time.h>

#include "pgserial.h"

#define TRANSACTIONS 20000
#define LINES 5 /* of a transaction */
#define RUNS 5
#define TABLE "CREATE TABLE t (id bigint PRIMARY KEY, v bigint NOT NULL, name text);"

static void fail(const char *what)
{
    fprintf(stderr, "library.c: %s isn't done\n", what);
    exit(1);
}

static double processor_seconds(void)
{
    struct timespec now;
    clock_gettime(CLOCK_PROCESS_CPUTIME_ID, &now);
    return (double)now.tv_sec + (double)now.tv_nsec / 1e9;
}

/* ---- pgserial */

static void ask(struct pgserial_handle *handle, const char *line, const char *wanted)
{
    struct pgserial_report report;
    char answer[256];
    if (pgserial_call(handle, line, strlen(line), &report) != PGSERIAL_DONE
        || pgserial_reply(handle, answer, sizeof answer, &report) != PGSERIAL_DONE
        || report.length < strlen(wanted) || memcmp(answer, wanted, strlen(wanted)) != 0)
        fail(line);
}

static double by_lines(void)
{
    struct pgserial_handle handle = PGSERIAL_SHUT;
    char line[128];
    double begun = processor_seconds();
    if (pgserial_open(&handle, TRANSACTIONS * LINES) != PGSERIAL_DONE)
        fail("pgserial_open");
    ask(&handle, TABLE, "CREATE TABLE\n");
    for (int key = 0; key < TRANSACTIONS; key++) {
        ask(&handle, "1 BEGIN;", "1 BEGIN\n");
        snprintf(line, sizeof line, "1 INSERT INTO t VALUES (%d, 1, 'a');", key);
        ask(&handle, line, "1 INSERT 0 1\n");
        snprintf(line, sizeof line, "1 SELECT * FROM t WHERE id = %d;", key);
        ask(&handle, line, "1 SELECT 1\n1 | ");
        snprintf(line, sizeof line, "1 UPDATE t SET v = v + 1 WHERE id = %d;", key);
        ask(&handle, line, "1 UPDATE 1\n");
        ask(&handle, "1 COMMIT;", "1 COMMIT\n");
    }
    if (pgserial_close(&handle) != PGSERIAL_DONE)
        fail("pgserial_close");
    return processor_seconds() - begun;
}

static size_t read_once(struct pgserial_handle *handle, const char *line)
{
    struct pgserial_report report;
    if (pgserial_prepare(handle, line, strlen(line), &report) != PGSERIAL_DONE)
        fail(line);
    return (size_t)report.line;
}

static void execute(struct pgserial_handle *handle, size_t number, uint64_t rows)
{
    struct pgserial_report report;
    if (pgserial_execute(handle, number, &report) != PGSERIAL_DONE || report.line != rows)
        fail("a line that was read once");
}

static void bind(struct pgserial_handle *handle, size_t number, size_t place, int key)
{
    if (pgserial_bind_bigint(handle, number, place, key) != PGSERIAL_DONE)
        fail("pgserial_bind_bigint");
}

static void read_row(struct pgserial_handle *handle)
{
    struct pgserial_report report;
    char answer[256];
    if (pgserial_reply(handle, answer, sizeof answer, &report) != PGSERIAL_DONE
        || memcmp(answer, "1 SELECT 1\n1 | ", 15) != 0)
        fail("pgserial_reply");
}

static double by_lines_read_once(void)
{
    struct pgserial_handle handle = PGSERIAL_SHUT;
    double begun = processor_seconds();
    if (pgserial_open(&handle, TRANSACTIONS * LINES + 2) != PGSERIAL_DONE)
        fail("pgserial_open");
    ask(&handle, TABLE, "CREATE TABLE\n");
    ask(&handle, "1 BEGIN;", "1 BEGIN\n");
    ask(&handle, "1 ROLLBACK;", "1 ROLLBACK\n");
    size_t begin = read_once(&handle, "1 BEGIN;"), commit = read_once(&handle, "1 COMMIT;");
    size_t insert = read_once(&handle, "1 INSERT INTO t VALUES (0, 1, 'a');");
    size_t select = read_once(&handle, "1 SELECT * FROM t WHERE id = 0;");
    size_t update = read_once(&handle, "1 UPDATE t SET v = v + 1 WHERE id = 0;");
    for (int key = 0; key < TRANSACTIONS; key++) {
        execute(&handle, begin, 0);
        bind(&handle, insert, 1, key);
        execute(&handle, insert, 1);
        bind(&handle, select, 1, key);
        execute(&handle, select, 1);
        read_row(&handle);
        bind(&handle, update, 2, key);
        execute(&handle, update, 1);
        execute(&handle, commit, 0);
    }
    if (pgserial_close(&handle) != PGSERIAL_DONE)
        fail("pgserial_close");
    return processor_seconds() - begun;
}

/* ---- sqlite3 */

static sqlite3_stmt *prepare(sqlite3 *database, const char *text)
{
    sqlite3_stmt *statement;
    if (sqlite3_prepare_v2(database, text, -1, &statement, NULL) != SQLITE_OK)
        fail(text);
    return statement;
}

static void step(sqlite3_stmt *statement, int key, int rows)
{
    int found = 0, status;
    if (sqlite3_bind_parameter_count(statement) > 0 && sqlite3_bind_int(statement, 1, key) != SQLITE_OK)
        fail("sqlite3_bind_int");
    while ((status = sqlite3_step(statement)) == SQLITE_ROW)
        found += sqlite3_column_int(statement, 0) == key && sqlite3_column_int(statement, 1) == 1
                 && sqlite3_column_text(statement, 2) != NULL;
    if (status != SQLITE_DONE || found != rows || sqlite3_reset(statement) != SQLITE_OK)
        fail("sqlite3_step");
}

static double by_sqlite3(void)
{
    static const char *const texts[LINES] = {"BEGIN", "INSERT INTO t VALUES (?, 1, 'a')", "SELECT * FROM t WHERE id = ?",
                                             "UPDATE t SET v = v + 1 WHERE id = ?", "COMMIT"};
    sqlite3 *database;
    sqlite3_stmt *statements[LINES];
    double begun = processor_seconds();
    if (sqlite3_open(":memory:", &database) != SQLITE_OK || sqlite3_exec(database, TABLE, NULL, NULL, NULL) != SQLITE_OK)
        fail("sqlite3_open");
    for (int at = 0; at < LINES; at++)
        statements[at] = prepare(database, texts[at]);
    for (int key = 0; key < TRANSACTIONS; key++)
        for (int at = 0; at < LINES; at++)
            step(statements[at], key, at == 2);
    for (int at = 0; at < LINES; at++)
        sqlite3_finalize(statements[at]);
    sqlite3_close(database);
    return processor_seconds() - begun;
}

static double least(double one, double other)
{
    return one < other ? one : other;
}

int main(void)
{
    double once = 1e9, text = 1e9, theirs = 1e9;
    for (int run = 0; run < RUNS; run++) {
        once = least(once, by_lines_read_once());
        theirs = least(theirs, by_sqlite3());
        text = least(text, by_lines());
    }
    printf("%d transactions of INSERT, SELECT, UPDATE through a handle, by lines that are read once: %.3f; as texts: %.3f; sqlite3 %s, prepared: "
           "%.3f, so %.2f and %.2f times\n", TRANSACTIONS, once, text, sqlite3_libversion(), theirs, once / theirs, text / theirs);
    return 0;
}
