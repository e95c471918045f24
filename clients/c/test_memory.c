/* test_memory.c: refuses each request for memory in turn while a handle is used, and sees that nothing is lost by it: each call
 * that was refused is made again, and all answers are those of a run without refusals; 1 where that isn't so. `tests/test_library.py`
 * runs it, by an address sanitizer or valgrind where there is one, linked with -Wl,--wrap=malloc,--wrap=calloc,--wrap=realloc.
 */
#include <stdio.h>
#include <stdlib.h>
#include <string.h>

#include "pgserial.h"

#define EVENTS 50
#define ROOM 4096

/* How many requests are granted until one is refused; negative where all are. */
static long left = -1;
static long requests;
static int unprinted;

static int is_refused(void)
{
    requests++;
    return left >= 0 && left-- == 0;
}

void *__real_malloc(size_t size);
void *__real_calloc(size_t count, size_t size);
void *__real_realloc(void *at, size_t size);
void *__wrap_malloc(size_t size);
void *__wrap_calloc(size_t count, size_t size);
void *__wrap_realloc(void *at, size_t size);

void *__wrap_malloc(size_t size)
{
    return is_refused() ? NULL : __real_malloc(size);
}

void *__wrap_calloc(size_t count, size_t size)
{
    return is_refused() ? NULL : __real_calloc(count, size);
}

void *__wrap_realloc(void *at, size_t size)
{
    return is_refused() ? NULL : __real_realloc(at, size);
}

/* What is asked of a handle: a line, or one of these. */
#define DUMP "dump of 2"
#define ORDER "order"
#define TABLES "tables"
#define ONCE "once "
static const char *const asked[] = {
    "CREATE TABLE t (id bigint PRIMARY KEY, v text);", "CREATE TABLE", TABLES, ORDER, "-- nothing",
    "1 BEGIN;", "1 INSERT INTO t VALUES (7, 'a');", "1 INSERT INTO t VALUES (8, NULL);", "1 UPDATE t SET v = 'b' WHERE id >= 7;",
    "1 SELECT * FROM t;", "1 SELECT count(*) FROM t WHERE v = 'b';", "3 BEGIN;", "3 INSERT INTO t VALUES (7, 'c');",
    "1 EXPORT;", "1 INSERT INTO t VALUES (7, 'c');", "1 ROLLBACK;", "1 BEGIN;", "1 INSERT INTO t VALUES (9, 'z');", "1 COMMIT;",
    "3 COMMIT;", "no line", "1 DUMP 1 1 d;", "OPEN d;", "CREATE TABLE u (id text PRIMARY KEY);", DUMP,
    "2 BEGIN READ ONLY DEFERRABLE;", "2 POLL;", DUMP, "CHECKPOINT;", "2 PRUNE;", "2 COMMIT;", ORDER, TABLES, "CHECKPOINT;", ORDER,
    "1 BEGIN;", "1 DELETE FROM t WHERE id = 7;", "1 SELECT id FROM t;", "1 COMMIT;", ORDER,
    ONCE "1 BEGIN;", ONCE "1 INSERT INTO t VALUES (11, 'a');", ONCE "1 UPDATE t SET v = 'a' WHERE id BETWEEN 10 AND 12;",
    ONCE "1 SELECT * FROM t WHERE id = 11 AND v IS NOT NULL;", ONCE "1 DELETE FROM t WHERE id = 11;", ONCE "1 SELECT * FROM nothing;",
    ONCE "1 COMMIT;", ORDER};
#define ASKED (sizeof asked / sizeof asked[0])

/* Reads a line once, gives its second place a text where it has two, and does it. */
static int ask_once(struct pgserial_handle *handle, const char *line, struct pgserial_report *report)
{
    int status = pgserial_prepare(handle, line, strlen(line), report);
    size_t number = (size_t)report->line;
    if (status == PGSERIAL_DONE && report->length == 2)
        status = pgserial_bind_text(handle, number, 2, "another text", 12);
    return status == PGSERIAL_DONE ? pgserial_execute(handle, number, report) : status;
}

static int ask(struct pgserial_handle *handle, const char *what, struct pgserial_report *report)
{
    if (strcmp(what, DUMP) == 0)
        return pgserial_dump(handle, 2, report);
    if (strcmp(what, ORDER) == 0)
        return pgserial_serial_order(handle, report);
    if (strcmp(what, TABLES) == 0)
        return pgserial_tables(handle, report);
    if (strncmp(what, ONCE, strlen(ONCE)) == 0)
        return ask_once(handle, what + strlen(ONCE), report);
    return pgserial_call(handle, what, strlen(what), report);
}

/* Whether an answer says itself that there was no memory. */
static int says_so(const char *text)
{
    return strstr(text, "ERROR 53200\n") != NULL || strcmp(text, "ERROR 42601 out of memory\n") == 0;
}

/* Appends the answer to what is asked. Out of memory it is asked once more, and so is the text of a line that is done. An
 * answer that says itself that there was no memory is asked for again, too: its status is that of a reply. */
static void answer(struct pgserial_handle *handle, const char *what, char *text)
{
    struct pgserial_report report = {0, 0};
    size_t length = strlen(text);
    int status = ask(handle, what, &report);
    if (status == PGSERIAL_MEMORY)
        status = ask(handle, what, &report);
    unprinted += status == PGSERIAL_UNPRINTED;
    if (status != PGSERIAL_DONE && status != PGSERIAL_UNPRINTED && status != PGSERIAL_REFUSED)
        exit(3);
    int done = status;
    status = pgserial_reply(handle, text + length, ROOM - 1 - length, &report);
    if (status == PGSERIAL_MEMORY)
        status = pgserial_reply(handle, text + length, ROOM - 1 - length, &report);
    if (status != PGSERIAL_DONE)
        exit(4);
    text[length + report.length] = '\0';
    if (says_so(text + length)) {
        if (done != (strncmp(what, ONCE, strlen(ONCE)) == 0 ? PGSERIAL_REFUSED : PGSERIAL_DONE))
            exit(8);
        text[length] = '\0';
        answer(handle, what, text);
    }
}

/* The answers to all that is asked, and the dump once it is restored. */
static void run(char *text)
{
    static const char dump[] = "-- dump 2\nCREATE TABLE t (id bigint PRIMARY KEY);\nCOPY t (id) FROM stdin;\n7\n\\.\n-- rows 1\n-- end\n";
    struct pgserial_handle handle = PGSERIAL_SHUT;
    struct pgserial_report report;
    text[0] = '\0';
    while (pgserial_open(&handle, EVENTS) == PGSERIAL_MEMORY)
        continue;
    for (size_t at = 0; at < ASKED; at++)
        answer(&handle, asked[at], text);
    if (pgserial_close(&handle) != PGSERIAL_DONE)
        exit(5);
    for (int faulty = 0; faulty < 2; faulty++) {
        char told[64];
        int status = PGSERIAL_MEMORY;
        while (status == PGSERIAL_MEMORY)
            status = pgserial_open_dump(&handle, dump, sizeof dump - 1 - (size_t)faulty, EVENTS, told, sizeof told, &report);
        if (status != (faulty ? PGSERIAL_REFUSED : PGSERIAL_DONE))
            exit(6);
        if (!faulty) {
            answer(&handle, "1 BEGIN;", text);
            answer(&handle, "1 SELECT * FROM t;", text);
            if (pgserial_close(&handle) != PGSERIAL_DONE)
                exit(7);
        }
    }
}

int main(void)
{
    static char wanted[ROOM], got[ROOM];
    run(wanted);
    long all = requests;
    for (long at = 0; at < all; at++) {
        left = at;
        run(got);
        left = -1;
        if (strcmp(got, wanted) != 0) {
            printf("request %ld refused: %s\nand not: %s\n", at, got, wanted);
            return 1;
        }
    }
    if (unprinted == 0) {
        printf("no answer was left unprinted\n");
        return 1;
    }
    fprintf(stderr, "%ld requests for memory were refused, each in a run of its own; %d answers were printed later\n", all, unprinted);
    return 0;
}
