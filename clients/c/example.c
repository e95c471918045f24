/* example.c: runs the script on standard input, and prints its replies; then the serial order of what it committed. Then it
 * does some lines in a server that is kept between calls, and opens another on a dump of it.
 *
 *     cc -o example example.c libpgserial.a && ./example < ../../examples/write_skew.script
 */
#include <stdio.h>
#include <stdlib.h>
#include <string.h>

#include "pgserial.h"

typedef int output_call(const char *, size_t, uint32_t, char *, size_t, struct pgserial_report *);

/* All of standard input, in memory of its own; null where there is none. */
static char *read_input(size_t *length)
{
    size_t room = 1 << 16;
    char *bytes = malloc(room);
    *length = 0;
    while (bytes != NULL) {
        *length += fread(bytes + *length, 1, room - *length, stdin);
        if (*length < room)
            return bytes;
        char *more = realloc(bytes, room *= 2);
        if (more == NULL)
            free(bytes);
        bytes = more;
    }
    return NULL;
}

/* Makes a call, with as much room as its answer needs, and prints that. */
static int print_answer(output_call *call, const char *script, size_t length)
{
    struct pgserial_report report = {0, 0};
    char *out = NULL;
    int status = call(script, length, PGSERIAL_MOST_EVENTS, NULL, 0, &report);
    while (status == PGSERIAL_NEEDS_ROOM) {
        size_t room = report.length;
        free(out);
        out = malloc(room);
        if (out == NULL)
            return PGSERIAL_MEMORY;
        status = call(script, length, PGSERIAL_MOST_EVENTS, out, room, &report);
    }
    if (report.length > 0)
        fwrite(out, 1, report.length, stdout);
    if (status != PGSERIAL_DONE)
        fprintf(stderr, "status %d, line %llu\n", status, (unsigned long long)report.line);
    free(out);
    return status;
}

/* The last answer of a handle, in memory of its own; null where there is none. */
static char *last_answer(struct pgserial_handle *handle, size_t *length)
{
    struct pgserial_report report;
    if (pgserial_reply(handle, NULL, 0, &report) == PGSERIAL_MEMORY)
        return NULL;
    char *out = malloc(report.length + 1);
    if (out == NULL || pgserial_reply(handle, out, report.length, &report) != PGSERIAL_DONE) {
        free(out);
        return NULL;
    }
    *length = report.length;
    return out;
}

/* Does a line, and prints its answer. */
static int do_line(struct pgserial_handle *handle, const char *line)
{
    struct pgserial_report report;
    size_t length;
    int status = pgserial_call(handle, line, strlen(line), &report);
    if (status != PGSERIAL_DONE && status != PGSERIAL_UNPRINTED)
        return status;
    char *out = last_answer(handle, &length);
    if (out == NULL)
        return PGSERIAL_MEMORY;
    fwrite(out, 1, length, stdout);
    free(out);
    return PGSERIAL_DONE;
}

static int do_lines(struct pgserial_handle *handle, const char *const *lines)
{
    int status = PGSERIAL_DONE;
    for (; status == PGSERIAL_DONE && *lines != NULL; lines++)
        status = do_line(handle, *lines);
    return status;
}

/* A server on a dump of what session 2 of another may view. */
static int copy_server(struct pgserial_handle *from, struct pgserial_handle *to)
{
    struct pgserial_report report;
    char told[64];
    size_t length;
    int status = pgserial_dump(from, 2, &report);
    char *dump = status == PGSERIAL_DONE ? last_answer(from, &length) : NULL;
    if (dump == NULL)
        return status == PGSERIAL_DONE ? PGSERIAL_MEMORY : status;
    fwrite(dump, 1, length, stdout);
    status = pgserial_open_dump(to, dump, length, PGSERIAL_MOST_EVENTS, told, sizeof told, &report);
    free(dump);
    return status;
}

static int hold_conversation(void)
{
    static const char *const first[] = {
        "CREATE TABLE oncall (doctor text PRIMARY KEY);", "1 BEGIN;", "1 INSERT INTO oncall VALUES ('ada');", "1 COMMIT;",
        "2 BEGIN READ ONLY DEFERRABLE;", "2 POLL;", NULL};
    static const char *const then[] = {"1 BEGIN;", "1 SELECT * FROM oncall;", "1 COMMIT;", NULL};
    struct pgserial_handle server = PGSERIAL_SHUT, copy = PGSERIAL_SHUT;
    int status = pgserial_open(&server, PGSERIAL_MOST_EVENTS);
    if (status == PGSERIAL_DONE)
        status = do_lines(&server, first);
    if (status == PGSERIAL_DONE)
        status = copy_server(&server, &copy);
    if (status == PGSERIAL_DONE)
        status = do_lines(&copy, then);
    pgserial_close(&server);
    pgserial_close(&copy);
    return status;
}

int main(void)
{
    size_t length;
    char *script = read_input(&length);
    if (script == NULL)
        return PGSERIAL_MEMORY;
    int status = pgserial_abi() == PGSERIAL_ABI ? print_answer(pgserial_run, script, length) : PGSERIAL_MISUSE;
    if (status == PGSERIAL_DONE)
        status = print_answer(pgserial_audit, script, length);
    free(script);
    return status == PGSERIAL_DONE ? hold_conversation() : status;
}
