/* pgserial.h: pgserial's calls without a process of its own. Bytes in, bytes out.
 *
 * The library is libpgserial.a or libpgserial.so, for x86-64 Linux, made by `tools/library.py build FOLDER`. It needs the C
 * library's malloc, realloc, free and memmove, and nothing else: no file, no thread, no signal, no other library.
 *
 * A call is done when it returns, and keeps nothing: not what it was given, and no state. It gives back all memory that it
 * took. What it answers is written to the caller's room.
 *
 * Sizes. A call that is given too little room answers PGSERIAL_NEEDS_ROOM, leaves `out` as it was, and reports in
 * `report->length` how much there must be. The call can then be made again. Room of 0 asks for the size alone. No zero byte
 * follows the text.
 *
 * Errors. The call whose arguments can't be right answers PGSERIAL_MISUSE, and does nothing: `report` is null; a text or the
 * room is null and its length isn't 0; a length is above PTRDIFF_MAX; the text, the room and `report` overlap.
 *
 * Threads. Calls may be made from any number of threads at once, each with a room and a `report` of its own. A text may be
 * read by several calls at once.
 *
 * What can't be seen is undefined, as in C: a pointer that isn't null and doesn't lead to as much memory as the length
 * says; memory that another thread writes while a call is given it; a call from a signal handler, or from the forked child
 * of a process with threads; a malloc, realloc and free that aren't one allocator's; a stack of under 1 MiB.
 */
#ifndef PGSERIAL_H
#define PGSERIAL_H

#include <stddef.h>
#include <stdint.h>

#ifdef __cplusplus
extern "C" {
#endif

/* Rises where a declaration below changes its meaning: pgserial_abi() answers the library's own. */
#define PGSERIAL_ABI 3

/* For how many events `pgserial run` has room where nothing is said. It takes 16 MB. */
#define PGSERIAL_MOST_EVENTS 100000

/* How many schedules `pgserial explore` runs at most where nothing is said. */
#define PGSERIAL_MOST_SCHEDULES 1000000

enum pgserial_status {
    PGSERIAL_DONE = 0,       /* all was done, refused statements included */
    PGSERIAL_REFUSED = 1,    /* the line `report->line` may not stand where it stands; of an execute: the reply is a refusal */
    PGSERIAL_NEEDS_ROOM = 2, /* the room is below `report->length` */
    PGSERIAL_FULL = 3,       /* there is to be room for no event: 54000 */
    PGSERIAL_MEMORY = 4,     /* out of memory: 53200 */
    PGSERIAL_NO_TEXT = 5,    /* the text isn't UTF-8 */
    PGSERIAL_DEVICE = 6,     /* the line `report->line` asks for a file, a DUMP; 0 for an OPEN: there are no files */
    PGSERIAL_MISUSE = 7,     /* the arguments can't be right, and nothing was done */
    PGSERIAL_UNPRINTED = 8,  /* the line was done; there was no memory for its answer's text, which pgserial_reply makes */
    PGSERIAL_NO_ORDER = 9,   /* of a check: no serial order explains the replies; PGSERIAL_DONE where one does */
    PGSERIAL_UNKNOWN = 10,   /* of a check: the steps ran out, which says nothing */
    PGSERIAL_TOO_MANY = 11   /* of an exploration: there are more schedules than may be run, and none was */
};

struct pgserial_report {
    size_t length; /* how many bytes the answer has */
    uint64_t line; /* the line that a status speaks of, counted from 1; else 0. What is read or done of lines that are kept says
                      what it means there */
};

/* The version of the declarations that the library was made with. */
uint32_t pgserial_abi(void);

/* The replies to the lines of a script, as `pgserial run` prints them. Where a script ends before its last line, by
 * PGSERIAL_MEMORY or PGSERIAL_DEVICE, the answer has the replies to the lines before. */
int pgserial_run(const char *script, size_t script_length, uint32_t most_events,
                 char *out, size_t room, struct pgserial_report *report);

/* The committed transactions of a script in the serial order, and whether that is one, as `pgserial audit` prints them. */
int pgserial_audit(const char *script, size_t script_length, uint32_t most_events,
                   char *out, size_t room, struct pgserial_report *report);

/* Whether some serial order explains what a transcript or a recording has, as `pgserial check` prints it: PGSERIAL_DONE with the
 * order, PGSERIAL_NO_ORDER with why there is none, or PGSERIAL_UNKNOWN. Time counts where `has_time` isn't 0, as without
 * `--no-time`: a transaction that had ended before another began comes before it. A line that isn't UTF-8 is PGSERIAL_REFUSED. */
int pgserial_check(const char *transcript, size_t transcript_length, uint32_t has_time,
                   char *out, size_t room, struct pgserial_report *report);

/* The outcomes of every interleaving of a script's lines after its setup, each counted, as `pgserial explore` prints them. The
 * setup's history has room for `most_events`; at most `most_schedules` are run, one after the other. PGSERIAL_REFUSED also
 * says that the setup's line is refused, and with line 0 that no session has a line after it. */
int pgserial_explore(const char *script, size_t script_length, uint32_t most_events, uint64_t most_schedules,
                     char *out, size_t room, struct pgserial_report *report);

/* ---- a server that is kept between calls
 *
 * A handle is shut, or keeps a server that answers lines as `pgserial shell` does. Begin with PGSERIAL_SHUT, and touch its
 * fields no more. Whoever opens a handle closes it; else its memory is never given back. Calls on one handle come one after
 * the other, from whichever threads.
 *
 * Where memory is refused, PGSERIAL_MEMORY, nothing is lost: what the handle keeps is as it was, the last answer too, and the
 * call can be made again. One that is open stays open until it is closed. Where it is refused to a session's statement or to
 * CHECKPOINT, the reply says so, as `1 ERROR 53200`, and so does that to a CREATE TABLE line, `ERROR 42601 out of memory`: of
 * these the status is PGSERIAL_DONE, and PGSERIAL_REFUSED where the statement was read once.
 *
 * What can't be seen of a handle is undefined: a copy of an open one that is used beside it or after it; one whose fields
 * were written; calls on it from two threads at once.
 */
struct pgserial_handle {
    void *at;
    unsigned char is_open;
};

#define PGSERIAL_SHUT {NULL, 0}

/* Opens a handle that is shut, with room for so many events; PGSERIAL_MISUSE where it is open. */
int pgserial_open(struct pgserial_handle *handle, uint32_t most_events);

/* Opens a handle that is shut on the tables of a dump. PGSERIAL_REFUSED where the dump is faulty: `report->line` is its first
 * faulty line, `out` has what `pgserial shell` says of an OPEN of it, as `ERROR 22P04 line 1`, and the handle stays shut.
 * Elsewhere `out` and `report` are as they were. */
int pgserial_open_dump(struct pgserial_handle *handle, const char *dump, size_t dump_length, uint32_t most_events,
                       char *out, size_t room, struct pgserial_report *report);

/* Does a line, which stands here without its newline, as `pgserial shell` does: first those that create tables, then those of
 * sessions, and `CHECKPOINT;`. Of OPEN, DUMP, WAIT and what begins with a backslash there is none: they are refused.
 * `report->length` is the length of the answer, which pgserial_reply gives. Where that can't be made, PGSERIAL_UNPRINTED, it
 * is 0: the line is done all the same, and isn't sent again. A line with a newline in it is PGSERIAL_MISUSE, and so is a
 * handle that is shut; nothing is done then. */
int pgserial_call(struct pgserial_handle *handle, const char *line, size_t line_length, struct pgserial_report *report);

/* Makes a dump of the snapshot of a session's transaction, by this thread alone. The answer is its text, which can be restored
 * and read by psql. PGSERIAL_REFUSED where the session has no snapshot that is known to be safe (POLL has answered SAFE): the
 * answer is what a DUMP line is told, as `1 ERROR 55000`. PGSERIAL_MISUSE where no session has that number. */
int pgserial_dump(struct pgserial_handle *handle, uint32_t session, struct pgserial_report *report);

/* The answer is the committed transactions in the serial order, and whether that is one, as `pgserial audit` prints them: of the
 * history since the last checkpoint. */
int pgserial_serial_order(struct pgserial_handle *handle, struct pgserial_report *report);

/* The answer is the CREATE TABLE lines of the tables, and their number, as `TABLES 1`. */
int pgserial_tables(struct pgserial_handle *handle, struct pgserial_report *report);

/* The last answer; empty before the first. PGSERIAL_NEEDS_ROOM where the room is too small, PGSERIAL_MEMORY where its text has
 * still to be made and can't be; it can be asked again. */
int pgserial_reply(struct pgserial_handle *handle, char *out, size_t room, struct pgserial_report *report);

/* ---- lines that are read once
 *
 * A session's line, as `1 INSERT INTO t VALUES (0, 'a');` or `1 COMMIT;`, can be read once, kept by its handle, and done many
 * times. Each of its literals is a place, counted from 1 as they are written, of an UPDATE those behind SET first; of a sum, as
 * `v + 1`, the number that is added, -1 of `v - 1`. A place has the literal that was written until it is given another value.
 * What is done is what the line says with these values for its literals, and so is its reply. A value may be longer than a
 * line's text may be.
 */

/* Reads a line once, which stands here without its newline: `report->line` is its number, counted from 1 since the handle was
 * opened or its lines were forgotten, and `report->length` is how many places it has. Nothing is done of it yet.
 * PGSERIAL_REFUSED where it is no line of a session, or the server doesn't run: before, it takes lines that create tables. */
int pgserial_prepare(struct pgserial_handle *handle, const char *line, size_t line_length, struct pgserial_report *report);

/* Give a place of the line with a number a value. PGSERIAL_MISUSE where there is no such line or place, or a text isn't UTF-8. */
int pgserial_bind_bigint(struct pgserial_handle *handle, size_t number, size_t place, int64_t value);
int pgserial_bind_text(struct pgserial_handle *handle, size_t number, size_t place, const char *text, size_t length);
int pgserial_bind_bytea(struct pgserial_handle *handle, size_t number, size_t place, const char *value, size_t length);
int pgserial_bind_null(struct pgserial_handle *handle, size_t number, size_t place);

/* Does what the line with a number says with the values of its places. PGSERIAL_DONE, or PGSERIAL_REFUSED where the reply is a
 * refusal; `report->line` is how many rows are shown or were changed. The reply is the last answer, whose text pgserial_reply
 * makes, and `report->length` is 0. PGSERIAL_MISUSE where there is no such line, or a value isn't of its column's kind or is a
 * text with a zero byte: nothing is done then. */
int pgserial_execute(struct pgserial_handle *handle, size_t number, struct pgserial_report *report);

/* Forgets the lines that were read once. */
int pgserial_forget(struct pgserial_handle *handle);

/* Shuts a handle, and gives back its memory; PGSERIAL_MISUSE where it is shut. */
int pgserial_close(struct pgserial_handle *handle);

#ifdef __cplusplus
}
#endif

#endif
