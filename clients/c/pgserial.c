/* pgserial.c: looks at the arguments of a call, and passes on those that can be right.
 *
 * The proved calls take a text and a room as they are: a pointer that may be read or written as far as a length says. So
 * what can be seen of a pointer is seen here. Nothing proves this file.
 */
#include "pgserial.h"

/* The proved calls (crates/library_c). No pointer is null, no length above PTRDIFF_MAX, and no two overlap. */
uint32_t pgserial_do_run(const uint8_t *, size_t, uint32_t, uint8_t *, size_t, struct pgserial_report *);
uint32_t pgserial_do_audit(const uint8_t *, size_t, uint32_t, uint8_t *, size_t, struct pgserial_report *);
uint32_t pgserial_do_check(const uint8_t *, size_t, uint32_t, uint8_t *, size_t, struct pgserial_report *);
uint32_t pgserial_do_explore(const uint8_t *, size_t, uint32_t, uint64_t, uint8_t *, size_t, struct pgserial_report *);
uint32_t pgserial_do_open(struct pgserial_handle *, uint32_t);
uint32_t pgserial_do_call(struct pgserial_handle *, const uint8_t *, size_t, struct pgserial_report *);
uint32_t pgserial_do_reply(struct pgserial_handle *, uint8_t *, size_t, struct pgserial_report *);
uint32_t pgserial_do_close(struct pgserial_handle *);
uint32_t pgserial_do_open_dump(struct pgserial_handle *, const uint8_t *, size_t, uint32_t, uint8_t *, size_t, struct pgserial_report *);
uint32_t pgserial_do_dump(struct pgserial_handle *, uint32_t, struct pgserial_report *);
uint32_t pgserial_do_serial_order(struct pgserial_handle *, struct pgserial_report *);
uint32_t pgserial_do_tables(struct pgserial_handle *, struct pgserial_report *);
uint32_t pgserial_do_prepare(struct pgserial_handle *, const uint8_t *, size_t, struct pgserial_report *);
uint32_t pgserial_do_bind_bigint(struct pgserial_handle *, size_t, size_t, int64_t);
uint32_t pgserial_do_bind_text(struct pgserial_handle *, size_t, size_t, const uint8_t *, size_t);
uint32_t pgserial_do_bind_bytea(struct pgserial_handle *, size_t, size_t, const uint8_t *, size_t);
uint32_t pgserial_do_bind_null(struct pgserial_handle *, size_t, size_t);
uint32_t pgserial_do_execute(struct pgserial_handle *, size_t, struct pgserial_report *);
uint32_t pgserial_do_forget(struct pgserial_handle *);

/* Where a length is 0, a pointer leads here. */
static uint8_t nothing[1];

static int overlap(const void *one, size_t one_length, const void *other, size_t other_length)
{
    uintptr_t first = (uintptr_t)one, second = (uintptr_t)other;
    return one_length > 0 && other_length > 0 && first < second + other_length && second < first + one_length;
}

static int may_be_memory(const void *start, size_t length)
{
    return length == 0 || (start != NULL && length <= PTRDIFF_MAX && (uintptr_t)start <= UINTPTR_MAX - length);
}

static int may_be_passed(const char *text, size_t length, const char *out, size_t room, const struct pgserial_report *report)
{
    return report != NULL && may_be_memory(text, length) && may_be_memory(out, room) && !overlap(text, length, out, room)
           && !overlap(text, length, report, sizeof *report) && !overlap(out, room, report, sizeof *report);
}

static const uint8_t *bytes(const char *text, size_t length)
{
    return length == 0 ? nothing : (const uint8_t *)text;
}

static uint8_t *room_at(char *out, size_t room)
{
    return room == 0 ? nothing : (uint8_t *)out;
}

uint32_t pgserial_abi(void)
{
    return PGSERIAL_ABI;
}

int pgserial_run(const char *script, size_t script_length, uint32_t most_events,
                 char *out, size_t room, struct pgserial_report *report)
{
    if (!may_be_passed(script, script_length, out, room, report))
        return PGSERIAL_MISUSE;
    return (int)pgserial_do_run(bytes(script, script_length), script_length, most_events, room_at(out, room), room, report);
}

int pgserial_audit(const char *script, size_t script_length, uint32_t most_events,
                   char *out, size_t room, struct pgserial_report *report)
{
    if (!may_be_passed(script, script_length, out, room, report))
        return PGSERIAL_MISUSE;
    return (int)pgserial_do_audit(bytes(script, script_length), script_length, most_events, room_at(out, room), room, report);
}

int pgserial_check(const char *transcript, size_t transcript_length, uint32_t has_time,
                   char *out, size_t room, struct pgserial_report *report)
{
    if (!may_be_passed(transcript, transcript_length, out, room, report))
        return PGSERIAL_MISUSE;
    return (int)pgserial_do_check(bytes(transcript, transcript_length), transcript_length, has_time, room_at(out, room), room, report);
}

int pgserial_explore(const char *script, size_t script_length, uint32_t most_events, uint64_t most_schedules,
                     char *out, size_t room, struct pgserial_report *report)
{
    if (!may_be_passed(script, script_length, out, room, report))
        return PGSERIAL_MISUSE;
    return (int)pgserial_do_explore(bytes(script, script_length), script_length, most_events, most_schedules, room_at(out, room),
                                    room, report);
}

/* Whether a handle is shut, or may be open. */
static int may_be_handle(const struct pgserial_handle *handle)
{
    return handle != NULL && (handle->is_open == 0 || (handle->is_open == 1 && handle->at != NULL));
}

static int may_be_used(const struct pgserial_handle *handle, const char *text, size_t length, const struct pgserial_report *report)
{
    return may_be_handle(handle) && report != NULL && may_be_memory(text, length)
           && !overlap(text, length, handle, sizeof *handle) && !overlap(text, length, report, sizeof *report)
           && !overlap(handle, sizeof *handle, report, sizeof *report);
}

int pgserial_open(struct pgserial_handle *handle, uint32_t most_events)
{
    return may_be_handle(handle) ? (int)pgserial_do_open(handle, most_events) : PGSERIAL_MISUSE;
}

int pgserial_call(struct pgserial_handle *handle, const char *line, size_t line_length, struct pgserial_report *report)
{
    if (!may_be_used(handle, line, line_length, report))
        return PGSERIAL_MISUSE;
    return (int)pgserial_do_call(handle, bytes(line, line_length), line_length, report);
}

int pgserial_reply(struct pgserial_handle *handle, char *out, size_t room, struct pgserial_report *report)
{
    if (!may_be_used(handle, out, room, report))
        return PGSERIAL_MISUSE;
    return (int)pgserial_do_reply(handle, room_at(out, room), room, report);
}

int pgserial_close(struct pgserial_handle *handle)
{
    return may_be_handle(handle) ? (int)pgserial_do_close(handle) : PGSERIAL_MISUSE;
}

int pgserial_open_dump(struct pgserial_handle *handle, const char *dump, size_t dump_length, uint32_t most_events,
                       char *out, size_t room, struct pgserial_report *report)
{
    if (!may_be_used(handle, dump, dump_length, report) || !may_be_used(handle, out, room, report)
        || overlap(dump, dump_length, out, room))
        return PGSERIAL_MISUSE;
    return (int)pgserial_do_open_dump(handle, bytes(dump, dump_length), dump_length, most_events, room_at(out, room), room, report);
}

int pgserial_dump(struct pgserial_handle *handle, uint32_t session, struct pgserial_report *report)
{
    return may_be_used(handle, NULL, 0, report) ? (int)pgserial_do_dump(handle, session, report) : PGSERIAL_MISUSE;
}

int pgserial_serial_order(struct pgserial_handle *handle, struct pgserial_report *report)
{
    return may_be_used(handle, NULL, 0, report) ? (int)pgserial_do_serial_order(handle, report) : PGSERIAL_MISUSE;
}

int pgserial_tables(struct pgserial_handle *handle, struct pgserial_report *report)
{
    return may_be_used(handle, NULL, 0, report) ? (int)pgserial_do_tables(handle, report) : PGSERIAL_MISUSE;
}

int pgserial_prepare(struct pgserial_handle *handle, const char *line, size_t line_length, struct pgserial_report *report)
{
    if (!may_be_used(handle, line, line_length, report))
        return PGSERIAL_MISUSE;
    return (int)pgserial_do_prepare(handle, bytes(line, line_length), line_length, report);
}

int pgserial_bind_bigint(struct pgserial_handle *handle, size_t number, size_t place, int64_t value)
{
    return may_be_handle(handle) ? (int)pgserial_do_bind_bigint(handle, number, place, value) : PGSERIAL_MISUSE;
}

int pgserial_bind_null(struct pgserial_handle *handle, size_t number, size_t place)
{
    return may_be_handle(handle) ? (int)pgserial_do_bind_null(handle, number, place) : PGSERIAL_MISUSE;
}

/* Whether these bytes may be given to a handle's line. */
static int may_be_bound(const struct pgserial_handle *handle, const char *value, size_t length)
{
    return may_be_handle(handle) && may_be_memory(value, length) && !overlap(value, length, handle, sizeof *handle);
}

int pgserial_bind_text(struct pgserial_handle *handle, size_t number, size_t place, const char *text, size_t length)
{
    if (!may_be_bound(handle, text, length))
        return PGSERIAL_MISUSE;
    return (int)pgserial_do_bind_text(handle, number, place, bytes(text, length), length);
}

int pgserial_bind_bytea(struct pgserial_handle *handle, size_t number, size_t place, const char *value, size_t length)
{
    if (!may_be_bound(handle, value, length))
        return PGSERIAL_MISUSE;
    return (int)pgserial_do_bind_bytea(handle, number, place, bytes(value, length), length);
}

int pgserial_execute(struct pgserial_handle *handle, size_t number, struct pgserial_report *report)
{
    return may_be_used(handle, NULL, 0, report) ? (int)pgserial_do_execute(handle, number, report) : PGSERIAL_MISUSE;
}

int pgserial_forget(struct pgserial_handle *handle)
{
    return may_be_handle(handle) ? (int)pgserial_do_forget(handle) : PGSERIAL_MISUSE;
}
