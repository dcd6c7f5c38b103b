#define _POSIX_C_SOURCE 200809L

#include "cards.h"

#include <errno.h>
#include <fcntl.h>
#include <stdarg.h>
#include <stdio.h>
#include <string.h>
#include <sys/stat.h>
#include <unistd.h>

#include "claims.h"

/* Room for a refusal's line, more than its numbers take. */
enum { REFUSAL_ROOM = 128 };

bool is_there(const struct location *location, const char *name)
{
    struct stat status;
    return fstatat(location->folder, name, &status, AT_SYMLINK_NOFOLLOW) == 0;
}

void set_unreadable(struct finding *finding, enum part part, const char *format, ...)
{
    va_list arguments;
    va_start(arguments, format);
    *finding = (struct finding){.verdict = VERDICT_UNREADABLE, .part = part};
    vsnprintf(finding->reason, sizeof finding->reason, format, arguments);
    va_end(arguments);
}

void set_refused(struct finding *finding, const struct refused *refused)
{
    const uint32_t *answer = refused->answer;
    struct text line = refusal_line(refused);
    *finding = (struct finding){.verdict = VERDICT_REFUSED, .refusal = {answer[0], answer[1], answer[2]}};
    memcpy(finding->reason, line.at, sizeof finding->reason);
}

/* Fills the room from a file; gives the bytes read, -1 for an error. */
static ssize_t read_all(int file, struct room room)
{
    size_t len = 0;
    while (len < room.len) {
        ssize_t count = read(file, room.at + len, room.len - len);
        if (count < 0 && errno != EINTR) {
            return -1;
        }
        if (count == 0) {
            break;
        }
        len += count > 0 ? (size_t)count : 0;
    }
    return (ssize_t)len;
}

/* Opens a file to read; -1 and errno, or 0 for a file that is not regular, if that fails. */
static int open_part(const struct location *location, const char *name)
{
    struct stat status;
    int file = openat(location->folder, name, O_RDONLY | O_CLOEXEC | (location->regular_only ? O_NONBLOCK : 0));
    if (file < 0 || !location->regular_only || fstat(file, &status) != 0 || S_ISREG(status.st_mode)) {
        return file;
    }
    close(file);
    errno = S_ISDIR(status.st_mode) ? EISDIR : 0;
    return -1;
}

bool read_part(const struct location *location, const char *name, enum part part, struct room room, size_t *len,
               struct finding *finding)
{
    int file = open_part(location, name);
    ssize_t count = file < 0 ? -1 : read_all(file, room);
    int reason = errno;
    if (file >= 0) {
        close(file);
    }
    if (count >= 0) {
        *len = (size_t)count;
    } else if (is_there(location, name)) {
        set_unreadable(finding, part, "%s", reason == 0 ? "not a regular file" : strerror(reason));
    } else {
        *finding = (struct finding){.verdict = VERDICT_MISSING, .part = part};
    }
    return count >= 0;
}

/* Whether a card's file has the length that it must have. */
static bool has_length(size_t len, size_t wanted, enum part part, const char *whose, struct finding *finding)
{
    if (len > wanted) {
        set_unreadable(finding, part, "it has more than %s %zu bytes", whose, wanted);
    } else if (len < wanted) {
        set_unreadable(finding, part, "it has %zu bytes, not %s %zu", len, whose, wanted);
    }
    return len == wanted;
}

static bool read_after(const struct reference *reference, const struct location *location, const char *name,
                       struct card_files *files, struct finding *finding)
{
    size_t len;
    struct room room = {files->after, sizeof files->after};
    return read_part(location, name, PART_AFTER, room, &len, finding) &&
           has_length(len, reference->memory.len, PART_AFTER, "the memory's", finding);
}

static bool read_registers(const struct location *location, const char *name, struct card_files *files,
                           struct finding *finding)
{
    static uint8_t bytes[REGISTERS_BYTES + 1];
    size_t len;
    struct room room = {bytes, sizeof bytes};
    if (!read_part(location, name, PART_REGISTERS, room, &len, finding) ||
        !has_length(len, REGISTERS_BYTES, PART_REGISTERS, "a registers file's", finding)) {
        return false;
    }
    registers_result(bytes, &files->registers);
    return true;
}

static bool read_trace(const struct reference *reference, const struct location *location, const char *name,
                       struct card_files *files, struct trace_difference *difference, struct finding *finding)
{
    struct text refusal;
    struct bytes trace = {files->trace, 0};
    if (!read_part(location, name, PART_TRACE, (struct room){files->trace, sizeof files->trace}, &trace.len, finding)) {
        return false;
    }
    if (trace.len > MOONBLEAT_TRACE_MAX) {
        set_unreadable(finding, PART_TRACE, "it has more than %d bytes", MOONBLEAT_TRACE_MAX);
        return false;
    }
    if (!compare_trace(reference, trace, difference, &refusal)) {
        set_unreadable(finding, PART_TRACE, "%s", refusal.at);
        return false;
    }
    return true;
}

/* Reads a card's refusal. */
static bool read_refusal(const struct location *location, const char *name, uint32_t refusal[3],
                         struct finding *finding)
{
    uint8_t line[REFUSAL_ROOM] = {0};
    size_t len;
    if (!read_part(location, name, PART_REFUSAL, (struct room){line, sizeof line}, &len, finding)) {
        return false;
    }
    if (len == sizeof line || !parse_refusal((const char *)line, len, refusal)) {
        set_unreadable(finding, PART_REFUSAL, "it is not a line with a refusal's number and place");
        return false;
    }
    return true;
}

/* The finding of a card whose answer is another than the reference's, or agrees. */
static void set_claim(const uint32_t wants[3], const uint32_t has[3], struct finding *finding, uint32_t *counts)
{
    *finding = (struct finding){.verdict = VERDICT_AGREES};
    compare_refusals(wants, has, &finding->claim);
    if (finding->claim.differs != 0) {
        finding->verdict = VERDICT_DIFFERS;
        counts[REFUSALS] = 1;
    }
}

/* Reads a card's refusal and compares it. */
static void judge_claim(const uint32_t wants[3], const struct location *location, const char *name,
                        struct finding *finding, uint32_t *counts)
{
    uint32_t refusal[3];
    if (read_refusal(location, name, refusal, finding)) {
        set_claim(wants, refusal, finding, counts);
    }
}

void judge_card(struct reference *reference, const struct location *location, const struct card_names *names,
                struct card_files *files, struct finding *finding, uint32_t *counts)
{
    struct finding unread = {.verdict = VERDICT_AGREES};
    struct trace_difference trace = {.differs = 0};
    memset(counts, 0, reference->shown.census.count * sizeof counts[0]);
    if (names->refusal != NULL) {
        judge_claim((const uint32_t[3]){0}, location, names->refusal, finding, counts);
        return;
    }
    if (!read_after(reference, location, names->after, files, finding)) {
        return;
    }
    files->has_registers = names->registers != NULL && read_registers(location, names->registers, files, &unread);
    if (names->trace != NULL) {
        read_trace(reference, location, names->trace, files, &trace, &unread);
    }
    compare_card(reference, files->after, files->has_registers ? &files->registers : NULL, finding, counts);
    finding->trace = trace;
    if (trace.differs != 0 && finding->verdict == VERDICT_AGREES) {
        finding->verdict = VERDICT_DIFFERS;
        counts[TRACES] = 1;
    }
    if (finding->verdict == VERDICT_AGREES && unread.verdict != VERDICT_AGREES) {
        *finding = unread;
    }
}

void judge_refusal(const struct finding *refused, const struct location *location, const struct card_names *names,
                   struct finding *finding, uint32_t *counts)
{
    memset(counts, 0, APARTS * sizeof counts[0]);
    if (names->refusal != NULL) {
        judge_claim(refused->refusal, location, names->refusal, finding, counts);
    } else if (names->after != NULL) {
        set_claim(refused->refusal, (const uint32_t[3]){0}, finding, counts);
    } else {
        *finding = *refused;
    }
}
