#define _XOPEN_SOURCE 700

#include "folder.h"

#include <errno.h>
#include <stdio.h>
#include <stdlib.h>
#include <string.h>
#include <sys/stat.h>

#include "asm.h"
#include "hash.h"
#include "names.h"
#include "same_file.h"

/* -- The names -------------------------------------------------------------------------------- */

/* The part that a suffix stands for, PARTS if it is none's. */
static unsigned find_part(const char *suffix)
{
    unsigned part = 0;
    while (part < PARTS && strcmp(suffix, part_suffix(part)) != 0) {
        part++;
    }
    return part;
}

/* The last dot before `end`; NULL if there is none. */
static const char *last_dot(const char *text, const char *end)
{
    while (end > text && end[-1] != '.') {
        end--;
    }
    return end > text ? end - 1 : NULL;
}

/* A file's name taken apart. */
struct entry {
    size_t sheet_len;
    const char *card; /* NULL for a sheet's own file */
    size_t card_len;
};

/* NAME.SUFFIX, or NAME.CARD.SUFFIX; a card's name has no dots. */
static bool parse_entry(const char *name, struct entry *entry)
{
    const char *end = last_dot(name, name + strlen(name));
    unsigned part = end == NULL ? PARTS : find_part(end + 1);
    if (part == PARTS) {
        return false;
    }
    *entry = (struct entry){(size_t)(end - name), NULL, 0};
    if (is_cards_part(part)) {
        const char *dot = last_dot(name, end);
        if (dot == NULL || dot + 1 == end) {
            return false;
        }
        *entry = (struct entry){(size_t)(dot - name), dot + 1, (size_t)(end - dot - 1)};
    }
    return entry->sheet_len > 0 && entry->sheet_len < NAME_ROOM;
}

uint32_t shard_of(const char *name, uint32_t parts)
{
    return (uint32_t)(hash_bytes(HASH_START, name, strlen(name)) % parts) + 1;
}

static void pass_over(const char *path, const char *name)
{
    fputs("moonbleat: ", stderr);
    put_word(stderr, path);
    fputs(": passing over ", stderr);
    put_name(&(struct sink){stderr, put_plain}, name);
    fputs(": not the name of a night's file\n", stderr);
}

static bool add_entry(const struct entry *entry, const char *name, const struct shard *shard, struct folder *folder)
{
    char sheet[NAME_ROOM] = {0};
    memcpy(sheet, name, entry->sheet_len);
    return (shard_of(sheet, shard->parts) != shard->part ||
            add_to_list(&folder->sheets, sheet, entry->sheet_len)) &&
           (entry->card == NULL || add_to_list(&folder->cards, entry->card, entry->card_len));
}

/* Takes a file into the listing; one that is not there any more, or leads nowhere, by its name alone. */
static void list_entry(DIR *stream, const char *name, struct listing *listing)
{
    struct stat status;
    if (fstatat(dirfd(stream), name, &status, 0) != 0) {
        status = (struct stat){.st_size = 0};
    }
    list_file(listing, name, &status);
}

/* Lists all entries; false and errno if that fails. */
static bool list_entries(DIR *stream, const char *path, const struct shard *shard, struct folder *folder)
{
    struct listing listing = {.files = 0};
    errno = 0;
    for (const struct dirent *next = readdir(stream); next != NULL; next = readdir(stream)) {
        struct entry entry;
        if (parse_entry(next->d_name, &entry)) {
            if (!add_entry(&entry, next->d_name, shard, folder)) {
                return false;
            }
            list_entry(stream, next->d_name, &listing);
        } else if (strcmp(next->d_name, ".") != 0 && strcmp(next->d_name, "..") != 0) {
            pass_over(path, next->d_name);
        }
        errno = 0;
    }
    bool done = errno == 0;
    folder->identity = identity_of(path, &listing);
    return done;
}

bool open_folder(const char *path, const struct shard *shard, struct folder *folder)
{
    *folder = (struct folder){.stream = opendir(path)};
    if (folder->stream == NULL) {
        complain(path);
        return false;
    }
    folder->location = (struct location){dirfd(folder->stream), true};
    if (!list_entries(folder->stream, path, shard, folder)) {
        complain(path);
        close_folder(folder);
        return false;
    }
    sort_list(&folder->sheets);
    sort_list(&folder->cards);
    return true;
}

/* Whether a name is that of a night's file in the folder. */
static bool is_nights_file(const char *path, const char *name)
{
    struct entry entry;
    return is_in_folder(name, path) && parse_entry(base_name(name), &entry);
}

bool is_kept_apart(const char *path, const char *out)
{
    char *target = realpath(out, NULL);
    bool apart = !is_nights_file(path, out) && (target == NULL || !is_nights_file(path, target));
    free(target);
    if (!apart) {
        complain_of(out, "the next night would read this as a file of its folder");
    }
    return apart;
}

void close_folder(struct folder *folder)
{
    closedir(folder->stream);
    free_list(&folder->sheets);
    free_list(&folder->cards);
}

/* -- The sheets ------------------------------------------------------------------------------- */

/* What a sheet's files are read into. */
struct rooms {
    uint8_t sheet[SHEET_LIMIT];
    uint8_t text[SHEET_TEXT_MAX + 1];
    uint8_t memory[MEMORY_LIMIT];
};

static bool assemble_into(struct rooms *rooms, size_t text_len, struct bytes *sheet, struct finding *finding)
{
    struct assembly assembly;
    bool done = assemble((const char *)rooms->text, text_len, &assembly);
    if (done) {
        sheet->at = rooms->sheet;
        sheet->len = assembly.sheet.len < sizeof rooms->sheet ? assembly.sheet.len : sizeof rooms->sheet;
        memcpy(rooms->sheet, assembly.sheet.at, sheet->len);
    } else {
        const struct asm_error *error = &assembly.errors[0];
        set_unreadable(finding, PART_TEXT, "%zu:%zu: %s", error->line, error->column, error->sentence.at);
    }
    free_assembly(&assembly);
    return done;
}

static bool read_text(const struct location *location, const char *name, struct rooms *rooms, struct bytes *sheet,
                      struct finding *finding)
{
    size_t len;
    struct room room = {rooms->text, sizeof rooms->text};
    if (!read_part(location, name, PART_TEXT, room, &len, finding)) {
        return false;
    }
    if (len > SHEET_TEXT_MAX) {
        set_unreadable(finding, PART_TEXT, "it has more than %d bytes", SHEET_TEXT_MAX);
        return false;
    }
    return assemble_into(rooms, len, sheet, finding);
}

/* Reads a sheet from its bytes or its text, of which one must be there and not both. */
static bool read_either(const struct location *location, const char *name, struct rooms *rooms, struct bytes *sheet,
                        struct finding *finding)
{
    struct text bytes_name = {.len = 0}, text_name = {.len = 0};
    add_part_name(&bytes_name, name, NULL, PART_SHEET);
    add_part_name(&text_name, name, NULL, PART_TEXT);
    bool has_text = is_there(location, text_name.at);
    if (has_text && is_there(location, bytes_name.at)) {
        set_unreadable(finding, PART_SHEET, "there are two sheets of this name, .%s and .%s", part_suffix(PART_SHEET),
                       part_suffix(PART_TEXT));
        return false;
    }
    if (has_text) {
        return read_text(location, text_name.at, rooms, sheet, finding);
    }
    sheet->at = rooms->sheet;
    return read_part(location, bytes_name.at, PART_SHEET, (struct room){rooms->sheet, sizeof rooms->sheet}, &sheet->len,
                     finding);
}

/* Reads a sheet and its memory and carries it out; else the finding is that of every card. */
static bool make_reference(const struct location *location, const char *name, struct reference *reference,
                           struct finding *finding)
{
    static struct rooms rooms;
    struct bytes sheet, memory = {rooms.memory, 0};
    struct text memory_name = {.len = 0};
    add_part_name(&memory_name, name, NULL, PART_MEMORY);
    if (!read_either(location, name, &rooms, &sheet, finding) ||
        !read_part(location, memory_name.at, PART_MEMORY, (struct room){rooms.memory, sizeof rooms.memory}, &memory.len,
                   finding)) {
        return false;
    }
    if (!carry_reference(reference, sheet, memory)) {
        struct refused refused = refused_reference(reference);
        set_refused(finding, &refused);
        return false;
    }
    return true;
}

/* The names of a card's files that are there; the memory that it left must be. */
struct pair_names {
    struct text room[PARTS];
    struct card_names names;
};

static const char *name_if_there(const struct folder *folder, struct pair_names *pair, const char *name,
                                 const char *card, enum part part)
{
    struct text *room = &pair->room[part];
    room->len = 0;
    add_part_name(room, name, card, part);
    return is_there(&folder->location, room->at) ? room->at : NULL;
}

static void find_names(const struct folder *folder, const char *name, const char *card, struct pair_names *pair)
{
    pair->names = (struct card_names){
        .after = name_if_there(folder, pair, name, card, PART_AFTER),
        .registers = name_if_there(folder, pair, name, card, PART_REGISTERS),
        .trace = name_if_there(folder, pair, name, card, PART_TRACE),
        .refusal = name_if_there(folder, pair, name, card, PART_REFUSAL),
    };
}

static void judge_pair(const struct folder *folder, struct reference *reference, const char *name, const char *card,
                       struct finding *finding, uint32_t *counts)
{
    static struct card_files files;
    static struct pair_names pair;
    find_names(folder, name, card, &pair);
    pair.names.after = pair.room[PART_AFTER].at;
    judge_card(reference, &folder->location, &pair.names, &files, finding, counts);
}

/* Of a sheet that is refused: what the card answers. */
static void judge_refused_pair(const struct folder *folder, const struct finding *refused, const char *name,
                               const char *card, struct finding *finding, uint32_t *counts)
{
    static struct pair_names pair;
    find_names(folder, name, card, &pair);
    judge_refusal(refused, &folder->location, &pair.names, finding, counts);
}

bool judge_sheet(const struct folder *folder, const struct list *cards, const char *name, struct judged *judged)
{
    static struct reference reference;
    struct finding common;
    bool made = make_reference(&folder->location, name, &reference, &common);
    if (made) {
        judged->census.count = reference.shown.census.count;
        memcpy(judged->census.at, reference.shown.census.at, judged->census.count * sizeof judged->census.at[0]);
    } else {
        begin_census(&judged->census);
    }
    if (!make_counts(judged)) {
        complain(name);
        return false;
    }
    for (size_t i = 0; i < cards->count; i++) {
        struct finding *finding = &judged->findings[i];
        if (made) {
            judge_pair(folder, &reference, name, cards->at[i], finding, counts_of(judged, i));
        } else if (common.verdict == VERDICT_REFUSED) {
            judge_refused_pair(folder, &common, name, cards->at[i], finding, counts_of(judged, i));
        } else {
            *finding = common;
        }
    }
    return true;
}
