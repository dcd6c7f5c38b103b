#define _POSIX_C_SOURCE 200809L

#include "kept.h"

#include <stdlib.h>
#include <string.h>

#include "files.h"
#include "grow.h"
#include "spool.h"

bool begin_kept(struct kept *kept, size_t cards)
{
    *kept = (struct kept){.spool = open_spool(), .cards = cards};
    return kept->spool != NULL;
}

void end_kept(struct kept *kept)
{
    if (kept->spool != NULL) {
        fclose(kept->spool);
    }
    for (size_t i = 0; i < kept->count; i++) {
        free(kept->differences[i].sheet);
    }
    free(kept->differences);
    *kept = (struct kept){.spool = NULL};
}

static bool note_difference(struct kept *kept, const char *name, size_t card, const struct finding *finding)
{
    struct kept_difference *differences = grow(kept->differences, kept->count, &kept->room, sizeof differences[0]);
    if (differences == NULL) {
        return false;
    }
    kept->differences = differences;
    char *sheet = strdup(name);
    long place = ftell(kept->spool);
    if (sheet == NULL || place < 0) {
        free(sheet);
        return false;
    }
    kept->differences[kept->count++] = (struct kept_difference){
        .sheet = sheet,
        .card = card,
        .sorts_at = finding->sorts_at,
        .sorts = finding->sorts,
        .lead = finding->lead.traits,
        .place = place,
    };
    return true;
}

/* A card that agrees is its verdict alone. */
static bool keep_finding(struct kept *kept, const char *name, size_t card, const struct finding *finding)
{
    if (fwrite(&finding->verdict, sizeof finding->verdict, 1, kept->spool) != 1) {
        return false;
    }
    if (finding->verdict == VERDICT_DIFFERS && !note_difference(kept, name, card, finding)) {
        return false;
    }
    return finding->verdict == VERDICT_AGREES || fwrite(finding, sizeof *finding, 1, kept->spool) == 1;
}

bool keep_sheet(struct kept *kept, const char *name, const struct finding *findings)
{
    bool done = fwrite(name, 1, strlen(name) + 1, kept->spool) == strlen(name) + 1;
    for (size_t i = 0; done && i < kept->cards; i++) {
        done = keep_finding(kept, name, i, &findings[i]);
    }
    if (!done) {
        complain("what was found cannot be kept");
    }
    return done;
}

static bool check_spool(bool done)
{
    if (!done) {
        complain("what was found cannot be read again");
    }
    return done;
}

bool rewind_kept(struct kept *kept)
{
    return check_spool(fflush(kept->spool) == 0 && fseek(kept->spool, 0, SEEK_SET) == 0);
}

static bool read_kept_name(FILE *spool, char name[NAME_ROOM])
{
    size_t len = 0;
    int c = getc(spool);
    for (; c > 0 && len < NAME_ROOM - 1; c = getc(spool)) {
        name[len++] = (char)c;
    }
    name[len] = '\0';
    return c == 0;
}

bool next_kept(struct kept *kept, char name[NAME_ROOM], struct finding *findings)
{
    bool done = read_kept_name(kept->spool, name);
    for (size_t i = 0; done && i < kept->cards; i++) {
        findings[i] = (struct finding){.verdict = VERDICT_AGREES};
        done = fread(&findings[i].verdict, sizeof findings[i].verdict, 1, kept->spool) == 1 &&
               (findings[i].verdict == VERDICT_AGREES || fread(&findings[i], sizeof findings[i], 1, kept->spool) == 1);
    }
    return check_spool(done);
}

bool get_kept(struct kept *kept, const struct kept_difference *difference, struct finding *finding)
{
    return check_spool(fflush(kept->spool) == 0 && fseek(kept->spool, difference->place, SEEK_SET) == 0 &&
                       fread(finding, sizeof *finding, 1, kept->spool) == 1);
}
