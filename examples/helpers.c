/* What the header's own helpers do at their ends: a schedule that finds no room, or too many records; results unpacked; every number in words.
 * It is C and C++ at once, so that both compile every helper; it prints nothing, and stops with 1 at the first line that is wrong. */
#include "kunzeastylus.h"

#include <stdio.h>
#include <stdlib.h>
#include <string.h>

#define WANT(what)                                                 \
    do {                                                           \
        if (!(what)) {                                             \
            fprintf(stderr, "helpers: %d: %s\n", __LINE__, #what); \
            exit(1);                                               \
        }                                                          \
    } while (0)

/* A process with no instructions, which reads a channel from the outside. */
static const uint8_t table[] = {0, 9, 1, 2, 1, 1, KS_OUTSIDE, 0, 0, 1, 0};

static uint8_t bytes[KS_SCHEDULE_MOST + KS_RECORD];

static enum ks_refusal judged(size_t length) {
    return ks_number(ks_judge(table, sizeof table, bytes, length, SIZE_MAX, SIZE_MAX, SIZE_MAX, SIZE_MAX));
}

/* The length of a schedule of so many records in so much room, which writes nothing beyond it. */
static size_t written(size_t records, size_t room) {
    struct ks_schedule schedule = ks_schedule_begin(bytes, room);
    for (size_t i = 0; i < records; i++) {
        ks_schedule_add(&schedule, KS_FEED, 0, 0x01020304u);
    }
    return ks_schedule_end(&schedule);
}

static void schedules(void) {
    static const uint8_t two[] = {0, 13, 1, 4, 0, 1, 2, 3, 4, 4, 0, 1, 2, 3, 4, 0xEE};
    memset(bytes, 0xEE, sizeof bytes);
    WANT(written(2, 15) == KS_SCHEDULE_BYTES(2) && memcmp(bytes, two, sizeof two) == 0);
    WANT(written(0, 3) == 3 && judged(3) == KS_ACCEPTED);
    WANT(written(KS_RECORDS_MOST, sizeof bytes) == KS_SCHEDULE_MOST && judged(KS_SCHEDULE_MOST) == KS_ACCEPTED);
    WANT(bytes[KS_SCHEDULE_MOST] == 0xEE);
    /* One record too many, and every room that is too short, also where records go on after that. */
    WANT(written(KS_RECORDS_MOST + 1, sizeof bytes) == 0 && bytes[KS_SCHEDULE_MOST] == 0xEE);
    for (size_t room = 0; room < 15; room++) {
        memset(bytes, 0xEE, 32);
        WANT(written(2, room) == 0 && written(9, room) == 0 && bytes[room] == 0xEE);
    }
    WANT(judged(0) == KS_SCHEDULE_LENGTH);
}

static void results(void) {
    static const uint32_t ends[] = {KS_OUTSIDE, 0}, placements[] = {0, 1, 1}, limits[] = {9}, instructions[] = {KS_TAKE, 0, 0};
    uint32_t e[KS_ENDS_MOST], p[KS_PLACEMENTS_MOST], l[KS_LIMITS_MOST], i[KS_INSTRUCTIONS_MOST];
    uint8_t out[KS_TABLE_MOST];
    uint64_t result = ks_table_write(2, 2, 1, 1, ends, 2, placements, 3, limits, 1, instructions, 3, out, sizeof out);
    WANT(ks_number(result) == KS_ACCEPTED && ks_written(result) == 18);
    result = ks_table_apart(out, ks_written(result), e, KS_ENDS_MOST, p, KS_PLACEMENTS_MOST, l, KS_LIMITS_MOST, i, KS_INSTRUCTIONS_MOST);
    WANT(ks_number(result) == KS_ACCEPTED && ks_apart_boards(result) == 2 && ks_apart_processes(result) == 1);
    WANT(ks_apart_channels(result) == 1 && ks_apart_instructions(result) == 1 && ks_apart_version(result) == 2 && l[0] == 9);
    result = ks_table_apart(out, 18, e, 1, p, KS_PLACEMENTS_MOST, l, KS_LIMITS_MOST, i, KS_INSTRUCTIONS_MOST);
    WANT(ks_number(result) == KS_NO_ROOM && result == KS_NO_ROOM);
    result = ks_sweep(table, sizeof table, bytes, written(1, sizeof bytes));
    WANT(ks_number(result) == KS_ACCEPTED && ks_swept_quiet(result) + ks_swept_held(result) + ks_swept_open(result) == 4);
}

/* Every number of 0 to 255 has words or none, and no two that have any have the same. */
static void words(void) {
    for (int a = 0; a < 256; a++) {
        const char *reason = ks_reason_text((enum ks_reason)a);
        WANT(strcmp(reason, "no such number") != 0 || a > KS_REASON_RETURNED_OR_RESYNC);
        for (int b = 0; b < a; b++) {
            WANT(strcmp(reason, "no such number") == 0 || strcmp(reason, ks_reason_text((enum ks_reason)b)) != 0);
        }
    }
    WANT(strcmp(ks_refusal_text(KS_ACCEPTED), "accepted") == 0 && strcmp(ks_refusal_text((enum ks_refusal)13), "no such number") == 0);
    WANT(strstr(ks_answer_text(KS_HALTED), "halted") != NULL && strstr(ks_backup_text(KS_BACKUP_FULL), "64") != NULL);
    WANT(strcmp(KS_VERSION, "") != 0);
}

int main(void) {
    WANT(ks_abi() == KS_ABI);
    schedules();
    results();
    words();
    return 0;
}
