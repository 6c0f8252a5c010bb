/* The proved calls from C, as board programmers, the driver bench, the service desk, programmers who go back, the label line and the planner's
 * office use them. bindings/examples/example.rs is the same in Rust; both print examples/example.out.
 *
 *     cc -I include examples/example.c target/staticlib/libkunzeastylus.a -o example
 *
 * What is lent has a piece of memory of its own, as long as needed and no longer, so that valgrind would see a byte beyond it touched.
 */
#include "kunzeastylus.h"

#include <stdio.h>
#include <stdlib.h>
#include <string.h>

/* Document 01's sample table. */
static const uint8_t table[] = {
    0x00, 0x23, 1, 2, 1, 2,              /* length, version, two boards, one process, two channels */
    KS_OUTSIDE, 0, 0, KS_OUTSIDE,        /* channel 0 from the outside to process 0, channel 1 the other way */
    0, 1, 4,                             /* process 0: board 0, backup board 1, four instructions */
    KS_TAKE, 0, 0, 0, 0, 0, KS_ADD, 1, 0, 0, 0, 0, KS_SEND, 1, 0, 0, 0, 1, KS_JUMP, 0, 0, 0, 0, 0,
};

struct move {
    enum ks_move move;
    uint8_t a;
    uint32_t word;
};

/* Document 01's sample schedule. */
static const struct move moves[20] = {
    {KS_FEED, 0, 5}, {KS_FEED, 0, 7}, {KS_STEP, 0, 0}, {KS_STEP, 0, 0}, {KS_STEP, 0, 0}, {KS_CARRY, 0, 0}, {KS_STEP, 0, 0}, {KS_STEP, 0, 0},
    {KS_STEP, 0, 0}, {KS_STEP, 0, 0}, {KS_CRASH, 0, 0}, {KS_STEP, 0, 0}, {KS_STEP, 0, 0}, {KS_STEP, 0, 0}, {KS_STEP, 0, 0}, {KS_STEP, 0, 0},
    {KS_STEP, 0, 0}, {KS_STEP, 0, 0}, {KS_CARRY, 1, 0}, {KS_STEP, 0, 0},
};

static void *memory(size_t size) {
    void *lent = calloc(1, size);
    if (lent == NULL) {
        fputs("no memory\n", stderr);
        exit(1);
    }
    return lent;
}

/* A piece of bytes, lent or to be lent. */
struct piece {
    uint8_t *at;
    size_t len;
};

static struct piece piece(size_t len) {
    struct piece p = {memory(len), len};
    return p;
}

/* The sample table with another byte as its version. */
static struct piece table_of_version(uint8_t version) {
    struct piece p = piece(sizeof table);
    memcpy(p.at, table, sizeof table);
    p.at[2] = version;
    return p;
}

static struct piece schedule_of(const struct move *given, size_t records) {
    struct piece p = piece(KS_SCHEDULE_BYTES(records));
    struct ks_schedule schedule = ks_schedule_begin(p.at, p.len);
    for (size_t i = 0; i < records; i++) {
        ks_schedule_add(&schedule, given[i].move, given[i].a, given[i].word);
    }
    p.len = ks_schedule_end(&schedule);
    return p;
}

/* The sample schedule's first records. */
static struct piece first_records(size_t records) { return schedule_of(moves, records); }

/* What a run of so many records on so many processes is lent to write to. */
struct lent {
    struct piece answers, reasons, report, origins;
};

static struct lent lend(size_t records, size_t processes) {
    struct lent l = {piece(KS_RECORD * records), piece(KS_REASON * records), piece(KS_REPORT * processes), piece(KS_ORIGIN * records)};
    return l;
}

static void give_back(struct lent l) {
    free(l.answers.at);
    free(l.reasons.at);
    free(l.report.at);
    free(l.origins.at);
}

static uint64_t run(struct piece t, struct piece schedule, struct lent l) {
    return ks_run(t.at, t.len, schedule.at, schedule.len, l.answers.at, l.answers.len, l.reasons.at, l.reasons.len, l.report.at,
                  l.report.len, l.origins.at, l.origins.len);
}

static uint64_t label_run(uint32_t first, struct piece schedule, struct lent l) {
    return ks_label_run(first, schedule.at, schedule.len, l.answers.at, l.answers.len, l.reasons.at, l.reasons.len, l.report.at,
                        l.report.len, l.origins.at, l.origins.len);
}

/* How a run would be judged with answers, reasons, report and origins shorter by so many bytes. */
static uint32_t judge(struct piece t, struct piece schedule, struct lent l, const size_t less[4]) {
    return ks_judge(t.at, t.len, schedule.at, schedule.len, l.answers.len - less[0], l.reasons.len - less[1], l.report.len - less[2],
                    l.origins.len - less[3]);
}

/* A record's head, and as many of its saved words as that says. */
static void show_record(const char *name, const struct ks_backup *backup, const uint32_t head[KS_HEAD]) {
    const uint32_t *registers = head + KS_REGISTER;
    printf("%s: place %u, registers %u %u %u %u, count %u, words", name, head[KS_PLACE], registers[0], registers[1], registers[2], registers[3],
           head[KS_COUNT]);
    for (size_t i = 0; i < head[KS_WORDS]; i++) {
        printf(" %u:%u", ks_slot(backup, i), ks_saved(backup, i));
    }
    printf("\n");
}

static void show_reply(enum ks_backup_reply reply) {
    printf(" %u", (unsigned)reply);
}

/* A stand-by that is kept by hand: three words arrive, one of the process is carried, and a sync lands that has taken one on slot 0. Refused are a
 * word on slot 4 and a sync that has taken one on slot 2. */
static void board_programmer(void) {
    static const uint32_t registers[KS_REGISTERS] = {1, 2, 3, 4}, one_of_2[KS_SLOTS] = {0, 0, 1, 0}, one_of_0[KS_SLOTS] = {1, 0, 0, 0};
    struct ks_backup *backup = memory(sizeof *backup);
    uint32_t *report = memory(KS_SYNC_REPORT * sizeof *report), *handed = memory(KS_HEAD * sizeof *handed);
    printf("board programmer\nreplies");
    ks_new(backup);
    show_reply(ks_arrive(backup, 0, 10));
    show_reply(ks_arrive(backup, 1, 11));
    show_reply(ks_arrive(backup, 0, 12));
    show_reply(ks_count(backup));
    show_reply(ks_arrive(backup, 4, 13));
    show_reply(ks_sync(backup, 5, registers, one_of_2, report));
    show_reply(ks_sync(backup, 5, registers, one_of_0, report));
    show_reply(ks_arrive(backup, 3, 14));
    printf("\nthe sync dropped %u %u %u %u, and", report[0], report[1], report[2], report[3]);
    printf(" %u %u %u %u remain\n", report[4], report[5], report[6], report[7]);
    show_record("saved", backup, backup->head);
    printf("reply");
    show_reply(ks_take_over(backup, handed));
    printf("\n");
    show_record("taken over", backup, handed);
    free(backup);
    free(report);
    free(handed);
}

/* A table and a schedule are judged before they are run, and then run: the page. */
static void driver_bench(void) {
    struct piece sound = table_of_version(1), other = table_of_version(9), schedule = first_records(20);
    struct lent l = lend(20, 1);
    static const size_t none[4] = {0}, less[4][4] = {{1, 0, 0, 0}, {0, 1, 0, 0}, {0, 0, 1, 0}, {0, 0, 0, 1}};
    printf("driver bench\njudged %u", judge(sound, schedule, l, none));
    printf(" %u", judge(other, schedule, l, none));
    for (size_t i = 0; i < 4; i++) {
        printf(" %u", judge(sound, schedule, l, less[i]));
    }
    enum ks_refusal refusal = ks_number(run(other, schedule, l));
    printf("\nrefused %u: %s\n", (unsigned)refusal, ks_refusal_text(refusal));
    uint64_t result = run(sound, schedule, l);
    printf("records %u\n", ks_records(result));
    for (size_t i = 0; i < ks_records(result); i++) {
        printf("%zu %u %u %u\n", i + 1, (unsigned)ks_code(l.answers.at, i), ks_a(l.answers.at, i), ks_answer_word(l.answers.at, i));
    }
    const uint8_t *lines = l.report.at;
    printf("process 0 %u %u %u %u", ks_board(lines, 0), ks_place(lines, 0), ks_unread(lines, 0), ks_hold_back(lines, 0));
    for (size_t r = 0; r < 4; r++) {
        printf(" %u", ks_register(lines, 0, r));
    }
    printf("\nquiet %d\n", ks_quiet(result));
    free(sound.at);
    free(other.at);
    free(schedule.at);
    give_back(l);
}

/* Every place to pull a board, of the sample up to its crash; with that crash in it a schedule is refused. */
static void before_release(void) {
    struct piece sound = table_of_version(1), unharmed = first_records(10), schedule = first_records(20);
    uint64_t result = ks_sweep(sound.at, sound.len, unharmed.at, unharmed.len);
    printf("before release\nquiet %u, held %u, open %u\n", ks_swept_quiet(result), ks_swept_held(result), ks_swept_open(result));
    printf("refused %u\n", (unsigned)ks_number(ks_sweep(sound.at, sound.len, schedule.at, schedule.len)));
    free(sound.at);
    free(unharmed.at);
    free(schedule.at);
}

/* A board is pulled: what is on the bus until then, each word fed or with its sender and the place of its SEND, why each answer is what it is,
 * with how much unread and held back the stand-by begins, and of the whole cabinet which board is dead and which words are unread. */
static void service_desk(void) {
    struct piece sound = table_of_version(1), schedule = first_records(11);
    struct lent l = lend(11, 1);
    uint64_t result = run(sound, schedule, l);
    printf("service desk\non the bus");
    for (size_t i = 0; i < ks_records(result); i++) {
        if (ks_code(l.answers.at, i) == KS_ON_THE_BUS) {
            printf(" %u:%u", ks_a(l.answers.at, i), ks_answer_word(l.answers.at, i));
            if (ks_sender(l.origins.at, i) == KS_OUTSIDE) {
                printf(" (fed)");
            } else {
                printf(" (process %u, place %u)", ks_sender(l.origins.at, i), ks_sent_at(l.origins.at, i));
            }
        }
    }
    printf("\nreasons");
    for (size_t i = 0; i < ks_records(result); i++) {
        printf(" %u", (unsigned)ks_why(l.reasons.at, i));
    }
    printf(", the last of them %s", ks_reason_text(ks_why(l.reasons.at, ks_records(result) - 1)));
    const uint8_t *report = l.report.at;
    printf("\nprocess 0 on board %u at place %u, unread %u, hold-back %u, quiet %d\n", ks_board(report, 0), ks_place(report, 0),
           ks_unread(report, 0), ks_hold_back(report, 0), ks_quiet(result));
    struct ks_cabinet_view *view = memory(sizeof *view);
    uint32_t viewed = ks_view(sound.at, sound.len, schedule.at, schedule.len, (uint32_t *)view, KS_VIEW);
    printf("view %u, board 0 dead %u, inbox", viewed, view->board[0].dead);
    for (size_t i = 0; i < view->process[0].unread; i++) {
        printf(" %u:%u", view->process[0].inbox[i].channel, view->process[0].inbox[i].word);
    }
    printf("\n");
    free(view);
    free(sound.at);
    free(schedule.at);
    give_back(l);
}

/* The second carton is taken back, and a step is, and given again: which records stand, and what is on the bus by them. */
static void programmer(void) {
    static const struct move keys[6] = {{KS_FEED, 0, 5}, {KS_FEED, 0, 7}, {KS_BACK, 0, 0}, {KS_STEP, 0, 0}, {KS_BACK, 0, 0}, {KS_STEP, 0, 0}};
    struct piece sound = table_of_version(1), schedule = schedule_of(keys, 6);
    struct lent l = lend(6, 1);
    uint64_t result = run(sound, schedule, l);
    printf("programmer\nanswers");
    for (size_t i = 0; i < ks_records(result); i++) {
        printf(" %u", (unsigned)ks_code(l.answers.at, i));
    }
    uint16_t *standing = memory(6 * sizeof *standing);
    size_t count = ks_standing(schedule.at, l.answers.at, ks_records(result), standing);
    printf("\nstanding");
    for (size_t i = 0; i < count; i++) {
        printf(" %u", standing[i] + 1u);
    }
    printf("\non the bus");
    for (size_t i = 0; i < count; i++) {
        if (ks_code(l.answers.at, standing[i]) == KS_ON_THE_BUS) {
            printf(" %u:%u", ks_a(l.answers.at, standing[i]), ks_answer_word(l.answers.at, standing[i]));
        }
    }
    printf("\n");
    free(sound.at);
    free(schedule.at);
    free(standing);
    give_back(l);
}

/* A carton is fed to the label line, numbered and printed: its code and its serial are at the outlet. A first serial can be too high. */
static void label_line(void) {
    static const struct move made[] = {
        {KS_FEED, KS_SCANNER, 77}, /* the carton's code */
        {KS_STEP, 0, 0}, {KS_STEP, 0, 0}, {KS_STEP, 0, 0}, {KS_STEP, 0, 0}, {KS_STEP, 0, 0}, {KS_CARRY, 0, 0}, {KS_CARRY, 0, 0},
        {KS_STEP, 1, 0}, {KS_STEP, 1, 0}, {KS_STEP, 1, 0}, {KS_CARRY, 1, 0}, {KS_STEP, 1, 0}, {KS_STEP, 1, 0}, {KS_STEP, 1, 0}, {KS_CARRY, 1, 0},
    };
    const size_t records = sizeof made / sizeof made[0];
    struct piece schedule = schedule_of(made, records), line = piece(KS_LABEL_TABLE);
    struct lent l = lend(records, 2);
    printf("label line\ntables %u", ks_label_table(4294957295u, line.at));
    printf(" %u\n", ks_label_table(4294957296u, line.at));
    uint64_t result = label_run(1000, schedule, l);
    printf("outlet");
    for (size_t i = 0; i < ks_records(result); i++) {
        if (ks_code(l.answers.at, i) == KS_ON_THE_BUS && ks_a(l.answers.at, i) == KS_OUTLET) {
            printf(" %u", ks_answer_word(l.answers.at, i));
        }
    }
    printf("\nrefused %u\n", (unsigned)ks_number(label_run(UINT32_MAX, schedule, l)));
    free(schedule.at);
    free(line.at);
    give_back(l);
}

/* The sample table from lists of numbers, in version 2 with a limit of 2, and taken apart again. Refused are a limit of 17, a limit in version
 * 1, and version 3. */
static void planners_office(void) {
    static const uint32_t ends[] = {KS_OUTSIDE, 0, 0, KS_OUTSIDE}, placements[] = {0, 1, 4}, two = 2, seventeen = 17;
    static const uint32_t instructions[] = {KS_TAKE, 0, 0, KS_ADD, 1, 0, KS_SEND, 1, 1, KS_JUMP, 0, 0};
    struct piece out = piece(sizeof table + 1);
    uint64_t written = ks_table_write(2, 2, 1, 2, ends, 4, placements, 3, &two, 1, instructions, 12, out.at, out.len);
    printf("planner's office\nwritten %u, %zu bytes\n", (unsigned)ks_number(written), ks_written(written));
    uint32_t *lists = memory((4 + 3 + 1 + 12) * sizeof *lists);
    uint64_t apart = ks_table_apart(out.at, out.len, lists, 4, lists + 4, 3, lists + 7, 1, lists + 8, 12);
    printf("taken apart %u, version %u, limit %u\n", (unsigned)ks_number(apart), ks_apart_version(apart), lists[7]);
    printf("refused");
    written = ks_table_write(2, 2, 1, 2, ends, 4, placements, 3, &seventeen, 1, instructions, 12, out.at, out.len);
    printf(" %u", (unsigned)ks_number(written));
    written = ks_table_write(1, 2, 1, 2, ends, 4, placements, 3, &two, 1, instructions, 12, out.at, out.len);
    printf(" %u", (unsigned)ks_number(written));
    written = ks_table_write(3, 2, 1, 2, ends, 4, placements, 3, &two, 1, instructions, 12, out.at, out.len);
    printf(" %u\n", (unsigned)ks_number(written));
    free(out.at);
    free(lists);
}

int main(void) {
    if (ks_abi() != KS_ABI) {
        fprintf(stderr, "example: libkunzeastylus.a has the calls of ABI %u, the header those of ABI %u: take both from one release\n",
                (unsigned)ks_abi(), (unsigned)KS_ABI);
        return 1;
    }
    board_programmer();
    driver_bench();
    before_release();
    service_desk();
    programmer();
    label_line();
    planners_office();
    return 0;
}
