/* The proved calls for programs in C (from C99 on) and C++ (from C++11 on): the run of a schedule, the judging of its input, every place to pull a
 * board, the whole cabinet after a run, tables, the backup record and the label line. One library for x86-64 has them all, libkunzeastylus.a, and
 * exports nothing else; `tools/library` writes it to target/staticlib/, and `tools/install PREFIX` installs it with this header.
 *
 * All numbers are those of the documents; docs/NUMBERS.md has each in a line, and the texts below say the same. The calls keep nothing between them,
 * allocate nothing and may be used from several threads at once. Of the C library they call memcpy and memset. Each lent piece of memory is a
 * pointer and a length, or an array of a fixed length. Its pointer is not null, not even where the length is 0, and what is lent to be written
 * overlaps nothing else that is lent. Otherwise the calls ask nothing of their caller: any bytes, any lengths.
 *
 * A program that was built with another header would link, and lend what the library doesn't expect: so compare KS_ABI with ks_abi() first.
 */
#ifndef KUNZEASTYLUS_H
#define KUNZEASTYLUS_H

#include <stddef.h>
#include <stdint.h>

#ifdef __cplusplus
extern "C" {
#endif

/* ---- which release this is, and which calls: the number of these goes up when a signature or a layout changes */

#define KS_VERSION "1.0.0"
#define KS_ABI 3

/* ---- sizes, in bytes unless said */

#define KS_TABLE_MOST 6278      /* the longest table: its length field at most 6,276, and that field */
#define KS_SCHEDULE_MOST 60003  /* the longest schedule: 10,000 records */
#define KS_RECORDS_MOST 10000
#define KS_SWEEP_MOST 500       /* records of a schedule that is swept */
#define KS_PROCESSES_MOST 16
#define KS_BOARDS_MOST 16
#define KS_CHANNELS_MOST 32
#define KS_WORDS_MOST 64        /* unread words of a process, and saved words of a backup */
#define KS_QUEUE_MOST 32        /* entries of a board's queue */
#define KS_ENDS_MOST 64         /* the longest lists of a table, in numbers */
#define KS_PLACEMENTS_MOST 48
#define KS_LIMITS_MOST 16
#define KS_INSTRUCTIONS_MOST 3072
#define KS_RECORD 6             /* a schedule's record, and an answer: code, a, word */
#define KS_REASON 1             /* of each record in the list of reasons: the answer's code times 4, plus its cause */
#define KS_REPORT 20            /* of each process */
#define KS_ORIGIN 2             /* of each record in the list of origins: sender and place of the word that it put on the bus */
#define KS_LABEL_TABLE 84       /* a label line's table */
#define KS_SAVED 64             /* the saved words of a backup record, in numbers of 64 bits */
#define KS_HEAD 7               /* the rest of it, in numbers of 32 bits */
#define KS_SLOTS 4
#define KS_REGISTERS 4
#define KS_SYNC_REPORT 8        /* what a sync of it reports, in numbers of 32 bits: words dropped on each slot, then those that remain on each */
#define KS_VIEW 11187           /* the whole cabinet, in numbers of 32 bits: struct ks_cabinet_view */
#define KS_SCHEDULE_BYTES(records) (3 + KS_RECORD * (records)) /* a schedule of so many records */

/* ---- stack that a call takes at most, in bytes, as it is measured for many inputs whenever the library is tested. A thread may have less by default */

#define KS_STACK_RUN 376832         /* ks_run, ks_label_run */
#define KS_STACK_SWEEP 385024       /* ks_sweep */
#define KS_STACK_VIEW 487424        /* ks_view */
#define KS_STACK_TABLE_WRITE 12288  /* ks_table_write */
#define KS_STACK_OTHER 6144         /* every other call */

/* ---- a table's instructions and a schedule's moves */

enum ks_instruction { KS_SET = 1, KS_ADD = 2, KS_TAKE = 3, KS_FIRST = 4, KS_SEND = 5, KS_JUMP = 6 };
enum ks_move { KS_STEP = 1, KS_SYNC = 2, KS_CARRY = 3, KS_FEED = 4, KS_CRASH = 5, KS_RETURN = 6, KS_RESYNC = 7, KS_BACK = 8 };
enum { KS_SCANNER = 0, KS_PRINTER = 1, KS_OUTLET = 2 }; /* the label line's channels */
enum { KS_OUTSIDE = 255 }; /* as the sender or the reader of a channel, and as the sender of a word that is fed */

/* ---- why a run, a sweep or a table is refused, in the words of ks_refusal_text; the lowest number first, but KS_LIMIT between 8 and 9, and
 * KS_NO_ROOM, KS_ORIGINS_SHORT, KS_UNSWEPT and KS_VIEW_SHORT last. 0 is accepted */

enum ks_refusal {
    KS_ACCEPTED = 0,
    KS_TABLE_LENGTH = 1,
    KS_TABLE_VERSION = 2,
    KS_TABLE_COUNTS = 3,
    KS_TABLE_EXTENT = 4,
    KS_CHANNEL_ENDS = 5,
    KS_CHANNELS_READ = 6,
    KS_BOARDS = 7,
    KS_INSTRUCTION = 8,
    KS_SCHEDULE_LENGTH = 9,
    KS_SCHEDULE_VERSION = 10,
    KS_ANSWERS_SHORT = 11,
    KS_REPORT_SHORT = 12,
    KS_NO_ROOM = 45,          /* of ks_table_write and ks_table_apart alone */
    KS_FIRST_SERIAL = 46,     /* of ks_label_table and ks_label_run alone */
    KS_LIMIT = 47,
    KS_ORIGINS_SHORT = 51,
    KS_UNSWEPT = 52,          /* of ks_sweep alone */
    KS_VIEW_SHORT = 54        /* of ks_view alone */
};

/* ---- the answer to a record, in the words of ks_answer_text; behind each, its a and word */

enum ks_answer {
    KS_DONE = 0,              /* (0, 0) */
    KS_TOOK = 1,              /* (channel, word), as the three below */
    KS_QUEUED = 2,
    KS_HELD_BACK = 3,
    KS_ON_THE_BUS = 4,
    KS_SYNC_CARRIED = 5,      /* (process, how many saved words it dropped); of a resync (process, 0) */
    KS_SYNC_UNBACKED = 6,     /* (process, 0) */
    KS_TAKEN_BACK = 7,        /* (0, 0) */
    /* refusals: the record's a, and word 0 */
    KS_BAD_RECORD = 32,
    KS_BAD_INDEX = 33,
    KS_BOARD_DEAD = 34,
    KS_HALTED = 35,
    KS_NO_WORD = 36,
    KS_OWES_SYNC = 37,
    KS_QUEUE_FULL = 38,
    KS_CHANNEL_HELD = 39,
    KS_NO_BACKUP = 40,
    KS_SYNC_WAITING = 41,
    KS_QUEUE_EMPTY = 42,
    KS_NOT_FROM_OUTSIDE = 43,
    KS_SOME_UNBACKED = 44,
    KS_BOARD_LIVE = 48,
    KS_NOT_READY = 49,
    KS_HAS_BACKUP = 50,
    KS_NONE_KEPT = 53
};

/* ---- why it is that answer, in the words of ks_reason_text: a byte of the list of reasons, the answer's code times 4, plus its cause, 0 to 3 */

enum ks_reason {
    KS_REASON_CALCULATED = 0,
    KS_REASON_SYNC_ISSUED = 1,
    KS_REASON_BOARD_CRASHED = 2,
    KS_REASON_RETURNED_OR_RESYNC = 3,
    KS_REASON_TOOK = 4,
    KS_REASON_QUEUED = 8,
    KS_REASON_HELD_BACK = 12,
    KS_REASON_CARRIED = 16,
    KS_REASON_FED = 17,
    KS_REASON_SYNC_CARRIED = 20,
    KS_REASON_RESYNC_CARRIED = 23,
    KS_REASON_SYNC_UNBACKED = 24,
    KS_REASON_TAKEN_BACK = 28,
    KS_REASON_NO_SUCH_MOVE = 128,
    KS_REASON_WORD_NOT_ZERO = 129,
    KS_REASON_NO_SUCH_PROCESS = 132,
    KS_REASON_NO_SUCH_BOARD = 133,
    KS_REASON_NO_SUCH_CHANNEL = 134,
    KS_REASON_CARRY_OF_DEAD = 136,
    KS_REASON_CRASH_OF_DEAD = 137,
    KS_REASON_HALTED = 140,
    KS_REASON_NO_WORD_FOR_TAKE = 144,
    KS_REASON_NO_WORD_FOR_FIRST = 145,
    KS_REASON_OWES_FOR_ACTS = 148,
    KS_REASON_OWES_FOR_INSTRUCTIONS = 149,
    KS_REASON_QUEUE_FULL_FOR_SEND = 152,
    KS_REASON_QUEUE_FULL_FOR_SYNC = 153,
    KS_REASON_QUEUE_FULL_FOR_RESYNC = 155,
    KS_REASON_HELD_FOR_SEND = 156,
    KS_REASON_HELD_FOR_FEED = 157,
    KS_REASON_NO_BACKUP = 160,
    KS_REASON_SYNC_WAITING = 164,
    KS_REASON_RESYNC_WAITING = 167,
    KS_REASON_QUEUE_EMPTY = 168,
    KS_REASON_NOT_FROM_OUTSIDE = 172,
    KS_REASON_SOME_UNBACKED = 176,
    KS_REASON_BOARD_LIVE = 192,
    KS_REASON_NOT_READY = 196,
    KS_REASON_HAS_BACKUP = 200,
    KS_REASON_NONE_KEPT = 212
};

/* ---- the backup record: what it is, and what its calls reply */

/* ks_new makes one; of any other numbers every call says first whether they are fit. */
struct ks_backup {
    uint64_t saved[KS_SAVED]; /* the saved words, oldest first: slot times 2^32 plus word; nobody reads those behind head[KS_WORDS] */
    uint32_t head[KS_HEAD];   /* how many words are saved, count, place, four registers */
};

enum { KS_WORDS = 0, KS_COUNT = 1, KS_PLACE = 2, KS_REGISTER = 3 }; /* where head has them; the registers are from KS_REGISTER on */

enum ks_backup_reply {
    KS_BACKUP_OK = 0,
    KS_BACKUP_UNFIT = 20,     /* on entry: over 64 words, slot over 3, count over 32, place over 64 */
    KS_BACKUP_BAD = 21,       /* arrive: slot over 3; sync: place over 64 */
    KS_BACKUP_FULL = 22,      /* 64 words saved */
    KS_BACKUP_TAKEN = 23,     /* more taken on a slot than saved */
    KS_BACKUP_COUNT = 24      /* count at 32 */
};

/* ---- the whole cabinet as numbers: what ks_view writes. Lists are oldest first, with 0 behind their last; what the table doesn't have is 0 */

enum ks_view_backup_state { KS_BACKUP_NONE = 0, KS_BACKUP_COMPLETE = 1, KS_BACKUP_MAKING = 2 };
enum ks_view_kind { KS_ENTRY_NONE = 0, KS_ENTRY_WORD = 1, KS_ENTRY_SYNC = 2, KS_ENTRY_RESYNC = 3 };

struct ks_view_unread { uint32_t channel, word; };
struct ks_view_saved { uint32_t slot, word; };

struct ks_view_backup { /* all 0 where there is none */
    uint32_t state;           /* enum ks_view_backup_state; being made, it is from a resync's issue until its carry */
    uint32_t board;
    uint32_t place;
    uint32_t registers[4];
    uint32_t count;           /* words of the process carried since this state */
    uint32_t saved;           /* how many words are saved */
    struct ks_view_saved words[KS_WORDS_MOST];
};

struct ks_view_process {
    uint32_t board;           /* where it runs */
    uint32_t place;
    uint32_t registers[4];
    uint32_t hold_back;
    uint32_t acts;            /* these three since its last sync or resync was issued */
    uint32_t instructions;
    uint32_t takes[4];        /* of each slot */
    uint32_t unread;          /* how many words are in its inbox */
    struct ks_view_unread inbox[KS_WORDS_MOST];
    struct ks_view_backup backup;
};

struct ks_view_entry {        /* what its kind doesn't have is 0 */
    uint32_t kind;            /* enum ks_view_kind */
    uint32_t channel, word;   /* of a word */
    uint32_t process;         /* of a sync or a resync */
    uint32_t place;           /* of a word, that of its SEND; of a sync, the snapshot's, as the next two */
    uint32_t registers[4];
    uint32_t takes[4];
};

struct ks_view_board {
    uint32_t dead;            /* 1, or 0 where it is live */
    uint32_t waiting;         /* how many entries its queue has */
    struct ks_view_entry queue[KS_QUEUE_MOST];
};

struct ks_cabinet_view {      /* KS_VIEW numbers */
    uint32_t boards, processes, channels; /* how many the table has */
    struct ks_view_process process[KS_PROCESSES_MOST];
    struct ks_view_board board[KS_BOARDS_MOST];
    uint32_t total[KS_CHANNELS_MOST];     /* of each channel: unread words and words in queues together */
};

/* ---- the calls */

/* The KS_ABI that the library was built for. */
uint32_t ks_abi(void);

/* The run of a schedule on a table. The result is number + 256 * quiet + 2^32 * records, unpacked by ks_number, ks_quiet and ks_records. An accepted
 * run writes six bytes a record to answers, one byte a record to reasons, 20 bytes a process to report and two bytes a record to origins, and nothing
 * beyond those; a refused one writes nothing at all. The two bytes of origins are the sender and the place of its SEND for a word that the record
 * carried, KS_OUTSIDE and 0 for a word that it fed, and 255 and 255 where no word was on the bus. What is written for a record stays where KS_BACK
 * takes the record back, but its word counts in the bus order no longer, and its feed not as fed: ks_standing says which records stand. */
uint64_t ks_run(const uint8_t *table, size_t table_len, const uint8_t *schedule, size_t schedule_len, uint8_t *answers, size_t answers_len,
                uint8_t *reasons, size_t reasons_len, uint8_t *report, size_t report_len, uint8_t *origins, size_t origins_len);

/* By which number a run of these would be refused with buffers of these lengths, or 0: an enum ks_refusal. Nothing is run. */
uint32_t ks_judge(const uint8_t *table, size_t table_len, const uint8_t *schedule, size_t schedule_len, size_t answers_len,
                  size_t reasons_len, size_t report_len, size_t origins_len);

/* Every place to pull a board: puts the crash of each board at each of the n + 1 places of a schedule of n records, and counts how these runs
 * end. The result is number + 2^16 * those that end quiet + 2^32 * those that end unquiet with some hold-back left + 2^48 * those that end unquiet
 * with none, unpacked by ks_number, ks_swept_quiet, ks_swept_held and ks_swept_open; together they are (n + 1) * boards. Refused, with 1 to 10,
 * KS_LIMIT or KS_UNSWEPT, they are 0. */
uint64_t ks_sweep(const uint8_t *table, size_t table_len, const uint8_t *schedule, size_t schedule_len);

/* The whole cabinet as it is after a run, as KS_VIEW numbers to the front of out: struct ks_cabinet_view laid over them has their names. 0, or the number
 * by which it is refused: 1 to 10 or KS_LIMIT as ks_run would be, then KS_VIEW_SHORT. Numbers behind the view stay as they were; refused, all of
 * out does. */
uint32_t ks_view(const uint8_t *table, size_t table_len, const uint8_t *schedule, size_t schedule_len, uint32_t *out, size_t out_len);

/* The backup record, in two lent arrays; the helpers below, as ks_arrive, lend those of a struct ks_backup. A refused call leaves both as they
 * were. Behind the words that were saved and those that are, nothing is written; what a sync leaves in saved from the new length to the old is
 * open.
 *     ks_backup_new        head becomes that of a record as it starts: no words, and the rest 0
 *     ks_backup_arrive     a word arrives on a slot and is saved: 0, or 20, 21, 22
 *     ks_backup_count      a word of the process was carried: 0, or 20, 24
 *     ks_backup_sync       a sync lands, with a place, four registers, and how many words were taken on each slot: 0, or 20, 21, 23; report becomes
 *                          the words dropped on each slot, and then those that remain on each, all 0 when refused
 *     ks_backup_take_over  0, or 20. handed becomes what takes over, laid out as head; its words are the first of saved. All 0 when refused */
void ks_backup_new(uint32_t head[KS_HEAD]);
uint32_t ks_backup_arrive(uint64_t saved[KS_SAVED], uint32_t head[KS_HEAD], uint32_t slot, uint32_t word);
uint32_t ks_backup_count(const uint64_t saved[KS_SAVED], uint32_t head[KS_HEAD]);
uint32_t ks_backup_sync(uint64_t saved[KS_SAVED], uint32_t head[KS_HEAD], uint32_t place, const uint32_t registers[KS_REGISTERS],
                        const uint32_t taken[KS_SLOTS], uint32_t report[KS_SYNC_REPORT]);
uint32_t ks_backup_take_over(const uint64_t saved[KS_SAVED], const uint32_t head[KS_HEAD], uint32_t handed[KS_HEAD]);

/* The table that lists of numbers say, to the front of out: version is 1 or 2, ends has sender and reader of each channel, placements primary
 * board, backup board and n of each process, limits in version 2 the limit of each process and in version 1 nothing, instructions code, a and
 * operand of each instruction, those of all processes in a row. Bytes behind the table stay as they were; refused, with 2 to 8, KS_LIMIT or
 * KS_NO_ROOM, all of out does. The result is number + 2^32 * the table's length, unpacked by ks_number and ks_written. */
uint64_t ks_table_write(uint32_t version, uint32_t boards, uint32_t processes, uint32_t channels, const uint32_t *ends, size_t ends_len,
                        const uint32_t *placements, size_t placements_len, const uint32_t *limits, size_t limits_len,
                        const uint32_t *instructions, size_t instructions_len, uint8_t *out, size_t out_len);

/* The lists of a table, to the fronts of four lent ones; of version 1 there are no limits. Numbers behind them stay as they were; refused, with
 * 1 to 8, KS_LIMIT or KS_NO_ROOM, all do. The result is number + 256 * boards + 2^16 * processes + 2^24 * channels + 2^32 * how many
 * instructions there are + 2^48 * version, unpacked by ks_number and the five ks_apart_.. below. */
uint64_t ks_table_apart(const uint8_t *table, size_t table_len, uint32_t *ends, size_t ends_len, uint32_t *placements,
                        size_t placements_len, uint32_t *limits, size_t limits_len, uint32_t *instructions, size_t instructions_len);

/* The label line's table of a first serial, with processes 0 (numbering, on board 0) and 1 (printing, on board 1), and channels KS_SCANNER,
 * KS_PRINTER and KS_OUTLET: 0, or KS_FIRST_SERIAL, and then the lent bytes are untouched. */
uint32_t ks_label_table(uint32_t first, uint8_t table[KS_LABEL_TABLE]);

/* The run of a schedule on that table: what ks_run would return, or KS_FIRST_SERIAL. The outlet gets each carton's code and then its serial:
 * the words of the answers KS_ON_THE_BUS on KS_OUTLET, of the records that stand. */
uint64_t ks_label_run(uint32_t first, const uint8_t *schedule, size_t schedule_len, uint8_t *answers, size_t answers_len, uint8_t *reasons,
                      size_t reasons_len, uint8_t *report, size_t report_len, uint8_t *origins, size_t origins_len);

/* ---- helpers */

/* Why there is nothing else, or KS_ACCEPTED: of what any call returned but those of the backup record. */
static inline enum ks_refusal ks_number(uint64_t result) { return (enum ks_refusal)(result & 255); }

/* Of what ks_run and ks_label_run returned. */
static inline int ks_quiet(uint64_t result) { return (int)(result >> 8 & 1); }
static inline uint32_t ks_records(uint64_t result) { return (uint32_t)(result >> 32); }

/* Of what ks_sweep returned. */
static inline uint32_t ks_swept_quiet(uint64_t result) { return (uint32_t)(result >> 16 & 65535); }
static inline uint32_t ks_swept_held(uint64_t result) { return (uint32_t)(result >> 32 & 65535); }
static inline uint32_t ks_swept_open(uint64_t result) { return (uint32_t)(result >> 48); }

/* Of what ks_table_write returned: the table's length. */
static inline size_t ks_written(uint64_t result) { return (size_t)(result >> 32); }

/* Of what ks_table_apart returned. */
static inline uint32_t ks_apart_boards(uint64_t result) { return (uint32_t)(result >> 8 & 255); }
static inline uint32_t ks_apart_processes(uint64_t result) { return (uint32_t)(result >> 16 & 255); }
static inline uint32_t ks_apart_channels(uint64_t result) { return (uint32_t)(result >> 24 & 255); }
static inline uint32_t ks_apart_instructions(uint64_t result) { return (uint32_t)(result >> 32 & 65535); }
static inline uint32_t ks_apart_version(uint64_t result) { return (uint32_t)(result >> 48); }

/* A schedule that is written to lent bytes, KS_SCHEDULE_BYTES(records) of them: begun, each record added, ended. Where a record finds no room, or is
 * beyond KS_RECORDS_MOST, nothing more is written, and the length at the end is 0, of which a run is refused with KS_SCHEDULE_LENGTH. */
struct ks_schedule {
    uint8_t *bytes;
    size_t room;
    size_t len;               /* so many bytes are written; 0 where something found no room */
};

static inline struct ks_schedule ks_schedule_begin(uint8_t *bytes, size_t room) {
    struct ks_schedule schedule = {bytes, room, 0};
    if (room >= KS_SCHEDULE_BYTES(0)) {
        bytes[0] = 0;
        bytes[1] = 1;
        bytes[2] = 1;
        schedule.len = KS_SCHEDULE_BYTES(0);
    }
    return schedule;
}

static inline void ks_schedule_add(struct ks_schedule *schedule, enum ks_move move, uint8_t a, uint32_t word) {
    uint8_t *record = schedule->bytes + schedule->len;
    if (schedule->len == 0 || schedule->len >= KS_SCHEDULE_MOST || schedule->room - schedule->len < KS_RECORD) {
        schedule->len = 0;
        return;
    }
    record[0] = (uint8_t)move;
    record[1] = a;
    record[2] = (uint8_t)(word >> 24);
    record[3] = (uint8_t)(word >> 16);
    record[4] = (uint8_t)(word >> 8);
    record[5] = (uint8_t)word;
    schedule->len += KS_RECORD;
}

/* Writes the length field; the schedule's length, or 0. */
static inline size_t ks_schedule_end(struct ks_schedule *schedule) {
    if (schedule->len != 0) {
        schedule->bytes[0] = (uint8_t)((schedule->len - 2) >> 8);
        schedule->bytes[1] = (uint8_t)(schedule->len - 2);
    }
    return schedule->len;
}

/* Four bytes as a word, the highest first. */
static inline uint32_t ks_word(const uint8_t *bytes) {
    return (uint32_t)bytes[0] << 24 | (uint32_t)bytes[1] << 16 | (uint32_t)bytes[2] << 8 | (uint32_t)bytes[3];
}

/* The answer to record i, from 0. */
static inline enum ks_answer ks_code(const uint8_t *answers, size_t i) { return (enum ks_answer)answers[KS_RECORD * i]; }
static inline uint8_t ks_a(const uint8_t *answers, size_t i) { return answers[KS_RECORD * i + 1]; }
static inline uint32_t ks_answer_word(const uint8_t *answers, size_t i) { return ks_word(answers + KS_RECORD * i + 2); }

/* Why record i, from 0, has its answer. */
static inline enum ks_reason ks_why(const uint8_t *reasons, size_t i) { return (enum ks_reason)reasons[KS_REASON * i]; }

/* From where the word came that record i, from 0, put on the bus: its answer is KS_ON_THE_BUS. */
static inline uint8_t ks_sender(const uint8_t *origins, size_t i) { return origins[KS_ORIGIN * i]; }
static inline uint8_t ks_sent_at(const uint8_t *origins, size_t i) { return origins[KS_ORIGIN * i + 1]; }

/* The records that stand in the end, in order, from 0: all but those of KS_BACK and those that they took back. How many there are; standing has
 * room for all records of the schedule. */
static inline size_t ks_standing(const uint8_t *schedule, const uint8_t *answers, size_t records, uint16_t *standing) {
    size_t count = 0;
    for (size_t i = 0; i < records; i++) {
        if (schedule[3 + KS_RECORD * i] != KS_BACK) {
            standing[count++] = (uint16_t)i;
        } else if (ks_code(answers, i) == KS_TAKEN_BACK) {
            count--;
        }
    }
    return count;
}

/* What the report says of process p. */
static inline uint8_t ks_board(const uint8_t *report, size_t p) { return report[KS_REPORT * p]; }
static inline uint8_t ks_place(const uint8_t *report, size_t p) { return report[KS_REPORT * p + 1]; }
static inline uint8_t ks_unread(const uint8_t *report, size_t p) { return report[KS_REPORT * p + 2]; }
static inline uint8_t ks_hold_back(const uint8_t *report, size_t p) { return report[KS_REPORT * p + 3]; }
static inline uint32_t ks_register(const uint8_t *report, size_t p, size_t r) { return ks_word(report + KS_REPORT * p + 4 + 4 * r); }

/* The calls of the backup record. */
static inline void ks_new(struct ks_backup *backup) { ks_backup_new(backup->head); }
static inline enum ks_backup_reply ks_arrive(struct ks_backup *backup, uint32_t slot, uint32_t word) {
    return (enum ks_backup_reply)ks_backup_arrive(backup->saved, backup->head, slot, word);
}
static inline enum ks_backup_reply ks_count(struct ks_backup *backup) {
    return (enum ks_backup_reply)ks_backup_count(backup->saved, backup->head);
}
static inline enum ks_backup_reply ks_sync(struct ks_backup *backup, uint32_t place, const uint32_t registers[KS_REGISTERS],
                                           const uint32_t taken[KS_SLOTS], uint32_t report[KS_SYNC_REPORT]) {
    return (enum ks_backup_reply)ks_backup_sync(backup->saved, backup->head, place, registers, taken, report);
}
static inline enum ks_backup_reply ks_take_over(const struct ks_backup *backup, uint32_t handed[KS_HEAD]) {
    return (enum ks_backup_reply)ks_backup_take_over(backup->saved, backup->head, handed);
}

/* The slot and the word of its saved word i, from 0 and below head[KS_WORDS]. */
static inline uint32_t ks_slot(const struct ks_backup *backup, size_t i) { return (uint32_t)(backup->saved[i] >> 32); }
static inline uint32_t ks_saved(const struct ks_backup *backup, size_t i) { return (uint32_t)backup->saved[i]; }

/* ---- numbers in words, those of docs/NUMBERS.md */

/* Why a run, a sweep or a table is refused. */
static inline const char *ks_refusal_text(enum ks_refusal number) {
    switch (number) {
    case KS_ACCEPTED: return "accepted";
    case KS_TABLE_LENGTH: return "the table has under 6 bytes, or its length field is over 6,276 or not the true length";
    case KS_TABLE_VERSION: return "the table's version (byte 2) is neither 1 nor 2";
    case KS_TABLE_COUNTS: return "boards not 2 to 16, processes not 1 to 16, or channels not 1 to 32";
    case KS_TABLE_EXTENT: return "a process has over 64 instructions, or the pairs and process records don't end exactly with the table; of "
               "lists, one is not as long as its counts say";
    case KS_CHANNEL_ENDS: return "a channel's end is neither a process of the table nor 255, or both are 255";
    case KS_CHANNELS_READ: return "a process reads more than four channels";
    case KS_BOARDS: return "a process's board or backup board is not below B, or they are the same";
    case KS_INSTRUCTION: return "an instruction: no such code, a register over 3 (over 2 for FIRST), a channel that the process doesn't "
               "read (TAKE, FIRST) or isn't the sender of (SEND), a mask of no or more than four bits, a jump beyond n";
    case KS_SCHEDULE_LENGTH: return "the schedule has under 3 bytes, a wrong length field, a broken record or over 10,000 records";
    case KS_SCHEDULE_VERSION: return "the schedule's version (byte 2) is not 1";
    case KS_ANSWERS_SHORT: return "the answer buffer has under six bytes a record, or the buffer of reasons under one";
    case KS_REPORT_SHORT: return "the report buffer has under 20 bytes a process";
    case KS_NO_ROOM: return "of a table written or taken apart: the buffer is shorter than the table, or a list lent is shorter than "
               "the table's";
    case KS_FIRST_SERIAL: return "of the label line alone: a first serial above 4,294,957,295; then no table is made";
    case KS_LIMIT: return "a table of version 2: a process's limit is outside 1 to 16";
    case KS_ORIGINS_SHORT: return "the buffer of origins has under two bytes a record";
    case KS_UNSWEPT: return "of a sweep alone: the schedule has a record of move 5 or 8, whatever its a and word, or over 500 records";
    case KS_VIEW_SHORT: return "of a view alone: the lent list has under 11,187 numbers";
    }
    return "no such number";
}

/* What an answer means. */
static inline const char *ks_answer_text(enum ks_answer number) {
    switch (number) {
    case KS_DONE: return "done: a SET, ADD or JUMP, a sync or a resync issued, a crash, a return";
    case KS_TOOK: return "took: a word left the inbox for a register";
    case KS_QUEUED: return "queued: a word waits to be carried";
    case KS_HELD_BACK: return "held back: a SEND whose word was on the bus before the crash; nothing is sent";
    case KS_ON_THE_BUS: return "a word on the bus, carried or fed";
    case KS_SYNC_CARRIED: return "a sync was carried: the backup record has a newer state; or a resync was: the process has a backup again";
    case KS_SYNC_UNBACKED: return "a sync was carried, but the process has no backup any more";
    case KS_TAKEN_BACK: return "a back: the last record not yet taken back, refused or not, is taken back; what was written for it stays "
               "and counts no longer";
    case KS_BAD_RECORD: return "no such move, or a word that should be 0 (all but a feed's); of a back, also an a that should be 0";
    case KS_BAD_INDEX: return "a is no process (step, sync, resync), board (carry, crash, return) or channel (feed) of this table; never "
               "of a back";
    case KS_BOARD_DEAD: return "the board is dead: it crashed earlier";
    case KS_HALTED: return "the process has halted";
    case KS_NO_WORD: return "TAKE or FIRST finds no such word";
    case KS_OWES_SYNC: return "the process has a backup and as many acts as its limit says (8 in a table of version 1), or 64 "
               "instructions, since its last sync: it owes one; likewise while a resync of it waits";
    case KS_QUEUE_FULL: return "the queue of the process's board is full, 32 entries";
    case KS_CHANNEL_HELD: return "the channel is held: 8 words or more unread and in queues";
    case KS_NO_BACKUP: return "the process has no backup (any more, or not yet)";
    case KS_SYNC_WAITING: return "a sync of the process waits in the queue already; for a resync, a sync or a resync does";
    case KS_QUEUE_EMPTY: return "the board's queue is empty";
    case KS_NOT_FROM_OUTSIDE: return "a feed of a channel whose sender is a process";
    case KS_SOME_UNBACKED: return "some process has no backup, so a crash now could lose it";
    case KS_BOARD_LIVE: return "a return of a board that is live";
    case KS_NOT_READY: return "the process isn't ready for a resync: it has hold-back left, or a channel that it reads has more than 8 "
               "words unread and in queues";
    case KS_HAS_BACKUP: return "the process has a backup, or its other table board is dead";
    case KS_NONE_KEPT: return "a back, and no record is kept to go back to: none was given, all that were kept are taken back, or the "
               "rest were pushed out";
    }
    return "no such number";
}

/* Why an answer is what it is. */
static inline const char *ks_reason_text(enum ks_reason number) {
    switch (number) {
    case KS_REASON_CALCULATED: return "done: calculated";
    case KS_REASON_SYNC_ISSUED: return "done: sync issued";
    case KS_REASON_BOARD_CRASHED: return "done: board crashed";
    case KS_REASON_RETURNED_OR_RESYNC: return "done: board returned or resync issued";
    case KS_REASON_TOOK: return "took";
    case KS_REASON_QUEUED: return "queued";
    case KS_REASON_HELD_BACK: return "held back";
    case KS_REASON_CARRIED: return "on the bus: carried";
    case KS_REASON_FED: return "on the bus: fed";
    case KS_REASON_SYNC_CARRIED: return "sync carried";
    case KS_REASON_RESYNC_CARRIED: return "resync carried, a new backup";
    case KS_REASON_SYNC_UNBACKED: return "sync carried, no backup left";
    case KS_REASON_TAKEN_BACK: return "took back a record";
    case KS_REASON_NO_SUCH_MOVE: return "bad record: no such move";
    case KS_REASON_WORD_NOT_ZERO: return "bad record: its word should be 0 (of a back, also its a)";
    case KS_REASON_NO_SUCH_PROCESS: return "not in this table: the process";
    case KS_REASON_NO_SUCH_BOARD: return "not in this table: the board";
    case KS_REASON_NO_SUCH_CHANNEL: return "not in this table: the channel";
    case KS_REASON_CARRY_OF_DEAD: return "board dead: nothing is carried from it";
    case KS_REASON_CRASH_OF_DEAD: return "board dead: it can't crash again";
    case KS_REASON_HALTED: return "halted";
    case KS_REASON_NO_WORD_FOR_TAKE: return "no such word: for TAKE";
    case KS_REASON_NO_WORD_FOR_FIRST: return "no such word: for FIRST";
    case KS_REASON_OWES_FOR_ACTS: return "owes a sync: acts at its limit";
    case KS_REASON_OWES_FOR_INSTRUCTIONS: return "owes a sync: 64 instructions";
    case KS_REASON_QUEUE_FULL_FOR_SEND: return "queue full: for SEND";
    case KS_REASON_QUEUE_FULL_FOR_SYNC: return "queue full: for a sync";
    case KS_REASON_QUEUE_FULL_FOR_RESYNC: return "queue full: for a resync";
    case KS_REASON_HELD_FOR_SEND: return "channel held: for SEND";
    case KS_REASON_HELD_FOR_FEED: return "channel held: for a feed";
    case KS_REASON_NO_BACKUP: return "no backup";
    case KS_REASON_SYNC_WAITING: return "a sync waits already";
    case KS_REASON_RESYNC_WAITING: return "a sync or resync waits already: for a resync";
    case KS_REASON_QUEUE_EMPTY: return "queue empty";
    case KS_REASON_NOT_FROM_OUTSIDE: return "sender not the outside";
    case KS_REASON_SOME_UNBACKED: return "some process has no backup";
    case KS_REASON_BOARD_LIVE: return "board live: only a dead one returns";
    case KS_REASON_NOT_READY: return "not ready: hold-back, or over 8 words on a channel";
    case KS_REASON_HAS_BACKUP: return "has a backup, or its other board is dead";
    case KS_REASON_NONE_KEPT: return "no record is kept to go back to";
    }
    return "no such number";
}

/* What the backup record replies. */
static inline const char *ks_backup_text(enum ks_backup_reply number) {
    switch (number) {
    case KS_BACKUP_OK: return "done";
    case KS_BACKUP_UNFIT: return "the record was unfit before the call: over 64 words, a slot over 3, a count over 32, a place over 64";
    case KS_BACKUP_BAD: return "arrive: slot over 3; sync: place over 64";
    case KS_BACKUP_FULL: return "64 words are saved";
    case KS_BACKUP_TAKEN: return "more taken on a slot than there are saved words on it";
    case KS_BACKUP_COUNT: return "the count is 32";
    }
    return "no such number";
}

#ifdef __cplusplus
}
#endif

#endif
