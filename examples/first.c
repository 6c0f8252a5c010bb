/* A run from C or C++: a table and a schedule in, answers and ends out. README.md shows it. bindings/examples/first.rs is the same in Rust; both print
 * examples/first.out.
 *
 *     cc first.c $(pkg-config --cflags --libs kunzeastylus)
 */
#include <kunzeastylus.h>
#include <stdio.h>

int main(void) {
    /* Document 01's sample: one program on two boards that adds up what it is sent. */
    static const uint8_t table[] = {0, 35, 1, 2, 1, 2, KS_OUTSIDE, 0, 0, KS_OUTSIDE, 0, 1, 4,
                                    KS_TAKE, 0, 0, 0, 0, 0, KS_ADD, 1, 0, 0, 0, 0, KS_SEND, 1, 0, 0, 0, 1, KS_JUMP, 0, 0, 0, 0, 0};
    uint8_t bytes[KS_SCHEDULE_BYTES(4)], answers[4 * KS_RECORD], reasons[4 * KS_REASON], report[1 * KS_REPORT], origins[4 * KS_ORIGIN];
    if (ks_abi() != KS_ABI) {
        fprintf(stderr, "first: libkunzeastylus.a has the calls of ABI %u, the header those of ABI %u: take both from one release\n",
                (unsigned)ks_abi(), (unsigned)KS_ABI);
        return 1;
    }
    struct ks_schedule schedule = ks_schedule_begin(bytes, sizeof bytes);
    ks_schedule_add(&schedule, KS_FEED, 0, 5);
    ks_schedule_add(&schedule, KS_STEP, 0, 0);
    ks_schedule_add(&schedule, KS_CRASH, 0, 0);
    ks_schedule_add(&schedule, KS_STEP, 0, 0);
    uint64_t ran = ks_run(table, sizeof table, bytes, ks_schedule_end(&schedule), answers, sizeof answers, reasons, sizeof reasons,
                          report, sizeof report, origins, sizeof origins);
    if (ks_number(ran) != KS_ACCEPTED) {
        printf("refused %u: %s\n", (unsigned)ks_number(ran), ks_refusal_text(ks_number(ran)));
        return 1;
    }
    for (size_t i = 0; i < ks_records(ran); i++) {
        printf("%u: %s\n", (unsigned)i + 1, ks_reason_text(ks_why(reasons, i)));
    }
    printf("process 0 runs on board %u at place %u, with %u unread\n", ks_board(report, 0), ks_place(report, 0), ks_unread(report, 0));
    return 0;
}
