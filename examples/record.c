/* A stand-by's record, kept by hand: what a board does with the messages about one process that runs elsewhere. README.md shows it. */
#include "kunzeastylus.h"

#include <stdio.h>

int main(void) {
    const uint32_t registers[KS_REGISTERS] = {501, 1000, 1, 0}, taken[KS_SLOTS] = {1, 0, 0, 0};
    uint32_t report[KS_SYNC_REPORT], handed[KS_HEAD];
    struct ks_backup backup;

    if (ks_abi() != KS_ABI) {
        fputs("record: the library is of another release than the header: take both from one\n", stderr);
        return 1;
    }
    ks_new(&backup);
    ks_arrive(&backup, 0, 501);                    /* a word for the process, on its slot 0 */
    ks_arrive(&backup, 0, 502);                    /* and another */
    ks_sync(&backup, 3, registers, taken, report); /* a sync lands: place 3, and one word taken from slot 0 */
    ks_count(&backup);                             /* a word of the process is on the bus */

    if (ks_take_over(&backup, handed) == KS_BACKUP_OK) /* its board has failed: it goes on here */
        printf("at place %u, %u word unread, holding back %u\n", handed[KS_PLACE], handed[KS_WORDS], handed[KS_COUNT]);
    return 0;
}
