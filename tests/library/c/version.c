/* Starts a rack, and says what comes of it: with an archive of another version there is no start, and a record, a candidate or a read of the
 * window is refused without a call. */
#include "rack.h"

#include <stdio.h>

int main(void) {
    static struct rack rack;
    bool before = rack_take(&rack, rack_sizes(4, 0, 0)).answer == RACK_ANSWER_REFUSED;
    uint32_t unread = rack_counts_of(&rack).refusal;
    bool started = rack_start(&rack);
    struct rack_reply reply = rack_take(&rack, rack_sizes(4, 0, 0));
    struct rack_reply report = rack_take(&rack, rack_decode(0, 0));
    uint8_t list[4];
    int x = rack_x_candidate(&rack, report, 0, list, 4), z = rack_z_candidate(&rack, report, 0, list, 4);

    printf("before: %s\n", before ? "refused" : "taken");
    printf("started: %s\n", started ? "yes" : "no");
    printf("after: answer %d, refusal %d\n", reply.answer, reply.refusal);
    printf("candidates: refusals %d, %d\n", x, z);
    printf("counts: refusals %u, %u\n", (unsigned)unread, (unsigned)rack_counts_of(&rack).refusal);
    return 0;
}
