/* The last 256 reports counted, beside all reports since the last sizes that were not refused: from a rack that decodes shots of the code Four, and from
 * lists of the heap that are exactly as long as they have to be, longer or short. */
#include "rack.h"

#include <stdio.h>
#include <stdlib.h>

enum { N = 4, LAST = 256, HALF = 5, REPORT = 2 * HALF, MOST = 4096 };

static struct rack rack;
static struct rack_half reports[MOST][2];
static size_t count;
static int passed, failed;

static void expect(bool holds, const char *what) {
    printf("%s %s\n", holds ? "ok" : "FAILED", what);
    *(holds ? &passed : &failed) += 1;
}

/* Takes a record and notes a report; sizes that are not refused begin anew. */
static struct rack_reply take(struct rack_record record) {
    struct rack_reply reply = rack_take(&rack, record);

    if (record.bytes[0] == RACK_KIND_SIZES && reply.answer != RACK_ANSWER_REFUSED)
        count = 0;
    if (reply.answer == RACK_ANSWER_DECODED) {
        if (count == MOST)
            abort();
        reports[count][0] = reply.x;
        reports[count++][1] = reply.z;
    }
    return reply;
}

static void add(struct rack_half_counts *counts, struct rack_half half) {
    counts->certain += half.word == RACK_WORD_CERTAIN;
    counts->unsure += half.word == RACK_WORD_UNSURE;
    counts->none += half.word == RACK_WORD_NONE;
    counts->spent += half.word == RACK_WORD_SPENT;
    counts->stopped += half.word == RACK_WORD_STOPPED;
    counts->turns += half.turns;
    counts->guesses += half.guesses;
    counts->live += half.live;
}

static struct rack_counts nothing(uint32_t refusal) {
    struct rack_counts counts;

    memset(&counts, 0, sizeof counts);
    counts.refusal = refusal;
    return counts;
}

/* A fresh count over the last of all reports. */
static struct rack_counts fresh_count(void) {
    struct rack_counts counts = nothing(0);

    for (size_t at = count > LAST ? count - LAST : 0; at < count; at++) {
        add(&counts.x, reports[at][0]);
        add(&counts.z, reports[at][1]);
    }
    return counts;
}

static bool same(struct rack_counts counts, struct rack_counts other) {
    return memcmp(&counts, &other, sizeof counts) == 0;
}

/* The first elements of a list in a block of their own with so many; those past them are 1, which a count of them would tell. */
static struct rack_counts from_heap(struct rack_state state, const uint16_t *list, size_t elements, size_t length) {
    uint16_t *block = (uint16_t *)malloc(length > 0 ? length * sizeof *block : 1);
    struct rack_counts counts;

    if (block == NULL)
        abort();
    for (size_t at = 0; at < length; at++)
        block[at] = at < elements ? list[at] : 1;
    counts = rack_window(state, block, length);
    free(block);
    return counts;
}

/* From the rack and from the heap, with other elements where no report is kept. A read leaves the rack as it is. */
static void expect_counts(const char *what) {
    static struct rack before;
    size_t last = LAST, kept = REPORT * (count < last ? count : last);
    struct rack_counts counts;

    memcpy(&before, &rack, sizeof rack);
    counts = rack_counts_of(&rack);
    expect(memcmp(&before, &rack, sizeof rack) == 0 && same(counts, fresh_count()) &&
               same(from_heap(rack.state, rack.window, kept, RACK_LEAST_WINDOW), counts),
           what);
}

static void load(void) {
    static const uint16_t row[N] = {0, 1, 2, 3};

    take(rack_sizes(N, 1, 1));
    take(rack_x_row(row, N));
    expect_counts("a code that is loading");
    take(rack_z_row(row, N));
}

/* Halves of every word: unsure, certain, none beside certain, spent beside certain, stopped. */
static void shot(size_t which) {
    size_t way = which % 5;

    if (way != 2)
        take(rack_lost(2));
    if (way == 0)
        take(rack_lost(0));
    take(way == 3 ? rack_unread_z(0) : rack_lit_z(0));
    take(rack_decode(way == 3 ? 0 : RACK_MOST_BUDGET, way == 4 ? 0 : RACK_MOST_LIMIT));
}

/* The first five shots, counted by hand: a word's count, then turns, guesses and live guesses. */
static void first_shots(void) {
    static const struct rack_counts five = {0, {1, 1, 1, 1, 1, 3, 1, 1}, {3, 1, 0, 0, 1, 4, 1, 1}};

    expect_counts("a code without a report");
    for (size_t at = 0; at < 5; at++)
        shot(at);
    expect(same(rack_counts_of(&rack), five), "a report of each word");
    take(rack_lost(1));
    expect_counts("an open shot");
    take(rack_lost(N));
    expect_counts("a spoiled shot");
    take(rack_decode(RACK_MOST_BUDGET, RACK_MOST_LIMIT));
    expect_counts("a decode that was refused");
    take(rack_logical(2));
    expect_counts("logical qubits that agree");
}

static void many_shots(void) {
    static const size_t ends[] = {LAST - 1, LAST, LAST + 1, 2 * LAST - 1, 2 * LAST, 2 * LAST + 1, 3 * LAST, 4 * LAST + 7};

    for (size_t at = 0; at < sizeof ends / sizeof *ends; at++) {
        char what[40];

        while (count < ends[at])
            shot((count * count + count / 7) % 11);
        snprintf(what, sizeof what, "%u reports", (unsigned)count);
        expect_counts(what);
    }
}

/* What drops a code leaves the window. */
static void dropped(struct rack_record record, uint16_t refusal, const char *what) {
    take(rack_sizes(0, 1, 1));
    load();
    for (size_t at = 0; at < 300; at++)
        shot(at * at);
    expect(take(record).refusal == refusal, what);
    expect_counts("a code that was dropped");
    take(rack_decode(RACK_MOST_BUDGET, RACK_MOST_LIMIT));
    expect_counts("a decode without a code");
}

static void short_lists(void) {
    static const size_t lengths[] = {0, 1, REPORT, RACK_LEAST_WINDOW - REPORT, RACK_LEAST_WINDOW - 1};
    static const size_t longer[] = {RACK_LEAST_WINDOW, RACK_LEAST_WINDOW + 1, 2 * RACK_LEAST_WINDOW};
    bool refused = true, read = true;

    for (size_t at = 0; at < sizeof lengths / sizeof *lengths; at++)
        refused = refused && same(from_heap(rack.state, rack.window, lengths[at], lengths[at]), nothing(RACK_REFUSAL_SHORT));
    for (size_t at = 0; at < sizeof longer / sizeof *longer; at++)
        read = read && same(from_heap(rack.state, rack.window, RACK_LEAST_WINDOW, longer[at]), fresh_count());
    expect(refused, "short lists");
    expect(read, "lists that are long enough");
}

/* Any numbers in the list and of reports: what the first places hold. */
static void altered(void) {
    static const uint16_t numbers[] = {0, 1, 255, 256, 257, 511, 512, UINT16_MAX};
    static uint16_t list[RACK_LEAST_WINDOW];
    bool held = true;

    for (size_t at = 0; at < RACK_LEAST_WINDOW; at++)
        list[at] = (uint16_t)(at % HALF == 0 ? at / HALF % 8 + at % 3 * 256 : UINT16_MAX - at);
    for (size_t at = 0; at < sizeof numbers / sizeof *numbers; at++) {
        struct rack_state state = rack.state;
        struct rack_counts counts = nothing(0);

        state.reports = numbers[at];
        for (size_t place = 0; place < LAST && place < numbers[at]; place++)
            for (size_t half = 0; half < 2; half++) {
                struct rack_half kept;

                memcpy(&kept, list + place * REPORT + half * HALF, sizeof kept);
                add(half == 0 ? &counts.x : &counts.z, kept);
            }
        held = held && same(from_heap(state, list, RACK_LEAST_WINDOW, RACK_LEAST_WINDOW), counts);
    }
    expect(held, "numbers that no report wrote");
}

int main(void) {
    static const uint16_t row[1] = {0};

    expect(same(rack_counts_of(&rack), nothing(RACK_REFUSAL_SHORT)), "no counts before a start");
    if (!rack_start(&rack))
        abort();
    expect_counts("no code");
    load();
    first_shots();
    many_shots();
    short_lists();
    altered();
    dropped(rack_sizes(0, 1, 1), RACK_REFUSAL_SIZE, "dropped by sizes that are refused");
    dropped(rack_x_row(row, 1), RACK_REFUSAL_PLACE, "dropped by a row that was not awaited");
    dropped(rack_logical(1), RACK_REFUSAL_ENCODED, "dropped by logical qubits that differ");
    take(rack_sizes(N, 0, 0));
    expect(same(rack_counts_of(&rack), nothing(0)), "nothing after other sizes");
    shot(1);
    expect_counts("a report of the new code");
    printf("%d passed, %d failed\n", passed, failed);
    return failed != 0;
}
