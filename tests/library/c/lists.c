/* Document 01's printed example, shots with an unread row, and logical qubits compared, on lists from the heap that are exactly as long as they have to be: with nothing
 * in them, with garbage, and one of them too short. */
#include "rack.h"

#include <stdio.h>
#include <stdlib.h>

enum { FLAT, ENDS, SHOT, WINDOW, WORK, X_MARKS, X_FORMS, X_CORRECTION, Z_MARKS, Z_FORMS, Z_CORRECTION, LISTS };
enum { N = 4, FORMS = 4 * N, RECORDS = 21, DECODES = 2 };

static const char *const names[LISTS] = {
    "flat", "ends", "shot", "window", "work", "x_marks", "x_forms", "x_correction", "z_marks", "z_forms", "z_correction"};
static const size_t widths[LISTS] = {2, 2, 1, 2, 8, 1, 8, 1, 1, 8, 1};
static const size_t least[LISTS] = {
    RACK_LEAST_FLAT, RACK_LEAST_ENDS, RACK_LEAST_SHOT, RACK_LEAST_WINDOW, RACK_LEAST_WORK, N, FORMS, N, N, FORMS, N};

/* The records and their answers. */
static const struct {
    size_t length;
    uint8_t bytes[9];
    uint16_t answer, refusal;
} records[RECORDS] = {
    {7, {1, 4, 0, 1, 0, 1, 0}, RACK_ANSWER_TAKEN, 0},
    {9, {36, 0, 0, 1, 0, 2, 0, 3, 0}, RACK_ANSWER_TAKEN, 0},
    {9, {68, 0, 0, 1, 0, 2, 0, 3, 0}, RACK_ANSWER_COMPLETE, 0},
    {3, {8, 2, 0}, RACK_ANSWER_TAKEN, 0},
    {3, {2, 0, 0}, RACK_ANSWER_TAKEN, 0},
    {3, {2, 1, 0}, RACK_ANSWER_TAKEN, 0},
    {3, {8, 2, 0}, RACK_ANSWER_TAKEN, 0},
    {3, {3, 0, 0}, RACK_ANSWER_TAKEN, 0},
    {4, {5, 1, 100, 0}, RACK_ANSWER_DECODED, 0},
    {3, {2, 4, 0}, RACK_ANSWER_REFUSED, RACK_REFUSAL_RANGE},
    {3, {8, 2, 0}, RACK_ANSWER_TAKEN, 0},
    {4, {5, 1, 100, 0}, RACK_ANSWER_REFUSED, RACK_REFUSAL_SPOILED},
    {3, {8, 2, 0}, RACK_ANSWER_TAKEN, 0},
    {3, {2, 2, 0}, RACK_ANSWER_TAKEN, 0},
    {3, {6, 0, 0}, RACK_ANSWER_TAKEN, 0},
    {4, {5, 1, 100, 0}, RACK_ANSWER_DECODED, 0},
    {3, {7, 0, 0}, RACK_ANSWER_TAKEN, 0},
    {3, {4, 0, 0}, RACK_ANSWER_REFUSED, RACK_REFUSAL_TWICE},
    {4, {5, 1, 100, 0}, RACK_ANSWER_REFUSED, RACK_REFUSAL_SPOILED},
    {3, {8, 3, 0}, RACK_ANSWER_REFUSED, RACK_REFUSAL_ENCODED},
    {3, {8, 2, 0}, RACK_ANSWER_REFUSED, RACK_REFUSAL_CODELESS},
};

/* What a decode reports of the X half and the Z half, and where its shot begins. The first has the Z row lit, the second has it unread. */
static const struct decode {
    int record, begins;
    struct rack_half halves[2];
    uint8_t marks[2][N];
    uint64_t forms[2][FORMS];
    uint8_t flips[2][N];
} decodes[DECODES] = {
    {8, 4, {{RACK_WORD_UNSURE, 0, 2, 1, 1}, {RACK_WORD_UNSURE, 0, 2, 1, 1}},
     {{RACK_MARK_GUESSED, RACK_MARK_PEELED, RACK_MARK_NOT_LOST, RACK_MARK_NOT_LOST},
      {RACK_MARK_GUESSED, RACK_MARK_PEELED, RACK_MARK_NOT_LOST, RACK_MARK_NOT_LOST}},
     {{2, 0, 0, 0, 3}, {2, 0, 0, 0, 2}}, {{0, 1, 0, 0}, {0, 0, 0, 0}}},
    {15, 13, {{RACK_WORD_UNSURE, 0, 1, 1, 1}, {RACK_WORD_CERTAIN, 0, 1, 0, 0}},
     {{RACK_MARK_NOT_LOST, RACK_MARK_NOT_LOST, RACK_MARK_GUESSED, RACK_MARK_NOT_LOST},
      {RACK_MARK_NOT_LOST, RACK_MARK_NOT_LOST, RACK_MARK_PEELED, RACK_MARK_NOT_LOST}},
     {{0, 0, 0, 0, 0, 0, 0, 0, 2}, {0}}, {{0, 0, 0, 0}, {0, 0, 0, 0}}},
};

struct lent {
    struct rack_state state;
    void *list[LISTS];
    size_t length[LISTS];
};

static int wrong, passed, failed;

static void expect(bool holds, int record, const char *what) {
    if (!holds) {
        wrong++;
        printf("record %d: not %s\n", record, what);
    }
}

static void end_case(const char *name, const char *what) {
    printf("%s %s%s\n", wrong == 0 ? "ok" : "FAILED", name, what);
    *(wrong == 0 ? &passed : &failed) += 1;
    wrong = 0;
}

static size_t bytes_of(const struct lent *lent, int list) {
    return lent->length[list] * widths[list];
}

/* A block for a list that holds nothing yet. */
static void allocate(struct lent *lent, int list, size_t length) {
    size_t bytes = length * widths[list];

    lent->length[list] = length;
    lent->list[list] = malloc(bytes > 0 ? bytes : 1);
    if (lent->list[list] == NULL)
        abort();
}

static struct lent start(void) {
    struct lent lent = {.state = rack_fresh()};

    for (int list = 0; list < LISTS; list++)
        allocate(&lent, list, least[list]);
    return lent;
}

static void end(const struct lent *lent) {
    for (int list = 0; list < LISTS; list++)
        free(lent->list[list]);
}

static void fill(const struct lent *lent, uint8_t first, uint8_t step) {
    for (int list = 0; list < LISTS; list++)
        for (size_t at = 0; at < bytes_of(lent, list); at++)
            ((uint8_t *)lent->list[list])[at] = (uint8_t)(first + at * step);
}

/* All lists in blocks of their own, one of them with so many elements. */
static struct lent copy(const struct lent *lent, int list, size_t length) {
    struct lent other = *lent;

    other.length[list] = length;
    for (int at = 0; at < LISTS; at++) {
        allocate(&other, at, other.length[at]);
        memcpy(other.list[at], lent->list[at], bytes_of(&other, at));
    }
    return other;
}

static bool same(const struct lent *lent, const struct lent *other) {
    for (int list = 0; list < LISTS; list++)
        if (memcmp(lent->list[list], other->list[list], bytes_of(lent, list)) != 0)
            return false;
    return true;
}

static struct rack_reply step(struct lent *lent, int record) {
    void **list = lent->list;
    const size_t *length = lent->length;
    struct rack_reply reply = rack_step(
        lent->state, list[FLAT], length[FLAT], list[ENDS], length[ENDS], list[SHOT], length[SHOT],
        list[WINDOW], length[WINDOW], list[WORK], length[WORK], list[X_MARKS], length[X_MARKS], list[X_FORMS], length[X_FORMS], list[X_CORRECTION],
        length[X_CORRECTION], list[Z_MARKS], length[Z_MARKS], list[Z_FORMS], length[Z_FORMS], list[Z_CORRECTION],
        length[Z_CORRECTION], records[record].bytes, records[record].length);

    lent->state = reply.state;
    return reply;
}

/* The decode that a record asks for, if it is not refused. */
static const struct decode *decode_at(int record) {
    for (int at = 0; at < DECODES; at++)
        if (decodes[at].record == record)
            return &decodes[at];
    return NULL;
}

static void expect_decoded(const struct lent *lent, const struct rack_reply *reply, const struct decode *decode) {
    const void *lists[] = {decode->marks[0], decode->forms[0], decode->flips[0], decode->marks[1], decode->forms[1], decode->flips[1]};
    size_t before = (size_t)(decode - decodes);
    const uint8_t *kept = (const uint8_t *)lent->list[WINDOW] + before * sizeof decode->halves;
    int record = decode->record;

    expect(reply->state.reports == before + 1, record, "the number of reports");
    expect(memcmp(kept, decode->halves, sizeof decode->halves) == 0, record, names[WINDOW]);
    expect(memcmp(&reply->x, &decode->halves[0], sizeof reply->x) == 0, record, "the X half");
    expect(memcmp(&reply->z, &decode->halves[1], sizeof reply->z) == 0, record, "the Z half");
    for (int list = X_MARKS; list < LISTS; list++)
        expect(memcmp(lent->list[list], lists[list - X_MARKS], least[list] * widths[list]) == 0, record, names[list]);
}

/* The records from `first` to before `last`. */
static void run(struct lent *lent, int first, int last) {
    for (int record = first; record < last; record++) {
        struct rack_reply reply = step(lent, record);

        expect(reply.answer == records[record].answer, record, "the answer");
        expect(reply.refusal == records[record].refusal, record, "the refusal");
        if (decode_at(record) != NULL)
            expect_decoded(lent, &reply, decode_at(record));
    }
}

/* One record with a short list; then the stream goes on with long ones. After a refused decode the next shot is empty. */
static void one_short(int list, size_t length, int record) {
    const struct decode *decode = decode_at(record);
    bool counts = list < X_MARKS || decode != NULL;
    struct lent lent = start(), cut;
    struct rack_reply reply;

    fill(&lent, 17, 29);
    run(&lent, 0, record);
    cut = copy(&lent, list, length);
    reply = step(&cut, record);
    expect(reply.refusal == (counts ? RACK_REFUSAL_SHORT : records[record].refusal), record, "the refusal of a short list");
    if (counts) {
        expect(same(&cut, &lent), record, "as it was");
        lent.state = cut.state;
        run(&lent, decode != NULL ? decode->begins : record, RECORDS);
    }
    end(&cut);
    end(&lent);
}

int main(void) {
    static const uint8_t garbage[][2] = {{0, 0}, {255, 0}, {1, 0}, {7, 31}};
    struct lent lent = start();

    run(&lent, 0, RECORDS);
    end(&lent);
    end_case("nothing", " in the lists");
    for (size_t at = 0; at < sizeof garbage / sizeof *garbage; at++) {
        lent = start();
        fill(&lent, garbage[at][0], garbage[at][1]);
        run(&lent, 0, RECORDS);
        end(&lent);
    }
    end_case("garbage", " in the lists");
    for (int list = 0; list < LISTS; list++) {
        for (int record = 0; record < RECORDS; record++) {
            if (records[record].answer == RACK_ANSWER_REFUSED && records[record].refusal != RACK_REFUSAL_ENCODED)
                continue;
            one_short(list, least[list] - 1, record);
            one_short(list, 0, record);
            if (list == X_FORMS || list == Z_FORMS)
                one_short(list, N, record);
        }
        end_case(names[list], " short");
    }
    printf("%d passed, %d failed\n", passed, failed);
    return failed != 0;
}
