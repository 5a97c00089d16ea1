/* Candidates of shots of the code Four, its Z row lit or a row unread: from a rack, and from lists of the heap that are exactly as long as they have to be
 * or short. */
#include "rack.h"

#include <stdio.h>
#include <stdlib.h>

enum { N = 4, FORMS = 4 * N, BEFORE = 7 };

static struct rack rack;
static int passed, failed;

static void expect(bool holds, const char *what) {
    printf("%s %s\n", holds ? "ok" : "FAILED", what);
    *(holds ? &passed : &failed) += 1;
}

static void take(struct rack_record record) {
    if (rack_take(&rack, record).answer == RACK_ANSWER_REFUSED)
        abort();
}

static void load(void) {
    static const uint16_t row[N] = {0, 1, 2, 3};

    if (!rack_start(&rack))
        abort();
    take(rack_sizes(N, 1, 1));
    take(rack_x_row(row, N));
    take(rack_z_row(row, N));
}

/* The qubits from `first` to before `last` lost. */
static struct rack_reply decode(size_t first, size_t last) {
    for (size_t qubit = first; qubit < last; qubit++)
        take(rack_lost(qubit));
    take(rack_lit_z(0));
    return rack_take(&rack, rack_decode(RACK_MOST_BUDGET, RACK_MOST_LIMIT));
}

/* The X half, its lists in blocks of their own. */
struct lent {
    struct rack_half half;
    uint8_t *marks;
    uint64_t *forms;
    size_t marks_length, forms_length;
};

static void *copy(const void *list, size_t bytes) {
    void *block = malloc(bytes > 0 ? bytes : 1);

    if (block == NULL)
        abort();
    memcpy(block, list, bytes);
    return block;
}

static struct lent lend_x(struct rack_reply reply, size_t marks_length, size_t forms_length) {
    struct lent lent;

    lent.half = reply.x;
    lent.marks = (uint8_t *)copy(rack.x_marks, marks_length);
    lent.forms = (uint64_t *)copy(rack.x_forms, forms_length * sizeof *rack.x_forms);
    lent.marks_length = marks_length;
    lent.forms_length = forms_length;
    return lent;
}

/* What comes of a call, and the list that it was lent. */
struct shown {
    uint16_t refusal;
    size_t length;
    uint8_t *list;
};

static struct shown ready(size_t length) {
    static const uint8_t before[N + 1] = {BEFORE, BEFORE, BEFORE, BEFORE, BEFORE};
    struct shown shown;

    shown.refusal = 0;
    shown.length = length;
    shown.list = (uint8_t *)copy(before, length);
    return shown;
}

static struct shown x_half(struct rack_reply reply, uint64_t number, size_t length) {
    struct shown shown = ready(length);

    shown.refusal = rack_x_candidate(&rack, reply, number, shown.list, length);
    return shown;
}

static struct shown z_half(struct rack_reply reply, uint64_t number, size_t length) {
    struct shown shown = ready(length);

    shown.refusal = rack_z_candidate(&rack, reply, number, shown.list, length);
    return shown;
}

/* The blocks that were lent are given back. */
static struct shown from_lists(struct lent lent, uint64_t number) {
    struct shown shown = ready(N);

    shown.refusal = rack_candidate(
        N, lent.half.word, lent.half.live, lent.marks, lent.marks_length, lent.forms, lent.forms_length, number, shown.list, N);
    free(lent.marks);
    free(lent.forms);
    return shown;
}

/* The refusal and each element, those of a candidate as digits; what is past it, and everything after a refusal, is as it was. */
static void expect_shown(struct shown shown, uint16_t refusal, const char *candidate, const char *what) {
    bool same = shown.refusal == refusal;

    for (size_t qubit = 0; qubit < shown.length; qubit++)
        same = same && shown.list[qubit] == (refusal == 0 && qubit < N ? candidate[qubit] - '0' : BEFORE);
    free(shown.list);
    expect(same, what);
}

static void expect_refused(struct shown shown, uint16_t refusal, const char *what) {
    expect_shown(shown, refusal, "", what);
}

/* Qubits 0 and 1 lost: both halves are unsure. */
static void unsure(void) {
    struct rack_reply reply = decode(0, 2);

    expect_shown(x_half(reply, 0, N), 0, "0100", "candidate 0 of the X half");
    expect_shown(x_half(reply, 1, N + 1), 0, "1000", "candidate 1 of the X half, in a longer list");
    expect_shown(z_half(reply, 0, N), 0, "0000", "candidate 0 of the Z half");
    expect_shown(z_half(reply, 1, N), 0, "1100", "candidate 1 of the Z half");
    expect_refused(x_half(reply, 2, N), RACK_REFUSAL_MANY, "no candidate 2 of the X half");
    expect_refused(z_half(reply, UINT64_MAX, N), RACK_REFUSAL_MANY, "no last candidate of the Z half");
    expect_refused(x_half(reply, 2, N - 1), RACK_REFUSAL_SHORT, "a short list");
    expect_refused(z_half(reply, 2, 0), RACK_REFUSAL_SHORT, "an empty list");
    expect_shown(from_lists(lend_x(reply, N, FORMS), 1), 0, "1000", "lists of their least length");
    expect_refused(from_lists(lend_x(reply, N - 1, FORMS), 1), RACK_REFUSAL_SHORT, "short marks");
    expect_refused(from_lists(lend_x(reply, N, FORMS - 1), 1), RACK_REFUSAL_SHORT, "short forms");
    expect_refused(from_lists(lend_x(reply, N, N), 1), RACK_REFUSAL_SHORT, "forms of a word a qubit");
}

/* What was altered in a half that is unsure. */
static void altered(void) {
    struct rack_reply reply = decode(0, 2);
    struct lent lent = lend_x(reply, N, FORMS);

    lent.marks[N - 1] = RACK_MARK_OPEN;
    expect_refused(from_lists(lent, 2), RACK_REFUSAL_UNFINISHED, "an open qubit");
    lent = lend_x(reply, N, FORMS);
    lent.half.word = RACK_WORD_SPENT;
    expect_refused(from_lists(lent, 2), RACK_REFUSAL_UNFINISHED, "another word");
    lent = lend_x(reply, N, FORMS);
    lent.half.live = RACK_MOST_LIVE + 1;
    expect_refused(from_lists(lent, 0), RACK_REFUSAL_MANY, "too many live guesses");
}

/* Qubit 2 lost: both halves are certain. */
static void certain(void) {
    struct rack_reply reply = decode(2, 3);

    expect_shown(x_half(reply, 0, N), 0, "0010", "the candidate of the X half");
    expect_shown(z_half(reply, 0, N), 0, "0000", "the candidate of the Z half");
    expect_refused(x_half(reply, 1, N), RACK_REFUSAL_MANY, "a certain half has one");
}

/* Nothing lost: the X half is none, the Z half certain. */
static void none(void) {
    struct rack_reply reply = decode(0, 0);

    expect_refused(x_half(reply, 0, N), RACK_REFUSAL_UNFINISHED, "the X half none");
    expect_shown(z_half(reply, 0, N), 0, "0000", "the Z half certain");
}

/* Qubit 2 lost and a row unread: the half that has it is spent and leaves an open qubit, the other is certain. */
static void spent(void) {
    struct rack_reply reply;

    take(rack_lost(2));
    take(rack_unread_z(0));
    reply = rack_take(&rack, rack_decode(0, RACK_MOST_LIMIT));
    expect_refused(x_half(reply, 0, N), RACK_REFUSAL_UNFINISHED, "the X half spent");
    expect_shown(z_half(reply, 0, N), 0, "0000", "the Z half certain");
    take(rack_lost(2));
    take(rack_unread_x(0));
    reply = rack_take(&rack, rack_decode(0, RACK_MOST_LIMIT));
    expect_shown(x_half(reply, 0, N), 0, "0000", "the X half certain");
    expect_refused(z_half(reply, 0, N), RACK_REFUSAL_UNFINISHED, "the Z half spent");
}

int main(void) {
    struct rack_reply reply;

    memset(&reply, 0, sizeof reply);
    expect_refused(x_half(reply, 0, N), RACK_REFUSAL_UNFINISHED, "no candidate before a start");
    load();
    unsure();
    altered();
    certain();
    none();
    spent();
    expect_refused(z_half(rack_take(&rack, rack_lost(0)), 0, N), RACK_REFUSAL_UNFINISHED, "a reply that is no report");
    printf("%d passed, %d failed\n", passed, failed);
    return failed != 0;
}
