/* A thousand random losses on the Steane code: loads the code, sends the shots, tests the flips and prints a table of words, then the counts of the last 256
 * shots.
 *
 *   cc -I crates/rack/include examples/c/steane.c crates/rack/out/librack.a -o steane
 */
#include "rack.h"

#include <stdio.h>
#include <stdlib.h>

enum { N = 7, ROWS = 3, WEIGHT = 4, LOGICAL = 1, SHOTS = 1000, LOST_ONE_IN = 4 };

/* The X rows, and the Z rows too. */
static const uint16_t rows[ROWS][WEIGHT] = {{0, 2, 4, 6}, {1, 2, 5, 6}, {3, 4, 5, 6}};

/* A set of qubits has 1 for each qubit in it. */
struct shot {
    uint8_t lost[N], x_error[N], z_error[N];
};

/* Of a half: how often each word was said, and how often the flips undid the error. */
struct tally {
    int shots[RACK_WORD_STOPPED + 1], undone[RACK_WORD_STOPPED + 1];
};

static struct rack rack;

static void fail(const char *what, const char *why) {
    fprintf(stderr, "steane: %s: %s\n", what, why);
    exit(1);
}

/* A random number below `end` (splitmix64). */
static uint64_t below(uint64_t end) {
    static uint64_t state = 1;
    uint64_t z = state += 0x9e3779b97f4a7c15;

    z = (z ^ (z >> 30)) * 0xbf58476d1ce4e5b9;
    z = (z ^ (z >> 27)) * 0x94d049bb133111eb;
    return (z ^ (z >> 31)) % end;
}

/* Each qubit is lost with the same probability, and a lost one has each error half of the time. */
static struct shot draw(void) {
    struct shot shot;

    for (size_t qubit = 0; qubit < N; qubit++) {
        shot.lost[qubit] = below(LOST_ONE_IN) == 0;
        shot.x_error[qubit] = below(2) == 1 && shot.lost[qubit];
        shot.z_error[qubit] = below(2) == 1 && shot.lost[qubit];
    }
    return shot;
}

/* A row fires on an error if they share an odd number of qubits. */
static bool fires(const uint16_t *row, const uint8_t *error) {
    int sum = 0;

    for (size_t at = 0; at < WEIGHT; at++)
        sum += error[row[at]];
    return sum % 2 == 1;
}

/* Flips lie on lost qubits and make exactly the lit rows fire. Those of a certain half undo the error: what is left is a product of rows, which in this
 * code have an even number of qubits, where every other error that fires no row has an odd one. */
static void count(struct tally *tally, uint16_t word, const uint8_t *lost, const uint8_t *error, const uint8_t *flips) {
    int left = 0;

    tally->shots[word]++;
    if (word != RACK_WORD_CERTAIN && word != RACK_WORD_UNSURE)
        return;
    for (size_t qubit = 0; qubit < N; qubit++) {
        left += error[qubit] ^ flips[qubit];
        if (flips[qubit] > lost[qubit])
            fail(rack_word_name(word), "a flip on a qubit that was not lost");
    }
    for (size_t row = 0; row < ROWS; row++)
        if (fires(rows[row], flips) != fires(rows[row], error))
            fail(rack_word_name(word), "the flips do not fit");
    tally->undone[word] += left % 2 == 0;
}

static void print(char half, const struct tally *tally) {
    for (uint16_t word = RACK_WORD_CERTAIN; word <= RACK_WORD_STOPPED; word++)
        printf("%c     %-8s %6d %7d\n", half, rack_word_name(word), tally->shots[word], tally->undone[word]);
}

static void print_last(char half, struct rack_half_counts last) {
    printf("%c     %7u %7u %5u %6u %8u", half, last.certain, last.unsure, last.none, last.spent, last.stopped);
    printf(" %6u %8u %5u\n", last.turns, last.guesses, last.live);
}

/* Sends a record that must not be refused. */
static struct rack_reply take(struct rack_record record) {
    struct rack_reply reply = rack_take(&rack, record);

    if (reply.answer == RACK_ANSWER_REFUSED)
        fail("refused", rack_refusal_name(reply.refusal));
    return reply;
}

static void load(void) {
    take(rack_sizes(N, ROWS, ROWS));
    for (size_t row = 0; row < ROWS; row++)
        take(rack_x_row(rows[row], WEIGHT));
    for (size_t row = 0; row < ROWS; row++)
        take(rack_z_row(rows[row], WEIGHT));
    take(rack_logical(LOGICAL));
}

/* Z rows fire on X errors, X rows on Z errors. */
static struct rack_reply decode(const struct shot *shot) {
    for (size_t qubit = 0; qubit < N; qubit++)
        if (shot->lost[qubit])
            take(rack_lost(qubit));
    for (size_t row = 0; row < ROWS; row++) {
        if (fires(rows[row], shot->x_error))
            take(rack_lit_z(row));
        if (fires(rows[row], shot->z_error))
            take(rack_lit_x(row));
    }
    return take(rack_decode(RACK_MOST_BUDGET, RACK_MOST_LIMIT));
}

int main(void) {
    static struct tally x, z;
    struct rack_counts last;

    if (!rack_start(&rack))
        fail("start", "header and archive are of different versions");
    load();
    for (int at = 0; at < SHOTS; at++) {
        struct shot shot = draw();
        struct rack_reply reply = decode(&shot);

        count(&x, reply.x.word, shot.lost, shot.x_error, rack.x_correction);
        count(&z, reply.z.word, shot.lost, shot.z_error, rack.z_correction);
    }
    printf("Steane code, %d shots, each qubit lost with probability 1/%d\n", SHOTS, LOST_ONE_IN);
    printf("half  word      shots  undone\n");
    print('X', &x);
    print('Z', &z);
    last = rack_counts_of(&rack);
    printf("the last 256 shots\nhalf  certain  unsure  none  spent  stopped  turns  guesses  live\n");
    print_last('X', last.x);
    print_last('Z', last.z);
    return 0;
}
