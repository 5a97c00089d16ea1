/* Reads records from standard input and prints the lines of document 01, by the library. */
#include "rack.h"

#include <stdio.h>

/* The bytes of a record with this kind; of an unknown kind no body is read. */
static size_t record_length(uint8_t kind) {
    switch (kind) {
    case RACK_KIND_SIZES: return 7;
    case RACK_KIND_DECODE: return 4;
    case RACK_KIND_LOST:
    case RACK_KIND_LIT_Z:
    case RACK_KIND_LIT_X:
    case RACK_KIND_UNREAD_Z:
    case RACK_KIND_UNREAD_X:
    case RACK_KIND_LOGICAL: return 3;
    }
    if (RACK_KIND_X_ROW < kind && kind <= RACK_KIND_X_ROW + RACK_MOST_WEIGHT)
        return 1 + 2 * (size_t)(kind - RACK_KIND_X_ROW);
    if (RACK_KIND_Z_ROW < kind && kind <= RACK_KIND_Z_ROW + RACK_MOST_WEIGHT)
        return 1 + 2 * (size_t)(kind - RACK_KIND_Z_ROW);
    return 1;
}

/* The next record's bytes, fewer where the input ends. */
static size_t read_record(uint8_t bytes[1 + 2 * RACK_MOST_WEIGHT]) {
    size_t got = fread(bytes, 1, 1, stdin);
    if (got == 1)
        got += fread(bytes + 1, 1, record_length(bytes[0]) - 1, stdin);
    return got;
}

/* A half's word and counts; of a finished half the qubits to flip. */
static void print_half(char name, struct rack_half half, const uint8_t *correction, size_t n) {
    printf("%c %s %u %u %u %u", name, rack_word_name(half.word), half.fixed, half.turns, half.guesses, half.live);
    if (half.word == RACK_WORD_CERTAIN || half.word == RACK_WORD_UNSURE) {
        printf(" flip");
        for (size_t qubit = 0; qubit < n; qubit++)
            if (correction[qubit] == 1)
                printf(" %zu", qubit);
    }
    printf("\n");
}

static void print_answer(const struct rack *rack, struct rack_reply reply, uint8_t kind) {
    struct rack_state state = reply.state;

    switch (reply.answer) {
    case RACK_ANSWER_COMPLETE:
        printf("code %u %u %u\n", state.n, state.x, state.z);
        break;
    case RACK_ANSWER_DECODED:
        print_half('X', reply.x, rack->x_correction, state.n);
        print_half('Z', reply.z, rack->z_correction, state.n);
        break;
    case RACK_ANSWER_REFUSED:
        printf("refused %u %u\n", reply.refusal, kind);
        break;
    }
}

int main(void) {
    static struct rack rack;
    uint8_t bytes[1 + 2 * RACK_MOST_WEIGHT];
    size_t length;
    bool more = true;

    /* Each line goes out before more is read. */
    setvbuf(stdout, NULL, _IOLBF, BUFSIZ);
    if (!rack_start(&rack)) {
        fprintf(stderr, "lines: header and archive are of versions %d and %d\n", RACK_VERSION, rack_version());
        return 1;
    }
    while (more && (length = read_record(bytes)) > 0) {
        struct rack_reply reply = rack_take_bytes(&rack, bytes, length);

        print_answer(&rack, reply, bytes[0]);
        /* What follows an unknown or cut-off record can't be read. */
        more = reply.refusal != RACK_REFUSAL_UNKNOWN && reply.refusal != RACK_REFUSAL_LENGTH;
    }
    return 0;
}
