/* The loss decoder for a rack's own program, in C or C++. Link with librack.a.
 *
 * A program starts a `struct rack`, loads a code and sends shots: functions below make the records, `rack_take` takes one and hands back the answer.
 * `rack_counts_of` counts the last 256 reports. README.md has the tables of words and counts, docs/RECORDS.md those of records and refusals; examples/c/steane.c is a whole program.
 *
 * Which half reads which rows: the X half holds X errors, found from the Z rows, so `rack_lit_z` and `rack_unread_z` are about the X half. The Z half
 * holds Z errors, found from the X rows, so `rack_lit_x` and `rack_unread_x` are about the Z half. Nothing can object to the two exchanged.
 */
#ifndef RACK_H
#define RACK_H

#include <stdbool.h>
#include <stddef.h>
#include <stdint.h>
#include <string.h>

#ifdef __cplusplus
extern "C" {
#endif

#ifdef __GNUC__
#define RACK_MUST_USE __attribute__((warn_unused_result))
#else
#define RACK_MUST_USE
#endif

/* ---- Numbers ---- */

/* The version of records, lists and structs. */
#define RACK_VERSION 8

/* The kind of a record, its first byte. A row's is this and as many more as it has qubits. */
enum rack_kind {
    RACK_KIND_SIZES = 1,
    RACK_KIND_LOST = 2,
    RACK_KIND_LIT_Z = 3,
    RACK_KIND_LIT_X = 4,
    RACK_KIND_DECODE = 5,
    RACK_KIND_UNREAD_Z = 6,
    RACK_KIND_UNREAD_X = 7,
    RACK_KIND_LOGICAL = 8,
    RACK_KIND_X_ROW = 32,
    RACK_KIND_Z_ROW = 64
};

/* The most that a record may carry, and the most live guesses of a half whose candidates are shown. */
enum rack_most {
    RACK_MOST_QUBITS = 1024,
    RACK_MOST_ROWS = 512,
    RACK_MOST_WEIGHT = 16,
    RACK_MOST_BUDGET = 255,
    RACK_MOST_LIMIT = 65535,
    RACK_MOST_LIVE = 8
};

/* The least length of each list, in elements. Marks and correction need as many elements as the code has qubits, forms four times as many, at a
 * decode only: these are enough for every code. */
enum rack_least {
    RACK_LEAST_FLAT = 16384,
    RACK_LEAST_ENDS = 16384,
    RACK_LEAST_SHOT = 2048,
    RACK_LEAST_WINDOW = 2560,
    RACK_LEAST_WORK = 10240,
    RACK_LEAST_MARKS = 1024,
    RACK_LEAST_FORMS = 4096,
    RACK_LEAST_CORRECTION = 1024
};

/* The answer to a record. */
enum rack_answer {
    RACK_ANSWER_TAKEN = 0,
    RACK_ANSWER_COMPLETE = 1,
    RACK_ANSWER_DECODED = 2,
    RACK_ANSWER_REFUSED = 3
};

/* The word of a half; 0 where nothing was decoded. */
enum rack_word {
    RACK_WORD_CERTAIN = 1,
    RACK_WORD_UNSURE = 2,
    RACK_WORD_NONE = 3,
    RACK_WORD_SPENT = 4,
    RACK_WORD_STOPPED = 5
};

/* The number of a refusal; 0 where the library refused nothing. 10, 13 and 14 are not used; 15 and 16 are of candidates, no record gets them. */
enum rack_refusal {
    RACK_REFUSAL_UNKNOWN = 1,
    RACK_REFUSAL_LENGTH = 2,
    RACK_REFUSAL_SIZE = 3,
    RACK_REFUSAL_PLACE = 4,
    RACK_REFUSAL_ROW = 5,
    RACK_REFUSAL_CLASH = 6,
    RACK_REFUSAL_CODELESS = 7,
    RACK_REFUSAL_RANGE = 8,
    RACK_REFUSAL_TWICE = 9,
    RACK_REFUSAL_SPOILED = 11,
    RACK_REFUSAL_SHORT = 12,
    RACK_REFUSAL_UNFINISHED = 15,
    RACK_REFUSAL_MANY = 16,
    RACK_REFUSAL_ENCODED = 17
};

/* The mark of a qubit. */
enum rack_mark {
    RACK_MARK_NOT_LOST = 0,
    RACK_MARK_FIXED = 1,
    RACK_MARK_PEELED = 2,
    RACK_MARK_GUESSED = 3,
    RACK_MARK_OPEN = 4
};

/* Whether there is a code. */
enum rack_phase {
    RACK_PHASE_EMPTY = 0,
    RACK_PHASE_LOADING = 1,
    RACK_PHASE_READY = 2
};

/* ---- The library ---- */

/* n, x, z: the code's qubits, X rows and Z rows; rows: those taken so far. reports: those since the last RACK_KIND_SIZES that was not refused; after 511
 * the next is 256, so that the last min(reports, 256) are kept and the next place is reports % 256. */
struct rack_state {
    uint8_t phase, clash, spoiled, stale;
    uint16_t n, x, z, rows, reports;
};

struct rack_half {
    uint16_t word, fixed, turns, guesses, live;
};

/* x, z: the halves of a report, zeros unless the answer is RACK_ANSWER_DECODED. */
struct rack_reply {
    struct rack_state state;
    uint16_t answer, refusal;
    struct rack_half x, z;
};

/* How many of the reports counted had each word, and the sums of their turns, guesses and live guesses. The five words add up to the reports. */
struct rack_half_counts {
    uint32_t certain, unsure, none, spent, stopped, turns, guesses, live;
};

/* x, z: the halves' counts, zeros if the read is refused. */
struct rack_counts {
    uint32_t refusal;
    struct rack_half_counts x, z;
};

/* The archive's version. Where it is not RACK_VERSION, nothing else of the archive may be called. */
uint16_t rack_version(void);

/* No code, no shot and no report. */
struct rack_state rack_fresh(void);

/* One record on lists of the caller's; `rack_take` is this on a `struct rack`.
 *
 * State, `flat`, `ends`, `shot` and `window` pass from call to call as the last call left them, also where it refused; nobody else writes them in
 * between. The work list and the six lists of a decode may be others at every call. `shot` has 1 for each lost qubit, else 0, and from element 1,024 on,
 * the X rows first, 1 for each lit row, 2 for each unread one, else 0. After RACK_ANSWER_DECODED the first n elements of a half's marks and correction,
 * and the first 4 * n of its forms, are what it came to; what is past them stays. The correction has 1 for each qubit to flip if the half is certain or
 * unsure, else all 0. A form has four words: bit k of qubit q's is bit k % 64 of element 4 * q + k / 64. Bit 0 is the constant, bit k the k-th live guess.
 *
 * `window` keeps the last 256 reports, ten elements each: the X half's word, fixed, turns, guesses and live, then the Z half's. RACK_ANSWER_DECODED writes
 * those from 10 * (reports % 256) on, `reports` being that of the state handed in; no other answer writes any.
 *
 * The caller owes: pointers that are not null, aligned for their elements and good for the length given; lists that do not overlap.
 * A list shorter than its least length gets RACK_REFUSAL_SHORT, and no refusal writes to a list. Over a state or lists that were altered between
 * calls the answer means nothing, but every call returns and stays within the lists.
 *
 * RACK_KIND_LOGICAL writes to no list: it packs the rows on the stack and needs about 85 kB of it. Every other kind needs a few kB at most. */
struct rack_reply rack_step(
    struct rack_state state,
    uint16_t *flat, size_t flat_length,
    uint16_t *ends, size_t ends_length,
    uint8_t *shot, size_t shot_length,
    uint16_t *window, size_t window_length,
    uint64_t *work, size_t work_length,
    uint8_t *x_marks, size_t x_marks_length,
    uint64_t *x_forms, size_t x_forms_length,
    uint8_t *x_correction, size_t x_correction_length,
    uint8_t *z_marks, size_t z_marks_length,
    uint64_t *z_forms, size_t z_forms_length,
    uint8_t *z_correction, size_t z_correction_length,
    const uint8_t *bytes, size_t bytes_length);

/* One candidate of a half, from lists of the caller's; `rack_x_candidate` and `rack_z_candidate` are this on a `struct rack`.
 *
 * Of n qubits and a half's word, live count, marks and forms as a decode left them: into the first n elements of `candidate` what the forms give with
 * live guess i set to bit i - 1 of `number`, 1 for each qubit to flip, else 0; what is past them stays. The numbers are 0 to 2^live - 1. Every error that
 * fits differs by a product of rows of the other kind from exactly one of these candidates, whichever rows were read; number 0 is the correction, and a
 * certain half has no other. Over a live count, marks or forms that were altered a candidate is still what the forms give.
 *
 * 0, or the first of these refusals that applies, and then nothing is written: RACK_REFUSAL_SHORT where `candidate` or `marks` has fewer than n elements
 * or `forms` fewer than 4 * n; RACK_REFUSAL_UNFINISHED for any word but RACK_WORD_CERTAIN and RACK_WORD_UNSURE, or where one of the first n marks is
 * RACK_MARK_OPEN; RACK_REFUSAL_MANY where `live` is above RACK_MOST_LIVE, or `number` 2^live or more.
 *
 * The caller owes what `rack_step` asks of pointers and lists. */
RACK_MUST_USE uint16_t rack_candidate(
    uint16_t n, uint16_t word, uint16_t live,
    const uint8_t *marks, size_t marks_length,
    const uint64_t *forms, size_t forms_length,
    uint64_t number,
    uint8_t *candidate, size_t candidate_length);

/* The last 256 reports counted, from a list of the caller's; `rack_counts_of` is this on a `struct rack`.
 *
 * Of state and `window` as the last call left them: the counts over the last 256 reports since the last RACK_KIND_SIZES that was not refused, or over all
 * of these if there were fewer. A refused record does not enter, and nothing but that RACK_KIND_SIZES empties the window: a code that is dropped by a
 * refusal leaves it. It may be read at any time, and a read writes nothing. Over a state or a list that was altered the counts are those of the first
 * min(reports, 256) places; an element that is no word's number counts for no word.
 *
 * The refusal is 0, or RACK_REFUSAL_SHORT where `window` has fewer than RACK_LEAST_WINDOW elements, and then all counts are 0.
 *
 * The caller owes what `rack_step` asks of pointers and lists. */
struct rack_counts rack_window(struct rack_state state, const uint16_t *window, size_t window_length);

/* ---- Records ---- */

struct rack_record {
    size_t length;
    uint8_t bytes[1 + 2 * RACK_MOST_WEIGHT];
};

/* A record without a body. */
static inline struct rack_record rack_of_kind(uint8_t kind) {
    struct rack_record record;

    memset(&record, 0, sizeof record);
    record.bytes[0] = kind;
    record.length = 1;
    return record;
}

/* Adds a number to the body, the low byte first. One that two bytes can't hold is added as 65,535: no size, qubit, row or number of logical qubits is,
 * so it is refused, and as a limit it stops no half. */
static inline void rack_add(struct rack_record *record, size_t number) {
    size_t held = number < 65535 ? number : 65535;

    record->bytes[record->length] = (uint8_t)(held & 255);
    record->bytes[record->length + 1] = (uint8_t)(held >> 8);
    record->length += 2;
}

static inline struct rack_record rack_of_number(uint8_t kind, size_t number) {
    struct rack_record record = rack_of_kind(kind);

    rack_add(&record, number);
    return record;
}

static inline struct rack_record rack_of_row(uint8_t kind, const uint16_t *qubits, size_t weight) {
    struct rack_record record = rack_of_kind(kind);

    if (weight <= RACK_MOST_WEIGHT) {
        record.bytes[0] = (uint8_t)(kind + weight);
        for (size_t at = 0; at < weight; at++)
            rack_add(&record, qubits[at]);
    }
    return record;
}

/* A code's qubits, X rows and Z rows: drops any code and shot, and empties the window of reports. All X rows follow, then all Z rows. */
static inline struct rack_record rack_sizes(size_t n, size_t x, size_t z) {
    struct rack_record record = rack_of_number(RACK_KIND_SIZES, n);

    rack_add(&record, x);
    rack_add(&record, z);
    return record;
}

/* A row of 1 to 16 qubits, strictly ascending. For none or more the record has no qubits and a kind that is not listed: RACK_REFUSAL_UNKNOWN. */
static inline struct rack_record rack_x_row(const uint16_t *qubits, size_t weight) {
    return rack_of_row(RACK_KIND_X_ROW, qubits, weight);
}

static inline struct rack_record rack_z_row(const uint16_t *qubits, size_t weight) {
    return rack_of_row(RACK_KIND_Z_ROW, qubits, weight);
}

/* The code's logical qubits, compared with what its rows encode: n less the ranks of the X rows and of the Z rows. Where they agree nothing changes,
 * a shot stays open; where they differ RACK_REFUSAL_ENCODED, and there is no code and no shot. Refused without a complete code
 * (RACK_REFUSAL_CODELESS). */
static inline struct rack_record rack_logical(size_t k) {
    return rack_of_number(RACK_KIND_LOGICAL, k);
}

/* A qubit was lost. This and the four below are refused without a complete code (RACK_REFUSAL_CODELESS), where there is no such qubit or row
 * (RACK_REFUSAL_RANGE), and for a qubit that is lost already or a row that is lit or unread already (RACK_REFUSAL_TWICE). */
static inline struct rack_record rack_lost(size_t qubit) {
    return rack_of_number(RACK_KIND_LOST, qubit);
}

/* A Z row fired: about the X half. */
static inline struct rack_record rack_lit_z(size_t row) {
    return rack_of_number(RACK_KIND_LIT_Z, row);
}

/* An X row fired: about the Z half. */
static inline struct rack_record rack_lit_x(size_t row) {
    return rack_of_number(RACK_KIND_LIT_X, row);
}

/* A Z row could not be read: the X half is found without it. For the Z half it is a row of the other kind all the same. */
static inline struct rack_record rack_unread_z(size_t row) {
    return rack_of_number(RACK_KIND_UNREAD_Z, row);
}

/* An X row could not be read: the Z half is found without it. For the X half it is a row of the other kind all the same. */
static inline struct rack_record rack_unread_x(size_t row) {
    return rack_of_number(RACK_KIND_UNREAD_X, row);
}

/* Reports both halves and ends the shot. RACK_MOST_BUDGET and RACK_MOST_LIMIT unless you know better. A budget that a byte can't hold is handed over as
 * 255, the largest. */
static inline struct rack_record rack_decode(size_t budget, size_t limit) {
    struct rack_record record = rack_of_kind(RACK_KIND_DECODE);

    record.bytes[record.length++] = (uint8_t)(budget < 255 ? budget : 255);
    rack_add(&record, limit);
    return record;
}

/* ---- A rack with lists that are always long enough ---- */

/* 194 kB: static or from the heap. */
struct rack {
    uint64_t work[RACK_LEAST_WORK], x_forms[RACK_LEAST_FORMS], z_forms[RACK_LEAST_FORMS];
    uint16_t flat[RACK_LEAST_FLAT], ends[RACK_LEAST_ENDS], window[RACK_LEAST_WINDOW];
    uint8_t shot[RACK_LEAST_SHOT];
    uint8_t x_marks[RACK_LEAST_MARKS], x_correction[RACK_LEAST_CORRECTION];
    uint8_t z_marks[RACK_LEAST_MARKS], z_correction[RACK_LEAST_CORRECTION];
    struct rack_state state;
    uint16_t version;
};

/* A fresh start: no code, no shot and no report. False, and nothing started, if the archive's version is not the header's. */
RACK_MUST_USE static inline bool rack_start(struct rack *r) {
    r->version = rack_version();
    if (r->version != RACK_VERSION)
        return false;
    r->state = rack_fresh();
    return true;
}

/* Takes a record from elsewhere. Without a start there is no call: the answer is RACK_ANSWER_REFUSED, with refusal 0. */
static inline struct rack_reply rack_take_bytes(struct rack *r, const uint8_t *bytes, size_t length) {
    struct rack_reply reply;

    memset(&reply, 0, sizeof reply);
    reply.answer = RACK_ANSWER_REFUSED;
    if (r->version != RACK_VERSION)
        return reply;
    reply = rack_step(
        r->state, r->flat, RACK_LEAST_FLAT, r->ends, RACK_LEAST_ENDS, r->shot, RACK_LEAST_SHOT,
        r->window, RACK_LEAST_WINDOW, r->work, RACK_LEAST_WORK,
        r->x_marks, RACK_LEAST_MARKS, r->x_forms, RACK_LEAST_FORMS, r->x_correction, RACK_LEAST_CORRECTION,
        r->z_marks, RACK_LEAST_MARKS, r->z_forms, RACK_LEAST_FORMS, r->z_correction, RACK_LEAST_CORRECTION,
        bytes, length);
    r->state = reply.state;
    return reply;
}

/* Takes a record. After RACK_ANSWER_DECODED the lists of `r` hold marks, forms and corrections of both halves until the next decode. */
static inline struct rack_reply rack_take(struct rack *r, struct rack_record record) {
    return rack_take_bytes(r, record.bytes, record.length);
}

/* Candidates of a half, by its marks and forms in `r`. */
static inline uint16_t rack_candidate_of(
    const struct rack *r, uint16_t n, struct rack_half half, const uint8_t *marks, const uint64_t *forms,
    uint64_t number, uint8_t *candidate, size_t candidate_length) {
    if (r->version != RACK_VERSION)
        return RACK_REFUSAL_UNFINISHED;
    return rack_candidate(
        n, half.word, half.live, marks, RACK_LEAST_MARKS, forms, RACK_LEAST_FORMS, number, candidate, candidate_length);
}

/* Candidate `number` of the X half of the last decode of `r`, which was answered by `reply`: see `rack_candidate`. Numbers are below 2^live, and the list
 * has at least as many elements as the code has qubits. RACK_REFUSAL_UNFINISHED also for a reply that is no report, and without a start, where there is no
 * call. */
RACK_MUST_USE static inline uint16_t rack_x_candidate(
    const struct rack *r, struct rack_reply reply, uint64_t number, uint8_t *candidate, size_t candidate_length) {
    return rack_candidate_of(r, reply.state.n, reply.x, r->x_marks, r->x_forms, number, candidate, candidate_length);
}

/* The same of the Z half. */
RACK_MUST_USE static inline uint16_t rack_z_candidate(
    const struct rack *r, struct rack_reply reply, uint64_t number, uint8_t *candidate, size_t candidate_length) {
    return rack_candidate_of(r, reply.state.n, reply.z, r->z_marks, r->z_forms, number, candidate, candidate_length);
}

/* The last 256 reports of `r` counted: see `rack_window`. RACK_REFUSAL_SHORT only without a start, where there is no call. */
static inline struct rack_counts rack_counts_of(const struct rack *r) {
    struct rack_counts counts;

    memset(&counts, 0, sizeof counts);
    counts.refusal = RACK_REFUSAL_SHORT;
    if (r->version != RACK_VERSION)
        return counts;
    return rack_window(r->state, r->window, RACK_LEAST_WINDOW);
}

/* ---- Words for people ---- */

static inline const char *rack_word_name(uint16_t word) {
    switch (word) {
    case RACK_WORD_CERTAIN: return "certain";
    case RACK_WORD_UNSURE: return "unsure";
    case RACK_WORD_NONE: return "none";
    case RACK_WORD_SPENT: return "spent";
    case RACK_WORD_STOPPED: return "stopped";
    default: return "no word";
    }
}

static inline const char *rack_refusal_name(uint16_t refusal) {
    switch (refusal) {
    case RACK_REFUSAL_UNKNOWN: return "unknown";
    case RACK_REFUSAL_LENGTH: return "length";
    case RACK_REFUSAL_SIZE: return "size";
    case RACK_REFUSAL_PLACE: return "place";
    case RACK_REFUSAL_ROW: return "row";
    case RACK_REFUSAL_CLASH: return "clash";
    case RACK_REFUSAL_CODELESS: return "codeless";
    case RACK_REFUSAL_RANGE: return "range";
    case RACK_REFUSAL_TWICE: return "twice";
    case RACK_REFUSAL_SPOILED: return "spoiled";
    case RACK_REFUSAL_SHORT: return "short";
    case RACK_REFUSAL_UNFINISHED: return "unfinished";
    case RACK_REFUSAL_MANY: return "many";
    case RACK_REFUSAL_ENCODED: return "encoded";
    default: return "no refusal";
    }
}

#ifdef __cplusplus
}
#endif

#endif
