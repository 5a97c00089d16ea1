/* The header's inline functions, for C and C++: each line of standard input is a maker with its numbers, answered by the record's bytes in
 * hexadecimal, or `word` or `refusal` with a number, answered by its name. */
#include "rack.h"

#include <stdio.h>
#include <stdlib.h>

enum { LINE = 4096, NUMBERS = 64 };

/* The numbers of a line, and how many. */
static size_t read_numbers(const char *line, size_t numbers[NUMBERS]) {
    size_t count = 0;
    char *end;

    for (;;) {
        unsigned long long number = strtoull(line, &end, 10);

        if (end == line || count == NUMBERS)
            return count;
        numbers[count++] = (size_t)number;
        line = end;
    }
}

static void print_record(struct rack_record record) {
    for (size_t at = 0; at < record.length; at++)
        printf("%02x", record.bytes[at]);
    printf("\n");
}

static int answer(const char *name, const size_t *numbers, size_t count) {
    uint16_t qubits[NUMBERS];

    for (size_t at = 0; at < count; at++)
        qubits[at] = (uint16_t)numbers[at];
    if (strcmp(name, "sizes") == 0)
        print_record(rack_sizes(numbers[0], numbers[1], numbers[2]));
    else if (strcmp(name, "x_row") == 0)
        print_record(rack_x_row(qubits, count));
    else if (strcmp(name, "z_row") == 0)
        print_record(rack_z_row(qubits, count));
    else if (strcmp(name, "logical") == 0)
        print_record(rack_logical(numbers[0]));
    else if (strcmp(name, "lost") == 0)
        print_record(rack_lost(numbers[0]));
    else if (strcmp(name, "lit_z") == 0)
        print_record(rack_lit_z(numbers[0]));
    else if (strcmp(name, "lit_x") == 0)
        print_record(rack_lit_x(numbers[0]));
    else if (strcmp(name, "unread_z") == 0)
        print_record(rack_unread_z(numbers[0]));
    else if (strcmp(name, "unread_x") == 0)
        print_record(rack_unread_x(numbers[0]));
    else if (strcmp(name, "decode") == 0)
        print_record(rack_decode(numbers[0], numbers[1]));
    else if (strcmp(name, "word") == 0)
        printf("%s\n", rack_word_name((uint16_t)numbers[0]));
    else if (strcmp(name, "refusal") == 0)
        printf("%s\n", rack_refusal_name((uint16_t)numbers[0]));
    else
        return 1;
    return 0;
}

int main(void) {
    static char line[LINE], name[LINE];

    while (fgets(line, LINE, stdin) != NULL) {
        size_t numbers[NUMBERS] = {0};
        int length = 0;

        if (sscanf(line, "%4095s%n", name, &length) != 1 || answer(name, numbers, read_numbers(line + length, numbers)) != 0)
            return 1;
    }
    return 0;
}
