/* Serves the rows of a trace on a book through pelgaisti.h, and writes the book's history as `glm replay` does, by the function that
   examples/monitor.c has for it. */
#define main monitor
#include "../examples/monitor.c"
#undef main
#include "names.h"

static uint32_t number_of(const name *list, size_t length, const char *text) {
    const name *found = named(list, length, text);
    if (found) return found->number;
    fprintf(stderr, "no such name: %s\n", text);
    exit(2);
}

int main(void) {
    pelgaisti_book book = PELGAISTI_EMPTY;
    char line[256];
    const pelgaisti_options options = PELGAISTI_OPTIONS(PELGAISTI_MAX_SESSIONS);
    if (pelgaisti_book_open(&book, &options) != PELGAISTI_OK) return 1;
    while (fgets(line, sizeof line, stdin)) {
        char *field[4], *at = line;
        pelgaisti_call call = {0, 0, {0, {0}}};
        pelgaisti_reply reply;
        line[strcspn(line, "\r\n")] = 0;
        for (int k = 0; k < 4; k++) {
            field[k] = at;
            at = at ? strchr(at, ',') : NULL;
            if (at) *at++ = 0;
            else if (k < 3) return 2;
        }
        call.op = number_of(ops, COUNT(ops), field[1]);
        for (char *digit = field[2]; *digit; digit += *digit == '/') {
            call.resource.numbers[call.resource.level++] = (uint32_t)strtoul(digit, &digit, 10);
        }
        if (*field[3]) call.mode = number_of(modes, COUNT(modes), field[3]);
        if (pelgaisti_book_serve(&book, (uint32_t)strtoul(field[0], NULL, 10), &call, &reply) != PELGAISTI_OK) return 3;
    }
    uint64_t first = 1, length = 0;
    if (pelgaisti_book_length(&book, &first, &length) != PELGAISTI_OK || first != 0) return 4;
    for (uint64_t place = 0; place < length; place++) {
        /* three entries at a time, which also tests that slices of the history fit together */
        pelgaisti_entry entries[3];
        size_t count = 0;
        if (pelgaisti_book_history(&book, place, entries, 3, &count) != PELGAISTI_OK || count == 0) return 5;
        for (size_t k = 0; k < count; k++) write_entry(place + k, &entries[k], stdout);
        place += count - 1;
    }
    return pelgaisti_book_close(&book) != PELGAISTI_OK;
}
