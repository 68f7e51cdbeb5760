/* A whole small program: reads a filter book and a day file, runs them and
 * prints what the day program prints.
 *   small BOOK DAY */
#include <inttypes.h>
#include <stdio.h>

#include "esquirmell.h"

enum { BOOK_ROOM = 4611, DAY_ROOM = 32769, SLOTS = 64, MESSAGES = 1024 };

/* All that is lent. None of it has to be cleared first. */
static uint8_t book[BOOK_ROOM], day[DAY_ROOM];
static uint64_t memory[ESQ_SLOT_NUMBERS * SLOTS];
static uint64_t answers[ESQ_ROW_NUMBERS * MESSAGES];
static uint64_t workspace[ESQ_WORKSPACE_NUMBERS];

static size_t read_file(const char *path, uint8_t *room, size_t size) {
    FILE *file = fopen(path, "rb");
    size_t bytes = 0;
    if (file != NULL) { /* a missing file counts as empty */
        bytes = fread(room, 1, size, file);
        fclose(file);
    }
    return bytes;
}

/* The id of the filter at place k in the book's contents. */
static uint32_t id_at(unsigned k) {
    const uint8_t *entry = book + 2 + 8 * k;
    return entry[0] | entry[1] << 8 | entry[2] << 16 | (uint32_t)entry[3] << 24;
}

static void print_row(unsigned message) {
    const uint64_t *row = answers + ESQ_ROW_NUMBERS * message;
    printf("%u %" PRIu64 " %" PRIu64, message + 1, row[0], row[1]);
    for (unsigned k = 0; k < 64; k++)
        if (row[2] >> k & 1) printf(" %" PRIu32, id_at(k));
    putchar('\n');
}

int main(int count, char **word) {
    if (count != 3) {
        fprintf(stderr, "small BOOK DAY\n");
        return 2;
    }
    size_t book_bytes = read_file(word[1], book, BOOK_ROOM);
    size_t day_bytes = read_file(word[2], day, DAY_ROOM);
    if (book_bytes == BOOK_ROOM || day_bytes == DAY_ROOM) {
        puts("too long");
        return 1;
    }
    esq_total total =
        esquirmell_run(book, book_bytes, day, day_bytes, memory, ESQ_SLOT_NUMBERS * SLOTS, answers,
                       ESQ_ROW_NUMBERS * MESSAGES, workspace, ESQ_WORKSPACE_NUMBERS);
    /* A run that is not refused has a day file of 2 bytes or more. */
    unsigned messages = total.refusal == 0 ? day[0] | day[1] << 8 : 0;
    for (unsigned k = 0; k < messages; k++) print_row(k);
    printf("total %" PRIu64 " %u %" PRIu64 " %" PRIu64 " %zu\n", total.refusal, messages,
           total.asked, total.anew, total.filled);
    return total.refusal == 0 ? 0 : 1;
}
