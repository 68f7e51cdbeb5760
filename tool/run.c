/* `run`: the day program's lines for any files, and refusals in words. See command.h.
 *
 * Standard output has a line a message: message, refusal, place, ids of the true
 * filters; last the run's refusal, messages, asked, worked out anew, slots filled. */
#include <inttypes.h>
#include <stdlib.h>

#include "command.h"

static void add_row(buffer *b, const file *book, unsigned message, const uint64_t *row) {
    add(b, "%u %" PRIu64 " %" PRIu64, message + 1, row[0], row[1]);
    add_ids(b, book, row[2], " ", " ");
    add(b, "\n");
}

static void add_json_row(buffer *b, const file *book, const file *day, unsigned message,
                         const uint64_t *row) {
    add(b, "%s{\"message\":%u,\"refusal\":%" PRIu64 ",\"place\":%" PRIu64, message == 0 ? "" : ",",
        message + 1, row[0], row[1]);
    if (row[0] != 0) {
        add(b, ",\"byte\":%zu", message_start(day->at, message) + (size_t)row[1]);
        json_field(b, "words", words_of(row[0]));
    }
    add(b, ",\"filters\":[");
    add_ids(b, book, row[2], "", ",");
    add(b, "]}");
}

static void add_json(buffer *b, const file *book, const file *day, const outcome *o) {
    add(b, "{\"refusal\":%" PRIu64, o->total.refusal);
    if (o->total.refusal != 0) json_field(b, "words", words_of(o->total.refusal));
    add(b, ",\"messages\":[");
    for (unsigned k = 0; k < o->messages; k++)
        add_json_row(b, book, day, k, o->answers + ESQ_ROW_NUMBERS * k);
    add(b, "],\"asked\":%" PRIu64 ",\"anew\":%" PRIu64 ",\"filled\":%zu}\n", o->total.asked,
        o->total.anew, o->total.filled);
}

static void add_lines(buffer *b, const file *book, const outcome *o) {
    for (unsigned k = 0; k < o->messages; k++)
        add_row(b, book, k, o->answers + ESQ_ROW_NUMBERS * k);
    add(b, "total %" PRIu64 " %u %" PRIu64 " %" PRIu64 " %zu\n", o->total.refusal, o->messages,
        o->total.asked, o->total.anew, o->total.filled);
}

/* The refused messages in words; whether there are some. */
static bool say_messages(desk *d, const file *day, const outcome *o) {
    bool some = false;
    buffer b = {0};
    for (unsigned k = 0; k < o->messages; k++) {
        const uint64_t *row = o->answers + ESQ_ROW_NUMBERS * k;
        if (row[0] != 0) add_message_verdict(&b, day, k, row);
        some |= row[0] != 0;
    }
    if (some) fwrite(b.at, 1, b.bytes, d->err);
    drop(&b);
    return some;
}

static int run_and_print(desk *d, const file *book, const file *day, size_t slots) {
    buffer b = {0};
    outcome o = proved_run(book, day, slots);
    if (d->json)
        add_json(&b, book, day, &o);
    else
        add_lines(&b, book, &o);
    put(d, &b);
    drop(&b);
    if (o.total.refusal != 0) return say_refused_run(d, book, day, o.total.refusal);
    return say_messages(d, day, &o) && d->strict ? SOME_REFUSED : DONE;
}

int do_run(desk *d) {
    file book = {0}, day = {0};
    size_t slots;
    int status = read_slots(d, 2, &slots);
    if (status == DONE) status = read_book_and_day(d, &book, &day);
    if (status == DONE) status = run_and_print(d, &book, &day, slots);
    free(book.at);
    free(day.at);
    return status;
}
