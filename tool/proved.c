/* The proved library's answers, and its refusals in words. See command.h. */
#include <inttypes.h>
#include <stdarg.h>

#include "command.h"

/* Areas with room for every message and every slot. */
outcome proved_run(const file *book, const file *day, size_t slots) {
    static uint64_t answers[ESQ_ROW_NUMBERS * ESQ_MOST_MESSAGES];
    static uint64_t workspace[ESQ_WORKSPACE_NUMBERS];
    static uint64_t memory[ESQ_SLOT_NUMBERS * ESQ_MOST_SLOTS];
    outcome o = {.answers = answers, .memory = memory};
    o.total = esquirmell_run(book->at, book->bytes, day->at, day->bytes, memory,
                             ESQ_SLOT_NUMBERS * slots, answers, ESQ_ROW_NUMBERS * ESQ_MOST_MESSAGES,
                             workspace, ESQ_WORKSPACE_NUMBERS);
    o.messages = o.total.refusal == 0 ? two_bytes(day->at) : 0;
    return o;
}

/* A book with no filter, or a day file with no message: two bytes. */
static uint8_t NO_BYTES[2] = {0, 0};
static const file EMPTY = {.name = "", .at = NO_BYTES, .bytes = sizeof NO_BYTES};

unsigned proved_book(const file *book) {
    return (unsigned)proved_run(book, &EMPTY, 0).total.refusal;
}

outcome proved_day(const file *day) { return proved_run(&EMPTY, day, 0); }

void add_ids(buffer *b, const file *book, uint64_t filters, const char *first,
             const char *between) {
    for (unsigned k = 0; k < MOST_FILTERS; k++)
        if (filters >> k & 1) {
            add(b, "%s%" PRIu32, first, filter_id(book->at, k));
            first = between;
        }
}

/* ---- Refusals in words ------------------------------------------------------ */

const char *words_of(uint64_t refusal) {
    const char *words = esquirmell_words(refusal);
    return words != NULL ? words : "a number that no rule has";
}

void add_verdict(buffer *b, const char *name, const char *what, uint64_t refusal) {
    add(b, "%s: %srefused, %u: %s\n", name, what, (unsigned)refusal, words_of(refusal));
}

/* Where a book or a day file is wrong, and why. */
void add_place(buffer *b, const char *name, const fault *f) {
    add(b, "%s: ", name);
    if (f->has_filter) add(b, "filter %u, ", f->id);
    if (f->has_state) add(b, "state %u, ", f->state);
    if (f->has_message) add(b, "message %u, ", f->message);
    add(b, "byte %zu: %s\n", f->byte, f->cause);
}

/* Messages are counted from 0 here, and from 1 in what is printed. */
void add_message_verdict(buffer *b, const file *day, unsigned message, const uint64_t *row) {
    size_t byte = message_start(day->at, message) + row[1];
    add(b, "%s: message %u, byte %zu (byte %zu of the file), %u: %s\n", day->name, message + 1,
        (size_t)row[1], byte, (unsigned)row[0], words_of(row[0]));
}

int say_refused_run(desk *d, const file *book, const file *day, uint64_t refusal) {
    buffer b = {0};
    fault f = {0};
    if (refusal <= 7) f = book_fault(book->at, book->bytes);
    if (refusal > 7 && refusal <= 10) f = day_fault(day->at, day->bytes);
    const char *name = refusal <= 7 ? book->name : refusal <= 10 ? day->name : "the run";
    add_verdict(&b, name, "", refusal);
    if (f.number == refusal) add_place(&b, name, &f);
    fwrite(b.at, 1, b.bytes, d->err);
    drop(&b);
    return REFUSED;
}

/* ---- Two readings -------------------------------------------------------------- */

int differ(desk *d, const char *form, ...) {
    va_list rest;
    va_start(rest, form);
    say(d, "DIFFERENT ANSWERS: ", form, rest,
        ". One of them is wrong: please report it, with the files.");
    va_end(rest);
    return DIFFER;
}

int agree(desk *d, const file *f, uint64_t proved, const fault *own) {
    if (proved == own->number) return DONE;
    return differ(d, "of %s the proved library says %u, and the command's own reading %u", f->name,
                  (unsigned)proved, own->number);
}

int agree_on_message(desk *d, const file *day, unsigned message, const uint64_t *row,
                     const tree *t) {
    size_t place = t->refusal == 0 ? 0 : t->place;
    if (t->refusal == row[0] && place == row[1]) return DONE;
    return differ(
        d,
        "of message %u of %s the proved library says %u at byte %zu, and the command's own "
        "reading %u at byte %zu",
        message + 1, day->name, (unsigned)row[0], (size_t)row[1], t->refusal, place);
}
