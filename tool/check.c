/* `check`: the verdict on a file, with its place. See command.h. The number is the
 * proved library's; the command's own reading says where, and which of the causes
 * that a number joins. */
#include <stdlib.h>
#include <string.h>

#include "command.h"

/* ---- A book or a day file? ---------------------------------------------------- */

static bool first_entry_tells(const file *f, bool *is_book) {
    if (f->bytes < 10) return false;
    size_t first = 2 + 8 * (size_t)two_bytes(f->at);
    bool of_book = two_bytes(f->at + 6) == first, of_day = four_bytes(f->at + 2) == first;
    *is_book = of_book;
    return of_book != of_day;
}

static bool name_tells(const file *f, bool *is_book) {
    const char *slash = strrchr(f->name, '/'), *last = slash == NULL ? f->name : slash + 1;
    bool of_book = strstr(last, "book") != NULL, of_day = strstr(last, "day") != NULL;
    *is_book = of_book;
    return of_book != of_day;
}

/* No file with an entry is accepted as both: a book is shorter than a day file
 * with the same bytes would be. */
bool tell_kind(const desk *d, const file *f, bool *is_book) {
    *is_book = d->as_book;
    if (d->as_book || d->as_day) return true;
    bool of_book = book_fault(f->at, f->bytes).number == 0;
    bool of_day = day_fault(f->at, f->bytes).number == 0;
    *is_book = of_book;
    if (of_book != of_day) return true;
    return first_entry_tells(f, is_book) || name_tells(f, is_book);
}

/* ---- The verdict ----------------------------------------------------------------- */

static void json_head(buffer *b, const file *f, bool is_book, unsigned refusal) {
    add(b, "{\"file\":");
    json_string(b, f->name, strlen(f->name));
    add(b, ",\"kind\":\"%s\",\"bytes\":%zu,\"refusal\":%u", is_book ? "book" : "day", f->bytes,
        refusal);
}

static void json_fault(buffer *b, const fault *f) {
    json_field(b, "words", words_of(f->number));
    if (f->has_filter) add(b, ",\"filter\":%u", f->id);
    if (f->has_state) add(b, ",\"state\":%u", f->state);
    if (f->has_message) add(b, ",\"message\":%u", f->message);
    add(b, ",\"byte\":%zu", f->byte);
    json_field(b, "cause", f->cause);
}

static int refused_file(desk *d, buffer *b, const file *f, bool is_book, const fault *own) {
    if (d->json) {
        json_head(b, f, is_book, own->number);
        json_fault(b, own);
        add(b, "}\n");
    } else {
        add_verdict(b, f->name, is_book ? "a filter book, " : "a day file, ", own->number);
        add_place(b, f->name, own);
    }
    return REFUSED;
}

static int check_book(desk *d, buffer *b, const file *f) {
    unsigned proved = proved_book(f);
    fault own = book_fault(f->at, f->bytes);
    int status = agree(d, f, proved, &own);
    if (status != DONE) return status;
    if (proved != 0) return refused_file(d, b, f, true, &own);
    unsigned filters = two_bytes(f->at), states = states_before(f->at, filters);
    if (d->json) {
        json_head(b, f, true, 0);
        add(b, ",\"filters\":%u,\"states\":%u}\n", filters, states);
    } else {
        add(b, "%s: a filter book of %zu bytes, filters: %u, states: %u: accepted\n", f->name,
            f->bytes, filters, states);
    }
    return DONE;
}

/* ---- The messages of a day file ----------------------------------------------------- */

static void text_message(desk *d, buffer *b, const file *f, unsigned k, const uint64_t *row,
                         const tree *t) {
    add_message_verdict(b, f, k, row);
    add(b, "  ");
    add_refused_event(b, d, t);
    add(b, ": %s; here may stand: ", t->cause);
    add_allowed(b, d, t);
    add(b, "\n");
}

static void json_message(desk *d, buffer *b, const file *f, unsigned k, const uint64_t *row,
                         const tree *t) {
    buffer words = {0};
    add(b, "{\"message\":%u,\"refusal\":%u,\"place\":%zu,\"byte\":%zu", k + 1, (unsigned)row[0],
        (size_t)row[1], message_start(f->at, k) + (size_t)row[1]);
    json_field(b, "words", words_of(row[0]));
    add_refused_event(&words, d, t);
    json_built(b, "event", &words);
    json_field(b, "cause", t->cause);
    add_allowed(&words, d, t);
    json_built(b, "allowed", &words);
    add(b, "}");
    drop(&words);
}

/* One message: adds what is to be said of it. */
static int check_message(desk *d, buffer *b, const file *f, unsigned k, const uint64_t *row) {
    tree t = read_message(f->at + message_start(f->at, k), message_bytes(f->at, k));
    int status = agree_on_message(d, f, k, row, &t);
    if (status == DONE && row[0] != 0) {
        if (d->json)
            json_message(d, b, f, k, row, &t);
        else
            text_message(d, b, f, k, row, &t);
    }
    drop_tree(&t);
    return status;
}

static int check_messages(desk *d, buffer *b, const file *f, const outcome *o) {
    int status = DONE;
    bool some = false;
    for (unsigned k = 0; k < o->messages && status == DONE; k++) {
        const uint64_t *row = o->answers + ESQ_ROW_NUMBERS * k;
        if (d->json && some && row[0] != 0) add(b, ",");
        some |= row[0] != 0;
        status = check_message(d, b, f, k, row);
    }
    return status == DONE && some && d->strict ? SOME_REFUSED : status;
}

static int check_day(desk *d, buffer *b, const file *f) {
    outcome o = proved_day(f);
    fault own = day_fault(f->at, f->bytes);
    int status = agree(d, f, o.total.refusal, &own);
    if (status != DONE) return status;
    if (own.number != 0) return refused_file(d, b, f, false, &own);
    if (d->json) {
        json_head(b, f, false, 0);
        add(b, ",\"messages\":%u,\"refused\":[", o.messages);
    } else {
        add(b, "%s: a day file of %zu bytes, messages: %u: accepted\n", f->name, f->bytes,
            o.messages);
    }
    status = check_messages(d, b, f, &o);
    if (d->json) add(b, "]}\n");
    return status;
}

/* Where nothing tells what the file is, both verdicts are given. */
static int check_file(desk *d, buffer *b, const file *f) {
    bool is_book;
    if (tell_kind(d, f, &is_book)) return is_book ? check_book(d, b, f) : check_day(d, b, f);
    int as_book = check_book(d, b, f), as_day = check_day(d, b, f);
    return as_book > as_day ? as_book : as_day;
}

int do_check(desk *d) {
    file f = {0};
    buffer b = {0};
    int status = read_file(d, d->word[0], d->as_book ? MOST_BOOK_READ : MOST_DAY_READ, &f);
    if (status == DONE) {
        status = check_file(d, &b, &f);
        put(d, &b);
    }
    drop(&b);
    free(f.at);
    return status;
}
