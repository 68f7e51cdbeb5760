/* `show`: a book, a day file or the memory after a run, in words. See command.h.
 * What is printed of a book or a day file is the text that `make` reads; behind
 * each line the bytes stand as a remark. */
#include <inttypes.h>
#include <stdlib.h>
#include <string.h>

#include "command.h"

enum { REMARK_COLUMN = 40, BYTES_SHOWN = 8, BYTES_A_LINE = 16, DEEPEST_SHOWN = 64 };

/* A remark behind the line that began at `line`. */
static void add_remark(buffer *b, size_t line) {
    size_t columns = b->bytes - line;
    add(b, "%*s  # ", columns < REMARK_COLUMN ? (int)(REMARK_COLUMN - columns) : 0, "");
}

static void add_some_hex(buffer *b, const uint8_t *from, size_t bytes) {
    add_hex(b, from, bytes < BYTES_SHOWN ? bytes : BYTES_SHOWN);
    if (bytes > BYTES_SHOWN) add(b, " ..");
}

/* ---- A book -------------------------------------------------------------------- */

static void text_filter(buffer *b, const desk *d, const file *book, unsigned filter) {
    unsigned start = filter_start(book->at, filter), states = filter_states(book->at, filter);
    unsigned before = states_before(book->at, filter);
    size_t line = b->bytes;
    add(b, "filter %" PRIu32, filter_id(book->at, filter));
    add_remark(b, line);
    add(b, "byte %u: ", 2 + 8 * filter);
    add_hex(b, book->at + 2 + 8 * filter, 8);
    add(b, ", body at byte %u, states %u to %u of the book\n", start, before, before + states - 1);
    for (unsigned k = 0; k < states; k++) {
        const uint8_t *bytes = book->at + start + 8 * k;
        line = b->bytes;
        add(b, "  %u ", k);
        add_state(b, d, state_at(bytes));
        add_remark(b, line);
        add(b, "byte %u: ", start + 8 * k);
        add_hex(b, bytes, 8);
        add(b, "\n");
    }
}

static void text_book(buffer *b, const desk *d, const file *book) {
    unsigned filters = two_bytes(book->at);
    add(b, "book");
    add_remark(b, 0);
    add(b, "byte 0: ");
    add_hex(b, book->at, 2);
    add(b, ", filters: %u\n", filters);
    for (unsigned k = 0; k < filters; k++) text_filter(b, d, book, k);
}

static void json_label(buffer *b, const desk *d, unsigned label) {
    add(b, ",\"label\":%u", label);
    if (d->name != NULL && d->name[label] != NULL) json_field(b, "name", d->name[label]);
}

static void json_state(buffer *b, const desk *d, unsigned k, size_t byte, state s) {
    add(b, "%s{\"state\":%u,\"byte\":%zu,\"kind\":\"%s\"", k == 0 ? "" : ",", k, byte,
        kind_name(s.kind));
    if (s.kind == LEAF_KIND)
        add(b, ",\"relation\":\"%s\",\"constant\":%d", relation_sign(s.relation), s.constant);
    if (s.kind == STEP_KIND) json_label(b, d, s.label);
    if (s.kind == STEP_KIND || s.kind == NOT_KIND) add(b, ",\"to\":[%u]", s.first);
    if (s.kind == AND_KIND || s.kind == OR_KIND) add(b, ",\"to\":[%u,%u]", s.first, s.second);
    add(b, "}");
}

static void json_filter(buffer *b, const desk *d, const file *book, unsigned filter) {
    unsigned start = filter_start(book->at, filter), states = filter_states(book->at, filter);
    add(b, "%s{\"filter\":%" PRIu32 ",\"byte\":%u,\"states\":[", filter == 0 ? "" : ",",
        filter_id(book->at, filter), start);
    for (unsigned k = 0; k < states; k++)
        json_state(b, d, k, start + 8 * (size_t)k, state_at(book->at + start + 8 * k));
    add(b, "]}");
}

static void json_book(buffer *b, const desk *d, const file *book) {
    add(b, "{\"book\":[");
    for (unsigned k = 0; k < two_bytes(book->at); k++) json_filter(b, d, book, k);
    add(b, "]}\n");
}

static int show_book(desk *d, buffer *b, const file *book) {
    if (d->words > 1) return fail(d, "%s is a filter book, and has no messages", book->name);
    unsigned refusal = proved_book(book);
    fault own = book_fault(book->at, book->bytes);
    int status = agree(d, book, refusal, &own);
    if (status != DONE) return status;
    if (refusal != 0) return say_refused_run(d, book, book, refusal);
    if (d->json)
        json_book(b, d, book);
    else
        text_book(b, d, book);
    return DONE;
}

/* ---- A day file ------------------------------------------------------------------ */

/* A part of a message that is shown on a line: an event, or bytes that are none. */
typedef struct {
    const file *day;
    unsigned message;
    size_t start, end, place, bytes;
    bool is_event; /* once an event is not whole, all that is left is shown as bytes */
    const uint64_t *row;
} part;

static const uint8_t *bytes_of(const part *p) { return p->day->at + p->start + p->place; }
static bool is_refused_here(const part *p) { return p->row[0] != 0 && p->row[1] == p->place; }

static void text_part(buffer *b, const desk *d, const part *p, unsigned depth) {
    size_t line = b->bytes;
    add(b, "%*s", 2 + 2 * (int)(depth < DEEPEST_SHOWN ? depth : DEEPEST_SHOWN), "");
    add_event(b, d, bytes_of(p), p->bytes, p->is_event);
    add_remark(b, line);
    add(b, "byte %zu, place %zu", p->start + p->place, p->place);
    if (p->is_event) {
        add(b, ": ");
        add_some_hex(b, bytes_of(p), p->bytes);
    }
    if (is_refused_here(p))
        add(b, "; refused here, %u: %s", (unsigned)p->row[0], words_of(p->row[0]));
    add(b, "\n");
}

static void json_text(buffer *b, const uint8_t *text, size_t bytes) {
    if (is_utf8(text, bytes)) {
        add(b, ",\"text\":");
        json_string(b, (const char *)text, bytes);
    }
    add(b, ",\"bytes\":\"");
    add_hex(b, text, bytes);
    add(b, "\"");
}

static void json_part(buffer *b, const desk *d, const part *p) {
    static const char *const EVENT[] = {"bytes", "start", "text", "end"};
    const uint8_t *at = bytes_of(p);
    unsigned kind = p->is_event ? at[0] : 0;
    add(b, "%s{\"place\":%zu,\"byte\":%zu,\"event\":\"%s\"", p->place == 0 ? "" : ",", p->place,
        p->start + p->place, EVENT[kind]);
    if (kind == 1 || kind == 3)
        json_label(b, d, two_bytes(at + 1));
    else
        json_text(b, kind == 2 ? at + 2 : at, kind == 2 ? p->bytes - 2 : p->bytes);
    add(b, "}");
}

/* The next part: a whole event, or a line of bytes. */
static void take_part(part *p) {
    size_t left = p->end - p->place;
    size_t event = p->is_event ? event_bytes(bytes_of(p), left) : 0;
    p->is_event = event > 0;
    p->bytes = event > 0 ? event : left < BYTES_A_LINE ? left : BYTES_A_LINE;
}

static void add_parts(buffer *b, const desk *d, part *p) {
    unsigned depth = 0;
    for (p->is_event = true; p->place < p->end; p->place += p->bytes) {
        take_part(p);
        unsigned kind = p->is_event ? bytes_of(p)[0] : 0;
        if (kind == 3 && depth > 0) depth--;
        if (d->json)
            json_part(b, d, p);
        else
            text_part(b, d, p, depth);
        if (kind == 1) depth++;
    }
}

static void text_message(buffer *b, const desk *d, part *p) {
    size_t line = b->bytes, at = 2 + 8 * (size_t)p->message;
    add(b, "message %u", p->message + 1);
    add_remark(b, line);
    add(b, "byte %zu: ", at);
    add_hex(b, p->day->at + at, 8);
    add(b, ", body at byte %zu, %zu bytes\n", p->start, p->end);
    add_parts(b, d, p);
    if (p->row[0] != 0 && p->row[1] == p->end)
        add(b, "  # byte %zu, place %zu; refused here, %u: %s\n", p->start + p->end, p->end,
            (unsigned)p->row[0], words_of(p->row[0]));
}

static void json_message(buffer *b, const desk *d, part *p) {
    add(b, "{\"message\":%u,\"byte\":%zu,\"length\":%zu,\"refusal\":%" PRIu64 ",\"place\":%" PRIu64,
        p->message + 1, p->start, p->end, p->row[0], p->row[1]);
    if (p->row[0] != 0) json_field(b, "words", words_of(p->row[0]));
    add(b, ",\"events\":[");
    add_parts(b, d, p);
    add(b, "]}");
}

/* The messages from `first` on, before `end`, counted from 0. */
static void add_messages(buffer *b, const desk *d, const file *day, const outcome *o,
                         unsigned first, unsigned end) {
    for (unsigned k = first; k < end; k++) {
        part p = {.day = day, .message = k, .row = o->answers + ESQ_ROW_NUMBERS * k};
        p.start = message_start(day->at, k);
        p.end = message_bytes(day->at, k);
        if (d->json && k > first) add(b, ",");
        if (d->json)
            json_message(b, d, &p);
        else
            text_message(b, d, &p);
    }
}

static void add_day(buffer *b, const desk *d, const file *day, const outcome *o, unsigned first,
                    unsigned end) {
    if (d->json) {
        add(b, "{\"day\":[");
        add_messages(b, d, day, o, first, end);
        add(b, "]}\n");
        return;
    }
    add(b, "day");
    add_remark(b, 0);
    add(b, "byte 0: ");
    add_hex(b, day->at, 2);
    add(b, ", messages: %u\n", o->messages);
    add_messages(b, d, day, o, first, end);
}

static int show_day(desk *d, buffer *b, const file *day) {
    uint64_t message = 0;
    outcome o = proved_day(day);
    fault own = day_fault(day->at, day->bytes);
    int status = agree(d, day, o.total.refusal, &own);
    if (status != DONE) return status;
    if (own.number != 0) return say_refused_run(d, day, day, own.number);
    if (d->words == 1) {
        add_day(b, d, day, &o, 0, o.messages);
        return DONE;
    }
    if (!is_number(d->word[1], UINT32_MAX, &message) || message < 1 || message > o.messages)
        return fail(d, "%s is no message of %s, which has %u", d->word[1], day->name, o.messages);
    add_day(b, d, day, &o, (unsigned)message - 1, (unsigned)message);
    return DONE;
}

/* ---- The memory --------------------------------------------------------------------- */

/* The states of a set, separated so; whether it has some. */
static bool add_set(buffer *b, const uint64_t *set, const char *between) {
    const char *before = "";
    for (unsigned k = 0; k < MOST_STATES; k++)
        if (set[k / 64] >> k % 64 & 1) {
            add(b, "%s%u", before, k);
            before = between;
        }
    return *before != '\0';
}

static void text_slot(buffer *b, const desk *d, unsigned k, const uint64_t *slot) {
    add(b, "slot %u: ", k);
    add_label(b, d, (unsigned)slot[8]);
    add(b, " with states ");
    if (!add_set(b, slot, " ")) add(b, "none");
    add(b, " -> ");
    if (!add_set(b, slot + 9, " ")) add(b, "none");
    add(b, "\n");
}

static void json_slot(buffer *b, const desk *d, unsigned k, const uint64_t *slot) {
    add(b, "%s{\"slot\":%u", k == 0 ? "" : ",", k);
    json_label(b, d, (unsigned)slot[8]);
    add(b, ",\"asked\":[");
    add_set(b, slot, ",");
    add(b, "],\"answer\":[");
    add_set(b, slot + 9, ",");
    add(b, "]}");
}

/* The states that LEAF and STEP stand for, by their number through the book. */
static void text_states(buffer *b, const desk *d, const file *book) {
    unsigned number = 0;
    for (unsigned filter = 0; filter < two_bytes(book->at); filter++)
        for (unsigned k = 0; k < filter_states(book->at, filter); k++, number++) {
            state s = state_at(book->at + filter_start(book->at, filter) + 8 * k);
            if (s.kind != LEAF_KIND && s.kind != STEP_KIND) continue;
            add(b, "state %u: filter %" PRIu32 ", %u ", number, filter_id(book->at, filter), k);
            add_state(b, d, s);
            add(b, "\n");
        }
}

static void add_memory(buffer *b, const desk *d, const file *book, const outcome *o, size_t slots) {
    const char *form = d->json ? "{\"slots\":%zu,\"asked\":%" PRIu64 ",\"anew\":%" PRIu64
                                 ",\"filled\":%zu,\"memory\":["
                               : "memory of %zu slots: asked %" PRIu64 ", worked out anew %" PRIu64
                                 ", filled %zu\n";
    add(b, form, slots, o->total.asked, o->total.anew, o->total.filled);
    for (unsigned k = 0; k < o->total.filled; k++)
        if (d->json)
            json_slot(b, d, k, o->memory + ESQ_SLOT_NUMBERS * k);
        else
            text_slot(b, d, k, o->memory + ESQ_SLOT_NUMBERS * k);
    if (d->json)
        add(b, "]}\n");
    else
        text_states(b, d, book);
}

static int show_memory(desk *d, buffer *b) {
    file book = {0}, day = {0};
    size_t slots;
    int status = read_slots(d, 2, &slots);
    if (status == DONE) status = read_book_and_day(d, &book, &day);
    if (status == DONE) {
        outcome o = proved_run(&book, &day, slots);
        if (o.total.refusal != 0)
            status = say_refused_run(d, &book, &day, o.total.refusal);
        else
            add_memory(b, d, &book, &o, slots);
    }
    free(book.at);
    free(day.at);
    return status;
}

/* ---- The word ------------------------------------------------------------------------- */

static int show_file(desk *d, buffer *b) {
    file f = {0};
    bool is_book;
    int status = read_file(d, d->word[0], d->as_book ? MOST_BOOK_READ : MOST_DAY_READ, &f);
    if (status == DONE) {
        if (!tell_kind(d, &f, &is_book))
            status = fail(d, "is %s a book or a day file? --book or --day says so", f.name);
        else
            status = is_book ? show_book(d, b, &f) : show_day(d, b, &f);
    }
    free(f.at);
    return status;
}

int do_show(desk *d) {
    buffer b = {0};
    int status = d->memory ? show_memory(d, &b) : show_file(d, &b);
    put(d, &b);
    drop(&b);
    return status;
}
