/* A filter book's bytes: contents, states, and where a refused book is wrong.
 * See command.h; docs/FORMATS.md has the layout. */
#include <stdarg.h>
#include <string.h>

#include "command.h"

unsigned two_bytes(const uint8_t *at) { return at[0] | (unsigned)at[1] << 8; }

uint32_t four_bytes(const uint8_t *at) { return two_bytes(at) | (uint32_t)two_bytes(at + 2) << 16; }

fault found(unsigned number, size_t byte, const char *form, ...) {
    fault f = {.number = number, .byte = byte};
    va_list rest;
    va_start(rest, form);
    vsnprintf(f.cause, sizeof f.cause, form, rest);
    va_end(rest);
    return f;
}

/* ---- Contents and states -------------------------------------------------- */

static const uint8_t *entry(const uint8_t *book, unsigned filter) { return book + 2 + 8 * filter; }

uint32_t filter_id(const uint8_t *book, unsigned filter) { return four_bytes(entry(book, filter)); }

unsigned filter_start(const uint8_t *book, unsigned filter) {
    return two_bytes(entry(book, filter) + 4);
}

unsigned filter_states(const uint8_t *book, unsigned filter) {
    return two_bytes(entry(book, filter) + 6);
}

/* Through the book the states are numbered in the order of the contents. */
unsigned states_before(const uint8_t *book, unsigned filter) {
    unsigned sum = 0;
    for (unsigned k = 0; k < filter; k++) sum += filter_states(book, k);
    return sum;
}

state state_at(const uint8_t *bytes) {
    state s = {.kind = bytes[0]};
    switch (s.kind) {
    case LEAF_KIND:
        s.relation = bytes[1];
        s.constant = (int32_t)four_bytes(bytes + 4);
        break;
    case STEP_KIND:
        s.label = two_bytes(bytes + 2);
        s.first = two_bytes(bytes + 4);
        break;
    default:
        s.first = two_bytes(bytes + 2);
        s.second = two_bytes(bytes + 4);
        break;
    }
    return s;
}

const char *kind_name(unsigned kind) {
    static const char *const NAME[KINDS] = {"TRUE", "LEAF", "AND", "OR", "NOT", "STEP"};
    return NAME[kind];
}

const char *relation_sign(unsigned relation) {
    static const char *const SIGN[] = {"", "=", "!=", "<", "<=", ">", ">="};
    return SIGN[relation];
}

static void add_step(buffer *b, const desk *d, state s) {
    add(b, "STEP ");
    if (s.label == ANY_ELEMENT)
        add(b, "*");
    else if (s.label == ANY_ATTRIBUTE)
        add(b, "@*");
    else
        add_label(b, d, s.label);
    add(b, " -> %u", s.first);
}

/* A state in the words of the text form. */
void add_state(buffer *b, const desk *d, state s) {
    switch (s.kind) {
    case TRUE_KIND: add(b, "TRUE"); break;
    case LEAF_KIND: add(b, "LEAF %s %d", relation_sign(s.relation), s.constant); break;
    case NOT_KIND: add(b, "NOT %u", s.first); break;
    case STEP_KIND: add_step(b, d, s); break;
    default: add(b, "%s %u %u", kind_name(s.kind), s.first, s.second); break;
    }
}

/* ---- What is wrong, check by check: the contents --------------------------- */

static fault in_filter(fault f, const uint8_t *book, unsigned filter) {
    f.has_filter = true;
    f.filter = filter;
    f.id = filter_id(book, filter);
    return f;
}

static const fault FINE = {0};

static fault contents_cut(const uint8_t *book, size_t bytes) {
    if (bytes < 2)
        return found(1, bytes, "the book has %zu of the 2 bytes that say how many filters", bytes);
    size_t contents = 2 + 8 * (size_t)two_bytes(book);
    if (bytes >= contents) return FINE;
    return found(1, bytes, "%u filters need %zu bytes of contents, and the book has %zu",
                 two_bytes(book), contents, bytes);
}

static fault ids_fall(const uint8_t *book) {
    for (unsigned k = 1; k < two_bytes(book); k++) {
        uint32_t before = filter_id(book, k - 1), id = filter_id(book, k);
        if (id <= before)
            return in_filter(found(3, 2 + 8 * k, "id %u comes after id %u", id, before), book, k);
    }
    return FINE;
}

static fault counts_wrong(const uint8_t *book) {
    for (unsigned k = 0; k < two_bytes(book); k++) {
        unsigned all = states_before(book, k + 1);
        if (filter_states(book, k) == 0)
            return in_filter(found(4, 8 + 8 * k, "the filter has no state"), book, k);
        if (all > MOST_STATES)
            return in_filter(found(4, 8 + 8 * k, "with this filter there are %u states", all), book,
                             k);
    }
    return FINE;
}

static fault bodies_astray(const uint8_t *book, size_t bytes) {
    size_t at = 2 + 8 * (size_t)two_bytes(book);
    for (unsigned k = 0; k < two_bytes(book); k++) {
        unsigned start = filter_start(book, k);
        if (start != at)
            return in_filter(found(5, 6 + 8 * k,
                                   "the body is said to start at byte %u, and must start at %zu",
                                   start, at),
                             book, k);
        at += 8 * (size_t)filter_states(book, k);
    }
    if (at < bytes) return found(5, at, "the last body ends here, and bytes follow");
    if (at == bytes) return FINE;
    return found(5, bytes, "the book ends here, and its last body only at byte %zu", at);
}

/* ---- What is wrong, check by check: the states ------------------------------ */

/* A byte that has no use in a state of this kind must be 0. */
static fault used(const uint8_t *s, unsigned from, unsigned to) {
    for (unsigned k = from; k < to; k++)
        if (s[k] != 0)
            return found(6, k, "byte %u of a %s must be 0, and is %u", k, kind_name(s[0]), s[k]);
    return FINE;
}

static fault first_of(fault one, fault other) { return one.number != 0 ? one : other; }

static fault no_row(const uint8_t *s) {
    switch (s[0]) {
    case TRUE_KIND: return used(s, 1, 8);
    case LEAF_KIND:
        if (s[1] >= 1 && s[1] <= 6) return used(s, 2, 4);
        return found(6, 1, "the relation of a LEAF is 1 to 6, and is %u", s[1]);
    case NOT_KIND: return first_of(used(s, 1, 2), used(s, 4, 8));
    case AND_KIND:
    case OR_KIND:
    case STEP_KIND: return first_of(used(s, 1, 2), used(s, 6, 8));
    default: return found(6, 0, "kind %u is none of 0 to 5", s[0]);
    }
}

/* A successor at this place of state k, of a body of n states. */
static fault leads_astray(const uint8_t *s, unsigned at, unsigned k, unsigned n) {
    unsigned to = two_bytes(s + at);
    if (to >= n)
        return found(7, at, "the %s leads to state %u, and its body has %u state%s, from 0 on",
                     kind_name(s[0]), to, n, n == 1 ? "" : "s");
    if (s[0] != STEP_KIND && to <= k)
        return found(7, at, "the %s leads to state %u, which is not higher than its own, %u",
                     kind_name(s[0]), to, k);
    return FINE;
}

static fault no_successor(const uint8_t *s, unsigned k, unsigned n) {
    switch (s[0]) {
    case AND_KIND:
    case OR_KIND: return first_of(leads_astray(s, 2, k, n), leads_astray(s, 4, k, n));
    case NOT_KIND: return leads_astray(s, 2, k, n);
    case STEP_KIND: return leads_astray(s, 4, k, n);
    default: return FINE;
    }
}

static fault state_wrong(const uint8_t *book, unsigned filter, unsigned k, unsigned number) {
    size_t at = filter_start(book, filter) + 8 * (size_t)k;
    fault f =
        number == 6 ? no_row(book + at) : no_successor(book + at, k, filter_states(book, filter));
    if (f.number == 0) return FINE;
    f.byte += at;
    f.has_state = true;
    f.state = k;
    return in_filter(f, book, filter);
}

/* The first state that refusal 6, or 7, is for. */
static fault states_wrong(const uint8_t *book, unsigned number) {
    for (unsigned filter = 0; filter < two_bytes(book); filter++)
        for (unsigned k = 0; k < filter_states(book, filter); k++) {
            fault f = state_wrong(book, filter, k, number);
            if (f.number != 0) return f;
        }
    return FINE;
}

/* Each check is made over the whole book before the next. */
fault book_fault(const uint8_t *book, size_t bytes) {
    fault f = contents_cut(book, bytes);
    if (f.number == 0 && two_bytes(book) > MOST_FILTERS)
        f = found(2, 0, "it says that it has %u filters", two_bytes(book));
    if (f.number == 0) f = ids_fall(book);
    if (f.number == 0) f = counts_wrong(book);
    if (f.number == 0) f = bodies_astray(book, bytes);
    if (f.number == 0) f = states_wrong(book, 6);
    if (f.number == 0) f = states_wrong(book, 7);
    return f;
}
