/* See make.h. */
#include "make.h"

#include <stdlib.h>
#include <string.h>

/* ---- Dice ----------------------------------------------------------------- */

uint64_t roll(dice *d) { return mix(&d->at); }
unsigned below(dice *d, unsigned end) { return (unsigned)(roll(d) % end); }
unsigned from_to(dice *d, unsigned low, unsigned high) { return low + below(d, high - low + 1); }
bool chance(dice *d, unsigned percent) { return below(d, 100) < percent; }

/* ---- Books ------------------------------------------------------------------ */

void new_book(book_plan *p) {
    memset(p, 0, sizeof *p);
    p->cut = SIZE_MAX;
}

void new_filter(book_plan *p, uint32_t id) { p->id[p->filters++] = id; }

static void put_state(uint8_t *s, unsigned kind, unsigned relation, unsigned at_2, uint32_t at_4) {
    const uint8_t row[8] = {(uint8_t)kind,         (uint8_t)relation,    (uint8_t)at_2,
                            (uint8_t)(at_2 >> 8),  (uint8_t)at_4,        (uint8_t)(at_4 >> 8),
                            (uint8_t)(at_4 >> 16), (uint8_t)(at_4 >> 24)};
    memcpy(s, row, 8);
}

void add_leaf(book_plan *p, unsigned relation, int32_t constant) {
    put_state(p->state[p->states++], LEAF_ROW, relation, 0, (uint32_t)constant);
    p->n[p->filters - 1]++;
}

void add_row(book_plan *p, unsigned kind, unsigned at_2, unsigned at_4) {
    put_state(p->state[p->states++], kind, 0, at_2, at_4);
    p->n[p->filters - 1]++;
}

void write_book(const book_plan *p, bytes *out) {
    size_t start = 2 + 8 * (size_t)p->filters;
    out->len = 0;
    add_two(out, p->filters);
    for (unsigned f = 0; f < p->filters; f++) {
        add_four(out, p->id[f]);
        add_two(out, (unsigned)((int)start + p->start_off[f]));
        add_two(out, p->n[f]);
        start += 8 * (size_t)p->n[f];
    }
    add_bytes(out, p->state, 8 * (size_t)p->states);
    for (int i = 0; i < p->tail; i++) add_byte(out, 0);
    if (p->tail < 0) out->len -= (size_t)-p->tail;
    if (p->cut < out->len) out->len = p->cut;
}

bool plan_of_book(const bytes *book, book_plan *p) {
    new_book(p);
    if (book->len < 2 || book->len < 2 + 8 * (size_t)get_two(book->at)) return false;
    p->filters = get_two(book->at);
    if (p->filters > PLAN_FILTERS) return false;
    for (unsigned f = 0; f < p->filters; f++) {
        const uint8_t *entry = book->at + 2 + 8 * f;
        p->id[f] = get_four(entry);
        p->n[f] = get_two(entry + 6);
        p->states += p->n[f];
    }
    if (p->states > PLAN_STATES) return false;
    if (book->len != 2 + 8 * (size_t)p->filters + 8 * (size_t)p->states) return false;
    memcpy(p->state, book->at + 2 + 8 * p->filters, 8 * (size_t)p->states);
    return true;
}

void drop_filter(book_plan *p, unsigned filter) {
    unsigned first = 0;
    for (unsigned f = 0; f < filter; f++) first += p->n[f];
    unsigned n = p->n[filter];
    memmove(p->state[first], p->state[first + n], 8 * (size_t)(p->states - first - n));
    p->states -= n;
    p->filters--;
    for (unsigned f = filter; f < p->filters; f++) {
        p->id[f] = p->id[f + 1];
        p->n[f] = p->n[f + 1];
    }
}

unsigned choose_label(dice *d, bool element) {
    static const unsigned elements[] = {1, 2, 2, 2, 3, 3, 4, 32767};
    static const unsigned attributes[] = {32769, 32772, 32772, 32772, 65535};
    return element ? elements[below(d, 8)] : attributes[below(d, 5)];
}

static unsigned choose_step_label(dice *d) {
    if (chance(d, 12)) return 0;
    if (chance(d, 8)) return 32768;
    return choose_label(d, chance(d, 75));
}

static int32_t choose_constant(dice *d) {
    static const int32_t ends[] = {INT32_MIN, INT32_MIN + 1, INT32_MAX, INT32_MAX - 1, 256, -256};
    if (chance(d, 6)) return ends[below(d, 6)];
    return (int32_t)below(d, 12) - 3;
}

/* The last state of a path: a comparison, or nothing more to ask. */
static void add_last(dice *d, book_plan *p) {
    if (chance(d, 65))
        add_leaf(p, from_to(d, 1, 6), choose_constant(d));
    else
        add_row(p, TRUE_ROW, 0, 0);
}

static void make_path(dice *d, book_plan *p) {
    unsigned steps = from_to(d, 1, 4);
    for (unsigned i = 0; i < steps; i++) {
        bool last = i + 1 == steps;
        unsigned label = i == 0 && chance(d, 70) ? 1 : choose_label(d, !last || chance(d, 60));
        add_row(p, STEP_ROW, chance(d, 10) ? 0 : label, i + 1);
    }
    add_last(d, p);
}

static void make_anywhere(dice *d, book_plan *p) {
    bool no = chance(d, 50);
    unsigned first = no ? 1 : 0;
    if (no) add_row(p, NOT_ROW, 1, 0);
    add_row(p, OR_ROW, first + 1, first + 2);
    add_row(p, STEP_ROW, 0, first);
    add_row(p, STEP_ROW, choose_step_label(d), first + 3);
    add_last(d, p);
}

static void make_bracket(dice *d, book_plan *p) {
    add_row(p, STEP_ROW, chance(d, 80) ? 1 : 0, 1);
    add_row(p, chance(d, 60) ? AND_ROW : OR_ROW, 2, 3);
    add_row(p, STEP_ROW, choose_label(d, false), 4);
    add_row(p, STEP_ROW, choose_label(d, true), chance(d, 50) ? 4 : 5);
    add_last(d, p);
    add_last(d, p);
}

/* Any states at all; the last one can only be TRUE, LEAF or STEP. */
void make_soup(dice *d, book_plan *p, unsigned states) {
    for (unsigned k = 0; k < states; k++) {
        unsigned higher = states - 1 - k;
        unsigned kind = below(d, ROWS);
        if (higher == 0 && (kind == AND_ROW || kind == OR_ROW || kind == NOT_ROW)) kind = STEP_ROW;
        if (kind == TRUE_ROW && chance(d, 60)) kind = LEAF_ROW;
        if (kind == TRUE_ROW) add_row(p, TRUE_ROW, 0, 0);
        if (kind == LEAF_ROW) add_leaf(p, from_to(d, 1, 6), choose_constant(d));
        if (kind == STEP_ROW) add_row(p, STEP_ROW, choose_step_label(d), below(d, states));
        if (kind == NOT_ROW) add_row(p, NOT_ROW, k + 1 + below(d, higher), 0);
        if (kind == AND_ROW || kind == OR_ROW) {
            unsigned at_2 = k + 1 + below(d, higher);
            add_row(p, kind, at_2, chance(d, 10) ? at_2 : k + 1 + below(d, higher));
        }
    }
}

static void add_id(dice *d, book_plan *p) {
    uint32_t last = p->filters == 0 ? 0 : p->id[p->filters - 1];
    new_filter(p, p->filters == 0 && chance(d, 20) ? 0 : last + from_to(d, 1, 900000));
}

void make_filter(dice *d, book_plan *p) {
    add_id(d, p);
    switch (below(d, 5)) {
    case 0: make_path(d, p); break;
    case 1: make_anywhere(d, p); break;
    case 2: make_bracket(d, p); break;
    case 3: make_soup(d, p, from_to(d, 1, 4)); break;
    default: make_soup(d, p, from_to(d, 2, 14)); break;
    }
}

void make_book(dice *d, book_plan *p) {
    new_book(p);
    unsigned filters = chance(d, 4)    ? from_to(d, 0, 1)
                       : chance(d, 12) ? from_to(d, 9, 64)
                                       : from_to(d, 2, 8);
    while (p->filters < filters && p->states + 14 <= STATES_AT_MOST) make_filter(d, p);
    if (p->filters > 0 && chance(d, 5)) p->id[p->filters - 1] = UINT32_MAX;
}

void fill_book(dice *d, book_plan *p, unsigned filters, unsigned states) {
    new_book(p);
    for (unsigned f = 0; f < filters; f++) {
        unsigned left = states - p->states, after = filters - 1 - f;
        add_id(d, p);
        make_soup(d, p, after == 0 ? left : left / (after + 1));
    }
}

/* ---- Books with something wrong ---------------------------------------------- */

static void spoil_row(dice *d, uint8_t *s) {
    static const uint8_t unused[ROWS][7] = {{1, 2, 3, 4, 5, 6, 7}, {2, 3, 2, 3, 2, 3, 2},
                                            {1, 6, 7, 1, 6, 7, 1}, {1, 6, 7, 1, 6, 7, 1},
                                            {1, 4, 5, 6, 7, 4, 5}, {1, 6, 7, 1, 6, 7, 1}};
    unsigned way = below(d, 10);
    if (way == 0)
        s[0] = (uint8_t)(chance(d, 50) ? ROWS : from_to(d, ROWS, 255));
    else if (s[0] == LEAF_ROW && way < 6)
        s[1] = (uint8_t)(chance(d, 50) ? 0 : from_to(d, 7, 255));
    else
        s[unused[s[0]][below(d, 7)]] = (uint8_t)(1u << below(d, 8));
}

/* A successor that is not in a body of n states, or for AND, OR and NOT not higher. */
static void spoil_successor(dice *d, uint8_t *s, unsigned k, unsigned n) {
    unsigned kind = from_to(d, AND_ROW, STEP_ROW);
    unsigned bad = chance(d, 50) ? n : chance(d, 50) ? from_to(d, n, 65535) : n + 256;
    if (kind != STEP_ROW && chance(d, 60)) bad = chance(d, 50) ? k : below(d, k + 1);
    unsigned good = k + 1 < n ? k + 1 : bad;
    if (kind == STEP_ROW) put_state(s, kind, 0, choose_step_label(d), bad);
    if (kind == NOT_ROW) put_state(s, kind, 0, bad, 0);
    if (kind == AND_ROW || kind == OR_ROW) {
        bool first = chance(d, 50);
        put_state(s, kind, 0, first ? bad : good, first ? good : bad);
    }
}

static void spoil_some_successor(dice *d, book_plan *p) {
    unsigned f = below(d, p->filters), first = 0;
    for (unsigned i = 0; i < f; i++) first += p->n[i];
    unsigned k = below(d, p->n[f]);
    spoil_successor(d, p->state[first + k], k, p->n[f]);
}

static void spoil_ids(dice *d, book_plan *p) {
    unsigned f = from_to(d, 1, p->filters - 1);
    uint32_t was = p->id[f];
    if (chance(d, 50)) {
        p->id[f] = p->id[f - 1];
    } else {
        p->id[f] = p->id[f - 1];
        p->id[f - 1] = was;
    }
}

static void spoil_counts(dice *d, book_plan *p) {
    if (chance(d, 50)) {
        unsigned f = below(d, p->filters), first = 0;
        for (unsigned i = 0; i < f; i++) first += p->n[i];
        memmove(p->state[first], p->state[first + p->n[f]],
                8 * (size_t)(p->states - first - p->n[f]));
        p->states -= p->n[f];
        p->n[f] = 0;
    } else {
        unsigned to = STATES_AT_MOST + 1 + (chance(d, 50) ? 0 : below(d, 60));
        while (p->states < to) add_row(p, TRUE_ROW, 0, 0);
    }
}

static void spoil_places(dice *d, book_plan *p) {
    unsigned f = below(d, p->filters);
    switch (below(d, 4)) {
    case 0: p->start_off[f] = chance(d, 50) ? 1 : -1; break;
    case 1: p->start_off[f] = chance(d, 50) ? 8 : 256; break;
    case 2: p->tail = (int)from_to(d, 1, 16); break;
    default: p->tail = -(int)(p->states == 0 ? 0 : from_to(d, 1, 8)); break;
    }
    if (p->start_off[f] == 0 && p->tail == 0) p->tail = 1;
}

void spoil_book(dice *d, book_plan *p, unsigned refusal) {
    switch (refusal) {
    case 1: p->cut = chance(d, 30) ? below(d, 2) : below(d, 2 + 8 * p->filters); break;
    case 2:
        while (p->filters <= 64) {
            add_id(d, p);
            add_row(p, TRUE_ROW, 0, 0);
        }
        break;
    case 3: spoil_ids(d, p); break;
    case 4: spoil_counts(d, p); break;
    case 5: spoil_places(d, p); break;
    case 6: spoil_row(d, p->state[below(d, p->states)]); break;
    default: spoil_some_successor(d, p); break;
    }
}

/* ---- Messages ------------------------------------------------------------------ */

void add_start(bytes *out, unsigned label) {
    add_byte(out, 1);
    add_two(out, label);
}

void add_text(bytes *out, const void *text, size_t len) {
    add_byte(out, 2);
    add_byte(out, (unsigned)len);
    add_bytes(out, text, len);
}

void add_end(bytes *out, unsigned label) {
    add_byte(out, 3);
    add_two(out, label);
}

size_t event_size(const uint8_t *at, size_t left) {
    if (at[0] != 2) return 3;
    return left < 2 ? 2 : 2 + (size_t)at[1];
}

static size_t put_odd_text(dice *d, uint8_t *text) {
    static const char *const odd[] = {"",
                                      "-",
                                      "+5",
                                      "- 5",
                                      "1.5",
                                      "-0",
                                      "--5",
                                      "5-",
                                      "5 5",
                                      "0005",
                                      "-0005",
                                      " 5",
                                      "5\t",
                                      "\r\n5",
                                      "\v5",
                                      "5\f",
                                      "5e0",
                                      "0x5",
                                      "2147483647",
                                      "-2147483648",
                                      "2147483646",
                                      "-2147483647",
                                      "0000000000002147483647",
                                      "-0000000000002147483648",
                                      " \t\r\n",
                                      "five",
                                      "5,",
                                      ":",
                                      "/",
                                      "5\xa0",
                                      "12345678901a",
                                      "-99999999999 9",
                                      "256",
                                      "-256",
                                      "65536",
                                      "\xef\xbc\x95",
                                      "6 ",
                                      "\n-3\r"};
    const char *it = odd[below(d, sizeof odd / sizeof odd[0])];
    memcpy(text, it, strlen(it));
    return strlen(it);
}

size_t choose_text(dice *d, uint8_t *text) {
    if (chance(d, 18)) return put_odd_text(d, text);
    if (chance(d, 2)) {
        memset(text, chance(d, 50) ? '0' : ' ', 255);
        text[254] = (uint8_t)('0' + below(d, 10));
        return 255;
    }
    int value = (int)below(d, 12) - 3;
    return (size_t)sprintf((char *)text, "%s%d%s", chance(d, 5) ? " " : "", value,
                           chance(d, 5) ? "\n" : "");
}

static unsigned add_node(message_plan *p, unsigned parent, unsigned label) {
    unsigned born = p->nodes++;
    p->node[born].label = label;
    p->node[born].parent = parent;
    p->node[born].text_len = -1;
    return born;
}

static void make_inside(dice *d, message_plan *p, unsigned at, unsigned depth) {
    unsigned attributes = chance(d, 60) ? 0 : from_to(d, 1, 3);
    for (unsigned i = 0; i < attributes && p->nodes < PLAN_NODES; i++) {
        unsigned a = add_node(p, at, choose_label(d, false));
        if (chance(d, 85)) p->node[a].text_len = (int)choose_text(d, p->node[a].text);
    }
    if (chance(d, depth < 2 ? 10 : 60)) {
        p->node[at].text_len = (int)choose_text(d, p->node[at].text);
    } else if (depth < 6) {
        unsigned children = below(d, depth < 2 ? 5 : 3);
        for (unsigned i = 0; i < children && p->nodes < PLAN_NODES; i++)
            make_inside(d, p, add_node(p, at, choose_label(d, true)), depth + 1);
    }
}

void make_message(dice *d, message_plan *p) {
    p->nodes = 0;
    unsigned top = add_node(p, PLAN_NODES, chance(d, 80) ? 1 : choose_label(d, true));
    make_inside(d, p, top, 0);
}

static void shuffle(dice *d, unsigned *item, unsigned count) {
    for (unsigned i = count; i > 1; i--) {
        unsigned k = below(d, i), was = item[k];
        item[k] = item[i - 1];
        item[i - 1] = was;
    }
}

static void write_node(const message_plan *p, unsigned at, bytes *out, dice *order) {
    add_start(out, p->node[at].label);
    for (int elements = 0; elements < 2; elements++) {
        unsigned child[PLAN_NODES], children = 0;
        if (elements && p->node[at].text_len >= 0)
            add_text(out, p->node[at].text, (size_t)p->node[at].text_len);
        for (unsigned i = 0; i < p->nodes; i++)
            if (p->node[i].parent == at && (p->node[i].label < 32768) == elements)
                child[children++] = i;
        if (order != NULL) shuffle(order, child, children);
        for (unsigned i = 0; i < children; i++) write_node(p, child[i], out, order);
    }
    add_end(out, p->node[at].label);
}

void write_message(const message_plan *p, bytes *out, dice *order) { write_node(p, 0, out, order); }

/* ---- Day files -------------------------------------------------------------------- */

void new_day(day_plan *p) {
    bytes kept = p->bodies;
    memset(p, 0, sizeof *p);
    p->bodies = kept;
    p->bodies.len = 0;
    p->cut = SIZE_MAX;
}

void end_message(day_plan *p) {
    p->length[p->messages++] = (uint32_t)(p->bodies.len - p->ended);
    p->ended = p->bodies.len;
}

void write_day(const day_plan *p, bytes *out) {
    uint32_t start = 2 + 8 * p->messages;
    out->len = 0;
    add_two(out, p->messages);
    for (unsigned m = 0; m < p->messages; m++) {
        bool off = m == p->off_at;
        add_four(out, off ? start + (uint32_t)p->start_off : start);
        add_four(out, off ? p->length[m] + (uint32_t)p->length_off : p->length[m]);
        start += p->length[m];
    }
    add_bytes(out, p->bodies.at, p->bodies.len);
    for (int i = 0; i < p->tail; i++) add_byte(out, 3);
    if (p->tail < 0) out->len -= (size_t)-p->tail;
    if (p->cut < out->len) out->len = p->cut;
    while (out->len < p->pad_to) add_byte(out, 0);
}

bool plan_of_day(const bytes *day, day_plan *p) {
    new_day(p);
    if (day->len < 2 || day->len < 2 + 8 * (size_t)get_two(day->at)) return false;
    unsigned messages = get_two(day->at);
    if (messages > PLAN_MESSAGES) return false;
    uint64_t at = 2 + 8 * (uint64_t)messages;
    for (unsigned m = 0; m < messages; m++) {
        p->length[m] = get_four(day->at + 6 + 8 * m);
        if (get_four(day->at + 2 + 8 * m) != at) return false;
        at += p->length[m];
    }
    if (at != day->len) return false;
    p->messages = messages;
    add_bytes(&p->bodies, day->at + 2 + 8 * messages, day->len - 2 - 8 * (size_t)messages);
    p->ended = p->bodies.len;
    return true;
}

void damage(dice *d, bytes *b, size_t from) {
    static const uint8_t favourites[] = {0, 1, 2, 3, 4, 5, 6, 7, 127, 128, 254, 255};
    for (unsigned times = from_to(d, 1, 3); times > 0 && b->len > from; times--) {
        size_t at = from + below(d, (unsigned)(b->len - from));
        switch (below(d, 5)) {
        case 0: b->at[at] ^= (uint8_t)(1u << below(d, 8)); break;
        case 1: b->at[at] = favourites[below(d, sizeof favourites)]; break;
        case 2: b->at[at] = (uint8_t)roll(d); break;
        case 3:
            memmove(b->at + at, b->at + at + 1, b->len - at - 1);
            b->len--;
            break;
        default:
            add_byte(b, 0);
            memmove(b->at + at + 1, b->at + at, b->len - at - 1);
            b->at[at] = favourites[below(d, sizeof favourites)];
            break;
        }
    }
}

void make_day(dice *d, day_plan *p, unsigned messages) {
    message_plan m;
    new_day(p);
    while (p->messages < messages) {
        size_t from = p->bodies.len;
        make_message(d, &m);
        if (!chance(d, 2)) write_message(&m, &p->bodies, NULL);
        if (chance(d, 8)) damage(d, &p->bodies, from);
        if (chance(d, 3)) p->bodies.len -= below(d, (unsigned)(p->bodies.len - from + 1));
        end_message(p);
    }
}

static void spoil_message_places(dice *d, day_plan *p) {
    if (p->messages == 0 || chance(d, 25)) {
        p->tail = (int)from_to(d, 1, 9);
    } else if (p->bodies.len > 9 && chance(d, 25)) {
        p->tail = -(int)from_to(d, 1, 9);
    } else {
        static const int off[] = {1, -1, 8, 256, 65536, 1 << 24, INT32_MIN};
        int by = off[below(d, 7)];
        p->off_at = below(d, p->messages);
        if (chance(d, 50))
            p->start_off = by;
        else
            p->length_off = by;
    }
}

void spoil_day(dice *d, day_plan *p, unsigned refusal) {
    if (refusal == 9) {
        unsigned to = 4097 + (chance(d, 60) ? 0 : below(d, 60));
        while (p->messages < to) end_message(p);
    } else if (refusal == 10) {
        spoil_message_places(d, p);
    } else if (chance(d, 12)) {
        p->pad_to = DAY_AT_MOST + from_to(d, 1, 9);
    } else {
        p->cut = chance(d, 30) ? below(d, 2) : below(d, 2 + 8 * p->messages);
    }
}

/* ---- The paper's small day ------------------------------------------------------------ */

void small_book(book_plan *p) {
    new_book(p);
    new_filter(p, 10);
    for (unsigned i = 1; i <= 3; i++) add_row(p, STEP_ROW, i, i);
    add_leaf(p, 5, 5);
    new_filter(p, 20);
    add_row(p, NOT_ROW, 1, 0);
    add_row(p, OR_ROW, 2, 3);
    add_row(p, STEP_ROW, 0, 1);
    add_row(p, STEP_ROW, 2, 4);
    add_row(p, STEP_ROW, 3, 5);
    add_leaf(p, 5, 5);
    new_filter(p, 30);
    add_row(p, STEP_ROW, 1, 1);
    add_row(p, AND_ROW, 2, 3);
    add_row(p, STEP_ROW, 32772, 4);
    add_row(p, STEP_ROW, 2, 5);
    add_leaf(p, 1, 6);
    add_row(p, TRUE_ROW, 0, 0);
}

void add_call(day_plan *p, const char *late) {
    add_start(&p->bodies, 2);
    if (late != NULL) {
        add_start(&p->bodies, 3);
        add_text(&p->bodies, late, 1);
        add_end(&p->bodies, 3);
    }
    add_end(&p->bodies, 2);
}

void add_service(day_plan *p, bool with_day, unsigned calls, const char *one, const char *other) {
    add_start(&p->bodies, 1);
    if (with_day) {
        add_start(&p->bodies, 32772);
        add_text(&p->bodies, "6", 1);
        add_end(&p->bodies, 32772);
    }
    if (calls > 0) add_call(p, one);
    if (calls > 1) add_call(p, other);
    add_end(&p->bodies, 1);
    end_message(p);
}

void small_day(day_plan *p) {
    new_day(p);
    add_service(p, true, 2, "7", "2");
    add_service(p, true, 2, "2", "7");
    add_service(p, true, 1, NULL, NULL);
    add_service(p, false, 0, NULL, NULL);
    add_start(&p->bodies, 1);
    add_start(&p->bodies, 2);
    add_end(&p->bodies, 2);
    add_start(&p->bodies, 32772);
    end_message(p);
}
