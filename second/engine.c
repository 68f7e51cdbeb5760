/* The second engine: see engine.h.
 *
 * The run does not work as the engine under test must. It reads a message into
 * a tree, decides every match from the top down by the match rule, writes down
 * the list of all questions of the day, and gets counts and slots from that
 * list at the end. Only the inner call and the pass, which the paper defines
 * from any filled slots, work on sets of eight numbers. */
#include "engine.h"

#include <stdbool.h>
#include <stdio.h>
#include <stdlib.h>
#include <string.h>

enum {
    MOST_FILTERS = 64,
    MOST_STATES = 512,
    MOST_MESSAGES = 4096,
    MOST_DAY_BYTES = 1048576,
    MOST_OPEN = 64,
    MOST_SLOTS = 4096,
    SET = 8,      /* numbers in a set */
    QUESTION = 9, /* a set and a label */
    SLOT = 17,    /* a question and its answer */
    WORKSPACE = 650,
    ANY_ELEMENT = 0,
    ANY_ATTRIBUTE = 32768,
    LAST_LABEL = 65535
};

enum kind { KIND_TRUE, KIND_LEAF, KIND_AND, KIND_OR, KIND_NOT, KIND_STEP };
enum relation { EQUAL = 1, UNEQUAL, LESS, AT_MOST, GREATER, AT_LEAST };

/* A state, its successors numbered through the whole book. */
typedef struct {
    unsigned kind, relation, label;
    unsigned first, second;
    int64_t constant;
} state;

typedef struct {
    unsigned filters, states;
    unsigned top[MOST_FILTERS]; /* each filter's state 0 */
    state state[MOST_STATES];
} book;

static void *must(void *room) {
    if (room == NULL) {
        fprintf(stderr, "second engine: no room\n");
        abort();
    }
    return room;
}

static uint32_t two_bytes(const uint8_t *at) { return (uint32_t)at[0] | (uint32_t)at[1] << 8; }

static uint32_t four_bytes(const uint8_t *at) { return two_bytes(at) | two_bytes(at + 2) << 16; }

/* ---- The book ---------------------------------------------------------- */

/* Entry f of the contents: id, start of the body, number of states. */
static uint32_t entry_id(const uint8_t *b, unsigned f) { return four_bytes(b + 2 + 8 * f); }
static uint32_t entry_start(const uint8_t *b, unsigned f) { return two_bytes(b + 6 + 8 * f); }
static uint32_t entry_states(const uint8_t *b, unsigned f) { return two_bytes(b + 8 + 8 * f); }

static bool ids_rise(const uint8_t *b) {
    for (unsigned f = 1; f < two_bytes(b); f++)
        if (entry_id(b, f - 1) >= entry_id(b, f)) return false;
    return true;
}

static bool counts_fit(const uint8_t *b) {
    uint32_t all = 0;
    for (unsigned f = 0; f < two_bytes(b); f++) {
        if (entry_states(b, f) == 0) return false;
        all += entry_states(b, f);
    }
    return all <= MOST_STATES;
}

static bool bodies_in_place(const uint8_t *b, size_t len) {
    size_t at = 2 + 8 * (size_t)two_bytes(b);
    for (unsigned f = 0; f < two_bytes(b); f++) {
        if (entry_start(b, f) != at) return false;
        at += 8 * (size_t)entry_states(b, f);
    }
    return at == len;
}

/* Is this state a row of the table? Every field without a use must be 0. */
static bool is_row(const uint8_t *s) {
    switch (s[0]) {
    case KIND_TRUE: return s[1] == 0 && two_bytes(s + 2) == 0 && four_bytes(s + 4) == 0;
    case KIND_LEAF: return s[1] >= EQUAL && s[1] <= AT_LEAST && two_bytes(s + 2) == 0;
    case KIND_AND: return s[1] == 0 && two_bytes(s + 6) == 0;
    case KIND_OR: return s[1] == 0 && two_bytes(s + 6) == 0;
    case KIND_NOT: return s[1] == 0 && four_bytes(s + 4) == 0;
    case KIND_STEP: return s[1] == 0 && two_bytes(s + 6) == 0;
    default: return false;
    }
}

/* Do the successors of state k of a body of n states lead where they may? */
static bool leads_well(const uint8_t *s, unsigned k, unsigned n) {
    unsigned at_2 = two_bytes(s + 2), at_4 = two_bytes(s + 4);
    switch (s[0]) {
    case KIND_AND: return at_2 > k && at_2 < n && at_4 > k && at_4 < n;
    case KIND_OR: return at_2 > k && at_2 < n && at_4 > k && at_4 < n;
    case KIND_NOT: return at_2 > k && at_2 < n;
    case KIND_STEP: return at_4 < n;
    default: return true;
    }
}

static bool all_rows(const uint8_t *b, size_t len) {
    for (size_t at = 2 + 8 * (size_t)two_bytes(b); at < len; at += 8)
        if (!is_row(b + at)) return false;
    return true;
}

static bool all_lead_well(const uint8_t *b) {
    for (unsigned f = 0; f < two_bytes(b); f++)
        for (unsigned k = 0; k < entry_states(b, f); k++)
            if (!leads_well(b + entry_start(b, f) + 8 * k, k, entry_states(b, f))) return false;
    return true;
}

/* Each rule is checked over the whole book before the next. */
static unsigned refuse_book(const uint8_t *b, size_t len) {
    if (len < 2 || len < 2 + 8 * (size_t)two_bytes(b)) return 1;
    if (two_bytes(b) > MOST_FILTERS) return 2;
    if (!ids_rise(b)) return 3;
    if (!counts_fit(b)) return 4;
    if (!bodies_in_place(b, len)) return 5;
    if (!all_rows(b, len)) return 6;
    if (!all_lead_well(b)) return 7;
    return 0;
}

static state read_state(const uint8_t *s, unsigned body_first) {
    state r = {.kind = s[0]};
    switch (s[0]) {
    case KIND_LEAF:
        r.relation = s[1];
        r.constant = (int64_t)four_bytes(s + 4);
        if (r.constant > INT32_MAX) r.constant -= INT64_C(4294967296);
        break;
    case KIND_STEP:
        r.label = two_bytes(s + 2);
        r.first = body_first + two_bytes(s + 4);
        break;
    case KIND_AND:
    case KIND_OR: r.second = body_first + two_bytes(s + 4); /* fall through */
    case KIND_NOT: r.first = body_first + two_bytes(s + 2); break;
    default: break;
    }
    return r;
}

/* Only for a book that is not refused. */
static void read_book(const uint8_t *b, book *out) {
    out->filters = two_bytes(b);
    out->states = 0;
    for (unsigned f = 0; f < out->filters; f++) {
        unsigned first = out->states;
        out->top[f] = first;
        for (unsigned k = 0; k < entry_states(b, f); k++)
            out->state[out->states++] = read_state(b + entry_start(b, f) + 8 * k, first);
    }
}

void second_filter_body(const uint8_t *b, size_t len, uint32_t id, uint64_t *start,
                        uint64_t *length) {
    *start = 0;
    *length = 0;
    if (refuse_book(b, len) != 0) return;
    for (unsigned f = 0; f < two_bytes(b); f++)
        if (entry_id(b, f) == id) {
            *start = entry_start(b, f);
            *length = 8 * (uint64_t)entry_states(b, f);
        }
}

/* ---- The day file ------------------------------------------------------ */

static uint32_t message_start(const uint8_t *d, unsigned m) { return four_bytes(d + 2 + 8 * m); }
static uint32_t message_length(const uint8_t *d, unsigned m) { return four_bytes(d + 6 + 8 * m); }

static bool messages_in_place(const uint8_t *d, size_t len) {
    uint64_t at = 2 + 8 * (uint64_t)two_bytes(d);
    for (unsigned m = 0; m < two_bytes(d); m++) {
        if (message_start(d, m) != at) return false;
        at += message_length(d, m);
    }
    return at == len;
}

static unsigned refuse_run(const uint8_t *b, size_t book_len, const uint8_t *d, size_t day_len,
                           size_t answers_len, size_t workspace_len) {
    unsigned refusal = refuse_book(b, book_len);
    if (refusal != 0) return refusal;
    if (day_len < 2 || day_len < 2 + 8 * (size_t)two_bytes(d) || day_len > MOST_DAY_BYTES) return 8;
    if (two_bytes(d) > MOST_MESSAGES) return 9;
    if (!messages_in_place(d, day_len)) return 10;
    if (answers_len < 3 * (size_t)two_bytes(d)) return 11;
    if (workspace_len < WORKSPACE) return 12;
    return 0;
}

/* ---- A message as a tree ----------------------------------------------- */

enum { ROOT = 0, NONE = 0 }; /* the root is nobody's child, so 0 also says "no child" */

typedef struct {
    unsigned label;
    uint32_t parent, first_child, last_child, next;
    bool has_child_element, has_text, has_value;
    int64_t value;
} node;

typedef struct {
    node *node; /* node[0] is the root, the others in order of their starts */
    uint32_t nodes;
    uint32_t *closed; /* the nodes in order of their accepted ends */
    uint32_t closings;
    unsigned refusal;
    size_t place;
    uint32_t at; /* the innermost open node; the root if nothing is open */
    unsigned open;
} tree;

static bool is_element(uint64_t label) { return label > ANY_ELEMENT && label < ANY_ATTRIBUTE; }
static bool is_attribute(uint64_t label) { return label > ANY_ATTRIBUTE && label <= LAST_LABEL; }

enum reading { NO_NUMBER, NUMBER, OUT_OF_RANGE };

static bool is_blank(uint8_t c) { return c == ' ' || c == '\t' || c == '\r' || c == '\n'; }

static enum reading read_value(const uint8_t *text, size_t len, int64_t *value) {
    const uint8_t *end = text + len;
    while (text < end && is_blank(*text)) text++;
    while (text < end && is_blank(end[-1])) end--;
    bool minus = text < end && *text == '-';
    if (minus) text++;
    if (text == end) return NO_NUMBER;
    int64_t size = 0;
    for (; text < end; text++) {
        if (*text < '0' || *text > '9') return NO_NUMBER;
        /* Ten times this bound still fits, and everything above it is out of range. */
        if (size < INT64_C(10000000000)) size = 10 * size + (*text - '0');
    }
    *value = minus ? -size : size;
    return *value < INT32_MIN || *value > INT32_MAX ? OUT_OF_RANGE : NUMBER;
}

/* May a start with this label, a name, stand where the reader is? */
static bool start_allowed(const tree *t, unsigned label) {
    const node *here = &t->node[t->at];
    if (t->at == ROOT) return is_element(label) && here->first_child == NONE;
    if (is_attribute(here->label)) return false;
    if (here->has_text) return false;
    return is_element(label) || !here->has_child_element;
}

static unsigned refuse_start(const tree *t, unsigned label) {
    if (!is_element(label) && !is_attribute(label)) return 23;
    if (!start_allowed(t, label)) return 24;
    if (t->open == MOST_OPEN) return 25;
    return 0;
}

static void accept_start(tree *t, unsigned label) {
    uint32_t born = t->nodes++;
    node *parent = &t->node[t->at];
    t->node[born] = (node){.label = label, .parent = t->at};
    if (parent->first_child == NONE)
        parent->first_child = born;
    else
        t->node[parent->last_child].next = born;
    parent->last_child = born;
    if (is_element(label)) parent->has_child_element = true;
    t->at = born;
    t->open++;
}

/* A text is refused or taken in here. */
static unsigned take_text(tree *t, const uint8_t *text, size_t len) {
    node *here = &t->node[t->at];
    if (t->at == ROOT || here->has_text || here->has_child_element) return 26;
    enum reading reading = read_value(text, len, &here->value);
    if (reading == OUT_OF_RANGE) return 27;
    here->has_text = true;
    here->has_value = reading == NUMBER;
    return 0;
}

static unsigned take_end(tree *t, unsigned label) {
    if (t->at == ROOT || t->node[t->at].label != label) return 28;
    t->closed[t->closings++] = t->at;
    t->at = t->node[t->at].parent;
    t->open--;
    return 0;
}

/* One event at the front of what is left of the message; its size is given back. */
static unsigned take_event(tree *t, const uint8_t *e, size_t left, size_t *size) {
    if (e[0] < 1 || e[0] > 3) return 21;
    if (e[0] == 2) {
        if (left < 2 || left < 2 + (size_t)e[1]) return 22;
        *size = 2 + (size_t)e[1];
        return take_text(t, e + 2, e[1]);
    }
    if (left < 3) return 22;
    *size = 3;
    if (e[0] == 3) return take_end(t, two_bytes(e + 1));
    unsigned refusal = refuse_start(t, two_bytes(e + 1));
    if (refusal == 0) accept_start(t, two_bytes(e + 1));
    return refusal;
}

static void read_message(tree *t, const uint8_t *body, size_t len) {
    size_t size = 0;
    t->node[ROOT] = (node){0};
    t->nodes = 1;
    t->closings = 0;
    t->at = ROOT;
    t->open = 0;
    for (t->place = 0; t->place < len; t->place += size) {
        t->refusal = take_event(t, body + t->place, len - t->place, &size);
        if (t->refusal != 0) return;
    }
    /* Not yet begun and still open are one refusal, at the body's end. */
    t->refusal = t->node[ROOT].first_child == NONE || t->at != ROOT ? 29 : 0;
    if (t->refusal == 0) t->place = 0;
}

/* A start is three bytes long, which bounds the nodes of any message. */
static tree new_tree(size_t day_len) {
    size_t most = day_len / 3 + 2;
    tree t = {0};
    t.node = must(malloc(most * sizeof *t.node));
    t.closed = must(malloc(most * sizeof *t.closed));
    return t;
}

static void drop_tree(tree *t) {
    free(t->node);
    free(t->closed);
}

/* ---- The match rule ---------------------------------------------------- */

static bool fits(unsigned step_label, uint64_t label) {
    if (step_label == ANY_ELEMENT) return is_element(label);
    if (step_label == ANY_ATTRIBUTE) return is_attribute(label);
    return step_label == label;
}

static bool stands(int64_t value, unsigned relation, int64_t constant) {
    switch (relation) {
    case EQUAL: return value == constant;
    case UNEQUAL: return value != constant;
    case LESS: return value < constant;
    case AT_MOST: return value <= constant;
    case GREATER: return value > constant;
    default: return value >= constant;
    }
}

static bool leaf_matches(const state *s, const node *n) {
    return n->has_value && stands(n->value, s->relation, s->constant);
}

/* A match asked for twice is decided once: without `known` the time would grow
 * as a power. A byte is 0 for "not yet asked", 1 for "no", 2 for "yes". */
typedef struct {
    const book *book;
    const tree *tree;
    uint8_t *known;
} matcher;

static bool matches(matcher *m, unsigned s, uint32_t n);

static bool step_matches(matcher *m, const state *s, uint32_t n) {
    const node *all = m->tree->node;
    for (uint32_t c = all[n].first_child; c != NONE; c = all[c].next)
        if (fits(s->label, all[c].label) && matches(m, s->first, c)) return true;
    return false;
}

/* Ends always: STEP goes to a child, and AND, OR and NOT to a higher state. */
static bool matches(matcher *m, unsigned s, uint32_t n) {
    uint8_t *known = &m->known[(size_t)n * m->book->states + s];
    if (*known != 0) return *known == 2;
    const state *q = &m->book->state[s];
    bool yes = false;
    switch (q->kind) {
    case KIND_TRUE: yes = true; break;
    case KIND_LEAF: yes = leaf_matches(q, &m->tree->node[n]); break;
    case KIND_AND: yes = matches(m, q->first, n) && matches(m, q->second, n); break;
    case KIND_OR: yes = matches(m, q->first, n) || matches(m, q->second, n); break;
    case KIND_NOT: yes = !matches(m, q->first, n); break;
    default: yes = step_matches(m, q, n); break;
    }
    *known = yes ? 2 : 1;
    return yes;
}

static uint64_t true_filters(matcher *m) {
    uint64_t filters = 0;
    for (unsigned f = 0; f < m->book->filters; f++)
        if (matches(m, m->book->top[f], ROOT)) filters |= UINT64_C(1) << f;
    return filters;
}

/* ---- The list of questions --------------------------------------------- */

static void put(uint64_t *set, unsigned k) { set[k / 64] |= UINT64_C(1) << (k % 64); }
static bool has(const uint64_t *set, unsigned k) { return (set[k / 64] >> (k % 64) & 1) != 0; }

/* A question and its right answer, laid out as a slot: set, label, answer. */
typedef struct {
    uint64_t number[SLOT];
} question;

typedef struct {
    question *item;
    size_t count, room;
} questions;

static question question_of(matcher *m, uint32_t n) {
    const book *b = m->book;
    question q = {{0}};
    q.number[SET] = m->tree->node[n].label;
    for (unsigned k = 0; k < b->states; k++) {
        const state *s = &b->state[k];
        bool in_questions = s->kind == KIND_LEAF || s->kind == KIND_STEP;
        if (in_questions && matches(m, k, n)) put(q.number, k);
        if (s->kind == KIND_STEP && fits(s->label, q.number[SET]) && matches(m, s->first, n))
            put(q.number + QUESTION, k);
    }
    return q;
}

static void add_question(questions *list, question q) {
    if (list->count == list->room) {
        list->room = 2 * list->room + 64;
        list->item = must(realloc(list->item, list->room * sizeof *list->item));
    }
    list->item[list->count++] = q;
}

static bool same_question(const uint64_t *a, const uint64_t *b) {
    return memcmp(a, b, QUESTION * sizeof *a) == 0;
}

static size_t hash_question(const question *q) {
    uint64_t h = 0;
    for (unsigned i = 0; i < QUESTION; i++)
        h = (h ^ q->number[i]) * UINT64_C(0x9e3779b97f4a7c15) ^ h >> 29;
    return (size_t)(h ^ h >> 32);
}

/* For each question of the list, where in the list it was asked first. */
static size_t *first_askings(const questions *list) {
    size_t table = 1;
    while (table < 2 * list->count + 1) table *= 2;
    size_t *place = must(calloc(table, sizeof *place)); /* 0 is free, else 1 + a first asking */
    size_t *first = must(malloc((list->count + 1) * sizeof *first));
    for (size_t i = 0; i < list->count; i++) {
        size_t p = hash_question(&list->item[i]) & (table - 1);
        while (place[p] != 0 &&
               !same_question(list->item[place[p] - 1].number, list->item[i].number))
            p = (p + 1) & (table - 1);
        if (place[p] == 0) place[p] = i + 1;
        first[i] = place[p] - 1;
    }
    free(place);
    return first;
}

static uint64_t slots_in(size_t memory_len) {
    return memory_len / SLOT < MOST_SLOTS ? memory_len / SLOT : MOST_SLOTS;
}

/* The first C different questions are kept, in order of first asking. A question
 * is worked out anew where it is asked first, and always if it is not kept. */
static void count_and_keep(const questions *list, uint64_t slots, uint64_t *memory, esq_result *r) {
    size_t *first = first_askings(list);
    bool *kept = must(calloc(list->count + 1, sizeof *kept));
    for (size_t i = 0; i < list->count; i++) {
        r->asked++;
        if (first[i] == i && r->filled < slots) {
            memcpy(memory + SLOT * r->filled, list->item[i].number, sizeof list->item[i]);
            kept[i] = true;
            r->filled++;
        }
        if (first[i] == i || !kept[first[i]]) r->anew++;
    }
    free(kept);
    free(first);
}

/* ---- The run ----------------------------------------------------------- */

static void run_message(const book *b, tree *t, questions *list, uint64_t *row) {
    matcher m = {b, t, must(calloc((size_t)t->nodes * b->states + 1, 1))};
    for (uint32_t i = 0; i < t->closings; i++) add_question(list, question_of(&m, t->closed[i]));
    row[0] = t->refusal;
    row[1] = t->place;
    row[2] = t->refusal == 0 ? true_filters(&m) : 0;
    free(m.known);
}

esq_result second_run(const uint8_t *book_bytes, size_t book_len, const uint8_t *day,
                      size_t day_len, uint64_t *memory, size_t memory_len, uint64_t *answers,
                      size_t answers_len, uint64_t *workspace, size_t workspace_len) {
    esq_result r = {0};
    r.refusal = refuse_run(book_bytes, book_len, day, day_len, answers_len, workspace_len);
    if (r.refusal != 0) return r;
    book b;
    read_book(book_bytes, &b);
    tree t = new_tree(day_len);
    questions list = {0};
    for (unsigned m = 0; m < two_bytes(day); m++) {
        read_message(&t, day + message_start(day, m), message_length(day, m));
        run_message(&b, &t, &list, answers + 3 * m);
    }
    count_and_keep(&list, slots_in(memory_len), memory, &r);
    memset(workspace, 0, WORKSPACE * sizeof *workspace);
    free(list.item);
    drop_tree(&t);
    return r;
}

/* ---- The inner call, from any filled slots ------------------------------ */

/* TRUE, AND, OR and NOT follow from the set's LEAF and STEP states by the match
 * rule, whatever else the set may hold. Their successors are higher, so the
 * highest state is decided first. */
static void complete(const book *b, const uint64_t *set, bool *holds) {
    for (unsigned k = b->states; k-- > 0;) {
        const state *s = &b->state[k];
        switch (s->kind) {
        case KIND_TRUE: holds[k] = true; break;
        case KIND_AND: holds[k] = holds[s->first] && holds[s->second]; break;
        case KIND_OR: holds[k] = holds[s->first] || holds[s->second]; break;
        case KIND_NOT: holds[k] = !holds[s->first]; break;
        default: holds[k] = has(set, k); break;
        }
    }
}

static void work_out(const book *b, const uint64_t *asked, uint64_t *answer) {
    bool holds[MOST_STATES];
    complete(b, asked, holds);
    memset(answer, 0, SET * sizeof *answer);
    for (unsigned k = 0; k < b->states; k++) {
        const state *s = &b->state[k];
        if (s->kind == KIND_STEP && fits(s->label, asked[SET]) && holds[s->first]) put(answer, k);
    }
}

/* What the inner call works on and leaves to the next. */
typedef struct {
    const book *book;
    uint64_t *memory, slots, filled, anew;
} asker;

static void ask(asker *a, const uint64_t *asked, uint64_t *answer) {
    for (uint64_t i = 0; i < a->filled; i++) {
        const uint64_t *slot = a->memory + SLOT * i;
        if (same_question(slot, asked)) {
            memcpy(answer, slot + QUESTION, SET * sizeof *answer);
            return;
        }
    }
    work_out(a->book, asked, answer);
    a->anew++;
    if (a->filled < a->slots) {
        uint64_t *slot = a->memory + SLOT * a->filled;
        memcpy(slot, asked, QUESTION * sizeof *slot);
        memcpy(slot + QUESTION, answer, SET * sizeof *slot);
        a->filled++;
    }
}

static const uint64_t COUNT_END = UINT64_C(1) << 63;

esq_reply second_ask(const uint8_t *book_bytes, size_t book_len, uint64_t *memory,
                     size_t memory_len, uint64_t filled, uint64_t anew, const uint64_t *asked,
                     size_t asked_len, uint64_t *answer, size_t answer_len) {
    esq_reply r = {0};
    r.refusal = refuse_book(book_bytes, book_len);
    if (r.refusal != 0) return r;
    r.refusal = asked_len != QUESTION || answer_len != SET ? 18 : 0;
    if (r.refusal != 0) return r;
    r.refusal = filled > slots_in(memory_len) ? 14 : anew >= COUNT_END ? 19 : 0;
    if (r.refusal != 0) return r;
    book b;
    read_book(book_bytes, &b);
    asker a = {&b, memory, slots_in(memory_len), filled, anew};
    ask(&a, asked, answer);
    r.anew = a.anew;
    r.filled = a.filled;
    return r;
}

/* ---- The pass, from any filled slots ------------------------------------ */

static void join(uint64_t *set, const uint64_t *more) {
    for (unsigned i = 0; i < SET; i++) set[i] |= more[i];
}

static void put_leaves(const book *b, const node *n, uint64_t *set) {
    for (unsigned k = 0; k < b->states; k++)
        if (b->state[k].kind == KIND_LEAF && leaf_matches(&b->state[k], n)) put(set, k);
}

static uint64_t filters_at_root(const book *b, const uint64_t *set) {
    bool holds[MOST_STATES];
    uint64_t filters = 0;
    complete(b, set, holds);
    for (unsigned f = 0; f < b->filters; f++)
        if (holds[b->top[f]]) filters |= UINT64_C(1) << f;
    return filters;
}

/* Every closing node asks of the set made for it so far, and the answer given
 * is joined, as it stands, to its parent's. Gives back the questions asked. */
static uint64_t pass_message(asker *a, const tree *t, uint64_t *row) {
    uint64_t(*set)[SET] = must(calloc(t->nodes, sizeof *set));
    for (uint32_t i = 0; i < t->closings; i++) {
        const node *closing = &t->node[t->closed[i]];
        uint64_t asked[QUESTION], answer[SET];
        put_leaves(a->book, closing, set[t->closed[i]]);
        memcpy(asked, set[t->closed[i]], sizeof set[0]);
        asked[SET] = closing->label;
        ask(a, asked, answer);
        join(set[closing->parent], answer);
    }
    row[0] = t->refusal;
    row[1] = t->place;
    row[2] = t->refusal == 0 ? filters_at_root(a->book, set[ROOT]) : 0;
    free(set);
    return t->closings;
}

esq_result second_pass(const uint8_t *book_bytes, size_t book_len, const uint8_t *day,
                       size_t day_len, uint64_t *memory, size_t memory_len, uint64_t *answers,
                       size_t answers_len, uint64_t *workspace, size_t workspace_len,
                       uint64_t asked, uint64_t anew, uint64_t filled) {
    esq_result r = {0};
    r.refusal = refuse_run(book_bytes, book_len, day, day_len, answers_len, workspace_len);
    if (r.refusal != 0) return r;
    r.refusal = filled > slots_in(memory_len) ? 14 : 0;
    if (r.refusal != 0) return r;
    r.refusal = asked < COUNT_END && anew < COUNT_END ? 0 : 19;
    if (r.refusal != 0) return r;
    book b;
    read_book(book_bytes, &b);
    asker a = {&b, memory, slots_in(memory_len), filled, anew};
    tree t = new_tree(day_len);
    for (unsigned m = 0; m < two_bytes(day); m++) {
        read_message(&t, day + message_start(day, m), message_length(day, m));
        asked += pass_message(&a, &t, answers + 3 * m);
    }
    drop_tree(&t);
    memset(workspace, 0, WORKSPACE * sizeof *workspace);
    return (esq_result){0, asked, a.anew, a.filled};
}
