/* `why`: the reason for a filter on a message, worked out by the match rule on the
 * message's tree and set beside what the proved run answered. See command.h. */
#include <inttypes.h>
#include <stdlib.h>
#include <string.h>

#include "command.h"

/* Without --all: so many children of a STEP are gone into, and so many lines are
 * given for a filter. */
enum { CHILDREN_SHOWN = 10, LINES_SHOWN = 1000, LABELS_SHOWN = 8, DEEPEST_SHOWN = 64 };

/* One step of a reason: a state at a node. */
typedef struct {
    unsigned state, depth;
    uint32_t at;
} step;

typedef struct {
    step *item;
    size_t count, room;
} steps;

/* What is explained: a message and, filter by filter, its table. */
typedef struct {
    desk *desk;
    const file *book, *day;
    unsigned message; /* from 0 */
    const uint64_t *row;
    tree tree;
    table table;
    steps left; /* what is still to be said, the next one last */
} reason;

static void push(steps *s, unsigned state, uint32_t at, unsigned depth) {
    if (s->count == s->room) {
        s->room = 2 * s->room + 64;
        s->item = must(realloc(s->item, s->room * sizeof *s->item));
    }
    s->item[s->count++] = (step){state, depth, at};
}

/* What was pushed first from here on is said first. */
static void turn_round(steps *s, size_t from) {
    for (size_t last = s->count; from + 1 < last; from++, last--) {
        step other = s->item[from];
        s->item[from] = s->item[last - 1];
        s->item[last - 1] = other;
    }
}

static state state_of(const reason *r, unsigned k) { return state_at(r->table.body + 8 * k); }

static bool holds(const reason *r, uint32_t at, unsigned k) {
    return has_bit(&r->table, r->table.holds, at, k);
}

/* Where a place of the message stands in the day file. */
static size_t byte_of(const reason *r, size_t place) {
    return message_start(r->day->at, r->message) + place;
}

/* ---- Each kind: its words, and what they rest on -------------------------------- */

static void because_leaf(reason *r, buffer *b, step i, state s) {
    const node *n = &r->tree.node[i.at];
    bool yes = holds(r, i.at, i.state);
    if (n->value == NO_TEXT) {
        add(b, i.at == ROOT ? "the root has no text" : "it has no text");
    } else if (n->value == NO_NUMBER) {
        add(b, "its text ");
        add_quoted(b, r->tree.body + n->text, n->text_bytes);
        add(b, " is no number");
    } else {
        add(b, "%" PRId64 " %s%s %d", n->number, yes ? "" : "is not ", relation_sign(s.relation),
            s.constant);
    }
}

static void because_not(reason *r, buffer *b, step i, state s) {
    add(b, "%u %s", s.first, holds(r, i.at, s.first) ? "matches" : "does not match");
    push(&r->left, s.first, i.at, i.depth + 1);
}

/* Those that decide: of an AND that fails and an OR that holds, one is enough. */
static void because_both(reason *r, buffer *b, step i, state s) {
    bool first = holds(r, i.at, s.first), second = holds(r, i.at, s.second);
    bool decides = s.kind == OR_KIND; /* a yes decides an OR, a no an AND */
    if (first != decides && second != decides) {
        add(b, decides ? "neither matches" : "both match");
        if (s.second != s.first) push(&r->left, s.second, i.at, i.depth + 1);
        push(&r->left, s.first, i.at, i.depth + 1);
    } else {
        unsigned one = first == decides ? s.first : s.second;
        add(b, "%u %s", one, decides ? "matches" : "does not match");
        push(&r->left, one, i.at, i.depth + 1);
    }
}

static void because_no_label(reason *r, buffer *b, uint32_t at) {
    unsigned shown = 0;
    const node *all = r->tree.node;
    if (all[at].first == NONE) {
        add(b, "it has no child");
        return;
    }
    add(b, "no child fits:");
    for (uint32_t c = all[at].first; c != NONE && shown <= LABELS_SHOWN; c = all[c].next) {
        add(b, shown++ < LABELS_SHOWN ? " " : " ..");
        if (shown <= LABELS_SHOWN) add_label(b, r->desk, all[c].label);
    }
}

/* The children that fit and do not match, so far as they are gone into. */
static void because_no_child(reason *r, buffer *b, step i, state s) {
    unsigned fit = 0;
    size_t first = r->left.count;
    const node *all = r->tree.node;
    for (uint32_t c = all[i.at].first; c != NONE; c = all[c].next)
        if (label_fits(s.label, all[c].label) && (fit++ < CHILDREN_SHOWN || r->desk->all))
            push(&r->left, s.first, c, i.depth + 1);
    turn_round(&r->left, first);
    if (fit == 0)
        because_no_label(r, b, i.at);
    else if (fit == 1)
        add(b, "the one child that fits does not match %u", s.first);
    else
        add(b, "of %u children that fit none matches %u", fit, s.first);
    if (fit > CHILDREN_SHOWN && !r->desk->all)
        add(b, "; the first %d are gone into, --all goes into each", CHILDREN_SHOWN);
}

static void because_step(reason *r, buffer *b, step i, state s) {
    const node *all = r->tree.node;
    if (!holds(r, i.at, i.state)) {
        because_no_child(r, b, i, s);
        return;
    }
    uint32_t c = all[i.at].first;
    while (!label_fits(s.label, all[c].label) || !holds(r, c, s.first)) c = all[c].next;
    add(b, "a child that fits matches %u", s.first);
    push(&r->left, s.first, c, i.depth + 1);
}

static void because(reason *r, buffer *b, step i, state s) {
    switch (s.kind) {
    case TRUE_KIND: add(b, "TRUE matches every node"); break;
    case LEAF_KIND: because_leaf(r, b, i, s); break;
    case NOT_KIND: because_not(r, b, i, s); break;
    case STEP_KIND: because_step(r, b, i, s); break;
    default: because_both(r, b, i, s); break;
    }
}

/* ---- A reason, step by step -------------------------------------------------------- */

/* A pair of state and node is gone into once; later it is "as above". */
static void add_because(reason *r, buffer *b, step i) {
    if (has_bit(&r->table, r->table.said, i.at, i.state)) {
        add(b, "as above");
        return;
    }
    set_bit(&r->table, r->table.said, i.at, i.state);
    because(r, b, i, state_of(r, i.state));
}

static void text_step(reason *r, buffer *b, step i) {
    unsigned depth = i.depth < DEEPEST_SHOWN ? i.depth : DEEPEST_SHOWN;
    add(b, "%*s%u ", 2 + 2 * (int)depth, "", i.state);
    add_state(b, r->desk, state_of(r, i.state));
    add(b, " at ");
    add_path(b, r->desk, &r->tree, i.at);
    if (i.at != ROOT) add(b, ", byte %zu", byte_of(r, r->tree.node[i.at].place));
    add(b, ": %s, ", holds(r, i.at, i.state) ? "yes" : "no");
    add_because(r, b, i);
    add(b, "\n");
}

static void json_step(reason *r, buffer *b, step i, bool is_first) {
    buffer words = {0};
    add(b, "%s{\"depth\":%u,\"state\":%u", is_first ? "" : ",", i.depth, i.state);
    add_state(&words, r->desk, state_of(r, i.state));
    json_built(b, "kind", &words);
    add_path(&words, r->desk, &r->tree, i.at);
    json_built(b, "path", &words);
    if (i.at != ROOT) {
        size_t place = r->tree.node[i.at].place;
        add(b, ",\"place\":%zu,\"byte\":%zu", place, byte_of(r, place));
    }
    add(b, ",\"holds\":%s", holds(r, i.at, i.state) ? "true" : "false");
    add_because(r, &words, i);
    json_built(b, "because", &words);
    add(b, "}");
    drop(&words);
}

/* Whether it was cut. */
static bool add_steps(reason *r, buffer *b) {
    unsigned lines = 0;
    push(&r->left, 0, ROOT, 0);
    while (r->left.count > 0 && (r->desk->all || lines < LINES_SHOWN)) {
        step i = r->left.item[--r->left.count];
        if (r->desk->json)
            json_step(r, b, i, lines == 0);
        else
            text_step(r, b, i);
        lines++;
    }
    bool is_cut = r->left.count > 0;
    r->left.count = 0;
    return is_cut;
}

/* ---- A filter ------------------------------------------------------------------------ */

static int why_filter(reason *r, buffer *b, unsigned filter) {
    uint32_t id = filter_id(r->book->at, filter);
    bool proved = r->row[2] >> filter & 1;
    r->table = match(&r->tree, r->book->at + filter_start(r->book->at, filter),
                     filter_states(r->book->at, filter));
    bool rule = holds(r, ROOT, 0);
    if (r->desk->json) {
        add(b, "{\"filter\":%" PRIu32 ",\"proved\":%s,\"rule\":%s,\"steps\":[", id,
            proved ? "true" : "false", rule ? "true" : "false");
        bool is_cut = add_steps(r, b);
        add(b, "],\"cut\":%s}", is_cut ? "true" : "false");
    } else {
        add(b, "filter %" PRIu32 ": %s by the proved run, %s by the match rule\n", id,
            proved ? "true" : "not true", rule ? "true" : "not true");
        if (add_steps(r, b)) add(b, "  cut after %d lines; --all gives them all\n", LINES_SHOWN);
    }
    drop_table(&r->table);
    if (proved == rule) return DONE;
    return differ(r->desk,
                  "of filter %" PRIu32 " on message %u the proved run says %s, and the match "
                  "rule %s",
                  id, r->message + 1, proved ? "yes" : "no", rule ? "yes" : "no");
}

/* One filter, or each of the book's if `only` is negative. */
static int why_filters(reason *r, buffer *b, int only) {
    int status = DONE;
    unsigned first = only < 0 ? 0 : (unsigned)only;
    unsigned end = only < 0 ? two_bytes(r->book->at) : first + 1;
    for (unsigned k = first; k < end; k++) {
        if (r->desk->json && k > first) add(b, ",");
        int one = why_filter(r, b, k);
        if (one != DONE) status = one;
    }
    return status;
}

/* ---- A refused message ----------------------------------------------------------------- */

static void json_refused(reason *r, buffer *b) {
    buffer words = {0};
    json_field(b, "words", words_of(r->row[0]));
    add_refused_event(&words, r->desk, &r->tree);
    json_built(b, "event", &words);
    add_path(&words, r->desk, &r->tree, r->tree.at);
    json_built(b, "open", &words);
    json_field(b, "cause", r->tree.cause);
    add_allowed(&words, r->desk, &r->tree);
    json_built(b, "allowed", &words);
    drop(&words);
}

static void text_refused(reason *r, buffer *b) {
    add_message_verdict(b, r->day, r->message, r->row);
    add(b, "  the event there: ");
    add_refused_event(b, r->desk, &r->tree);
    add(b, "\n  open there: ");
    if (r->tree.open == 0)
        add(b, "nothing");
    else
        add_path(b, r->desk, &r->tree, r->tree.at);
    add(b, "\n  why: %s\n  here may stand: ", r->tree.cause);
    add_allowed(b, r->desk, &r->tree);
    add(b, "\n  a refused message matches no filter\n");
}

/* ---- The word ---------------------------------------------------------------------------- */

static int why_json(reason *r, buffer *b, int only) {
    add(b, "{\"message\":%u,\"refusal\":%" PRIu64 ",\"place\":%" PRIu64 ",\"byte\":%zu",
        r->message + 1, r->row[0], r->row[1], byte_of(r, (size_t)r->row[1]));
    if (r->row[0] != 0) json_refused(r, b);
    add(b, ",\"filters\":[");
    int status = r->row[0] != 0 ? DONE : why_filters(r, b, only);
    add(b, "]}\n");
    return status;
}

static int why_text(reason *r, buffer *b, int only) {
    if (r->row[0] != 0) {
        text_refused(r, b);
        return DONE;
    }
    add(b,
        "%s: message %u, from byte %zu on, is read; filters true by the proved run:", r->day->name,
        r->message + 1, byte_of(r, 0));
    add_ids(b, r->book, r->row[2], " ", " ");
    add(b, "%s\n", r->row[2] == 0 ? " none" : "");
    return why_filters(r, b, only);
}

/* The filter's place in the contents; -1 for each of them, -2 if there is none such. */
static int filter_place(const desk *d, const file *book) {
    uint64_t id;
    if (d->words < 4) return -1;
    if (!is_number(d->word[3], UINT64_MAX, &id)) return -2;
    for (unsigned k = 0; k < two_bytes(book->at); k++)
        if (filter_id(book->at, k) == id) return (int)k;
    return -2;
}

static int why_message(reason *r, int only) {
    buffer b = {0};
    r->tree = read_message(r->day->at + message_start(r->day->at, r->message),
                           message_bytes(r->day->at, r->message));
    int status = agree_on_message(r->desk, r->day, r->message, r->row, &r->tree);
    if (status == DONE) status = r->desk->json ? why_json(r, &b, only) : why_text(r, &b, only);
    put(r->desk, &b);
    drop(&b);
    drop_tree(&r->tree);
    free(r->left.item);
    return status;
}

static int why_files(desk *d, const file *book, const file *day) {
    uint64_t message;
    outcome o = proved_run(book, day, 0);
    fault own = book_fault(book->at, book->bytes);
    if (own.number == 0) own = day_fault(day->at, day->bytes);
    int status = agree(d, own.number <= 7 && own.number > 0 ? book : day, o.total.refusal, &own);
    if (status != DONE) return status;
    if (o.total.refusal != 0) return say_refused_run(d, book, day, o.total.refusal);
    if (!is_number(d->word[2], UINT32_MAX, &message) || message < 1 || message > o.messages)
        return fail(d, "%s is no message of %s, which has %u", d->word[2], day->name, o.messages);
    int only = filter_place(d, book);
    if (only == -2) return fail(d, "%s is no filter of %s", d->word[3], book->name);
    reason r = {.desk = d, .book = book, .day = day, .message = (unsigned)message - 1};
    r.row = o.answers + ESQ_ROW_NUMBERS * r.message;
    return why_message(&r, only);
}

int do_why(desk *d) {
    file book = {0}, day = {0};
    int status = read_book_and_day(d, &book, &day);
    if (status == DONE) status = why_files(d, &book, &day);
    free(book.at);
    free(day.at);
    return status;
}
