/* A message as a tree, read event by event; where it is refused, why, and what
 * may stand there. See command.h; docs/RULES.md has the rules of a message. */
#include <stdlib.h>
#include <string.h>

#include "command.h"

enum { START = 1, TEXT, END, BYTES_SHOWN = 8 };

bool is_attribute(unsigned label) { return label > ANY_ATTRIBUTE; }

/* The length of the event at this place, were it whole; 0 if its kind is none. */
static size_t wanted_bytes(const uint8_t *at, size_t left) {
    if (at[0] == START || at[0] == END) return 3;
    if (at[0] != TEXT) return 0;
    return left < 2 ? 2 : 2 + (size_t)at[1];
}

size_t event_bytes(const uint8_t *at, size_t left) {
    size_t wanted = left == 0 ? 0 : wanted_bytes(at, left);
    return wanted <= left ? wanted : 0;
}

/* ---- Values ---------------------------------------------------------------- */

static bool is_stripped(uint8_t c) { return c == ' ' || c == '\t' || c == '\r' || c == '\n'; }

/* How many bytes are left without the blanks at the end. */
static size_t without_last(const uint8_t *text, size_t bytes) {
    while (bytes > 0 && is_stripped(text[bytes - 1])) bytes--;
    return bytes;
}

/* How many blanks there are at the start. */
static size_t first_blanks(const uint8_t *text, size_t bytes) {
    size_t count = 0;
    while (count < bytes && is_stripped(text[count])) count++;
    return count;
}

/* A number that is out of range stays so, whatever digits follow. */
static enum value_kind value_of(const uint8_t *text, size_t bytes, int64_t *number) {
    size_t end = without_last(text, bytes), at = first_blanks(text, end);
    int sign = at < end && text[at] == '-' ? -1 : 1;
    if (sign < 0) at++;
    bool has_digit = at < end;
    for (*number = 0; at < end && text[at] >= '0' && text[at] <= '9'; at++)
        if (*number >= INT32_MIN && *number <= INT32_MAX)
            *number = 10 * *number + sign * (text[at] - '0');
    if (!has_digit || at < end) return NO_NUMBER;
    return *number < INT32_MIN || *number > INT32_MAX ? OUT_OF_RANGE : NUMBER;
}

/* ---- Events ----------------------------------------------------------------- */

static bool refuse(tree *t, unsigned refusal, const char *cause) {
    t->refusal = refusal;
    t->cause = cause;
    return false;
}

/* Why a start with this label may not stand here, or null. */
static const char *start_astray(const tree *t, unsigned label) {
    const node *in = &t->node[t->at];
    if (t->open == 0) {
        if (is_attribute(label)) return "an attribute with no element open";
        return in->has_child ? "a second top element" : NULL;
    }
    if (is_attribute(in->label)) return "a start inside an attribute";
    if (in->value != NO_TEXT)
        return is_attribute(label) ? "an attribute after the text of its element"
                                   : "a child element after a text";
    return is_attribute(label) && in->has_child ? "an attribute after a child element" : NULL;
}

static bool open_node(tree *t, unsigned label) {
    uint32_t new = t->nodes++;
    node *parent = &t->node[t->at];
    t->node[new] = (node){.label = label, .parent = t->at, .place = t->place};
    if (parent->last == NONE)
        parent->first = new;
    else
        t->node[parent->last].next = new;
    parent->last = new;
    parent->has_child |= !is_attribute(label);
    t->at = new;
    t->open++;
    return true;
}

static bool take_start(tree *t, unsigned label) {
    if (label == ANY_ELEMENT || label == ANY_ATTRIBUTE)
        return refuse(t, 23, "no node has this label; in a STEP it means any");
    const char *astray = start_astray(t, label);
    if (astray != NULL) return refuse(t, 24, astray);
    if (t->open == MOST_OPEN) return refuse(t, 25, "64 starts are open, attributes counted");
    return open_node(t, label);
}

static bool take_text(tree *t, size_t bytes) {
    node *in = &t->node[t->at];
    if (t->open == 0) return refuse(t, 26, "a text with nothing open");
    if (in->value != NO_TEXT) return refuse(t, 26, "a second text");
    if (in->has_child) return refuse(t, 26, "a text after a child element");
    in->text = t->place + 2;
    in->text_bytes = (unsigned)bytes;
    in->value = value_of(t->body + in->text, bytes, &in->number);
    if (in->value == OUT_OF_RANGE)
        return refuse(t, 27, "a value lies from -2,147,483,648 to 2,147,483,647");
    return true;
}

static bool take_end(tree *t, unsigned label) {
    if (t->open == 0) return refuse(t, 28, "an end with nothing open");
    if (t->node[t->at].label != label)
        return refuse(t, 28, "an end with another label than that of the innermost open start");
    t->at = t->node[t->at].parent;
    t->open--;
    return true;
}

/* Takes the event at this place; false if it is refused. */
static bool take_event(tree *t) {
    const uint8_t *at = t->body + t->place;
    size_t left = t->bytes - t->place, wanted = wanted_bytes(at, left);
    if (wanted == 0) return refuse(t, 21, "the first byte of an event is 1, 2 or 3");
    if (wanted > left)
        return refuse(t, 22,
                      at[0] == TEXT && left < 2 ? "a text without its length byte"
                      : at[0] == TEXT           ? "a text longer than what is left"
                                                : "a start or an end takes 3 bytes");
    bool is_taken = at[0] == START  ? take_start(t, two_bytes(at + 1))
                    : at[0] == TEXT ? take_text(t, at[1])
                                    : take_end(t, two_bytes(at + 1));
    if (is_taken) t->place += wanted;
    return is_taken;
}

/* ---- The tree --------------------------------------------------------------- */

/* Numbers the children of a node among those with the same label. */
static void number_children(tree *t, uint32_t parent, uint32_t *count) {
    uint32_t first = t->node[parent].first;
    for (uint32_t c = first; c != NONE; c = t->node[c].next)
        t->node[c].rank = ++count[t->node[c].label];
    for (uint32_t c = first; c != NONE; c = t->node[c].next)
        t->node[c].alike = count[t->node[c].label];
    for (uint32_t c = first; c != NONE; c = t->node[c].next) count[t->node[c].label] = 0;
}

tree read_message(const uint8_t *body, size_t bytes) {
    tree t = {.body = body, .bytes = bytes, .nodes = 1};
    uint32_t *count = must(calloc(LABELS, sizeof *count));
    t.node = must(calloc(bytes / 3 + 1, sizeof *t.node)); /* a start takes 3 bytes */
    bool goes_on = true;
    while (goes_on && t.place < bytes) goes_on = take_event(&t);
    if (goes_on && t.open > 0) refuse(&t, 29, "the top element is still open");
    if (goes_on && t.nodes == 1) refuse(&t, 29, "the top element never came");
    for (uint32_t k = 0; k < t.nodes; k++) number_children(&t, k, count);
    free(count);
    return t;
}

void drop_tree(tree *t) { free(t->node); }

/* A path from the root: a rank stands where several children have the label. */
void add_path(buffer *b, const desk *d, const tree *t, uint32_t at) {
    uint32_t way[MOST_OPEN + 1];
    unsigned steps = 0;
    for (; at != ROOT; at = t->node[at].parent) way[steps++] = at;
    if (steps == 0) add(b, "/");
    while (steps-- > 0) {
        const node *n = &t->node[way[steps]];
        add(b, "/");
        if (is_attribute(n->label) && (d->name == NULL || d->name[n->label] == NULL)) add(b, "@");
        add_label(b, d, n->label);
        if (n->alike > 1) add(b, "[%u]", n->rank);
    }
}

/* ---- Events in words ----------------------------------------------------------- */

/* In the words of the text form; bytes that are no whole event as they are. */
void add_event(buffer *b, const desk *d, const uint8_t *at, size_t bytes, bool is_whole) {
    if (!is_whole) {
        add(b, "bytes ");
        add_hex(b, at, bytes);
    } else if (at[0] == TEXT) {
        add(b, "text ");
        add_quoted(b, at + 2, bytes - 2);
    } else {
        add(b, at[0] == START ? "start " : "end ");
        add_label(b, d, two_bytes(at + 1));
    }
}

void add_refused_event(buffer *b, const desk *d, const tree *t) {
    const uint8_t *at = t->body + t->place;
    size_t left = t->bytes - t->place, bytes = event_bytes(at, left);
    if (left == 0)
        add(b, "the end of the message");
    else if (bytes > 0)
        add_event(b, d, at, bytes, true);
    else
        add_event(b, d, at, left < BYTES_SHOWN ? left : BYTES_SHOWN, false);
}

/* ---- What may stand there ----------------------------------------------------- */

void add_allowed(buffer *b, const desk *d, const tree *t) {
    const node *in = &t->node[t->at];
    bool in_attribute = t->open > 0 && is_attribute(in->label);
    bool may_start = t->open > 0 && !in_attribute && in->value == NO_TEXT && t->open < MOST_OPEN;
    if (t->open == 0) {
        add(b, in->has_child ? "nothing: the message ends here" : "the start of the top element");
        return;
    }
    if (may_start && !in->has_child) add(b, "the start of an attribute, ");
    if (may_start) add(b, "the start of a child element, ");
    if (in->value == NO_TEXT && !in->has_child) add(b, "a text, ");
    add(b, "the end of ");
    add_label(b, d, in->label);
}
