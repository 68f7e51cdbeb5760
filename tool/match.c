/* The match rule on a message's tree, for one filter. See command.h; docs/RULES.md
 * says the rule kind by kind. The proved engine works otherwise, from the ends of
 * a message's nodes up and with kept answers, so that agreement says something. */
#include <stdlib.h>

#include "command.h"

static size_t width(const table *m) { return (m->states + 7) / 8; }

bool has_bit(const table *m, const uint8_t *bits, uint32_t at, unsigned k) {
    return bits[at * width(m) + k / 8] >> k % 8 & 1;
}

void set_bit(const table *m, uint8_t *bits, uint32_t at, unsigned k) {
    bits[at * width(m) + k / 8] |= (uint8_t)(1 << k % 8);
}

bool label_fits(unsigned wanted, unsigned label) {
    if (wanted == ANY_ELEMENT) return !is_attribute(label);
    return wanted == ANY_ATTRIBUTE ? is_attribute(label) : wanted == label;
}

bool in_relation(int64_t value, unsigned relation, int64_t constant) {
    switch (relation) {
    case 1: return value == constant;
    case 2: return value != constant;
    case 3: return value < constant;
    case 4: return value <= constant;
    case 5: return value > constant;
    default: return value >= constant;
    }
}

static bool some_child(const table *m, uint32_t at, state s) {
    const node *all = m->tree->node;
    for (uint32_t c = all[at].first; c != NONE; c = all[c].next)
        if (label_fits(s.label, all[c].label) && has_bit(m, m->holds, c, s.first)) return true;
    return false;
}

static bool matches(const table *m, uint32_t at, state s) {
    const node *n = &m->tree->node[at];
    switch (s.kind) {
    case TRUE_KIND: return true;
    case LEAF_KIND: return n->value == NUMBER && in_relation(n->number, s.relation, s.constant);
    case AND_KIND: return has_bit(m, m->holds, at, s.first) && has_bit(m, m->holds, at, s.second);
    case OR_KIND: return has_bit(m, m->holds, at, s.first) || has_bit(m, m->holds, at, s.second);
    case NOT_KIND: return !has_bit(m, m->holds, at, s.first);
    default: return some_child(m, at, s);
    }
}

/* Children come after their parent and successors of AND, OR and NOT are higher,
 * so what a state asks for is known when it is asked. */
table match(const tree *t, const uint8_t *body, unsigned states) {
    table m = {.tree = t, .body = body, .states = states};
    m.holds = must(calloc(t->nodes, width(&m)));
    m.said = must(calloc(t->nodes, width(&m)));
    for (uint32_t at = t->nodes; at-- > 0;)
        for (unsigned k = states; k-- > 0;)
            if (matches(&m, at, state_at(body + 8 * k))) set_bit(&m, m.holds, at, k);
    return m;
}

void drop_table(table *m) {
    free(m->holds);
    free(m->said);
}
