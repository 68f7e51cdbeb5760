/* How many slots are compared with a question, counted by walking the same
 * chains as crates/memory_index with the hash of crates/memory_hash, and what the worst costs. */
#include <stdio.h>
#include <stdlib.h>
#include <string.h>

#include "bench.h"

enum {
    HEADS = 8192,
    LEVELS = 65,
    LEAF = 1,
    KEY = ESQ_QUESTION_NUMBERS,
    COLLIDING_QUESTIONS = 20000
};

static uint64_t lane(uint64_t w, uint64_t a, uint64_t b) {
    return (uint64_t)(uint32_t)(w + a) * (uint32_t)((w >> 32) + b);
}

static unsigned hash(const uint64_t *q) {
    static const uint64_t moved[KEY][2] = {
        {2654435769, 1640531527}, {2246822519, 3266489917}, {668265263, 374761393},
        {3432918353, 461845907},  {2654435761, 3864292196}, {2127912214, 3345072700},
        {3042594569, 4251993797}, {1181783497, 2860486313}, {1540483477, 2971215073}};
    uint64_t s = 0;
    for (unsigned k = 0; k < KEY; k++) s ^= lane(q[k], moved[k][0], moved[k][1]);
    return (unsigned)(s >> 32) % HEADS;
}

/* The memory as a run fills it, its chains, and what was counted. */
typedef struct {
    uint64_t slot[ESQ_MOST_SLOTS][ESQ_SLOT_NUMBERS];
    unsigned head[HEADS], next[ESQ_MOST_SLOTS]; /* slots counted from 1 */
    size_t filled;
    uint64_t asked, anew, looks, most;
} chains;

/* Asks as the inner call does; an answer that is not kept comes from the library. */
static void ask(chains *c, const filter_book *book, const uint64_t *question, uint64_t *answer) {
    uint64_t looks = 0;
    unsigned h = hash(question), at = c->head[h];
    while (at != 0 && (looks++, memcmp(c->slot[at - 1], question, 8 * KEY) != 0))
        at = c->next[at - 1];
    c->asked++;
    c->looks += looks;
    if (looks > c->most) c->most = looks;
    if (at != 0) {
        memcpy(answer, c->slot[at - 1] + KEY, 8 * ESQ_ANSWER_NUMBERS);
        return;
    }
    c->anew++;
    esquirmell_ask(book->bytes, book->length, NULL, 0, 0, 0, question, KEY, answer,
                   ESQ_ANSWER_NUMBERS);
    if (c->filled < ESQ_MOST_SLOTS) {
        memcpy(c->slot[c->filled], question, 8 * KEY);
        memcpy(c->slot[c->filled] + KEY, answer, 8 * ESQ_ANSWER_NUMBERS);
        c->next[c->filled] = c->head[h];
        c->head[h] = (unsigned)++c->filled;
    }
}

/* Joins the LEAF states of a number; the made-up books have the relations = > <= >= only. */
static void join_leaves(const filter_book *book, long value, uint64_t *set) {
    const uint8_t *state = book->bytes + 2 + 8 * book->filters;
    for (unsigned k = 0; k < FILTER_STATES * book->filters; k++, state += 8) {
        long constant = state[4] | state[5] << 8;
        bool holds = state[1] == 1   ? value == constant
                     : state[1] == 5 ? value > constant
                     : state[1] == 4 ? value <= constant
                                     : value >= constant;
        if (state[0] == LEAF && holds) set[k / 64] |= UINT64_C(1) << k % 64;
    }
}

/* One message of a made-up day, which is never refused. */
static void walk(chains *c, const filter_book *book, const uint8_t *at, const uint8_t *end) {
    static uint64_t level[LEVELS][KEY];
    unsigned depth = 0;
    memset(level[0], 0, sizeof level[0]);
    while (at < end) {
        uint64_t answer[ESQ_ANSWER_NUMBERS];
        if (at[0] == 1) {
            memset(level[++depth], 0, sizeof level[0]);
            level[depth][8] = at[1] | at[2] << 8;
        } else if (at[0] == 2) {
            char words[256] = {0};
            memcpy(words, at + 2, at[1]);
            join_leaves(book, strtol(words, NULL, 10), level[depth]);
        } else {
            ask(c, book, level[depth--], answer);
            for (unsigned k = 0; k < ESQ_ANSWER_NUMBERS; k++) level[depth][k] |= answer[k];
        }
        at += at[0] == 2 ? 2 + (size_t)at[1] : 3;
    }
}

static uint32_t four(const uint8_t *at) {
    return at[0] | at[1] << 8 | at[2] << 16 | (uint32_t)at[3] << 24;
}

void report_looks(const filter_book *book, const day_file *day, lent_areas *lent) {
    chains *c = calloc(1, sizeof *c);
    if (c == NULL) exit(2);
    esq_total total = proved_run(book, day, ESQ_MOST_SLOTS, lent);
    for (unsigned k = 0; k < day->messages; k++) {
        const uint8_t *body = day->bytes + four(day->bytes + 2 + 8 * k);
        walk(c, book, body, body + four(day->bytes + 6 + 8 * k));
    }
    if (c->asked != total.asked || c->anew != total.anew || c->filled != total.filled ||
        memcmp(c->slot, lent->memory, c->filled * sizeof c->slot[0]) != 0) {
        fprintf(stderr, "bench: the walk over the chains differs from the run\n");
        exit(1);
    }
    printf("%7u %9llu %9llu %7zu %16.3f %16llu\n", book->filters, (unsigned long long)c->asked,
           (unsigned long long)c->anew, c->filled, (double)c->looks / (double)c->asked,
           (unsigned long long)c->most);
    free(c);
}

/* ---- The worst: every filled slot is in the chain of every question ---- */

/* 4,096 slots that share the head of the question (empty set, label 1) and differ
 * from it only in a set's last number, so that comparing takes longest. */
static void fill_colliding(uint64_t *memory) {
    uint64_t question[KEY] = {0, 0, 0, 0, 0, 0, 0, 0, 1};
    unsigned wanted = hash(question);
    for (size_t filled = 0; filled < ESQ_MOST_SLOTS;) {
        question[7]++;
        if (hash(question) != wanted) continue;
        memset(memory + ESQ_SLOT_NUMBERS * filled, 0, 8 * ESQ_SLOT_NUMBERS);
        memcpy(memory + ESQ_SLOT_NUMBERS * filled++, question, sizeof question);
    }
}

/* A day of one message: a top element 1 with so many empty elements 1, or no message. */
static size_t day_of_ones(uint8_t *day, unsigned inner) {
    static const uint8_t start[3] = {1, 1, 0}, end[3] = {3, 1, 0};
    uint32_t length = 6 + 6 * inner;
    const uint8_t head[10] = {
        1, 0, 10, 0, 0, 0, (uint8_t)length, (uint8_t)(length >> 8), (uint8_t)(length >> 16), 0};
    memcpy(day, head, sizeof head);
    memcpy(day + 10, start, 3);
    for (unsigned k = 0; k < inner; k++) {
        memcpy(day + 13 + 6 * k, start, 3);
        memcpy(day + 16 + 6 * k, end, 3);
    }
    memcpy(day + 13 + 6 * inner, end, 3);
    return 10 + (size_t)length;
}

static double timed_pass(const uint8_t *day, size_t bytes, lent_areas *lent, size_t filled) {
    static const uint8_t no_filters[2] = {0, 0};
    double before = seconds();
    esquirmell_pass(no_filters, 2, day, bytes, lent->memory, ESQ_SLOT_NUMBERS * filled,
                    lent->answers, ESQ_ROW_NUMBERS * ESQ_MOST_MESSAGES, lent->workspace,
                    ESQ_WORKSPACE_NUMBERS, 0, 0, filled);
    return seconds() - before;
}

void report_collisions(lent_areas *lent) {
    static uint8_t day[DAY_ROOM];
    size_t bytes = day_of_ones(day, COLLIDING_QUESTIONS - 1);
    fill_colliding(lent->memory);
    double none = timed_pass(day, bytes, lent, 0);
    double all = timed_pass(day, bytes, lent, ESQ_MOST_SLOTS);
    bytes = day_of_ones(day, 0);
    double making = timed_pass(day, bytes, lent, ESQ_MOST_SLOTS);
    double each = (all - making - none) / COLLIDING_QUESTIONS;
    printf("%d questions, a book of no filters: with no slot filled %.1f ns a question; with 4,096 "
           "slots filled that all\n"
           "share its chain and differ in the eighth number, %.1f microseconds more, %.2f ns a "
           "look. Making the index\n"
           "of those 4,096 slots, which a pass does first, took %.1f ms.\n",
           COLLIDING_QUESTIONS, 1e9 * none / COLLIDING_QUESTIONS, 1e6 * each,
           1e9 * each / ESQ_MOST_SLOTS, 1e3 * making);
}
