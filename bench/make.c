/* Made-up railway days and filter books. A message is written twice at once, as
 * events and as XML text, and a filter as states and as XPath, so that engines
 * of both kinds get the same work. */
#include <stdio.h>
#include <string.h>

#include "bench.h"

enum {
    SERVICE = 1,
    CALL = 2,
    LATE = 3,
    PLATFORM = 4,
    CANCELLED = 5,
    DAY = 32772,
    NUMBER = 32773,
    STATION = 32774
};
enum { TRUE_KIND, LEAF, AND, OR, NOT, STEP };
enum { EQUAL = 1, AT_MOST = 4, OVER = 5, AT_LEAST = 6 };
enum { STATIONS = 40, MESSAGE_ROOM = 1024 };

static uint64_t dice;

static unsigned below(unsigned end) {
    dice += UINT64_C(0x9E3779B97F4A7C15);
    uint64_t x = dice;
    x = (x ^ x >> 30) * UINT64_C(0xBF58476D1CE4E5B9);
    x = (x ^ x >> 27) * UINT64_C(0x94D049BB133111EB);
    return (unsigned)((x ^ x >> 31) % end);
}

static void put2(uint8_t *at, unsigned number) {
    at[0] = (uint8_t)number;
    at[1] = (uint8_t)(number >> 8);
}

static void put4(uint8_t *at, uint32_t number) {
    put2(at, number & 65535);
    put2(at + 2, number >> 16);
}

/* ---- Messages ---- */

typedef struct {
    uint8_t body[MESSAGE_ROOM];
    size_t length;
    char xml[4 * MESSAGE_ROOM];
    size_t xml_length;
} message;

static void event(message *m, unsigned kind, unsigned label) {
    m->body[m->length] = (uint8_t)kind;
    put2(m->body + m->length + 1, label);
    m->length += 3;
}

static void text_event(message *m, const char *words) {
    size_t length = strlen(words);
    m->body[m->length] = 2;
    m->body[m->length + 1] = (uint8_t)length;
    memcpy(m->body + m->length + 2, words, length);
    m->length += 2 + length;
}

static void xml(message *m, const char *words) {
    size_t length = strlen(words);
    memcpy(m->xml + m->xml_length, words, length);
    m->xml_length += length;
}

/* `before` and `after` are what stands around the number in XML. */
static void number_node(message *m, unsigned label, int number, const char *before,
                        const char *after) {
    char words[16];
    snprintf(words, sizeof words, "%d", number);
    event(m, 1, label);
    text_event(m, words);
    event(m, 3, label);
    xml(m, before);
    xml(m, words);
    xml(m, after);
}

static void make_call(message *m) {
    event(m, 1, CALL);
    number_node(m, STATION, (int)below(STATIONS), "<call station=\"", "\">");
    number_node(m, LATE, below(2) == 0 ? (int)below(60) : (int)below(6) - 2, "<late>", "</late>");
    number_node(m, PLATFORM, 1 + (int)below(12), "<platform>", "</platform>");
    if (below(20) == 0) {
        event(m, 1, CANCELLED);
        event(m, 3, CANCELLED);
        xml(m, "<cancelled/>");
    }
    event(m, 3, CALL);
    xml(m, "</call>");
}

static void make_message(message *m) {
    m->length = m->xml_length = 0;
    event(m, 1, SERVICE);
    number_node(m, DAY, (int)below(7), "<service day=\"", "\"");
    number_node(m, NUMBER, 1000 + (int)below(9000), " number=\"", "\">");
    for (unsigned calls = 3 + below(8); calls > 0; calls--) make_call(m);
    event(m, 3, SERVICE);
    xml(m, "</service>");
}

/* As many messages as fit, at most so many. Bodies are made first, behind room
 * for the longest table, and moved up to the table that is needed. */
void make_day(day_file *day, unsigned most_messages, uint64_t seed) {
    static uint8_t bodies[DAY_ROOM];
    static size_t start[ESQ_MOST_MESSAGES + 1];
    static message m;
    unsigned n = 0;
    dice = seed;
    day->xml_start[0] = 0;
    while (n < most_messages) {
        make_message(&m);
        if (2 + 8 * ((size_t)n + 1) + start[n] + m.length > DAY_ROOM) break;
        memcpy(bodies + start[n], m.body, m.length);
        memcpy(day->xml + day->xml_start[n], m.xml, m.xml_length);
        n++;
        start[n] = start[n - 1] + m.length;
        day->xml_start[n] = day->xml_start[n - 1] + m.xml_length;
    }
    put2(day->bytes, n);
    for (unsigned k = 0; k < n; k++) {
        put4(day->bytes + 2 + 8 * k, (uint32_t)(2 + 8 * n + start[k]));
        put4(day->bytes + 6 + 8 * k, (uint32_t)(start[k + 1] - start[k]));
    }
    memcpy(day->bytes + 2 + 8 * n, bodies, start[n]);
    day->messages = n;
    day->length = 2 + 8 * (size_t)n + start[n];
}

/* Every text becomes one that is no number, of the same length. */
void spoil_numbers(day_file *day) {
    uint8_t *at = day->bytes + 2 + 8 * day->messages, *end = day->bytes + day->length;
    for (; at < end; at += at[0] == 2 ? 2 + (size_t)at[1] : 3)
        if (at[0] == 2) at[2] = 'x';
}

/* ---- Books ---- */

/* A state's row: AND, OR and NOT have their successors in a and b, a STEP its
 * label and successor, a LEAF its relation and constant. */
static void row(uint8_t *body, unsigned k, unsigned kind, unsigned a, unsigned b) {
    uint8_t *at = body + 8 * k;
    memset(at, 0, 8);
    at[0] = (uint8_t)kind;
    if (kind == LEAF) {
        at[1] = (uint8_t)a;
        put4(at + 4, b);
    } else {
        put2(at + 2, a);
        put2(at + 4, b);
    }
}

/* A day on which no call is late by more than so much. */
static void on_time(uint8_t *body, char *xpath, unsigned day, unsigned late) {
    row(body, 0, STEP, SERVICE, 1);
    row(body, 1, AND, 2, 3);
    row(body, 2, STEP, DAY, 6);
    row(body, 3, NOT, 4, 0);
    row(body, 4, STEP, CALL, 5);
    row(body, 5, STEP, LATE, 7);
    row(body, 6, LEAF, EQUAL, day);
    row(body, 7, LEAF, OVER, late);
    snprintf(xpath, 128, "boolean(/service[@day=%u and not(call/late>%u)])", day, late);
}

/* A call anywhere at this station that is late by so much. */
static void late_at(uint8_t *body, char *xpath, unsigned station, unsigned late) {
    row(body, 0, OR, 1, 2);
    row(body, 1, STEP, 0, 0);
    row(body, 2, STEP, CALL, 3);
    row(body, 3, AND, 4, 5);
    row(body, 4, STEP, STATION, 6);
    row(body, 5, STEP, LATE, 7);
    row(body, 6, LEAF, EQUAL, station);
    row(body, 7, LEAF, AT_LEAST, late);
    snprintf(xpath, 128, "boolean(//call[@station=%u and late>=%u])", station, late);
}

/* Anything in a service at this platform that is not at most so late. */
static void late_on(uint8_t *body, char *xpath, unsigned platform, unsigned late) {
    row(body, 0, STEP, SERVICE, 1);
    row(body, 1, STEP, 0, 2);
    row(body, 2, AND, 3, 4);
    row(body, 3, STEP, PLATFORM, 6);
    row(body, 4, NOT, 5, 0);
    row(body, 5, STEP, LATE, 7);
    row(body, 6, LEAF, EQUAL, platform);
    row(body, 7, LEAF, AT_MOST, late);
    snprintf(xpath, 128, "boolean(/service/*[platform=%u and not(late<=%u)])", platform, late);
}

void make_book(filter_book *book, unsigned filters, uint64_t seed) {
    dice = seed;
    book->filters = filters;
    put2(book->bytes, filters);
    for (unsigned k = 0; k < filters; k++) {
        size_t start = 2 + 8 * filters + 8 * FILTER_STATES * k;
        uint8_t *body = book->bytes + start;
        put4(book->bytes + 2 + 8 * k, 10 * (k + 1));
        put2(book->bytes + 6 + 8 * k, (unsigned)start);
        put2(book->bytes + 8 + 8 * k, FILTER_STATES);
        if (k % 3 == 0)
            late_on(body, book->xpath[k], 1 + below(12), below(30));
        else if (k % 3 == 1)
            late_at(body, book->xpath[k], below(STATIONS), below(30));
        else
            on_time(body, book->xpath[k], below(7), below(30));
    }
    book->length = 2 + (size_t)filters * (8 + 8 * FILTER_STATES);
}

/* A state moved up in its body: its successors move with it. */
static void move_up(uint8_t *state, unsigned by) {
    unsigned first = state[2] | state[3] << 8, second = state[4] | state[5] << 8;
    if (state[0] == AND || state[0] == OR || state[0] == NOT) put2(state + 2, first + by);
    if (state[0] == AND || state[0] == OR || state[0] == STEP) put2(state + 4, second + by);
}

/* The same states as one filter: the first, with the others in its body. */
void join_filters(filter_book *book) {
    unsigned states = FILTER_STATES * book->filters;
    memmove(book->bytes + 10, book->bytes + 2 + 8 * book->filters, 8 * states);
    for (unsigned k = FILTER_STATES; k < states; k++)
        move_up(book->bytes + 10 + 8 * k, k / FILTER_STATES * FILTER_STATES);
    put2(book->bytes, 1);
    put2(book->bytes + 6, 10);
    put2(book->bytes + 8, states);
    book->filters = 1;
    book->length = 10 + 8 * (size_t)states;
}
