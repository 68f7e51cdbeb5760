/* Parts of the comparison: damage, refusals and limits. */
#include "parts.h"

#include <stdlib.h>
#include <string.h>

/* ---- Damage byte by byte ------------------------------------------------------- */

static void each_byte(bytes *b) {
    static const uint8_t value[] = {0, 1, 2, 3, 4, 5, 6, 7, 9, 128, 255};
    for (size_t at = 0; at < b->len; at++) {
        uint8_t was = b->at[at];
        for (unsigned i = 0; i < sizeof value; i++) {
            b->at[at] = value[i];
            check(&now);
        }
        for (unsigned bit = 0; bit < 8; bit += percent == 100 ? 1 : 7) {
            b->at[at] = (uint8_t)(was ^ 1u << bit);
            check(&now);
        }
        b->at[at] = was;
    }
    for (size_t whole = b->len; b->len > 0;) {
        b->len--;
        check(&now);
        if (b->len == 0) {
            b->len = whole;
            break;
        }
    }
}

void part_damage(void) {
    begin(PART_DAMAGE);
    small_book(&book);
    small_day(&day);
    plans_to_case();
    now.memory = 1088;
    now.answers = 40;
    each_byte(&now.book);
    each_byte(&now.day);
    for (unsigned i = times(15000); i > 0; i--) {
        make_book(&luck, &book);
        make_day(&luck, &day, from_to(&luck, 1, 4));
        plans_to_case();
        if (chance(&luck, 50))
            damage(&luck, &now.book, 0);
        else
            damage(&luck, &now.day, 0);
        if (now.answers < 30) now.answers = 30;
        check(&now);
    }
}

/* ---- Refusals alone and together ----------------------------------------------- */

enum { ENTRY_14 = 14, ENTRY_18 = 18, ENTRY_19 = 19 };

static void spoil_entry(unsigned refusal) {
    if (refusal == ENTRY_18) {
        if (chance(&luck, 50))
            now.question_len = chance(&luck, 50) ? from_to(&luck, 0, 8) : 10;
        else
            now.answer_len = chance(&luck, 50) ? from_to(&luck, 0, 7) : 9;
        return;
    }
    if (refusal == ENTRY_14) {
        uint64_t slots = now.memory / SLOT_NUMBERS;
        if (slots > SLOTS_AT_MOST) slots = SLOTS_AT_MOST;
        now.filled = slots + 1 + (chance(&luck, 50) ? 0 : roll(&luck) >> 2);
        return;
    }
    uint64_t end = (UINT64_C(1) << 63) + (chance(&luck, 50) ? 0 : roll(&luck) >> 1);
    if (now.call == CALL_PASS && chance(&luck, 50))
        now.asked = end;
    else
        now.anew = end;
}

static bool in(uint32_t set, unsigned refusal) { return set >> refusal & 1; }

static unsigned just_less_or_less(unsigned than) {
    return chance(&luck, 50) ? than - 1 : below(&luck, than);
}

/* A case with exactly these things wrong. What could undo another is done first. */
static void make_refused(enum call call, uint32_t set) {
    static const unsigned order[] = {2, 7, 6, 3, 4, 5, 1};
    do make_book(&luck, &book);
    while (book.filters < 3 || book.states > 400);
    make_day(&luck, &day, from_to(&luck, 1, 3));
    for (unsigned i = 0; i < 7; i++)
        if (in(set, order[i])) spoil_book(&luck, &book, order[i]);
    if (in(set, 9)) spoil_day(&luck, &day, 9);
    if (in(set, 10)) spoil_day(&luck, &day, 10);
    if (in(set, 8)) spoil_day(&luck, &day, 8);
    plans_to_case();
    if (now.day.len < 2) now.answers = 20;
    now.call = call;
    now.question_len = QUESTION_NUMBERS;
    now.answer_len = SET_NUMBERS;
    for (unsigned i = 0; i < FEW; i++) now.question[i] = roll(&luck);
    if (in(set, 11)) now.answers = just_less_or_less(3 * day.messages);
    if (in(set, 12)) now.workspace = just_less_or_less(LEVEL_NUMBERS);
    if (in(set, ENTRY_14)) spoil_entry(ENTRY_14);
    if (in(set, ENTRY_18)) spoil_entry(ENTRY_18);
    if (in(set, ENTRY_19)) spoil_entry(ENTRY_19);
}

void part_refusals(void) {
    begin(PART_REFUSALS);
    /* A call's numbers in the order of its checks. */
    static const struct {
        enum call call;
        unsigned count, number[14];
    } gives[] = {{CALL_RUN, 12, {1, 2, 3, 4, 5, 6, 7, 8, 9, 10, 11, 12}},
                 {CALL_PASS, 14, {1, 2, 3, 4, 5, 6, 7, 8, 9, 10, 11, 12, 14, 19}},
                 {CALL_ASK, 10, {1, 2, 3, 4, 5, 6, 7, 18, 14, 19}}};
    for (unsigned g = 0; g < 3; g++)
        for (unsigned i = 0; i < gives[g].count; i++)
            for (unsigned k = i; k < gives[g].count; k++)
                for (unsigned n = times(i == k ? 200 : 32); n > 0; n--) {
                    unsigned first = gives[g].number[i], later = gives[g].number[k];
                    make_refused(gives[g].call, UINT32_C(1) << first | UINT32_C(1) << later);
                    check_gives(&now, first);
                }
    for (unsigned n = times(3000); n > 0; n--) {
        unsigned g = below(&luck, 3), first = 0;
        uint32_t set = 0;
        for (unsigned i = gives[g].count; i-- > 0;)
            if (chance(&luck, 30)) {
                first = gives[g].number[i];
                set |= UINT32_C(1) << first;
            }
        make_refused(gives[g].call, set);
        check_gives(&now, first);
    }
}

/* ---- Message refusals at many places ------------------------------------------- */

/* One event, whole or cut short, that may be refused where it is put. */
static void add_probe(bytes *out, unsigned which) {
    static const unsigned label[] = {0, 1, 2, 3, 32767, 32768, 32769, 32772, 65535};
    static const char *const text[] = {
        "",           "6",           "x",           "2147483647",
        "2147483648", "-2147483648", "-2147483649", "99999999999999999999",
        " 7\r\n"};
    static const unsigned kind[] = {0, 4, 5, 128, 255};
    if (which < 9) {
        add_start(out, label[which]);
    } else if (which < 18) {
        add_end(out, label[which - 9]);
    } else if (which < 27) {
        add_text(out, text[which - 18], strlen(text[which - 18]));
    } else if (which < 32) {
        add_byte(out, kind[which - 27]);
    } else if (which < 35) {
        add_byte(out, which - 31);
    } else if (which < 37) {
        add_byte(out, which == 35 ? 1 : 3);
        add_byte(out, 1);
    } else {
        add_byte(out, 2);
        add_byte(out, 255);
        for (unsigned i = which - 37; i > 0; i--) add_byte(out, '0');
    }
}
enum { PROBES = 40 };

/* Every probe after every beginning of the message, and the rest of it after that. */
static void probe_message(const bytes *m, bool rest) {
    new_day(&day);
    for (size_t at = 0;; at += event_size(m->at + at, m->len - at)) {
        for (unsigned which = 0; which < PROBES; which++) {
            add_bytes(&day.bodies, m->at, at);
            add_probe(&day.bodies, which);
            if (rest) add_bytes(&day.bodies, m->at + at, m->len - at);
            end_message(&day);
        }
        if (day.messages > 300) check_day();
        if (at >= m->len) break;
    }
    check_day();
}

/* Elements inside elements, to this many open starts; there a text, an attribute
 * as the innermost, or a closed child comes before, and then every probe. */
enum inside { BARE, AFTER_TEXT, IN_ATTRIBUTE, AFTER_CHILD, INSIDES };

static void probe_depth(unsigned depth, enum inside inside) {
    bytes m = {0};
    unsigned elements = inside == IN_ATTRIBUTE ? depth - 1 : depth;
    for (unsigned i = 0; i < elements; i++) add_start(&m, 1 + i % 3);
    if (inside == AFTER_TEXT) add_text(&m, "7", 1);
    if (inside == IN_ATTRIBUTE) add_start(&m, 32772);
    if (inside == AFTER_CHILD) {
        add_start(&m, 2);
        add_end(&m, 2);
    }
    new_day(&day);
    for (unsigned which = 0; which < PROBES; which++) {
        add_bytes(&day.bodies, m.at, m.len);
        add_probe(&day.bodies, which);
        end_message(&day);
    }
    check_day();
    free(m.at);
}

void part_messages(void) {
    begin(PART_MESSAGES);
    static const unsigned depth[] = {0, 1, 2, 3, 9, 30, 62, 63, 64};
    static message_plan plan;
    bytes m = {0};
    small_book(&book);
    small_day(&day);
    add_bytes(&m, day.bodies.at, day.length[0]);
    probe_message(&m, false);
    probe_message(&m, true);
    for (unsigned i = 0; i < sizeof depth / sizeof depth[0]; i++)
        for (int inside = BARE; inside < INSIDES; inside++)
            if (depth[i] > 0 || inside == BARE) probe_depth(depth[i], (enum inside)inside);
    for (unsigned i = times(200); i > 0; i--) {
        make_book(&luck, &book);
        m.len = 0;
        make_message(&luck, &plan);
        write_message(&plan, &m, NULL);
        if (m.len < 200) probe_message(&m, chance(&luck, 50));
    }
    for (unsigned i = times(800); i > 0; i--) {
        new_day(&day);
        for (unsigned k = 0; k < 30; k++) {
            for (unsigned events = below(&luck, 12); events > 0; events--)
                add_probe(&day.bodies, below(&luck, chance(&luck, 80) ? 27 : PROBES));
            end_message(&day);
        }
        check_day();
    }
    free(m.at);
}

/* ---- Both sides of each limit -------------------------------------------------- */

static void limit_books(void) {
    for (unsigned filters = 63; filters <= 66; filters++) {
        fill_book(&luck, &book, filters, filters);
        make_day(&luck, &day, 3);
        plans_to_case();
        check_gives(&now, filters <= 64 ? 0 : 2);
    }
    for (unsigned states = 510; states <= 515; states++)
        for (unsigned filters = 1; filters <= 64; filters += filters < 4 ? 1 : filters) {
            fill_book(&luck, &book, filters, states);
            make_day(&luck, &day, 3);
            plans_to_case();
            check_gives(&now, states <= 512 ? 0 : 4);
        }
    /* Counts whose sum leaves 16 bits; and F as high as it can be written. */
    fill_book(&luck, &book, 64, 64);
    for (unsigned i = 0; i < 3; i++) {
        plans_to_case();
        now.book.at[2 + 8 * 5 + 6] = now.book.at[2 + 8 * 5 + 7] = 255;
        now.book.at[2 + 8 * (6 + i) + 6] = (uint8_t)(2 + i);
        check_gives(&now, 4);
    }
    plans_to_case();
    now.book.at[0] = now.book.at[1] = 255;
    check_gives(&now, 1);
    while (now.book.len < 2 + 8 * 65535) add_byte(&now.book, 0);
    check_gives(&now, 2);
    now.book.len--;
    check_gives(&now, 1);
}

static void limit_messages(void) {
    small_book(&book);
    for (unsigned messages = 4095; messages <= 4098; messages++) {
        new_day(&day);
        while (day.messages < messages) {
            if (day.messages % 7 == 0)
                add_service(&day, true, 1, "7", NULL);
            else
                end_message(&day);
        }
        plans_to_case();
        check_gives(&now, messages <= 4096 ? 0 : 9);
        uint64_t want = now.answers = 3 * (uint64_t)messages;
        now.answers = want - 1;
        check_gives(&now, messages <= 4096 ? 11 : 9);
    }
    for (unsigned messages = 0; messages <= 3; messages++) {
        make_day(&luck, &day, messages);
        for (unsigned short_by = 0; short_by <= 3 * messages && short_by < 4; short_by++) {
            plans_to_case();
            now.answers = 3 * messages - short_by;
            check_gives(&now, short_by == 0 ? 0 : 11);
        }
        for (unsigned room = LEVEL_NUMBERS - 10; room <= LEVEL_NUMBERS + 10; room++) {
            plans_to_case();
            now.workspace = room;
            check_gives(&now, room < LEVEL_NUMBERS ? 12 : 0);
        }
    }
}

/* One message that fills a day file of this length with empty calls. */
static void day_of_length(size_t length) {
    size_t room = length - 10;
    new_day(&day);
    add_start(&day.bodies, 1);
    for (unsigned i = 0; i < 40; i++) add_call(&day, NULL);
    add_end(&day.bodies, 1);
    while (day.bodies.len < room) add_byte(&day.bodies, 2);
    end_message(&day);
}

static void limit_bytes(void) {
    small_book(&book);
    for (size_t length = DAY_AT_MOST - 1; length <= DAY_AT_MOST + 1; length++) {
        day_of_length(length);
        plans_to_case();
        check_gives(&now, length <= DAY_AT_MOST ? 0 : 8);
    }
    /* A table of contents alone that says too many, and is all there. */
    new_day(&day);
    plans_to_case();
    now.day.at[0] = now.day.at[1] = 255;
    check_gives(&now, 8);
    while (now.day.len < 2 + 8 * 65535) add_byte(&now.day, 0);
    check_gives(&now, 9);
    now.day.len--;
    check_gives(&now, 8);
    /* Starts and lengths whose sum leaves 32 bits. */
    new_day(&day);
    end_message(&day);
    end_message(&day);
    plans_to_case();
    memset(now.day.at + 6, 255, 4); /* the first length: one less than 2 to the 32 */
    now.day.at[10] = 17;            /* where the second would start in 32 bits */
    now.day.at[14] = 1;
    check_gives(&now, 10);
}

static void deep_message(unsigned elements, bool attribute, bool closed) {
    for (unsigned i = 0; i < elements; i++) add_start(&day.bodies, 1 + i % 3);
    if (attribute) {
        add_start(&day.bodies, 32772);
        add_text(&day.bodies, "6", 1);
        add_end(&day.bodies, 32772);
    }
    if (closed)
        for (unsigned i = elements; i-- > 0;) add_end(&day.bodies, 1 + i % 3);
    end_message(&day);
}

static void limit_depth(void) {
    static const struct {
        unsigned elements;
        bool attribute, closed;
        unsigned refusal, place;
    } deep[] = {{64, false, true, 0, 0},    {65, false, true, 25, 192}, {63, true, true, 0, 0},
                {64, true, true, 25, 192},  {66, true, true, 25, 192},  {64, false, false, 29, 192},
                {63, true, false, 29, 198}, {63, false, true, 0, 0}};
    for (unsigned n = times(60); n > 0; n--) {
        if (n == 1)
            small_book(&book);
        else
            make_book(&luck, &book);
        new_day(&day);
        for (unsigned i = 0; i < 8; i++)
            deep_message(deep[i].elements, deep[i].attribute, deep[i].closed);
        plans_to_case();
        for (unsigned i = 0; i < 8; i++) check_row(&now, i, deep[i].refusal, deep[i].place);
    }
}

/* One filter of 512 states, each leading to the next, and 64 open starts. */
static void limit_chain(void) {
    static const unsigned kind[] = {OR_ROW, AND_ROW, NOT_ROW};
    for (unsigned way = 0; way < 6; way++) {
        new_book(&book);
        new_filter(&book, 1);
        for (unsigned k = 1; k < STATES_AT_MOST; k++)
            add_row(&book, kind[way % 3], k, way % 3 == 2 ? 0 : k);
        if (way < 3)
            add_row(&book, STEP_ROW, 0, 0);
        else
            add_leaf(&book, 1, 7);
        new_day(&day);
        deep_message(64, false, true);
        deep_message(63, true, true);
        check_day();
    }
}

void part_limits(void) {
    begin(PART_LIMITS);
    limit_chain();
    limit_books();
    limit_messages();
    limit_bytes();
    limit_depth();
}
