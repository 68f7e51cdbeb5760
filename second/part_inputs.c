/* Parts of the comparison: books and days that are read, in many kinds. */
#include "parts.h"

#include <string.h>

/* ---- The paper's small day ----------------------------------------------------- */

void part_small(void) {
    begin(PART_SMALL);
    small_book(&book);
    small_day(&day);
    for (unsigned i = 0; i < MEMORY_COUNTS_END; i++)
        for (unsigned k = 0; k < 3; k++) {
            plans_to_case();
            now.memory = MEMORY_COUNTS[i];
            if (k == 2) lend_slots(80);
            check_row(&now, 4, 24, 9);
        }
}

/* ---- Random books and days ----------------------------------------------------- */

/* The outcome of the last check, to hold the next one against. */
static outcome earlier;

static void keep_outcome(const outcome *o) {
    memcpy(earlier.result, o->result, sizeof earlier.result);
    earlier.inputs_kept = o->inputs_kept;
    for (int i = 0; i < LENT; i++) {
        earlier.lent[i].len = 0;
        for (size_t k = 0; k < o->lent[i].len; k++) add_number(&earlier.lent[i], o->lent[i].at[k]);
    }
}

/* The pass from no slots and no counts comes to what the run comes to. In the
 * second engine the two work differently, so this also holds it against itself. */
static void pass_from_nothing(const outcome *run) {
    keep_outcome(run);
    now.call = CALL_PASS;
    if (!same_outcome(check_gives(&now, 0), &earlier))
        complain(&now, "The pass from nothing is not the run.");
}

/* Messages from `first` to `end` of a day, as a day of their own. */
static void part_of_day(const day_plan *whole, unsigned first, unsigned end, bytes *out) {
    static day_plan part;
    size_t at = 0;
    new_day(&part);
    for (unsigned m = 0; m < end; m++) {
        if (m >= first) {
            add_bytes(&part.bodies, whole->bodies.at + at, whole->length[m]);
            end_message(&part);
        }
        at += whole->length[m];
    }
    write_day(&part, out);
}

/* A day cut in two: the pass over the second part, from what the first part left,
 * ends with the counts and slots of the run over the whole day. */
static void day_in_two(void) {
    unsigned first = below(&luck, day.messages + 1);
    keep_outcome(check_gives(&now, 0));
    part_of_day(&day, 0, first, &now.day);
    const outcome *o = check_gives(&now, 0);
    now.asked = o->result[1];
    now.anew = o->result[2];
    now.filled = o->result[3];
    now.slots.len = 0;
    for (uint64_t k = 0; k < SLOT_NUMBERS * now.filled; k++)
        add_number(&now.slots, contents(o, MEMORY)[k]);
    part_of_day(&day, first, day.messages, &now.day);
    now.call = CALL_PASS;
    o = check_gives(&now, 0);
    size_t kept = SLOT_NUMBERS * o->result[3] * sizeof(uint64_t);
    if (memcmp(o->result, earlier.result, sizeof o->result) != 0 ||
        memcmp(contents(o, MEMORY), contents(&earlier, MEMORY), kept) != 0)
        complain(&now, "The day in two parts does not end as the whole day.");
}

void part_in_two(void) {
    begin(PART_IN_TWO);
    for (unsigned i = times(4000); i > 0; i--) {
        make_book(&luck, &book);
        make_day(&luck, &day, from_to(&luck, 0, 7));
        plans_to_case();
        day_in_two();
    }
}

void part_random(void) {
    begin(PART_RANDOM);
    for (unsigned i = times(36000); i > 0; i--) {
        make_book(&luck, &book);
        make_day(&luck, &day, chance(&luck, 3) ? 0 : from_to(&luck, 1, 7));
        plans_to_case();
        if (chance(&luck, 40)) lend_slots(70);
        const outcome *run = check_gives(&now, 0);
        if (chance(&luck, 30)) pass_from_nothing(run);
    }
}

/* ---- Twins in another order ---------------------------------------------------- */

static void check_twins(const outcome *o) {
    for (unsigned m = 0; m + 1 < get_two(now.day.at); m += 2) {
        const uint64_t *row = contents(o, ANSWERS) + 3 * m;
        if (memcmp(row, row + 3, 3 * sizeof *row) != 0)
            complain(&now, "A message and its twin in another order have different rows.");
    }
}

/* The same filters in another order, under new ids that rise. */
static void other_filter_order(const book_plan *from, unsigned *place, book_plan *to) {
    new_book(to);
    for (unsigned i = 0; i < from->filters; i++) {
        unsigned first = 0;
        for (unsigned f = 0; f < place[i]; f++) first += from->n[f];
        new_filter(to, 7 * i + 1);
        to->n[i] = from->n[place[i]];
        memcpy(to->state[to->states], from->state[first], 8 * (size_t)to->n[i]);
        to->states += to->n[i];
    }
}

static void check_filter_twins(void) {
    static book_plan other;
    unsigned place[PLAN_FILTERS], rows = 3 * get_two(now.day.at);
    uint64_t was[3 * 16];
    memcpy(was, contents(last_under_test(), ANSWERS), rows * sizeof *was);
    for (unsigned i = 0; i < book.filters; i++) place[i] = (i * 5 + 2) % book.filters;
    if (book.filters % 5 == 0) return;
    other_filter_order(&book, place, &other);
    write_book(&other, &now.book);
    check_gives(&now, 0);
    const uint64_t *is = contents(last_under_test(), ANSWERS);
    for (unsigned r = 2; r < rows; r += 3)
        for (unsigned i = 0; i < book.filters; i++)
            if ((is[r] >> i & 1) != (was[r] >> place[i] & 1))
                complain(&now, "The same filters in another order are not true alike.");
}

void part_twins(void) {
    begin(PART_TWINS);
    static message_plan plan;
    for (unsigned i = times(5000); i > 0; i--) {
        make_book(&luck, &book);
        new_day(&day);
        for (unsigned k = from_to(&luck, 1, 5); k > 0; k--) {
            make_message(&luck, &plan);
            write_message(&plan, &day.bodies, NULL);
            end_message(&day);
            write_message(&plan, &day.bodies, &luck);
            end_message(&day);
        }
        plans_to_case();
        check_twins(check_gives(&now, 0));
        check_twins(last_under_test());
        if (book.filters > 0) check_filter_twins();
    }
}

/* ---- Odd books and odd days ---------------------------------------------------- */

/* Filters of one to four states, each made of these rows; a STEP may loop. */
static void odd_book(void) {
    new_book(&book);
    for (unsigned label = 0; label < 3; label++) {
        static const unsigned step[] = {0, 32768, 2};
        new_filter(&book, 10 * label + 1);
        add_row(&book, STEP_ROW, step[label], 0); /* only to itself: never true */
        new_filter(&book, 10 * label + 2);
        add_row(&book, OR_ROW, 1, 2);
        add_row(&book, STEP_ROW, step[label], 0);
        add_leaf(&book, from_to(&luck, 1, 6), 5);
        new_filter(&book, 10 * label + 3);
        add_row(&book, STEP_ROW, 1, 2);
        add_row(&book, STEP_ROW, step[label], 0); /* back and forth */
        add_row(&book, OR_ROW, 3, 3);
        add_row(&book, NOT_ROW, 4, 0);
        add_row(&book, STEP_ROW, 2, 1);
        new_filter(&book, 10 * label + 4);
        add_row(&book, AND_ROW, 1, 1);
        add_row(&book, NOT_ROW, 2, 0);
        add_row(&book, STEP_ROW, step[label], 3);
        add_row(&book, chance(&luck, 50) ? TRUE_ROW : STEP_ROW, 0, 0);
    }
    new_filter(&book, 100);
    add_row(&book, TRUE_ROW, 0, 0);
    new_filter(&book, 101);
    add_row(&book, NOT_ROW, 1, 0);
    add_row(&book, TRUE_ROW, 0, 0);
    new_filter(&book, UINT32_MAX);
    add_leaf(&book, 2, 5); /* at the root: never true, as the root has no value */
}

void part_odd(void) {
    begin(PART_ODD);
    for (unsigned i = times(2000); i > 0; i--) {
        odd_book();
        make_day(&luck, &day, from_to(&luck, 0, 6));
        plans_to_case();
        check_gives(&now, 0);
    }
    for (unsigned i = times(60); i > 0; i--) {
        if (chance(&luck, 50))
            new_book(&book);
        else
            make_book(&luck, &book);
        make_day(&luck, &day, chance(&luck, 50) ? 0 : 3);
        for (unsigned k = below(&luck, 4); k > 0; k--) end_message(&day);
        plans_to_case();
        check_gives(&now, 0);
    }
}

/* ---- Value texts --------------------------------------------------------------- */

static void value_book(void) {
    static const int32_t constant[] = {0, 5, -5, INT32_MIN, INT32_MAX};
    new_book(&book);
    for (unsigned i = 0; i < 5; i++)
        for (unsigned relation = 1; relation <= 6; relation++) {
            new_filter(&book, 1000 * i + 10 * relation);
            add_row(&book, STEP_ROW, 1, 1);
            add_leaf(&book, relation, constant[i]);
            new_filter(&book, 1000 * i + 10 * relation + 1);
            add_row(&book, STEP_ROW, 1, 1);
            add_row(&book, STEP_ROW, 32769, 2);
            add_leaf(&book, relation, constant[i]);
        }
}

static void add_value(const char *text, size_t len) {
    for (int attribute = 0; attribute < 2; attribute++) {
        add_start(&day.bodies, 1);
        if (attribute) add_start(&day.bodies, 32769);
        add_text(&day.bodies, text, len);
        if (attribute) add_end(&day.bodies, 32769);
        add_end(&day.bodies, 1);
        end_message(&day);
    }
    if (day.messages > 200) check_day();
}

static void long_values(void) {
    static const char *const tail[] = {"5", "2147483647", "2147483648", "-5", "x", " ", "5 "};
    static const char front[] = "0 -\t\r\n9";
    char text[256];
    for (const char *f = front; *f != 0; f++)
        for (unsigned i = 0; i < 7; i++)
            for (size_t len = 253; len <= 255; len++) {
                memset(text, *f, len);
                memcpy(text + len - strlen(tail[i]), tail[i], strlen(tail[i]));
                add_value(text, len);
                if (*f == '0') text[0] = '-';
                add_value(text, len);
            }
}

void part_values(void) {
    begin(PART_VALUES);
    static const char *const text[] = {"",
                                       "-",
                                       "+5",
                                       "- 5",
                                       "1.5",
                                       "-0",
                                       "0",
                                       "00",
                                       "-00",
                                       "5",
                                       "-5",
                                       "05",
                                       "-05",
                                       "5.",
                                       ".5",
                                       "5-",
                                       "--5",
                                       "-+5",
                                       "+",
                                       " ",
                                       "\t",
                                       "\r",
                                       "\n",
                                       "\r\n\t ",
                                       " 5",
                                       "5 ",
                                       "\r5\t",
                                       "\n-5\n",
                                       "5\r5",
                                       "5 5",
                                       "\v5",
                                       "5\f",
                                       "2147483647",
                                       "2147483648",
                                       "-2147483648",
                                       "-2147483649",
                                       "2147483646",
                                       "4294967295",
                                       "4294967296",
                                       "4294967301",
                                       "18446744073709551615",
                                       "18446744073709551616",
                                       "18446744073709551621",
                                       "-18446744073709551616",
                                       "9223372036854775807",
                                       "-4294967296",
                                       "9223372036854775808",
                                       "99999999999x",
                                       "-99999999999 ",
                                       "9999999999 9",
                                       "2147483648-",
                                       "02147483648",
                                       "-02147483648",
                                       "0x5",
                                       "5e0",
                                       "/",
                                       ":",
                                       "1:",
                                       "1/",
                                       "NaN",
                                       "Infinity"};
    static const char alphabet[] = "00112555789-- \t\r\n+.a";
    value_book();
    new_day(&day);
    for (unsigned i = 0; i < sizeof text / sizeof text[0]; i++) add_value(text[i], strlen(text[i]));
    add_value("5\0", 2);
    add_value("\0", 1);
    add_value("5\xa0", 2);
    long_values();
    for (int byte = 0; byte < 256; byte++) {
        const char around[3] = {(char)byte, '5', (char)byte};
        add_value(around, 1);
        add_value(around, 2);
        add_value(around + 1, 2);
        add_value(around, 3);
    }
    for (unsigned i = times(20000); i > 0; i--) {
        char made[16];
        unsigned len = below(&luck, 14);
        for (unsigned k = 0; k < len; k++) made[k] = alphabet[below(&luck, sizeof alphabet - 1)];
        add_value(made, len);
    }
    check_day();
}

/* ---- More different questions than slots --------------------------------------- */

/* A message of elements with labels up to `labels`, which are asked in no order. */
static void add_labels(unsigned count, unsigned labels) {
    add_start(&day.bodies, 1);
    for (unsigned i = 0; i < count; i++) {
        unsigned label = 1 + below(&luck, labels);
        uint8_t text[255];
        add_start(&day.bodies, label);
        if (chance(&luck, 20)) {
            size_t len = choose_text(&luck, text);
            add_text(&day.bodies, text, len);
        }
        add_end(&day.bodies, label);
    }
    add_end(&day.bodies, 1);
    end_message(&day);
}

void part_slots(void) {
    begin(PART_SLOTS);
    for (unsigned n = times(12); n > 0; n--)
        for (unsigned i = 0; i < MEMORY_COUNTS_END; i++) {
            make_book(&luck, &book);
            new_day(&day);
            for (unsigned k = 0; k < 4; k++) add_labels(below(&luck, 60), from_to(&luck, 1, 60));
            plans_to_case();
            now.memory = MEMORY_COUNTS[i];
            if (chance(&luck, 50)) lend_slots(70);
            check_gives(&now, 0);
        }
    /* 4,096 different questions and a few more, with just less, just and more room. */
    static const uint64_t room[] = {69631, 69632, 69648, 69649, 75000};
    for (unsigned i = 0; i < 5; i++) {
        fill_book(&luck, &book, from_to(&luck, 1, 20), from_to(&luck, 20, 120));
        new_day(&day);
        for (unsigned k = 0; k < 4; k++) add_labels(2400, 32767);
        plans_to_case();
        now.memory = room[i];
        if (i > 2) lend_slots(100);
        check_gives(&now, 0);
    }
}

/* ---- Day files near the greatest length ---------------------------------------- */

static void large_message(size_t room) {
    add_start(&day.bodies, 1);
    size_t from = day.bodies.len;
    while (day.bodies.len - from + 12 < room) {
        unsigned label = chance(&luck, 90) ? 2 + below(&luck, 3) : 1 + below(&luck, 900);
        add_start(&day.bodies, label);
        if (chance(&luck, 2)) {
            char text[2] = {(char)('0' + below(&luck, 10)), 0};
            add_text(&day.bodies, text, 1);
        }
        add_end(&day.bodies, label);
    }
    add_end(&day.bodies, 1);
    end_message(&day);
}

/* Elements go up and down inside the top, and a few hold a value, so that many
 * sets come up. */
static void winding_message(size_t room) {
    unsigned open[60] = {1}, depth = 1;
    size_t from = day.bodies.len;
    add_start(&day.bodies, open[0]);
    while (day.bodies.len - from + 3 * depth + 9 <= room) {
        if (depth == 1 || (depth < 60 && chance(&luck, 50))) {
            open[depth] = 2 + below(&luck, 3);
            add_start(&day.bodies, open[depth++]);
            if (chance(&luck, 97)) continue;
            char value = (char)('0' + below(&luck, 10));
            add_text(&day.bodies, &value, 1);
            add_end(&day.bodies, open[--depth]);
        } else {
            add_end(&day.bodies, open[--depth]);
        }
    }
    while (depth > 0) add_end(&day.bodies, open[--depth]);
    end_message(&day);
}

void part_large(void) {
    begin(PART_LARGE);
    fill_book(&luck, &book, 64, STATES_AT_MOST);
    new_day(&day);
    large_message(DAY_AT_MOST - 10);
    plans_to_case();
    now.memory = 1088;
    check_gives(&now, 0);
    fill_book(&luck, &book, 64, STATES_AT_MOST);
    new_day(&day);
    while (day.messages < 4096) winding_message((DAY_AT_MOST - 2) / 4096 - 8);
    plans_to_case();
    now.memory = SLOT_NUMBERS * SLOTS_AT_MOST;
    check_gives(&now, 0);
}
