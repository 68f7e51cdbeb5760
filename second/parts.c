/* See parts.h. */
#include "parts.h"

#include <string.h>

dice luck;
unsigned percent = 100;
test_case now;
book_plan book;
day_plan day;

unsigned times(unsigned whole) { return (whole * percent + 99) / 100; }

const uint64_t MEMORY_COUNTS[MEMORY_COUNTS_END] = {0,    1,     16,    17,    33,    34,   1087,
                                                   1088, 69631, 69632, 69633, 69649, 80000};

static uint64_t choose_memory(void) {
    if (chance(&luck, 40)) return SLOT_NUMBERS * below(&luck, 14) + below(&luck, 17);
    if (chance(&luck, 97)) return MEMORY_COUNTS[below(&luck, 8)];
    return MEMORY_COUNTS[8 + below(&luck, MEMORY_COUNTS_END - 8)];
}

/* Sizes with which the run is not refused, if the day file has its messages. */
void choose_sizes(void) {
    static const unsigned more[] = {0, 0, 0, 1, 2, 7, 40};
    uint64_t messages = now.day.len < 2 ? 0 : get_two(now.day.at);
    now.memory = choose_memory();
    now.answers = 3 * messages + more[below(&luck, 7)];
    now.workspace = LEVEL_NUMBERS + more[below(&luck, 7)];
    now.seed = roll(&luck) >> 40;
    now.slots.len = 0;
    now.asked = now.anew = now.filled = 0;
    now.call = CALL_RUN;
}

void spoil_answer(uint64_t *answer) {
    unsigned way = below(&luck, 7), bits = from_to(&luck, 1, 4);
    for (unsigned i = 0; i < SET_NUMBERS; i++) {
        if (way == 0) answer[i] = UINT64_MAX;
        if (way == 1) answer[i] = 0;
        if (way == 2) answer[i] = roll(&luck) & roll(&luck);
    }
    if (way < 3) return;
    unsigned range = chance(&luck, 80) ? book.states + 1 : STATES_AT_MOST;
    for (; bits > 0; bits--) {
        unsigned k = below(&luck, range) % STATES_AT_MOST;
        answer[k / 64] ^= UINT64_C(1) << (k % 64);
    }
}

/* Slots as a run leaves them, with each answer spoilt in so many of a hundred. */
void lend_slots(unsigned spoilt) {
    static outcome o;
    call_engine(&SECOND_ENGINE, &now, &o);
    now.slots.len = 0;
    if (o.result[0] != 0) return;
    for (uint64_t i = 0; i < o.result[3]; i++) {
        uint64_t slot[SLOT_NUMBERS];
        memcpy(slot, contents(&o, MEMORY) + SLOT_NUMBERS * i, sizeof slot);
        if (chance(&luck, spoilt)) spoil_answer(slot + QUESTION_NUMBERS);
        for (unsigned k = 0; k < SLOT_NUMBERS; k++) add_number(&now.slots, slot[k]);
    }
}

/* Writes out the plans as a run with good sizes. */
void plans_to_case(void) {
    write_book(&book, &now.book);
    write_day(&day, &now.day);
    choose_sizes();
}

void check_day(void) {
    plans_to_case();
    check_gives(&now, 0);
    new_day(&day);
}
