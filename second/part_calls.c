/* Parts of the comparison: a filter's body, and the inner call and the pass from
 * made-up slots. */
#include "parts.h"

#include <string.h>

/* ---- A filter's body ----------------------------------------------------------- */

void part_body(void) {
    begin(PART_BODY);
    for (unsigned n = times(4000); n > 0; n--) {
        make_book(&luck, &book);
        bool spoilt = chance(&luck, 20) && book.filters >= 3;
        if (spoilt) spoil_book(&luck, &book, from_to(&luck, 1, 7));
        write_book(&book, &now.book);
        if (chance(&luck, 10)) damage(&luck, &now.book, 0);
        now.call = CALL_BODY;
        for (unsigned i = 0; i < 4; i++) {
            uint32_t id = book.filters == 0 ? 0 : book.id[below(&luck, book.filters)];
            static const uint32_t other[] = {0, 1, UINT32_MAX, 65536, 1u << 31};
            now.id = chance(&luck, 70) ? id : chance(&luck, 50) ? id + 1 : other[below(&luck, 5)];
            check(&now);
        }
    }
}

/* ---- The inner call from made-up slots ----------------------------------------- */

static uint64_t choose_count(void) {
    static const uint64_t count[] = {0, 1, 170000, UINT32_MAX, (UINT64_C(1) << 63) - 1};
    return chance(&luck, 70) ? count[below(&luck, 5)] : roll(&luck) >> from_to(&luck, 1, 60);
}

static uint64_t choose_question_label(void) {
    static const uint64_t none[] = {
        0, 32768, 65536, 65537, 98305, UINT64_MAX, UINT64_C(1) << 32 | 2};
    if (chance(&luck, 8)) return none[below(&luck, 7)];
    return choose_label(&luck, chance(&luck, 70));
}

/* A set that may have any states, or be of full numbers. */
static void choose_set(uint64_t *set) {
    unsigned way = below(&luck, 10);
    for (unsigned i = 0; i < SET_NUMBERS; i++) {
        set[i] = way == 0 ? UINT64_MAX : way == 1 ? roll(&luck) : 0;
        if (way == 2 && 64 * i < book.states) set[i] = roll(&luck) & roll(&luck);
    }
    if (way < 3) return;
    for (unsigned bits = below(&luck, 12); bits > 0 && book.states > 0; bits--) {
        unsigned k = below(&luck, book.states);
        set[k / 64] |= UINT64_C(1) << (k % 64);
    }
}

/* Some slots more: any question, or one that a slot asks already. */
static void add_made_up_slots(unsigned count) {
    for (; count > 0; count--) {
        uint64_t slot[SLOT_NUMBERS];
        unsigned there = (unsigned)(now.slots.len / SLOT_NUMBERS);
        choose_set(slot);
        slot[SET_NUMBERS] = choose_question_label();
        if (there > 0 && chance(&luck, 60))
            memcpy(slot, now.slots.at + SLOT_NUMBERS * below(&luck, there), sizeof slot);
        else
            choose_set(slot + QUESTION_NUMBERS);
        if (chance(&luck, 60)) spoil_answer(slot + QUESTION_NUMBERS);
        for (unsigned k = 0; k < SLOT_NUMBERS; k++) add_number(&now.slots, slot[k]);
    }
}

static void shuffle_slots(void) {
    unsigned slots = (unsigned)(now.slots.len / SLOT_NUMBERS);
    for (unsigned i = slots; i > 1; i--) {
        uint64_t was[SLOT_NUMBERS], *a = now.slots.at + SLOT_NUMBERS * below(&luck, i);
        uint64_t *b = now.slots.at + SLOT_NUMBERS * (i - 1);
        memcpy(was, a, sizeof was);
        memmove(a, b, sizeof was);
        memcpy(b, was, sizeof was);
    }
}

/* A book, a day, slots from it that are right or wrong or made up, and counts. */
static void make_from_slots(void) {
    make_book(&luck, &book);
    make_day(&luck, &day, from_to(&luck, 1, 4));
    plans_to_case();
    uint64_t lent = now.memory;
    now.memory = 1700;
    lend_slots(chance(&luck, 30) ? 0 : 60);
    now.memory = lent;
    add_made_up_slots(below(&luck, 6));
    if (chance(&luck, 60)) shuffle_slots();
    uint64_t slots = now.memory / SLOT_NUMBERS, there = now.slots.len / SLOT_NUMBERS;
    if (slots > SLOTS_AT_MOST) slots = SLOTS_AT_MOST;
    uint64_t most = slots < there || chance(&luck, 5) ? slots : there;
    now.filled = chance(&luck, 60) ? most : below(&luck, (unsigned)most + 1);
    now.asked = choose_count();
    now.anew = choose_count();
}

static void choose_asked(void) {
    size_t slots = now.slots.len / SLOT_NUMBERS;
    choose_set(now.question);
    now.question[SET_NUMBERS] = choose_question_label();
    if (slots > 0 && chance(&luck, 75)) {
        const uint64_t *slot = now.slots.at + SLOT_NUMBERS * below(&luck, (unsigned)slots);
        memcpy(now.question, slot, QUESTION_NUMBERS * sizeof *slot);
        unsigned way = below(&luck, 6);
        if (way == 0) now.question[SET_NUMBERS] = choose_question_label();
        if (way == 1) now.question[below(&luck, SET_NUMBERS)] ^= UINT64_C(1) << below(&luck, 64);
    }
    now.question_len = QUESTION_NUMBERS;
    now.answer_len = SET_NUMBERS;
    now.call = CALL_ASK;
}

void part_ask(void) {
    begin(PART_ASK);
    for (unsigned n = times(10000); n > 0; n--) {
        make_from_slots();
        for (unsigned i = 0; i < 5; i++) {
            choose_asked();
            check_gives(&now, 0);
        }
    }
}

/* ---- The pass from made-up slots ----------------------------------------------- */

/* The slots as the pass left them, spoilt once more: so the questions that only
 * wrong answers bring about are asked of wrong slots again. */
static void slots_of_outcome(const outcome *o) {
    uint64_t filled = o->result[3];
    now.slots.len = 0;
    for (uint64_t k = 0; k < SLOT_NUMBERS * filled; k++)
        add_number(&now.slots, contents(o, MEMORY)[k]);
    for (uint64_t i = 0; i < filled; i++)
        if (chance(&luck, 40)) spoil_answer(now.slots.at + SLOT_NUMBERS * i + QUESTION_NUMBERS);
    now.filled = filled;
}

void part_pass(void) {
    begin(PART_PASS);
    for (unsigned n = times(16000); n > 0; n--) {
        make_from_slots();
        now.call = CALL_PASS;
        const outcome *o = check_gives(&now, 0);
        if (chance(&luck, 50) && now.memory < 5000) {
            slots_of_outcome(o);
            check_gives(&now, 0);
        }
    }
}
