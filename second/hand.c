/* See hand.h. */
#include "hand.h"
#include "make.h"

#include <string.h>

static case_user *use_case;
static test_case now;
static book_plan book;
static day_plan day;

static void by_hand(const char *name, const char *gives, const char *rows) {
    use_case(name, &now, gives, rows);
}

/* The plans as a run with just the room that it needs and the given memory. */
static void as_run(uint64_t memory) {
    write_book(&book, &now.book);
    write_day(&day, &now.day);
    now.call = CALL_RUN;
    now.memory = memory;
    now.answers = 3 * day.messages;
    now.workspace = LEVEL_NUMBERS;
    now.seed = 7;
    now.slots.len = 0;
    now.asked = now.anew = now.filled = now.id = 0;
    now.question_len = now.answer_len = 0;
}

static void as_small_day(uint64_t memory) {
    small_book(&book);
    small_day(&day);
    as_run(memory);
}

/* ---- The small day with other sizes ---------------------------------------------- */

static const char SMALL_ROWS[] = "0 0 5, 0 0 5, 0 0 6, 0 0 2, 24 9 0";

static void small_days(void) {
    as_small_day(64 * SLOT_NUMBERS);
    by_hand("small-64-slots", "0 17 8 8", SMALL_ROWS);
    as_small_day(0);
    by_hand("small-no-slots", "0 17 17 0", SMALL_ROWS);
    as_small_day(2 * SLOT_NUMBERS);
    by_hand("small-2-slots", "0 17 14 2", SMALL_ROWS);
    as_small_day(5 * SLOT_NUMBERS);
    by_hand("small-5-slots", "0 17 9 5", SMALL_ROWS);
    as_small_day(8 * SLOT_NUMBERS);
    by_hand("small-just-8-slots", "0 17 8 8", SMALL_ROWS);
    as_small_day(8 * SLOT_NUMBERS - 1);
    by_hand("small-8-slots-less-one-number", NULL, SMALL_ROWS);
    as_small_day(8 * SLOT_NUMBERS + 30);
    now.answers += 20;
    now.workspace += 20;
    by_hand("small-more-lent", "0 17 8 8", SMALL_ROWS);
    as_small_day(0);
    now.answers--;
    by_hand("small-answers-less-one", "11 0 0 0", NULL);
    as_small_day(0);
    now.workspace--;
    by_hand("small-workspace-649", "12 0 0 0", NULL);
}

/* Slots with wrong answers that ask the small day's own questions. */
static void lend_wrong_slots(void) {
    outcome o = {0};
    call_engine(&SECOND_ENGINE, &now, &o);
    for (uint64_t k = 0; k < SLOT_NUMBERS * o.result[3]; k++)
        add_number(&now.slots, contents(&o, MEMORY)[k] ^ (k % SLOT_NUMBERS == 9 ? 255 : 0));
    drop_outcome(&o);
}

static void small_earlier_contents(void) {
    as_small_day(64 * SLOT_NUMBERS);
    lend_wrong_slots();
    by_hand("small-earlier-contents-play-no-part", "0 17 8 8", SMALL_ROWS);
}

/* ---- Refusals ------------------------------------------------------------------------ */

static void refused_books(void) {
    as_small_day(34);
    now.book.len = 1;
    by_hand("refusal-1-one-byte", "1 0 0 0", NULL);
    as_small_day(34);
    now.book.len = 2 + 8 * 3 - 1;
    by_hand("refusal-1-contents-cut", "1 0 0 0", NULL);
    as_small_day(34);
    while (book.filters < 65) {
        new_filter(&book, 100 + book.filters);
        add_row(&book, TRUE_ROW, 0, 0);
    }
    as_run(34);
    by_hand("refusal-2-65-filters", "2 0 0 0", NULL);
    as_small_day(34);
    now.book.at[2 + 8] = 10;
    by_hand("refusal-3-equal-ids", "3 0 0 0", NULL);
    as_small_day(34);
    book.n[2] = 0;
    book.states = 10;
    as_run(34);
    by_hand("refusal-4-no-states", "4 0 0 0", NULL);
}

static void refused_bodies(void) {
    as_small_day(34);
    now.book.at[2 + 8 + 4]++;
    by_hand("refusal-5-start", "5 0 0 0", NULL);
    as_small_day(34);
    add_byte(&now.book, 0);
    by_hand("refusal-5-a-byte-more", "5 0 0 0", NULL);
    as_small_day(34);
    now.book.at[now.book.len - 1] = 1;
    by_hand("refusal-6-true-with-a-byte", "6 0 0 0", NULL);
    as_small_day(34);
    now.book.at[26 + 3 * 8 + 1] = 7;
    by_hand("refusal-6-seventh-relation", "6 0 0 0", NULL);
    as_small_day(34);
    now.book.at[26 + 4] = 4;
    by_hand("refusal-7-step-out-of-the-body", "7 0 0 0", NULL);
    as_small_day(34);
    now.book.at[26 + 4 * 8 + 2] = 0;
    by_hand("refusal-7-not-leads-to-itself", "7 0 0 0", NULL);
}

static void refused_days(void) {
    as_small_day(34);
    now.day.len = 0;
    by_hand("refusal-8-empty", "8 0 0 0", NULL);
    as_small_day(34);
    now.day.len = 2 + 8 * 5 - 1;
    by_hand("refusal-8-contents-cut", "8 0 0 0", NULL);
    as_small_day(34);
    while (now.day.len <= DAY_AT_MOST) add_byte(&now.day, 0);
    by_hand("refusal-8-a-byte-too-long", "8 0 0 0", NULL);
    small_book(&book);
    new_day(&day);
    while (day.messages < 4097) end_message(&day);
    as_run(34);
    by_hand("refusal-9-4097-messages", "9 0 0 0", NULL);
    as_small_day(34);
    now.day.at[6]++;
    by_hand("refusal-10-length", "10 0 0 0", NULL);
    as_small_day(34);
    add_byte(&now.day, 3);
    by_hand("refusal-10-a-byte-more", "10 0 0 0", NULL);
}

static void two_refusals(void) {
    as_small_day(34);
    now.book.at[26 + 4] = 4;           /* 7 in the first filter */
    now.book.at[now.book.len - 8] = 6; /* 6 in the last */
    by_hand("refusals-6-and-7", "6 0 0 0", NULL);
    as_small_day(34);
    now.book.at[2 + 4]++;     /* 5 in the first entry */
    now.book.at[2 + 16] = 20; /* 3 in the last */
    by_hand("refusals-3-and-5", "3 0 0 0", NULL);
    as_small_day(34);
    now.day.at[6]++;
    now.answers = now.workspace = 0;
    by_hand("refusals-10-11-and-12", "10 0 0 0", NULL);
}

/* ---- Messages --------------------------------------------------------------------------- */

/* A message written down as text: s and e with a label, t with a text to the next
 * space (with _ for a space), or a byte as it is after a dot. */
static void message(const char *text) {
    while (*text != 0) {
        char kind = *text++, word[300];
        size_t len = strcspn(text, " ");
        unsigned label = 0;
        for (size_t i = 0; i < len; i++) {
            word[i] = text[i] == '_' ? ' ' : text[i];
            if (text[i] >= '0' && text[i] <= '9') label = 10 * label + (unsigned)(text[i] - '0');
        }
        if (kind == 's') add_start(&day.bodies, label);
        if (kind == 'e') add_end(&day.bodies, label);
        if (kind == 't') add_text(&day.bodies, word, len);
        if (kind == '.') add_byte(&day.bodies, label);
        text += len;
        if (*text == ' ') text++;
    }
    end_message(&day);
}

static void refused_messages(void) {
    small_book(&book);
    new_day(&day);
    message("s1 .0 .1 .0");
    message("s1 .4");
    message("s1 .1 .2");
    message("s1 .2 .3 .49 .50");
    message("s1 .2");
    message("s0 e0");
    message("s1 s32768");
    message("s32772 e32772 s1 e1");
    message("s1 s2 e2 s32772");
    message("s1 t5 s32772");
    message("s1 e1 s1 e1");
    message("s1 s32772 s2");
    message("s1 s32772 s32773");
    message("s1 t5 s2");
    message("t5 s1 e1");
    message("s1 e1 t5");
    message("s1 t t5");
    message("s1 s2 e2 t5");
    message("s1 t2147483648 e1");
    message("s1 t-2147483649 e1");
    message("e1");
    message("s1 e2");
    message("s1 e1 e1");
    message("");
    message("s1 s2 e2");
    message("s1 s32772 t6 e32772 t7 e1");
    as_run(34);
    by_hand("message-refusals", NULL,
            "21 3 0, 21 3 0, 22 3 0, 22 3 0, 22 3 0, 23 0 0, 23 3 0, 24 0 0, 24 9 0, 24 6 0, "
            "24 6 0, 24 6 0, 24 6 0, 24 6 0, 26 0 0, 26 6 0, 26 5 0, 26 9 0, 27 3 0, 27 3 0, "
            "28 0 0, 28 3 0, 28 6 0, 29 0 0, 29 9 0, 0 0 2");
}

static void deep(unsigned elements, bool attribute) {
    for (unsigned i = 0; i < elements; i++) add_start(&day.bodies, 1);
    if (attribute) {
        add_start(&day.bodies, 32769);
        add_end(&day.bodies, 32769);
    }
    for (unsigned i = 0; i < elements; i++) add_end(&day.bodies, 1);
    end_message(&day);
}

static void open_starts(void) {
    small_book(&book);
    new_day(&day);
    deep(64, false);
    deep(65, false);
    deep(63, true);
    deep(64, true);
    as_run(34);
    by_hand("64-and-65-open-starts", NULL, "0 0 2, 25 192 0, 0 0 2, 25 192 0");
}

/* Every relation with this constant, on the value of the top and of an attribute. */
static void relations(int32_t constant) {
    for (unsigned r = 1; r <= 6; r++) {
        new_filter(&book, 10 * book.filters + 1);
        add_row(&book, STEP_ROW, 1, 1);
        add_leaf(&book, r, constant);
        new_filter(&book, 10 * book.filters + 1);
        add_row(&book, STEP_ROW, 1, 1);
        add_row(&book, STEP_ROW, 32769, 2);
        add_leaf(&book, r, constant);
    }
}

static void values(void) {
    static const char *const text[] = {
        "",           "-",   "+5",   "-_5",   "1.5",        "-0",          "0",
        "5",          "-5",  "0005", "-0005", "_5",         "5_",          "\r\n5\t",
        "5_5",        "\v5", "--5",  "5-",    "2147483647", "-2147483648", "9999999999999x",
        "+2147483648"};
    new_book(&book);
    relations(5);
    relations(0);
    new_day(&day);
    for (unsigned i = 0; i < sizeof text / sizeof text[0]; i++) {
        char line[64] = "s1 t";
        strcat(strcat(line, text[i]), " e1");
        message(line);
    }
    message("s1 s32769 t5 e32769 t0 e1");
    message("s1 s32769 e32769 e1");
    as_run(170);
    by_hand("value-texts", NULL,
            "0 0 0, 0 0 0, 0 0 0, 0 0 0, 0 0 0, 0 0 4460628, 0 0 4460628, 0 0 5260353, "
            "0 0 344148, 0 0 5260353, 0 0 344148, 0 0 5260353, 0 0 5260353, 0 0 5260353, 0 0 0, "
            "0 0 0, 0 0 0, 0 0 0, 0 0 5260548, 0 0 344148, 0 0 0, 0 0 0, 0 0 14981334, 0 0 0");
    new_book(&book);
    relations(INT32_MIN);
    relations(INT32_MAX);
    new_day(&day);
    message("s1 t2147483647 e1");
    message("s1 t2147483648 e1");
    message("s1 t-2147483648 e1");
    message("s1 t-2147483649 e1");
    as_run(170);
    by_hand("range-ends", "0 2 2 2", "0 0 4461828, 27 3 0, 0 0 345153, 27 3 0");
}

static void long_text(char fill, const char *tail) {
    char text[255];
    memset(text, fill, sizeof text);
    memcpy(text + sizeof text - strlen(tail), tail, strlen(tail));
    add_start(&day.bodies, 1);
    add_text(&day.bodies, text, sizeof text);
    add_end(&day.bodies, 1);
    end_message(&day);
}

static void long_texts(void) {
    new_book(&book);
    relations(5);
    new_day(&day);
    long_text('0', "5");
    long_text(' ', "-5");
    long_text('9', "9");
    long_text('9', "x");
    long_text('0', "2147483648");
    long_text('0', "2147483647");
    as_run(170);
    by_hand("texts-of-255-bytes", NULL, "0 0 1089, 0 0 84, 27 3 0, 0 0 0, 27 3 0, 0 0 1284");
}

/* ---- Books ------------------------------------------------------------------------------- */

static void shortcuts(void) {
    new_book(&book);
    new_filter(&book, 1); /* an attribute and a text on one element */
    add_row(&book, STEP_ROW, 1, 1);
    add_row(&book, AND_ROW, 2, 3);
    add_row(&book, STEP_ROW, 32769, 4);
    add_leaf(&book, 1, 7);
    add_leaf(&book, 1, 6);
    new_filter(&book, 2); /* NOT and TRUE at the root itself */
    add_row(&book, NOT_ROW, 1, 0);
    add_row(&book, STEP_ROW, 2, 2);
    add_row(&book, TRUE_ROW, 0, 0);
    new_filter(&book, 3); /* two conditions, met in either order */
    add_row(&book, STEP_ROW, 1, 1);
    add_row(&book, AND_ROW, 2, 3);
    add_row(&book, STEP_ROW, 2, 4);
    add_row(&book, STEP_ROW, 3, 5);
    add_leaf(&book, 6, 5);
    add_leaf(&book, 3, 5);
    new_day(&day);
    message("s1 s32769 t6 e32769 t7 e1");
    message("s2 e2");
    message("s1 s2 t5 e2 s3 t4 e3 e1");
    message("s1 s3 t4 e3 s2 t5 e2 e1");
    as_run(170);
    by_hand("shortcuts-that-give-wrong-notices", NULL, "0 0 3, 0 0 0, 0 0 6, 0 0 6");
}

static void loops(void) {
    new_book(&book);
    new_filter(&book, 1);
    add_row(&book, STEP_ROW, 0, 0);
    new_filter(&book, 2);
    add_row(&book, OR_ROW, 1, 2);
    add_row(&book, STEP_ROW, 0, 0);
    add_row(&book, STEP_ROW, 32768, 3);
    add_row(&book, TRUE_ROW, 0, 0);
    new_filter(&book, 3);
    add_row(&book, AND_ROW, 1, 1);
    add_row(&book, NOT_ROW, 2, 0);
    add_row(&book, OR_ROW, 3, 3);
    add_row(&book, STEP_ROW, 2, 0);
    new_filter(&book, 4);
    add_leaf(&book, 2, 0);
    new_filter(&book, UINT32_MAX);
    add_row(&book, TRUE_ROW, 0, 0);
    new_day(&day);
    message("s1 s2 s2 s32769 t1 e32769 e2 e2 e1");
    message("s1 s2 s3 s2 e2 e3 e2 e1");
    message("s2 s2 e2 e2");
    message("s2 e2");
    message("");
    as_run(170);
    by_hand("steps-in-a-ring-and-one-successor-twice", NULL,
            "0 0 22, 0 0 20, 0 0 20, 0 0 16, 29 0 0");
}

static void nothing(void) {
    new_book(&book);
    new_day(&day);
    as_run(34);
    by_hand("no-filters-no-messages", "0 0 0 0", NULL);
    message("s1 s2 e2 s2 e2 e1");
    message("");
    as_run(34);
    by_hand("no-filters", "0 3 2 2", "0 0 0, 29 0 0");
    small_book(&book);
    new_day(&day);
    as_run(34);
    by_hand("no-messages", "0 0 0 0", NULL);
}

static void most_states(void) {
    for (unsigned states = 512; states <= 513; states++) {
        new_book(&book);
        new_filter(&book, 9);
        while (book.states + 1 < states) add_row(&book, STEP_ROW, 0, book.states + 1);
        add_row(&book, TRUE_ROW, 0, 0);
        new_day(&day);
        message("s1 s2 e2 e1");
        as_run(34);
        by_hand(states == 512 ? "512-states" : "513-states", states == 512 ? "0 2 2 2" : "4 0 0 0",
                states == 512 ? "0 0 0" : NULL);
    }
    new_book(&book);
    while (book.filters < 64) {
        new_filter(&book, 3 * book.filters);
        add_row(&book, book.filters % 3 == 0 ? TRUE_ROW : STEP_ROW, 0, 0);
    }
    as_run(34);
    by_hand("64-filters", "0 2 2 2", "0 0 5270498306774157604");
}

static void bodies(void) {
    static const struct {
        const char *name;
        uint32_t id;
        const char *gives;
    } wanted[] = {{"body-10", 10, "26 32"},
                  {"body-20", 20, "58 48"},
                  {"body-30", 30, "106 48"},
                  {"body-no-such-id", 11, "0 0"}};
    for (unsigned i = 0; i < 4; i++) {
        as_small_day(0);
        now.call = CALL_BODY;
        now.id = wanted[i].id;
        by_hand(wanted[i].name, wanted[i].gives, NULL);
    }
    now.id = 10;
    now.book.at[now.book.len - 1] = 1;
    by_hand("body-book-refused", "0 0", NULL);
}

/* ---- The inner call and the pass ------------------------------------------------------------ */

static void as_ask(uint64_t set, uint64_t label, uint64_t slots, uint64_t filled, uint64_t anew) {
    as_small_day(SLOT_NUMBERS * slots);
    now.call = CALL_ASK;
    memset(now.question, 0, sizeof now.question);
    now.question[0] = set;
    now.question[SET_NUMBERS] = label;
    now.question_len = QUESTION_NUMBERS;
    now.answer_len = SET_NUMBERS;
    now.filled = filled;
    now.anew = anew;
}

static void add_slot(uint64_t set, uint64_t label, uint64_t answer, uint64_t rest) {
    add_number(&now.slots, set);
    for (unsigned i = 1; i < SET_NUMBERS; i++) add_number(&now.slots, 0);
    add_number(&now.slots, label);
    add_number(&now.slots, answer);
    for (unsigned i = 1; i < SET_NUMBERS; i++) add_number(&now.slots, rest);
}

/* In the small book states 0-3 are filter 10, 4-9 filter 20, 10-15 filter 30. A
 * late of 7 closes with states 3 and 9, and makes 2 and 8 match on its call. */
static const char LATE_ANSWER[] = "260 0 0 0 0 0 0 0", NO_ANSWER[] = "0 0 0 0 0 0 0 0";

static void asked(void) {
    const uint64_t late = 1 << 3 | 1 << 9;
    as_ask(late, 3, 2, 0, 41);
    by_hand("ask-worked-out-and-kept", "0 42 1", LATE_ANSWER);
    as_ask(late, 3, 0, 0, 41);
    by_hand("ask-worked-out-no-slot", "0 42 0", LATE_ANSWER);
    as_ask(late, 3, 2, 2, 41);
    add_slot(late, 2, 1, 0);
    add_slot(late | 1, 3, 2, 0);
    by_hand("ask-worked-out-all-full", "0 42 2", LATE_ANSWER);
    as_ask(late, 3, 3, 2, 41);
    add_slot(late, 2, 1, 0);
    add_slot(late, 3, UINT64_C(0x123456789abcdef0), UINT64_MAX);
    by_hand("ask-wrong-answer-comes-back", "0 41 2", NULL);
    as_ask(late, 3, 3, 3, 41);
    add_slot(late, 3, 5, 0);
    add_slot(late, 3, 6, 0);
    add_slot(late, 3, 7, 0);
    by_hand("ask-first-of-three-slots", "0 41 3", "5 0 0 0 0 0 0 0");
    as_ask(late, 3, 3, 1, 41);
    add_slot(late, 2, 5, 0);
    add_slot(late, 3, 6, 0);
    by_hand("ask-slot-not-filled", "0 42 2", LATE_ANSWER);
    as_ask(UINT64_MAX, 1, 2, 0, 0);
    for (unsigned i = 0; i < SET_NUMBERS; i++) now.question[i] = UINT64_MAX;
    by_hand("ask-full-numbers", "0 1 1", "1089 0 0 0 0 0 0 0");
    as_ask(1 << 4 | 1 << 5 | 1 << 11, 1, 2, 0, 0);
    by_hand("ask-and-or-not-in-the-set", "0 1 1", NO_ANSWER);
    as_ask(late, UINT64_C(65539), 2, 0, 0);
    by_hand("ask-label-of-no-node", "0 1 1", NO_ANSWER);
    as_ask(late, 0, 2, 0, 0);
    by_hand("ask-label-0", "0 1 1", NO_ANSWER);
}

static void refused_asks(void) {
    const uint64_t end = UINT64_C(1) << 63;
    as_ask(1, 3, 2, 0, 0);
    now.question_len = 8;
    by_hand("ask-refusal-18-question", "18 0 0", NULL);
    as_ask(1, 3, 2, 0, 0);
    now.answer_len = 9;
    by_hand("ask-refusal-18-answer", "18 0 0", NULL);
    as_ask(1, 3, 2, 3, 0);
    by_hand("ask-refusal-14", "14 0 0", NULL);
    as_ask(1, 3, 2, 0, end);
    by_hand("ask-refusal-19", "19 0 0", NULL);
    as_ask(1, 3, 2, 0, end - 1);
    by_hand("ask-greatest-count", "0 9223372036854775808 1", NULL);
    as_ask(1, 3, 2, 3, end);
    by_hand("ask-refusals-14-and-19", "14 0 0", NULL);
    as_ask(1, 3, 2, 3, end);
    now.answer_len = 7;
    by_hand("ask-refusals-18-14-and-19", "18 0 0", NULL);
    as_ask(1, 3, 2, 3, end);
    now.answer_len = 7;
    now.book.len = 1;
    by_hand("ask-refusals-1-18-14-and-19", "1 0 0", NULL);
}

static void as_pass(uint64_t slots, uint64_t filled) {
    as_small_day(SLOT_NUMBERS * slots);
    now.call = CALL_PASS;
    now.asked = 100;
    now.anew = 50;
    now.filled = filled;
}

static void passes(void) {
    const uint64_t late = 1 << 3 | 1 << 9;
    as_pass(64, 0);
    by_hand("pass-from-no-slots", "0 117 58 8", SMALL_ROWS);
    as_pass(64, 1);
    add_slot(late, 3, 0, 0);
    by_hand("pass-late-answer-emptied", NULL, "0 0 6, 0 0 6, 0 0 6, 0 0 2, 24 9 0");
    as_pass(64, 2);
    add_slot(late, 3, UINT64_MAX, UINT64_MAX);
    add_slot(late, 3, 0, 0);
    by_hand("pass-late-answer-of-full-numbers", NULL, SMALL_ROWS);
    as_pass(2, 2);
    add_slot(0, 1, 1, 0);
    add_slot(0, 2, 1 << 12, UINT64_C(1) << 63);
    by_hand("pass-all-slots-wrong-and-full", NULL, "0 0 5, 0 0 5, 0 0 2, 0 0 3, 24 9 0");
    as_pass(4, 4);
    by_hand("pass-from-noise", "0 117 67 4", SMALL_ROWS);
    as_pass(2, 3);
    by_hand("pass-refusal-14", "14 0 0 0", NULL);
    as_pass(2, 2);
    now.asked = UINT64_MAX;
    by_hand("pass-refusal-19-asked", "19 0 0 0", NULL);
    as_pass(2, 2);
    now.anew = UINT64_C(1) << 63;
    by_hand("pass-refusal-19-anew", "19 0 0 0", NULL);
    as_pass(2, 3);
    now.workspace = 0;
    now.anew = UINT64_MAX;
    by_hand("pass-refusals-12-14-and-19", "12 0 0 0", NULL);
    as_pass(2, 3);
    now.asked = UINT64_C(1) << 63;
    by_hand("pass-refusals-14-and-19", "14 0 0 0", NULL);
}

void each_case(case_user *use) {
    use_case = use;
    small_days();
    small_earlier_contents();
    refused_books();
    refused_bodies();
    refused_days();
    two_refusals();
    refused_messages();
    open_starts();
    values();
    long_texts();
    shortcuts();
    loops();
    nothing();
    most_states();
    bodies();
    asked();
    refused_asks();
    passes();
}
