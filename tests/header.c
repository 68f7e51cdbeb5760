/* Holds include/esquirmell.h against the library behind it: each constant from both
 * sides, and each field of each result by a number that no other field has. It is
 * C99, and C++ too, as the header is.
 *   header BOOK DAY     the two files of the small day */
#include <inttypes.h>
#include <stdio.h>

#include "esquirmell.h"

/* More room than any limit that is tried, so that a wrong constant is told and not run into. */
enum {
    FILE_ROOM = 1 << 18,
    MEMORY_ROOM = 1 << 18,
    ANSWERS_ROOM = 1 << 16,
    WORKSPACE_ROOM = 1 << 12,
    SET_ROOM = 64
};
enum { SMALL_MESSAGES = 5, LARGE_MESSAGES = 2050 };

static uint8_t book[FILE_ROOM], small[FILE_ROOM], large[FILE_ROOM];
static size_t book_bytes, small_bytes;
static uint64_t memory[MEMORY_ROOM], answers[ANSWERS_ROOM], workspace[WORKSPACE_ROOM];
static int wrong;

static void is(const char *what, uint64_t got, uint64_t wanted) {
    if (got == wanted) return;
    printf("header: %s is %" PRIu64 ", and must be %" PRIu64 "\n", what, got, wanted);
    wrong = 1;
}

static void total_is(esq_total got, uint64_t refusal, uint64_t asked, uint64_t anew,
                     uint64_t filled) {
    is("esq_total.refusal", got.refusal, refusal);
    is("esq_total.asked", got.asked, asked);
    is("esq_total.anew", got.anew, anew);
    is("esq_total.filled", got.filled, filled);
}

static void reply_is(esq_reply got, uint64_t refusal, uint64_t anew, uint64_t filled) {
    is("esq_reply.refusal", got.refusal, refusal);
    is("esq_reply.anew", got.anew, anew);
    is("esq_reply.filled", got.filled, filled);
}

static void part_is(uint32_t id, uint64_t start, uint64_t length) {
    esq_part got = esquirmell_filter_body(book, book_bytes, id);
    is("esq_part.start", got.start, start);
    is("esq_part.length", got.length, length);
}

static esq_total run(const uint8_t *day, size_t day_bytes, size_t memory_numbers,
                     size_t answers_numbers, size_t workspace_numbers) {
    return esquirmell_run(book, book_bytes, day, day_bytes, memory, memory_numbers, answers,
                          answers_numbers, workspace, workspace_numbers);
}

/* The small day from filled slots, with room for two. */
static esq_total pass(uint64_t asked, uint64_t anew, size_t filled) {
    return esquirmell_pass(book, book_bytes, small, small_bytes, memory, 2 * ESQ_SLOT_NUMBERS,
                           answers, ESQ_ROW_NUMBERS * SMALL_MESSAGES, workspace,
                           ESQ_WORKSPACE_NUMBERS, asked, anew, filled);
}

/* What the label of a closing node and the set at it make of its parent. */
static esq_reply ask(size_t filled, uint64_t anew, uint64_t set, uint64_t label, uint64_t *answer) {
    uint64_t question[ESQ_QUESTION_NUMBERS] = {0};
    question[0] = set;
    question[ESQ_QUESTION_NUMBERS - 1] = label;
    return esquirmell_ask(book, book_bytes, memory, 2 * ESQ_SLOT_NUMBERS, filled, anew, question,
                          ESQ_QUESTION_NUMBERS, answer, ESQ_ANSWER_NUMBERS);
}

static size_t put(uint8_t *at, uint64_t number, size_t bytes) {
    for (size_t k = 0; k < bytes; k++) at[k] = (uint8_t)(number >> 8 * k);
    return bytes;
}

static size_t put_event(uint8_t *at, uint8_t kind, unsigned label) {
    at[0] = kind;
    return 1 + put(at + 1, label, 2);
}

/* Messages of two elements, one in the other, with labels that no other message has: two questions
 * each, and all different. */
static size_t make_large(unsigned messages) {
    size_t at = put(large, messages, 2);
    for (unsigned k = 0; k < messages; k++) {
        at += put(large + at, 2 + 8 * (uint64_t)messages + 12 * (uint64_t)k, 4);
        at += put(large + at, 12, 4);
    }
    for (unsigned k = 0; k < messages; k++) {
        at += put_event(large + at, 1, 2 * k + 1);
        at += put_event(large + at, 1, 2 * k + 2);
        at += put_event(large + at, 3, 2 * k + 2);
        at += put_event(large + at, 3, 2 * k + 1);
    }
    return at;
}

/* Counts past 32 bits show a field that is too narrow. */
static void fields_of_total(void) {
    const uint64_t far = UINT64_C(1) << 40, too_far = UINT64_C(1) << 63;
    size_t answers_numbers = ESQ_ROW_NUMBERS * SMALL_MESSAGES;
    total_is(run(small, small_bytes, 2 * ESQ_SLOT_NUMBERS, answers_numbers, ESQ_WORKSPACE_NUMBERS),
             0, 17, 14, 2);
    total_is(run(small, 1, 2 * ESQ_SLOT_NUMBERS, answers_numbers, ESQ_WORKSPACE_NUMBERS), 8, 0, 0,
             0);
    total_is(pass(far, 3 * far, 0), 0, far + 17, 3 * far + 14, 2);
    total_is(pass(100, 50, 2), 0, 117, 62, 2);
    total_is(pass(0, 0, 3), 14, 0, 0, 0);
    total_is(pass(too_far, 0, 2), 19, 0, 0, 0);
    total_is(pass(0, too_far, 2), 19, 0, 0, 0);
}

/* A late of 7 closes, and then the call around it. */
static void fields_of_reply(void) {
    const uint64_t far = UINT64_C(1) << 40;
    uint64_t answer[SET_ROOM];
    reply_is(ask(0, far, 0x208, 3, answer), 0, far + 1, 1);
    is("the answer", answer[0], 0x104);
    reply_is(ask(1, far + 1, 0x104, 2, answer), 0, far + 2, 2);
    is("the second answer", answer[0], 0x2082);
    is("the second slot's set", memory[ESQ_SLOT_NUMBERS], 0x104);
    is("the second slot's label", memory[ESQ_SLOT_NUMBERS + ESQ_QUESTION_NUMBERS - 1], 2);
    is("the second slot's answer", memory[ESQ_SLOT_NUMBERS + ESQ_QUESTION_NUMBERS], 0x2082);
    is("the second slot's end", 2 * ESQ_SLOT_NUMBERS,
       ESQ_SLOT_NUMBERS + ESQ_QUESTION_NUMBERS + ESQ_ANSWER_NUMBERS);
    reply_is(ask(3, 0, 0x208, 3, answer), 14, 0, 0);
    reply_is(ask(0, UINT64_C(1) << 63, 0x208, 3, answer), 19, 0, 0);
}

/* The last filter's id, 30, makes room for one with four bytes that differ. */
static void fields_of_part(void) {
    part_is(10, 26, 32);
    part_is(20, 58, 48);
    part_is(21, 0, 0);
    put(book + 18, UINT32_C(0x89ABCDEF), 4);
    part_is(UINT32_C(0x89ABCDEF), 106, 48);
    part_is(UINT32_C(0xCDEF), 0, 0);
    put(book + 18, 30, 4);
}

static void slots(void) {
    size_t bytes = make_large(LARGE_MESSAGES), most = ESQ_SLOT_NUMBERS * ESQ_MOST_SLOTS;
    const size_t lent[5] = {3 * ESQ_SLOT_NUMBERS - 1, 3 * ESQ_SLOT_NUMBERS, most - 1, most,
                            most + ESQ_SLOT_NUMBERS};
    const uint64_t filled[5] = {2, 3, ESQ_MOST_SLOTS - 1, ESQ_MOST_SLOTS, ESQ_MOST_SLOTS};
    for (int k = 0; k < 5; k++) {
        esq_total total = run(large, bytes, lent[k], ANSWERS_ROOM, WORKSPACE_ROOM);
        is(k < 2 ? "slots filled by ESQ_SLOT_NUMBERS" : "slots filled by ESQ_MOST_SLOTS",
           total.filled, filled[k]);
    }
}

static void messages(void) {
    size_t bytes = make_large(ESQ_MOST_MESSAGES), rows = ESQ_ROW_NUMBERS * ESQ_MOST_MESSAGES;
    is("the refusal of ESQ_MOST_MESSAGES",
       run(large, bytes, 0, rows, ESQ_WORKSPACE_NUMBERS).refusal, 0);
    is("the refusal of a number fewer than ESQ_ROW_NUMBERS each",
       run(large, bytes, 0, rows - 1, ESQ_WORKSPACE_NUMBERS).refusal, 11);
    bytes = make_large(ESQ_MOST_MESSAGES + 1);
    is("the refusal of one more than ESQ_MOST_MESSAGES",
       run(large, bytes, 0, ANSWERS_ROOM, ESQ_WORKSPACE_NUMBERS).refusal, 9);
}

static void rows(void) {
    const uint64_t row[3] = {24, 9, 0};
    size_t lent = ESQ_ROW_NUMBERS * SMALL_MESSAGES;
    is("the refusal of ESQ_ROW_NUMBERS each",
       run(small, small_bytes, 0, lent, ESQ_WORKSPACE_NUMBERS).refusal, 0);
    is("the refusal of a number fewer than ESQ_ROW_NUMBERS each",
       run(small, small_bytes, 0, lent - 1, ESQ_WORKSPACE_NUMBERS).refusal, 11);
    is("the filters in the row of ESQ_ROW_NUMBERS, message 3", answers[ESQ_ROW_NUMBERS * 2 + 2], 6);
    for (int k = 0; k < 3; k++)
        is("the row of ESQ_ROW_NUMBERS, message 5", answers[ESQ_ROW_NUMBERS * 4 + k], row[k]);
}

static void workspace_numbers(void) {
    is("the refusal of ESQ_WORKSPACE_NUMBERS",
       run(small, small_bytes, 0, ANSWERS_ROOM, ESQ_WORKSPACE_NUMBERS).refusal, 0);
    is("the refusal of a number fewer than ESQ_WORKSPACE_NUMBERS",
       run(small, small_bytes, 0, ANSWERS_ROOM, ESQ_WORKSPACE_NUMBERS - 1).refusal, 12);
}

static void question_numbers(void) {
    uint64_t question[SET_ROOM] = {0}, answer[SET_ROOM] = {0};
    for (int k = -1; k <= 1; k++) {
        esq_reply reply =
            esquirmell_ask(book, book_bytes, memory, 0, 0, 0, question,
                           (size_t)(ESQ_QUESTION_NUMBERS + k), answer, ESQ_ANSWER_NUMBERS);
        is("the refusal of ESQ_QUESTION_NUMBERS, or one beside it", reply.refusal, k ? 18 : 0);
        reply = esquirmell_ask(book, book_bytes, memory, 0, 0, 0, question, ESQ_QUESTION_NUMBERS,
                               answer, (size_t)(ESQ_ANSWER_NUMBERS + k));
        is("the refusal of ESQ_ANSWER_NUMBERS, or one beside it", reply.refusal, k ? 18 : 0);
    }
}

/* Words for each number that a call or a message can get, and for no other. */
static void words(void) {
    static const uint8_t number[] = {1,  2,  3,  4,  5,  6,  7,  8,  9,  10, 11, 12,
                                     14, 18, 19, 21, 22, 23, 24, 25, 26, 27, 28, 29};
    size_t next = 0;
    for (uint64_t k = 0; k < 300; k++) {
        int has_words = next < sizeof number && k == number[next];
        if (has_words) next++;
        is("whether esquirmell_words has words", esquirmell_words(k) != NULL, (uint64_t)has_words);
    }
}

static size_t read_file(const char *path, uint8_t *room) {
    FILE *file = fopen(path, "rb");
    size_t bytes = file == NULL ? 0 : fread(room, 1, FILE_ROOM, file);
    if (file != NULL) fclose(file);
    return bytes;
}

int main(int count, char **word) {
    if (count != 3) {
        fprintf(stderr, "header BOOK DAY\n");
        return 2;
    }
    book_bytes = read_file(word[1], book);
    small_bytes = read_file(word[2], small);
    fields_of_total();
    fields_of_reply();
    fields_of_part();
    slots();
    messages();
    rows();
    workspace_numbers();
    question_numbers();
    words();
    return wrong;
}
