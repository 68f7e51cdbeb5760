/* The other three calls, on the small day: a filter's body, one question to the
 * inner call, and a pass from the slots that a run has filled. Each prints a line.
 *   calls BOOK DAY */
#include <inttypes.h>
#include <stdio.h>

#include "esquirmell.h"

enum { BOOK_ROOM = 4611, DAY_ROOM = 32769, SLOTS = 64, MESSAGES = 1024 };

static uint8_t book[BOOK_ROOM], day[DAY_ROOM];
static size_t book_bytes, day_bytes;
static uint64_t memory[ESQ_SLOT_NUMBERS * SLOTS];
static uint64_t answers[ESQ_ROW_NUMBERS * MESSAGES];
static uint64_t workspace[ESQ_WORKSPACE_NUMBERS];

static size_t read_file(const char *path, uint8_t *room, size_t size) {
    FILE *file = fopen(path, "rb");
    size_t bytes = file == NULL ? 0 : fread(room, 1, size, file);
    if (file != NULL) fclose(file);
    return bytes;
}

static void show_body(uint32_t id) {
    esq_part part = esquirmell_filter_body(book, book_bytes, id);
    printf("body of %" PRIu32 ": %zu bytes from %zu\n", id, part.length, part.start);
}

/* A late of 7 closes: states 3 and 9 match it, so its parent has a late over 5. */
static void show_question(void) {
    uint64_t question[ESQ_QUESTION_NUMBERS] = {1 << 3 | 1 << 9, 0, 0, 0, 0, 0, 0, 0, 3};
    uint64_t answer[ESQ_ANSWER_NUMBERS];
    esq_reply reply = {0, 0, 0};
    for (int k = 0; k < 2; k++) { /* the second time a slot has the answer */
        reply =
            esquirmell_ask(book, book_bytes, memory, ESQ_SLOT_NUMBERS * SLOTS, reply.filled,
                           reply.anew, question, ESQ_QUESTION_NUMBERS, answer, ESQ_ANSWER_NUMBERS);
        printf("question: %" PRIu64 ", answer %#" PRIx64 ", anew %" PRIu64 ", filled %zu\n",
               reply.refusal, answer[0], reply.anew, reply.filled);
    }
}

/* The same day once more: every answer is in a slot, and nothing is worked out. */
static void show_pass(void) {
    esq_total total = {0, 0, 0, 0};
    for (int k = 0; k < 2; k++) {
        total = esquirmell_pass(book, book_bytes, day, day_bytes, memory, ESQ_SLOT_NUMBERS * SLOTS,
                                answers, ESQ_ROW_NUMBERS * MESSAGES, workspace,
                                ESQ_WORKSPACE_NUMBERS, total.asked, total.anew, total.filled);
        printf("pass: %" PRIu64 ", asked %" PRIu64 ", anew %" PRIu64 ", filled %zu\n",
               total.refusal, total.asked, total.anew, total.filled);
    }
}

/* Null wherever the count is 0: no memory at all, then nothing at all. */
static void show_null(void) {
    esq_total run = esquirmell_run(book, book_bytes, day, day_bytes, NULL, 0, answers,
                                   ESQ_ROW_NUMBERS * MESSAGES, workspace, ESQ_WORKSPACE_NUMBERS);
    printf("no slots: %" PRIu64 ", asked %" PRIu64 ", anew %" PRIu64 ", filled %zu\n", run.refusal,
           run.asked, run.anew, run.filled);
    run = esquirmell_run(NULL, 0, NULL, 0, NULL, 0, NULL, 0, NULL, 0);
    esq_total pass = esquirmell_pass(NULL, 0, NULL, 0, NULL, 0, NULL, 0, NULL, 0, 0, 0, 0);
    esq_reply ask = esquirmell_ask(NULL, 0, NULL, 0, 0, 0, NULL, 0, NULL, 0);
    esq_reply no_question = esquirmell_ask(book, book_bytes, NULL, 0, 0, 0, NULL, 0, NULL, 0);
    esq_part part = esquirmell_filter_body(NULL, 0, 10);
    printf("null: run %" PRIu64 ", pass %" PRIu64 ", ask %" PRIu64 " and %" PRIu64 ", body %zu\n",
           run.refusal, pass.refusal, ask.refusal, no_question.refusal, part.length);
}

/* No message, so no answer numbers are needed, and none of either is lent. */
static void show_empty_day(void) {
    const uint8_t no_messages[2] = {0, 0};
    esq_total run = esquirmell_run(book, book_bytes, no_messages, 2, NULL, 0, NULL, 0, workspace,
                                   ESQ_WORKSPACE_NUMBERS);
    printf("empty day: %" PRIu64 "\n", run.refusal);
}

int main(int count, char **word) {
    if (count != 3) {
        fprintf(stderr, "calls BOOK DAY\n");
        return 2;
    }
    book_bytes = read_file(word[1], book, BOOK_ROOM);
    day_bytes = read_file(word[2], day, DAY_ROOM);
    show_body(20);
    show_body(21);
    show_question();
    show_pass();
    show_null();
    show_empty_day();
    return 0;
}
