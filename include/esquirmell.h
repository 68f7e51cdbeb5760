/* Esquirmell for C and C++, and for any language that can call C.
 *
 *     (cd crates/exported && rt lib)
 *     gcc -Iinclude program.c crates/exported/out/libexported.a -o program
 *
 * The library is for x86-64 (level v2 and up) and needs nothing but memset.
 * examples/small.c is a whole program; docs/FORMATS.md has the bytes of a book,
 * a day file and a slot.
 *
 * What is lent. Each area is a pointer and a count: of bytes for a book and a
 * day file, of 64-bit numbers for everything else. What a caller must see to:
 *
 *   - The count is true: that many bytes or numbers are there.
 *   - Numbers are aligned to 8 bytes. Bytes may start anywhere.
 *   - An area that the call may write (memory, answers, workspace, answer)
 *     overlaps no other area of the same call, the book and the day included.
 *     Areas that are only read (book, day, question) may overlap each other.
 *   - A pointer may be null where its count is 0: nothing is read or written
 *     there. A count of 0 is never a fault: the call answers it as the rules
 *     do, often by a refusal (an empty book is refused by 1).
 *   - Nothing has to be cleared before a call.
 *
 * What a call does. It keeps no pointer after it has returned, takes no memory
 * of its own, opens nothing and has no data of its own that it writes. So calls may run
 * side by side in as many threads as you like, each on its own memory, answers
 * and workspace; a book and a day that nobody writes may be shared.
 *
 * Stack. A call takes under 40 KiB of stack, whatever it is given: local tables
 * of 36,864 bytes (a plan of 12,288 and an index of 24,576) and less
 * than 1,024 bytes of frames. Nothing in it calls itself. Leave 64 KiB. bench/stack.c measures it.
 *
 * Refusals. A refused call gives its number and zero counts, and everything lent
 * keeps every number that it had. esquirmell_words, below, says each number in
 * words. esquirmell_run checks 1 to 12 in this order, esquirmell_pass 1 to 12,
 * then 14, then 19, and esquirmell_ask 1 to 7, then 18, then 14, then 19. The
 * first that fails is the number; 0 is given where none does.
 *
 * A message that is refused does not refuse the run. Its row has a number from 21
 * to 29, the place of the refused event's first byte in the message (for 29 the
 * message's length), and no filter.
 */
#ifndef ESQUIRMELL_H
#define ESQUIRMELL_H

#include <stddef.h>
#include <stdint.h>

#ifdef __cplusplus
extern "C" {
#endif

enum {
    ESQ_SLOT_NUMBERS = 17, /* a slot: asked set 8, label 1, answer 8 */
    ESQ_MOST_SLOTS = 4096, /* memory past so many slots is not used */
    ESQ_MOST_MESSAGES = 4096,
    ESQ_ROW_NUMBERS = 3,         /* a message's row: refusal, place, filters */
    ESQ_WORKSPACE_NUMBERS = 650, /* 65 levels of ten */
    ESQ_QUESTION_NUMBERS = 9,    /* a set and a label */
    ESQ_ANSWER_NUMBERS = 8       /* a set */
};

/* The result of a run or a pass: its refusal, or 0; the questions asked; those
 * worked out anew and not taken from a slot; the slots filled. */
typedef struct {
    uint64_t refusal;
    uint64_t asked;
    uint64_t anew;
    size_t filled;
} esq_total;

/* The result of the inner call: its refusal, or 0, and the two counts as they
 * are to be handed in with the next question. */
typedef struct {
    uint64_t refusal;
    uint64_t anew;
    size_t filled;
} esq_reply;

/* A part of the book: its bytes from `start` on, `length` of them. */
typedef struct {
    size_t start;
    size_t length;
} esq_part;

/* What a refusal's number says, in words; a null pointer for any other number. It
 * is plain C, for programs that tell a person, and no call of the proved library:
 * nothing is promised of it. */
static inline const char *esquirmell_words(uint64_t number) {
    switch (number) {
    case 1: return "the book has fewer than 2 bytes, or ends inside its contents";
    case 2: return "the book has more than 64 filters";
    case 3: return "an id is not higher than the one before it";
    case 4: return "a filter has no state, or the book has more than 512";
    case 5: return "a body is not where it must be, or the book does not end with the last";
    case 6: return "a state is no row of the table of kinds";
    case 7: return "a successor is not in its body, or not higher where it must be";
    case 8:
        return "the day file has fewer than 2 bytes, ends inside its table, or has more than "
               "1,048,576";
    case 9: return "the day file has more than 4,096 messages";
    case 10: return "a message is not where it must be, or the file does not end with the last";
    case 11: return "fewer than 3 answer numbers a message are lent";
    case 12: return "fewer than 650 workspace numbers are lent";
    case 14: return "more slots are said to be filled than are lent, or than 4,096";
    case 18: return "the question is not nine numbers, or the room for its answer not eight";
    case 19: return "a count that is handed in, asked or anew, is 2^63 or more";
    case 21: return "an event is no start, text or end";
    case 22: return "an event runs past the end of the message";
    case 23: return "a start has label 0 or 32,768";
    case 24: return "a start is not allowed here";
    case 25: return "this would be the 65th open start";
    case 26: return "a text is not allowed here";
    case 27: return "a text is a whole number out of range";
    case 28: return "an end closes nothing, or something else";
    case 29: return "the top element never came, or is still open";
    default: return NULL;
    }
}

/* Below, an area and its count share a line. */
/* clang-format off */

/* The whole run, from no filled slot.
 *
 *   book       the filter book, 2 to 4,610 bytes if it is not to be refused
 *   day        the day file, up to 1,048,576 bytes
 *   memory     17 numbers a slot, any count, 0 too; what it held plays no part.
 *              Afterwards the first `filled` slots hold questions and answers
 *   answers    3 numbers a message: refusal, place, filters. Bit k of filters is
 *              the filter at place k in the book's contents
 *   workspace  650 numbers or more; afterwards the first 650 are 0
 *
 * Numbers past what is written keep what they had. */
esq_total esquirmell_run(const uint8_t *book, size_t book_bytes,
                         const uint8_t *day, size_t day_bytes,
                         uint64_t *memory, size_t memory_numbers,
                         uint64_t *answers, size_t answers_numbers,
                         uint64_t *workspace, size_t workspace_numbers);

/* The pass over the messages, from `filled` slots that the memory holds already,
 * right or wrong, and from the counts `asked` and `anew`, which it raises. With
 * three zeros it is the run. A slot's answer is given as it stands, so hand in
 * only slots of the same book: another book's answers are wrong for this one. */
esq_total esquirmell_pass(const uint8_t *book, size_t book_bytes,
                          const uint8_t *day, size_t day_bytes,
                          uint64_t *memory, size_t memory_numbers,
                          uint64_t *answers, size_t answers_numbers,
                          uint64_t *workspace, size_t workspace_numbers,
                          uint64_t asked, uint64_t anew, size_t filled);

/* The inner call: one question to a book, from any filled slots. If one of the
 * `filled` slots asks it, the first such slot's answer is given and the counts
 * stay. If not, it is worked out, `anew` rises by one, and it is kept where a
 * slot is free.
 *
 *   question   nine numbers: the asked set (8) and the label
 *   answer     eight numbers: the STEP states that the child makes match */
esq_reply esquirmell_ask(const uint8_t *book, size_t book_bytes,
                         uint64_t *memory, size_t memory_numbers,
                         size_t filled, uint64_t anew,
                         const uint64_t *question, size_t question_numbers,
                         uint64_t *answer, size_t answer_numbers);

/* Where the body of filter `id` stands in the book. Start and length are 0
 * exactly when the book is refused (1 to 7) or has no such id. */
esq_part esquirmell_filter_body(const uint8_t *book, size_t book_bytes, uint32_t id);

/* clang-format on */

#ifdef __cplusplus
}
#endif

#endif
