/* The inputs of the command's fuzz, and what the second engine says of them. See fuzz.h. */
#include "fuzz.h"

#include <stdio.h>
#include <string.h>

#include "../second/make.h"

static dice luck;
static book_plan book;
static day_plan day;
static bytes book_bytes, day_bytes, good;

unsigned fuzz_below(unsigned end) { return below(&luck, end); }
bool fuzz_chance(unsigned percent) { return chance(&luck, percent); }

/* ---- Messages that are refused ------------------------------------------------ */

/* Some open elements; the label of the innermost. */
static unsigned open_some(bytes *b) {
    unsigned label = 1;
    for (unsigned k = from_to(&luck, 1, 5); k > 0; k--) {
        label = choose_label(&luck, true);
        add_start(b, label);
    }
    return label;
}

static void add_cut_event(bytes *b) {
    open_some(b);
    switch (below(&luck, 4)) {
    case 0: add_byte(b, chance(&luck, 50) ? 1 : 3); break;
    case 1: add_byte(b, 2); break;
    case 2: add_bytes(b, "\x02\x09\x31\x32", 4); break;
    default: add_bytes(b, "\x01\x02", 2); break;
    }
}

static void add_stray_start(bytes *b) {
    unsigned way = below(&luck, 6), label = way == 0 ? 0 : open_some(b);
    unsigned attribute = choose_label(&luck, false);
    if (way == 1) add_end(b, label);
    if (way == 2) add_text(b, "7", below(&luck, 2));
    if (way == 3) add_start(b, 3);
    if (way == 3) add_end(b, 3);
    if (way == 4) add_start(b, attribute);
    add_start(b, way == 4 || chance(&luck, 40) ? 2 : attribute);
}

static void add_stray_text(bytes *b) {
    unsigned way = below(&luck, 4);
    if (way > 0) open_some(b);
    if (way == 1) add_text(b, "", 0);
    if (way == 2) add_start(b, 2);
    if (way == 2) add_end(b, 2);
    if (way == 3) add_text(b, "7", 1);
    add_text(b, "5", 1);
}

static void add_large_number(bytes *b) {
    static const char *const LARGE[] = {"2147483648",     "-2147483649",
                                        " 4294967296\n",  "00000000002147483648",
                                        "99999999999999", "-99999999999999999999999"};
    const char *text = LARGE[below(&luck, 6)];
    open_some(b);
    if (chance(&luck, 50)) add_start(b, choose_label(&luck, false));
    add_text(b, text, strlen(text));
}

static void add_stray_end(bytes *b) {
    unsigned way = below(&luck, 3), label = way == 0 ? 1 : open_some(b);
    add_end(b, way == 1 ? label + 1 : way == 2 ? label ^ 32768 : label);
}

static void add_many_starts(bytes *b, unsigned count) {
    while (--count > 0) add_start(b, choose_label(&luck, true));
    add_start(b, choose_label(&luck, chance(&luck, 50)));
}

/* A message that this refusal, 21 to 29, is for; often more bytes follow. */
static void add_bad_message(bytes *b, unsigned refusal) {
    switch (refusal) {
    case 21: open_some(b), add_byte(b, chance(&luck, 50) ? 0 : from_to(&luck, 4, 255)); break;
    case 22: add_cut_event(b); return;
    case 23: open_some(b), add_start(b, chance(&luck, 50) ? 0 : 32768); break;
    case 24: add_stray_start(b); break;
    case 25: add_many_starts(b, 65); break;
    case 26: add_stray_text(b); break;
    case 27: add_large_number(b); break;
    case 28: add_stray_end(b); break;
    default:
        if (chance(&luck, 70)) open_some(b);
        return;
    }
    if (chance(&luck, 50))
        for (unsigned k = below(&luck, 40); k > 0; k--) add_byte(b, below(&luck, 6));
}

static void make_bad_messages(unsigned refusal) {
    message_plan m;
    unsigned messages = from_to(&luck, 1, 5), one = below(&luck, messages);
    new_day(&day);
    for (unsigned k = 0; k < messages; k++) {
        make_message(&luck, &m);
        if (k == one || chance(&luck, 30))
            add_bad_message(&day.bodies, k == one ? refusal : from_to(&luck, 21, 29));
        else
            write_message(&m, &day.bodies, &luck);
        end_message(&day);
    }
}

/* ---- Texts of any bytes ---------------------------------------------------------- */

/* Characters of several bytes, quotes and bytes that are no characters, so that
 * each way of writing a text comes up. */
static void add_odd_text(bytes *b) {
    static const char *const ODD[] = {"\"",
                                      "\\",
                                      "\n",
                                      "\r",
                                      "\t",
                                      "#",
                                      "\x7f",
                                      "\x01",
                                      "\xc3\xa4",
                                      "\xff",
                                      "\xc2",
                                      "\xc2\x9b",
                                      "\xe2\x82\xac",
                                      "\xed\xa0\x80",
                                      " ",
                                      "x41",
                                      "\\x41",
                                      "a",
                                      "7",
                                      "\xf0\x9f\x9a\x82"};
    uint8_t text[255];
    size_t length = 0;
    for (unsigned k = below(&luck, 12); k > 0; k--) {
        const char *more = ODD[below(&luck, sizeof ODD / sizeof ODD[0])];
        memcpy(text + length, more, strlen(more));
        length += strlen(more);
    }
    if (chance(&luck, 10)) text[length++] = 0;
    add_text(b, text, length);
}

static void add_odd_message(void) {
    add_start(&day.bodies, 1);
    add_start(&day.bodies, 32772);
    add_odd_text(&day.bodies);
    add_end(&day.bodies, 32772);
    if (chance(&luck, 50)) add_odd_text(&day.bodies);
    add_end(&day.bodies, 1);
    end_message(&day);
}

/* ---- Each relation and each sort of STEP ------------------------------------------- */

static void make_step_filter(uint32_t id, unsigned label) {
    new_filter(&book, id);
    add_row(&book, STEP_ROW, 1, 1);
    add_row(&book, STEP_ROW, label, 2);
    add_row(&book, TRUE_ROW, 0, 0);
}

/* A top element with a value, with an attribute before it or not. */
static void add_value_message(int64_t value, bool with_attribute) {
    char text[24];
    int length = snprintf(text, sizeof text, "%lld", (long long)value);
    add_start(&day.bodies, 1);
    if (with_attribute) add_start(&day.bodies, 32769);
    if (with_attribute) add_end(&day.bodies, 32769);
    add_text(&day.bodies, text, (size_t)length);
    add_end(&day.bodies, 1);
    end_message(&day);
}

/* Values on both sides of a constant, a child element alone, and an attribute alone. */
static void make_values(void) {
    static const int32_t CONSTANT[] = {0, -1, 7, 256, INT32_MIN, INT32_MAX};
    int32_t constant = CONSTANT[below(&luck, 6)];
    new_book(&book);
    new_day(&day);
    for (unsigned relation = 1; relation <= 6; relation++) {
        new_filter(&book, 10 * relation);
        add_row(&book, STEP_ROW, chance(&luck, 50) ? 1 : 0, 1);
        add_leaf(&book, relation, constant);
    }
    make_step_filter(70, 0);
    make_step_filter(80, 32768);
    for (int by = -1; by <= 1; by++) add_value_message((int64_t)constant + by, by == 0);
    add_service(&day, false, 1, "7", NULL);
}

/* ---- A message of many nodes ------------------------------------------------------- */

static void add_many(unsigned depth, unsigned width) {
    unsigned children = depth == 0 ? 0 : width;
    add_start(&day.bodies, depth == 3 ? 1 : 2);
    while (children-- > 0) add_many(depth - 1, width);
    add_end(&day.bodies, depth == 3 ? 1 : 2);
}

/* Children of one label, now and then so many that a reason is cut unless all is asked for. */
static void make_large(void) {
    new_book(&book);
    new_filter(&book, 0);
    add_row(&book, NOT_ROW, 1, 0);
    add_row(&book, OR_ROW, 2, 3);
    add_row(&book, STEP_ROW, 0, 1);
    add_row(&book, STEP_ROW, 3, 4);
    add_row(&book, TRUE_ROW, 0, 0);
    make_step_filter(UINT32_MAX, 2);
    new_day(&day);
    add_many(3, chance(&luck, 20) ? 10 : from_to(&luck, 3, 5));
    end_message(&day);
}

/* ---- Books and day files ------------------------------------------------------------ */

static void make_noise(bytes *b) {
    b->len = 0;
    for (unsigned k = below(&luck, 60); k > 0; k--)
        add_byte(b, chance(&luck, 50) ? below(&luck, 12) : (unsigned)(roll(&luck) & 255));
    if (b->len > 1 && chance(&luck, 80)) b->at[1] = 0;
    if (b->len > 0 && chance(&luck, 80)) b->at[0] = (uint8_t)below(&luck, 5);
}

static void make_good(void) {
    make_book(&luck, &book);
    make_day(&luck, &day, chance(&luck, 3) ? 40 : below(&luck, 6));
    if (chance(&luck, 30)) add_odd_message();
    write_book(&book, &book_bytes);
    write_day(&day, &day_bytes);
}

/* A file of the good one's length is wrong in the entries or states that differ; a day
 * file perhaps only behind them. */
static void bound_by_difference(fuzz_file *f, bool is_book) {
    size_t first = 0, last = f->bytes;
    if (memcmp(f->at, good.at, good.len) == 0) return;
    while (f->at[first] == good.at[first]) first++;
    while (f->at[last - 1] == good.at[last - 1]) last--;
    f->low = first < 2 ? 0 : 2 + (first - 2) / 8 * 8;
    if (is_book && last > 2) f->high = 2 + (last - 3) / 8 * 8 + 7;
}

/* A file that was cut is wrong at its end, and one that goes on where the good one ends. */
static void bound(fuzz_file *f, bool is_book, bool is_spoiled) {
    size_t same = f->bytes < good.len ? f->bytes : good.len;
    f->low = 0;
    f->high = f->bytes;
    if (!is_spoiled || f->bytes > DAY_AT_MOST) return;
    if (f->bytes == good.len)
        bound_by_difference(f, is_book);
    else if (memcmp(f->at, good.at, same) == 0)
        f->low = f->high = same;
}

static void spoil_a_book(unsigned refusal) {
    while (book.filters < 3) make_book(&luck, &book);
    write_book(&book, &good);
    spoil_book(&luck, &book, refusal);
    write_book(&book, &book_bytes);
}

static void spoil_a_day(unsigned refusal) {
    write_day(&day, &good);
    spoil_day(&luck, &day, refusal);
    write_day(&day, &day_bytes);
}

static enum made make_files(unsigned turn) {
    make_good();
    if (turn < 10) return VALID;
    if (turn < 17) return spoil_a_book(turn - 9), BAD_BOOK;
    if (turn < 20) return spoil_a_day(turn - 9), BAD_DAY;
    if (turn < 29) {
        make_bad_messages(turn + 1);
        write_day(&day, &day_bytes);
        return BAD_MESSAGES;
    }
    if (turn < 34) {
        if (chance(&luck, 60)) damage(&luck, &book_bytes, 0);
        if (chance(&luck, 60)) damage(&luck, &day_bytes, 0);
        return DAMAGED;
    }
    if (turn < 36) {
        if (chance(&luck, 60)) make_noise(&book_bytes);
        make_noise(&day_bytes);
        return NOISE;
    }
    if (turn < 37)
        make_values();
    else
        make_large();
    write_book(&book, &book_bytes);
    write_day(&day, &day_bytes);
    return turn < 37 ? VALUES : LARGE;
}

/* ---- What the second engine says ------------------------------------------------------ */

static const uint8_t NOTHING[2] = {0, 0};
static uint64_t workspace[LEVEL_NUMBERS];

unsigned fuzz_book_refusal(const uint8_t *at, size_t length) {
    uint64_t none[1];
    return (unsigned)second_run(at, length, NOTHING, 2, none, 0, none, 0, workspace, LEVEL_NUMBERS)
        .refusal;
}

/* The rows of the day with a book of no filter. */
static unsigned rows_alone(const uint8_t *at, size_t length, uint64_t *row) {
    uint64_t none[1];
    return (unsigned)second_run(NOTHING, 2, at, length, none, 0, row, 3 * FUZZ_MESSAGES, workspace,
                                LEVEL_NUMBERS)
        .refusal;
}

unsigned fuzz_day_refusal(const uint8_t *at, size_t length) {
    static uint64_t row[3 * FUZZ_MESSAGES];
    return rows_alone(at, length, row);
}

static void predict(fuzz_input *i) {
    i->book.refusal = fuzz_book_refusal(i->book.at, i->book.bytes);
    i->day.refusal = rows_alone(i->day.at, i->day.bytes, i->row);
    esq_result r = second_run(i->book.at, i->book.bytes, i->day.at, i->day.bytes, i->memory,
                              FUZZ_SLOT_NUMBERS * (size_t)i->slots, i->row, 3 * FUZZ_MESSAGES,
                              workspace, LEVEL_NUMBERS);
    i->refusal = (unsigned)r.refusal;
    i->asked = r.asked;
    i->anew = r.anew;
    i->filled = r.filled;
}

static void note_book(fuzz_input *i) {
    i->filters = i->book.refusal == 0 ? get_two(i->book.at) : 0;
    for (unsigned k = 0; k < i->filters; k++) i->id[k] = get_four(i->book.at + 2 + 8 * k);
    if (i->book.refusal != 0) return;
    for (size_t k = 2 + 8 * (size_t)i->filters; k < i->book.bytes; k += 8)
        if (i->book.at[k] == STEP_ROW) i->label[get_two(i->book.at + k + 2)] = true;
}

static void note_labels(fuzz_input *i, const uint8_t *at, size_t left) {
    while (left > 0 && at[0] >= 1 && at[0] <= 3 && event_size(at, left) <= left) {
        size_t taken = event_size(at, left);
        if (at[0] != 2) i->label[get_two(at + 1)] = true;
        at += taken;
        left -= taken;
    }
}

static void note_day(fuzz_input *i) {
    i->messages = i->day.refusal == 0 ? get_two(i->day.at) : 0;
    for (unsigned k = 0; k < i->messages; k++) {
        i->start[k] = get_four(i->day.at + 2 + 8 * k);
        i->length[k] = get_four(i->day.at + 6 + 8 * k);
        note_labels(i, i->day.at + i->start[k], i->length[k]);
    }
}

bool fuzz_filter_of(const fuzz_file *f, size_t byte, uint32_t *id, int *state) {
    unsigned filters = get_two(f->at);
    size_t end = 2 + 8 * (size_t)filters;
    *state = -1;
    if (byte < 2) return false;
    if (byte < end) return *id = get_four(f->at + 2 + (byte - 2) / 8 * 8), true;
    for (unsigned k = 0; k < filters; k++) {
        size_t body = end;
        end += 8 * (size_t)get_two(f->at + 8 + 8 * k);
        *id = get_four(f->at + 2 + 8 * k);
        *state = (int)((byte - body) / 8);
        if (byte < end) return true;
    }
    return false;
}

void fuzz_make(uint64_t seed, fuzz_input *i) {
    static const struct {
        const char *word;
        unsigned slots;
    } SLOTS[] = {{"", 64},   {"0", 0},       {"1", 1},       {"3", 3},
                 {"64", 64}, {"4096", 4096}, {"4097", 4096}, {"18446744073709551617", 4096},
                 {"0005", 5}};
    luck.at = seed;
    unsigned lent = below(&luck, sizeof SLOTS / sizeof SLOTS[0]);
    i->seed = seed;
    i->made = make_files((unsigned)(seed % FUZZ_TURNS));
    i->slots_word = SLOTS[lent].word;
    i->slots = SLOTS[lent].slots;
    i->book = (fuzz_file){.at = book_bytes.at, .bytes = book_bytes.len};
    i->day = (fuzz_file){.at = day_bytes.at, .bytes = day_bytes.len};
    bound(&i->book, true, i->made == BAD_BOOK);
    bound(&i->day, false, i->made == BAD_DAY);
    memset(i->label, 0, sizeof i->label);
    predict(i);
    note_book(i);
    note_day(i);
}
