/* Stored results of hand-chosen cases.
 *
 *   store write FOLDER         writes them, from the second engine alone
 *   store check FOLDER SMALL   holds the engine under test, and the second engine
 *                              too, against the files in FOLDER, against what was
 *                              worked out by hand (hand.c), and against the lines
 *                              that the paper prints for the small day, whose
 *                              book.bin and day.bin are in SMALL. FOLDER must have
 *                              a file for each case of hand.c, and no other
 */
#define _DEFAULT_SOURCE
#include "hand.h"
#include "make.h"

#include <dirent.h>
#include <inttypes.h>
#include <stdlib.h>
#include <string.h>

static const char *folder;
static unsigned number, wrong;
static bytes names; /* of the cases' files, each between two ends of line */

static void fault(const char *name, const char *what) {
    printf("%s: %s\n", name, what);
    wrong++;
}

/* The path of the next case's file. */
static const char *next_path(const char *name) {
    static char path[4096], file[256];
    snprintf(file, sizeof file, "\n%02u-%s.txt\n", ++number, name);
    add_bytes(&names, file, strlen(file));
    snprintf(path, sizeof path, "%s/%02u-%s.txt", folder, number, name);
    return path;
}

static void print_named_case(FILE *to, const char *name, const test_case *c) {
    fprintf(to, "# %s\n", name);
    print_case(to, c);
}

/* ---- Writing --------------------------------------------------------------------------- */

static void figures(const uint64_t *figure, unsigned count, char *out) {
    for (unsigned i = 0; i < count; i++)
        out += sprintf(out, "%s%" PRIu64, i == 0 ? "" : " ", figure[i]);
}

/* Is the result the one that was worked out by hand? */
static void hold_against_hand(const char *name, const test_case *c, const outcome *o,
                              const char *gives, const char *rows) {
    static const unsigned count[CALLS] = {4, 2, 3, 4};
    static char text[65536];
    figures(o->result, count[c->call], text);
    if (gives != NULL && strcmp(text, gives) != 0) fault(name, "not the result worked out by hand");
    if (rows == NULL) return;
    char *at = text;
    if (c->call == CALL_ASK) figures(contents(o, ANSWER), SET_NUMBERS, text);
    for (unsigned m = 0; c->call != CALL_ASK && m < get_two(c->day.at); m++) {
        if (m > 0) at += sprintf(at, ", ");
        figures(contents(o, ANSWERS) + 3 * m, 3, at);
        at += strlen(at);
    }
    if (strcmp(text, rows) != 0) fault(name, "not the rows or answer worked out by hand");
}

static void write_one(const char *name, const test_case *c, const char *gives, const char *rows) {
    const char *path = next_path(name);
    outcome o = {0};
    FILE *to = fopen(path, "w");
    if (to == NULL) {
        fault(path, "cannot be written");
        return;
    }
    call_engine(&SECOND_ENGINE, c, &o);
    hold_against_hand(name, c, &o, gives, rows);
    print_named_case(to, name, c);
    print_outcome(to, c, &o);
    fclose(to);
    drop_outcome(&o);
}

static void hold_engine_against_hand(const engine *e, const char *name, const test_case *c,
                                     const char *gives, const char *rows) {
    outcome o = {0};
    call_engine(e, c, &o);
    hold_against_hand(name, c, &o, gives, rows);
    drop_outcome(&o);
}

/* ---- Checking -------------------------------------------------------------------------- */

static char *read_rest(FILE *from) {
    char *text = NULL;
    size_t len = 0;
    FILE *to = open_memstream(&text, &len);
    for (int byte; (byte = fgetc(from)) != EOF;) fputc(byte, to);
    fclose(to);
    return text;
}

static void hold_against(const char *name, const char *who, const engine *e, const test_case *c,
                         const char *stored) {
    outcome o = {0};
    char *text = NULL;
    size_t len = 0;
    call_engine(e, c, &o);
    FILE *to = open_memstream(&text, &len);
    print_outcome(to, c, &o);
    fclose(to);
    if (strcmp(text, stored) != 0) {
        fault(name, "not as stored");
        printf("--- stored:\n%s--- %s:\n%s", stored, who, text);
    }
    free(text);
    drop_outcome(&o);
}

/* Does the file begin with this case? */
static bool begins_with(FILE *from, const char *name, const test_case *c) {
    char *text = NULL;
    size_t len = 0;
    FILE *to = open_memstream(&text, &len);
    print_named_case(to, name, c);
    fclose(to);
    char *whole = read_rest(from);
    bool same = strncmp(whole, text, len) == 0;
    free(text);
    free(whole);
    rewind(from);
    return same;
}

static void check_file(const char *name, const test_case *wanted) {
    const char *path = next_path(name);
    test_case c;
    FILE *from = fopen(path, "r");
    if (from == NULL) {
        fault(path, "not there, and hand.c has a case of that name");
        return;
    }
    if (!begins_with(from, name, wanted)) fault(path, "not the case that hand.c has");
    if (!read_case(from, &c)) {
        fault(path, "cannot be read");
        fclose(from);
        return;
    }
    char *stored = read_rest(from);
    fclose(from);
    hold_against(path, "the second engine", &SECOND_ENGINE, &c, stored);
    hold_against(path, "the engine under test", &ENGINE_UNDER_TEST, &c, stored);
    free(stored);
    drop_case(&c);
}

static void hold_one(const char *name, const test_case *c, const char *gives, const char *rows) {
    hold_engine_against_hand(&SECOND_ENGINE, name, c, gives, rows);
    hold_engine_against_hand(&ENGINE_UNDER_TEST, name, c, gives, rows);
    check_file(name, c);
}

/* No file that no case names. */
static void check_no_other(void) {
    struct dirent **entry;
    int entries = scandir(folder, &entry, NULL, alphasort);
    add_byte(&names, 0);
    for (int i = 0; i < entries; i++) {
        const char *file = entry[i]->d_name;
        char line[300];
        snprintf(line, sizeof line, "\n%s\n", file);
        if (strcmp(file, ".") != 0 && strcmp(file, "..") != 0 &&
            strstr((const char *)names.at, line) == NULL)
            fault(file, "no case of hand.c names this file");
        free(entry[i]);
    }
    if (entries < 0)
        fault(folder, "cannot be read");
    else
        free(entry);
}

/* ---- The small day as the paper prints it -------------------------------------------------- */

static const char PAPER_ROWS[] = "1 0 0 10 30\n"
                                 "2 0 0 10 30\n"
                                 "3 0 0 20 30\n"
                                 "4 0 0 20\n"
                                 "5 24 9\n";
static const struct {
    unsigned slots;
    const char *total;
} PAPER_TOTAL[] = {{64, "total 0 5 17 8 8\n"},
                   {0, "total 0 5 17 17 0\n"},
                   {2, "total 0 5 17 14 2\n"},
                   {5, "total 0 5 17 9 5\n"}};

/* The lines that the day program prints for this outcome. */
static char *day_lines(const test_case *c, const outcome *o) {
    char *text = NULL;
    size_t len = 0;
    FILE *to = open_memstream(&text, &len);
    unsigned messages = get_two(c->day.at);
    for (unsigned m = 0; m < messages; m++) {
        const uint64_t *row = contents(o, ANSWERS) + 3 * m;
        fprintf(to, "%u %" PRIu64 " %" PRIu64, m + 1, row[0], row[1]);
        for (unsigned f = 0; f < get_two(c->book.at); f++)
            if (row[2] >> f & 1) fprintf(to, " %" PRIu32, get_four(c->book.at + 2 + 8 * f));
        fprintf(to, "\n");
    }
    fprintf(to, "total %" PRIu64 " %u %" PRIu64 " %" PRIu64 " %" PRIu64 "\n", o->result[0],
            messages, o->result[1], o->result[2], o->result[3]);
    fclose(to);
    return text;
}

static void check_lines(const char *who, const engine *e, const test_case *c, const char *total) {
    outcome o = {0};
    call_engine(e, c, &o);
    char *text = day_lines(c, &o);
    size_t rows = strlen(PAPER_ROWS);
    if (strncmp(text, PAPER_ROWS, rows) != 0 || strcmp(text + rows, total) != 0) {
        fault(who, "the small day's lines are not the paper's");
        printf("%s", text);
    }
    free(text);
    drop_outcome(&o);
}

static bool read_file(const char *small, const char *name, bytes *out) {
    char path[4096];
    snprintf(path, sizeof path, "%s/%s", small, name);
    FILE *from = fopen(path, "rb");
    if (from == NULL) return false;
    for (int byte; (byte = fgetc(from)) != EOF;) add_byte(out, (unsigned)byte);
    fclose(from);
    return true;
}

static bool same_bytes(const bytes *a, const bytes *b) {
    return a->len == b->len && memcmp(a->at, b->at, a->len) == 0;
}

static void check_paper(const char *small) {
    static book_plan book;
    static day_plan day;
    test_case c = {.answers = 15, .workspace = LEVEL_NUMBERS};
    bytes book_file = {0}, day_file = {0};
    small_book(&book);
    small_day(&day);
    write_book(&book, &c.book);
    write_day(&day, &c.day);
    if (c.book.len != 154 || c.day.len != 171) fault("the small day", "not the paper's lengths");
    if (!read_file(small, "book.bin", &book_file) || !same_bytes(&book_file, &c.book))
        fault(small, "book.bin is not the paper's small book");
    if (!read_file(small, "day.bin", &day_file) || !same_bytes(&day_file, &c.day))
        fault(small, "day.bin is not the paper's small day");
    for (unsigned i = 0; i < 4; i++) {
        c.memory = SLOT_NUMBERS * PAPER_TOTAL[i].slots;
        check_lines("the second engine", &SECOND_ENGINE, &c, PAPER_TOTAL[i].total);
        check_lines("the engine under test", &ENGINE_UNDER_TEST, &c, PAPER_TOTAL[i].total);
    }
    free(book_file.at);
    free(day_file.at);
    drop_case(&c);
}

int main(int argc, char **argv) {
    bool write = argc == 3 && strcmp(argv[1], "write") == 0;
    bool check = argc == 4 && strcmp(argv[1], "check") == 0;
    if (!write && !check) {
        fprintf(stderr, "store write FOLDER, or store check FOLDER SMALL\n");
        return 2;
    }
    folder = argv[2];
    if (write) {
        each_case(write_one);
    } else {
        check_paper(argv[3]);
        each_case(hold_one);
        check_no_other();
    }
    printf("%u stored results%s, %u faults\n", number,
           write ? " written" : " and the paper's small day", wrong);
    return wrong == 0 ? 0 : 1;
}
