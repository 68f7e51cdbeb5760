/* Calls that can't be tried: each ends with 2 and prints nothing. See fuzz.h. */
#include "fuzz.h"

#include <inttypes.h>
#include <stdio.h>
#include <string.h>

enum { MOST = 12 };

/* A call that could be tried, in the making of one that can't. */
typedef struct {
    const char *word[MOST];
    unsigned words;
} wording;

static void put_in(wording *w, unsigned at, const char *word) {
    memmove(w->word + at + 1, w->word + at, (w->words - at) * sizeof *w->word);
    w->word[at] = word;
    w->words++;
}

static void could_not(const wording *w) {
    call_words(w->word, w->words);
    want_status(2);
    want_no_out();
    if (strncmp(said.err, "esquirmell: ", 12) != 0) wrong("standard error should say why");
}

static const char *some(const char *const *all, unsigned count) { return all[fuzz_below(count)]; }

static wording good_words(unsigned verb, const char *book, const char *day) {
    switch (verb) {
    case 0: return (wording){{"run", book, day}, 3};
    case 1: return (wording){{"show", "--book", book}, 3};
    case 2: return (wording){{"show", "--memory", book, day}, 4};
    case 3: return (wording){{"why", book, day, "1"}, 4};
    case 4: return (wording){{"make", "-"}, 2};
    default: return (wording){{"check", "--day", day}, 3};
    }
}

static void unknown_option(const char *book, const char *day) {
    static const char *const OTHER[6] = {"--all",    "--strict", "--strict",
                                         "--memory", "--json",   "--all"};
    static const char *const UNKNOWN[7] = {"--b", "--boo",     "--bookday", "--JSON",
                                           "---", "--names=x", "--json "};
    unsigned verb = fuzz_below(6);
    wording w = good_words(verb, book, day);
    const char *option = fuzz_chance(50) ? OTHER[verb] : some(UNKNOWN, 7);
    put_in(&w, 1 + fuzz_below(w.words), option);
    could_not(&w);
}

/* The words behind the first that a call must have. */
static void too_few(const char *book, const char *day) {
    static const unsigned LEAST[6] = {2, 1, 2, 3, 1, 1};
    unsigned verb = fuzz_below(6);
    wording w = good_words(verb, book, day);
    w.words -= 1 + fuzz_below(LEAST[verb]);
    could_not(&w);
}

static void too_many(const char *book, const char *day) {
    static const unsigned MORE[6] = {2, 2, 2, 2, 2, 1};
    unsigned verb = fuzz_below(6);
    wording w = good_words(verb, book, day);
    for (unsigned k = 0; k < MORE[verb]; k++) put_in(&w, w.words, "1");
    could_not(&w);
}

static void input_twice(const char *book) {
    static const wording TWICE[] = {{{"run", "-", "-"}, 3},
                                    {{"why", "-", "-", "1"}, 4},
                                    {{"show", "--memory", "-", "-"}, 4},
                                    {{"show", "--names", "-", "--day", "-"}, 5},
                                    {{"check", "--book", "--names", "-", "-"}, 5},
                                    {{"make", "--names", "-", "-"}, 4}};
    wording w = TWICE[fuzz_below(6)];
    give_input("1 service\n", 10);
    could_not(&w);
    w = (wording){{"check", "--names", "-", "--", "-", book}, 6};
    could_not(&w);
}

static void wrong_numbers(const fuzz_input *i, const char *book, const char *day) {
    static const char *const NONE[] = {"-1", "x", "1x", "0x1", " 1", "+1", "1.0", "1 "};
    static const char *const MESSAGE[] = {"0", "4294967297", "18446744073709551617", "4097"};
    char past[24], id[40];
    snprintf(past, sizeof past, "%u", i->messages + 1);
    snprintf(id, sizeof id, "%" PRIu64, i->id[0] + (UINT64_C(1) << 32));
    const char *message = fuzz_chance(30) ? past : some(MESSAGE, 4);
    wording all[] = {{{"run", book, day, some(NONE, 8)}, 4},
                     {{"show", "--memory", book, day, some(NONE, 8)}, 5},
                     {{"show", "--day", day, fuzz_chance(50) ? message : some(NONE, 8)}, 4},
                     {{"why", book, day, fuzz_chance(50) ? message : some(NONE, 8)}, 4},
                     {{"why", book, day, "1", fuzz_chance(50) ? id : some(NONE, 8)}, 5},
                     {{"show", book, "1"}, 3}};
    could_not(&all[fuzz_below(6)]);
}

static void no_file(const char *book, const char *day) {
    const char *none = fuzz_chance(50) ? "/no/such/file" : "/";
    wording all[] = {{{"run", none, day}, 3},
                     {{"run", book, none}, 3},
                     {{"why", book, none, "1"}, 4},
                     {{"show", "--day", none}, 3},
                     {{"show", "--memory", none, day}, 4},
                     {{"make", none}, 2},
                     {{"check", none}, 2},
                     {{"check", "--names", none, book}, 4},
                     {{"make", "-", "/no/such/file"}, 3}};
    give_input("book\n", 5);
    could_not(&all[fuzz_below(9)]);
}

static void not_together(const char *book, const char *day) {
    const wording all[] = {{{"show", "--book", "--day", book}, 4},
                           {{"check", "--day", "--book", day}, 4},
                           {{"show", "--memory", "--book", book, day}, 5},
                           {{"show", "--memory", book}, 3},
                           {{"show", "--day", day, "1", "1"}, 5},
                           {{"check", book, "--names"}, 3},
                           {{"showing", book}, 2},
                           {{"--json", "run", book, day}, 4},
                           {{""}, 1},
                           {{NULL}, 0}};
    could_not(&all[fuzz_below(10)]);
}

/* The input must have a message and a filter, and be accepted. */
void fuzz_words(const fuzz_input *i, const char *book, const char *day) {
    unknown_option(book, day);
    too_few(book, day);
    too_many(book, day);
    input_twice(book);
    wrong_numbers(i, book, day);
    no_file(book, day);
    not_together(book, day);
}
