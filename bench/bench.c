/* Times the proved engine beside others, in one process and on the same
 * messages. Before anything is timed the rows of all engines are compared.
 *   bench [SEED]
 *   bench counts     what is no time, seed 1: figures alone, for tests/figures.py */
#define _POSIX_C_SOURCE 200809L
#include <stdio.h>
#include <stdlib.h>
#include <string.h>
#include <time.h>

#include "bench.h"

enum { ROUNDS = 9, SLOW_ROUNDS = 3, SIZES = 3, SLOT_COUNTS = 4 };
enum { PROVED, SECOND = PROVED + SLOT_COUNTS, EVENTS, PARSE, XPATH, ENGINES };

static const unsigned filter_counts[SIZES] = {1, 8, 64};
static const size_t slot_counts[SLOT_COUNTS] = {0, 64, 1024, 4096};

static filter_book book;
static day_file day;
static lent_areas lent;
static uint64_t rows[ESQ_ROW_NUMBERS * ESQ_MOST_MESSAGES], xml_filters[ESQ_MOST_MESSAGES];

typedef struct {
    double took[ENGINES][ROUNDS];
    unsigned rounds[ENGINES];
    esq_total total[SLOT_COUNTS];
} timing;

/* Processor time of this process: other load on the machine does not count as ours. */
double seconds(void) {
    struct timespec t;
    clock_gettime(CLOCK_PROCESS_CPUTIME_ID, &t);
    return (double)t.tv_sec + 1e-9 * (double)t.tv_nsec;
}

static void demand(bool good, const char *what) {
    if (!good) {
        fprintf(stderr, "bench: %s\n", what);
        exit(1);
    }
}

/* ---- The same rows ---- */

static bool same_total(esq_total a, esq_total b) {
    return a.refusal == b.refusal && a.asked == b.asked && a.anew == b.anew && a.filled == b.filled;
}

static void compare_rows(void) {
    size_t numbers = ESQ_ROW_NUMBERS * (size_t)day.messages;
    for (unsigned c = 0; c < SLOT_COUNTS; c++) {
        esq_total total = proved_run(&book, &day, slot_counts[c], &lent);
        demand(total.refusal == 0, "the made-up day is refused");
        memcpy(rows, lent.answers, 8 * numbers);
        esq_total other = second_engine_run(&book, &day, slot_counts[c], &lent);
        demand(same_total(total, other), "the second engine has other totals");
        demand(memcmp(rows, lent.answers, 8 * numbers) == 0, "the second engine has other rows");
    }
    if (!xml_here()) return;
    xml_rows(&day, xml_filters);
    for (unsigned k = 0; k < day.messages; k++)
        demand(rows[ESQ_ROW_NUMBERS * k] == 0 && rows[ESQ_ROW_NUMBERS * k + 2] == xml_filters[k],
               "libxml2 has other rows");
}

/* ---- Times ---- */

static void time_one(timing *t, unsigned engine, unsigned round) {
    static volatile uint64_t starts; /* or the loop that only reads would be left out */
    memset(&lent, 0, sizeof lent);
    double before = seconds();
    if (engine < SECOND)
        t->total[engine] = proved_run(&book, &day, slot_counts[engine], &lent);
    else if (engine == SECOND)
        second_engine_run(&book, &day, ESQ_MOST_SLOTS, &lent);
    else if (engine == EVENTS)
        starts = read_events(&day);
    else if (engine == PARSE)
        xml_parse_only(&day);
    else
        xml_rows(&day, xml_filters);
    t->took[engine][round] = seconds() - before;
    t->rounds[engine] = round + 1;
    (void)starts;
}

/* A round has every engine once, so that what slows the machine slows them alike. */
static void time_all(timing *t) {
    memset(t, 0, sizeof *t);
    for (unsigned round = 0; round < ROUNDS; round++)
        for (unsigned engine = 0; engine < ENGINES; engine++) {
            bool slow = engine == SECOND || engine == XPATH;
            bool xml = engine == PARSE || engine == XPATH;
            if ((!slow || round < SLOW_ROUNDS) && (!xml || xml_here())) time_one(t, engine, round);
        }
}

typedef struct {
    double least, middle, most;
} spread;

static int by_size(const void *a, const void *b) {
    double x = *(const double *)a, y = *(const double *)b;
    return (x > y) - (x < y);
}

static spread spread_of(const double *number, unsigned count) {
    double sorted[ROUNDS];
    memcpy(sorted, number, count * sizeof *number);
    qsort(sorted, count, sizeof *sorted, by_size);
    return (spread){sorted[0], sorted[count / 2], sorted[count - 1]};
}

/* Each round's time against that of the proved engine at 4,096 slots in the same round. */
static spread ratio_of(const timing *t, unsigned engine) {
    double ratio[ROUNDS];
    for (unsigned k = 0; k < t->rounds[engine]; k++)
        ratio[k] = t->took[engine][k] / t->took[PROVED + SLOT_COUNTS - 1][k];
    return spread_of(ratio, t->rounds[engine]);
}

static void print_engine(const timing *t, unsigned engine, const char *name) {
    if (t->rounds[engine] == 0) return;
    spread ms = spread_of(t->took[engine], t->rounds[engine]), ratio = ratio_of(t, engine);
    printf("%7u %-28s %9.2f (%8.2f to %8.2f) %8.2f %9.3f (%7.3f to %7.3f) %2u", book.filters, name,
           1e3 * ms.middle, 1e3 * ms.least, 1e3 * ms.most, 1e9 * ms.middle / (double)day.length,
           ratio.middle, ratio.least, ratio.most, t->rounds[engine]);
    if (engine < SECOND)
        printf(" %8llu %6zu", (unsigned long long)t->total[engine].anew, t->total[engine].filled);
    putchar('\n');
}

static void print_all(const timing *t) {
    char name[40];
    for (unsigned c = 0; c < SLOT_COUNTS; c++) {
        snprintf(name, sizeof name, "proved, %zu slots", slot_counts[c]);
        print_engine(t, PROVED + c, name);
    }
    print_engine(t, SECOND, "second engine, 4096 slots");
    print_engine(t, EVENTS, "reads events only");
    print_engine(t, PARSE, "libxml2, parse only");
    print_engine(t, XPATH, "libxml2, parse and XPath");
}

static void table(uint64_t seed) {
    static timing t;
    make_day(&day, ESQ_MOST_MESSAGES, seed);
    printf("Day: %u messages, %zu bytes (as XML %zu bytes), %llu questions. libxml2: %s.\n"
           "Times are processor time: middle (least to most). The ratio is to the proved engine "
           "with 4,096 slots, round\n"
           "by round. All lent areas are cleared before each time is taken, outside of it; day and "
           "book are warm.\n\n",
           day.messages, day.length, day.xml_start[day.messages],
           (unsigned long long)read_events(&day), xml_version());
    printf("%7s %-28s %9s %22s %8s %9s %20s %2s %8s %6s\n", "filters", "engine", "ms", "",
           "ns/byte", "ratio", "", "n", "anew", "filled");
    for (unsigned s = 0; s < SIZES; s++) {
        make_book(&book, filter_counts[s], seed + 1);
        xml_compile(&book);
        compare_rows();
        time_all(&t);
        xml_drop();
        print_all(&t);
    }
}

/* ---- Growth ---- */

static void print_costs(const char *what) {
    static timing t;
    spread s[2];
    double byte = 1e9 / (double)day.length;
    for (unsigned c = 0; c < 2; c++) {
        unsigned engine = c == 0 ? 1 : 3; /* 64 slots and 4,096 */
        for (unsigned round = 0; round < ROUNDS; round++) time_one(&t, engine, round);
        s[c] = spread_of(t.took[engine], ROUNDS);
    }
    printf("%-12s %8u %8zu %8.2f (%7.2f to %7.2f) %8.2f (%7.2f to %7.2f)\n", what, day.messages,
           day.length, byte * s[0].middle, byte * s[0].least, byte * s[0].most, byte * s[1].middle,
           byte * s[1].least, byte * s[1].most);
}

static void growth(uint64_t seed) {
    unsigned whole = day.messages;
    printf("\nCost as the day grows, 64 filters, ns a byte of the day, middle (least to "
           "most):\n%-12s %8s %8s %28s %28s\n",
           "", "messages", "bytes", "64 slots", "4096 slots");
    make_day(&day, whole / 4, seed);
    print_costs("a quarter");
    make_day(&day, whole / 2, seed);
    print_costs("a half");
    make_day(&day, whole, seed);
    print_costs("the whole");
    spoil_numbers(&day);
    print_costs("no numbers");
    make_day(&day, whole, seed);
    join_filters(&book);
    xml_compile(&book);
    compare_rows();
    xml_drop();
    print_costs("one filter");
    printf("No numbers: every text is made one that is no number. One filter: the same 512 states "
           "in one body.\n");
}

/* ---- Counts ---- */

static void print_day(const char *what) {
    unsigned events = 0, numbers = 0;
    const uint8_t *at = day.bytes + 2 + 8 * day.messages, *end = day.bytes + day.length;
    for (; at < end; events++) {
        numbers += at[0] == 2; /* each text of a made-up day is a number */
        at += at[0] == 2 ? 2 + (size_t)at[1] : 3;
    }
    printf("%s %u %zu %zu %u %u %llu\n", what, day.messages, day.length,
           day.xml_start[day.messages], events, numbers, (unsigned long long)read_events(&day));
}

static void counts(void) {
    make_day(&day, ESQ_MOST_MESSAGES, 1);
    unsigned whole = day.messages;
    make_day(&day, whole / 4, 1);
    print_day("quarter");
    make_day(&day, whole / 2, 1);
    print_day("half");
    make_day(&day, whole, 1);
    print_day("whole");
    for (unsigned s = 0; s < SIZES; s++) {
        make_book(&book, filter_counts[s], 2);
        for (unsigned c = 0; c < SLOT_COUNTS; c++) {
            esq_total total = proved_run(&book, &day, slot_counts[c], &lent);
            printf("run %u %zu %llu %zu\n", filter_counts[s], slot_counts[c],
                   (unsigned long long)total.anew, total.filled);
        }
        printf("looks");
        report_looks(&book, &day, &lent);
    }
}

int main(int count, char **word) {
    if (count > 1 && strcmp(word[1], "counts") == 0) {
        counts();
        return 0;
    }
    uint64_t seed = count > 1 ? strtoull(word[1], NULL, 10) : 1;
    table(seed);
    growth(seed);
    printf("\nSlots compared with a question, 4,096 slots lent, over the whole day:\n%7s %9s %9s "
           "%7s %16s %16s\n",
           "filters", "asked", "anew", "filled", "looks a question", "most looks");
    for (unsigned s = 0; s < SIZES; s++) {
        make_book(&book, filter_counts[s], seed + 1);
        report_looks(&book, &day, &lent);
    }
    printf("\nAll colliding: ");
    report_collisions(&lent);
    return 0;
}
