/* The benchmark's made-up inputs and the engines that are timed on them. */
#ifndef BENCH_H
#define BENCH_H

#include <stdbool.h>
#include <stddef.h>
#include <stdint.h>

#include "esquirmell.h"

enum {
    MOST_FILTERS = 64,
    FILTER_STATES = 8,
    BOOK_ROOM = 4610,
    DAY_ROOM = 1048576,
    XML_ROOM = 1 << 23
};

/* A book, and each of its filters as an XPath expression too. */
typedef struct {
    uint8_t bytes[BOOK_ROOM];
    size_t length;
    unsigned filters;
    char xpath[MOST_FILTERS][128];
} filter_book;

/* A day file, and each of its messages as XML text too. */
typedef struct {
    uint8_t bytes[DAY_ROOM];
    size_t length;
    unsigned messages;
    char xml[XML_ROOM];
    size_t xml_start[ESQ_MOST_MESSAGES + 1]; /* message k ends where k + 1 starts */
} day_file;

/* What is lent to a run, and used again for the next. */
typedef struct {
    uint64_t memory[ESQ_SLOT_NUMBERS * ESQ_MOST_SLOTS];
    uint64_t answers[ESQ_ROW_NUMBERS * ESQ_MOST_MESSAGES];
    uint64_t workspace[ESQ_WORKSPACE_NUMBERS];
} lent_areas;

/* make.c: the same seed gives the same files. */
void make_book(filter_book *book, unsigned filters, uint64_t seed);
void join_filters(filter_book *book); /* into one filter with all the states */
void make_day(day_file *day, unsigned most_messages, uint64_t seed);
void spoil_numbers(day_file *day); /* of the events alone: the XML stays */

/* One run of an engine; the rows are in lent->answers, the totals come back. */
esq_total proved_run(const filter_book *book, const day_file *day, size_t slots, lent_areas *lent);
esq_total second_engine_run(const filter_book *book, const day_file *day, size_t slots,
                            lent_areas *lent);
uint64_t read_events(const day_file *day); /* only reads them: how many starts there are */

/* xml.c, or no_xml.c where libxml2 is not installed. */
bool xml_here(void);
const char *xml_version(void);
void xml_compile(const filter_book *book);
void xml_drop(void);
void xml_parse_only(const day_file *day);
void xml_rows(const day_file *day, uint64_t *filters); /* one number a message */

/* looks.c: what finding questions in the memory costs. */
void report_looks(const filter_book *book, const day_file *day, lent_areas *lent);
void report_collisions(lent_areas *lent);

double seconds(void);

#endif
