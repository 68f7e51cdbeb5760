/* Stands for xml.c where libxml2 is not installed. */
#include "bench.h"

bool xml_here(void) { return false; }
const char *xml_version(void) { return "not installed"; }
void xml_compile(const filter_book *book) { (void)book; }
void xml_drop(void) {}
void xml_parse_only(const day_file *day) { (void)day; }
void xml_rows(const day_file *day, uint64_t *filters) { (void)day, (void)filters; }
