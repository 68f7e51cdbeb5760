/* libxml2 on the same messages as XML text: parsing alone, and parsing with one
 * compiled XPath expression a filter. */
#include <libxml/parser.h>
#include <libxml/xpath.h>
#include <stdio.h>
#include <stdlib.h>

#include "bench.h"

static xmlXPathCompExprPtr compiled[MOST_FILTERS];
static unsigned expressions;

bool xml_here(void) { return true; }
const char *xml_version(void) { return LIBXML_DOTTED_VERSION; }

static void *must(void *made) {
    if (made == NULL) {
        fprintf(stderr, "bench: libxml2 refused a message or an expression\n");
        exit(1);
    }
    return made;
}

void xml_compile(const filter_book *book) {
    for (expressions = 0; expressions < book->filters; expressions++)
        compiled[expressions] = must(xmlXPathCompile((const xmlChar *)book->xpath[expressions]));
}

void xml_drop(void) {
    while (expressions > 0) xmlXPathFreeCompExpr(compiled[--expressions]);
}

static xmlDocPtr parsed(const day_file *day, unsigned k) {
    size_t start = day->xml_start[k], length = day->xml_start[k + 1] - start;
    return must(xmlReadMemory(day->xml + start, (int)length, NULL, NULL, 0));
}

void xml_parse_only(const day_file *day) {
    for (unsigned k = 0; k < day->messages; k++) xmlFreeDoc(parsed(day, k));
}

static uint64_t true_filters(xmlXPathContextPtr context) {
    uint64_t filters = 0;
    for (unsigned f = 0; f < expressions; f++) {
        xmlXPathObjectPtr object = must(xmlXPathCompiledEval(compiled[f], context));
        filters |= (uint64_t)(object->boolval != 0) << f;
        xmlXPathFreeObject(object);
    }
    return filters;
}

void xml_rows(const day_file *day, uint64_t *filters) {
    for (unsigned k = 0; k < day->messages; k++) {
        xmlDocPtr doc = parsed(day, k);
        xmlXPathContextPtr context = must(xmlXPathNewContext(doc));
        filters[k] = true_filters(context);
        xmlXPathFreeContext(context);
        xmlFreeDoc(doc);
    }
}
