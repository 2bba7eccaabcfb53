/* What the test programs here share: expectations that are counted and told, the tables of document 01's proved cases, and tables with declined cells. */
#ifndef EXPECT_H
#define EXPECT_H
#include "roskudla.h"
#include <stdio.h>
#include <string.h>

static int failures, expectations;

#define EXPECT(fact) expect_that((fact) != 0, #fact, __FILE__, __LINE__)

static void expect_that(int holds, const char *fact, const char *file, int line) {
    expectations++;
    if (!holds) {
        failures++;
        printf("%s:%d: expected %s\n", file, line, fact);
    }
}

static inline int report(const char *name) {
    printf("%s: %d expectations, %d failed\n", name, expectations, failures);
    return failures == 0 ? 0 : 1;
}

enum { UNTOUCHED = 0xA5 };

/* whether so many bytes are as they were filled before a call */
static inline int untouched(const void *some, size_t length) {
    const uint8_t *bytes = (const uint8_t *)some;
    size_t place;
    for (place = 0; place < length; place++)
        if (bytes[place] != UNTOUCHED) return 0;
    return 1;
}

/* (1, 5), (2, blank), (3, 0); 1, blank; no rows. Under the blanks stand 7 and 1, which no answer may show. */
static const uint8_t case_tables[] = {
    3, 2, 3, 0, 1, 2, 0, 1, 0, 0,
    1, 0, 0, 0, 5, 0, 0, 0, 2, 0, 0, 0, 7, 0, 0, 0, 3, 0, 0, 0, 0, 0, 0, 0, 1, 0, 0, 0, 1, 0, 0, 0,
    0, 0, 0, 1, 0, 0, 0, 1};

/* (1, 5), (2, blank), (3, declined), (declined, 0); 1, declined; no rows. Under the blank and declined cells stand 5, 5, 1 and 2. */
static const uint8_t declined_tables[] = {
    3, 2, 4, 0, 1, 2, 0, 1, 0, 0,
    1, 0, 0, 0, 5, 0, 0, 0, 2, 0, 0, 0, 5, 0, 0, 0, 3, 0, 0, 0, 5, 0, 0, 0, 1, 0, 0, 0, 0, 0, 0, 0, 1, 0, 0, 0, 2, 0, 0, 0,
    0, 0, 0, ROSKUDLA_MARK_BLANK, 0, ROSKUDLA_MARK_DECLINED, ROSKUDLA_MARK_DECLINED, 0, ROSKUDLA_MARK_PRESENT, ROSKUDLA_MARK_DECLINED};

/* one table of 3 columns without rows, and document 01's worked card for it, that of NOT m.2 < 5 */
static const uint8_t worked_tables[] = {1, 3, 0, 0};
static const uint8_t worked_card[] = {1, 0, 1, 3, 5, 1, 0, 0, 6, 0, 2, 0, 0, 0, 0xFF, 5, 0, 0, 0};

#endif
