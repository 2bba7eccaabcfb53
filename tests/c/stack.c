/* How much of its stack a thread has touched after each call is within what the header says, on rules and a card that are as deep as the limits allow, in
 * several ways, and on comma lines and tables that are as long as they allow. */
#include "touched.h"
#include "expect.h"

enum { MOST_OF_RULES = 80 << 10, MOST_OF_CARDS = 40 << 10, MOST_OF_IMPORT = 80 << 10, MOST_OF_EXPORT = 40 << 10 };
enum { ROW_ENTRIES = 3, PAIRS = 94, ENTRIES = ROW_ENTRIES + 2 * PAIRS + 1 };

static const uint8_t one_row[] = {1, 1, 1, 0, 1, 0, 0, 0, 0};
static char text[2048];
static uint8_t card[ROSKUDLA_MOST_CARD_BYTES];
static size_t card_len;
static uint8_t lines[ROSKUDLA_MOST_LINES_BYTES], tables[ROSKUDLA_MOST_TABLE_BYTES];
static size_t lines_len, columns, tables_len;

static void times(const char *word, int count) {
    while (count-- > 0) strcat(text, word);
}

static void must(const char *call, uint32_t status) {
    if (status != ROSKUDLA_OK) {
        printf("stack: %s is refused with %u: %s\n", call, (unsigned)status, text);
        exit(3);
    }
}

static void *nothing(void *unused) { return unused; }

static void *read_rule(void *unused) {
    struct roskudla_part parts[ROSKUDLA_MOST_PARTS];
    size_t count;
    must("read", roskudla_read((const uint8_t *)text, strlen(text), one_row, sizeof one_row, parts, ROSKUDLA_MOST_PARTS, &count));
    return unused;
}

static void *judge_rule(void *unused) {
    uint8_t value;
    must("judge", roskudla_judge((const uint8_t *)text, strlen(text), one_row, sizeof one_row, 0, &value));
    return unused;
}

static void *make_card(void *unused) {
    static uint8_t made[ROSKUDLA_MOST_CARD_BYTES];
    size_t length;
    must("card", roskudla_card((const uint8_t *)text, strlen(text), one_row, sizeof one_row, made, sizeof made, &length));
    return unused;
}

static void *check_card(void *unused) {
    must("check", roskudla_check(card, card_len));
    return unused;
}

static void *run_card(void *unused) {
    uint8_t answer;
    must("run", roskudla_run(card, card_len, one_row, sizeof one_row, 0, &answer));
    return unused;
}

static void *list_card(void *unused) {
    uint32_t rows[1];
    size_t count;
    must("list", roskudla_list(card, card_len, one_row, sizeof one_row, rows, 1, &count));
    return unused;
}

/* three row entries around one another, in them pairs each in the right side of the one before; the left sides and the last one ask whether 1 is not blank */
static void deepest_card(void) {
    uint8_t *kinds = card + 4, *records = kinds + ENTRIES;
    int number;
    card[0] = ENTRIES, card[1] = 0, card[2] = 1, card[3] = 1;
    for (number = 0; number < ENTRIES; number++) {
        uint8_t *record = records + 14 * number;
        int leaf = number == ENTRIES - 1 || (number >= ROW_ENTRIES && (number - ROW_ENTRIES) % 2 == 1);
        kinds[number] = leaf ? 8 : number < ROW_ENTRIES ? 3 : 1;
        record[0] = leaf ? number + 1 : ENTRIES;
        record[2] = number < ROW_ENTRIES;
        if (leaf) record[4] = 255, record[5] = 1;
    }
    card_len = 4 + 15 * ENTRIES;
}

static void *import_lines(void *unused) {
    must("import", roskudla_import(lines, lines_len, columns, tables, sizeof tables, &tables_len));
    return unused;
}

static void *export_tables(void *unused) {
    must("export", roskudla_export(tables, tables_len, lines, sizeof lines, &lines_len));
    return unused;
}

/* so many rows of one field in each column, imported and exported again */
static void lines_within(const char *field, size_t rows, size_t width) {
    size_t of_import, of_export, length = strlen(field), cell;
    columns = width, lines_len = 0;
    for (cell = 1; cell <= rows * columns; cell++) {
        memcpy(lines + lines_len, field, length);
        lines_len += length;
        lines[lines_len++] = cell % columns == 0 ? '\n' : ',';
    }
    of_import = touched(import_lines), of_export = touched(export_tables);
    printf("stack: %zu rows of %zu times '%s': IMPORT %zu, EXPORT %zu bytes\n", rows, columns, field, of_import, of_export);
    EXPECT(of_import <= MOST_OF_IMPORT && of_export <= MOST_OF_EXPORT);
    EXPECT(of_import > touched(nothing) && of_export > touched(nothing));
    EXPECT(tables_len == 4 + 5 * rows * columns && lines_len == (length + 1) * rows * columns);
}

static void rule_within(const char *name) {
    size_t of_read = touched(read_rule), of_judge = touched(judge_rule), of_card = touched(make_card);
    printf("stack: %s: READ %zu, JUDGE %zu, CARD %zu bytes\n", name, of_read, of_judge, of_card);
    EXPECT(of_read <= MOST_OF_RULES && of_judge <= MOST_OF_RULES && of_card <= MOST_OF_RULES);
    text[0] = 0;
}

int main(void) {
    size_t of_nothing = touched(nothing), of_check, of_run, of_list;
    times("NOT ", 63), times("1=1", 1);
    rule_within("63 NOTs");
    times("NOT ", 63), times("m.1 IS NOT DECLINED", 1);
    rule_within("63 NOTs before a test of declined cells");
    times("EXISTS(FROM 1 a WHERE ", 3), times("NOT ", 30), times("(", 29), times("NOT ", 30), times("1=1", 1), times(")", 32);
    rule_within("three FROMs, 60 NOTs and 29 brackets");
    times("EXISTS(FROM 1 a WHERE ", 3), times("NOT ", 30), times("(", 29), times("NOT ", 30), times("a.1 IS DECLINED", 1), times(")", 32);
    rule_within("three FROMs, 60 NOTs and 29 brackets, before a test of declined cells");
    times("(1=2 OR ", 31), times("1=1", 1), times(")", 31); /* a left side that is true would end JUDGE there */
    rule_within("31 ORs, each in the one before");
    times("1=SOME(SELECT 1 FROM 1 a WHERE ", 3), times("(1=1 AND ", 29), times("1=1", 1), times(")", 32);
    rule_within("three lists around 29 ANDs");
    times("1=SOME(SELECT 1 FROM 1 a WHERE ", 3), times("NOT ", 30), times("(", 29), times("NOT ", 30), times("1=1", 1), times(")", 32);
    rule_within("three lists, 60 NOTs and 29 brackets");
    times("NOT (", 31), times("(1=1", 1), times(") IS TRUE", 32);
    rule_within("32 brackets, each before IS TRUE, and 31 NOTs");
    times("NOT (", 31), times("(1=1", 1), times(") IS UNKNOWN", 6), times(") IS TRUE", 26);
    rule_within("32 brackets before truth tests, the inner 6 of them IS UNKNOWN, and 31 NOTs");
    times("(", 32), times("NOT ", 31), times("1=1", 1), times(") IS TRUE", 26), times(") IS NOT UNKNOWN", 6);
    rule_within("32 brackets before truth tests, the outer 6 of them IS NOT UNKNOWN, and 31 NOTs");
    times("1=SOME(SELECT 1 FROM 1 a WHERE ", 3), times("NOT (", 29), times("NOT NOT 1=1", 1);
    times(") IS UNKNOWN", 6), times(") IS NOT FALSE", 23), times(")", 3);
    rule_within("three lists, 29 brackets before truth tests, 6 of them IS UNKNOWN, and 31 NOTs");
    times("(1=2 OR ", 20), times("1=1", 1), times(") IS TRUE", 20);
    rule_within("20 ORs, each in the one before and before IS TRUE");
    deepest_card();
    of_check = touched(check_card), of_run = touched(run_card), of_list = touched(list_card);
    printf("stack: the deepest card: CHECK %zu, RUN %zu, LIST %zu bytes; a thread that calls nothing: %zu\n", of_check, of_run, of_list, of_nothing);
    EXPECT(of_check <= MOST_OF_CARDS && of_run <= MOST_OF_CARDS && of_list <= MOST_OF_CARDS);
    EXPECT(of_check > of_nothing + ENTRIES);
    lines_within("-2147483648", 512, 16);
    lines_within("-2147483648", 1000, 8);
    lines_within("2147483647", 1000, 1);
    lines_within("", 1000, 8);
    lines_within("!", 1000, 8);
    return report("stack");
}
