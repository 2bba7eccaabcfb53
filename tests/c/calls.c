/* The eight calls from C: document 01's cases and worked card, the examples of its refusals, document 02's truth tests and their card, its comma lines, there
 * and back, and its declined cells; and buffers around and below what is needed. */
#include "expect.h"
#include <stdlib.h>

#define ALL2 "(SELECT v.1 FROM 2 v WHERE 1 = 1)"
#define ALL3 "(SELECT v.1 FROM 3 v WHERE 1 = 1)"

/* a rule, and its values on rows 0, 1, 2 */
static const struct { const char *text, *values; } cases[] = {
    {"m.2 > 0", "TUF"},
    {"NOT m.2 > 0", "FUT"},
    {"m.2 > 0 OR NOT m.2 > 0", "TUT"},
    {"m.2 IS NULL", "FTF"},
    {"m.1 IN " ALL2, "TUU"},
    {"m.1 NOT IN " ALL2, "FUU"},
    {"m.1 <> ALL (SELECT v.1 FROM 2 v WHERE v.1 = 1)", "FTT"},
    {"m.2 = ALL " ALL3, "TTT"},
    {"m.2 = SOME " ALL3, "FFF"},
    {"EXISTS (FROM 2 v WHERE v.1 > 1)", "FFF"},
    {"NOT EXISTS (FROM 2 v WHERE v.1 > 1)", "TTT"},
    {"m.1 = SOME (SELECT m.1 FROM 2 m WHERE m.1 = 1)", "TFF"},
    /* truth tests behind NOT, around others, and in a WHERE; all rows of table 1 are retained where a condition that is never unknown IS NOT UNKNOWN */
    {"NOT (m.2 > 0) IS FALSE", "TTF"},
    {"(NOT m.2 > 0) IS FALSE", "TFF"},
    {"((m.2 > 0) IS UNKNOWN) IS UNKNOWN", "FFF"},
    {"((1 = 1) IS TRUE) IS TRUE", "TTT"},
    {"(m.2 > 0) IS UNKNOWN OR m.2 > 0", "TTF"},
    {"(m.2 > 0) IS UNKNOWN AND m.2 > 0", "FUF"},
    {"(m.1 NOT IN " ALL2 ") IS UNKNOWN", "FTT"},
    {"m.1 = ALL (SELECT v.1 FROM 2 v WHERE (v.1 = 1) IS UNKNOWN)", "UUU"},
    {"m.2 <= ALL (SELECT k.2 FROM 1 k WHERE (m.2 IS NULL) IS NOT UNKNOWN)", "FUU"},
    {"NOT m.2 <= ALL (SELECT k.2 FROM 1 k WHERE (m.2 IS NULL) IS NOT UNKNOWN)", "TUU"},
    {"NOT m.2 <= ALL (SELECT k.2 FROM 1 k WHERE NOT (m.2 IS NULL) IS NOT UNKNOWN)", "FFF"},
    {"(m.2 <= ALL (SELECT k.2 FROM 1 k WHERE (m.2 IS NULL) IS NOT UNKNOWN)) IS NOT FALSE", "FTT"}};
enum { CASES = sizeof cases / sizeof cases[0], ROWS = 3 };

/* a rule, and its values on rows 0 to 3 of declined_tables: column 2 is 5, blank, declined and 0, and column 1 is declined in the last */
static const struct { const char *text, *values; } declined_cases[] = {
    {"m.2 IS DECLINED", "FFTF"},
    {"m.2 IS NOT DECLINED", "TTFT"},
    {"NOT m.2 IS DECLINED", "TTFT"},
    {"NOT m.2 IS NOT DECLINED", "FFTF"},
    {"5 IS DECLINED", "FFFF"},
    {"2 IS NOT DECLINED", "TTTT"},
    {"m.2 IS NULL", "FTTF"},
    {"m.2 IS NOT NULL", "TFFT"},
    {"m.2 = m.2", "TUUT"},
    {"m.2 > 0", "TUUF"},
    {"NOT m.2 > 0", "FUUT"},
    {"m.1 < m.2", "TUUU"},
    {"(m.2 > 0) IS UNKNOWN", "FTTF"},
    {"(m.2 IS DECLINED) IS UNKNOWN", "FFFF"},
    {"(NOT m.2 IS DECLINED) IS NOT FALSE", "TTFT"},
    {"m.2 IS NULL AND m.2 IS NOT DECLINED", "FTFF"},
    {"m.1 IN " ALL2, "TUUU"},
    {"m.1 NOT IN (SELECT v.1 FROM 2 v WHERE v.1 IS NOT DECLINED)", "FTTU"},
    {"NOT EXISTS (FROM 2 v WHERE v.1 IS DECLINED AND m.2 IS DECLINED)", "TTFT"}};
enum { DECLINED_CASES = sizeof declined_cases / sizeof declined_cases[0] };

/* the truth tests, in the order of their kinds from 10 on, with their values on true, unknown and false: m.2 > 0 is these on rows 0, 1, 2 */
static const struct { const char *ending, *values, *negated; } truth_tests[] = {
    {"IS TRUE", "TFF", "FTT"},
    {"IS NOT TRUE", "FTT", "TFF"},
    {"IS FALSE", "FFT", "TTF"},
    {"IS NOT FALSE", "TTF", "FFT"},
    {"IS UNKNOWN", "FTF", "TFT"},
    {"IS NOT UNKNOWN", "TFT", "FTF"}};
enum { TRUTH_TESTS = sizeof truth_tests / sizeof truth_tests[0] };

/* for worked_tables, the card of (m.3 > 0) IS UNKNOWN: and, then <= and >, where unknown counts as yes */
static const uint8_t unknown_card[] = {
    3, 0, 1, 3, 1, 6, 6,
    3, 0, 0, 0, 0, 0, 0, 0, 0, 0, 0, 0, 0, 0,
    2, 0, 0, 4, 0, 3, 0, 0, 0, 0xFF, 0, 0, 0, 0,
    3, 0, 0, 5, 0, 3, 0, 0, 0, 0xFF, 0, 0, 0, 0};

/* for worked_tables, the card of NOT m.2 IS DECLINED */
static const uint8_t declined_card[] = {1, 0, 1, 3, 10, 1, 0, 0, 0, 0, 2, 0, 0, 0, 0, 0, 0, 0, 0};

static const uint8_t *bytes_of(const char *text) { return (const uint8_t *)text; }

/* the values of a rule on all rows of table 1, and what its card says of them */
static void has_values(const char *text, const char *values, const uint8_t *tables, size_t tables_len) {
    uint8_t card[ROSKUDLA_MOST_CARD_BYTES], value, answer;
    uint32_t rows[ROSKUDLA_MOST_ROWS];
    size_t length = 0, count = 0, place = 0, row;
    EXPECT(roskudla_card(bytes_of(text), strlen(text), tables, tables_len, card, sizeof card, &length) == ROSKUDLA_OK);
    EXPECT(roskudla_check(card, length) == ROSKUDLA_OK);
    EXPECT(roskudla_list(card, length, tables, tables_len, rows, ROSKUDLA_MOST_ROWS, &count) == ROSKUDLA_OK);
    for (row = 0; row < strlen(values); row++) {
        EXPECT(roskudla_judge(bytes_of(text), strlen(text), tables, tables_len, row, &value) == ROSKUDLA_OK);
        EXPECT(value < 3 && "FUT"[value] == values[row]);
        EXPECT(roskudla_run(card, length, tables, tables_len, row, &answer) == ROSKUDLA_OK);
        EXPECT(answer == (values[row] == 'T'));
        if (values[row] == 'T') {
            EXPECT(place < count && rows[place] == row);
            place++;
        }
    }
    EXPECT(place == count);
}

static void one_case(const char *text, const char *values) { has_values(text, values, case_tables, sizeof case_tables); }

/* each test of declined cells, on a number, a blank, a declined cell and a constant, and what else is blank there; the parts and the card of such tests */
static void each_declined_case(void) {
    static const char text[] = "NOT m.2 IS DECLINED AND -7 IS NOT DECLINED";
    struct roskudla_part parts[4];
    size_t number, count = 0;
    for (number = 0; number < DECLINED_CASES; number++)
        has_values(declined_cases[number].text, declined_cases[number].values, declined_tables, sizeof declined_tables);
    EXPECT(roskudla_read(bytes_of(text), strlen(text), declined_tables, sizeof declined_tables, parts, 4, &count) == ROSKUDLA_OK && count == 4);
    EXPECT(parts[0].kind == 1 && parts[1].kind == 3 && parts[2].kind == 16 && parts[3].kind == 17);
    EXPECT(parts[0].end == 4 && parts[1].end == 3 && parts[2].end == 3 && parts[3].end == 4);
    EXPECT(parts[2].left.tag == 0 && parts[2].left.number == 2 && parts[3].left.tag == 255 && parts[3].left.number == -7);
    for (number = 0; number < 4; number++)
        EXPECT(parts[number].comparison == 0 && parts[number].table == 0 && parts[number].right.tag == 0 && parts[number].right.number == 0);
}

/* each truth test on each value, alone and under NOT; its part, of the kind that is its own, stands before the comparison in it */
static void each_truth_test(void) {
    size_t number;
    for (number = 0; number < TRUTH_TESTS; number++) {
        char text[64] = "NOT (m.2 > 0) ";
        struct roskudla_part parts[3];
        size_t count = 0;
        strcat(text, truth_tests[number].ending);
        one_case(text, truth_tests[number].negated);
        one_case(text + strlen("NOT "), truth_tests[number].values);
        EXPECT(roskudla_read(bytes_of(text), strlen(text), case_tables, sizeof case_tables, parts, 3, &count) == ROSKUDLA_OK && count == 3);
        EXPECT(parts[0].kind == 3 && parts[1].kind == 10 + number && parts[2].kind == 4);
        EXPECT(parts[0].end == 3 && parts[1].end == 3 && parts[2].end == 3);
    }
}

/* CARD into a buffer of each length up to one more than is needed, in the middle of a larger one */
static void card_rooms(const char *text, const uint8_t *wanted, size_t wanted_len) {
    uint8_t buffer[sizeof unknown_card + 3];
    size_t room, length;
    for (room = 0; room <= wanted_len + 1; room++) {
        uint32_t status;
        memset(buffer, UNTOUCHED, sizeof buffer);
        length = 77;
        status = roskudla_card(bytes_of(text), strlen(text), worked_tables, sizeof worked_tables, buffer + 1, room, &length);
        EXPECT(buffer[0] == UNTOUCHED);
        if (room < wanted_len) {
            EXPECT(status == ROSKUDLA_ROOM && length == 77 && untouched(buffer, sizeof buffer));
        } else {
            EXPECT(status == ROSKUDLA_OK && length == wanted_len && memcmp(buffer + 1, wanted, wanted_len) == 0);
            EXPECT(untouched(buffer + 1 + wanted_len, sizeof buffer - 1 - wanted_len));
        }
    }
    length = 77;
    EXPECT(roskudla_card(bytes_of(text), strlen(text), worked_tables, sizeof worked_tables, NULL, 0, &length) == ROSKUDLA_ROOM && length == 77);
}

/* READ, JUDGE and CARD refuse a text and a tables file with the same number, and touch nothing */
static void refused(uint32_t number, const void *text, size_t text_len, const void *tables, size_t tables_len) {
    struct roskudla_part parts[2];
    uint8_t card[64], value = UNTOUCHED;
    size_t count = UNTOUCHED, length = UNTOUCHED;
    const uint8_t *rule = (const uint8_t *)text, *file = (const uint8_t *)tables;
    memset(parts, UNTOUCHED, sizeof parts);
    memset(card, UNTOUCHED, sizeof card);
    EXPECT(roskudla_read(rule, text_len, file, tables_len, parts, 2, &count) == number);
    EXPECT(roskudla_judge(rule, text_len, file, tables_len, 0, &value) == number);
    EXPECT(roskudla_card(rule, text_len, file, tables_len, card, sizeof card, &length) == number);
    EXPECT(untouched(parts, sizeof parts) && untouched(card, sizeof card) && count == UNTOUCHED && value == UNTOUCHED && length == UNTOUCHED);
}

static void refused_text(uint32_t number, const char *text) { refused(number, text, strlen(text), case_tables, sizeof case_tables); }

/* an empty text, with room for one of so many bytes */
static char *empty_text(size_t length) {
    char *text = (char *)calloc(length + 1, 1);
    if (text == NULL) abort();
    return text;
}

/* so many times a word, with another between two of them */
static char *repeated(const char *word, const char *between, size_t times) {
    char *text = empty_text(times * (strlen(word) + strlen(between)));
    while (times-- > 0) {
        strcat(text, word);
        if (times > 0) strcat(text, between);
    }
    return text;
}

/* a condition within so many IS UNKNOWN around one another: each makes 1 plus twice the sum of entries in it */
static char *within_unknowns(const char *condition, size_t times) {
    char *opening = repeated("(", "", times), *closing = repeated(") IS UNKNOWN", "", times);
    char *text = empty_text(strlen(opening) + strlen(condition) + strlen(closing));
    strcat(strcat(strcat(text, opening), condition), closing);
    free(opening);
    free(closing);
    return text;
}

static void refusal_examples(void) {
    static const uint8_t bad_sizes[] = {0}, bad_mark[] = {1, 1, 1, 0, 0, 0, 0, 0, 3};
    char *spaces = repeated(" ", "", 4097), *brackets = repeated("(", "", 33), *tests = repeated("1 = 1", " OR ", 33);
    uint8_t value = UNTOUCHED;
    refused(ROSKUDLA_TABLES, "1 = 1", 5, bad_sizes, sizeof bad_sizes);
    refused(ROSKUDLA_TABLES, "1 = 1", 5, NULL, 0);
    refused(ROSKUDLA_MARK, "1 = 1", 5, bad_mark, sizeof bad_mark);
    refused_text(ROSKUDLA_TEXT, spaces);
    refused_text(ROSKUDLA_TOKEN, "m.1 = 2147483648");
    refused_text(ROSKUDLA_BRACKETS, brackets);
    refused_text(ROSKUDLA_GRAMMAR, "");
    refused(ROSKUDLA_GRAMMAR, NULL, 0, case_tables, sizeof case_tables);
    refused_text(ROSKUDLA_GRAMMAR, "m.1 =");
    refused_text(ROSKUDLA_LIMITS, tests);
    refused_text(ROSKUDLA_NAMES, "k.1 = 1");
    refused_text(ROSKUDLA_GRAMMAR, "(1 = 1) IS TRUE IS TRUE");
    refused_text(ROSKUDLA_GRAMMAR, "1 = 1 IS TRUE");
    refused_text(ROSKUDLA_GRAMMAR, "TRUE");
    refused_text(ROSKUDLA_GRAMMAR, "EXISTS (FROM 2 v WHERE 1 = 1) IS TRUE");
    refused_text(ROSKUDLA_GRAMMAR, "m.1 IN " ALL2 " IS TRUE");
    refused_text(ROSKUDLA_GRAMMAR, "(1 = 1) IS NOT NOT TRUE");
    refused_text(ROSKUDLA_TOKEN, "m.1 IS DECLINE");
    refused_text(ROSKUDLA_TOKEN, "m.1 = !");
    refused_text(ROSKUDLA_GRAMMAR, "DECLINED");
    refused_text(ROSKUDLA_GRAMMAR, "m.1 IS NOT NOT DECLINED");
    refused_text(ROSKUDLA_GRAMMAR, "(m.1) IS DECLINED");
    refused_text(ROSKUDLA_GRAMMAR, "(1 = 1) IS NOT DECLINED");
    refused_text(ROSKUDLA_NAMES, "m.3 IS DECLINED");
    EXPECT(roskudla_judge(bytes_of("1 = 1"), 5, case_tables, sizeof case_tables, ROWS, &value) == ROSKUDLA_ROW && value == UNTOUCHED);
    EXPECT(roskudla_judge(bytes_of("1 = 1"), 5, case_tables, sizeof case_tables, (size_t)-1, &value) == ROSKUDLA_ROW && value == UNTOUCHED);
    free(spaces);
    free(brackets);
    free(tests);
}

/* what READ answers, JUDGE on a row that is absent, and CARD with no room */
static void statuses(const char *text, uint32_t of_read, uint32_t of_judge, uint32_t of_card) {
    struct roskudla_part parts[ROSKUDLA_MOST_PARTS];
    uint8_t value = UNTOUCHED;
    size_t count = 0, length = UNTOUCHED;
    EXPECT(roskudla_read(bytes_of(text), strlen(text), case_tables, sizeof case_tables, parts, ROSKUDLA_MOST_PARTS, &count) == of_read);
    EXPECT(roskudla_judge(bytes_of(text), strlen(text), case_tables, sizeof case_tables, 99, &value) == of_judge && value == UNTOUCHED);
    EXPECT(roskudla_card(bytes_of(text), strlen(text), case_tables, sizeof case_tables, NULL, 0, &length) == of_card && length == UNTOUCHED);
}

/* 13 comes after 8, and before 11 and 12: seven IS UNKNOWN within one another make a sum of 255, which is too high, and six of them one of 127; 32 of them
 * make one that has 33 bits */
static void too_many_entries(void) {
    char *seven = within_unknowns("1 = 1", 7), *six = within_unknowns("1 = 1", 6), *unbound = within_unknowns("k.1 = 1", 7);
    char *most = within_unknowns("1 = 1", 32);
    size_t count = UNTOUCHED;
    refused_text(ROSKUDLA_ENTRIES, seven);
    refused_text(ROSKUDLA_ENTRIES, most);
    refused_text(ROSKUDLA_NAMES, unbound);
    statuses(seven, ROSKUDLA_ENTRIES, ROSKUDLA_ENTRIES, ROSKUDLA_ENTRIES);
    statuses(six, ROSKUDLA_OK, ROSKUDLA_ROW, ROSKUDLA_ROOM);
    statuses(unbound, ROSKUDLA_NAMES, ROSKUDLA_NAMES, ROSKUDLA_NAMES);
    EXPECT(roskudla_read(bytes_of(seven), strlen(seven), case_tables, sizeof case_tables, NULL, 0, &count) == ROSKUDLA_ENTRIES && count == UNTOUCHED);
    free(seven);
    free(six);
    free(unbound);
    free(most);
}

static const uint8_t eight_tables[] = {8, 1, 0, 0, 1, 0, 0, 1, 0, 0, 1, 0, 0, 1, 0, 0, 1, 0, 0, 1, 0, 0, 1, 0, 0};

/* the most parts: 13 triples of lists within one another, joined by OR; no card is longer where no IS UNKNOWN doubles anything */
static void most_parts(void) {
    static const char triple[] = "1=SOME(SELECT 1 FROM 1 a WHERE 1=SOME(SELECT 1 FROM 1 b WHERE 1=SOME(SELECT 1 FROM 1 c WHERE 1=1)))";
    char *text = repeated(triple, " OR ", 13);
    uint8_t card[ROSKUDLA_MOST_CARD_BYTES];
    struct roskudla_part parts[ROSKUDLA_MOST_PARTS];
    size_t length = 0, count = 0;
    EXPECT(roskudla_card(bytes_of(text), strlen(text), eight_tables, sizeof eight_tables, card, sizeof card, &length) == ROSKUDLA_OK);
    EXPECT(length == 3 + 8 + 15 * 142 && roskudla_check(card, length) == ROSKUDLA_OK);
    EXPECT(roskudla_read(bytes_of(text), strlen(text), eight_tables, sizeof eight_tables, parts, ROSKUDLA_MOST_PARTS, &count) == ROSKUDLA_OK);
    EXPECT(count == ROSKUDLA_MOST_PARTS);
    free(text);
}

/* the longest card of all, with 192 entries over eight tables: EXISTS has 1 more than its WHERE, so 2, then 191 within six IS UNKNOWN, then 192; and 193 */
static void most_entries(void) {
    char *inner = within_unknowns("EXISTS (FROM 1 v WHERE 1 = 1)", 6);
    char *text = empty_text(strlen(inner) + 2 * strlen("EXISTS (FROM 1 v WHERE )"));
    uint8_t card[ROSKUDLA_MOST_CARD_BYTES + 1];
    size_t length = 0;
    memset(card, UNTOUCHED, sizeof card);
    strcat(strcat(strcat(text, "EXISTS (FROM 1 v WHERE "), inner), ")");
    EXPECT(roskudla_card(bytes_of(text), strlen(text), eight_tables, sizeof eight_tables, card, ROSKUDLA_MOST_CARD_BYTES - 1, &length) == ROSKUDLA_ROOM);
    EXPECT(length == 0 && untouched(card, sizeof card));
    EXPECT(roskudla_card(bytes_of(text), strlen(text), eight_tables, sizeof eight_tables, card, ROSKUDLA_MOST_CARD_BYTES, &length) == ROSKUDLA_OK);
    EXPECT(length == ROSKUDLA_MOST_CARD_BYTES && card[0] == 192 && card[1] == 0 && roskudla_check(card, length) == ROSKUDLA_OK);
    EXPECT(untouched(card + length, sizeof card - length));
    statuses(text, ROSKUDLA_OK, ROSKUDLA_ROW, ROSKUDLA_ROOM);
    text[0] = 0;
    strcat(strcat(strcat(text, "EXISTS (FROM 1 v WHERE EXISTS (FROM 1 v WHERE "), inner), "))");
    statuses(text, ROSKUDLA_ENTRIES, ROSKUDLA_ENTRIES, ROSKUDLA_ENTRIES);
    text[0] = 0;
    strcat(strcat(text, inner), " AND 1 = 1");
    statuses(text, ROSKUDLA_ENTRIES, ROSKUDLA_ENTRIES, ROSKUDLA_ENTRIES);
    free(inner);
    free(text);
}

/* comma lines, a number of columns, and the answer of IMPORT: its number of refusal, or rows and the bytes of the file behind its four bytes of sizes */
static const struct import_case { const char *lines; size_t columns; uint32_t status; size_t rows; const char *cells; } imports[] = {
    {"", 1, ROSKUDLA_OK, 0, ""},
    {"", 16, ROSKUDLA_OK, 0, ""},
    {"\n", 1, ROSKUDLA_OK, 1, "\0\0\0\0" "\1"},
    {"\r\n", 1, ROSKUDLA_OK, 1, "\0\0\0\0" "\1"},
    {"1", 1, ROSKUDLA_OK, 1, "\1\0\0\0" "\0"},
    {"1\n", 1, ROSKUDLA_OK, 1, "\1\0\0\0" "\0"},
    {"1\r\n", 1, ROSKUDLA_OK, 1, "\1\0\0\0" "\0"},
    {"1\n\n", 1, ROSKUDLA_OK, 2, "\1\0\0\0" "\0\0\0\0" "\0\1"},
    {",", 2, ROSKUDLA_OK, 1, "\0\0\0\0" "\0\0\0\0" "\1\1"},
    {"-0,007\r\n,", 2, ROSKUDLA_OK, 2, "\0\0\0\0" "\7\0\0\0" "\0\0\0\0" "\0\0\0\0" "\0\0\1\1"},
    {"2147483647,-2147483648\n", 2, ROSKUDLA_OK, 1, "\377\377\377\177" "\0\0\0\200" "\0\0"},
    {"0000000001,-1\n,256", 2, ROSKUDLA_OK, 2, "\1\0\0\0" "\377\377\377\377" "\0\0\0\0" "\0\1\0\0" "\0\0\1\0"},
    {"!", 1, ROSKUDLA_OK, 1, "\0\0\0\0" "\2"},
    {"!\r\n", 1, ROSKUDLA_OK, 1, "\0\0\0\0" "\2"},
    {"!,\n7,!\n", 2, ROSKUDLA_OK, 2, "\0\0\0\0" "\0\0\0\0" "\7\0\0\0" "\0\0\0\0" "\2\1\0\2"},
    {"!1", 1, ROSKUDLA_FIELDS, 0, ""},
    {"1!", 1, ROSKUDLA_FIELDS, 0, ""},
    {"! ", 1, ROSKUDLA_FIELDS, 0, ""},
    {"!!", 1, ROSKUDLA_FIELDS, 0, ""},
    {"-!", 1, ROSKUDLA_FIELDS, 0, ""},
    {"!\r", 1, ROSKUDLA_FIELDS, 0, ""},
    {"!", 2, ROSKUDLA_FIELDS, 0, ""},
    {"!,", 1, ROSKUDLA_FIELDS, 0, ""},
    {"", 0, ROSKUDLA_FIELDS, 0, ""},
    {"", 17, ROSKUDLA_FIELDS, 0, ""},
    {"1", 257, ROSKUDLA_FIELDS, 0, ""},
    {"1", (size_t)-1, ROSKUDLA_FIELDS, 0, ""},
    {"1", ((size_t)1 << 32) + 1, ROSKUDLA_FIELDS, 0, ""},
    {"\n", 2, ROSKUDLA_FIELDS, 0, ""},
    {"1,2\n1", 2, ROSKUDLA_FIELDS, 0, ""},
    {"1,2\n1,2,3", 2, ROSKUDLA_FIELDS, 0, ""},
    {"1,", 1, ROSKUDLA_FIELDS, 0, ""},
    {"1\r", 1, ROSKUDLA_FIELDS, 0, ""},
    {"1\r\r\n", 1, ROSKUDLA_FIELDS, 0, ""},
    {"+1", 1, ROSKUDLA_FIELDS, 0, ""},
    {"1 ", 1, ROSKUDLA_FIELDS, 0, ""},
    {" 1", 1, ROSKUDLA_FIELDS, 0, ""},
    {"1.0", 1, ROSKUDLA_FIELDS, 0, ""},
    {"1/", 1, ROSKUDLA_FIELDS, 0, ""},
    {"1:", 1, ROSKUDLA_FIELDS, 0, ""},
    {"\"1\"", 1, ROSKUDLA_FIELDS, 0, ""},
    {"00000000001", 1, ROSKUDLA_FIELDS, 0, ""},
    {"2147483648", 1, ROSKUDLA_FIELDS, 0, ""},
    {"-2147483649", 1, ROSKUDLA_FIELDS, 0, ""}};
enum { IMPORTS = sizeof imports / sizeof imports[0] };

/* IMPORT into a buffer of so much room, in the middle of a larger one; what lies outside the answer, and all of it where it is refused, has to be as it was */
static uint32_t import_into(uint8_t *buffer, size_t whole, size_t room, const char *lines, size_t lines_len, size_t columns, size_t *length) {
    uint32_t status;
    memset(buffer, UNTOUCHED, whole);
    *length = 77;
    status = roskudla_import(bytes_of(lines), lines_len, columns, buffer + 1, room, length);
    EXPECT(buffer[0] == UNTOUCHED);
    if (status != ROSKUDLA_OK) EXPECT(*length == 77 && untouched(buffer, whole));
    else EXPECT(*length <= room && untouched(buffer + 1 + *length, whole - 1 - *length));
    return status;
}

/* each of the cases, with each room up to one more than is needed; a refusal but 12 is given whatever the room */
static void each_import(void) {
    uint8_t buffer[4 + 5 * 4 + 3];
    size_t number, room, length;
    for (number = 0; number < IMPORTS; number++) {
        const struct import_case *one = &imports[number];
        size_t cells = one->rows * one->columns, needed = one->status == ROSKUDLA_OK ? 4 + 5 * cells : 1;
        for (room = 0; room <= needed + 1; room++) {
            uint32_t status = import_into(buffer, sizeof buffer, room, one->lines, strlen(one->lines), one->columns, &length);
            if (one->status != ROSKUDLA_OK) {
                EXPECT(status == one->status);
            } else if (room < needed) {
                EXPECT(status == ROSKUDLA_ROOM);
            } else {
                EXPECT(status == ROSKUDLA_OK && length == needed);
                EXPECT(buffer[1] == 1 && buffer[2] == one->columns && buffer[3] == one->rows && buffer[4] == 0);
                EXPECT(memcmp(buffer + 5, one->cells, 5 * cells) == 0);
            }
        }
    }
    EXPECT(roskudla_import(NULL, 0, 3, buffer, 4, &length) == ROSKUDLA_OK && length == 4 && memcmp(buffer, worked_tables, 4) == 0);
    length = 77;
    EXPECT(roskudla_import(NULL, 0, 0, NULL, 0, &length) == ROSKUDLA_FIELDS && length == 77);
    EXPECT(roskudla_import(NULL, 0, 3, NULL, 0, &length) == ROSKUDLA_ROOM && length == 77);
}

/* a tables file, and the answer of EXPORT: its number of refusal, or the lines */
static void one_export(const uint8_t *tables, size_t tables_len, uint32_t status, const char *lines) {
    uint8_t buffer[64];
    size_t needed = strlen(lines), room, length;
    for (room = 0; room <= needed + 1; room++) {
        uint32_t got, wanted = status;
        if (status == ROSKUDLA_OK && room < needed) wanted = ROSKUDLA_ROOM;
        memset(buffer, UNTOUCHED, sizeof buffer);
        length = 77;
        got = roskudla_export(tables, tables_len, room == 0 ? NULL : buffer + 1, room, &length);
        EXPECT(got == wanted && buffer[0] == UNTOUCHED);
        if (wanted != ROSKUDLA_OK) {
            EXPECT(length == 77 && untouched(buffer, sizeof buffer));
        } else {
            EXPECT(length == needed && memcmp(buffer + 1, lines, needed) == 0);
            EXPECT(untouched(buffer + 1 + needed, sizeof buffer - 1 - needed));
        }
    }
}

/* table 1 alone; the lowest number, 0 and a blank; other bytes than 0 below a blank and below a declined cell; no rows; then wrong lengths, sizes and marks */
static void each_export(void) {
    static const uint8_t three_cells[] = {1, 3, 1, 0, 0, 0, 0, 128, 0, 0, 0, 0, 0, 0, 0, 0, 0, 0, 1};
    static const uint8_t below_blank[] = {1, 1, 2, 0, 9, 9, 9, 9, 10, 0, 0, 0, 1, 0};
    static const uint8_t below_declined[] = {1, 1, 2, 0, 9, 9, 9, 9, 10, 0, 0, 0, 2, 0};
    static const uint8_t bad_mark[] = {1, 1, 1, 0, 0, 0, 0, 0, 3}, bad_columns[] = {1, 17, 0, 0};
    static const uint8_t bad_second[] = {2, 1, 1, 0, 1, 1, 0, 0, 0, 0, 0, 0, 0, 0, 0, 0, 3};
    one_export(case_tables, sizeof case_tables, ROSKUDLA_OK, "1,5\n2,\n3,0\n");
    one_export(three_cells, sizeof three_cells, ROSKUDLA_OK, "-2147483648,0,\n");
    one_export(below_blank, sizeof below_blank, ROSKUDLA_OK, "\n10\n");
    one_export(below_declined, sizeof below_declined, ROSKUDLA_OK, "!\n10\n");
    one_export(declined_tables, sizeof declined_tables, ROSKUDLA_OK, "1,5\n2,\n3,!\n!,0\n");
    one_export(worked_tables, sizeof worked_tables, ROSKUDLA_OK, "");
    one_export(NULL, 0, ROSKUDLA_TABLES, "");
    one_export(bad_mark, sizeof bad_mark - 1, ROSKUDLA_TABLES, "");
    one_export(bad_columns, sizeof bad_columns, ROSKUDLA_TABLES, "");
    one_export(bad_mark, sizeof bad_mark, ROSKUDLA_MARK, "");
    one_export(bad_second, sizeof bad_second, ROSKUDLA_MARK, "");
}

/* so many empty lines of so many columns, and what stands behind them */
static uint32_t import_lines(size_t columns, size_t rows, const char *behind) {
    static uint8_t buffer[ROSKUDLA_MOST_TABLE_BYTES + 2];
    char *lines = empty_text(rows * columns + strlen(behind));
    size_t row, length;
    uint32_t status;
    memset(lines, ',', rows * columns);
    for (row = 1; row <= rows; row++) lines[row * columns - 1] = '\n';
    strcat(lines, behind);
    status = import_into(buffer, sizeof buffer, ROSKUDLA_MOST_TABLE_BYTES, lines, strlen(lines), columns, &length);
    if (status == ROSKUDLA_OK) EXPECT(length == 4 + 5 * rows * columns && buffer[3] + 256 * buffer[4] == (int)rows);
    free(lines);
    return status;
}

/* 1,000 rows and 8,192 cells pass, and one row more is refused with 15; but with 14 where a field behind it is bad, or one too many */
static void import_sizes(void) {
    static const struct { size_t columns, most; } sizes[] = {{1, 1000}, {8, 1000}, {9, 910}, {16, 512}};
    size_t number;
    for (number = 0; number < sizeof sizes / sizeof sizes[0]; number++) {
        size_t columns = sizes[number].columns, most = sizes[number].most;
        EXPECT(import_lines(columns, most, "") == ROSKUDLA_OK);
        EXPECT(import_lines(columns, most + 1, "") == ROSKUDLA_TOO_MANY);
        EXPECT(import_lines(columns, most + 1, "x") == ROSKUDLA_FIELDS);
        EXPECT(import_lines(columns, most + 1, ",,,,,,,,,,,,,,,,") == ROSKUDLA_FIELDS);
    }
    EXPECT(import_lines(1, 1000, "1") == ROSKUDLA_TOO_MANY);
    EXPECT(import_lines(1, 65537, "") == ROSKUDLA_TOO_MANY);
}

/* the longest lines and the longest file, 8,192 cells of the lowest number: the rooms of the header are enough, and one byte less is not; there and back */
static void most_bytes(void) {
    static uint8_t tables[ROSKUDLA_MOST_TABLE_BYTES], lines[ROSKUDLA_MOST_LINES_BYTES + 1], again[ROSKUDLA_MOST_TABLE_BYTES + 2];
    size_t cell, length = 77, wrong = 0;
    memset(lines, UNTOUCHED, sizeof lines);
    tables[0] = 1, tables[1] = 16, tables[3] = 2;
    for (cell = 0; cell < 8192; cell++) tables[4 + 4 * cell + 3] = 128;
    EXPECT(roskudla_export(tables, sizeof tables, lines, ROSKUDLA_MOST_LINES_BYTES - 1, &length) == ROSKUDLA_ROOM && length == 77);
    EXPECT(untouched(lines, sizeof lines));
    EXPECT(roskudla_export(tables, sizeof tables, lines, ROSKUDLA_MOST_LINES_BYTES, &length) == ROSKUDLA_OK);
    EXPECT(length == ROSKUDLA_MOST_LINES_BYTES && untouched(lines + length, 1));
    for (cell = 0; cell < 8192; cell++) wrong += memcmp(lines + 12 * cell, cell % 16 == 15 ? "-2147483648\n" : "-2147483648,", 12) != 0;
    EXPECT(wrong == 0);
    EXPECT(import_into(again, sizeof again, ROSKUDLA_MOST_TABLE_BYTES - 1, (char *)lines, ROSKUDLA_MOST_LINES_BYTES, 16, &length) == ROSKUDLA_ROOM);
    EXPECT(import_into(again, sizeof again, ROSKUDLA_MOST_TABLE_BYTES, (char *)lines, ROSKUDLA_MOST_LINES_BYTES, 16, &length) == ROSKUDLA_OK);
    EXPECT(length == ROSKUDLA_MOST_TABLE_BYTES && memcmp(again + 1, tables, length) == 0);
}

int main(void) {
    size_t number;
    for (number = 0; number < CASES; number++) one_case(cases[number].text, cases[number].values);
    each_truth_test();
    each_declined_case();
    card_rooms("NOT m.2 < 5", worked_card, sizeof worked_card);
    card_rooms("NOT m.2 IS DECLINED", declined_card, sizeof declined_card);
    card_rooms("(m.3 > 0) IS UNKNOWN", unknown_card, sizeof unknown_card);
    refusal_examples();
    too_many_entries();
    most_parts();
    most_entries();
    each_import();
    each_export();
    import_sizes();
    most_bytes();
    return report("calls");
}
