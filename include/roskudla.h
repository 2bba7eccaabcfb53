/* Roskudla: entry rules with blanks and declined answers, turned into cards that answer yes or no.
 *
 * Eight calls. Each returns 0, or the number of a refusal (1 to 15, below). Where several refusals apply, it is the first in the order that
 * stands at the call. The answer comes through pointers, and a refusal leaves everything that they point to as it was; after a success what
 * lies past the answer is untouched. docs/RULES.md says how rules are written and what they mean, docs/FORMATS.md what the bytes of tables,
 * cards and comma lines are; the definitions that the calls are proved against are in crates/rule/specs, crates/tables/specs,
 * crates/card/specs, crates/translation/specs and crates/lines/specs, with an index in docs/ARCHITECTURE.md.
 *
 * A slice is a pointer and its length, in elements. Where the length is 0 the pointer is not looked at and may be NULL. All other pointers
 * point to as many elements as their length says, or to one where they have no length; they are never NULL, and are aligned as C aligns what
 * they point to. What a call writes must not overlap anything else that it was given; what it only reads may overlap.
 *
 * The calls have no state: they may run in several threads at a time, as long as nobody writes what another call is given. They use the
 * caller's stack alone, up to 80 KB in roskudla_read, roskudla_judge, roskudla_card and roskudla_import, and up to 40 KB in the others, and
 * call nothing but memcpy and memset. The time of roskudla_run, roskudla_judge and roskudla_list grows with the product of the row counts of tables whose
 * FROMs stand around one another, and for roskudla_list with the rows of table 1 besides; docs/BENCHMARK.md has how long three FROMs over
 * the largest tables take.
 *
 * libroskudla.a (of the crate roskudla) has all eight calls. libroskudla_gate.a (of the crate roskudla_gate_c) has roskudla_check, roskudla_run
 * and roskudla_list alone, for a gate that runs cards and reads no rules. bindings/build makes both. Link one of the two. They are for x86-64.
 */
#ifndef ROSKUDLA_H
#define ROSKUDLA_H

#include <stddef.h>
#include <stdint.h>

#ifdef __cplusplus
extern "C" {
#endif

/* What a call returns. */
enum roskudla_status {
    ROSKUDLA_OK = 0,
    ROSKUDLA_TABLES = 1,    /* tables: sizes or length wrong */
    ROSKUDLA_MARK = 2,      /* tables: a mark above 2 */
    ROSKUDLA_TEXT = 3,      /* text over 4,096 bytes */
    ROSKUDLA_TOKEN = 4,     /* no such token, or a number beyond the range */
    ROSKUDLA_BRACKETS = 5,  /* over 32 more ( than ) up to some token */
    ROSKUDLA_GRAMMAR = 6,   /* the text does not follow the grammar */
    ROSKUDLA_LIMITS = 7,    /* over 64 parts, or over three FROMs around one another */
    ROSKUDLA_NAMES = 8,     /* a letter that is not bound, a table or a column that is absent */
    ROSKUDLA_UNSOUND = 9,   /* the card is not sound */
    ROSKUDLA_COLUMNS = 10,  /* the card was made for another number of tables or columns */
    ROSKUDLA_ROW = 11,      /* the row is not in table 1 */
    ROSKUDLA_ROOM = 12,     /* what was lent is shorter than the whole answer */
    ROSKUDLA_ENTRIES = 13,  /* the card would have over 192 entries */
    ROSKUDLA_FIELDS = 14,   /* comma lines: a bad field, a wrong field count, or columns not 1 to 16 */
    ROSKUDLA_TOO_MANY = 15  /* comma lines: over 1,000 rows or 8,192 cells */
};

/* The mark byte of a cell in a tables file. A sign-up form writes ROSKUDLA_MARK_DECLINED where somebody declined to answer, and
 * ROSKUDLA_MARK_BLANK where there is no answer. A declined cell is blank in every respect, IS NULL included; only IS DECLINED and
 * IS NOT DECLINED, entries of kinds 9 and 10 of a card, and comma lines tell the two apart. The value bytes of a blank or declined cell may be
 * anything. */
#define ROSKUDLA_MARK_PRESENT 0
#define ROSKUDLA_MARK_BLANK 1
#define ROSKUDLA_MARK_DECLINED 2

/* With so much room no call returns ROSKUDLA_ROOM. */
#define ROSKUDLA_MOST_PARTS 64           /* parts of a rule, for roskudla_read */
#define ROSKUDLA_MOST_CARD_BYTES 2891    /* bytes of any sound card, for roskudla_card */
#define ROSKUDLA_MOST_ROWS 1000          /* rows of a table, for roskudla_list */
#define ROSKUDLA_MOST_TABLE_BYTES 40964  /* bytes of a tables file with one table, for roskudla_import */
#define ROSKUDLA_MOST_LINES_BYTES 98304  /* bytes of the comma lines of a table, for roskudla_export */

/* A value in a part: the tag is 255 for a constant, else the level of a column, 0 to 3; the number is the constant, or the column's. */
struct roskudla_value {
    uint8_t tag;
    int32_t number;
};

/* A part of a rule. Fields that its kind does not use are 0. Bytes between fields may be anything: compare parts field by field. */
struct roskudla_part {
    uint8_t kind;       /* 1 and, 2 or, 3 not, 4 comparison, 5 IS NULL, 6 IS NOT NULL, 7 exists, 8 some, 9 all, 10 IS TRUE, 11 IS NOT TRUE,
                           12 IS FALSE, 13 IS NOT FALSE, 14 IS UNKNOWN, 15 IS NOT UNKNOWN, 16 IS DECLINED, 17 IS NOT DECLINED */
    uint8_t comparison; /* 1 =, 2 <>, 3 <, 4 <=, 5 >, 6 >= */
    uint8_t table;
    uint8_t end;        /* number of the first part after this one and its inner parts */
    struct roskudla_value left;
    struct roskudla_value right;
};

/* READ: the parts of a rule, from the start of parts on; *count becomes how many they are. Refusals, in this order: 1 to 8, 13, 12. */
uint32_t roskudla_read(const uint8_t *text, size_t text_len, const uint8_t *tables, size_t tables_len,
                       struct roskudla_part *parts, size_t parts_len, size_t *count);

/* JUDGE: *value becomes the value of a rule on a row of table 1: 0 false, 1 unknown, 2 true. Refusals, in this order: 1 to 8, 13, 11. */
uint32_t roskudla_judge(const uint8_t *text, size_t text_len, const uint8_t *tables, size_t tables_len,
                        size_t row, uint8_t *value);

/* CARD: the card of a rule, from the start of card on; *length becomes how many bytes it has. Refusals, in this order: 1 to 8, 13, 12. */
uint32_t roskudla_card(const uint8_t *text, size_t text_len, const uint8_t *tables, size_t tables_len,
                       uint8_t *card, size_t card_len, size_t *length);

/* CHECK: whether a card is sound. Its entries are of kinds 1 to 10. Refusal 9. */
uint32_t roskudla_check(const uint8_t *card, size_t card_len);

/* RUN: *answer becomes what a card says of a row of table 1: 0 no, 1 yes. Refusals, in this order: 1, 2, 9 to 11. */
uint32_t roskudla_run(const uint8_t *card, size_t card_len, const uint8_t *tables, size_t tables_len,
                      size_t row, uint8_t *answer);

/* LIST: the numbers of the rows of table 1 that a card says yes to, rising, from the start of rows on; *count becomes how many they are.
 * Refusals, in this order: 1, 2, 9, 10, 12. */
uint32_t roskudla_list(const uint8_t *card, size_t card_len, const uint8_t *tables, size_t tables_len,
                       uint32_t *rows, size_t rows_len, size_t *count);

/* IMPORT: comma lines as a tables file with one table, of so many columns, from the start of tables on; *length becomes how many bytes it has.
 * A field is a number, empty for blank, or a lone ! for declined; the value under the last two is 0. Refusals, in this order: 14, 15, 12. */
uint32_t roskudla_import(const uint8_t *lines, size_t lines_len, size_t columns,
                         uint8_t *tables, size_t tables_len, size_t *length);

/* EXPORT: table 1 of a tables file as comma lines, from the start of lines on; *length becomes how many bytes they have. A blank cell is an
 * empty field, and a declined one is a lone !. Refusals, in this order: 1, 2, 12. */
uint32_t roskudla_export(const uint8_t *tables, size_t tables_len,
                         uint8_t *lines, size_t lines_len, size_t *length);

#ifdef __cplusplus
}
#endif

#endif
