/* CHECK, RUN and LIST, linked from the archive of the gate alone: a card given as bytes, cards with kinds 9 and 10, and each of the gate's refusals. */
#include "expect.h"

/* one table of 3 columns, three rows; column 2 is 7, blank with 7 under it, and 8 */
static const uint8_t three_rows[] = {
    1, 3, 3, 0,
    1, 0, 0, 0, 7, 0, 0, 0, 1, 0, 0, 0, 1, 0, 0, 0, 7, 0, 0, 0, 1, 0, 0, 0, 1, 0, 0, 0, 8, 0, 0, 0, 1, 0, 0, 0,
    0, 0, 0, 0, 1, 0, 0, 0, 0};
static const uint8_t other_columns[] = {1, 2, 0, 0};
static const uint8_t bad_mark[] = {1, 1, 1, 0, 0, 0, 0, 0, 3};
static const uint8_t bad_sizes[] = {0};
static const uint8_t bad_card[] = {0, 0};

static void check_calls(void) {
    EXPECT(roskudla_check(worked_card, sizeof worked_card) == ROSKUDLA_OK);
    EXPECT(roskudla_check(worked_card, sizeof worked_card - 1) == ROSKUDLA_UNSOUND);
    EXPECT(roskudla_check(bad_card, sizeof bad_card) == ROSKUDLA_UNSOUND);
    EXPECT(roskudla_check(NULL, 0) == ROSKUDLA_UNSOUND);
}

/* RUN's status, with the answer's byte afterwards */
static uint32_t run(const uint8_t *card, size_t card_len, const uint8_t *tables, size_t tables_len, size_t row, uint8_t *answer) {
    uint8_t around[3];
    uint32_t status;
    memset(around, UNTOUCHED, sizeof around);
    status = roskudla_run(card, card_len, tables, tables_len, row, &around[1]);
    EXPECT(around[0] == UNTOUCHED && around[2] == UNTOUCHED);
    EXPECT(status == ROSKUDLA_OK || around[1] == UNTOUCHED);
    *answer = around[1];
    return status;
}

static void run_calls(void) {
    uint8_t answer;
    EXPECT(run(worked_card, sizeof worked_card, three_rows, sizeof three_rows, 0, &answer) == ROSKUDLA_OK && answer == 1);
    EXPECT(run(worked_card, sizeof worked_card, three_rows, sizeof three_rows, 1, &answer) == ROSKUDLA_OK && answer == 0);
    EXPECT(run(worked_card, sizeof worked_card, three_rows, sizeof three_rows, 2, &answer) == ROSKUDLA_OK && answer == 1);
    EXPECT(run(worked_card, sizeof worked_card, three_rows, sizeof three_rows, 3, &answer) == ROSKUDLA_ROW);
    EXPECT(run(worked_card, sizeof worked_card, three_rows, sizeof three_rows, (size_t)-1, &answer) == ROSKUDLA_ROW);
    EXPECT(run(worked_card, sizeof worked_card, other_columns, sizeof other_columns, 0, &answer) == ROSKUDLA_COLUMNS);
    EXPECT(run(bad_card, sizeof bad_card, three_rows, sizeof three_rows, 0, &answer) == ROSKUDLA_UNSOUND);
    EXPECT(run(worked_card, sizeof worked_card, bad_mark, sizeof bad_mark, 0, &answer) == ROSKUDLA_MARK);
    EXPECT(run(worked_card, sizeof worked_card, bad_sizes, sizeof bad_sizes, 0, &answer) == ROSKUDLA_TABLES);
    EXPECT(run(NULL, 0, three_rows, sizeof three_rows, 0, &answer) == ROSKUDLA_UNSOUND);
    EXPECT(run(worked_card, sizeof worked_card, NULL, 0, 0, &answer) == ROSKUDLA_TABLES);
}

/* LIST's status with so much room, which may be 3 at most; its count; and in found[0] to found[2] the list afterwards */
static uint32_t list(const uint8_t *card, size_t card_len, const uint8_t *tables, size_t tables_len, size_t room, size_t *count, uint32_t *found) {
    uint32_t rows[5];
    size_t counts[3], written;
    uint32_t status;
    memset(rows, UNTOUCHED, sizeof rows);
    memset(counts, UNTOUCHED, sizeof counts);
    status = roskudla_list(card, card_len, tables, tables_len, &rows[1], room, &counts[1]);
    written = status == ROSKUDLA_OK && counts[1] <= room ? counts[1] : 0;
    EXPECT(status != ROSKUDLA_OK || counts[1] <= room);
    EXPECT(untouched(&rows[0], sizeof rows[0]) && untouched(&rows[1 + written], (4 - written) * sizeof rows[0]));
    EXPECT(untouched(&counts[0], sizeof counts[0]) && untouched(&counts[2], sizeof counts[2]));
    EXPECT(status == ROSKUDLA_OK || untouched(&counts[1], sizeof counts[1]));
    *count = counts[1];
    memcpy(found, &rows[1], 3 * sizeof rows[1]);
    return status;
}

static void list_calls(void) {
    size_t count, room;
    uint32_t found[3];
    for (room = 0; room <= 3; room++) {
        uint32_t status = list(worked_card, sizeof worked_card, three_rows, sizeof three_rows, room, &count, found);
        EXPECT(room < 2 ? status == ROSKUDLA_ROOM : status == ROSKUDLA_OK && count == 2 && found[0] == 0 && found[1] == 2);
    }
    EXPECT(list(worked_card, sizeof worked_card, worked_tables, sizeof worked_tables, 0, &count, found) == ROSKUDLA_OK && count == 0);
    EXPECT(list(worked_card, sizeof worked_card, other_columns, sizeof other_columns, 3, &count, found) == ROSKUDLA_COLUMNS);
    EXPECT(list(bad_card, sizeof bad_card, three_rows, sizeof three_rows, 3, &count, found) == ROSKUDLA_UNSOUND);
    EXPECT(list(worked_card, sizeof worked_card, bad_mark, sizeof bad_mark, 3, &count, found) == ROSKUDLA_MARK);
    EXPECT(list(worked_card, sizeof worked_card, bad_sizes, sizeof bad_sizes, 3, &count, found) == ROSKUDLA_TABLES);
    EXPECT(list(NULL, 0, three_rows, sizeof three_rows, 3, &count, found) == ROSKUDLA_UNSOUND);
    EXPECT(list(worked_card, sizeof worked_card, NULL, 0, 3, &count, found) == ROSKUDLA_TABLES);
    count = UNTOUCHED;
    EXPECT(roskudla_list(worked_card, sizeof worked_card, three_rows, sizeof three_rows, NULL, 0, &count) == ROSKUDLA_ROOM && count == UNTOUCHED);
    EXPECT(roskudla_list(worked_card, sizeof worked_card, worked_tables, sizeof worked_tables, NULL, 0, &count) == ROSKUDLA_OK && count == 0);
}

/* the card of one entry for declined_tables: its kind, table, comparison, left and right value */
static size_t one_entry(uint8_t *card, uint8_t kind, uint8_t table, uint8_t comparison, const uint8_t *left, const uint8_t *right) {
    static const uint8_t head[] = {1, 0, 3, 2, 1, 1};
    memset(card, 0, sizeof head + 15);
    memcpy(card, head, sizeof head);
    card[6] = kind, card[7] = 1, card[9] = table, card[10] = comparison;
    memcpy(card + 11, left, 5);
    memcpy(card + 16, right, 5);
    return sizeof head + 15;
}

/* values: unused, of columns of the judged row, of a level that is absent, and of a number */
static const uint8_t none[] = {0, 0, 0, 0, 0}, column_2[] = {0, 2, 0, 0, 0}, column_3[] = {0, 3, 0, 0, 0};
static const uint8_t level_1[] = {1, 1, 0, 0, 0}, number_2[] = {255, 2, 0, 0, 0};

/* the rows 0 to 3 that RUN and LIST admit of declined_tables, as bits, by a card that CHECK passes; 255 where all three refuse with 9 */
static unsigned admitted(uint8_t kind, uint8_t table, uint8_t comparison, const uint8_t *left, const uint8_t *right) {
    uint8_t card[21], answer;
    uint32_t rows[4], status;
    size_t length = one_entry(card, kind, table, comparison, left, right), count = 0, place = 0, row;
    unsigned bits = 0;
    status = roskudla_list(card, length, declined_tables, sizeof declined_tables, rows, 4, &count);
    EXPECT(roskudla_check(card, length) == status);
    for (row = 0; row < 4; row++) {
        EXPECT(run(card, length, declined_tables, sizeof declined_tables, row, &answer) == status);
        if (status != ROSKUDLA_OK || answer == 0) continue;
        EXPECT(place < count && rows[place] == row);
        place++;
        bits |= 1u << row;
    }
    EXPECT(place == count);
    return status == ROSKUDLA_UNSOUND ? 255 : bits;
}

/* kinds 9 and 10 are by the mark, and never yes and never no of a number; a declined cell is blank to kinds 5 to 8. The left value is all that they use, and no
 * kind comes behind them. */
static void declined_cards(void) {
    static const uint8_t declined_cell[] = {1, 1, 1, 0, 0, 0, 0, 0, ROSKUDLA_MARK_DECLINED}, card[] = {1, 0, 1, 1, 9, 1, 0, 0, 0, 0, 1, 0, 0, 0, 0, 0, 0, 0, 0};
    uint8_t answer;
    EXPECT(admitted(9, 0, 0, column_2, none) == 4);
    EXPECT(admitted(10, 0, 0, column_2, none) == 11);
    EXPECT(admitted(9, 0, 0, number_2, none) == 0);
    EXPECT(admitted(10, 0, 0, number_2, none) == 15);
    EXPECT(admitted(7, 0, 0, column_2, none) == 6);
    EXPECT(admitted(8, 0, 0, column_2, none) == 9);
    EXPECT(admitted(5, 0, 1, column_2, column_2) == 9);
    EXPECT(admitted(6, 0, 2, column_2, column_2) == 6);
    EXPECT(admitted(10, 0, 0, column_2, number_2) == 255);
    EXPECT(admitted(10, 0, 0, column_2, column_2) == 255);
    EXPECT(admitted(10, 0, 1, column_2, none) == 255);
    EXPECT(admitted(10, 1, 0, column_2, none) == 255);
    EXPECT(admitted(9, 0, 0, column_2, number_2) == 255);
    EXPECT(admitted(9, 0, 6, column_2, none) == 255);
    EXPECT(admitted(9, 2, 0, column_2, none) == 255);
    EXPECT(admitted(9, 0, 0, column_3, none) == 255);
    EXPECT(admitted(10, 0, 0, level_1, none) == 255);
    EXPECT(admitted(11, 0, 0, column_2, none) == 255);
    EXPECT(admitted(11, 0, 0, number_2, none) == 255);
    EXPECT(admitted(11, 0, 0, none, none) == 255);
    EXPECT(admitted(11, 0, 1, column_2, number_2) == 255);
    EXPECT(admitted(16, 0, 0, column_2, none) == 255);
    EXPECT(admitted(17, 0, 0, column_2, none) == 255);
    EXPECT(run(card, sizeof card, declined_cell, sizeof declined_cell, 0, &answer) == ROSKUDLA_OK && answer == 1);
    EXPECT(run(card, sizeof card, bad_mark, sizeof bad_mark, 0, &answer) == ROSKUDLA_MARK);
}

int main(void) {
    check_calls();
    run_calls();
    list_calls();
    declined_cards();
    return report("gate");
}
