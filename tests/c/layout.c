/* How a part lies in memory: what the compiled READ writes is found in the fields of the struct, as this compiler lays it out. In the rules that are read
 * no two fields are equal in all parts, and no two bytes of the large numbers are. */
#include "expect.h"

enum { MOST = 6 };

/* READ into a list of MOST parts, in the middle of a larger one; what lies around what was written has to be as it was */
static size_t read_parts(const char *text, struct roskudla_part *parts) {
    struct roskudla_part lent[MOST + 2];
    size_t count = 0;
    memset(lent, UNTOUCHED, sizeof lent);
    EXPECT(roskudla_read((const uint8_t *)text, strlen(text), case_tables, sizeof case_tables, lent + 1, MOST, &count) == ROSKUDLA_OK);
    EXPECT(count <= MOST);
    EXPECT(untouched(lent, sizeof lent[0]));
    EXPECT(untouched(lent + 1 + count, (MOST + 1 - count) * sizeof lent[0]));
    memcpy(parts, lent + 1, MOST * sizeof lent[0]);
    return count;
}

/* as wider numbers with a sign, so that a field of another sign or width is seen */
static int is_value(struct roskudla_value value, long long tag, long long number) {
    long long is_tag = value.tag, is_number = value.number;
    return is_tag == tag && is_number == number;
}

static int is_part(struct roskudla_part part, long long kind, long long comparison, long long table, long long end) {
    long long is_kind = part.kind, is_comparison = part.comparison, is_table = part.table, is_end = part.end;
    return is_kind == kind && is_comparison == comparison && is_table == table && is_end == end;
}

/* each field has the width and the sign of the call's own: a wider tag would hold the right number as well, since the bytes behind a tag are 0 as compiled now */
static void widths_and_signs(void) {
    struct roskudla_part part;
    memset(&part, 0xFF, sizeof part);
    EXPECT(sizeof part.kind == 1 && sizeof part.comparison == 1 && sizeof part.table == 1 && sizeof part.end == 1);
    EXPECT(sizeof part.left.tag == 1 && sizeof part.left.number == 4 && sizeof part.right.tag == 1 && sizeof part.right.number == 4);
    EXPECT(is_part(part, 255, 255, 255, 255) && is_value(part.left, 255, -1) && is_value(part.right, 255, -1));
}

/* three parts of different kinds: so the fields, their order and the distance from one part to the next */
static void three_parts(void) {
    struct roskudla_part parts[MOST];
    size_t count = read_parts("EXISTS (FROM 2 a WHERE a.1 >= SOME (SELECT -2023406815 FROM 3 b WHERE m.2 < 67305985))", parts);
    EXPECT(count == 3);
    EXPECT(is_part(parts[0], 7, 0, 2, 3) && is_value(parts[0].left, 0, 0) && is_value(parts[0].right, 0, 0));
    EXPECT(is_part(parts[1], 8, 6, 3, 3) && is_value(parts[1].left, 1, 1) && is_value(parts[1].right, 255, -2023406815));
    EXPECT(is_part(parts[2], 4, 3, 0, 3) && is_value(parts[2].left, 0, 2) && is_value(parts[2].right, 255, 67305985));
}

/* the same numbers on the left, and levels on the right */
static void left_numbers(void) {
    struct roskudla_part parts[MOST];
    size_t count = read_parts("-2023406815 <= ALL (SELECT m.1 FROM 1 k WHERE 67305985 > k.2) OR NOT m.1 IS NOT NULL", parts);
    EXPECT(count == 5);
    EXPECT(is_part(parts[0], 2, 0, 0, 5) && is_value(parts[0].left, 0, 0) && is_value(parts[0].right, 0, 0));
    EXPECT(is_part(parts[1], 9, 4, 1, 3) && is_value(parts[1].left, 255, -2023406815) && is_value(parts[1].right, 0, 1));
    EXPECT(is_part(parts[2], 4, 5, 0, 3) && is_value(parts[2].left, 255, 67305985) && is_value(parts[2].right, 1, 2));
    EXPECT(is_part(parts[3], 3, 0, 0, 5) && is_value(parts[3].left, 0, 0) && is_value(parts[3].right, 0, 0));
    EXPECT(is_part(parts[4], 6, 0, 0, 5) && is_value(parts[4].left, 0, 1) && is_value(parts[4].right, 0, 0));
}

static int no_values(struct roskudla_part part) { return is_value(part.left, 0, 0) && is_value(part.right, 0, 0); }

/* a truth test has kind and end alone, and stands before what is in it */
static void truth_tests(void) {
    struct roskudla_part parts[MOST];
    size_t count = read_parts("NOT (1 = 1) IS FALSE OR (m.1 IS NULL) IS NOT UNKNOWN", parts);
    EXPECT(count == 6);
    EXPECT(is_part(parts[0], 2, 0, 0, 6) && is_part(parts[1], 3, 0, 0, 4) && is_part(parts[2], 12, 0, 0, 4) && is_part(parts[3], 4, 1, 0, 4));
    EXPECT(is_part(parts[4], 15, 0, 0, 6) && no_values(parts[4]) && is_part(parts[5], 5, 0, 0, 6) && is_value(parts[5].left, 0, 1));
    EXPECT(no_values(parts[0]) && no_values(parts[1]) && no_values(parts[2]));
}

/* room for every number of parts up to what is needed: too little leaves every byte, the bytes between fields too */
static void rooms(void) {
    static const char text[] = "m.1 = 1 AND NOT m.2 = 2";
    struct roskudla_part lent[MOST];
    size_t room;
    for (room = 0; room <= MOST; room++) {
        size_t count = 77;
        uint32_t status;
        memset(lent, UNTOUCHED, sizeof lent);
        status = roskudla_read((const uint8_t *)text, strlen(text), case_tables, sizeof case_tables, lent, room, &count);
        if (room < 4) {
            EXPECT(status == ROSKUDLA_ROOM && count == 77 && untouched(lent, sizeof lent));
        } else {
            EXPECT(status == ROSKUDLA_OK && count == 4 && untouched(lent + 4, sizeof lent - 4 * sizeof lent[0]));
        }
    }
}

static void no_room(void) {
    size_t count = 77;
    EXPECT(roskudla_read((const uint8_t *)"1 = 1", 5, case_tables, sizeof case_tables, NULL, 0, &count) == ROSKUDLA_ROOM && count == 77);
}

int main(void) {
    printf("layout: a part takes %u bytes, its left value stands at %u, its right one at %u, a value's number at %u\n",
           (unsigned)sizeof(struct roskudla_part), (unsigned)offsetof(struct roskudla_part, left),
           (unsigned)offsetof(struct roskudla_part, right), (unsigned)offsetof(struct roskudla_value, number));
    widths_and_signs();
    three_parts();
    left_numbers();
    truth_tests();
    rooms();
    no_room();
    return report("layout");
}
