/* A small program over quelomavunt.h: reads the sample table, asks what slot a record needs, reads a record from
 * compact bits, looks at it, cuts it, and is refused. It says what it did and exits with 1 if any answer is not the
 * expected one. */
#include "quelomavunt.h"

#include <inttypes.h>
#include <stdio.h>
#include <string.h>

static int faults = 0;

static void expect(const char *what, uint64_t answer, uint64_t expected) {
    printf("%s: %" PRIu64 "\n", what, answer);
    if (answer != expected) {
        printf("    expected %" PRIu64 "\n", expected);
        faults = 1;
    }
}

/* A table owns its columns and its groups; TABLE hands them to a call. */
struct table {
    uint8_t kinds[QV_MOST_NODES];
    uint16_t lefts[QV_MOST_NODES];
    uint16_t rights[QV_MOST_NODES];
    uint8_t groups[QV_GROUP_BYTES * QV_MOST_NODES];
    uint64_t count;
};

#define TABLE(t)                                                                                                   \
    (t).kinds, QV_MOST_NODES, (t).lefts, QV_MOST_NODES, (t).rights, QV_MOST_NODES, (t).groups, sizeof (t).groups,   \
        (t).count

int main(void) {
    static const uint8_t file[29] = {10, 0, 1, 0, 0, 2, 0, 0, 1, 0, 1, 2, 1, 1, 1,
                                     1,  4, 1, 0, 0, 2, 5, 1, 1, 1, 0, 1, 1, 2};
    static struct table t;
    uint64_t result = qv_read_table(
        file, sizeof file, t.kinds, QV_MOST_NODES, t.lefts, QV_MOST_NODES, t.rights, QV_MOST_NODES, t.groups,
        sizeof t.groups, &t.count);
    expect("read the table", result, 0);
    expect("its nodes", t.count, 10);

    /* A group says a node's facts, the low byte first: node 7 is 4 bits wide. */
    uint8_t *group = t.groups + QV_GROUP_BYTES * 7;
    expect("the low byte of node 7's width", group[0], 4);

    /* The slot that a record of node 5 needs on a link: its compact bits are at least facts[7], at most facts[0]. */
    uint64_t facts[8] = {0};
    expect("ask for node 5's facts", qv_facts_of(TABLE(t), 5, facts, 8), 0);
    expect("the fewest bits of its slot", facts[7], 2);
    expect("the most bits of its slot", facts[0], 3);

    /* Node 5 is 2 + 2 x 2: compact bits 0 1 are the padded bits 0 0 1. */
    const uint8_t compact[1] = {0x40};
    uint64_t position = 0;
    uint8_t record[2] = {0xFF, 0xFF};
    expect("read a record", qv_from_compact_bits(TABLE(t), compact, 1, 2, &position, 5, record, 2), 0);
    expect("bits consumed", position, 2);
    expect("its byte", record[0], 0x20);
    expect("the byte after it stays", record[1], 0xFF);

    uint64_t view[2] = {0, 0};
    expect("look at its left payload", qv_as_left(TABLE(t), record, 2, 0, 5, view, 2), 0);
    expect("payload's offset", view[0], 2);
    expect("payload's node", view[1], 1);

    uint64_t width = 0;
    uint8_t cut[1] = {0xFF};
    expect("cut it to node 9", qv_prune(TABLE(t), record, 2, 0, 5, 9, &width, cut, 1), 0);
    expect("width", width, 2);
    expect("its byte", cut[0], 0x40);

    /* A refusal says why, and where, and changes nothing. */
    position = 0;
    result = qv_from_compact_bits(TABLE(t), compact, 1, 1, &position, 5, record, 2);
    expect("a stream that ends early", QV_NUMBER(result), 8);
    expect("position stays", position, 0);
    group[0] += 1;
    result = qv_check_table(TABLE(t));
    expect("a wrong fact", QV_NUMBER(result), 1);
    expect("at node", QV_PLACE(result), 7);
    return faults;
}
