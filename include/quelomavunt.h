/* Quelomavunt: Simplicity values over lent memory. Every call of the library for C.
 *
 * A call allocates nothing, keeps nothing and never fails except by its result:
 *
 *     0                       accepted
 *     number + 256 * place    refused: see QV_NUMBER and QV_PLACE
 *
 * Refusals. If several apply, the smallest number is answered:
 *
 *     1  unsound table or facts; the place is the first node at fault, 0 for a bad count, a short column or short
 *        groups, and the offset in the file for qv_read_table
 *     2  a named node isn't in the table
 *     3  a named record type is wider than 524,288 bits
 *     4  its size is above 2,097,152
 *     5  offset plus width or a stream's length runs past the bytes, or the position lies past that length
 *     6  a word's number, an n, an array or data length is out of range
 *     7  wrong shape
 *     8  the stream ends early
 *     9  an output is shorter than the whole result needs (also a slice of accepted values)
 *
 * The place is 0 for 2 to 9. A refusal changes nothing: no output byte, no column, no group, no position, no accepted
 * value.
 *
 * A slice NAME is two parameters, NAME and NAME_len: a pointer and the count of elements. A pointer is never null,
 * also where the count is 0, and is aligned for its element. What is written must not overlap anything else that is
 * handed in.
 *
 * The table is three columns, the groups of its facts and a count, handed to every call that speaks of types. The
 * columns are kinds (0 unit, 1 sum, 2 product), lefts and rights (nodes of the sides, 0 for unit). The groups are
 * bytes: the facts of node n are the QV_GROUP_BYTES bytes from byte QV_GROUP_BYTES * n on, numbers low byte first:
 *
 *     bytes  0 to  7    width: the bits of a record; stops at 2^64 - 1
 *     bytes  8 to 15    size: the nodes of the tree; stops at 2^64 - 1
 *     byte  16          padded: 1 if a record has padding, else 0
 *     bytes 17 to 18    class: the smallest node with the same tree
 *     bytes 19 to 26    least: the least compact length, in bits; stops at 2^64 - 1
 *
 * A wrong byte anywhere in a node's group is a wrong fact of that node. Columns and groups may be longer than the count
 * needs; what lies past it is neither judged nor changed. Each call checks the table it is handed. qv_read_table and
 * qv_fill_facts make the facts.
 *
 * A record is bytes, a bit offset and a node, its type; bits run from the top of each byte. A stream is `bytes`, the bit
 * at which it ends (`until`, its length in bits) and a position in bits, which an accepted reading moves.
 *
 * A record that is made, read or cut starts at bit 0 of `out`, takes width / 8 bytes rounded up, and has zero bits
 * after its width; later bytes of `out` stay.
 *
 * Stack. With QV_STACK_BYTES of stack free any call may be made. qv_from_compact_bits, qv_to_compact_bits,
 * qv_compact_len and qv_prune walk down a type, and the walk calls itself, at most once for each node on the way: they
 * need it for the deepest tables; every other call takes less than 8 KiB. This is measured and tested, not proved.
 */
#ifndef QUELOMAVUNT_H
#define QUELOMAVUNT_H

#include <stddef.h>
#include <stdint.h>

#ifdef __cplusplus
extern "C" {
#endif

/* The parts of a result: the refusal's number (0 if accepted), and its place. */
#define QV_NUMBER(result) ((unsigned)((result) % 256u))
#define QV_PLACE(result) ((uint64_t)(result) / 256u)

/* The most nodes that a table has: columns of this length, and groups of QV_GROUP_BYTES times it, hold any table. */
#define QV_MOST_NODES 1024

/* The bytes of one node's facts: groups of QV_GROUP_BYTES * count bytes hold a table of `count` nodes. */
#define QV_GROUP_BYTES 27

/* The widest record, in bits: 65,536 bytes of output hold any record. */
#define QV_MOST_BITS 524288

/* The bytes of stack that are enough for any call. */
#define QV_STACK_BYTES 524288

/* The parameters that stand for the table, first in every call that takes one. */
#define QV_TABLE \
    const uint8_t *kinds, size_t kinds_len, const uint16_t *lefts, size_t lefts_len, \
    const uint16_t *rights, size_t rights_len, const uint8_t *groups, size_t groups_len, uint64_t count

/* ---- Tables ---- */

/* Reads a table file into lent columns and groups, with all facts. Accepted: `count`, the number of nodes; the first
 * `count` entries of the three columns and the first `count` groups are written, what follows them stays.
 * Refuses: 1 at the offset of the first faulty number or surplus byte; 9 if a column is shorter than the count of a
 * sound file, or the groups than QV_GROUP_BYTES times it. */
uint64_t qv_read_table(
    const uint8_t *file, size_t file_len, uint8_t *kinds, size_t kinds_len, uint16_t *lefts, size_t lefts_len,
    uint16_t *rights, size_t rights_len, uint8_t *groups, size_t groups_len, uint64_t *count);

/* Computes the facts of a table whose entries are handed in. Accepted: the first `count` groups are written, later
 * bytes stay. Refuses: 1 (0 for a bad count or a short column, else the first faulty node);
 * 9 if the groups are shorter than QV_GROUP_BYTES times the count. */
uint64_t qv_fill_facts(
    const uint8_t *kinds, size_t kinds_len, const uint16_t *lefts, size_t lefts_len, const uint16_t *rights,
    size_t rights_len, uint64_t count, uint8_t *groups, size_t groups_len);

/* Whether the table and its facts are sound. Refuses: 1. */
uint64_t qv_check_table(
    QV_TABLE);

/* ---- Questions about types ---- */

/* These never answer 3 or 4. */

/* Accepted: `facts` holds width, size, padded (0 or 1), class, kind, left, right, least: 8 entries. The least compact
 * length: no record of the type has fewer compact bits, and one has just so many; a number that stopped at 2^64 - 1
 * promises the first half alone. Refuses: 1, 2, 9. */
uint64_t qv_facts_of(
    QV_TABLE,
    uint64_t node, uint64_t *facts, size_t facts_len);

/* Accepted: `answer` is 1 if both nodes are the same tree, else 0. Refuses: 1, 2. */
uint64_t qv_same_type(
    QV_TABLE,
    uint64_t a, uint64_t b, uint64_t *answer);

/* Accepted: `answer` is 1 for the unit type, else 0. Refuses: 1, 2. */
uint64_t qv_is_unit(
    QV_TABLE,
    uint64_t node, uint64_t *answer);

/* Accepted: `answer` is 1 for a type of width 0, else 0. Refuses: 1, 2. */
uint64_t qv_is_empty(
    QV_TABLE,
    uint64_t node, uint64_t *answer);

/* Accepted: `sides` holds the left and the right node of a sum: 2 entries. Refuses: 1, 2, 7 (no sum), 9. */
uint64_t qv_type_as_sum(
    QV_TABLE,
    uint64_t node, uint64_t *sides, size_t sides_len);

/* Accepted: `sides` holds the left and the right node of a product: 2 entries. Refuses: 1, 2, 7 (no product), 9. */
uint64_t qv_type_as_product(
    QV_TABLE,
    uint64_t node, uint64_t *sides, size_t sides_len);

/* Accepted: `padding` of left values of the sum a + b: the larger width less the width of a. Refuses: 1, 2. */
uint64_t qv_pad_left(
    QV_TABLE,
    uint64_t a, uint64_t b, uint64_t *padding);

/* Accepted: `padding` of right values of the sum a + b: the larger width less the width of b. Refuses: 1, 2. */
uint64_t qv_pad_right(
    QV_TABLE,
    uint64_t a, uint64_t b, uint64_t *padding);

/* ---- Word types, buffer types and the hash state's type ---- */

/* These never answer 3 or 4. */

/* Accepted: `n` (0 to 31) if the node is exactly the word type of 2^n bits. Refuses: 1, 2, 7. */
uint64_t qv_as_word(
    QV_TABLE,
    uint64_t node, uint64_t *n);

/* Accepted: `width` is 2^n. Refuses: 6 if n is above 31. */
uint64_t qv_word_width(
    uint64_t n, uint64_t *width);

/* Accepted: `width` of buffer type n. Refuses: 6 if n is above 12. */
uint64_t qv_buffer_width(
    uint64_t n, uint64_t *width);

/* Accepted: `answer` is 1 if the node is buffer type n, else 0. Refuses: 1, 2, 6 if n is above 12. */
uint64_t qv_is_buffer8(
    QV_TABLE,
    uint64_t node, uint64_t n, uint64_t *answer);

/* Accepted: `answer` is 1 if the node is the type of the hash state, else 0. Refuses: 1, 2. */
uint64_t qv_is_ctx8(
    QV_TABLE,
    uint64_t node, uint64_t *answer);

/* ---- Views of a record ---- */

/* A view is refused with 5 also where offset plus width is above 2^64 - 1: its offset might be no 64-bit number. */

/* Accepted: `view` holds the offset and the node of a left payload: 2 entries. Refuses: 1 to 5, 7, 9. */
uint64_t qv_as_left(
    QV_TABLE,
    const uint8_t *bytes, size_t bytes_len, uint64_t offset, uint64_t node, uint64_t *view, size_t view_len);

/* Accepted: `view` holds the offset and the node of a right payload: 2 entries. Refuses: 1 to 5, 7, 9. */
uint64_t qv_as_right(
    QV_TABLE,
    const uint8_t *bytes, size_t bytes_len, uint64_t offset, uint64_t node, uint64_t *view, size_t view_len);

/* Accepted: `views` holds left offset, left node, right offset, right node: 4 entries. Refuses: 1 to 5, 7, 9. */
uint64_t qv_as_product(
    QV_TABLE,
    const uint8_t *bytes, size_t bytes_len, uint64_t offset, uint64_t node, uint64_t *views, size_t views_len);

/* ---- Comparison ---- */

/* Accepted: `answer` is 1 for the same class and the same bits, else 0. Refuses: 1 to 5. */
uint64_t qv_equal(
    QV_TABLE,
    const uint8_t *a_bytes, size_t a_bytes_len, uint64_t a_offset, uint64_t a_node, const uint8_t *b_bytes,
    size_t b_bytes_len, uint64_t b_offset, uint64_t b_node, uint64_t *answer);

/* Accepted: `order` is 0 less, 1 equal, 2 greater: by class number, then by the first differing bit. Refuses: 1 to 5. */
uint64_t qv_compare(
    QV_TABLE,
    const uint8_t *a_bytes, size_t a_bytes_len, uint64_t a_offset, uint64_t a_node, const uint8_t *b_bytes,
    size_t b_bytes_len, uint64_t b_offset, uint64_t b_node, uint64_t *order);

/* ---- Lengths ---- */

/* Accepted: `bits` is the number of compact bits: not below the type's least compact length, nor above its width.
 * Refuses: 1 to 5. */
uint64_t qv_compact_len(
    QV_TABLE,
    const uint8_t *bytes, size_t bytes_len, uint64_t offset, uint64_t node, uint64_t *bits);

/* Accepted: `bits` is the width. Refuses: 1 to 5. */
uint64_t qv_padded_len(
    QV_TABLE,
    const uint8_t *bytes, size_t bytes_len, uint64_t offset, uint64_t node, uint64_t *bits);

/* ---- Constructors ---- */

/* `result` names the type made. Accepted: `width` is its width, and the record is written at bit 0 of `out`. */

/* The unit record. Refuses: 1 to 4, 7. */
uint64_t qv_unit(
    QV_TABLE,
    uint64_t result, uint64_t *width, uint8_t *out, size_t out_len);

/* A left record around a payload. Refuses: 1 to 5, 7 (no sum, or another left side), 9. */
uint64_t qv_left(
    QV_TABLE,
    const uint8_t *bytes, size_t bytes_len, uint64_t offset, uint64_t node, uint64_t result, uint64_t *width,
    uint8_t *out, size_t out_len);

/* A right record around a payload. Refuses: 1 to 5, 7 (no sum, or another right side), 9. */
uint64_t qv_right(
    QV_TABLE,
    const uint8_t *bytes, size_t bytes_len, uint64_t offset, uint64_t node, uint64_t result, uint64_t *width,
    uint8_t *out, size_t out_len);

/* A pair of records. Refuses: 1 to 5, 7 (no product, or other sides), 9. */
uint64_t qv_product(
    QV_TABLE,
    const uint8_t *a_bytes, size_t a_bytes_len, uint64_t a_offset, uint64_t a_node, const uint8_t *b_bytes,
    size_t b_bytes_len, uint64_t b_offset, uint64_t b_node, uint64_t result, uint64_t *width, uint8_t *out,
    size_t out_len);

/* The left record of unit + anything. Refuses: 1 to 4, 7, 9. */
uint64_t qv_none(
    QV_TABLE,
    uint64_t result, uint64_t *width, uint8_t *out, size_t out_len);

/* The right record of unit + the payload's type. Refuses: 1 to 5, 7, 9. */
uint64_t qv_some(
    QV_TABLE,
    const uint8_t *bytes, size_t bytes_len, uint64_t offset, uint64_t node, uint64_t result, uint64_t *width,
    uint8_t *out, size_t out_len);

/* The record of zero bits of any type. Refuses: 1 to 4, 9. */
uint64_t qv_zero(
    QV_TABLE,
    uint64_t result, uint64_t *width, uint8_t *out, size_t out_len);

/* ---- Words ---- */

/* As constructors; numbers and bytes come big-endian. */

/* The word of 1 bit with this number. Refuses: 1 to 4, 6 (number above 1), 7, 9. */
uint64_t qv_u1(
    QV_TABLE,
    uint64_t number, uint64_t result, uint64_t *width, uint8_t *out, size_t out_len);

/* The word of 2 bits with this number. Refuses: 1 to 4, 6 (number above 3), 7, 9. */
uint64_t qv_u2(
    QV_TABLE,
    uint64_t number, uint64_t result, uint64_t *width, uint8_t *out, size_t out_len);

/* The word of 4 bits with this number. Refuses: 1 to 4, 6 (number above 15), 7, 9. */
uint64_t qv_u4(
    QV_TABLE,
    uint64_t number, uint64_t result, uint64_t *width, uint8_t *out, size_t out_len);

/* The word of 8 bits from 1 byte. Refuses: 1 to 4, 6 (another length), 7, 9. */
uint64_t qv_u8(
    QV_TABLE,
    const uint8_t *data, size_t data_len, uint64_t result, uint64_t *width, uint8_t *out, size_t out_len);

/* The word of 16 bits from 2 bytes. Refuses: 1 to 4, 6 (another length), 7, 9. */
uint64_t qv_u16(
    QV_TABLE,
    const uint8_t *data, size_t data_len, uint64_t result, uint64_t *width, uint8_t *out, size_t out_len);

/* The word of 32 bits from 4 bytes. Refuses: 1 to 4, 6 (another length), 7, 9. */
uint64_t qv_u32(
    QV_TABLE,
    const uint8_t *data, size_t data_len, uint64_t result, uint64_t *width, uint8_t *out, size_t out_len);

/* The word of 64 bits from 8 bytes. Refuses: 1 to 4, 6 (another length), 7, 9. */
uint64_t qv_u64(
    QV_TABLE,
    const uint8_t *data, size_t data_len, uint64_t result, uint64_t *width, uint8_t *out, size_t out_len);

/* The word of 128 bits from 16 bytes. Refuses: 1 to 4, 6 (another length), 7, 9. */
uint64_t qv_u128(
    QV_TABLE,
    const uint8_t *data, size_t data_len, uint64_t result, uint64_t *width, uint8_t *out, size_t out_len);

/* The word of 256 bits from 32 bytes. Refuses: 1 to 4, 6 (another length), 7, 9. */
uint64_t qv_u256(
    QV_TABLE,
    const uint8_t *data, size_t data_len, uint64_t result, uint64_t *width, uint8_t *out, size_t out_len);

/* The word of 512 bits from 64 bytes. Refuses: 1 to 4, 6 (another length), 7, 9. */
uint64_t qv_u512(
    QV_TABLE,
    const uint8_t *data, size_t data_len, uint64_t result, uint64_t *width, uint8_t *out, size_t out_len);

/* The word of all bits of `data`. Refuses: 1 to 4, 6 (the length is no power of two, or above 2^28), 7, 9. */
uint64_t qv_from_byte_array(
    QV_TABLE,
    const uint8_t *data, size_t data_len, uint64_t result, uint64_t *width, uint8_t *out, size_t out_len);

/* ---- Words joined and read ---- */

/* A join is as a constructor. */

/* Two records of the same word type joined to the next word. Refuses: 1 to 5, 7, 9. */
uint64_t qv_word_product(
    QV_TABLE,
    const uint8_t *a_bytes, size_t a_bytes_len, uint64_t a_offset, uint64_t a_node, const uint8_t *b_bytes,
    size_t b_bytes_len, uint64_t b_offset, uint64_t b_node, uint64_t result, uint64_t *width, uint8_t *out,
    size_t out_len);

/* Reads the word of 2^n bits, of type `node`, from a stream. Accepted: `position` is the next position, and the record is
 * written at bit 0 of `out`. Refuses: 1 to 5, 6 (n above 31), 7 (node is not word n), 8, 9. */
uint64_t qv_word_from_bits(
    QV_TABLE,
    const uint8_t *bytes, size_t bytes_len, uint64_t until, uint64_t *position, uint64_t n, uint64_t node,
    uint8_t *out, size_t out_len);

/* ---- Buffers and the hash state ---- */

/* As constructors; numbers and bytes come big-endian. */

/* The record of buffer type n with these bytes. Refuses: 1 to 4, 6 (n above 12, or more than 2^(n+1) - 1 bytes), 7, 9. */
uint64_t qv_buffer8_two_n_plus_one(
    QV_TABLE,
    uint64_t n, const uint8_t *data, size_t data_len, uint64_t result, uint64_t *width, uint8_t *out,
    size_t out_len);

/* The record of a hash state: `midstate` has 32 bytes, `buffer` is the buffered bytes alone.
 * Refuses: 1 to 4, 6 (midstate not 32 bytes, or more than 63 buffered), 7, 9. */
uint64_t qv_ctx8(
    QV_TABLE,
    const uint8_t *midstate, size_t midstate_len, uint64_t bytes_hashed, const uint8_t *buffer,
    size_t buffer_len, uint64_t result, uint64_t *width, uint8_t *out, size_t out_len);

/* ---- Codecs ---- */

/* Readers: accepted, `position` is the next position, and the record is written at bit 0 of `out`.
 * Writers: accepted, `bits` is the number of bits written at bit 0 of `out`. */

/* Reads a record of the type `node` from compact bits; padding is zero. Refuses: 1 to 5, 8, 9. */
uint64_t qv_from_compact_bits(
    QV_TABLE,
    const uint8_t *bytes, size_t bytes_len, uint64_t until, uint64_t *position, uint64_t node, uint8_t *out,
    size_t out_len);

/* Reads a record of the type `node` from padded bits; padding is kept as read. Refuses: 1 to 5, 8, 9. */
uint64_t qv_from_padded_bits(
    QV_TABLE,
    const uint8_t *bytes, size_t bytes_len, uint64_t until, uint64_t *position, uint64_t node, uint8_t *out,
    size_t out_len);

/* Writes the compact bits. Refuses: 1 to 5, 9. */
uint64_t qv_to_compact_bits(
    QV_TABLE,
    const uint8_t *bytes, size_t bytes_len, uint64_t offset, uint64_t node, uint64_t *bits, uint8_t *out,
    size_t out_len);

/* Writes the padded bits. Refuses: 1 to 5, 9. */
uint64_t qv_to_padded_bits(
    QV_TABLE,
    const uint8_t *bytes, size_t bytes_len, uint64_t offset, uint64_t node, uint64_t *bits, uint8_t *out,
    size_t out_len);

/* ---- The cut ---- */

/* Cuts a record down to the type `target`. Accepted: `width` of the target; the record is written at bit 0 of `out`.
 * Refuses: 1 to 5, 7, 9. */
uint64_t qv_prune(
    QV_TABLE,
    const uint8_t *bytes, size_t bytes_len, uint64_t offset, uint64_t node, uint64_t target, uint64_t *width,
    uint8_t *out, size_t out_len);

#undef QV_TABLE

#ifdef __cplusplus
}
#endif

#endif
