/* kitsettle: settled loads of a kit, for programs in C and whatever calls C.
 *
 * Every call below is a thin door to a proved library: no call has a condition on its numbers, and each
 * answers 0 or one of the refusal numbers of this page. The words:
 *
 *   kit     `kinds` kinds of part, 1 to 12. Kind k has sizes[k], 1 to 1,000, and costs[k], -1,000,000 to
 *           1,000,000. `bound`, 1 to 1,000, is the greatest grade that is worked on.
 *   load    `kinds` counts. Its grade is the sum of count times size, its cost the sum of count times cost.
 *   swap    two loads of equal grade, left then right: 2 * kinds counts.
 *   rule    a row of a rule table, head then tail: 2 * kinds counts. A finished table has one row for each
 *           head, by grade of the head, then by its counts.
 *
 * What every call shares:
 *
 *   - A buffer is a pointer and then the number of its ELEMENTS, never of its bytes. Lengths are tested.
 *   - No pointer is NULL, also where its count is 0; each is aligned for its type.
 *   - A buffer that a call writes (a pointer without `const`) overlaps no other buffer of that call.
 *   - Nothing is allocated or kept: a call reads and writes what it is lent, and returns. Calls on separate
 *     buffers may run at the same time. A call needs less than 256 KiB of stack.
 *
 * Refusal numbers, in the order of the tests. "Untouched" is said of every lent buffer.
 *
 *    1  kinds is 0 or above 12                                                     untouched
 *    2  bound is 0 or above 1,000                                                  untouched
 *    3  a buffer has the wrong length: sizes, costs or a load not `kinds`; swaps or rules not a multiple of
 *       2 * kinds, or above 64 or 256 rows; more rows in use than lent; kitsettle_read: any of its four
 *       buffers (line 0, untouched), or a 65th swap or 1,025th load in the text    untouched (text: as 11)
 *    4  a size is 0 or above 1,000                                                 untouched (text: as 11)
 *    5  a cost is below -1,000,000 or above 1,000,000                              untouched (text: as 11)
 *    6  a swap has equal sides; its number, from 0                                 untouched (text: as 11)
 *    7  a swap's sides differ in grade; its number, from 0                         untouched (text: as 11)
 *    8  the finished table has more rows than the room                             the rule table is all 0
 *    9  a row in use has sides of unequal grade, a grade above the bound, or a head that does not come
 *       after its tail; the row's number, from 0                                   untouched
 *   10  the load's grade is above the bound                                        untouched
 *   11  a line of the text is misshapen or misplaced; its line, from 1             the four tables are all 0
 *   12  a count of the text is above 65,535; its line                              as 11
 *   13  the text is longer than 65,536 bytes; line 0                               as 11
 */
#ifndef KITSETTLE_H
#define KITSETTLE_H

#include <stddef.h>
#include <stdint.h>

#ifdef __cplusplus
extern "C" {
#endif

/* The lengths that kitsettle_read asks, and the greatest ones of the others. */
#define KITSETTLE_KINDS 12
#define KITSETTLE_SWAPS 64
#define KITSETTLE_ROWS 256
#define KITSETTLE_LOADS 1024
#define KITSETTLE_TEXT 65536
#define KITSETTLE_SWAP_NUMBERS 1536  /* 64 swaps of 12 kinds */
#define KITSETTLE_LOAD_NUMBERS 12288 /* 1,024 loads of 12 kinds */
#define KITSETTLE_RULE_NUMBERS 6144  /* 256 rows of 12 kinds */

/* Complete: the finished rule table of a sheet of swaps, cut at the bound.
 *
 *   sizes, costs   `kinds` numbers each
 *   swaps          0 to 64 swaps, 2 * kinds counts each, packed
 *   rules          the room: 0 to 256 rows of 2 * kinds numbers. Accepted: the rows come first, and every
 *                  further number is 0
 *   place          always written: accepted, the number of rows; 6 and 7, the swap's number; else 0
 *
 * Tests 1, 2, 3, 4, 5, then swap by swap 6 and 7, then 8. A swap of grade above the bound is allowed and
 * has no effect. Returns 0, or the refusal number. */
uint32_t kitsettle_complete(size_t kinds, size_t bound,
                            const uint16_t *sizes, size_t sizes_count,
                            const int32_t *costs, size_t costs_count,
                            const uint16_t *swaps, size_t swaps_count,
                            uint16_t *rules, size_t rules_count,
                            size_t *place);

/* Settle: while the head of any row in use fits in the load, the first such row is applied once.
 *
 *   sizes, costs   `kinds` numbers each
 *   rules          a rule table of at most 256 rows, as kitsettle_complete leaves it, or any other of which the
 *                  rows in use are proper
 *   rows           how many of its rows are in use
 *   load           `kinds` counts. Accepted: the settled load. Refused: as it was
 *   place          always written: 9, the row's number; else 0
 *
 * Tests 1, 2, 3, 4, 5, 9 (the lowest such row), 10. Returns 0, or the refusal number. */
uint32_t kitsettle_settle(size_t kinds, size_t bound,
                          const uint16_t *sizes, size_t sizes_count,
                          const int32_t *costs, size_t costs_count,
                          const uint16_t *rules, size_t rules_count,
                          size_t rows,
                          uint16_t *load, size_t load_count,
                          size_t *place);

/* Earlier of two: which load comes first in the cost order. The one of less cost; at equal cost, the one with
 * the smaller count at the first kind where they differ.
 *
 *   costs, first, second   `kinds` numbers each
 *
 * Returns 1 or 2: the first load, or the second. Equal loads give 1. Refused input (1, 3, 5) gives 0. */
uint32_t kitsettle_earlier(size_t kinds,
                           const int32_t *costs, size_t costs_count,
                           const uint16_t *first, size_t first_count,
                           const uint16_t *second, size_t second_count);

/* Read a sheet: the text of a kit, its swaps and its loads.
 *
 *   text           the bytes of the sheet; they need not end in a 0
 *   sizes, costs   12 numbers each        swaps   1,536 numbers        loads   12,288 numbers
 *                  Accepted: `kinds` sizes, `kinds` costs, *swap_count swaps of 2 * kinds counts, *load_count
 *                  loads of kinds counts, each packed from the front, and 0 after them
 *   kinds, bound, swap_count, load_count   always written: the sheet's numbers, or 0 where it is refused
 *   line           always written: the refused line, from 1; 0 where the sheet is accepted and where no line
 *                  is meant (3 of a buffer, 13)
 *
 * The buffers' lengths are tested (3), then the text's length (13), then line by line; the first bad line
 * decides, and within it 11, then 3, then 12, then 1, 2, 4, 5, 6, 7. Returns 0, or the refusal number. */
uint32_t kitsettle_read(const uint8_t *text, size_t text_count,
                        uint16_t *sizes, size_t sizes_count,
                        int32_t *costs, size_t costs_count,
                        uint16_t *swaps, size_t swaps_count,
                        uint16_t *loads, size_t loads_count,
                        size_t *kinds, size_t *bound,
                        size_t *swap_count, size_t *load_count,
                        size_t *line);

#ifdef __cplusplus
}
#endif

#endif
