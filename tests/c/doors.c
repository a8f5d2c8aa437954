/* The calls of include/kitsettle.h, as a program in C has them: the README's sheet from text to settled load, and the refusals
 * that cross. Prints what differs; status 0 where nothing does. */
#include "kitsettle.h"
#include <stdio.h>
#include <string.h>

static int bad;

static void same(const char *what, size_t got, size_t want) {
    if (got != want) {
        printf("%s: %zu, not %zu\n", what, got, want);
        bad = 1;
    }
}

static const char sheet[] = "kit\t4\t12\nsize\t1\t2\t3\t4\ncost\t0\t1\t0\t0\n"
                            "swap\t1\t0\t1\t0\t0\t2\t0\t0\nswap\t0\t1\t0\t1\t0\t0\t2\t0\n"
                            "load\t0\t2\t0\t1\nload\t0\t0\t0\t4\n";

static uint16_t sizes[KITSETTLE_KINDS], swaps[KITSETTLE_SWAP_NUMBERS], loads[KITSETTLE_LOAD_NUMBERS];
static uint16_t rules[KITSETTLE_RULE_NUMBERS];
static int32_t costs[KITSETTLE_KINDS];
static size_t kinds, bound, swap_count, load_count, line;

static uint32_t read_text(const char *text, size_t count) {
    return kitsettle_read((const uint8_t *)text, count, sizes, KITSETTLE_KINDS, costs, KITSETTLE_KINDS, swaps,
                          KITSETTLE_SWAP_NUMBERS, loads, KITSETTLE_LOAD_NUMBERS, &kinds, &bound, &swap_count, &load_count, &line);
}

int main(void) {
    static const uint16_t rows[] = {0, 2, 0, 0, 1, 0, 1, 0, 0, 1, 0, 1, 0, 0, 2, 0,
                                    0, 1, 2, 0, 1, 0, 1, 1, 1, 0, 1, 2, 0, 0, 4, 0};
    static const uint16_t settled[] = {1, 0, 1, 1};
    size_t place = 99;
    same("read", read_text(sheet, sizeof sheet - 1), 0);
    same("kinds", kinds, 4);
    same("bound", bound, 12);
    same("swaps", swap_count, 2);
    same("loads", load_count, 2);
    same("line", line, 0);
    same("complete", kitsettle_complete(kinds, bound, sizes, kinds, costs, kinds, swaps, 2 * kinds * swap_count, rules,
                                        2 * kinds * KITSETTLE_ROWS, &place), 0);
    same("rows", place, 4);
    same("table", memcmp(rules, rows, sizeof rows), 0);
    same("after the rows", rules[32], 0);
    same("settle", kitsettle_settle(kinds, bound, sizes, kinds, costs, kinds, rules, 2 * kinds * KITSETTLE_ROWS, 4, loads, kinds,
                                    &place), 0);
    same("settled", memcmp(loads, settled, sizeof settled), 0);
    same("over the bound", kitsettle_settle(kinds, bound, sizes, kinds, costs, kinds, rules, 2 * kinds * KITSETTLE_ROWS, 4,
                                            loads + kinds, kinds, &place), 10);
    same("its place", place, 0);
    same("no room", kitsettle_complete(kinds, bound, sizes, kinds, costs, kinds, swaps, 2 * kinds * swap_count, rules, 2 * kinds * 3,
                                       &place), 8);
    same("a table of 0", rules[1], 0);
    same("one size short", kitsettle_complete(kinds, bound, sizes, kinds - 1, costs, kinds, swaps, 2 * kinds * swap_count, rules,
                                              2 * kinds * 4, &place), 3);
    same("equal loads", kitsettle_earlier(kinds, costs, kinds, settled, kinds, settled, kinds), 1);
    same("the second", kitsettle_earlier(kinds, costs, kinds, rows, kinds, rows + 4, kinds), 2);
    same("no kinds", kitsettle_earlier(0, costs, 0, rows, 0, rows, 0), 0);
    same("text without its end", read_text(sheet, sizeof sheet - 2), 11);
    same("its line", line, 7);
    same("no counts", kinds + bound + swap_count + load_count, 0);
    same("tables of 0", sizes[0] + loads[1], 0);
    if (!bad)
        puts("the calls from C agree");
    return bad;
}
