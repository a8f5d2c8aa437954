/* time SHEET SECONDS: times completing the sheet and settling all its loads, each for about so many seconds.
   Prints on one line, parted by tabs: refusal (0: none), rows, least and median time of completing, loads settled,
   least and median time of settling them all. Times are in microseconds; no loads, or a refusal: 0. */
#include <stdio.h>
#include <stdlib.h>
#include <string.h>
#include <time.h>
#include "kitsettle.h"

enum { KINDS = 12, SWAPS = 64 * 2 * KINDS, LOADS = 1024 * KINDS, RULES = 256 * 2 * KINDS, TEXT = 65537 };
enum { LEAST = 5, MOST = 100000 }; /* runs */

struct sheet {
    uint16_t sizes[KINDS], swaps[SWAPS], loads[LOADS];
    int32_t costs[KINDS];
    size_t kinds, bound, swap_count, load_count;
};

static struct sheet sheet;
static uint16_t rules[RULES], load[LOADS];
static size_t rows;
static double times[MOST];

static double now(void)
{
    struct timespec t;
    clock_gettime(CLOCK_MONOTONIC, &t);
    return 1e6 * (double)t.tv_sec + 1e-3 * (double)t.tv_nsec;
}

static uint32_t read_sheet(const char *path)
{
    static uint8_t text[TEXT];
    size_t line;
    FILE *file = fopen(path, "rb");
    if (file == NULL) { perror(path); exit(2); }
    size_t length = fread(text, 1, sizeof text, file);
    fclose(file);
    return kitsettle_read(text, length, sheet.sizes, KINDS, sheet.costs, KINDS, sheet.swaps, SWAPS, sheet.loads, LOADS,
                          &sheet.kinds, &sheet.bound, &sheet.swap_count, &sheet.load_count, &line);
}

static uint32_t complete(void)
{
    size_t n = sheet.kinds;
    return kitsettle_complete(n, sheet.bound, sheet.sizes, n, sheet.costs, n, sheet.swaps, sheet.swap_count * 2 * n,
                              rules, 256 * 2 * n, &rows);
}

/* Settles a copy of each load; loads above the bound are refused and stay. */
static uint32_t settle_show(void)
{
    size_t n = sheet.kinds, place;
    memcpy(load, sheet.loads, sheet.load_count * n * sizeof load[0]);
    for (size_t at = 0; at < sheet.load_count; at++)
        kitsettle_settle(n, sheet.bound, sheet.sizes, n, sheet.costs, n, rules, 256 * 2 * n, rows, load + at * n, n, &place);
    return 0;
}

static int by_size(const void *a, const void *b)
{
    double x = *(const double *)a, y = *(const double *)b;
    return (x > y) - (x < y);
}

/* Repeats the work and prints the least and the median time. */
static void time_work(uint32_t (*work)(void), double seconds)
{
    size_t runs = 0;
    double end = now() + 1e6 * seconds;
    while (runs < LEAST || (runs < MOST && now() < end)) {
        double start = now();
        work();
        times[runs++] = now() - start;
    }
    qsort(times, runs, sizeof times[0], by_size);
    printf("\t%.3f\t%.3f", times[0], times[runs / 2]);
}

int main(int count, char **words)
{
    if (count != 3) { fprintf(stderr, "usage: time SHEET SECONDS\n"); return 2; }
    double seconds = atof(words[2]);
    if (read_sheet(words[1]) != 0) { fprintf(stderr, "%s: no sheet\n", words[1]); return 2; }
    uint32_t refusal = complete();
    printf("%u\t%zu", refusal, refusal ? 0 : rows);
    time_work(complete, seconds);
    if (refusal || sheet.load_count == 0) {
        printf("\t0\t0\t0\n");
        return 0;
    }
    printf("\t%zu", sheet.load_count);
    time_work(settle_show, seconds);
    printf("\n");
    return 0;
}
