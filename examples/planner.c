/* planner SHEET [SHOW]: the planner's tool. Completes the sheet and prints the settled list of each load of the show,
   or of the sheet's own loads where no show is given. A show is a text file of any length, a load to a line, its counts
   parted by tabs. Each printed line is the load's number from 1, then `done` and the counts, or `refused` and the
   number of the refusal. */
#include <stdio.h>
#include <stdlib.h>
#include "kitsettle.h"

enum { KINDS = 12, SWAPS = 64 * 2 * KINDS, LOADS = 1024 * KINDS, RULES = 256 * 2 * KINDS, TEXT = 65537, LINE = 256 };

struct plan {
    size_t kinds, bound, swap_count, load_count, rows;
    uint16_t sizes[KINDS], swaps[SWAPS], loads[LOADS], rules[RULES];
    int32_t costs[KINDS];
};

static struct plan plan;

static void stop(const char *what, const char *path, unsigned number, size_t place)
{
    fprintf(stderr, "planner: %s %s: refusal %u at %zu\n", what, path, number, place);
    exit(1);
}

static FILE *open_file(const char *path)
{
    FILE *file = fopen(path, "rb");
    if (file == NULL) {
        perror(path);
        exit(1);
    }
    return file;
}

static void read_sheet(const char *path)
{
    static uint8_t text[TEXT];
    FILE *file = open_file(path);
    size_t line, length = fread(text, 1, sizeof text, file);
    fclose(file);
    uint32_t number = kitsettle_read(text, length, plan.sizes, KINDS, plan.costs, KINDS, plan.swaps, SWAPS, plan.loads, LOADS,
                                     &plan.kinds, &plan.bound, &plan.swap_count, &plan.load_count, &line);
    if (number != 0)
        stop("the sheet", path, number, line);
}

static void complete(const char *path)
{
    size_t n = plan.kinds, place;
    uint32_t number = kitsettle_complete(n, plan.bound, plan.sizes, n, plan.costs, n, plan.swaps, plan.swap_count * 2 * n,
                                         plan.rules, 256 * 2 * n, &place);
    if (number != 0)
        stop("the swaps of", path, number, place);
    plan.rows = place;
}

/* Settles one load in place and prints its line. */
static void settle(size_t load_number, uint16_t *load)
{
    size_t n = plan.kinds, place;
    uint32_t number = kitsettle_settle(n, plan.bound, plan.sizes, n, plan.costs, n, plan.rules, 256 * 2 * n, plan.rows,
                                       load, n, &place);
    if (number != 0) {
        printf("%zu\trefused\t%u\n", load_number, number);
        return;
    }
    printf("%zu\tdone", load_number);
    for (size_t kind = 0; kind < n; kind++)
        printf("\t%u", load[kind]);
    printf("\n");
}

/* The counts of one line of a show; 0 where it is none. */
static int read_load(char *line, uint16_t *load)
{
    for (size_t kind = 0; kind < plan.kinds; kind++) {
        char *end;
        unsigned long count = strtoul(line, &end, 10);
        if (end == line || count > 65535 || *end != (kind + 1 < plan.kinds ? '\t' : '\n'))
            return 0;
        load[kind] = (uint16_t)count;
        line = end + 1;
    }
    return 1;
}

static void settle_show(const char *path)
{
    char line[LINE];
    uint16_t load[KINDS];
    FILE *file = open_file(path);
    for (size_t number = 1; fgets(line, sizeof line, file) != NULL; number++) {
        if (!read_load(line, load)) {
            fprintf(stderr, "planner: %s: line %zu is no load\n", path, number);
            exit(1);
        }
        settle(number, load);
    }
    fclose(file);
}

int main(int count, char **words)
{
    if (count != 2 && count != 3) {
        fprintf(stderr, "usage: planner SHEET [SHOW]\n");
        return 2;
    }
    read_sheet(words[1]);
    complete(words[1]);
    if (count == 3) {
        settle_show(words[2]);
        return 0;
    }
    for (size_t at = 0; at < plan.load_count; at++)
        settle(at + 1, plan.loads + at * plan.kinds);
    return 0;
}
