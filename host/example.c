/* Loads job files, chooses or plans, and prints the answer with the names of the articles or steps. It is C and C++.
 *
 *     tools/library
 *     cc -I include host/example.c target/lib/libkitchen.a -o target/example
 *     tools/job write jobs/kitchen.txt -o target/kitchen.job
 *     target/example target/kitchen.job
 *
 * If the library is there already, in lib/, the first line falls away, and lib/ takes the place of target/lib/.
 *
 * Status: 1 if a file was refused or could not be read; else 3 if one has no kitchen or no plan; else 0. 2 is misuse.
 */
#include <inttypes.h>
#include <stdio.h>

#include "kitchen.h"

enum { FITTING = 70 };
enum { FINE = 0, REFUSED = 1, MISUSED = 2, NONE = 3 };

static void print_members(const uint8_t *file, size_t len, uint64_t set)
{
    for (uint64_t i = 0; i < 64; i++) {
        uint64_t out[2];
        if (!(set >> i & 1))
            continue;
        kitchen_name(file, len, i, out);
        putchar(' ');
        if (out[1])
            fwrite(file + out[0], 1, (size_t)out[1], stdout);
        else
            printf("number %" PRIu64, i);
        putchar(';');
    }
    putchar('\n');
}

/* 14 and 15 are answers: the file is in order, and there is no kitchen or no plan. */
static int without(uint32_t reason, const uint64_t out[2])
{
    if (reason == KITCHEN_NO_SELECTION || reason == KITCHEN_NO_PLAN) {
        printf("no such %s\n", reason == KITCHEN_NO_PLAN ? "plan" : "kitchen");
        return NONE;
    }
    printf("refused %" PRIu32 " at %" PRIu64 "\n", reason, out[0]);
    return REFUSED;
}

/* Our own partition, the order as the only goal, and no floor. The order is in the bytes 3 to 10. */
static int choose(const uint8_t *file, size_t len)
{
    uint8_t groups[KITCHEN_ARTICLES];
    uint64_t order = 0, out[2];
    uint32_t reason = kitchen_partition(file, len, groups, KITCHEN_ARTICLES, out);
    if (reason)
        return without(reason, out);
    for (int i = 7; i >= 0; i--)
        order = order << 8 | file[3 + i];
    reason = kitchen_choose(file, len, groups, KITCHEN_ARTICLES, &order, order ? 1 : 0, 0, out);
    if (reason)
        return without(reason, out);
    printf("chosen:");
    print_members(file, len, out[0]);
    printf("set aside:");
    print_members(file, len, out[1]);
    return FINE;
}

static int plan(const uint8_t *file, size_t len)
{
    uint32_t rounds[KITCHEN_ROUNDS];
    uint64_t out[2];
    uint32_t reason = kitchen_plan(file, len, rounds, KITCHEN_ROUNDS, out);
    if (reason)
        return without(reason, out);
    for (uint64_t k = 0; k < out[0]; k++) {
        printf("round %" PRIu64 ":", k + 1);
        print_members(file, len, rounds[k]);
    }
    return FINE;
}

/* A file that is longer than a job file can be is read one byte too far: that is refused as the whole file would be. */
static int answer(const char *path)
{
    uint8_t file[KITCHEN_LONGEST + 1];
    FILE *stream = fopen(path, "rb");
    size_t len = stream ? fread(file, 1, sizeof file, stream) : 0;
    if (!stream || ferror(stream)) {
        perror(path);
        if (stream)
            fclose(stream);
        return REFUSED;
    }
    fclose(stream);
    return len && file[0] == FITTING ? plan(file, len) : choose(file, len);
}

int main(int count, char **paths)
{
    int refused = 0, none = 0;
    if (count < 2) {
        fprintf(stderr, "usage: example JOB...\n");
        return MISUSED;
    }
    for (int i = 1; i < count; i++) {
        int status = answer(paths[i]);
        refused |= status == REFUSED;
        none |= status == NONE;
    }
    if (fflush(stdout)) {
        perror("standard output");
        return REFUSED;
    }
    return refused ? REFUSED : none ? NONE : FINE;
}
