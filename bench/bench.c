/*
 * Closes each file of rule records (32 kinds, capacity 256, 10,000 rounds) with the library and with
 * close.c, turn about in one run, and prints the best time of each and their ratio.
 *
 *   bench MACHINE FILE...
 */
#define _POSIX_C_SOURCE 199309L
#include "../include/ludwavyn.h"
#include "close.h"

#include <stdio.h>
#include <string.h>
#include <time.h>

enum { KINDS = 32, CAPACITY = 256, ROUNDS = 10000, ROW = 32, RULES = 4096, TURNS = 200, LEAST_TURNS = 5 };

/* What one closing was given and left. */
typedef struct {
    size_t first, second;
    unsigned refused;
    unsigned char table[CAPACITY * ROW], work[3 * CAPACITY * ROW];
} closing;

static unsigned char rules[RULES];
static closing library, plain;

/* Gives the time in milliseconds. */
static double now(void)
{
    struct timespec at;
    clock_gettime(CLOCK_MONOTONIC, &at);
    return 1e3 * (double)at.tv_sec + 1e-6 * (double)at.tv_nsec;
}

/* Closes the rules with the library and gives the time it took. */
static double close_library(size_t length)
{
    double start = now();
    uint32_t result = lw_close(rules, length, KINDS, CAPACITY, ROUNDS, library.table, sizeof library.table,
                               library.work, sizeof library.work, &library.first, &library.second);
    double took = now() - start;
    library.refused = result;
    return took;
}

/* Closes the rules with the yardstick and gives the time it took. */
static double close_plain(size_t length)
{
    double start = now();
    int refused = lw_c_close(rules, length, KINDS, CAPACITY, ROUNDS, plain.table, sizeof plain.table, plain.work,
                             sizeof plain.work, &plain.first, &plain.second);
    double took = now() - start;
    plain.refused = 0;
    if (refused) {
        plain.refused = (unsigned)plain.first;
        plain.first = plain.second;
        plain.second = 0;
    }
    return took;
}

/* Closes one file of rule records with both and prints a row; 1 if they differ. */
static int compare(const char *name)
{
    FILE *file = fopen(name, "rb");
    if (file == NULL) {
        perror(name);
        return 1;
    }
    size_t length = fread(rules, 1, sizeof rules, file);
    fclose(file);
    double best_library = 0, best_plain = 0, spent = 0;
    for (int turn = 0; turn < TURNS && (turn < LEAST_TURNS || spent < 1000); turn++) {
        double took_library = close_library(length);
        double took_plain = close_plain(length);
        spent += took_library + took_plain;
        if (turn == 0 || took_library < best_library)
            best_library = took_library;
        if (turn == 0 || took_plain < best_plain)
            best_plain = took_plain;
    }
    if (memcmp(&library, &plain, sizeof library) != 0) {
        printf("%s: the library and close.c differ\n", name);
        return 1;
    }
    printf("%-32s %4u %5zu %7zu %10.3f %10.3f %6.2f\n", name, library.refused, library.first, library.second,
           best_library, best_plain, best_library / best_plain);
    return 0;
}

int main(int words, char **word)
{
    int fault = words < 3;
    if (fault) {
        fprintf(stderr, "usage: bench MACHINE FILE...\n");
        return 1;
    }
    printf("%s, measured on the machine itself, no proxy; milliseconds, best of up to %d turns\n", word[1], TURNS);
    printf("%-32s %4s %5s %7s %10s %10s %6s\n", "set", "end", "rows", "rounds", "library", "C", "ratio");
    for (int i = 2; i < words; i++)
        fault |= compare(word[i]);
    return fault;
}
