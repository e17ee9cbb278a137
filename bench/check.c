/*
 * Checks close.c and times it.
 *
 *   check answers FILE < FRAMES   holds each closing among the frames against its line in FILE
 *   check time FILE...            closes each file of rule records (32 kinds, capacity 256, 10,000
 *                                 rounds) and prints its outcome and the best of several times
 */
#define _POSIX_C_SOURCE 199309L
#include "close.h"

#include <stdint.h>
#include <stdio.h>
#include <stdlib.h>
#include <string.h>
#include <time.h>

enum { LINE = 128, RULES = 4224, TABLE = 16512, WORK = 98432, ROWS = 16512, ORDER = 256 };

/* What a case is made of; the rows and the order are read and passed over. */
static unsigned char rules[RULES + 1], table[TABLE], work[WORK], passed[ROWS];

/* Reads a little-endian number of so many bytes; ends the program if the input breaks off. */
static uint64_t number(int bytes)
{
    uint64_t sum = 0;
    for (int i = 0; i < bytes; i++) {
        int byte = getchar();
        if (byte == EOF) {
            fprintf(stderr, "the frames break off\n");
            exit(1);
        }
        sum |= (uint64_t)byte << (8 * i);
    }
    return sum;
}

/* Reads a length and so many bytes; ends the program if they are too many or break off. */
static size_t part(unsigned char *bytes, size_t most)
{
    size_t length = (size_t)number(4);
    if (length > most || fread(bytes, 1, length, stdin) != length) {
        fprintf(stderr, "a bad frame\n");
        exit(1);
    }
    return length;
}

/* Gives the Adler-32 checksum of some bytes. */
static unsigned long adler32(const unsigned char *bytes, size_t length)
{
    unsigned long low = 1, high = 0;
    for (size_t i = 0; i < length; i++) {
        low = (low + bytes[i]) % 65521;
        high = (high + low) % 65521;
    }
    return high << 16 | low;
}

/* Holds the closings among the frames on standard input against the lines of a file. */
static int check_answers(const char *name)
{
    FILE *answers = fopen(name, "r");
    if (answers == NULL) {
        perror(name);
        return 1;
    }
    unsigned long place = 0, closings = 0, differences = 0;
    int call;
    while ((call = getchar()) != EOF) {
        size_t kinds = (size_t)number(8);
        size_t capacity = (size_t)number(8);
        size_t rounds = (size_t)number(8);
        size_t table_len = (size_t)number(4);
        size_t work_len = (size_t)number(4);
        int fill = (int)number(1);
        size_t rules_len = part(rules, RULES);
        part(passed, ROWS);
        part(passed, ORDER);
        char line[LINE], wanted[LINE];
        place++;
        if (fgets(wanted, LINE, answers) == NULL || table_len > TABLE || work_len > WORK) {
            fprintf(stderr, "no line for case %lu, or a bad frame\n", place);
            return 1;
        }
        if (call != 0)
            continue;
        size_t first, second;
        memset(table, fill, TABLE);
        memset(work, fill, WORK);
        int refused = lw_c_close(rules, rules_len, kinds, capacity, rounds, table, table_len, work,
                                 work_len, &first, &second);
        snprintf(line, LINE, "%s %zu %zu %lu %lu\n", refused ? "refused" : "closed", first, second,
                 adler32(table, table_len), adler32(work, work_len));
        closings++;
        if (strcmp(line, wanted) != 0) {
            differences++;
            printf("case %lu: expected %s          found %s", place, wanted, line);
        }
    }
    fclose(answers);
    printf("%lu closings, %lu differences\n", closings, differences);
    return differences != 0 || closings == 0;
}

/* Gives the time in milliseconds. */
static double now(void)
{
    struct timespec at;
    clock_gettime(CLOCK_MONOTONIC, &at);
    return 1e3 * (double)at.tv_sec + 1e-6 * (double)at.tv_nsec;
}

/* Closes a file of rule records several times and prints the outcome and the best time. */
static int time_file(const char *name)
{
    FILE *file = fopen(name, "rb");
    if (file == NULL) {
        perror(name);
        return 1;
    }
    size_t length = fread(rules, 1, RULES + 1, file);
    fclose(file);
    size_t first = 0, second = 0;
    int refused = 0;
    double best = 0, spent = 0;
    for (int turn = 0; turn < 50 && (turn < 3 || spent < 300); turn++) {
        double start = now();
        refused = lw_c_close(rules, length, 32, 256, 10000, table, TABLE, work, WORK, &first, &second);
        double took = now() - start;
        spent += took;
        if (turn == 0 || took < best)
            best = took;
    }
    printf("%-28s %s %zu %zu   %.3f ms\n", name, refused ? "refused" : "closed", first, second, best);
    return 0;
}

int main(int words, char **word)
{
    if (words == 3 && strcmp(word[1], "answers") == 0)
        return check_answers(word[2]);
    if (words >= 3 && strcmp(word[1], "time") == 0) {
        int fault = 0;
        for (int i = 2; i < words; i++)
            fault |= time_file(word[i]);
        return fault;
    }
    fprintf(stderr, "usage: check answers FILE < FRAMES\n       check time FILE...\n");
    return 1;
}
