/* What bench.c and calls.c measure with: a clock, and instructions that bench/run has counted. */
#ifndef MEASURE_H
#define MEASURE_H

#include <stdio.h>
#include <stdlib.h>
#include <string.h>
#include <time.h>

/* The process's own time: while other work has its core it stands. */
static inline double measure_seconds(void)
{
    struct timespec time;

    clock_gettime(CLOCK_PROCESS_CPUTIME_ID, &time);
    return (double)time.tv_sec + (double)time.tv_nsec * 1e-9;
}

/* The number in the file's line `ROW WHO NUMBER`; 0 where there is none, or no file. */
static inline double measure_counted(const char *file_name, const char *row, const char *who)
{
    FILE *file = file_name != NULL ? fopen(file_name, "r") : NULL;
    char of_row[32], of_who[32];
    double number = 0;

    if (file_name != NULL && file == NULL) {
        fprintf(stderr, "%s: cannot be read\n", file_name);
        exit(2);
    }
    while (file != NULL && fscanf(file, "%31s %31s %lf", of_row, of_who, &number) == 3) {
        if (strcmp(of_row, row) == 0 && strcmp(of_who, who) == 0) {
            fclose(file);
            return number;
        }
    }
    if (file != NULL) {
        fclose(file);
    }
    return 0;
}

#endif
