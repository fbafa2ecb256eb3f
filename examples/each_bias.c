/* Traces a job at each bias from 0 to 255, and prints each answer that differs from the one before. */
#include "gethwapiko.h"
#include <stdio.h>
#include <string.h>

int main(int argc, char **argv) {
    static uint8_t job[2048], places[4096 * 12];
    FILE *f = argc == 2 ? fopen(argv[1], "rb") : NULL;
    if (!f) {
        fprintf(stderr, "each_bias JOBFILE\n");
        return 1;
    }
    size_t n = fread(job, 1, sizeof job, f);
    TraceAnswer before = {0, 0, 0}; /* no trace answers this: a loop has places */
    for (unsigned bias = 0; bias < 256; bias++) {
        job[GETHWAPIKO_BIAS] = (uint8_t)bias;
        TraceAnswer a = gethwapiko_trace(job, n, places, sizeof places);
        if (memcmp(&a, &before, sizeof a) != 0)
            printf("bias %u: refusal %llu verdict %llu count %llu\n", bias, (unsigned long long)a.refusal, (unsigned long long)a.verdict,
                   (unsigned long long)a.count);
        before = a;
    }
    return fclose(f);
}
