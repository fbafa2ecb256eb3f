#include "gethwapiko.h"
#include <stdio.h>

int main(int argc, char **argv) {
    uint8_t job[2048], places[4096 * 6];
    FILE *f = fopen(argv[1], "rb");
    size_t n = fread(job, 1, sizeof job, f);
    TraceAnswer a = gethwapiko_trace(job, n, places, sizeof places);
    printf("refusal %llu verdict %llu count %llu\n", (unsigned long long)a.refusal, (unsigned long long)a.verdict, (unsigned long long)a.count);
    return fclose(f);
}
