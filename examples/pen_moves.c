/* Traces a job and prints the pen's moves along the curve, to be compared with where a controller goes: the kind of the move, the point in steps
 * of 1/1024 on each axis, and the point in millimetres that the pen is given. A closed curve ends with a close. */
#include "gethwapiko.h"
#include <stdio.h>

static int refused(uint64_t refusal) {
    printf("refused %llu\n", (unsigned long long)refusal);
    return 1;
}

/* Move k of the places, of which each has `size` bytes. */
static int print_move(const uint8_t *job, size_t length, const uint8_t *places, size_t size, TraceAnswer trace, uint64_t k) {
    static const char *const kinds[] = {"lift", "draw", "close"};
    PenAnswer pen = gethwapiko_pen(job, length, places, size * trace.count, trace.verdict == GETHWAPIKO_LOOP, k);
    if (pen.refusal)
        return refused(pen.refusal);
    printf("%s", kinds[pen.kind]);
    if (pen.kind != GETHWAPIKO_CLOSE) {
        PointAnswer at = gethwapiko_point(job, length, places + size * k, size);
        int64_t steps[4] = {at.x, at.y, at.z, at.w};
        for (size_t axis = 0; axis < size / 3; axis++)
            printf(" %lld", (long long)steps[axis]);
        printf(": %.13g %.13g %.13g", pen.x, pen.y, pen.z);
    }
    printf("\n");
    return 0;
}

int main(int argc, char **argv) {
    static uint8_t job[2048], places[4096 * 12];
    FILE *f = argc == 2 ? fopen(argv[1], "rb") : NULL;
    if (!f) {
        fprintf(stderr, "pen_moves JOBFILE\n");
        return 2;
    }
    size_t length = fread(job, 1, sizeof job, f);
    fclose(f);
    TraceAnswer trace = gethwapiko_trace(job, length, places, sizeof places);
    if (trace.refusal)
        return refused(trace.refusal);
    if (trace.verdict == GETHWAPIKO_FULL)
        fprintf(stderr, "the curve goes on: these are its first %llu places\n", (unsigned long long)trace.count);
    size_t size = 3 * gethwapiko_open(job, length).n;
    uint64_t moves = trace.count + (trace.verdict == GETHWAPIKO_LOOP);
    for (uint64_t k = 0; k < moves; k++)
        if (print_move(job, length, places, size, trace, k))
            return 1;
    return 0;
}
