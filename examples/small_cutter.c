/* Says of each job file whether the small bench cutter takes it, and if only the full one does, what is too large; and what the cutter that takes it
 * traces. Exit status 0; 1 if a job is refused by both; 2 usage, or a file that cannot be read. */
#include "gethwapiko.h"
#include <stdio.h>

enum { MOST_BYTES = 2048, MOST_PLACES = 4096 }; /* no job that opens has so many bytes */

static const char *const verdicts[] = {"loop", "edge", "limit", "full"};

static int read_job(const char *name, uint8_t job[MOST_BYTES], size_t *length) {
    FILE *f = fopen(name, "rb");
    *length = f ? fread(job, 1, MOST_BYTES, f) : 0;
    if (!f || ferror(f)) { /* a folder opens and cannot be read */
        perror(name);
        return 0;
    }
    fclose(f);
    return 1;
}

static void say_end(int axis, const char *which, const uint8_t *end) {
    int at = (int16_t)(end[0] | end[1] << 8);
    if (at < -GETHWAPIKO_SMALL_COORDINATE || at > GETHWAPIKO_SMALL_COORDINATE)
        printf("  the %s end of axis %d is %d\n", which, axis + 1, at);
}

/* What the small cutter answers 17 for, in a job that opens. */
static void say_too_large(const uint8_t *job, size_t length) {
    OpenAnswer o = gethwapiko_open(job, length);
    const uint8_t *box = job + gethwapiko_body(job, length, 0).offset;
    uint64_t terms[] = {o.terms1, o.terms2, o.terms3};
    for (int a = 0; a < (int)o.n; a++) {
        say_end(a, "low", box + 4 * a);
        say_end(a, "high", box + 4 * a + 2);
    }
    for (int k = 0; k + 1 < (int)o.n; k++)
        if (terms[k] > GETHWAPIKO_SMALL_TERMS)
            printf("  polynomial %d has %llu terms\n", k + 1, (unsigned long long)terms[k]);
}

/* 0 if a cutter traces the job, 1 if both refuse it. */
static int say_job(const char *name, const uint8_t *job, size_t length) {
    static uint8_t places[MOST_PLACES * 12];
    TraceAnswer small = gethwapiko_small_trace(job, length, places, sizeof places);
    int too_large = small.refusal == GETHWAPIKO_TOO_LARGE;
    TraceAnswer a = too_large ? gethwapiko_trace(job, length, places, sizeof places) : small;
    if (a.refusal)
        printf("%s: refused %llu%s\n", name, (unsigned long long)a.refusal, too_large ? ", and too large for the small cutter" : "");
    else
        printf("%s: %s, %s %llu\n", name, too_large ? "full cutter alone" : "small cutter", verdicts[a.verdict], (unsigned long long)a.count);
    if (too_large)
        say_too_large(job, length);
    return a.refusal != 0;
}

int main(int argc, char **argv) {
    static uint8_t job[MOST_BYTES];
    size_t length;
    int status = 0;
    if (argc == 1) {
        fprintf(stderr, "usage: small_cutter JOBFILE...\n");
        return 2;
    }
    for (int k = 1; k < argc; k++) {
        if (!read_job(argv[k], job, &length))
            return 2;
        status |= say_job(argv[k], job, length);
    }
    return status;
}
