/* Prints the running sums of each polynomial of a job at a vertex, from the last term to the first: the polynomial's number, the term's
 * coefficient and exponents, and the sum so far. */
#include "gethwapiko.h"
#include <stdio.h>
#include <stdlib.h>

static int print_polynomial(const uint8_t *job, size_t length, uint64_t polynomial, uint64_t terms, const int64_t v[4]) {
    const uint8_t *body = job + gethwapiko_body(job, length, polynomial + 1).offset;
    for (uint64_t k = 1; k <= terms; k++) {
        SumAnswer a = gethwapiko_running_sum(job, length, polynomial, v[0], v[1], v[2], v[3], k);
        const uint8_t *t = body + 8 * (terms - k); /* term k from the last */
        int32_t coefficient = (int32_t)(t[0] | (uint32_t)t[1] << 8 | (uint32_t)t[2] << 16 | (uint32_t)t[3] << 24);
        if (a.refusal) {
            printf("refused %llu\n", (unsigned long long)a.refusal);
            return 1;
        }
        printf("%llu: %d %u %u %u %u: %lld\n", (unsigned long long)polynomial, coefficient, t[4], t[5], t[6], t[7], (long long)a.sum);
    }
    return 0;
}

static int usage(void) {
    fprintf(stderr, "running_sums JOBFILE X Y .., one whole number for each axis of the job\n");
    return 2;
}

int main(int argc, char **argv) {
    static uint8_t job[2048];
    int64_t v[4] = {0, 0, 0, 0};
    FILE *f = argc > 1 ? fopen(argv[1], "rb") : NULL;
    if (!f)
        return usage();
    size_t length = fread(job, 1, sizeof job, f);
    fclose(f);
    OpenAnswer o = gethwapiko_open(job, length);
    if (o.refusal) {
        printf("refused %llu\n", (unsigned long long)o.refusal);
        return 1;
    }
    if (argc != 2 + (int)o.n)
        return usage();
    for (int i = 2; i < argc; i++) {
        char *end;
        v[i - 2] = strtoll(argv[i], &end, 10);
        if (end == argv[i] || *end)
            return usage();
    }
    uint64_t terms[3] = {o.terms1, o.terms2, o.terms3};
    for (uint64_t p = 0; p + 1 < o.n; p++)
        if (print_polynomial(job, length, p, terms[p], v))
            return 1;
    return 0;
}
