/* Writes jobs from loose bodies, as a drawing office has them: box, polynomials and start, made from numbers. First case A of document 01: its bytes,
 * the bodies found in it again, and its trace. Then that job taken apart and written again with another start and with a bias, and what is refused.
 * Last, each job file that is named is taken apart and written again byte by byte. Exit status 0; 1 if a file's job is refused; 2 a file that cannot be
 * read; 3 if something comes out otherwise than the program says, which cannot be: what is written is proved. */
#include "gethwapiko.h"
#include <stdio.h>
#include <stdlib.h>
#include <string.h>

enum { MOST_BYTES = 70 * 8, /* no body is longer than a polynomial of dimension 4 */
       MOST_PLACES = 4096,
       FILLING = 0x5a }; /* what a buffer holds beforehand, to see which bytes keep their values */

static const char *const verdicts[] = {"loop", "edge", "limit", "full"};

typedef struct {
    uint8_t bytes[MOST_BYTES];
    size_t length;
} Body;

/* What the drawing office has. */
typedef struct {
    uint64_t n;
    uint8_t bias;
    Body box, polynomials[3], start;
} Drawing;

typedef struct {
    uint8_t bytes[GETHWAPIKO_LONGEST_JOB + 1]; /* one more, to see that a file is too long */
    size_t length;
} Job;

static void must(int holds, const char *what) {
    if (!holds) {
        fprintf(stderr, "write_job: not so: %s\n", what);
        exit(3);
    }
}

/* A signed number in so many bytes, the lowest first. */
static void put(Body *body, int32_t number, size_t bytes) {
    must(body->length + bytes <= MOST_BYTES, "the body has room for one more number");
    for (size_t k = 0; k < bytes; k++)
        body->bytes[body->length++] = (uint8_t)((uint32_t)number >> 8 * k);
}

static void put_byte(Body *body, uint8_t byte) {
    put(body, byte, 1);
}

static void put_16(Body *body, int16_t number) {
    put(body, number, 2);
}

static void put_32(Body *body, int32_t number) {
    put(body, number, 4);
}

static void add_axis(Drawing *d, int16_t low, int16_t high) {
    put_16(&d->box, low);
    put_16(&d->box, high);
}

/* A term always has four exponents; those of the axes above n are 0. */
static void add_term(Body *polynomial, int32_t coefficient, uint8_t x, uint8_t y) {
    put_32(polynomial, coefficient);
    put_byte(polynomial, x);
    put_byte(polynomial, y);
    put_byte(polynomial, 0);
    put_byte(polynomial, 0);
}

/* A start in dimension 2; one that was set before is replaced. */
static void set_start(Drawing *d, int16_t x, int16_t y, uint8_t mask, uint8_t side) {
    d->start.length = 0;
    put_16(&d->start, x);
    put_16(&d->start, y);
    put_byte(&d->start, mask);
    put_byte(&d->start, side);
}

/* 2x² + 2y² − 1 in the box from −1 to 1. Terms rise by their exponents, that of x weighing most. */
static Drawing case_a(void) {
    Drawing d = {.n = 2, .bias = 0};
    add_axis(&d, -1, 1);
    add_axis(&d, -1, 1);
    add_term(&d.polynomials[0], -1, 0, 0);
    add_term(&d.polynomials[0], 2, 0, 2);
    add_term(&d.polynomials[0], 2, 2, 0);
    set_start(&d, 0, 0, 1, 0);
    return d;
}

/* The body that gethwapiko_body has under this index. */
static Body *body_of(Drawing *d, uint64_t index) {
    return index == 0 ? &d->box : index == d->n ? &d->start : &d->polynomials[index - 1];
}

/* In dimension 2 polynomials 2 and 3 are not read, in dimension 3 polynomial 3; here such a one has length 0. */
static WriteAnswer write_to(const Drawing *d, uint8_t *buffer, size_t length) {
    const Body *p = d->polynomials;
    return gethwapiko_write_job(d->n, d->bias, d->box.bytes, d->box.length, p[0].bytes, p[0].length, p[1].bytes, p[1].length, p[2].bytes,
                                p[2].length, d->start.bytes, d->start.length, buffer, length);
}

static int still_filled(const uint8_t *bytes, size_t length) {
    for (size_t k = 0; k < length; k++)
        if (bytes[k] != FILLING)
            return 0;
    return 1;
}

/* The job of a drawing that is not refused. */
static Job written(const Drawing *d) {
    Job job;
    memset(job.bytes, FILLING, sizeof job.bytes);
    WriteAnswer a = write_to(d, job.bytes, GETHWAPIKO_LONGEST_JOB);
    must(a.refusal == 0, "the drawing is written");
    must(still_filled(job.bytes + a.length, sizeof job.bytes - a.length), "bytes behind the job keep their values");
    job.length = a.length;
    return job;
}

/* The drawing of a job that opens. */
static Drawing taken_apart(const Job *job) {
    Drawing d = {.n = gethwapiko_open(job->bytes, job->length).n, .bias = job->bytes[GETHWAPIKO_BIAS]};
    for (uint64_t k = 0; k <= d.n; k++) {
        BodyAnswer part = gethwapiko_body(job->bytes, job->length, k);
        Body *body = body_of(&d, k);
        memcpy(body->bytes, job->bytes + part.offset, part.length);
        body->length = part.length;
    }
    return d;
}

static void print_bytes(const uint8_t *bytes, size_t length) {
    for (size_t k = 0; k < length; k++)
        printf(" %02x", bytes[k]);
    printf("\n");
}

/* A job's bytes, body by body; they are those of the drawing. */
static void print_job(const Job *job, Drawing *d) {
    OpenAnswer opened = gethwapiko_open(job->bytes, job->length);
    must(opened.refusal == 0 && opened.n == d->n, "the job opens, in the drawing's dimension");
    printf("contents:");
    print_bytes(job->bytes, 4 + 4 * (d->n + 1));
    for (uint64_t k = 0; k <= d->n; k++) {
        BodyAnswer part = gethwapiko_body(job->bytes, job->length, k);
        const Body *body = body_of(d, k);
        must(part.length == body->length && !memcmp(job->bytes + part.offset, body->bytes, body->length), "the same body comes back");
        printf("body %llu at %llu:", (unsigned long long)k, (unsigned long long)part.offset);
        print_bytes(job->bytes + part.offset, part.length);
    }
}

static void print_trace(const Job *job, uint64_t verdict, uint64_t count) {
    static uint8_t places[MOST_PLACES * 12];
    TraceAnswer a = gethwapiko_trace(job->bytes, job->length, places, sizeof places);
    must(a.refusal == 0 && a.verdict == verdict && a.count == count, "the trace has this verdict and count");
    printf("%s %llu\n", verdicts[a.verdict], (unsigned long long)a.count);
}

/* The same job but for the start: only the last 3n bytes differ. */
static void print_other_start(const Job *job) {
    Drawing d = taken_apart(job);
    set_start(&d, -1, -1, 3, 1);
    Job other = written(&d);
    must(other.length == job->length && !memcmp(other.bytes, job->bytes, job->length - d.start.length), "all else is the same");
    printf("another start, -1 -1 3 side 1: ");
    print_trace(&other, GETHWAPIKO_LOOP, 6);
}

/* At bias 1 every grid point but the corners of the box counts as 0: no loop is left, and each corner is cut off by itself. */
static void print_biased(const Job *job) {
    Drawing d = taken_apart(job);
    d.bias = 1;
    set_start(&d, 0, 0, 3, 0);
    Job biased = written(&d);
    must(biased.bytes[GETHWAPIKO_BIAS] == 1, "byte 3 is the bias");
    printf("bias 1, start 0 0 3 side 0: ");
    print_trace(&biased, GETHWAPIKO_EDGE, 2);
}

/* A drawing that is refused with this number: nothing is written. */
static void print_refused(const Drawing *d, size_t length, uint64_t refusal) {
    uint8_t buffer[GETHWAPIKO_LONGEST_JOB];
    memset(buffer, FILLING, sizeof buffer);
    WriteAnswer a = write_to(d, buffer, length);
    must(a.refusal == refusal && a.length == 0, "the drawing is refused with this number");
    must(still_filled(buffer, sizeof buffer), "nothing is written");
    printf("refused %llu, nothing written\n", (unsigned long long)a.refusal);
}

static void print_refusals(Drawing d, size_t length) {
    printf("one byte short: ");
    print_refused(&d, length - 1, 16);
    set_start(&d, 0, 0, 0, 0);
    printf("one byte short and mask 0: "); /* the bodies are tested before the buffer */
    print_refused(&d, length - 1, 8);
}

/* A file's job from its own bodies. 0, 1 if it is refused, 2 if the file cannot be read. */
static int write_again(const char *name) {
    static Job job;
    FILE *f = fopen(name, "rb");
    job.length = f ? fread(job.bytes, 1, sizeof job.bytes, f) : 0;
    if (!f || ferror(f)) { /* a folder opens and cannot be read */
        perror(name);
        return 2;
    }
    fclose(f);
    OpenAnswer opened = gethwapiko_open(job.bytes, job.length);
    if (opened.refusal) {
        printf("%s: refused %llu\n", name, (unsigned long long)opened.refusal);
        return 1;
    }
    Drawing d = taken_apart(&job);
    Job again = written(&d);
    must(again.length == job.length && !memcmp(again.bytes, job.bytes, job.length), "written again byte by byte");
    printf("%s: %zu bytes, written again byte by byte\n", name, again.length);
    return 0;
}

int main(int argc, char **argv) {
    Drawing d = case_a();
    Job job = written(&d);
    printf("case A: %zu bytes\n", job.length);
    print_job(&job, &d);
    printf("trace: ");
    print_trace(&job, GETHWAPIKO_LOOP, 6);
    print_other_start(&job);
    print_biased(&job);
    print_refusals(d, job.length);
    int status = 0;
    for (int k = 1; k < argc && status != 2; k++) {
        int one = write_again(argv[k]);
        status = one > status ? one : status;
    }
    return status;
}
