/* Puts the loops of a job of dimension 2 in an order of cutting, inner ones before outer: by rising greatest x of a vertex. It lists every seam of the
 * box, traces each, and leaves out those that are no loops; then it asks whether the order of the list stands and whether the sorted one does. The job's
 * start counts only for its form. Exit status 0; 1 if the job is refused; 2 usage, a file that cannot be read, or no memory; 3 if the sorted order does
 * not stand, which cannot be: it is proved that it does. */
#include "gethwapiko.h"
#include <stdio.h>
#include <stdlib.h>
#include <string.h>

enum { MOST_BYTES = 2048, /* no job that opens has so many bytes */
       SIZE = 6 };        /* the bytes of a place in dimension 2 */

static const char *const verdicts[] = {"loop", "edge", "limit", "full"};

/* A job; where it has its start, and a buffer for places. */
typedef struct {
    uint8_t bytes[MOST_BYTES];
    size_t length;
    uint8_t *start, *places;
    size_t space;
} Job;

/* A loop: its place, how many places it has, and the greatest x of a vertex. */
typedef struct {
    uint8_t place[SIZE];
    uint64_t count;
    int greatest;
} Loop;

static int read_job(const char *name, Job *job) {
    FILE *f = fopen(name, "rb");
    job->length = f ? fread(job->bytes, 1, MOST_BYTES, f) : 0;
    if (!f || ferror(f)) { /* a folder opens and cannot be read */
        perror(name);
        return 0;
    }
    fclose(f);
    return 1;
}

static void *allocated(void *memory) {
    if (!memory) {
        perror("cut_order");
        exit(2);
    }
    return memory;
}

/* Space for one place, or for twice as many as before. */
static void double_space(Job *job) {
    job->space = job->space ? 2 * job->space : 1;
    job->places = allocated(realloc(job->places, SIZE * job->space));
}

/* Every seam; the places are in the buffer. */
static SeamsAnswer list_seams(Job *job) {
    for (;;) {
        SeamsAnswer a = gethwapiko_seams(job->bytes, job->length, job->places, SIZE * job->space);
        if (!a.full)
            return a;
        double_space(job);
    }
}

/* The whole trace from a place; the places are in the buffer. */
static TraceAnswer trace_from(Job *job, const uint8_t *place) {
    memcpy(job->start, place, SIZE);
    for (;;) {
        TraceAnswer a = gethwapiko_trace(job->bytes, job->length, job->places, SIZE * job->space);
        if (a.refusal || a.verdict != GETHWAPIKO_FULL)
            return a;
        double_space(job);
    }
}

static int coordinate(const uint8_t *bytes) {
    return (int16_t)(bytes[0] | bytes[1] << 8);
}

static void print_place(const uint8_t *place) {
    printf("%d %d %d", coordinate(place), coordinate(place + 2), place[4]);
}

/* The greatest x of a vertex of these places. A facet's is that of its lowest vertex, or 1 more if the mask has axis 1. */
static int greatest_x(const uint8_t *places, uint64_t count) {
    int greatest = coordinate(places);
    for (uint64_t k = 0; k < count; k++) {
        int x = coordinate(places + SIZE * k) + (places[SIZE * k + 4] & 1);
        if (x > greatest)
            greatest = x;
    }
    return greatest;
}

/* Traces each seam and keeps those that are loops; says which are not. The count of the loops. */
static size_t keep_loops(Job *job, const uint8_t *seams, uint64_t listed, Loop *loops) {
    size_t kept = 0;
    for (uint64_t k = 0; k < listed; k++) {
        const uint8_t *place = seams + SIZE * k;
        TraceAnswer a = trace_from(job, place);
        if (!a.refusal && a.verdict == GETHWAPIKO_LOOP) {
            Loop *loop = &loops[kept++];
            memcpy(loop->place, place, SIZE);
            loop->count = a.count;
            loop->greatest = greatest_x(job->places, a.count);
        } else {
            printf("left out: ");
            print_place(place);
            printf(" is no loop, %s\n", a.refusal ? "refused" : verdicts[a.verdict]);
        }
    }
    return kept;
}

/* By rising greatest x; those with the same stay in the order that they have. */
static void sort(Loop *loops, size_t count) {
    for (size_t k = 1; k < count; k++) {
        Loop moved = loops[k];
        size_t at = k;
        for (; at > 0 && loops[at - 1].greatest > moved.greatest; at--)
            loops[at] = loops[at - 1];
        loops[at] = moved;
    }
}

/* Whether the order stands; prints the answer. */
static OrderAnswer print_order(const Job *job, const Loop *loops, size_t count) {
    uint8_t *places = allocated(malloc(SIZE * (count + 1))); /* never of no bytes */
    for (size_t k = 0; k < count; k++)
        memcpy(places + SIZE * k, loops[k].place, SIZE);
    OrderAnswer a = gethwapiko_cut_order(job->bytes, job->length, places, SIZE * count);
    free(places);
    if (!a.refusal && a.stands)
        printf("stands\n");
    else if (!a.refusal)
        printf("position %llu has a later loop inside it\n", (unsigned long long)a.position);
    return a;
}

static int refused(uint64_t refusal) {
    printf("refused %llu\n", (unsigned long long)refusal);
    return 1;
}

/* Both orders, as listed and sorted. The exit status. */
static int print_orders(const Job *job, Loop *loops, size_t count) {
    printf("as listed: ");
    OrderAnswer a = print_order(job, loops, count);
    if (a.refusal)
        return refused(a.refusal);
    sort(loops, count);
    printf("by rising greatest x:\n");
    for (size_t k = 0; k < count; k++) {
        print_place(loops[k].place);
        printf(": %llu places, greatest x %d\n", (unsigned long long)loops[k].count, loops[k].greatest);
    }
    printf("sorted: ");
    a = print_order(job, loops, count);
    if (a.refusal)
        return refused(a.refusal);
    return a.stands ? 0 : 3;
}

int main(int argc, char **argv) {
    static Job job;
    if (argc != 2) {
        fprintf(stderr, "usage: cut_order JOBFILE\n");
        return 2;
    }
    if (!read_job(argv[1], &job))
        return 2;
    /* An empty list stands, unless the job does not open or is of another dimension. */
    OrderAnswer empty = gethwapiko_cut_order(job.bytes, job.length, job.bytes, 0);
    if (empty.refusal)
        return refused(empty.refusal);
    job.start = job.bytes + gethwapiko_body(job.bytes, job.length, 2).offset;
    double_space(&job);
    SeamsAnswer listed = list_seams(&job);
    uint8_t *seams = job.places; /* the traces get a buffer of their own */
    job.places = NULL;
    job.space = 0;
    double_space(&job);
    Loop *loops = allocated(malloc(sizeof *loops * (listed.count + 1)));
    printf("seams: %llu\n", (unsigned long long)listed.count);
    size_t count = keep_loops(&job, seams, listed.count, loops);
    printf("loops: %zu\n", count);
    int status = print_orders(&job, loops, count);
    free(seams);
    free(loops);
    free(job.places);
    return status;
}
