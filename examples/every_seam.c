/* Lists every seam of a job's box, one place each, and traces each from its place: a closed one once, any other both ways. The job's start counts only
 * for its form. Space begins with one place and is doubled while an answer is full. Exit status 0; 1 if the job is refused; 2 usage, a file that cannot
 * be read, or no memory. */
#include "gethwapiko.h"
#include <stdio.h>
#include <stdlib.h>
#include <string.h>

enum { MOST_BYTES = 2048 }; /* no job that opens has so many bytes */

static const char *const verdicts[] = {"loop", "edge", "limit", "full"};

/* A buffer for places of `size` bytes. */
typedef struct {
    uint8_t *bytes;
    size_t space, size;
} Room;

static int read_job(const char *name, uint8_t job[MOST_BYTES], size_t *length) {
    FILE *f = fopen(name, "rb");
    *length = f ? fread(job, 1, MOST_BYTES, f) : 0;
    if (!f || ferror(f)) { /* a folder opens and cannot be read */
        perror(name);
        return 0;
    }
    fclose(f);
    return 1;
}

/* Space for one place, or for twice as many as before. */
static void double_space(Room *room) {
    room->space = room->space ? 2 * room->space : 1;
    room->bytes = realloc(room->bytes, room->size * room->space);
    if (!room->bytes) {
        perror("every_seam");
        exit(2);
    }
}

static SeamsAnswer list_seams(const uint8_t *job, size_t length, Room *room) {
    for (;;) {
        SeamsAnswer a = gethwapiko_seams(job, length, room->bytes, room->size * room->space);
        if (!a.refusal)
            printf("space for %zu: %s, %llu listed\n", room->space, a.full ? "full" : "complete", (unsigned long long)a.count);
        if (!a.full)
            return a;
        double_space(room);
    }
}

/* The whole trace from the job's start; prints verdict and count. */
static TraceAnswer print_trace(const uint8_t *job, size_t length, Room *room) {
    for (;;) {
        TraceAnswer a = gethwapiko_trace(job, length, room->bytes, room->size * room->space);
        if (a.refusal)
            return a;
        if (a.verdict != GETHWAPIKO_FULL) {
            printf("%s %llu", verdicts[a.verdict], (unsigned long long)a.count);
            return a;
        }
        double_space(room);
    }
}

static void print_place(const uint8_t *place, size_t n) {
    for (size_t k = 0; k < n; k++)
        printf("%d ", (int16_t)(place[2 * k] | place[2 * k + 1] << 8));
    for (size_t k = 0; k + 1 < n; k++)
        printf("%d%s", place[2 * n + k], k + 2 < n ? " " : ": ");
}

/* Prints a seam's place and what the trace from there answers; if it is no loop, also with the other side. `start` is where the job has its start.
 * 0, or the number of a refusal. */
static uint64_t print_seam(uint8_t *job, size_t length, uint8_t *start, const uint8_t *place, Room *room) {
    memcpy(start, place, room->size);
    print_place(place, room->size / 3);
    TraceAnswer a = print_trace(job, length, room);
    if (!a.refusal && a.verdict != GETHWAPIKO_LOOP) {
        start[room->size - 1] = 1;
        printf(", turned ");
        a = print_trace(job, length, room);
    }
    printf("\n");
    return a.refusal;
}

static int refused(uint64_t refusal) {
    printf("refused %llu\n", (unsigned long long)refusal);
    return 1;
}

int main(int argc, char **argv) {
    static uint8_t job[MOST_BYTES];
    size_t length;
    if (argc != 2) {
        fprintf(stderr, "usage: every_seam JOBFILE\n");
        return 2;
    }
    if (!read_job(argv[1], job, &length))
        return 2;
    OpenAnswer opened = gethwapiko_open(job, length);
    if (opened.refusal)
        return refused(opened.refusal);
    Room seams = {NULL, 0, 3 * opened.n}, places = seams;
    double_space(&seams);
    double_space(&places);
    SeamsAnswer listed = list_seams(job, length, &seams);
    uint64_t refusal = listed.refusal;
    uint8_t *start = job + gethwapiko_body(job, length, opened.n).offset;
    for (uint64_t k = 0; k < listed.count && !refusal; k++)
        refusal = print_seam(job, length, start, seams.bytes + seams.size * k, &places);
    free(seams.bytes);
    free(places.bytes);
    return refusal ? refused(refusal) : 0;
}
