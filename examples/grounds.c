/* Prints a facet's values, D and coefficients, and in words why Judge says crossed or not: without arguments for marked cases of document 01,
 * with a job file, the lowest vertex and the masks for that facet. D and the coefficients are computed here, from the polynomials' sums after the
 * bias, and the ground is read off them once more. Exit status 0; 1 refused, or a ground that does not hold or is not the plain Judge's answer;
 * 2 usage, or a file that cannot be read. */
#include "gethwapiko.h"
#include <stdio.h>
#include <stdlib.h>

enum { MOST = 4 }; /* dimensions */

typedef struct {
    int n;
    int64_t vertex[MOST][MOST];      /* of the facet, in chain order */
    int64_t column[MOST][MOST];      /* 1, then the values there */
    int64_t d;                       /* the determinant of the columns */
    int64_t coefficient[MOST][MOST]; /* of each vertex, by power */
} Facet;

/* The determinant of m columns from row r on, expanded along that row; `used` are the columns taken above it. */
static int64_t determinant(int m, int64_t column[MOST][MOST], int r, unsigned used) {
    int64_t sum = 0, sign = 1;
    if (r == m)
        return 1;
    for (int i = 0; i < m; i++)
        if (!(used & 1u << i)) {
            sum += sign * column[i][r] * determinant(m, column, r + 1, used | 1u << i);
            sign = -sign;
        }
    return sum;
}

/* A value no larger in size than the bias counts as 0. */
static int64_t value_at(const uint8_t *job, size_t length, int polynomial, const int64_t v[MOST]) {
    OpenAnswer o = gethwapiko_open(job, length);
    uint64_t terms = polynomial == 0 ? o.terms1 : polynomial == 1 ? o.terms2 : o.terms3;
    SumAnswer a = gethwapiko_running_sum(job, length, (uint64_t)polynomial, v[0], v[1], v[2], v[3], terms);
    if (a.refusal) { /* not for a vertex of a facet that Judge answers for */
        fprintf(stderr, "grounds: a sum is refused: %llu\n", (unsigned long long)a.refusal);
        exit(1);
    }
    return llabs(a.sum) <= job[GETHWAPIKO_BIAS] ? 0 : a.sum;
}

static Facet read_facet(const uint8_t *job, size_t length, const uint8_t *place, int n) {
    Facet f = {.n = n};
    for (int i = 0; i < n; i++) {
        unsigned mask = i == 0 ? 0 : place[2 * n + i - 1];
        for (int a = 0; a < n; a++)
            f.vertex[i][a] = (int16_t)(place[2 * a] | place[2 * a + 1] << 8) + (int)(mask >> a & 1);
        f.column[i][0] = 1;
        for (int k = 0; k + 1 < n; k++)
            f.column[i][k + 1] = value_at(job, length, k, f.vertex[i]);
    }
    f.d = determinant(n, f.column, 0, 0);
    for (int i = 0; i < n; i++)
        for (int j = 0; j < n; j++) { /* with the column of power j in place of column i */
            Facet g = f;
            for (int r = 0; r < n; r++)
                g.column[i][r] = r == j;
            f.coefficient[i][j] = determinant(n, g.column, 0, 0);
        }
    return f;
}

static void print_facet(const Facet *f) {
    for (int i = 0; i < f->n; i++) {
        printf("  vertex %d at", i);
        for (int a = 0; a < f->n; a++)
            printf(" %lld", (long long)f->vertex[i][a]);
        printf(": %s", f->n == 2 ? "value" : "values");
        for (int k = 1; k < f->n; k++)
            printf(" %lld", (long long)f->column[i][k]);
        printf("; coefficients");
        for (int j = 0; j < f->n; j++)
            printf(" %lld", (long long)f->coefficient[i][j]);
        printf("\n");
    }
    printf("  D is %lld\n", (long long)f->d);
}

static void print_ground(const Facet *f, const GroundAnswer *g) {
    const uint64_t power[MOST] = {g->power0, g->power1, g->power2, g->power3};
    if (g->kind == GETHWAPIKO_ZERO_DETERMINANT) {
        printf("  not crossed: D is 0\n");
    } else if (g->kind == GETHWAPIKO_VERTEX_AGAINST) {
        printf("  not crossed: vertex %llu is the first against D, by power %llu\n", (unsigned long long)g->vertex, (unsigned long long)g->power);
    } else {
        printf("  crossed:");
        for (int i = 0; i < f->n; i++)
            printf("%s vertex %d by power %llu", i == 0 ? "" : ",", i, (unsigned long long)power[i]);
        printf("\n");
    }
}

/* The coefficient of the power is not 0, all lower ones are; its sign is that of D, or the other. */
static int decides(const Facet *f, uint64_t i, uint64_t j, int with) {
    if (i >= (uint64_t)f->n || j >= (uint64_t)f->n || f->coefficient[i][j] == 0)
        return 0;
    for (uint64_t k = 0; k < j; k++)
        if (f->coefficient[i][k] != 0)
            return 0;
    return ((f->coefficient[i][j] > 0) == (f->d > 0)) == with;
}

/* Whoever reads D, the powers named and their coefficients: 1 crossed, 0 not, -1 the ground does not hold. */
static int read_ground(const Facet *f, const GroundAnswer *g) {
    const uint64_t power[MOST] = {g->power0, g->power1, g->power2, g->power3};
    if (g->kind == GETHWAPIKO_ZERO_DETERMINANT)
        return f->d == 0 ? 0 : -1;
    if (f->d == 0)
        return -1;
    if (g->kind == GETHWAPIKO_VERTEX_AGAINST)
        return decides(f, g->vertex, g->power, 0) ? 0 : -1;
    for (int i = 0; i < f->n; i++)
        if (!decides(f, (uint64_t)i, power[i], 1))
            return -1;
    return g->n == (uint64_t)f->n ? 1 : -1;
}

static int explain(const char *name, const uint8_t *job, size_t length, const uint8_t *place, int n) {
    GroundAnswer g = gethwapiko_judge_ground(job, length, place, (size_t)(3 * n));
    printf("%s\n", name);
    if (g.refusal) {
        printf("  refused %llu\n", (unsigned long long)g.refusal);
        return 1;
    }
    Facet f = read_facet(job, length, place, n);
    print_facet(&f);
    print_ground(&f, &g);
    return read_ground(&f, &g) == (int)gethwapiko_judge(job, length, place, (size_t)(3 * n)).crossed ? 0 : 1;
}

/* F: box 0 to 1 on both axes, x. Byte 24 is the coefficient's lowest; bytes 28 and 29 are the exponents of x and y. */
static uint8_t case_f[] = {1, 2, 3, 0, 16, 0, 8, 0, 24, 0, 8, 0, 32, 0, 6, 0, 0, 0, 1, 0, 0, 0, 1, 0, 1, 0, 0, 0, 1, 0, 0, 0, 0, 0, 0, 0, 1, 0};
/* C: n = 3, x and y, box 0 to 1. */
static const uint8_t case_c[] = {1, 3, 4, 0, 20, 0, 12, 0, 32, 0, 8, 0, 40, 0, 8, 0, 48, 0, 9, 0, 0, 0, 1, 0, 0, 0, 1, 0, 0,
                                 0, 1, 0, 1, 0, 0, 0, 1, 0, 0, 0, 1, 0, 0, 0, 0, 1, 0, 0, 0, 0, 0, 0, 0, 0, 1, 3, 0};

static int marked_cases(void) {
    static const uint8_t edge[] = {0, 0, 0, 0, 1, 0}, triangle_e[] = {0, 0, 0, 0, 0, 0, 2, 3, 0}, triangle_c[] = {0, 0, 0, 0, 0, 0, 1, 3, 0};
    int wrong = explain("E: x and y, masks 2 3", case_c, sizeof case_c, triangle_e, 3);
    wrong |= explain("F: x", case_f, sizeof case_f, edge, 2);
    for (int k = 24; k < 28; k++)
        case_f[k] = 255;
    wrong |= explain("G: -x", case_f, sizeof case_f, edge, 2);
    case_f[24] = 1, case_f[25] = case_f[26] = case_f[27] = 0, case_f[28] = 0, case_f[29] = 1;
    wrong |= explain("H: y", case_f, sizeof case_f, edge, 2);
    return wrong | explain("A tie in dimension 3, C's start: x and y, masks 1 3", case_c, sizeof case_c, triangle_c, 3);
}

static int usage(void) {
    fprintf(stderr, "grounds, or grounds JOBFILE X Y .. MASK .., one whole number for each axis of the job and n - 1 masks\n");
    return 2;
}

int main(int argc, char **argv) {
    static uint8_t job[2048];
    uint8_t place[3 * MOST] = {0};
    if (argc == 1)
        return marked_cases();
    FILE *f = fopen(argv[1], "rb");
    size_t length = f ? fread(job, 1, sizeof job, f) : 0;
    if (!f || ferror(f)) { /* a folder opens and cannot be read */
        perror(argv[1]);
        return 2;
    }
    fclose(f);
    OpenAnswer o = gethwapiko_open(job, length);
    if (o.refusal) {
        printf("refused %llu\n", (unsigned long long)o.refusal);
        return 1;
    }
    int n = (int)o.n;
    if (argc != 1 + 2 * n)
        return usage();
    for (int k = 2; k < argc; k++) {
        char *end;
        long number = strtol(argv[k], &end, 10);
        int at = k - 2;
        if (end == argv[k] || *end || (at < n ? number < -32768 || number > 32767 : number < 0 || number > 255))
            return usage();
        if (at < n)
            place[2 * at] = (uint8_t)number, place[2 * at + 1] = (uint8_t)((unsigned long)number >> 8);
        else
            place[n + at] = (uint8_t)number;
    }
    return explain(argv[1], job, length, place, n);
}
