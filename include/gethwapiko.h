/* The C interface of Gethwapiko (archive: crates/cabi/out/libcabi.a, x86-64).
 *
 * Each function answers exactly what the definition of document 01 and of the requests says, for every input; the proof is in crates/cabi, and that
 * of the structs' numbers in crates/jobnumbers and the other crates of that name.
 * Bytes are handed over as a pointer and a count, and the pointer must be good for that many bytes. Nothing is kept between calls,
 * nothing is allocated, and only the buffer of a trace, of the seams or of a job to be written is written; it must not overlap what is read.
 *
 * The field `refusal` is 0 or the number of the refusal; beside a refusal every other field is 0.
 * A field that an answer does not use is 0: terms2, z and mask2 in dimension 2, terms3, w and mask3 below dimension 4, the place of an
 * edge, the point of a close, the vertex, the powers and n that a ground does not name.
 *
 * Refusals, in the order in which Open tests them; every other function that is handed a job opens it first:
 *    1  fewer than 4 bytes                 5  contents cut short, bodies not adjacent, or a length wrong for its kind
 *    2  byte 0 wrong                       6  box
 *    3  dimension not 2, 3 or 4            7  a term, or the order of terms
 *    4  entry count                        8  the start's masks or side
 * and of a place or an index:
 *    9  a vertex outside the box          12  index past the last
 *   10  a vertex value not readable       13  the place is not 3n bytes or is malformed; for Pen and the order of cutting first, a length that is no multiple of 3n
 *   11  not crossed
 *   18  for the order of cutting alone, behind 11: the place's trace is no loop, or its loop already came
 * and for writing a job alone, behind 8:
 *   16  the buffer is shorter than the job
 * and for a formula alone, behind 3:
 *   14  the text is outside the language
 *   15  parentheses nest deeper than 16, an inner result breaks a limit of a term, or the result is zero
 * and by the small bench cutter's two functions alone, tested after 8 and before 9:
 *   17  a box end outside -64 to 64, or a polynomial with over 16 terms
 *
 * A place is 3n bytes, little-endian: n signed 16-bit coordinates of the lowest vertex, n - 1 masks, a side 0 or 1.
 *
 * Byte 3 of a job is its bias, 0 to 255: a value no larger in size counts as 0 in every function that goes by values. It is tested for
 * readable before, so a bias changes no refusal 9 or 10. 0 is no bias; a caller may set the byte in place: job[GETHWAPIKO_BIAS] = 1, or have it
 * written.
 */
#ifndef GETHWAPIKO_H
#define GETHWAPIKO_H

#include <stddef.h>
#include <stdint.h>

#ifdef __cplusplus
extern "C" {
#endif

/* The byte of a job that holds its bias. */
enum { GETHWAPIKO_BIAS = 3 };

typedef struct {
    uint64_t refusal;
    uint64_t n;      /* the dimension, 2, 3 or 4 */
    uint64_t terms1; /* the terms of polynomial 1 */
    uint64_t terms2; /* the terms of polynomial 2 */
    uint64_t terms3; /* the terms of polynomial 3 */
} OpenAnswer;

typedef struct {
    uint64_t refusal;
    uint64_t offset; /* from byte 0 of the job */
    uint64_t length; /* never 0 where there is no refusal */
} BodyAnswer;

typedef struct {
    uint64_t refusal;
    uint64_t crossed; /* 1 crossed, 0 not */
} JudgeAnswer;

enum { GETHWAPIKO_ZERO_DETERMINANT = 0, GETHWAPIKO_VERTEX_AGAINST = 1, GETHWAPIKO_CROSSED = 2 };

/* Vertices are numbered from 0 in chain order: vertex 0 is the lowest, vertex k has mask k. Powers are numbered from 0, and 0 is a power like
 * others: kind and n say which fields count. */
typedef struct {
    uint64_t refusal;
    uint64_t kind;   /* 0 not crossed, D is 0; 1 not crossed, a vertex is against D; 2 crossed */
    uint64_t n;      /* kind 2: the dimension, the count of the powers below */
    uint64_t vertex; /* kind 1: the first vertex whose sign is against D */
    uint64_t power;  /* kind 1: the power whose coefficient decided it */
    uint64_t power0, power1, power2, power3; /* kind 2: the power that decided each of the first n vertices */
} GroundAnswer;

typedef struct {
    uint64_t refusal;
    int64_t x, y, z, w; /* in steps of 1/1024, to the nearest, a half to the even count */
} PointAnswer;

enum { GETHWAPIKO_NEXT = 0, GETHWAPIKO_STEP_EDGE = 1, GETHWAPIKO_STEP_LIMIT = 2 };

typedef struct {
    uint64_t refusal;
    uint64_t outcome;   /* 0 the next place, 1 edge, 2 limit */
    int64_t x, y, z, w; /* the next place's lowest vertex */
    uint64_t mask1, mask2, mask3;
    uint64_t side;
} StepAnswer;

enum { GETHWAPIKO_LOOP = 0, GETHWAPIKO_EDGE = 1, GETHWAPIKO_LIMIT = 2, GETHWAPIKO_FULL = 3 };

typedef struct {
    uint64_t refusal;
    uint64_t verdict; /* 0 loop, 1 edge, 2 limit, 3 full */
    uint64_t count;   /* the places written, 3n bytes each */
} TraceAnswer;

typedef struct {
    uint64_t refusal;
    uint64_t full;  /* 1 full: one more seam remains and no space does; 0 complete */
    uint64_t count; /* the places written, 3n bytes each, one for each seam */
} SeamsAnswer;

typedef struct {
    uint64_t refusal;
    uint64_t stands;   /* 1 the order stands; 0 it does not */
    uint64_t position; /* if it does not: the first position, counted from 0, whose loop has a later listed loop inside it */
} OrderAnswer;

typedef struct {
    uint64_t refusal;
    uint64_t count;     /* the terms, 1 to 70 */
    uint8_t bytes[560]; /* the terms, 8 bytes each as in a job; bytes behind them are 0 */
} FormulaAnswer;

typedef struct {
    uint64_t refusal;
    uint64_t length; /* of the job written, from the buffer's front on; never 0 where there is no refusal */
} WriteAnswer;

enum { GETHWAPIKO_LIFT = 0, GETHWAPIKO_DRAW = 1, GETHWAPIKO_CLOSE = 2 };

typedef struct {
    uint64_t refusal;
    uint64_t kind;  /* 0 lift, 1 draw, 2 close */
    double x, y, z; /* on axes 1 to 3, in millimetres: the steps of Point divided by 1024, exactly */
} PenAnswer;

typedef struct {
    uint64_t refusal;
    int64_t sum;
} SumAnswer;

/* Open: the dimension and each polynomial's count of terms. Refusals 1 to 8. */
OpenAnswer gethwapiko_open(const uint8_t *job, size_t job_length);

/* Body: where in the job body `index` lies: 0 the box, 1 to n - 1 the polynomials, n the start. Refusal 12. */
BodyAnswer gethwapiko_body(const uint8_t *job, size_t job_length, uint64_t index);

/* Judge: whether the place's facet is crossed. Refusals 13, 9, 10. */
JudgeAnswer gethwapiko_judge(const uint8_t *job, size_t job_length, const uint8_t *place, size_t place_length);

/* Judge with its ground: why the place's facet is crossed or not. D is the determinant whose column i is 1 and the values at vertex i, after the
 * bias; the coefficients of vertex i are those of the powers of e if column i is (1, e, .., e to the n-1) instead. A vertex's sign is that of its
 * first coefficient, in rising powers, that is not 0, and that power decides it: a power is named only if all lower coefficients are 0. Whoever
 * reads D, the powers named and their coefficients reaches gethwapiko_judge's answer: crossed exactly if kind is 2. Refusals 13, 9, 10; test
 * `refusal` first, since beside one kind is 0 like every field. */
GroundAnswer gethwapiko_judge_ground(const uint8_t *job, size_t job_length, const uint8_t *place, size_t place_length);

/* Point: where the curve crosses the place's facet, on each axis to the nearest step: 1/2048 of a unit is 0 steps, 3/2048 is 2, -1/2048 is 0.
 * Refusals 13, 9, 10, 11. */
PointAnswer gethwapiko_point(const uint8_t *job, size_t job_length, const uint8_t *place, size_t place_length);

/* Step: the place of the other crossed facet of the simplex on the place's side; edge if that simplex has a vertex outside the box,
 * limit if one of its values is not readable. Refusals 13, 9, 10, 11. */
StepAnswer gethwapiko_step(const uint8_t *job, size_t job_length, const uint8_t *place, size_t place_length);

/* Trace: the places from the job's start on, written to the buffer from its front. It has space for buffer_length / 3n places.
 * loop: the next facet is the start's; edge, limit: as in Step; full: no space for the next place.
 * Bytes past the last place written keep their values, and a refusal (9, 10, 11 for the start) touches nothing. */
TraceAnswer gethwapiko_trace(const uint8_t *job, size_t job_length, uint8_t *buffer, size_t buffer_length);

/* Every seam in the box. A seam is a crossed facet in the box, with readable values, and all that are joined to it, even if it stands by itself. Its
 * place is its least facet with side 0: lowest vertex first, coordinates as whole numbers, axis 1 weighing most, then the masks in order. The places
 * are written to the buffer from its front, in that order, each seam once; space is counted, and bytes past the last place keep their values, as in
 * Trace. The job's start counts only for its form: refusals 1 to 8 alone, and a refusal touches nothing. Every vertex of the box is looked at: the
 * largest box takes some tens of milliseconds in dimension 2 and half a minute in dimension 3; in dimension 4 a box of 64 units an axis takes some
 * ten seconds, and the largest hours. */
SeamsAnswer gethwapiko_seams(const uint8_t *job, size_t job_length, uint8_t *buffer, size_t buffer_length);

/* The order of cutting: inner loops before outer, in dimension 2. The list has a place on each loop, 3n bytes each, in the proposed order of cutting; any
 * place of a loop will do, with either side. A lattice vertex is inside a loop if, going from it along axis 1 to the high end of the box, an odd number
 * of the edges passed (mask 1) are facets of that loop; a loop is inside another if its place's lowest vertex is, and then all its vertices are. The
 * order stands exactly if each loop comes after all listed loops inside it; an empty list stands. By rising greatest x of a vertex any list of loops
 * stands. Refusals 3 (another dimension), 13 (a length that is no multiple of 3n), then position by position 13, 9, 10, 11, 18, all of one position
 * before the next. Nothing is written. Of k loops the earlier of each pair is walked once: k * k / 2 walks. */
OrderAnswer gethwapiko_cut_order(const uint8_t *job, size_t job_length, const uint8_t *places, size_t places_length);

/* Reading a formula: the term list of the polynomial that a text means in dimension n, handed back whole. The text has whole numbers of 1 to 7 digits,
 * the letters x, y, z, w for axes 1 to 4 up to n, + - * ^ and parentheses, and no blanks. A sum is an optional minus, which takes the first product
 * only, and products joined by + or -; a product is powers joined by *; a power is an atom with an optional ^ and one digit 0 to 4; an atom is a number,
 * a letter or a sum in parentheses. -x^2 is minus the square, 2*3^2 is 18, power 0 is 1, of zero too. Operations of one rank go from left to right, a
 * power multiplies by its atom once at a time, and the polynomial behind each operation stands on the limits of a term: coefficients at most 1,048,576
 * in size, degree at most 4. The terms are right for a polynomial of gethwapiko_write_job in dimension n: 8 * count bytes.
 * Refusals 3, 14, 15. Nothing is written. */
FormulaAnswer gethwapiko_formula(uint64_t n, const uint8_t *text, size_t text_length);

/* No job is longer: 24 bytes of contents, 16 of box, three polynomials of 560, 12 of start. */
enum { GETHWAPIKO_LONGEST_JOB = 1732 };

/* Writing a job: the job file from loose bodies, its contents first, the bodies behind them, written to the buffer from its front; the answer is the
 * job's length, and bytes behind the job keep their values. The bodies are those of a job: the box, 4n bytes; polynomials, 8 bytes a term; the start,
 * 3n bytes. Of the three polynomials the first n - 1 are read; for the others any good pointer with length 0 will do. What is written opens to the same
 * bodies, dimension and bias, and a job that opens is written again byte by byte from its own bodies (gethwapiko_body says where they lie).
 * Refusals 3, 5, 6, 7, 8 as gethwapiko_open would give them of the job written (a body too long for its 16-bit entry is 5), then 16 if the buffer is
 * shorter than the job; a refusal touches nothing. A buffer of GETHWAPIKO_LONGEST_JOB bytes is never too short. */
WriteAnswer gethwapiko_write_job(uint64_t n, uint8_t bias, const uint8_t *box, size_t box_length, const uint8_t *polynomial1,
                                 size_t polynomial1_length, const uint8_t *polynomial2, size_t polynomial2_length, const uint8_t *polynomial3,
                                 size_t polynomial3_length, const uint8_t *start, size_t start_length, uint8_t *buffer, size_t buffer_length);

/* The small bench cutter, whose controller takes box ends from -64 to 64 and at most 16 terms a polynomial, in dimensions 2, 3 and 4. Each function
 * answers refusal 17, or exactly what the one without `small` in its name answers, the buffer included; 17 exactly if that one opens the job and a
 * limit of the small cutter is broken. A start beyond 64 with the box inside is 9, as for the full cutter. In dimension 2 no polynomial has over 15
 * terms. */
enum { GETHWAPIKO_SMALL_COORDINATE = 64, GETHWAPIKO_SMALL_TERMS = 16, GETHWAPIKO_TOO_LARGE = 17 };

/* Its Open. Refusals 1 to 8, then 17. */
OpenAnswer gethwapiko_small_open(const uint8_t *job, size_t job_length);

/* Its Trace. Refusals 1 to 8, then 17, then 9, 10, 11 for the start; a refusal touches nothing. */
TraceAnswer gethwapiko_small_trace(const uint8_t *job, size_t job_length, uint8_t *buffer, size_t buffer_length);

/* Pen: move k of a list of m places, 3n bytes each: k = 0 lifts to place 0, k under m draws to place k, and k = m with m above 0 closes
 * if `closed` is not 0. Refusals 13, 12, then 13, 9, 10, 11 for place k; a close looks at no place. */
PenAnswer gethwapiko_pen(const uint8_t *job, size_t job_length, const uint8_t *places, size_t places_length, uint8_t closed, uint64_t k);

/* Running sum: a polynomial at the vertex x y z w, summed from its last term to its first, after `terms` terms: the exact sum of its last
 * `terms` terms, readable or not, without the bias. All terms give the polynomial's sum, 0 terms give 0. Polynomials are numbered from 0 to
 * n - 2: polynomial 0 is that of terms1 and of body 1. The coordinates on axes above n are not read.
 * Refusals 12 (no such polynomial, or it has fewer terms), then 9. */
SumAnswer gethwapiko_running_sum(const uint8_t *job, size_t job_length, uint64_t polynomial, int64_t x, int64_t y, int64_t z, int64_t w,
                                 uint64_t terms);

#ifdef __cplusplus
}
#endif

#endif
