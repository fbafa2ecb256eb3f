/* Reads formulas as a setter types them at the bench: prints the polynomial that each text means, written out from its term list, or why the text is
 * refused, and where it leaves the language.
 *
 *   formula N TEXT...              in dimension N
 *   formula 2 TEXT... n=3 TEXT...  a word n=N sets the dimension of the texts behind it; no formula has an n
 *   formula N                      texts and words n=N from standard input, one a line; a - among the texts does that too
 *
 * Exit status 0, also if a text is refused, since that is an answer; 2 usage, standard input that cannot be read, or no memory; 3 if something comes
 * out otherwise than the program says, which cannot be: the answers are proved. */
#define _POSIX_C_SOURCE 200809L /* getline */
#include "gethwapiko.h"
#include <stdio.h>
#include <stdlib.h>
#include <string.h>

enum { NO_DIMENSION = 3, OUTSIDE = 14 }; /* refusals */

enum { DEEPEST = 16,
       MOST_TERMS = 70,
       MOST_WRITTEN = MOST_TERMS * 16 + 1, /* a term has a sign, 7 digits and at most *x*y*z*w */
       WINDOW = 72,                        /* the bytes that are shown of a text */
       BEFORE_MARK = 48 };                 /* how many of them come before the byte that is marked, at most */

static void must(int holds, const char *what) {
    if (!holds) {
        fprintf(stderr, "formula: not so: %s\n", what);
        exit(3);
    }
}

/* A copy of a text in room for `more` further bytes. */
static uint8_t *copy_with_room(const uint8_t *text, size_t length, size_t more) {
    uint8_t *copy = malloc(length + more + 1); /* never 0 bytes */
    if (!copy) {
        perror("formula");
        exit(2);
    }
    memcpy(copy, text, length);
    return copy;
}

/* Whether some formula begins with these bytes. One does exactly if one of two texts is in the language: the bytes with their open parentheses closed,
 * or with a 1 and then these closed. Behind a digit of a number, a letter, an exponent or a closing parenthesis an operand is complete, and the first
 * is a formula. Everywhere else an operand is still to come, and 1 is one, or the last byte is a ^, which takes the 1 as its exponent: then the second
 * is a formula. So two calls are enough. Where more parentheses are closed than open, none of it is a formula, whatever is put behind. */
static int begins_a_formula(uint64_t n, const uint8_t *text, size_t length) {
    size_t open = 0;
    for (size_t k = 0; k < length; k++)
        open = text[k] == '(' ? open + 1 : text[k] == ')' && open ? open - 1 : open;
    uint8_t *ended = copy_with_room(text, length, 1 + open);
    memset(ended + length, ')', 1 + open);
    int begins = gethwapiko_formula(n, ended, length + open).refusal != OUTSIDE;
    if (!begins) {
        ended[length] = '1';
        begins = gethwapiko_formula(n, ended, length + 1 + open).refusal != OUTSIDE;
    }
    free(ended);
    return begins;
}

/* The length of the longest beginning of a text with which some formula begins. Whatever begins a beginning of a formula begins the formula, so it is
 * found by halving: a call takes time by the length of its text, and a call for each byte would take too long for a text of some thousand. */
static size_t longest_beginning(uint64_t n, const uint8_t *text, size_t length) {
    size_t begins = 0, does_not = length + 1; /* any formula begins with nothing */
    while (does_not - begins > 1) {
        size_t middle = begins + (does_not - begins) / 2;
        if (begins_a_formula(n, text, middle))
            begins = middle;
        else
            does_not = middle;
    }
    return begins;
}

/* The most parentheses of a text of the language that are open at once. */
static size_t depth_of(const uint8_t *text, size_t length) {
    size_t open = 0, deepest = 0;
    for (size_t k = 0; k < length; k++) {
        open = text[k] == '(' ? open + 1 : text[k] == ')' ? open - 1 : open;
        deepest = open > deepest ? open : deepest;
    }
    return deepest;
}

/* Whether a text that is refused with 15, though it nests no deeper than 16, is zero: with 1 added it is 1 then, and if a limit is broken on the way
 * it is broken with +1 behind it too, since that is done last. */
static int is_zero(uint64_t n, const uint8_t *text, size_t length) {
    uint8_t *one_more = copy_with_room(text, length, 2);
    memcpy(one_more + length, "+1", 2);
    uint64_t refusal = gethwapiko_formula(n, one_more, length + 2).refusal;
    free(one_more);
    return refusal == 0;
}

/* Prints a byte so that it is seen what it is; the columns that it takes. */
static int show_byte(uint8_t byte) {
    return byte >= ' ' && byte <= '~' && byte != '\\' ? printf("%c", byte) : printf("\\x%02x", byte);
}

/* Prints a line with the text, of a long one a part with the byte `at` in it; the column of that byte. */
static int show_text(const uint8_t *text, size_t length, size_t at) {
    size_t from = at > BEFORE_MARK ? at - BEFORE_MARK : 0;
    size_t to = length - from > WINDOW ? from + WINDOW : length;
    int column = from ? 2 : 0;
    printf("%s", from ? ".." : "");
    for (size_t k = from; k < to; k++)
        column += show_byte(text[k]) * (k < at);
    printf("%s\n", to < length ? ".." : "");
    return column;
}

/* A term as it would be typed, from its 8 bytes; where it ends. */
static char *put_term(char *end, const uint8_t *t, int is_first) {
    int32_t coefficient = (int32_t)(t[0] | (uint32_t)t[1] << 8 | (uint32_t)t[2] << 16 | (uint32_t)t[3] << 24);
    const char *joint = "";
    if (coefficient < 0 || !is_first)
        *end++ = coefficient < 0 ? '-' : '+';
    if (abs(coefficient) != 1 || !(t[4] | t[5] | t[6] | t[7])) { /* 1*x is typed x */
        end += sprintf(end, "%d", abs(coefficient));
        joint = "*";
    }
    for (int axis = 0; axis < 4; axis++) {
        if (t[4 + axis] == 0)
            continue;
        end += sprintf(end, "%s%c", joint, "xyzw"[axis]);
        if (t[4 + axis] > 1)
            end += sprintf(end, "^%d", t[4 + axis]);
        joint = "*";
    }
    return end;
}

/* The term list as a sum of its terms, in their order. That is a formula too, with the same list. */
static void print_terms(uint64_t n, const FormulaAnswer *answer) {
    char written[MOST_WRITTEN], *end = written;
    must(answer->count >= 1 && answer->count <= MOST_TERMS, "a list has 1 to 70 terms");
    for (uint64_t k = 0; k < answer->count; k++)
        end = put_term(end, answer->bytes + 8 * k, k == 0);
    *end = 0;
    FormulaAnswer again = gethwapiko_formula(n, (const uint8_t *)written, (size_t)(end - written));
    must(again.refusal == 0 && again.count == answer->count && !memcmp(again.bytes, answer->bytes, sizeof again.bytes),
         "what is written out has the same terms");
    printf("  = %s (%llu term%s)\n", written, (unsigned long long)answer->count, answer->count == 1 ? "" : "s");
}

/* The text with a mark under the first byte that no formula has there, or behind its end. */
static void print_where(uint64_t n, const uint8_t *text, size_t length) {
    size_t at = longest_beginning(n, text, length);
    int column = show_text(text, length, at);
    printf("%*s^ refused 14: ", column, "");
    if (at == length)
        printf(length ? "the text ends here, where no formula ends\n" : "the text is empty\n");
    else {
        if (at == 0)
            printf("no formula begins with '");
        else if (at == 1)
            printf("behind the first byte no formula goes on with '");
        else
            printf("behind the first %zu bytes no formula goes on with '", at);
        show_byte(text[at]);
        printf("'\n");
    }
}

/* Why a text of the language is refused with 15. Of a limit the answer does not say which operation breaks it. */
static void print_why(uint64_t n, const uint8_t *text, size_t length) {
    size_t depth = depth_of(text, length);
    if (depth > DEEPEST)
        printf("  refused 15: parentheses nest %zu deep, and %d is the most\n", depth, DEEPEST);
    else if (is_zero(n, text, length))
        printf("  refused 15: the result is zero\n");
    else
        printf("  refused 15: on the way a coefficient is above 1048576 in size, or a degree above 4\n");
}

static void read_text(uint64_t n, const uint8_t *text, size_t length) {
    FormulaAnswer answer = gethwapiko_formula(n, text, length);
    if (answer.refusal == OUTSIDE) {
        print_where(n, text, length);
        return;
    }
    show_text(text, length, 0);
    if (answer.refusal == NO_DIMENSION)
        printf("  refused 3: the dimension is 2, 3 or 4\n");
    else if (answer.refusal)
        print_why(n, text, length);
    else
        print_terms(n, &answer);
}

/* Takes a number as the dimension from here on, and says so. One too large for 64 bits becomes the largest, which is no dimension either. */
static int sets_dimension(const char *digits, uint64_t *n) {
    if (!*digits || digits[strspn(digits, "0123456789")])
        return 0;
    *n = strtoull(digits, NULL, 10);
    printf("n = %llu\n", (unsigned long long)*n);
    return 1;
}

/* A text, or a word that sets the dimension. A text that was read from a line may have a byte 0 in it. */
static void take(const char *word, size_t length, uint64_t *n) {
    int sets = !strncmp(word, "n=", 2) && strlen(word) == length && sets_dimension(word + 2, n);
    if (!sets)
        read_text(*n, (const uint8_t *)word, length);
}

static void take_lines(uint64_t *n) {
    char *line = NULL;
    size_t room = 0;
    ssize_t length;
    while ((length = getline(&line, &room, stdin)) >= 0) {
        if (length > 0 && line[length - 1] == '\n')
            line[--length] = 0;
        take(line, (size_t)length, n);
    }
    free(line);
    if (!feof(stdin)) { /* an error, or no memory for the line */
        perror("formula: standard input");
        exit(2);
    }
}

int main(int argc, char **argv) {
    uint64_t n;
    const char *first = argc > 1 ? argv[1] : "";
    if (!sets_dimension(strncmp(first, "n=", 2) ? first : first + 2, &n)) {
        fprintf(stderr, "usage: formula N [TEXT | n=N | -]...\n"
                        "N is the dimension; texts come from standard input, one a line, for - or if there are none\n");
        return 2;
    }
    if (argc == 2)
        take_lines(&n);
    for (int k = 2; k < argc; k++) {
        if (!strcmp(argv[k], "-"))
            take_lines(&n);
        else
            take(argv[k], strlen(argv[k]), &n);
    }
    return 0;
}
