/* How long the largest texts take to be read. Each is handed to the C function with the limit 0, so that it is read whole and then refused
 * with 106, or earlier with its own number. Prints a line a text: bytes, number, median and longest of 201 calls, in ms of processor time. */
#include "vulzhenn.h"

#include <stdio.h>
#include <stdlib.h>
#include <string.h>
#include <time.h>

enum { CALLS = 201, NAMES = 128, ENTRIES = 8192, LARGEST_NAME = 32767 };

static char text[VULZHENN_TEXT + 64];
static size_t length;

static void put(const char *bytes)
{
    size_t n = strlen(bytes);

    if (length + n <= VULZHENN_TEXT) {
        memcpy(text + length, bytes, n);
        length += n;
    }
}

static void put_number(int number)
{
    char digits[16];

    snprintf(digits, sizeof digits, "%d ", number);
    put(digits);
}

static void fill(const char *bytes, size_t room)
{
    while (length + strlen(bytes) + room <= VULZHENN_TEXT)
        put(bytes);
}

/* The p line, and one block with the 128 largest names, the largest last. */
static void head(int clauses)
{
    put("p cnf 32767 ");
    put_number(clauses);
    length -= 1; /* no space at the end of a line */
    put("\ne ");
    for (int name = LARGEST_NAME - NAMES + 1; name <= LARGEST_NAME; name++)
        put_number(name);
    put("0\n");
}

static void entries(int number, const char *literal)
{
    while (number-- > 0)
        put(literal);
}

static void one_clause(void) { head(1); entries(ENTRIES - 1, "32767 "); put("0\n"); }
static void one_clause_of_negations(void) { head(1); entries(ENTRIES - 1, "-32767 "); put("0\n"); }
static void clauses_of_three(void) { head(2048); entries(2048, "32767 32767 32767 0\n"); }
static void too_many_at_the_end(void) { head(1); entries(ENTRIES - 2, "32767 "); put("1 0\n"); }

/* No block: 128 names that fall, so that each is inserted in front of all before it, over and over. */
static void bound_nowhere(void)
{
    put("p cnf 32767 1\n");
    for (int i = 0; i < ENTRIES - 1; i++)
        put_number(-(LARGEST_NAME - i % NAMES));
    put("0\n");
}

static void line_end_missing(void) { clauses_of_three(); length -= 1; }
static void spaces(void) { put("p cnf 1 1\ne 1 0\n1"); fill(" ", 2); put("0\n"); }
static void digits(void) { put("p cnf 1 1\ne 1 0\n"); fill("1", 3); put(" 0\n"); }
static void short_names(void) { put("p cnf 9 1\ne 9 0\n"); fill("9 ", 2); put("0\n"); }
static void comment_lines(void) { fill("c\n", 10); put("p cnf 0 0\n"); }
static void comment_lines_alone(void) { fill("c\n", 0); }
static void empty_lines(void) { fill("\n", 0); }
static void names_without_end(void) { put("p cnf 32767 0\ne "); for (int v = 1; v < 11000; v++) put_number(v); put("0\n"); }

static const struct { const char *name; void (*make)(void); } texts[] = {
    {"one clause, 8,191 times the name bound last", one_clause},
    {"the same, negated", one_clause_of_negations},
    {"2,048 clauses of three", clauses_of_three},
    {"129 names at the end", too_many_at_the_end},
    {"one clause of 128 names bound nowhere", bound_nowhere},
    {"the last line end missing", line_end_missing},
    {"65,000 spaces in a clause", spaces},
    {"65,000 digits in a clause", digits},
    {"a clause of 32,000 short names", short_names},
    {"comment lines before the p line", comment_lines},
    {"comment lines alone", comment_lines_alone},
    {"empty lines", empty_lines},
    {"a block of 11,000 names", names_without_end},
};

static double now(void)
{
    struct timespec t;

    clock_gettime(CLOCK_PROCESS_CPUTIME_ID, &t);
    return t.tv_sec * 1e3 + t.tv_nsec / 1e6;
}

static int by_size(const void *a, const void *b)
{
    double x = *(const double *)a, y = *(const double *)b;

    return (x > y) - (x < y);
}

int main(void)
{
    static uint8_t work[VULZHENN_WORK];
    double times[CALLS];

    printf("%-46s %6s  %6s  %7s  %7s\n", "text", "bytes", "number", "median", "longest");
    for (size_t i = 0; i < sizeof texts / sizeof *texts; i++) {
        uint32_t number = 0;

        length = 0;
        texts[i].make();
        for (int call = 0; call < CALLS; call++) {
            double start = now();

            number = vulzhenn_decide((const uint8_t *)text, length, work, sizeof work, 0);
            times[call] = now() - start;
        }
        qsort(times, CALLS, sizeof *times, by_size);
        printf("%-46s %6zu  %6u  %7.3f  %7.3f\n", texts[i].name, length, (unsigned)number, times[CALLS / 2], times[CALLS - 1]);
    }
    return 0;
}
