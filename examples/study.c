/* Decides a formula from a file, or from standard input, by a study, and prints the verdict in words.
 *
 *     tests/library door
 *     gcc -O2 -Iinclude examples/study.c target/staticlib/libdoor.a -o target/study
 *     target/study examples/published/d000-ex4.qdimacs
 *
 * Status 10 for true, 20 for false, 0 for undecided, as solvers have it; 1 for a text that is refused; 2 for wrong use, input that cannot be read,
 * output that cannot be written.
 */
#include <stdio.h>

#include "vulzhenn.h"

/* One byte more than is taken, so that a longer text is refused and not cut. */
static uint8_t text[VULZHENN_TEXT + 1];
static uint8_t work[VULZHENN_WORK];

/* Prints the words for a number that the call returned; negative if that fails. */
static int print_words(uint32_t number)
{
    if (number > VULZHENN_REFUSED)
        return printf("refused: number %u\n", (unsigned)(number - VULZHENN_REFUSED));
    switch (number) {
    case VULZHENN_FALSE:
        return puts("false");
    case VULZHENN_TRUE:
        return puts("true");
    default:
        return puts("undecided: no run had room");
    }
}

/* The exit status for such a number. */
static int status_of(uint32_t number)
{
    if (number > VULZHENN_REFUSED)
        return 1;
    return number == VULZHENN_TRUE ? 10 : number == VULZHENN_FALSE ? 20 : 0;
}

int main(int count, char **words)
{
    FILE *file = stdin;
    if (count > 2) {
        fprintf(stderr, "usage: study [FILE]\n");
        return 2;
    }
    if (count == 2 && (file = fopen(words[1], "rb")) == NULL) {
        perror(words[1]);
        return 2;
    }
    size_t length = fread(text, 1, sizeof text, file);
    if (ferror(file)) {
        perror("study");
        return 2;
    }
    uint32_t number = vulzhenn_study(text, length, work, sizeof work);
    if (print_words(number) < 0 || fflush(stdout) != 0) {
        perror("study: standard output");
        return 2;
    }
    return status_of(number);
}
