/* Judges a witness file about a formula, and prints what is found in words; with --claim 0 or 1 the file is to be accepted with that value.
 *
 *     tests/library door
 *     gcc -O2 -Iinclude examples/judge.c target/staticlib/libdoor.a -o target/judge
 *     target/judge [--claim 1] examples/published/d000-ex4.qdimacs ex4.witness
 *
 * Status 0 if the file is accepted; 1 if it is not borne out, not of this formula, or accepted with the other value than was asked for; 3 if the text or
 * the file is refused; 2 for wrong use, input that cannot be read, output that cannot be written.
 */
#include <stdio.h>
#include <string.h>

#include "vulzhenn.h"

/* One byte more than is taken of each, so that what is longer is refused and not cut. */
static uint8_t text[VULZHENN_TEXT + 1];
static uint8_t file[VULZHENN_WITNESS_READ + 1];
static uint8_t work[VULZHENN_WORK];

/* The bytes of a file, at most as many as there is room for; status 2 if it cannot be read. */
static int read_all(const char *name, uint8_t *to, size_t room, size_t *length)
{
    FILE *from = fopen(name, "rb");
    if (from == NULL) {
        perror(name);
        return 2;
    }
    *length = fread(to, 1, room, from);
    if (ferror(from)) {
        perror(name);
        return 2;
    }
    fclose(from);
    return 0;
}

int main(int count, char **words)
{
    size_t text_length, file_length;
    int asked = -1;
    if (count == 5 && strcmp(words[1], "--claim") == 0 && (strcmp(words[2], "0") == 0 || strcmp(words[2], "1") == 0)) {
        asked = words[2][0] - '0';
        words += 2, count -= 2;
    }
    if (count != 3) {
        fprintf(stderr, "usage: judge [--claim 0|1] FORMULA FILE\n");
        return 2;
    }
    if (read_all(words[1], text, sizeof text, &text_length) != 0 || read_all(words[2], file, sizeof file, &file_length) != 0)
        return 2;
    uint32_t found = vulzhenn_judge(text, text_length, file, file_length, work, sizeof work);
    int written, status = 1;
    switch (found) {
    case VULZHENN_ACCEPTED:
        /* the file has a claim, its second byte, and it is the formula's value */
        written = puts(file[1] == 1 ? "accepted: true" : "accepted: false");
        if (asked == -1 || asked == file[1])
            status = 0;
        else
            fprintf(stderr, "judge: the file bears out %d, and --claim asks for %d\n", file[1], asked);
        break;
    case VULZHENN_NOT_BORNE_OUT:
        written = puts("not borne out");
        break;
    case VULZHENN_OTHER_FORMULA:
        written = puts("not of this formula");
        break;
    default:
        written = printf("refused: number %u\n", (unsigned)(found - VULZHENN_REFUSED));
        status = 3;
    }
    if (written < 0 || fflush(stdout) != 0) {
        perror("judge: standard output");
        return 2;
    }
    return status;
}
