/* Writes the witness file of a formula.
 *
 *     tests/library door
 *     gcc -O2 -Iinclude examples/witness.c target/staticlib/libdoor.a -o target/witness
 *     target/witness examples/published/d000-ex4.qdimacs ex4.witness
 *
 * Status 0 if the file was written; 1 if the formula is undecided, so that there is none; 3 if the text is refused; 2 for wrong use, input that cannot be
 * read, output that cannot be written.
 */
#include <stdio.h>

#include "vulzhenn.h"

/* One byte more than is taken, so that a longer text is refused and not cut. */
static uint8_t text[VULZHENN_TEXT + 1];
static uint8_t work[VULZHENN_WORK];
static uint8_t out[VULZHENN_WITNESS];

/* The rounds that vulzhenn_witness makes at most. */
static const uint32_t LIMIT = 1000;

int main(int count, char **words)
{
    if (count != 3 || vulzhenn_version() != VULZHENN_VERSION) {
        fprintf(stderr, "usage: witness FORMULA FILE\n");
        return 2;
    }
    FILE *formula = fopen(words[1], "rb");
    if (formula == NULL) {
        perror(words[1]);
        return 2;
    }
    size_t length = fread(text, 1, sizeof text, formula);
    if (ferror(formula)) {
        perror(words[1]);
        return 2;
    }
    size_t made = vulzhenn_witness(text, length, out, sizeof out, work, sizeof work);
    if (made == 0) {
        /* there is room in out, so this tells which it is */
        uint32_t number = vulzhenn_decide(text, length, work, sizeof work, LIMIT);
        if (number > VULZHENN_REFUSED) {
            fprintf(stderr, "refused: number %u\n", (unsigned)(number - VULZHENN_REFUSED));
            return 3;
        }
        fprintf(stderr, "no witness: undecided\n");
        return 1;
    }
    FILE *file = fopen(words[2], "wb");
    if (file == NULL || fwrite(out, 1, made, file) != made || fclose(file) != 0) {
        perror(words[2]);
        return 2;
    }
    return 0;
}
