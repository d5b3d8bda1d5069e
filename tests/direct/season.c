/* A table of structs lent from C, and its page read number by number. */
#include <stddef.h>
#include <stdint.h>
#include <stdio.h>

struct study {
    uint32_t answer, rounds, fee;
};

uint64_t probe_season(const struct study *studies, size_t count, uint32_t which);

int main(void)
{
    static const struct study season[] = {{1, 2, 800}, {0, 1, 400}, {1, 257, 41571}, {2, 1000, 133406}, {4, 1000, 100000000}};
    static const uint64_t page[] = {0, 5, 1, 2, 1, 0, 1, 2260, 100176177, 1000, 4, 0};
    int wrong = 0;
    for (uint32_t which = 0; which < sizeof page / sizeof *page; which++) {
        uint64_t got = probe_season(season, sizeof season / sizeof *season, which);
        if (got != page[which]) {
            printf("number %u: got %llu, wanted %llu\n", which, (unsigned long long)got, (unsigned long long)page[which]);
            wrong = 1;
        }
    }
    return wrong;
}
