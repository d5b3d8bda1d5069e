/* Checks of the C functions: numbers, work areas, the bytes around them, threads, and the stack of a call; that a text's witness file is accepted.
 *
 * usage: door LIST, a line 'NUMBER PATH' for each text that is to be answered or refused with that number under the limit 1,000.
 * The last line is 'N passed, M failed'.
 */
#include <pthread.h>
#include <stdio.h>
#include <stdlib.h>
#include <string.h>
#include <sys/mman.h>

#include "vulzhenn.h"

enum { GUARD = 4096, MOST = VULZHENN_WORK + 1, STACK = 1 << 20, PAINT = 0xA5 };

static int passed, failed;

static void check(int holds, const char *name, const char *what)
{
    if (holds) {
        passed++;
    } else {
        failed++;
        printf("%s: %s\n", name, what);
    }
}

static uint8_t pattern(size_t i) { return (uint8_t)(i * 7 + 3); }

/* One call over a work area of this length with a pattern in it and around it. Four checks: the number, the work area, the bytes around it,
   the text. */
static void call(const char *name, const uint8_t *text, size_t length, size_t work_length, uint32_t limit, uint32_t wanted)
{
    static uint8_t around[GUARD + MOST + GUARD];
    uint8_t *work = around + GUARD, *copy = malloc(length + 1);
    char said[80];
    for (size_t i = 0; i < sizeof around; i++)
        around[i] = pattern(i);
    memcpy(copy, text, length);
    uint32_t number = vulzhenn_decide(copy, length, work, work_length, limit);
    snprintf(said, sizeof said, "wanted %u, got %u", (unsigned)wanted, (unsigned)number);
    check(number == wanted, name, said);
    int zero = 1, found = 1, guards = 1;
    for (size_t i = 0; i < sizeof around; i++) {
        int inside = i >= GUARD && i < GUARD + work_length;
        zero &= !inside || around[i] == 0;
        found &= !inside || around[i] == pattern(i);
        guards &= inside || around[i] == pattern(i);
    }
    check(wanted < VULZHENN_REFUSED ? zero : found, name, wanted < VULZHENN_REFUSED ? "work area not zero" : "work area changed by a refusal");
    check(guards, name, "bytes around the work area changed");
    check(memcmp(copy, text, length) == 0, name, "text changed");
    free(copy);
}

static void call_text(const char *name, const char *text, size_t work_length, uint32_t limit, uint32_t wanted)
{
    call(name, (const uint8_t *)text, strlen(text), work_length, limit, wanted);
}

/* The study of a text: the number, and the work area zero after an answer, as found after a refusal. */
static void study(const char *name, const char *text, size_t work_length, uint32_t wanted)
{
    static uint8_t work[MOST];
    int zero = 1, found = 1;
    for (size_t i = 0; i < sizeof work; i++)
        work[i] = pattern(i);
    check(vulzhenn_study((const uint8_t *)text, strlen(text), work, work_length) == wanted, name, "another number of the study");
    for (size_t i = 0; i < sizeof work; i++) {
        zero &= i >= work_length || work[i] == 0;
        found &= work[i] == pattern(i);
    }
    check(wanted < VULZHENN_REFUSED ? zero : found, name, "the work area of a study");
}

/* The texts of the list. */
static void listed(const char *list)
{
    static uint8_t text[VULZHENN_TEXT + 2];
    char line[4096], path[4096];
    unsigned wanted;
    FILE *lines = fopen(list, "r");
    check(lines != NULL, list, "cannot be read");
    while (lines != NULL && fgets(line, sizeof line, lines) != NULL) {
        FILE *file = sscanf(line, "%u %4095s", &wanted, path) == 2 ? fopen(path, "rb") : NULL;
        if (file == NULL) {
            check(0, line, "no such text");
            continue;
        }
        size_t length = fread(text, 1, sizeof text, file);
        fclose(file);
        call(path, text, length, VULZHENN_WORK, 1000, wanted);
    }
    if (lines != NULL)
        fclose(lines);
}

static const char K1[] = "p cnf 2 2\na 1 0\ne 2 0\n1 2 0\n-1 -2 0\n";
static const char BROKEN[] = "p cnf 1 1\na 1 0\n2 0\n";

/* A text of exactly this length: a comment in front of K1. */
static const uint8_t *long_text(size_t length)
{
    static uint8_t text[VULZHENN_TEXT + 1];
    size_t tail = sizeof K1 - 1;
    memset(text, 'c', length);
    text[length - tail - 1] = '\n';
    memcpy(text + length - tail, K1, tail);
    return text;
}

/* Two threads, each with a work area of its own, over one text. */
static void *repeat(void *wrong)
{
    uint8_t *work = malloc(VULZHENN_WORK);
    for (int i = 0; i < 2000; i++) {
        uint32_t limit = 1 + i % 2;
        memset(work, i, VULZHENN_WORK);
        *(int *)wrong += vulzhenn_decide((const uint8_t *)K1, sizeof K1 - 1, work, VULZHENN_WORK, limit) != (limit == 1 ? 2 : 1);
        for (size_t j = 0; j < VULZHENN_WORK; j++)
            *(int *)wrong += work[j] != 0;
    }
    free(work);
    return NULL;
}

static void threads(void)
{
    int wrong[2] = {0, 0};
    pthread_t other;
    check(pthread_create(&other, NULL, repeat, &wrong[0]) == 0, "threads", "not started");
    repeat(&wrong[1]);
    pthread_join(other, NULL);
    check(wrong[0] == 0, "threads", "a wrong answer on the other thread");
    check(wrong[1] == 0, "threads", "a wrong answer on the first thread");
}

/* The stack of a call: a thread's stack is painted, and what lies below the caller's frame and is no longer painted was used. */
struct deep {
    const uint8_t *text;
    size_t length;
    uint32_t number;
    uint32_t judged;
    uint32_t studied;
    uint8_t *stack;
    size_t used;
};

static __attribute__((noinline)) uint32_t decide(struct deep *d, uint8_t *work)
{
    return vulzhenn_decide(d->text, d->length, work, VULZHENN_WORK, 1000);
}

/* The judge's number for the text's own witness file. */
static __attribute__((noinline)) uint32_t judge(struct deep *d, uint8_t *work, uint8_t *file)
{
    size_t length = vulzhenn_witness(d->text, d->length, file, VULZHENN_WITNESS, work, VULZHENN_WORK);
    return vulzhenn_judge(d->text, d->length, file, length, work, VULZHENN_WORK);
}

static void *measured(void *given)
{
    static uint8_t work[VULZHENN_WORK], file[VULZHENN_WITNESS];
    struct deep *d = given;
    uint8_t *here = __builtin_frame_address(0);
    size_t low = 0;
    d->number = decide(d, work);
    d->judged = judge(d, work, file);
    d->studied = vulzhenn_study(d->text, d->length, work, VULZHENN_WORK);
    while (d->stack[low] == PAINT)
        low++;
    d->used = (size_t)(here - (d->stack + low));
    return NULL;
}

static void stack(const char *name, const uint8_t *text, size_t length, uint32_t wanted)
{
    struct deep d = {text, length, 0, 0, 0, NULL, 0};
    pthread_attr_t with;
    pthread_t thread;
    char said[80];
    d.stack = mmap(NULL, STACK, PROT_READ | PROT_WRITE, MAP_PRIVATE | MAP_ANONYMOUS, -1, 0);
    memset(d.stack, PAINT, STACK);
    pthread_attr_init(&with);
    pthread_attr_setstack(&with, d.stack, STACK);
    check(pthread_create(&thread, &with, measured, &d) == 0, name, "not started");
    pthread_join(thread, NULL);
    munmap(d.stack, STACK);
    snprintf(said, sizeof said, "wanted %u, got %u", (unsigned)wanted, (unsigned)d.number);
    check(d.number == wanted, name, said);
    check(d.judged == VULZHENN_ACCEPTED, name, "its witness file is not accepted");
    check(d.studied == wanted, name, "its study differs");
    check(d.used <= VULZHENN_STACK, name, "more stack than the header says");
    printf("%s: %zu bytes of stack\n", name, d.used);
}

/* 128 existential unknowns, or universal and existential ones in turn, and as many clauses of this width as fit: true. */
static size_t formula(char *text, int alternate, int width)
{
    int per = 8192 / (width + 1), clauses = width == 0 ? 0 : per < 2048 ? per : 2048, length;
    for (;; clauses -= 16) {
        length = sprintf(text, "p cnf 128 %d\n", clauses);
        for (int v = 1; v <= 128; v++)
            length += sprintf(text + length, "%c %d 0\n", alternate && v % 2 == 1 ? 'a' : 'e', v);
        for (int c = 0; c < clauses; c++) {
            for (int i = 0; i < width; i++) {
                int v = 128 - (c * width + i) % (alternate ? 64 : 128) * (alternate ? 2 : 1);
                length += sprintf(text + length, "%s%d ", i == 0 ? "" : "-", v);
            }
            length += sprintf(text + length, "0\n");
        }
        if (length <= VULZHENN_TEXT)
            return (size_t)length;
    }
}

/* 128 universal unknowns and one clause that names each: false, by the row that makes all of them false. */
static size_t universal(char *text)
{
    int length = sprintf(text, "p cnf 128 1\na ");
    for (int line = 0; line < 2; line++) {
        for (int v = 1; v <= 128; v++)
            length += sprintf(text + length, "%d ", v);
        length += sprintf(text + length, "0\n");
    }
    return (size_t)length;
}

int main(int count, char **words)
{
    static char text[1 << 18];
    if (count == 2)
        listed(words[1]);

    call_text("K1", K1, VULZHENN_WORK, 1000, 1);
    call_text("K1, largest limit", K1, VULZHENN_WORK, 0xFFFFFFFFu, 1);
    call_text("K1, limit 1", K1, VULZHENN_WORK, 1, 2);
    call_text("K1, limit 0", K1, VULZHENN_WORK, 0, 106);
    call_text("K1, work area of 65,535 bytes", K1, VULZHENN_WORK - 1, 1000, 105);
    call_text("K1, work area of 65,537 bytes", K1, VULZHENN_WORK + 1, 1000, 105);
    call_text("K1, no work area", K1, 0, 1000, 105);
    call_text("K1, short work area and limit 0", K1, VULZHENN_WORK - 1, 0, 105);
    call_text("broken text", BROKEN, VULZHENN_WORK, 1000, 111);
    call_text("broken text, short work area and limit 0", BROKEN, VULZHENN_WORK - 1, 0, 111);
    call_text("broken text, limit 0", BROKEN, VULZHENN_WORK, 0, 111);
    call_text("no text", "", VULZHENN_WORK, 1000, 110);
    call("65,536 bytes", long_text(VULZHENN_TEXT), VULZHENN_TEXT, VULZHENN_WORK, 1000, 1);
    call("65,537 bytes", long_text(VULZHENN_TEXT + 1), VULZHENN_TEXT + 1, VULZHENN_WORK, 1000, 109);
    call("65,537 bytes, short work area and limit 0", long_text(VULZHENN_TEXT + 1), VULZHENN_TEXT + 1, VULZHENN_WORK - 1, 0, 109);

    study("study of K1", K1, VULZHENN_WORK, 1);
    study("study of K1, short work area", K1, VULZHENN_WORK - 1, 105);
    study("study of a broken text, short work area", BROKEN, VULZHENN_WORK - 1, 111);
    study("study of no text", "", VULZHENN_WORK, 110);
    study("study of a false formula", "p cnf 1 1\na 1 0\n1 0\n", VULZHENN_WORK, 0);

    threads();

    stack("longest text", long_text(VULZHENN_TEXT), VULZHENN_TEXT, 1);
    for (int alternate = 0; alternate < 2; alternate++)
        for (int width = 0; width <= 8; width += 2) {
            char name[80];
            snprintf(name, sizeof name, "128 %s unknowns, clauses of %d", alternate ? "alternating" : "existential", width);
            size_t length = formula(text, alternate, width);
            stack(name, (const uint8_t *)text, length, 1);
        }
    size_t length = universal(text);
    stack("128 universal unknowns", (const uint8_t *)text, length, 0);

    check(vulzhenn_version() == VULZHENN_VERSION, "version", "another number than the header's");
    printf("%d passed, %d failed\n", passed, failed);
    return failed != 0 || passed == 0;
}
