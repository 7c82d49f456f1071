/* Refuses a growth of memory in a program that this library is loaded before. The program says by the sizes of allocations
   that nothing could have when growths count, and which of them is refused. */
#define _GNU_SOURCE
#include <dlfcn.h>
#include <stdlib.h>

#define WORDS 0x5eed00000000UL

static long number, counted;
static int counts, fell;

static int is_word(size_t size) { return size >= WORDS && size < WORDS + (1UL << 32); }

/* A word is answered with a few bytes; a question whose answer is no with none. */
static int takes(size_t word) {
    if (word < 2) counts = (int)word;
    if (word == 2) return fell;
    if (word >= 16) {
        number = (long)(word - 16);
        counted = 0;
        fell = 0;
    }
    return 1;
}

static int is_refused(void) {
    if (!counts || __sync_add_and_fetch(&counted, 1) != number) return 0;
    fell = 1;
    return 1;
}

void *malloc(size_t size) {
    static void *(*real)(size_t);
    if (!real) real = (void *(*)(size_t))dlsym(RTLD_NEXT, "malloc");
    if (is_word(size)) return takes(size - WORDS) ? real(16) : NULL;
    return is_refused() ? NULL : real(size);
}

void *realloc(void *at, size_t size) {
    static void *(*real)(void *, size_t);
    if (!real) real = (void *(*)(void *, size_t))dlsym(RTLD_NEXT, "realloc");
    return is_refused() ? NULL : real(at, size);
}
