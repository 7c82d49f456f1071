// Loaded in front of a benchmark (LD_PRELOAD), it times the write and the sync of each batch, and what the program itself takes
// from one sync to the next besides; when the program ends it tells the medians of the last 2,000 batches, in nanoseconds. For
// programs of one thread that make one write and one data sync a batch.
#define _GNU_SOURCE
#include <dlfcn.h>
#include <stdio.h>
#include <stdlib.h>
#include <sys/types.h>
#include <time.h>
#include <unistd.h>

#define BATCHES 2000

static long spent[3][BATCHES], batches, before, written, synced, in_write;

static long now(void) {
    struct timespec time;
    clock_gettime(CLOCK_MONOTONIC, &time);
    return time.tv_sec * 1000000000L + time.tv_nsec;
}

static void note_write(long start) {
    written = now();
    before = start - synced;
    in_write = written - start;
}

ssize_t pwrite64(int file, const void *bytes, size_t len, off_t at) {
    static ssize_t (*real)(int, const void *, size_t, off_t);
    if (!real) real = (ssize_t (*)(int, const void *, size_t, off_t))dlsym(RTLD_NEXT, "pwrite64");
    long start = now();
    ssize_t count = real(file, bytes, len, at);
    note_write(start);
    return count;
}

ssize_t pwrite(int file, const void *bytes, size_t len, off_t at) { return pwrite64(file, bytes, len, at); }

int fdatasync(int file) {
    static int (*real)(int);
    if (!real) real = (int (*)(int))dlsym(RTLD_NEXT, "fdatasync");
    long start = now();
    int status = real(file);
    synced = now();
    if (in_write) {
        spent[0][batches % BATCHES] = in_write;
        spent[1][batches % BATCHES] = synced - start;
        spent[2][batches % BATCHES] = before + (start - written);
        batches++;
    }
    in_write = 0;
    return status;
}

static int by_size(const void *one, const void *other) {
    return (*(const long *)one > *(const long *)other) - (*(const long *)one < *(const long *)other);
}

__attribute__((destructor)) static void tell(void) {
    if (batches < BATCHES) return;
    for (int part = 0; part < 3; part++) qsort(spent[part], BATCHES, sizeof(long), by_size);
    fprintf(stderr, "%ld %ld %ld\n", spent[0][BATCHES / 2], spent[1][BATCHES / 2], spent[2][BATCHES / 2]);
}

// (Rattle's programs end by it, without destructors)
void _exit(int status) {
    tell();
    void (*real)(int) = (void (*)(int))dlsym(RTLD_NEXT, "_exit");
    real(status);
    __builtin_unreachable();
}
