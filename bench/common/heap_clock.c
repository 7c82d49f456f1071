// Loaded in front of a benchmark (LD_PRELOAD), it makes the monotonic clock tell how many bytes of the heap are in use, a byte
// for a nanosecond: so a work's time is what it takes of the heap. For programs of one thread.
#define _GNU_SOURCE
#include <malloc.h>
#include <sys/syscall.h>
#include <time.h>
#include <unistd.h>

int clock_gettime(clockid_t clock, struct timespec *time) {
    if (clock != CLOCK_MONOTONIC && clock != CLOCK_MONOTONIC_RAW && clock != CLOCK_BOOTTIME)
        return syscall(SYS_clock_gettime, clock, time);
    struct mallinfo2 heap = mallinfo2();
    size_t bytes = heap.uordblks + heap.hblkhd;
    time->tv_sec = bytes / 1000000000;
    time->tv_nsec = bytes % 1000000000;
    return 0;
}
