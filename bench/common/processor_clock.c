// Loaded in front of a benchmark (LD_PRELOAD), it makes the monotonic clock tell the processor time of the process,
// so that what else the machine does counts less. For programs of one thread.
#define _GNU_SOURCE
#include <sys/syscall.h>
#include <time.h>
#include <unistd.h>

int clock_gettime(clockid_t clock, struct timespec *time) {
    if (clock == CLOCK_MONOTONIC || clock == CLOCK_MONOTONIC_RAW || clock == CLOCK_BOOTTIME)
        clock = CLOCK_PROCESS_CPUTIME_ID;
    return syscall(SYS_clock_gettime, clock, time);
}
