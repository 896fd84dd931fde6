/* Loaded before the C library: a sync takes at least SYNC_MS milliseconds, as on a disk that is slower than this one. */
#define _GNU_SOURCE
#include <stdlib.h>
#include <sys/syscall.h>
#include <time.h>
#include <unistd.h>

static int slow(long call, int file)
{
    const char *wanted = getenv("SYNC_MS");
    struct timespec until;
    clock_gettime(CLOCK_MONOTONIC, &until);
    until.tv_nsec += (long)(1e6 * (wanted ? atof(wanted) : 0));
    until.tv_sec += until.tv_nsec / 1000000000;
    until.tv_nsec %= 1000000000;
    int status = (int)syscall(call, file);
    while (clock_nanosleep(CLOCK_MONOTONIC, TIMER_ABSTIME, &until, 0))
        ;
    return status;
}

int fsync(int file)
{
    return slow(SYS_fsync, file);
}

int fdatasync(int file)
{
    return slow(SYS_fdatasync, file);
}
