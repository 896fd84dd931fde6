/* Loaded before the C library: the time of day of a process is off by as many seconds as the file PCOMMIT_CLOCK says, which is read anew
 * each time. */
#define _GNU_SOURCE
#include <dlfcn.h>
#include <fcntl.h>
#include <stdlib.h>
#include <time.h>
#include <unistd.h>

static long shift(void)
{
    char text[32];
    const char *file = getenv("PCOMMIT_CLOCK");
    int at = file ? open(file, O_RDONLY | O_CLOEXEC) : -1;
    if (at < 0)
        return 0;
    ssize_t came = read(at, text, sizeof text - 1);
    close(at);
    text[came > 0 ? came : 0] = 0;
    return strtol(text, 0, 10);
}

int clock_gettime(clockid_t clock, struct timespec *at)
{
    static int (*real)(clockid_t, struct timespec *);
    if (!real)
        real = (int (*)(clockid_t, struct timespec *))dlsym(RTLD_NEXT, "clock_gettime");
    int answer = real(clock, at);
    if (!answer && clock == CLOCK_REALTIME)
        at->tv_sec += shift();
    return answer;
}
