/* Loaded before the C library: makes writes to records (files whose name ends in .rec or .rec.new) fail, by a seed.
   PCOMMIT_SEED   the seed
   PCOMMIT_WRONG  once, after so many milliseconds at most, a write takes nothing and is refused, or takes a beginning of its bytes and the
                  next one is refused, or a sync is refused
   PCOMMIT_SYNC   one sync in so many is refused
   PCOMMIT_LOSE   after so many writes at most, all that follow are answered as if they were done, and aren't */
#define _GNU_SOURCE
#include <dlfcn.h>
#include <errno.h>
#include <stdio.h>
#include <stdlib.h>
#include <string.h>
#include <time.h>
#include <unistd.h>

enum way { NONE, REFUSED, SHORT, SYNC };

static unsigned long long state;
static long sync_in, lose_after;
static long long wrong_at;
static enum way way;
static int is_begun, is_stopped, is_lost;

static unsigned long draw(void)
{
    state = state * 6364136223846793005ULL + 1442695040888963407ULL;
    return (unsigned long)(state >> 33);
}

static long number(const char *name)
{
    const char *words = getenv(name);
    return words ? atol(words) : 0;
}

static long long now(void)
{
    struct timespec at;
    clock_gettime(CLOCK_MONOTONIC, &at);
    return at.tv_sec * 1000LL + at.tv_nsec / 1000000;
}

static void begin(void)
{
    long wrong;
    if (is_begun)
        return;
    is_begun = 1;
    state = (unsigned long long)number("PCOMMIT_SEED");
    draw();
    draw();
    wrong = number("PCOMMIT_WRONG");
    if (wrong > 0) {
        wrong_at = now() + (long long)(draw() % (unsigned long)wrong);
        way = (enum way)(1 + draw() % 3);
    }
    sync_in = number("PCOMMIT_SYNC");
    lose_after = number("PCOMMIT_LOSE");
    if (lose_after > 0)
        lose_after = 1 + (long)(draw() % (unsigned long)lose_after);
}

static int is_record(int file)
{
    char link[64], name[4096];
    ssize_t size;
    snprintf(link, sizeof link, "/proc/self/fd/%d", file);
    size = readlink(link, name, sizeof name - 1);
    if (size < 4)
        return 0;
    name[size] = 0;
    return !strcmp(name + size - 4, ".rec") || (size > 8 && !strcmp(name + size - 8, ".rec.new"));
}

/* whether it is time for what goes wrong once, in this way */
static int goes_wrong(enum way how)
{
    if (way != how || now() < wrong_at)
        return 0;
    way = NONE;
    return 1;
}

ssize_t write(int file, const void *bytes, size_t size)
{
    static ssize_t (*real)(int, const void *, size_t);
    if (!real)
        real = dlsym(RTLD_NEXT, "write");
    if (size == 0 || !is_record(file))
        return real(file, bytes, size);
    begin();
    if (is_lost || (lose_after > 0 && --lose_after == 0)) {
        is_lost = 1;
        return (ssize_t)size;
    }
    if (is_stopped || goes_wrong(REFUSED)) {
        is_stopped = 0;
        errno = EIO;
        return -1;
    }
    if (size > 1 && goes_wrong(SHORT)) {
        is_stopped = 1;
        size = 1 + draw() % (size - 1);
    }
    return real(file, bytes, size);
}

int fdatasync(int file)
{
    static int (*real)(int);
    if (!real)
        real = dlsym(RTLD_NEXT, "fdatasync");
    if (is_record(file)) {
        begin();
        if (is_lost)
            return 0;
        if (goes_wrong(SYNC) || (sync_in > 0 && draw() % (unsigned long)sync_in == 0)) {
            errno = EIO;
            return -1;
        }
    }
    return real(file);
}
