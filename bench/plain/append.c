/* Appends 31 bytes to a file and syncs it, over and over: `append FILE COUNT`. Prints the nanoseconds of all. */
#include <fcntl.h>
#include <stdio.h>
#include <stdlib.h>
#include <string.h>
#include <time.h>
#include <unistd.h>

int main(int argc, char **argv) {
    char frame[31];
    struct timespec begin, end;
    if (argc != 3) return 2;
    int file = open(argv[1], O_RDWR | O_APPEND | O_CREAT, 0666);
    if (file < 0) return 1;
    memset(frame, 'x', sizeof frame);
    clock_gettime(CLOCK_MONOTONIC, &begin);
    for (long left = atol(argv[2]); left > 0; left--)
        if (write(file, frame, sizeof frame) != sizeof frame || fdatasync(file) != 0) return 1;
    clock_gettime(CLOCK_MONOTONIC, &end);
    printf("%lld\n", (end.tv_sec - begin.tv_sec) * 1000000000LL + end.tv_nsec - begin.tv_nsec);
    return 0;
}
