/* Writes and syncs, one after the other, as an SQLite log is written: over a file that is as long from the beginning.
   For bench/signed.

       syncs FILE COUNT BYTES

   Prints how many microseconds it took. */
#include <errno.h>
#include <fcntl.h>
#include <stdio.h>
#include <stdlib.h>
#include <string.h>
#include <time.h>
#include <unistd.h>

enum { LENGTH = 4 << 20 };

static void must(int done)
{
    if (!done) {
        fprintf(stderr, "syncs: %s\n", strerror(errno));
        exit(1);
    }
}

static long long now(void)
{
    struct timespec it;
    clock_gettime(CLOCK_MONOTONIC, &it);
    return it.tv_sec * 1000000LL + it.tv_nsec / 1000;
}

int main(int words, char **word)
{
    static char text[LENGTH];
    if (words != 4)
        return 2;
    long count = atol(word[2]), size = atol(word[3]);
    int file = open(word[1], O_RDWR | O_CREAT, 0600);
    must(file >= 0 && size > 0 && size <= LENGTH);
    must(pwrite(file, text, LENGTH, 0) == LENGTH && !fsync(file));
    long long begun = now();
    for (long at = 0, it = 0; it < count; it++, at += size) {
        if (at + size > LENGTH)
            at = 0;
        must(pwrite(file, text, size, at) == size && !fdatasync(file));
    }
    printf("%lld\n", now() - begun);
    return 0;
}
