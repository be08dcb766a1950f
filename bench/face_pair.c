/* Times a pair of calls, msgsnd and msgrcv, by the C library and by the kernel, one thread, in
   rounds in which they take turns: `face_pair ROUNDS PAIRS`. For texts of 0 and of 1,000 bytes it
   prints the medians in nanoseconds and their ratio, and ends with 1 where one is over 0.6. */
#define _GNU_SOURCE
#include "../face/civdrax.h"
#include <stdio.h>
#include <stdlib.h>
#include <string.h>
#include <time.h>

enum { MOST_ROUNDS = 999 };

static const double wanted = 0.6;

static struct {
    long type;
    char text[1000];
} m;

static double now(void)
{
    struct timespec at;
    clock_gettime(CLOCK_MONOTONIC, &at);
    return at.tv_sec * 1e9 + at.tv_nsec;
}

static void fail(const char *what)
{
    perror(what);
    exit(2);
}

static double kernel(int id, size_t size, long pairs)
{
    double start = now();
    for (long i = 0; i < pairs; i++) {
        m.type = 1;
        if (msgsnd(id, &m, size, 0) || msgrcv(id, &m, sizeof m.text, 0, 0) != (ssize_t)size)
            fail("the kernel's pair");
    }
    return (now() - start) / pairs;
}

static double here(int id, size_t size, long pairs)
{
    double start = now();
    for (long i = 0; i < pairs; i++) {
        m.type = 1;
        if (civdrax_msgsnd(id, &m, size, 0)
            || civdrax_msgrcv(id, &m, sizeof m.text, 0, 0) != (ssize_t)size)
            fail("the library's pair");
    }
    return (now() - start) / pairs;
}

static int by_size(const void *a, const void *b)
{
    double x = *(const double *)a, y = *(const double *)b;
    return (x > y) - (x < y);
}

static double median(double *times, int count)
{
    qsort(times, count, sizeof *times, by_size);
    return times[count / 2];
}

/* Whether the ratio of the medians is on target. */
static int compared(int kernels, int ours, size_t size, int rounds, long pairs)
{
    static double theirs[MOST_ROUNDS], own[MOST_ROUNDS];
    for (int i = 0; i < rounds; i++) {
        theirs[i] = kernel(kernels, size, pairs);
        own[i] = here(ours, size, pairs);
    }
    double one = median(theirs, rounds), other = median(own, rounds);
    printf("%zu bytes: kernel %.0f ns, C library %.0f ns, ratio %.2f (wanted: at most %.2f)\n",
           size, one, other, other / one, wanted);
    return other / one <= wanted;
}

int main(int argc, char **argv)
{
    int rounds = argc > 1 ? atoi(argv[1]) : 31;
    long pairs = argc > 2 ? atol(argv[2]) : 50000;
    if (rounds < 1 || rounds > MOST_ROUNDS || pairs < 1)
        return 2;
    int kernels = msgget(IPC_PRIVATE, IPC_CREAT | 0600);
    int ours = civdrax_msgget(IPC_PRIVATE, IPC_CREAT | 0600);
    if (kernels < 0 || ours < 0)
        fail("msgget");
    int right = compared(kernels, ours, 0, rounds, pairs);
    right &= compared(kernels, ours, sizeof m.text, rounds, pairs);
    msgctl(kernels, IPC_RMID, NULL);
    return !right;
}
