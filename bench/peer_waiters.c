/* So many threads wait in one queue, each for a type of its own, and a thread sends each of them one
   empty message: `peer_waiters THREADS ROUNDS`. Prints the median of the rounds, from the first
   message until the last is received, in nanoseconds a message. Threads begin, and go back to wait,
   beside what is timed. The program that bench/face_threads.sh times crowds of waiters by. */
#define _GNU_SOURCE
#include <pthread.h>
#include <semaphore.h>
#include <stdio.h>
#include <stdlib.h>
#include <sys/ipc.h>
#include <sys/msg.h>
#include <time.h>
#include <unistd.h>

enum { THREADS_MOST = 4096, ROUNDS_MOST = 99, SMALL_STACK = 64 * 1024 };

struct message {
    long type;
    char text[1];
};

static int queue;
static long threads, rounds, left;
static sem_t all_came;

static void fail(const char *what)
{
    perror(what);
    exit(1);
}

static void *receive_own(void *type)
{
    struct message message;
    for (long round = 0; round < rounds; round++) {
        if (msgrcv(queue, &message, 0, (long)type, 0) != 0)
            fail("msgrcv");
        if (__atomic_sub_fetch(&left, 1, __ATOMIC_SEQ_CST) == 0)
            sem_post(&all_came);
    }
    return NULL;
}

static double now(void)
{
    struct timespec time;
    clock_gettime(CLOCK_MONOTONIC, &time);
    return time.tv_sec * 1e9 + time.tv_nsec;
}

static int by_size(const void *one, const void *other)
{
    double a = *(const double *)one, b = *(const double *)other;
    return (a > b) - (a < b);
}

int main(int argc, char **argv)
{
    static pthread_t made[THREADS_MOST];
    double times[ROUNDS_MOST];
    pthread_attr_t small;
    threads = argc > 1 ? strtol(argv[1], NULL, 10) : 1000;
    rounds = argc > 2 ? strtol(argv[2], NULL, 10) : 9;
    if (threads < 1 || threads > THREADS_MOST || rounds < 1 || rounds > ROUNDS_MOST) {
        fprintf(stderr, "peer_waiters: out of range\n");
        return 2;
    }
    queue = msgget(IPC_PRIVATE, 0600);
    if (queue < 0 || sem_init(&all_came, 0, 0) || pthread_attr_init(&small)
        || pthread_attr_setstacksize(&small, SMALL_STACK))
        fail("msgget");
    for (long k = 0; k < threads; k++)
        if (pthread_create(&made[k], &small, receive_own, (void *)(k + 1)))
            fail("pthread_create");
    for (long round = 0; round < rounds; round++) {
        usleep(200 * 1000); /* all wait by then */
        left = threads;
        double began = now();
        for (long type = 1; type <= threads; type++)
            if (msgsnd(queue, &(struct message){.type = type}, 0, 0))
                fail("msgsnd");
        sem_wait(&all_came);
        times[round] = (now() - began) / threads;
    }
    for (long k = 0; k < threads; k++)
        pthread_join(made[k], NULL);
    msgctl(queue, IPC_RMID, NULL);
    qsort(times, rounds, sizeof *times, by_size);
    printf("%.0f\n", times[rounds / 2]);
    return 0;
}
