/* Two threads pass a text of that many bytes in round trips on two of the kernel's System V message
   queues, that many times, and the first counts the bytes received: `kernel_two BYTES CYCLES
   [MOST]`, where a text of more than MOST bytes goes in pieces. The program that bench/system.sh
   times two threads of a system against. */
#define _GNU_SOURCE
#include <pthread.h>
#include <stdio.h>
#include <stdlib.h>
#include <string.h>
#include <sys/ipc.h>
#include <sys/msg.h>

#include "kernel_text.h"

static int there, back;
static long size, count, most;

static void *answer(void *unused)
{
    (void)unused;
    static struct text came, sent;
    sent.type = 1;
    memset(sent.bytes, 'x', sizeof sent.bytes);
    for (long i = 0; i < count; i++)
        if (receive_whole(there, &came, 0, size, most) < 0 || !send_whole(back, &sent, size, most))
            return (void *)1;
    return NULL;
}

int main(int argc, char **argv)
{
    size = argc > 1 ? strtol(argv[1], NULL, 10) : 16;
    count = argc > 2 ? strtol(argv[2], NULL, 10) : 10;
    most = argc > 3 ? strtol(argv[3], NULL, 10) : TEXT_MOST;
    there = msgget(IPC_PRIVATE, 0600);
    back = msgget(IPC_PRIVATE, 0600);
    pthread_t other;
    if (size < 0 || size > TEXT_MOST || most < 1 || there < 0 || back < 0
        || pthread_create(&other, NULL, answer, NULL) != 0) {
        perror("kernel_two");
        return 1;
    }
    static struct text came, sent;
    sent.type = 1;
    memset(sent.bytes, 'x', sizeof sent.bytes);
    unsigned long long bytes = 0;
    int failed = 0;
    for (long i = 0; i < count && !failed; i++) {
        long length = send_whole(there, &sent, size, most)
                          ? receive_whole(back, &came, 0, size, most) : -1;
        failed = length < 0;
        if (!failed)
            bytes += length;
    }
    if (failed)
        perror("msgsnd, msgrcv");
    else
        pthread_join(other, NULL);
    msgctl(there, IPC_RMID, NULL);
    msgctl(back, IPC_RMID, NULL);
    printf("%llu bytes came\n", bytes);
    return failed;
}
