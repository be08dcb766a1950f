/* Sends a text of that many bytes to one of the kernel's System V message queues and receives it,
   that many times, and counts the bytes received: `kernel_cycle BYTES CYCLES [MOST]`, where a text
   of more than MOST bytes goes in pieces, each received before the next is sent. The program that
   bench/cycle.sh times a cycle of one thread against. */
#define _GNU_SOURCE
#include <stdio.h>
#include <stdlib.h>
#include <string.h>
#include <sys/ipc.h>
#include <sys/msg.h>

#include "kernel_text.h"

static struct text sent, received;

int main(int argc, char **argv)
{
    long size = argc > 1 ? strtol(argv[1], NULL, 10) : 16;
    long count = argc > 2 ? strtol(argv[2], NULL, 10) : 10;
    long most = argc > 3 ? strtol(argv[3], NULL, 10) : TEXT_MOST;
    if (size < 0 || size > TEXT_MOST || most < 1)
        return 2;
    int queue = msgget(IPC_PRIVATE, 0600);
    if (queue < 0) {
        perror("msgget");
        return 1;
    }
    sent.type = 1;
    memset(sent.bytes, 'x', sizeof sent.bytes);
    unsigned long long came = 0;
    int failed = 0;
    for (long i = 0; i < count && !failed; i++) {
        long left = size;
        do {
            long length = piece_of(left, most);
            failed = msgsnd(queue, &sent, length, IPC_NOWAIT) != 0
                     || msgrcv(queue, &received, TEXT_MOST, 0, IPC_NOWAIT) != length;
            if (!failed)
                came += length;
            left -= length;
        } while (left > 0 && !failed);
    }
    if (failed)
        perror("msgsnd, msgrcv");
    msgctl(queue, IPC_RMID, NULL);
    printf("%llu bytes came\n", came);
    return failed;
}
