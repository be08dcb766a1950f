/* Asks the kernel for the figures of one of its System V message queues, that many times, and adds
   up the counts of messages: `kernel_stat COUNT`. The program that bench/board.sh times the reads
   of a board's reader against. */
#define _GNU_SOURCE
#include <stdio.h>
#include <stdlib.h>
#include <sys/ipc.h>
#include <sys/msg.h>

int main(int argc, char **argv)
{
    long count = argc > 1 ? strtol(argv[1], NULL, 10) : 10;
    int queue = msgget(IPC_PRIVATE, 0600);
    if (queue < 0) {
        perror("msgget");
        return 1;
    }
    unsigned long long seen = 0;
    int failed = 0;
    for (long i = 0; i < count && !failed; i++) {
        struct msqid_ds figures;
        failed = msgctl(queue, IPC_STAT, &figures) != 0;
        if (!failed)
            seen += figures.msg_qnum + 1;
    }
    if (failed)
        perror("msgctl");
    msgctl(queue, IPC_RMID, NULL);
    printf("%llu queues seen\n", seen);
    return failed;
}
