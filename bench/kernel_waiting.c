/* Sends an empty message of a type of its own to one of the kernel's System V message queues, behind
   that many empty messages of as many other types, and receives it by its type, that many times:
   `kernel_waiting WAITING PAIRS`. The program that bench/waiting.sh times a waiting list against. */
#define _GNU_SOURCE
#include <stdio.h>
#include <stdlib.h>
#include <sys/ipc.h>
#include <sys/msg.h>

struct message {
    long type;
    char text[1];
};

static int sent(int queue, long type)
{
    struct message message = { .type = type };
    return msgsnd(queue, &message, 0, IPC_NOWAIT) == 0;
}

int main(int argc, char **argv)
{
    long waiting = argc > 1 ? strtol(argv[1], NULL, 10) : 100;
    long pairs = argc > 2 ? strtol(argv[2], NULL, 10) : 10;
    int queue = msgget(IPC_PRIVATE, 0600);
    if (queue < 0) {
        perror("msgget");
        return 1;
    }
    int works = 1;
    for (long i = 1; i <= waiting && works; i++)
        works = sent(queue, i);
    long came = 0;
    for (; came < pairs && works; came++) {
        struct message received;
        works = sent(queue, waiting + 1)
                && msgrcv(queue, &received, 0, waiting + 1, IPC_NOWAIT) == 0;
    }
    if (!works)
        perror("msgsnd, msgrcv");
    msgctl(queue, IPC_RMID, NULL);
    printf("%ld messages came\n", came);
    return !works;
}
