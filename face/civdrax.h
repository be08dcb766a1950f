/* System V message queues for the threads of one process, by the calls of the manual (msgget(2),
   msgop(2), msgctl(2)). Each returns what its namesake does: on error -1, with errno set. */
#ifndef CIVDRAX_H
#define CIVDRAX_H

#include <stddef.h>
#include <stdio.h>
#include <sys/ipc.h>
#include <sys/msg.h>
#include <sys/types.h>
#include <time.h>

#define CIVDRAX_VERSION "0.1.0"
struct timespec; /* which strict C89 and C99 hide, and then know in a list of parameters alone */

#ifdef __cplusplus
extern "C" {
#endif

/* The environment gives the size, which is read at the first call: CIVDRAX_SLOTS, 1 to 64, for as
   many queues (64), and CIVDRAX_HEIGHT, 0 to 10, for 2 ^ height pages of 1,024 bytes (10), which
   those queues share whose ids are the same modulo 8. With another value each call fails with
   ENOSYS, and a line on standard error says so.

   A call fails with EINTR where a signal handler ran while it waited, whatever SA_RESTART says.
   Such a handler may make calls, fork, and leave the wait by siglongjmp. One that runs while its
   thread is in a call that does not wait gets EDEADLK from each call. It should not leave by
   siglongjmp: its thread's next call may then fail with EDEADLK, or that and each later one on
   those queues, and those of all, ENOTRECOVERABLE. A thread may be cancelled while it waits. */
int civdrax_msgget(key_t key, int msgflg);
int civdrax_msgsnd(int msqid, const void *msgp, size_t msgsz, int msgflg);
ssize_t civdrax_msgrcv(int msqid, void *msgp, size_t msgsz, long msgtyp, int msgflg);
int civdrax_msgctl(int msqid, int cmd, struct msqid_ds *buf);

/* As msgsnd and msgrcv, with a deadline of CLOCK_MONOTONIC, after which they fail: ETIMEDOUT. */
int civdrax_timedsnd(int msqid, const void *msgp, size_t msgsz, int msgflg,
                     const struct timespec *end);
ssize_t civdrax_timedrcv(int msqid, void *msgp, size_t msgsz, long msgtyp, int msgflg,
                         const struct timespec *end);

/* Prints the table of this process's queues, as `ipcs -q` does that of the kernel's: 0, or -1. */
int civdrax_print(FILE *to);

#ifdef __cplusplus
}
#endif
#endif
