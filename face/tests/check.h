/* What the tests share: a check that counts, and a watchdog. */
#ifndef CHECK_H
#define CHECK_H
#define _GNU_SOURCE
#include "../civdrax.h"
#include <errno.h>
#include <pthread.h>
#include <signal.h>
#include <stdint.h>
#include <stdio.h>
#include <stdlib.h>
#include <string.h>
#include <sys/wait.h>
#include <unistd.h>

#ifndef MSG_EXCEPT
#define MSG_EXCEPT 020000
#endif
#ifndef MSG_COPY
#define MSG_COPY 040000
#endif
#ifndef MSG_STAT_ANY
#define MSG_STAT_ANY 13
#endif

/* The queues are sharded into parts, each with pages of its own: an id is the number of the slot's
   queue times A_SEQ, plus the index of the slot, of which the lowest digit is the part. */
enum { PARTS = 8, A_SEQ = 64 * PARTS };

static int passed, failed;

/* One check, of any thread. */
static inline void check(int holds, const char *what, int line) {
  if (holds) __atomic_add_fetch(&passed, 1, __ATOMIC_SEQ_CST);
  else __atomic_add_fetch(&failed, 1, __ATOMIC_SEQ_CST);
  if (!holds) fprintf(stderr, "line %d: %s (errno %d)\n", line, what, errno);
}

#define CHECK(it) check(!!(it), #it, __LINE__)
/* The call is refused by this number. */
#define REFUSED(it, number) (errno = 0, check((it) == -1 && errno == (number), #it, __LINE__))

static void hangs(int signal) {
  (void)signal;
  static const char text[] = "the watchdog ended it: it hangs\n";
  if (write(2, text, sizeof text - 1) < 0) _exit(4);
  _exit(3);
}

/* Ends the program after so many seconds. */
static inline void watch(unsigned seconds) {
  signal(SIGALRM, hangs);
  alarm(seconds);
}

static inline int told(void) {
  printf("%d passed, %d failed\n", passed, failed);
  return failed != 0;
}

struct message {
  long type;
  char text[70000];
};

static inline struct timespec in_milliseconds(long count) {
  struct timespec at;
  clock_gettime(CLOCK_MONOTONIC, &at);
  at.tv_sec += count / 1000;
  at.tv_nsec += count % 1000 * 1000000;
  if (at.tv_nsec >= 1000000000) {
    at.tv_sec++;
    at.tv_nsec -= 1000000000;
  }
  return at;
}

/* Whether a thread is asleep, as /proc says. */
static inline int sleeps(pid_t tid) {
  char name[64], text[512];
  snprintf(name, sizeof name, "/proc/self/task/%d/stat", tid);
  FILE *file = fopen(name, "r");
  if (!file) return 0;
  size_t n = fread(text, 1, sizeof text - 1, file);
  fclose(file);
  text[n] = 0;
  char *state = strrchr(text, ')');
  return state && state[2] == 'S';
}

/* Returns once the thread that notes its number here has slept for a while, or has ended. */
static inline void await_sleep(volatile pid_t *tid, volatile int *ended) {
  for (int seen = 0; seen < 20 && !*ended;) {
    usleep(1000);
    seen = *tid && sleeps(*tid) ? seen + 1 : 0;
  }
}

static inline int new_queue(void) { return civdrax_msgget(IPC_PRIVATE, IPC_CREAT | 0600); }

static inline void set_quota(int id, unsigned long quota) {
  struct msqid_ds ds;
  CHECK(civdrax_msgctl(id, IPC_STAT, &ds) == 0);
  ds.msg_qbytes = quota;
  CHECK(civdrax_msgctl(id, IPC_SET, &ds) == 0);
}

static inline void remove_queue(int id) { CHECK(civdrax_msgctl(id, IPC_RMID, NULL) == 0); }

/* A queue that shares its pages with this one: a new one is made where there are the fewest. */
static inline int new_queue_beside(int id) {
  int made[64], count = 0;
  while ((made[count] = new_queue()) >= 0 && made[count] % PARTS != id % PARTS) count++;
  for (int i = 0; i < count; i++) remove_queue(made[i]);
  return made[count];
}

/* Three queues beside this one, all of whose pages are taken by as many texts. */
static inline void take_pages(int id, int ids[3]) {
  static struct message m = {.type = 1};
  int sent = 0;
  for (int i = 0; i < 3; i++) ids[i] = new_queue_beside(id);
  while (civdrax_msgsnd(ids[sent / 400], &m, 1, IPC_NOWAIT) == 0) sent++;
  CHECK(sent == 1024 && errno == ENOMEM);
}
#endif
