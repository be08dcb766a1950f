/* Random scripts of calls by the manual's names, from the first seed on as many as the second word
   says, and what each call answers. Some may wait, until a signal ends them. An id is printed as
   the place of its queue, and a time as whether there is one, so that it is the same over the
   kernel and over these queues. */
#define _GNU_SOURCE
#include <errno.h>
#include <signal.h>
#include <stdint.h>
#include <stdio.h>
#include <stdlib.h>
#include <string.h>
#include <sys/ipc.h>
#include <sys/msg.h>
#include <sys/time.h>
#include <unistd.h>

#ifndef MSG_EXCEPT
#define MSG_EXCEPT 020000
#endif

enum { QUEUES = 4, CALLS = 120 };

static uint64_t state;

static unsigned next(unsigned below) {
  state = state * 6364136223846793005u + 1442695040888963407u;
  return (unsigned)(state >> 33) % below;
}

static struct {
  long type;
  char text[9000];
} m;

static int ids[QUEUES];
static key_t first_key;

static void tell(const char *call, long result) {
  if (result < 0) printf("%s %s\n", call, strerrorname_np(errno));
  else printf("%s %ld\n", call, result);
}

/* The place of a queue, or -1. */
static long place_of(int id) {
  for (int i = 0; i < QUEUES; i++) if (ids[i] == id) return i;
  return -1;
}

static void limit(int id, unsigned long quota, unsigned mode) {
  struct msqid_ds ds;
  if (msgctl(id, IPC_STAT, &ds) < 0) {
    tell("limit", -1);
    return;
  }
  ds.msg_qbytes = quota;
  ds.msg_perm.mode = mode;
  tell("limit", msgctl(id, IPC_SET, &ds));
}

static void get(void) {
  static const int flags[] = {IPC_CREAT, IPC_CREAT | IPC_EXCL, 0, IPC_EXCL};
  int place = next(QUEUES), chosen = flags[next(4)];
  key_t key = next(5) ? first_key + place : IPC_PRIVATE;
  /* Of a queue that it finds the kernel would check these permissions. */
  int is_new = key == IPC_PRIVATE || chosen == (IPC_CREAT | IPC_EXCL);
  int id = msgget(key, chosen | 0600 | (is_new ? next(0200) : 0));
  if (id < 0) {
    tell("get", -1);
    return;
  }
  if (place_of(id) >= 0) {
    printf("get %ld\n", place_of(id));
    return;
  }
  struct msqid_ds ds;
  if (ids[place] >= 0 && msgctl(ids[place], IPC_RMID, NULL) < 0) tell("gone", -1);
  ids[place] = id;
  printf("get new %d\n", place);
  if (msgctl(id, IPC_STAT, &ds) < 0) tell("stat", -1);
  printf("mode %o key %d owner %d\n", ds.msg_perm.mode & 0777,
         ds.msg_perm.__key ? ds.msg_perm.__key - first_key : -1, ds.msg_perm.uid == geteuid());
  limit(id, 4096, 0600);
}

static void handles(int number) { (void)number; }

/* A signal is sent each millisecond to a call that may wait. */
static void signals(int is_on) {
  struct itimerval its = {{0, 1000 * is_on}, {0, 1000 * is_on}};
  if (setitimer(ITIMER_REAL, &its, NULL)) abort();
}

static int an_id(void) {
  static const int odd[] = {-1, -2147483647 - 1, 2147483647};
  return next(20) ? ids[next(QUEUES)] : odd[next(3)];
}

static void send(void) {
  static const size_t odd[] = {0, 1, 1024, 8192, 70000, (size_t)-1, (size_t)1 << 63};
  size_t size = next(8) ? next(700) : odd[next(7)];
  m.type = next(12) ? (long)next(5) + 1 : (long)next(3) - 2;
  for (size_t i = 0; i < size && i < 9000; i++) m.text[i] = (char)('a' + next(26));
  int flags = next(8) ? IPC_NOWAIT : 0;
  if (!flags) signals(1);
  tell("send", msgsnd(an_id(), next(40) ? &m : NULL, size, flags));
  if (!flags) signals(0);
}

static void receive(void) {
  static const size_t odd[] = {0, 1, 9000, (size_t)-1, (size_t)1 << 63};
  size_t size = next(8) ? next(800) : odd[next(5)];
  int flags = (next(8) ? IPC_NOWAIT : 0) | (next(3) ? 0 : MSG_NOERROR) | (next(3) ? 0 : MSG_EXCEPT);
  long type = (long)next(13) - 6;
  memset(&m, '.', sizeof m);
  if (!(flags & IPC_NOWAIT)) signals(1);
  ssize_t length = msgrcv(an_id(), &m, size, next(20) ? type : 0x7fffffffffffffff, flags);
  tell("receive", length);
  signals(0);
  if (length >= 0) printf("type %ld text %.*s|%c\n", m.type, (int)length, m.text, m.text[length]);
}

static void stat(void) {
  struct msqid_ds ds;
  memset(&ds, 0, sizeof ds);
  int result = msgctl(an_id(), IPC_STAT, next(12) ? &ds : NULL);
  tell("stat", result);
  if (result == 0)
    printf("%lu messages %lu bytes of %lu sent %d received %d by %d %d mode %o\n",
           (unsigned long)ds.msg_qnum, (unsigned long)ds.__msg_cbytes, (unsigned long)ds.msg_qbytes,
           ds.msg_stime != 0, ds.msg_rtime != 0, ds.msg_lspid == getpid(),
           ds.msg_lrpid == getpid(), ds.msg_perm.mode & 0777);
}

static void control(void) {
  static const int commands[] = {-1, 4, 5, 10, 14, 99, 255};
  struct msqid_ds ds;
  if (next(2)) tell("control", msgctl(an_id(), commands[next(7)], &ds));
  else tell("set", msgctl(an_id(), IPC_SET, NULL));
}

static void run(unsigned seed) {
  state = seed;
  printf("seed %u\n", seed);
  for (int i = 0; i < QUEUES; i++) ids[i] = -1;
  for (int i = 0; i < CALLS; i++) {
    unsigned which = next(40);
    if (which < 5) get();
    else if (which < 18) send();
    else if (which < 31) receive();
    else if (which < 35) stat();
    else if (which < 37) limit(an_id(), next(3000), 0600 | next(0200));
    else if (which < 38) tell("remove", msgctl(an_id(), IPC_RMID, NULL));
    else control();
  }
  for (int i = 0; i < QUEUES; i++) tell("end", msgctl(ids[i], IPC_RMID, NULL));
}

int main(int count, char **words) {
  unsigned seed = count > 1 ? atoi(words[1]) : 1, runs = count > 2 ? atoi(words[2]) : 1;
  struct sigaction action = {.sa_handler = handles, .sa_flags = SA_RESTART};
  if (sigaction(SIGALRM, &action, NULL)) abort();
  first_key = 0x43000000 + (getpid() & 0xffff) * 16;
  int probe = msgget(IPC_PRIVATE, IPC_CREAT | 0600);
  if (probe < 0 || msgctl(probe, IPC_RMID, NULL) < 0) {
    perror("no queues");
    return 1;
  }
  for (unsigned i = 0; i < runs; i++) run(seed + i);
  return 0;
}
