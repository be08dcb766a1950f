/* A program whose waits a signal ends, by the manual's names: alarms, with SA_RESTART and without,
   and a server that serves until SIGTERM. With the argument "control" no signal is sent, and it
   waits for ever. */
#define _GNU_SOURCE
#include <errno.h>
#include <signal.h>
#include <stdio.h>
#include <stdlib.h>
#include <string.h>
#include <sys/ipc.h>
#include <sys/msg.h>
#include <sys/time.h>
#include <sys/wait.h>
#include <unistd.h>

static struct {
  long type;
  char text[100];
} m;

static volatile sig_atomic_t is_over;
static int is_control;

static void handles(int number) { is_over = number == SIGTERM; }

static void tell(const char *call, long result) {
  if (result < 0) printf("%s %s\n", call, strerrorname_np(errno));
  else printf("%s %ld\n", call, result);
}

static void on_signal(int number, int flags) {
  struct sigaction action = {.sa_handler = handles, .sa_flags = flags};
  if (sigaction(number, &action, NULL)) abort();
}

/* The alarm is repeated, lest the first is before the wait. */
static void alarms(int is_on) {
  struct itimerval its = {{0, 50000}, {0, 50000}}, none = {0};
  if (setitimer(ITIMER_REAL, is_on && !is_control ? &its : &none, NULL)) abort();
}

static void waits_end(int id, int flags) {
  on_signal(SIGALRM, flags);
  alarms(1);
  tell("receive", msgrcv(id, &m, sizeof m.text, 1, 0));
  m.type = 2;
  while (msgsnd(id, &m, sizeof m.text, IPC_NOWAIT) == 0) continue;
  tell("send", msgsnd(id, &m, sizeof m.text, 0));
  alarms(0);
  long received = 0;
  while (msgrcv(id, &m, sizeof m.text, 0, IPC_NOWAIT) >= 0) received++;
  tell("received", received > 0);
}

/* A server's loop, as many have it. Another process ends it. */
static void serves(int id) {
  pid_t own = getpid(), pid = fork();
  if (!pid) {
    while (getppid() == own && usleep(50000) == 0) kill(own, SIGTERM);
    _exit(0);
  }
  on_signal(SIGTERM, 0);
  for (m.type = 1; m.type <= 10; m.type++)
    if (msgsnd(id, &m, 10, IPC_NOWAIT)) tell("send", -1);
  long served = 0;
  while (!is_over) served += msgrcv(id, &m, sizeof m.text, 0, 0) == 10;
  tell("served", served);
  kill(pid, SIGKILL);
  waitpid(pid, NULL, 0);
}

int main(int count, char **words) {
  is_control = count > 1 && !strcmp(words[1], "control");
  int id = msgget(IPC_PRIVATE, IPC_CREAT | 0600);
  if (id < 0) return perror("no queues"), 1;
  waits_end(id, 0);
  waits_end(id, SA_RESTART);
  serves(id);
  tell("remove", msgctl(id, IPC_RMID, NULL));
  return 0;
}
