/* No wake where no thread waits: a thread that was served, was cancelled, ran out of time, was
   ended by a signal, or left its wait by siglongjmp and ended, is in no list any more, and a child
   wakes no thread of its parent. */
#include "check.h"
#include "futex.h"
#include <setjmp.h>

static int id;
static volatile pid_t tid;
static volatile int ended;
static __thread sigjmp_buf before;

static void *waits(void *its) {
  static struct message m;
  tid = gettid();
  CHECK(civdrax_msgrcv(id, &m, 10, 5, 0) == 3);
  ended = 1;
  return its;
}

static void *is_ended(void *its) {
  static struct message m;
  tid = gettid();
  REFUSED(civdrax_msgrcv(id, &m, 10, 5, 0), EINTR);
  return its;
}

static void *leaves(void *its) {
  static struct message m;
  if (sigsetjmp(before, 1)) return its;
  tid = gettid();
  civdrax_msgrcv(id, &m, 10, 5, 0);
  CHECK(0);
  return its;
}

/* Starts a thread, which waits for a message of type 5. */
static pthread_t waiter(void *(*run)(void *)) {
  pthread_t thread;
  tid = ended = 0;
  CHECK(pthread_create(&thread, NULL, run, NULL) == 0);
  await_sleep(&tid, &ended);
  CHECK(!ended);
  return thread;
}

static void end(pthread_t thread) { CHECK(pthread_join(thread, NULL) == 0); }

static void send(long type) {
  static struct message m;
  m.type = type;
  CHECK(civdrax_msgsnd(id, &m, 3, IPC_NOWAIT) == 0);
}

/* How many wakes there are of a message that is sent and received. */
static int wakes_of_a_message(void) {
  static struct message m;
  wake_count = 0;
  send(5);
  CHECK(civdrax_msgrcv(id, &m, 10, 5, IPC_NOWAIT) == 3);
  return wake_count;
}

static void serve(pthread_t thread) {
  wake_count = 0;
  send(5);
  CHECK(wake_count == 1);
  end(thread);
}

static void does_nothing(int signal) { (void)signal; }

static void jumps(int signal) { (void)signal, siglongjmp(before, 1); }

static void signal_ends_it(void *(*run)(void *), void (*handler)(int)) {
  struct sigaction action = {.sa_handler = handler};
  CHECK(sigaction(SIGUSR1, &action, NULL) == 0);
  pthread_t thread = waiter(run);
  CHECK(pthread_kill(thread, SIGUSR1) == 0);
  end(thread);
}

int main(void) {
  static struct message m;
  watch(60);
  id = new_queue();
  CHECK(wakes_of_a_message() == 0);
  serve(waiter(waits));
  CHECK(wakes_of_a_message() == 0);

  pthread_t thread = waiter(waits);
  CHECK(pthread_cancel(thread) == 0);
  end(thread);
  CHECK(wakes_of_a_message() == 0);

  struct timespec late = in_milliseconds(20);
  REFUSED(civdrax_timedrcv(id, &m, 10, 5, 0, &late), ETIMEDOUT);
  CHECK(wakes_of_a_message() == 0);

  signal_ends_it(is_ended, does_nothing);
  CHECK(wakes_of_a_message() == 0);
  /* The next thread has its record where that of the one that ended was. */
  signal_ends_it(leaves, jumps);
  serve(waiter(waits));
  CHECK(wakes_of_a_message() == 0);

  thread = waiter(waits);
  pid_t pid = fork();
  if (!pid) _exit(wakes_of_a_message() != 0 || failed);
  int status;
  CHECK(pid > 0 && waitpid(pid, &status, 0) == pid && status == 0);
  serve(thread);
  remove_queue(id);
  return told();
}
