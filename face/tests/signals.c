/* A signal whose handler runs in a wait ends it with EINTR, whatever SA_RESTART says, and nothing
   else does; nothing is sent or taken by then. A message that is sent with the signal is received
   or still there. Out of a wait a handler may jump, and in one it may call and fork. */
#include "check.h"
#include "futex.h"
#include <setjmp.h>

enum { TYPE = 5, SIZE = 3, ROUNDS = 2000 };

/* A thread that makes a call, which waits. */
struct job {
  int id, is_send, is_timed, error;
  ssize_t result;
  size_t size;
  volatile pid_t tid;
  volatile int ended;
  pthread_t thread;
};

static volatile int handled;
static __thread sigjmp_buf before;
static int id, inner;
static volatile pid_t child = -1;

struct small {
  long type;
  char text[SIZE];
};

static ssize_t call(struct job *job, struct small *m) {
  struct timespec end = in_milliseconds(200000), *its = job->is_timed ? &end : NULL;
  m->type = TYPE;
  if (job->is_send) return civdrax_timedsnd(job->id, m, job->size, 0, its);
  return civdrax_timedrcv(job->id, m, job->size, TYPE, 0, its);
}

static void *run(void *its) {
  struct job *job = its;
  struct small m = {0};
  job->tid = gettid();
  errno = 0;
  job->result = call(job, &m);
  if (child == 0) _exit(job->result != SIZE);
  job->error = errno;
  job->ended = 1;
  return NULL;
}

/* Starts the thread, and returns once it waits. */
static void start(struct job *job) {
  job->tid = job->ended = 0;
  CHECK(pthread_create(&job->thread, NULL, run, job) == 0);
  await_sleep(&job->tid, &job->ended);
  CHECK(!job->ended);
}

static void end(struct job *job) { CHECK(pthread_join(job->thread, NULL) == 0); }

static void on_signal(int number, void (*handler)(int), int flags) {
  struct sigaction action = {.sa_handler = handler, .sa_flags = flags};
  CHECK(sigaction(number, &action, NULL) == 0);
}

static void counts(int number) { (void)number, handled++; }

static void send(int to, long type, size_t size) {
  static struct message m;
  m.type = type;
  CHECK(civdrax_msgsnd(to, &m, size, IPC_NOWAIT) == 0);
}

static int messages(int of) {
  struct msqid_ds ds;
  CHECK(civdrax_msgctl(of, IPC_STAT, &ds) == 0);
  return (int)ds.msg_qnum;
}

/* A signal ends the wait of this job, after which there are as many messages as before. */
static void ends_by_a_signal(struct job job, int flags) {
  on_signal(SIGUSR1, counts, flags);
  int there = messages(job.id);
  for (job.is_timed = 0; job.is_timed < 2; job.is_timed++) {
    handled = 0;
    start(&job);
    CHECK(pthread_kill(job.thread, SIGUSR1) == 0);
    end(&job);
    CHECK(job.result == -1 && job.error == EINTR && handled == 1);
    CHECK(messages(job.id) == there);
  }
}

/* Each kind of wait: for a message, for room and for pages. */
static void a_handler_ends_each_wait(int flags) {
  int full = new_queue(), ids[3];
  send(id, TYPE + 1, SIZE);
  ends_by_a_signal((struct job){.id = id, .size = SIZE}, flags);
  set_quota(full, 10);
  send(full, 1, 10);
  ends_by_a_signal((struct job){.id = full, .is_send = 1, .size = SIZE}, flags);
  static struct message m;
  take_pages(2, ids);
  ends_by_a_signal((struct job){.id = ids[2], .is_send = 1, .size = SIZE}, flags);
  for (int i = 0; i < 3; i++) remove_queue(ids[i]);
  remove_queue(full);
  CHECK(civdrax_msgrcv(id, &m, SIZE, 0, IPC_NOWAIT) == SIZE && m.type == TYPE + 1);
}

/* Stops this process, by another, and has it continue. */
static void is_stopped(void) {
  int status;
  pid_t own = getpid(), pid = fork();
  if (!pid) {
    int wrong = kill(own, SIGSTOP);
    usleep(20000);
    _exit(kill(own, SIGCONT) || wrong);
  }
  CHECK(pid > 0 && waitpid(pid, &status, 0) == pid && status == 0);
}

/* A signal that is ignored, that another thread handles, or that stops the process, ends none. */
static void nothing_else_ends_it(void) {
  struct job job = {.id = id, .size = SIZE};
  sigset_t set;
  on_signal(SIGUSR1, SIG_IGN, 0);
  on_signal(SIGUSR2, counts, 0);
  sigemptyset(&set);
  sigaddset(&set, SIGUSR2);
  CHECK(pthread_sigmask(SIG_BLOCK, &set, NULL) == 0);
  start(&job);
  CHECK(pthread_sigmask(SIG_UNBLOCK, &set, NULL) == 0);
  handled = 0;
  CHECK(pthread_kill(job.thread, SIGUSR1) == 0);
  CHECK(pthread_kill(job.thread, SIGUSR2) == 0);
  CHECK(kill(getpid(), SIGUSR2) == 0);
  is_stopped();
  CHECK(!job.ended && handled == 1);
  send(id, TYPE, SIZE);
  end(&job);
  CHECK(job.result == SIZE);
}

static void *receives_all(void *its) {
  static struct message m;
  int got = 0;
  while (got < ROUNDS) {
    ssize_t size = civdrax_msgrcv(id, &m, SIZE, TYPE, 0);
    if (size == SIZE) got++;
    else if (errno != EINTR) check(0, "neither a message nor EINTR", __LINE__);
  }
  return its;
}

/* A message that is sent with a signal, before it or after it. */
static void a_message_is_not_lost(void) {
  pthread_t thread;
  on_signal(SIGUSR1, counts, SA_RESTART);
  CHECK(pthread_create(&thread, NULL, receives_all, NULL) == 0);
  for (int i = 0; i < ROUNDS; i++) {
    if (i & 1) pthread_kill(thread, SIGUSR1);
    send(id, TYPE, SIZE);
    if (i & 2) pthread_kill(thread, SIGUSR1);
    while (i % 256 == 0 && messages(id)) usleep(100);
  }
  CHECK(pthread_join(thread, NULL) == 0);
  CHECK(messages(id) == 0);
}

static void jumps(int number) { (void)number, siglongjmp(before, 1); }

/* Has this thread get a signal once it sleeps. */
static void *signals_once_it_sleeps(void *its) {
  static volatile int never;
  volatile pid_t tid = (pid_t)(intptr_t)its;
  await_sleep(&tid, &never);
  CHECK(tgkill(getpid(), tid, SIGUSR1) == 0);
  return NULL;
}

static pthread_t signal_comes(void) {
  pthread_t thread;
  CHECK(pthread_create(&thread, NULL, signals_once_it_sleeps, (void *)(intptr_t)gettid()) == 0);
  return thread;
}

/* After a jump out of a wait each call answers as ever, also where it waits in another queue, and a
   cancel is as late as it was. */
static void a_jump_out_of_a_wait(int other) {
  static struct message m;
  struct timespec soon;
  pthread_t thread;
  int type;
  on_signal(SIGUSR1, jumps, 0);
  for (volatile int i = 0; i < 3; i++) {
    thread = signal_comes();
    if (!sigsetjmp(before, 1)) {
      civdrax_msgrcv(id, &m, SIZE, TYPE, 0);
      CHECK(0);
    }
    CHECK(pthread_join(thread, NULL) == 0);
    soon = in_milliseconds(5);
    REFUSED(civdrax_timedrcv(other, &m, SIZE, TYPE, 0, &soon), ETIMEDOUT);
    send(id, TYPE, SIZE);
    CHECK(pthread_setcanceltype(PTHREAD_CANCEL_DEFERRED, &type) == 0);
    CHECK(type == PTHREAD_CANCEL_DEFERRED);
    CHECK(civdrax_msgrcv(id, &m, SIZE, TYPE, 0) == SIZE);
  }
  /* It waits again, and is woken. */
  struct job job = {.id = id, .is_send = 1, .size = SIZE};
  set_quota(id, 1);
  start(&job);
  set_quota(id, 100);
  CHECK(civdrax_msgrcv(id, &m, SIZE, TYPE, 0) == SIZE);
  end(&job);
  remove_queue(other);
}

static volatile int inner_result, inner_error;

/* Calls, and even waits for as long as it may, where a call waits. */
static void calls(int number) {
  static struct message m;
  struct timespec end = in_milliseconds(20);
  (void)number;
  send(inner, 7, SIZE);
  inner_result = civdrax_msgrcv(inner, &m, SIZE, 7, 0) == SIZE;
  inner_result += civdrax_timedrcv(inner, &m, SIZE, 7, 0, &end) == -1;
  inner_error = errno;
}

static void a_handler_calls_in_a_wait(int in) {
  static struct message m;
  on_signal(SIGUSR1, calls, SA_RESTART);
  inner = in;
  pthread_t thread = signal_comes();
  REFUSED(civdrax_msgrcv(id, &m, SIZE, TYPE, 0), EINTR);
  CHECK(inner_result == 2 && inner_error == ETIMEDOUT);
  CHECK(pthread_join(thread, NULL) == 0);
  remove_queue(inner);
}

static void forks(int number) { (void)number, child = fork(); }

/* In the child too the wait ends with EINTR, and its queue is a copy. */
static void a_handler_forks_in_a_wait(void) {
  static struct message m;
  int status;
  on_signal(SIGUSR1, forks, 0);
  pthread_t thread = signal_comes();
  REFUSED(civdrax_msgrcv(id, &m, SIZE, TYPE, 0), EINTR);
  if (child == 0) {
    child = -1;
    watch(60);
    struct job job = {.id = id, .size = SIZE};
    start(&job);
    send(id, TYPE, SIZE);
    end(&job);
    CHECK(job.result == SIZE);
    _exit(failed != 0);
  }
  CHECK(pthread_join(thread, NULL) == 0);
  CHECK(child > 0 && waitpid(child, &status, 0) == child && status == 0);
  CHECK(messages(id) == 0);
}

static void looks(void) {
  at_sleep = NULL;
  messages(id);
}

static void waits(void) {
  static struct message m;
  struct timespec end = in_milliseconds(5);
  at_sleep = NULL;
  REFUSED(civdrax_timedrcv(inner, &m, SIZE, 7, 0, &end), ETIMEDOUT);
}

static void forks_and_sends(void) {
  at_sleep = NULL;
  child = fork();
  if (child == 0) send(id, TYPE, SIZE);
}

/* A handler may also run just before the sleep: the wait continues, can be cancelled and ends by
   its message. */
static void a_handler_comes_before_the_sleep(void) {
  struct job job = {.id = id, .size = SIZE};
  int status;
  at_sleep = looks;
  start(&job);
  CHECK(pthread_cancel(job.thread) == 0);
  end(&job);
  at_sleep = looks;
  start(&job);
  send(id, TYPE, SIZE);
  end(&job);
  CHECK(job.result == SIZE && job.error == 0);
  inner = new_queue();
  at_sleep = waits;
  start(&job);
  send(id, TYPE, SIZE);
  end(&job);
  CHECK(job.result == SIZE);
  remove_queue(inner);
  child = -1;
  at_sleep = forks_and_sends;
  start(&job);
  CHECK(child > 0 && waitpid(child, &status, 0) == child && status == 0);
  send(id, TYPE, SIZE);
  end(&job);
  CHECK(job.result == SIZE);
}

int main(void) {
  watch(60);
  id = new_queue();
  a_handler_ends_each_wait(0);
  a_handler_ends_each_wait(SA_RESTART);
  nothing_else_ends_it();
  a_message_is_not_lost();
  a_jump_out_of_a_wait(new_queue_beside(id));
  a_jump_out_of_a_wait(new_queue());
  a_handler_calls_in_a_wait(new_queue_beside(id));
  a_handler_calls_in_a_wait(new_queue());
  a_handler_forks_in_a_wait();
  a_handler_comes_before_the_sleep();
  remove_queue(id);
  return told();
}
