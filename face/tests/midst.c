/* In the midst of a call, which has the lock then: a call that a signal handler makes answers
   EDEADLK, and a child that it forks continues. After a jump out of the midst each call answers, of
   whatever thread, if by an errno. The signal is that of memory that may not be touched, which the
   call is given. */
#include "check.h"
#include <setjmp.h>
#include <sys/mman.h>

enum { PAGE = 4096, SIZE = 100, OWN = 1 << 16 };

/* Two pages: a message whose type is the end of the first, and whose text is in the second. */
static char *pages;
static struct message *message;
/* `other` is of another part. */
static int id, other;
static volatile int handled;
static volatile pid_t child;
static sigjmp_buf before;

static int let(char *page, int what) { return mprotect(page, PAGE, what); }

static int let_all(void) { return mprotect(pages, 2 * PAGE, PROT_READ | PROT_WRITE); }

static int stat_of(int of) {
  struct msqid_ds ds;
  return civdrax_msgctl(of, IPC_STAT, &ds);
}

static int stat(void) { return stat_of(id); }

static int all(void) {
  struct msginfo its;
  return civdrax_msgctl(0, MSG_INFO, (struct msqid_ds *)&its);
}

static void on_fault(void (*handler)(int), int flags) {
  struct sigaction action = {.sa_handler = handler, .sa_flags = flags};
  CHECK(sigaction(SIGSEGV, &action, NULL) == 0);
}

static void calls(int number) {
  static struct message m = {.type = 3};
  struct timespec end = {0};
  (void)number;
  REFUSED(new_queue(), EDEADLK);
  REFUSED(stat(), EDEADLK);
  REFUSED(stat_of(other), EDEADLK);
  REFUSED(all(), EDEADLK);
  REFUSED(civdrax_msgsnd(id, &m, 1, 0), EDEADLK);
  REFUSED(civdrax_msgrcv(id, &m, 1, 3, 0), EDEADLK);
  REFUSED(civdrax_timedsnd(id, &m, 1, 0, &end), EDEADLK);
  REFUSED(civdrax_timedrcv(id, &m, 1, 3, 0, &end), EDEADLK);
  handled += !let_all();
}

static void forks(int number) {
  (void)number;
  child = fork();
  handled += !let_all();
}

static void jumps(int number) { (void)number, siglongjmp(before, 1); }

/* A send, in the midst of which the handler runs and lets the text be read. */
static void is_sent(void) {
  handled = 0;
  CHECK(let(pages + PAGE, PROT_NONE) == 0);
  CHECK(civdrax_msgsnd(id, message, SIZE, 0) == 0);
  CHECK(handled == 1);
  CHECK(civdrax_msgrcv(id, message, SIZE, 0, 0) == SIZE && message->type == 5);
}

/* With a stack of its own for handlers, from here on. */
static void *a_handler_calls(void *own) {
  stack_t its = {.ss_sp = own, .ss_size = OWN};
  on_fault(calls, 0);
  is_sent();
  CHECK(sigaltstack(&its, NULL) == 0);
  on_fault(calls, SA_ONSTACK);
  is_sent();
  /* Outside of the proved part too. */
  CHECK(let(pages, PROT_READ) == 0 && civdrax_msgsnd(id, message, SIZE, 0) == 0);
  on_fault(calls, 0);
  handled = 0;
  CHECK(civdrax_msgrcv(id, message, SIZE, 0, 0) == SIZE && handled == 1);
  its.ss_flags = SS_DISABLE;
  CHECK(sigaltstack(&its, NULL) == 0);
  return NULL;
}

/* Below the stacks of the proved part and for handlers lies that of a later thread, and above them
   that of the first. */
static void a_handler_calls_on_each_stack(void) {
  static char below[OWN];
  char above[OWN];
  pthread_t thread;
  a_handler_calls(below);
  CHECK(pthread_create(&thread, NULL, a_handler_calls, above) == 0);
  CHECK(pthread_join(thread, NULL) == 0);
}

static void child_ends(void) {
  int status;
  if (child == 0) _exit(failed != 0);
  CHECK(child > 0 && waitpid(child, &status, 0) == child && status == 0);
}

static void a_handler_forks(void) {
  on_fault(forks, 0);
  is_sent();
  CHECK(stat() == 0 && stat_of(other) == 0 && all() >= 0);
  child_ends();
}

static volatile int is_over;

/* What needs all locks: a fork within a call does too. */
static void *asks_of_all(void *its) {
  int right = 1;
  while (!is_over) right &= all() >= 0;
  CHECK(right);
  return its;
}

static void *is_busy(void *its) {
  static struct message m = {.type = 5};
  int right = 1;
  while (!is_over)
    right &= civdrax_msgsnd(other, &m, 1, 0) == 0 && civdrax_msgrcv(other, &m, 1, 0, 0) == 1;
  CHECK(right);
  return its;
}

static void a_handler_forks_beside_others(void) {
  pthread_t threads[2];
  is_over = 0;
  CHECK(pthread_create(&threads[0], NULL, asks_of_all, NULL) == 0);
  CHECK(pthread_create(&threads[1], NULL, is_busy, NULL) == 0);
  for (int i = 0; i < 20; i++) {
    usleep(1000);
    a_handler_forks();
  }
  is_over = 1;
  for (int i = 0; i < 2; i++) CHECK(pthread_join(threads[i], NULL) == 0);
}

static pthread_barrier_t both;
static pthread_mutex_t turn = PTHREAD_MUTEX_INITIALIZER;
static __thread char *own_page;

static void forks_with_another(int number) {
  pthread_barrier_wait(&both);
  pid_t pid = fork();
  if (pid) child = pid;
  (void)number, mprotect(own_page, PAGE, PROT_READ | PROT_WRITE);
}

/* Sends to its queue; in the midst of it a child is made, in which that is done, and the other's
   queue is there or lost. */
static void *sends_and_forks(void *its) {
  int own = *(int *)its, status;
  char *two = mmap(NULL, 2 * PAGE, PROT_READ | PROT_WRITE, MAP_PRIVATE | MAP_ANONYMOUS, -1, 0);
  long type = 5;
  memcpy(two + PAGE - sizeof type, &type, sizeof type);
  own_page = two + PAGE;
  pid_t parent = getpid();
  CHECK(let(own_page, PROT_NONE) == 0);
  CHECK(civdrax_msgsnd(own, own_page - sizeof type, SIZE, 0) == 0);
  CHECK(civdrax_msgrcv(own, own_page - sizeof type, SIZE, 0, 0) == SIZE);
  if (getpid() != parent) {
    CHECK(stat_of(own) == 0);
    if (stat_of(own == id ? other : id)) CHECK(errno == ENOTRECOVERABLE);
    _exit(failed != 0);
  }
  pthread_mutex_lock(&turn);
  CHECK(wait(&status) > 0 && status == 0);
  pthread_mutex_unlock(&turn);
  munmap(two, 2 * PAGE);
  return its;
}

/* In two parts at once: each has a lock that the other's fork needs. */
static void two_handlers_fork(void) {
  pthread_t thread;
  on_fault(forks_with_another, 0);
  CHECK(pthread_barrier_init(&both, NULL, 2) == 0);
  CHECK(pthread_create(&thread, NULL, sends_and_forks, &other) == 0);
  sends_and_forks(&id);
  CHECK(pthread_join(thread, NULL) == 0);
  CHECK(stat() == 0 && stat_of(other) == 0 && all() >= 0);
}

struct job {
  int is_send, error;
  volatile pid_t tid;
  volatile int ended;
  pthread_t thread;
};

static void *run(void *its) {
  struct job *job = its;
  static struct message m;
  m.type = 9;
  job->tid = gettid();
  int result = job->is_send ? civdrax_msgsnd(id, &m, 1, 0) : (int)civdrax_msgrcv(id, &m, 1, 8, 0);
  job->error = result < 0 ? errno : 0;
  job->ended = 1;
  return NULL;
}

static void start(struct job *job) {
  CHECK(pthread_create(&job->thread, NULL, run, job) == 0);
  await_sleep(&job->tid, &job->ended);
  CHECK(!job->ended);
}

static void end(struct job *job) { CHECK(pthread_join(job->thread, NULL) == 0); }

/* The message is taken by then, and the waiter that the jump left asleep is woken by the next
   call. */
static void a_jump_out_of_the_end_of_a_call(void) {
  struct job sender = {.is_send = 1};
  CHECK(civdrax_msgsnd(id, message, SIZE, 0) == 0);
  set_quota(id, SIZE);
  start(&sender);
  on_fault(jumps, 0);
  CHECK(let(pages, PROT_READ) == 0);
  if (!sigsetjmp(before, 1)) {
    civdrax_msgrcv(id, message, SIZE, 0, 0);
    CHECK(0);
  }
  CHECK(let_all() == 0 && stat() == 0);
  end(&sender);
  CHECK(sender.error == 0);
  CHECK(civdrax_msgrcv(id, message, SIZE, 0, 0) == 1 && message->type == 9);
}

/* What the next call answers, and then all others of that part and those of all parts, also one that
   waits. Another part's continue. */
static void a_jump_out_of_a_step(void) {
  struct job receiver = {0}, later = {0};
  start(&receiver);
  on_fault(jumps, 0);
  CHECK(let(pages + PAGE, PROT_NONE) == 0);
  if (!sigsetjmp(before, 1)) {
    civdrax_msgsnd(id, message, SIZE, 0);
    CHECK(0);
  }
  CHECK(let_all() == 0);
  REFUSED(stat(), ENOTRECOVERABLE);
  REFUSED(civdrax_msgsnd(id, message, SIZE, 0), ENOTRECOVERABLE);
  end(&receiver);
  CHECK(receiver.error == ENOTRECOVERABLE);
  CHECK(pthread_create(&later.thread, NULL, run, &later) == 0);
  end(&later);
  CHECK(later.error == ENOTRECOVERABLE);
  REFUSED(all(), ENOTRECOVERABLE);
  REFUSED(civdrax_msgget(77, IPC_CREAT), ENOTRECOVERABLE);
  remove_queue(new_queue());
  message->type = 5;
  CHECK(civdrax_msgsnd(other, message, SIZE, 0) == 0 && stat_of(other) == 0);
  CHECK(civdrax_msgrcv(other, message, SIZE, 0, 0) == SIZE && message->type == 5);
}

int main(void) {
  watch(60);
  pages = mmap(NULL, 2 * PAGE, PROT_READ | PROT_WRITE, MAP_PRIVATE | MAP_ANONYMOUS, -1, 0);
  CHECK(pages != MAP_FAILED);
  message = (struct message *)(pages + PAGE - sizeof message->type);
  message->type = 5;
  id = new_queue_beside(5);
  other = new_queue_beside(2);
  a_handler_calls_on_each_stack();
  a_handler_forks();
  a_handler_forks_beside_others();
  two_handlers_fork();
  a_jump_out_of_the_end_of_a_call();
  a_jump_out_of_a_step();
  return told();
}
