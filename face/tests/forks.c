/* A child has a copy of the queues of its own, also where threads of its parent wait, make calls
   without a pause, or make the first. */
#include "check.h"
#include <semaphore.h>

enum { WAITED_FOR = 9, SIZE = 8 };

static struct message m;
static sem_t fork_begins, call_begins;
static volatile int is_over;

/* The first call reads its size, has the lock then, and is slow here. */
char *secure_getenv(const char *name) {
  sem_post(&call_begins);
  usleep(100000);
  return getenv(name);
}

/* The first fork begins before the first call, and continues within it. */
static void let_it_begin(void) {
  static int is_later;
  if (is_later++) return;
  sem_post(&fork_begins);
  sem_wait(&call_begins);
}

static void *makes_the_first_call(void *its) {
  sem_wait(&fork_begins);
  remove_queue(new_queue());
  return its;
}

static void *waits(void *id) {
  static struct message its;
  CHECK(civdrax_msgrcv(*(int *)id, &its, 10, WAITED_FOR, 0) == 4);
  return NULL;
}

/* Sends and receives numbers without a pause. */
static void *is_busy(void *id) {
  static __thread struct message its;
  int queue = *(int *)id, right = 1;
  for (long i = 1; right && !is_over; i++) {
    its.type = i;
    memcpy(its.text, &i, SIZE);
    right = civdrax_msgsnd(queue, &its, SIZE, 0) == 0
            && civdrax_msgrcv(queue, &its, SIZE, 0, 0) == SIZE && its.type == i;
  }
  CHECK(right);
  return NULL;
}

/* In a child, two waits one after the other where a thread of its parent waits: each is ended. */
static void wakes_twice(int waited_in) {
  for (int i = 0; i < 2; i++) {
    pthread_t thread;
    CHECK(pthread_create(&thread, NULL, waits, &waited_in) == 0);
    usleep(20000);
    m.type = WAITED_FOR;
    CHECK(civdrax_msgsnd(waited_in, &m, 4, 0) == 0);
    CHECK(pthread_join(thread, NULL) == 0);
  }
}

/* In a child: the queue has what its parent's thread had sent, whole, and takes more. */
static void is_whole(int id) {
  static struct message its;
  ssize_t size = civdrax_msgrcv(id, &its, SIZE, 0, IPC_NOWAIT);
  CHECK(size == SIZE ? !memcmp(its.text, &its.type, SIZE) : size == -1 && errno == ENOMSG);
  REFUSED(civdrax_msgrcv(id, &its, SIZE, 0, IPC_NOWAIT), ENOMSG);
  its.type = WAITED_FOR;
  CHECK(civdrax_msgsnd(id, &its, SIZE, 0) == 0);
  CHECK(civdrax_msgrcv(id, &its, SIZE, 0, 0) == SIZE && its.type == WAITED_FOR);
}

/* The child receives the messages pending at the fork, and what it sends stays its own. */
static void has_its_own(int id, int waited_in) {
  CHECK(civdrax_msgrcv(id, &m, 10, 0, IPC_NOWAIT) == 3 && !memcmp(m.text, "abc", 3));
  REFUSED(civdrax_msgrcv(id, &m, 10, 0, IPC_NOWAIT), ENOMSG);
  m.type = WAITED_FOR;
  for (int i = 0; i < 5; i++) CHECK(civdrax_msgsnd(waited_in, &m, 4, 0) == 0);
  for (int i = 0; i < 5; i++) CHECK(civdrax_msgrcv(waited_in, &m, 4, WAITED_FOR, 0) == 4);
  struct msqid_ds ds;
  CHECK(civdrax_msgctl(waited_in, IPC_STAT, &ds) == 0 && ds.msg_lspid == getpid());
  int other = new_queue();
  CHECK(other >= 0);
  pthread_t thread;
  CHECK(pthread_create(&thread, NULL, waits, &other) == 0);
  usleep(20000);
  CHECK(civdrax_msgsnd(other, &m, 4, 0) == 0);
  CHECK(pthread_join(thread, NULL) == 0);
  remove_queue(id);
}

/* Forks, and returns 1 in the child, which ends by `end_child`. */
static int is_child(void) {
  pid_t pid = fork();
  int status;
  if (pid) CHECK(pid > 0 && waitpid(pid, &status, 0) == pid && status == 0);
  else failed = passed = 0, watch(60);
  return !pid;
}

static void end_child(void) { _exit(failed != 0); }

static void forks_beside_the_first_call(void) {
  pthread_t thread;
  CHECK(sem_init(&fork_begins, 0, 0) == 0 && sem_init(&call_begins, 0, 0) == 0);
  CHECK(pthread_atfork(let_it_begin, NULL, NULL) == 0);
  CHECK(pthread_create(&thread, NULL, makes_the_first_call, NULL) == 0);
  if (is_child()) {
    remove_queue(new_queue());
    end_child();
  }
  CHECK(pthread_join(thread, NULL) == 0);
}

/* Each thread is busy in a queue of another part. */
static void forks_beside_calls(int count) {
  int ids[PARTS];
  pthread_t threads[PARTS];
  is_over = 0;
  for (int i = 0; i < count; i++) {
    ids[i] = new_queue();
    CHECK(pthread_create(&threads[i], NULL, is_busy, &ids[i]) == 0);
  }
  for (int i = 0; i < 60 / count && !failed; i++)
    if (is_child()) {
      for (int k = 0; k < count; k++) is_whole(ids[k]);
      end_child();
    }
  is_over = 1;
  for (int i = 0; i < count; i++) CHECK(pthread_join(threads[i], NULL) == 0);
  for (int i = 0; i < count; i++) remove_queue(ids[i]);
}

static int last_sender(int id) {
  struct msqid_ds ds;
  CHECK(civdrax_msgctl(id, IPC_STAT, &ds) == 0);
  return ds.msg_lspid;
}

static int last_receiver(int id) {
  struct msqid_ds ds;
  CHECK(civdrax_msgctl(id, IPC_STAT, &ds) == 0);
  return ds.msg_lrpid;
}

/* In a child: a refused call is not that of the last sender or receiver. */
static void is_told_once_served(int id) {
  set_quota(id, 3);
  REFUSED(civdrax_msgsnd(id, &m, 3, IPC_NOWAIT), EAGAIN);
  CHECK(last_sender(id) == getppid());
  REFUSED(civdrax_msgrcv(id, &m, 1, 0, IPC_NOWAIT), E2BIG);
  CHECK(last_receiver(id) == getppid());
  CHECK(civdrax_msgrcv(id, &m, 3, 0, IPC_NOWAIT) == 3 && last_receiver(id) == getpid());
  CHECK(last_sender(id) == getppid());
  CHECK(civdrax_msgsnd(id, &m, 3, IPC_NOWAIT) == 0 && last_sender(id) == getpid());
}

static void forks_after_calls(void) {
  int id = new_queue();
  m.type = 1;
  for (int i = 0; i < 2; i++) CHECK(civdrax_msgsnd(id, &m, 3, 0) == 0);
  CHECK(civdrax_msgrcv(id, &m, 3, 0, 0) == 3);
  if (is_child()) {
    is_told_once_served(id);
    end_child();
  }
  CHECK(last_sender(id) == getpid() && last_receiver(id) == getpid());
  remove_queue(id);
}

static void forks_beside_a_wait(void) {
  int id = new_queue(), waited_in = new_queue();
  m.type = 1;
  memcpy(m.text, "abc", 3);
  CHECK(civdrax_msgsnd(id, &m, 3, 0) == 0);
  pthread_t thread;
  CHECK(pthread_create(&thread, NULL, waits, &waited_in) == 0);
  usleep(50000);
  for (int i = 0; i < 20; i++)
    if (is_child()) {
      wakes_twice(waited_in);
      has_its_own(id, waited_in);
      end_child();
    }
  m.type = WAITED_FOR;
  CHECK(civdrax_msgsnd(waited_in, &m, 4, 0) == 0);
  CHECK(pthread_join(thread, NULL) == 0);
  CHECK(civdrax_msgrcv(id, &m, 10, 0, IPC_NOWAIT) == 3 && !memcmp(m.text, "abc", 3));
  struct msqid_ds ds;
  CHECK(civdrax_msgctl(id, IPC_STAT, &ds) == 0 && ds.msg_qnum == 0);
}

int main(void) {
  watch(240);
  forks_beside_the_first_call();
  forks_beside_calls(1);
  forks_beside_calls(5);
  forks_after_calls();
  forks_beside_a_wait();
  return told();
}
