/* Threads that wait: each kind of wait ends by what it waits for and by a removal, and a waiter
   blocks no other. A thread is known to wait once it is asleep, as /proc says. */
#include "check.h"
#include <sys/syscall.h>

struct job {
  int id, error;
  ssize_t result;
  long type;
  size_t size;
  int is_send;
  volatile pid_t tid;
  volatile int ended;
  pthread_t thread;
  struct message message;
};

static void *run(void *its) {
  struct job *job = its;
  job->tid = syscall(SYS_gettid);
  if (job->is_send) job->result = civdrax_msgsnd(job->id, &job->message, job->size, 0);
  else job->result = civdrax_msgrcv(job->id, &job->message, job->size, job->type, 0);
  job->error = job->result < 0 ? errno : 0;
  job->ended = 1;
  return NULL;
}

/* Starts the thread, and returns once it waits. */
static void start(struct job *job) {
  job->tid = job->ended = 0;
  CHECK(pthread_create(&job->thread, NULL, run, job) == 0);
  await_sleep(&job->tid, &job->ended);
  CHECK(!job->ended);
}

static void end(struct job *job) { CHECK(pthread_join(job->thread, NULL) == 0); }

static struct job *receiver(int id, long type) {
  struct job *job = calloc(1, sizeof *job);
  job->id = id;
  job->type = type;
  job->size = 100;
  start(job);
  return job;
}

static struct job *sender(int id, size_t size) {
  struct job *job = calloc(1, sizeof *job);
  job->id = id;
  job->is_send = 1;
  job->size = size;
  job->message.type = 7;
  start(job);
  return job;
}

static void send(int id, long type, size_t size) {
  static struct message m;
  m.type = type;
  CHECK(civdrax_msgsnd(id, &m, size, IPC_NOWAIT) == 0);
}

/* While another waits in `id`, messages go through queues of their own, beside it and elsewhere. */
static void goes_on(int id) {
  static struct message m;
  int ids[] = {new_queue_beside(id), new_queue()}, right = 0;
  for (int i = 0; i < 2000; i++) {
    m.type = i + 1;
    right += civdrax_msgsnd(ids[i % 2], &m, 10, 0) == 0;
    right += civdrax_msgrcv(ids[i % 2], &m, 10, 0, 0) == 10;
  }
  CHECK(right == 4000);
  for (int i = 0; i < 2; i++) remove_queue(ids[i]);
}

static void a_message_comes(void) {
  int id = new_queue();
  struct job *job = receiver(id, 5);
  goes_on(id);
  send(id, 4, 10);
  usleep(20000);
  CHECK(!job->ended);
  send(id, 5, 11);
  end(job);
  CHECK(job->result == 11 && job->message.type == 5);
  remove_queue(id);
  free(job);
}

static void room_comes(void) {
  static struct message m;
  int id = new_queue();
  set_quota(id, 10);
  send(id, 1, 10);
  struct job *by_receipt = sender(id, 5);
  goes_on(id);
  CHECK(civdrax_msgrcv(id, &m, 10, 0, 0) == 10);
  end(by_receipt);
  CHECK(by_receipt->result == 0);
  struct job *by_quota = sender(id, 6);
  set_quota(id, 11);
  end(by_quota);
  CHECK(by_quota->result == 0);
  remove_queue(id);
  free(by_receipt);
  free(by_quota);
}

/* An empty text is a message, and so ends the wait for one; its receipt makes room for another. */
static void empty_texts_come_and_go(void) {
  static struct message m;
  int id = new_queue();
  struct job *receives = receiver(id, 5);
  send(id, 5, 0);
  end(receives);
  CHECK(receives->result == 0 && receives->message.type == 5);
  set_quota(id, 1);
  send(id, 1, 0);
  struct job *sends = sender(id, 0);
  CHECK(civdrax_msgrcv(id, &m, 10, 0, 0) == 0);
  end(sends);
  CHECK(sends->result == 0);
  remove_queue(id);
  free(receives);
  free(sends);
}

static void pages_come(void) {
  static struct message m;
  int ids[3], other = new_queue();
  take_pages(other, ids);
  struct job *job = sender(other, 1);
  CHECK(civdrax_msgrcv(ids[0], &m, 1, 0, 0) == 1);
  end(job);
  CHECK(job->result == 0);
  struct job *by_removal = sender(other, 1000);
  remove_queue(ids[2]);
  end(by_removal);
  CHECK(by_removal->result == 0);
  for (int i = 0; i < 2; i++) remove_queue(ids[i]);
  remove_queue(other);
  free(job);
  free(by_removal);
}

static void removals_end_waits(void) {
  int ids[3], id = new_queue(), full = new_queue(), other = new_queue();
  set_quota(full, 0);
  struct job *jobs[6];
  for (int i = 0; i < 3; i++) jobs[i] = receiver(id, i - 1);
  jobs[3] = sender(full, 1);
  jobs[4] = sender(full, 100);
  goes_on(id);
  take_pages(other, ids);
  jobs[5] = sender(other, 1);
  remove_queue(id);
  remove_queue(full);
  remove_queue(other);
  for (int i = 0; i < 6; i++) {
    end(jobs[i]);
    CHECK(jobs[i]->result == -1 && jobs[i]->error == EIDRM);
    free(jobs[i]);
  }
  for (int i = 0; i < 3; i++) remove_queue(ids[i]);
}

/* A thread that is cancelled in its wait lets the others continue. */
static void a_cancelled_wait_holds_up_nobody(void) {
  int id = new_queue();
  struct job *job = receiver(id, 1);
  CHECK(pthread_cancel(job->thread) == 0);
  end(job);
  goes_on(id);
  send(id, 1, 3);
  remove_queue(id);
  free(job);
}

static void *is_cancelled_in_its_call(void *its) {
  CHECK(pthread_cancel(pthread_self()) == 0);
  REFUSED(new_queue(), ENOSYS);
  return its;
}

/* Nor does one that is cancelled in the first call, which says here that there is no such size. */
static void a_cancelled_first_call_holds_up_nobody(void) {
  pid_t pid = fork();
  if (!pid) {
    pthread_t thread;
    watch(60);
    CHECK(setenv("CIVDRAX_HEIGHT", "none", 1) == 0);
    CHECK(pthread_create(&thread, NULL, is_cancelled_in_its_call, NULL) == 0);
    CHECK(pthread_join(thread, NULL) == 0);
    REFUSED(new_queue(), ENOSYS);
    _exit(failed != 0);
  }
  int status;
  CHECK(pid > 0 && waitpid(pid, &status, 0) == pid && status == 0);
}

int main(void) {
  watch(240);
  a_cancelled_first_call_holds_up_nobody();
  a_message_comes();
  room_comes();
  empty_texts_come_and_go();
  pages_come();
  removals_end_waits();
  a_cancelled_wait_holds_up_nobody();
  return told();
}
