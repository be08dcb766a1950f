/* Whose turn it is: a change wakes only the waiters that it may serve, each once, and one that does
   not take what it was woken for leaves it to the others. Sleeps and wakes are counted. */
#include "check.h"
#include "futex.h"
#include <limits.h>
#include <sys/resource.h>

enum { MANY = 1000, ROUNDS = 100, CROWD = 40 };

struct small {
  long type;
  char text[100];
};

/* A thread that receives, or sends an empty text. */
struct job {
  int id, is_send, flags, error, wait; /* in milliseconds, or 0 */
  ssize_t result;
  size_t size;
  long type, switches;
  volatile int ended;
  pthread_t thread;
};

static long own_switches(void) {
  struct rusage usage;
  getrusage(RUSAGE_THREAD, &usage);
  return usage.ru_nvcsw;
}

static void *run(void *its) {
  struct job *job = its;
  struct small m = {.type = 7};
  struct timespec at = in_milliseconds(job->wait), *end = job->wait ? &at : NULL;
  long start = own_switches();
  if (job->is_send) job->result = civdrax_timedsnd(job->id, &m, job->size, 0, end);
  else job->result = civdrax_timedrcv(job->id, &m, job->size, job->type, job->flags, end);
  job->error = job->result < 0 ? errno : 0;
  job->ended = 1;
  job->switches = own_switches() - start;
  return NULL;
}

static void begin(struct job *job) {
  pthread_attr_t its;
  job->ended = 0;
  CHECK(pthread_attr_init(&its) == 0 && pthread_attr_setstacksize(&its, 1 << 18) == 0);
  CHECK(pthread_create(&job->thread, &its, run, job) == 0);
  pthread_attr_destroy(&its);
}

/* Returns once so many more sleep than before. */
static void await_sleeps(int count) {
  while (__atomic_load_n(&sleep_count, __ATOMIC_SEQ_CST) < count) usleep(100);
}

static void start(struct job *job) {
  int count = sleep_count;
  begin(job);
  await_sleeps(count + 1);
}

static void end(struct job *job) { CHECK(pthread_join(job->thread, NULL) == 0); }

static void send(int id, long type, size_t size) {
  struct small m = {.type = type};
  CHECK(civdrax_msgsnd(id, &m, size, IPC_NOWAIT) == 0);
}

static ssize_t receive(int id, long type, int flags) {
  struct small m;
  return civdrax_msgrcv(id, &m, sizeof m.text, type, flags | IPC_NOWAIT);
}

static void end_by_removal(struct job *job) {
  remove_queue(job->id);
  end(job);
  CHECK(job->result == -1 && job->error == EIDRM);
}

/* A message wakes the waiters that would receive it, as a receipt that does not wait shows in
   another queue. */
static void a_message_wakes_by_its_type(struct job job, long type) {
  int other = new_queue();
  send(other, type, 1);
  int takes = receive(other, job.type, job.flags) == 1;
  remove_queue(other);
  job.id = new_queue();
  start(&job);
  wake_count = 0;
  send(job.id, type, 1);
  CHECK(wake_count == takes);
  if (takes) {
    end(&job);
    CHECK(job.result == 1);
    remove_queue(job.id);
  } else {
    end_by_removal(&job);
  }
}

static void each_selection(void) {
  static const long types[] = {1, 2, 3, LONG_MAX};
  static const long wanted[] = {0, 1, 2, LONG_MAX, -1, -2, -LONG_MAX, LONG_MIN};
  for (int i = 0; i < 4; i++)
    for (int k = 0; k < 16; k++) {
      int flags = k & 1 ? MSG_EXCEPT : 0;
      a_message_wakes_by_its_type((struct job){.type = wanted[k / 2], .flags = flags, .size = 1},
                                  types[i]);
    }
}

/* Makes a change that wakes so many, of whom so many then sleep again. */
#define WAKES(change, woken, again) \
  do { \
    int slept = sleep_count; \
    wake_count = 0; \
    change; \
    CHECK(wake_count == (woken)); \
    await_sleeps(slept + (again)); \
  } while (0)

/* One waits for a message and one for room in a queue, and one for pages. */
static void a_change_wakes_its_own(void) {
  int ids[3], other = new_queue(), id = new_queue_beside(other);
  struct job receiver = {.id = id, .type = 5, .size = 1}, sender = {.id = id, .is_send = 1};
  struct job pager = {.id = other, .is_send = 1, .size = 1};
  send(id, 1, 0);
  set_quota(id, 1);
  start(&receiver);
  start(&sender);
  take_pages(other, ids);
  start(&pager);
  WAKES(send(other, 5, 0), 0, 0);
  WAKES(set_quota(other, 1000), 0, 0);
  WAKES(set_quota(id, 1), 1, 1);
  WAKES(CHECK(receive(id, 1, 0) == 0), 2, 1);
  end(&sender);
  CHECK(sender.result == 0);
  WAKES(send(other, 5, 0), 0, 0);
  WAKES(CHECK(receive(ids[0], 1, 0) == 1), 1, 0);
  end(&pager);
  CHECK(pager.result == 0);
  for (int i = 0; i < 3; i++) WAKES(remove_queue(ids[i]), 0, 0);
  WAKES(remove_queue(other), 0, 0);
  CHECK(!receiver.ended);
  WAKES(end_by_removal(&receiver), 1, 0);
}

/* A receipt that takes nothing of a text frees its pages all the same. */
static void pages_come_of_a_text_cut_to_nothing(void) {
  struct small m;
  int ids[3];
  struct job pager = {.id = new_queue(), .is_send = 1, .size = 1};
  take_pages(pager.id, ids);
  start(&pager);
  CHECK(civdrax_msgrcv(ids[0], &m, 0, 0, MSG_NOERROR) == 0);
  end(&pager);
  CHECK(pager.result == 0);
  for (int i = 0; i < 3; i++) remove_queue(ids[i]);
  remove_queue(pager.id);
}

static void each_of_many_is_woken_once(void) {
  static struct job jobs[MANY];
  int id = new_queue(), slept = sleep_count, right = 0;
  long switches = 0;
  for (int i = 0; i < MANY; i++) {
    jobs[i] = (struct job){.id = id, .type = i + 1, .size = 1};
    begin(&jobs[i]);
  }
  await_sleeps(slept + MANY);
  wake_count = 0;
  for (int i = 0; i < MANY; i++) send(id, i + 1, 1);
  for (int i = 0; i < MANY; i++) {
    end(&jobs[i]);
    right += jobs[i].result == 1;
    switches += jobs[i].switches;
  }
  CHECK(right == MANY && wake_count == MANY && sleep_count == slept + MANY);
  fprintf(stderr, "%d threads were switched %ld times\n", MANY, switches);
  CHECK(switches < 10 * MANY);
  remove_queue(id);
}

static void *calls(void *its) {
  remove_queue(new_queue());
  return its;
}

/* Another thread calls meanwhile, and has its answer. */
static void another_calls(void) {
  pthread_t thread;
  at_wake = NULL;
  CHECK(pthread_create(&thread, NULL, calls, NULL) == 0 && pthread_join(thread, NULL) == 0);
}

static void the_lock_is_free_at_a_wake(void) {
  struct job job = {.id = new_queue(), .size = 1};
  start(&job);
  at_wake = another_calls;
  send(job.id, 1, 1);
  end(&job);
  CHECK(at_wake == NULL && job.result == 1);
  remove_queue(job.id);
}

/* More than are woken once the lock is free. */
static void a_crowd_is_woken(void) {
  static struct job jobs[CROWD];
  int id = new_queue(), received = 0;
  for (int i = 0; i < CROWD; i++) {
    jobs[i] = (struct job){.id = id, .size = 1};
    start(&jobs[i]);
  }
  WAKES(send(id, 3, 1), CROWD, CROWD - 1);
  WAKES(remove_queue(id), CROWD - 1, 0);
  for (int i = 0; i < CROWD; i++) {
    end(&jobs[i]);
    received += jobs[i].result == 1;
    CHECK(jobs[i].result == 1 || jobs[i].error == EIDRM);
  }
  CHECK(received == 1);
}

/* Of two that wait for a message one cannot take it, whichever waited first. */
static void a_text_too_long_for_one_is_anothers(int small_is_first) {
  int id = new_queue();
  struct job small = {.id = id, .type = 5, .size = 1}, roomy = {.id = id, .type = 5, .size = 10};
  start(small_is_first ? &small : &roomy);
  start(small_is_first ? &roomy : &small);
  send(id, 5, 10);
  end(&roomy);
  CHECK(roomy.result == 10);
  remove_queue(id);
  end(&small);
  CHECK(small.error == E2BIG || small.error == EIDRM);
}

static void cancels(struct job *job) { CHECK(pthread_cancel(job->thread) == 0); }

static void signals(struct job *job) { pthread_kill(job->thread, SIGUSR1); }

static void waits(struct job *job) { (void)job, usleep(1000); }

/* Of two that wait the first is ended otherwise, about when the message is sent, which one of them
   receives. */
static void one_of_two_receives(void (*ends)(struct job *), int wait) {
  int id = new_queue();
  for (int i = 0; i < ROUNDS; i++) {
    struct job first = {.id = id, .type = 5, .size = 1, .wait = wait}, other = first;
    other.wait = 0;
    start(&first);
    start(&other);
    if (i & 1) ends(&first);
    send(id, 5, 1);
    if (~i & 1) ends(&first);
    /* A handler that runs just before the sleep does not end it. */
    while (ends == signals && !first.ended) usleep(500), signals(&first);
    end(&first);
    if (first.result == 1) send(id, 5, 1);
    end(&other);
    CHECK(other.result == 1);
    REFUSED(receive(id, 0, 0), ENOMSG);
  }
  remove_queue(id);
}

static void handles(int signal) { (void)signal; }

int main(void) {
  struct sigaction action = {.sa_handler = handles};
  watch(60);
  CHECK(sigaction(SIGUSR1, &action, NULL) == 0);
  each_selection();
  a_change_wakes_its_own();
  pages_come_of_a_text_cut_to_nothing();
  each_of_many_is_woken_once();
  the_lock_is_free_at_a_wake();
  a_crowd_is_woken();
  a_text_too_long_for_one_is_anothers(0);
  a_text_too_long_for_one_is_anothers(1);
  one_of_two_receives(cancels, 0);
  one_of_two_receives(signals, 0);
  one_of_two_receives(waits, 1);
  return told();
}
