/* Four threads send and four receive as many texts as the first word says, through one queue that
   holds few, while they get 10,000 signals a second; and while as many threads as the second
   word says are cancelled a second, each of which receives beside them. Each text is received
   once. */
#include "check.h"

enum { PAIRS = 4, SIGNALS = 10000, QUOTA = 400 };

static int id;
static long texts, cancels, sent, received, sum, interrupted, handled, cancelled;
static int is_over;
static pthread_t threads[2 * PAIRS];

static void add(long *to, long number) { __atomic_add_fetch(to, number, __ATOMIC_SEQ_CST); }

static int goes_on(void) { return !__atomic_load_n(&is_over, __ATOMIC_SEQ_CST); }

static void handles(int number) { (void)number, add(&handled, 1); }

static void *sends(void *its) {
  struct message *m = calloc(1, sizeof *m);
  for (long i; (i = __atomic_fetch_add(&sent, 1, __ATOMIC_SEQ_CST)) < texts;) {
    size_t size = sizeof i + (size_t)(i % 60);
    m->type = i % 7 + 1;
    memcpy(m->text, &i, sizeof i);
    while (civdrax_msgsnd(id, m, size, 0)) {
      if (errno != EINTR) check(0, "a send is refused", __LINE__), abort();
      add(&interrupted, 1);
    }
  }
  free(m);
  return its;
}

/* Until the queue is removed, or it is cancelled: what it has received is counted by then. */
static void *receives(void *its) {
  struct {
    long type;
    char text[100];
  } m;
  for (;;) {
    long i;
    ssize_t size = civdrax_msgrcv(id, &m, sizeof m.text, 0, 0);
    if (size >= 0) {
      memcpy(&i, m.text, sizeof i);
      if (size != 8 + i % 60 || m.type != i % 7 + 1) check(0, "another text", __LINE__);
      add(&sum, i);
      add(&received, 1);
    } else if (errno == EINTR) {
      add(&interrupted, 1);
    } else {
      return its;
    }
  }
}

static void *signals(void *its) {
  unsigned seed = 1;
  for (long due = 0; goes_on(); usleep(1000))
    for (due += SIGNALS / 1000 + 2; due > 0; due--)
      pthread_kill(threads[rand_r(&seed) % (2 * PAIRS)], SIGUSR1);
  return its;
}

static void *is_cancelled(void *its) {
  while (goes_on()) {
    pthread_t thread;
    void *result;
    if (pthread_create(&thread, NULL, receives, NULL)) abort();
    usleep(1000000 / cancels);
    pthread_cancel(thread);
    if (pthread_join(thread, &result)) abort();
    add(&cancelled, result == PTHREAD_CANCELED);
  }
  return its;
}

int main(int count, char **words) {
  pthread_t others[2];
  struct sigaction action = {.sa_handler = handles, .sa_flags = SA_RESTART};
  texts = count > 1 ? atol(words[1]) : 1000000;
  cancels = count > 2 ? atol(words[2]) : 0;
  watch(240);
  CHECK(sigaction(SIGUSR1, &action, NULL) == 0);
  id = new_queue();
  set_quota(id, QUOTA);
  for (int i = 0; i < 2 * PAIRS; i++)
    CHECK(pthread_create(&threads[i], NULL, i < PAIRS ? sends : receives, NULL) == 0);
  CHECK(pthread_create(&others[0], NULL, signals, NULL) == 0);
  if (cancels) CHECK(pthread_create(&others[1], NULL, is_cancelled, NULL) == 0);
  while (__atomic_load_n(&received, __ATOMIC_SEQ_CST) < texts) usleep(1000);
  __atomic_store_n(&is_over, 1, __ATOMIC_SEQ_CST);
  for (int i = 0; i < 1 + !!cancels; i++) CHECK(pthread_join(others[i], NULL) == 0);
  remove_queue(id);
  for (int i = 0; i < 2 * PAIRS; i++) CHECK(pthread_join(threads[i], NULL) == 0);
  CHECK(received == texts && sum == texts * (texts - 1) / 2);
  CHECK(handled > 0 && interrupted > 0 && (cancelled > 0 || !cancels));
  fprintf(stderr, "%ld signals, %ld waits ended by them, %ld threads cancelled\n", handled,
          interrupted, cancelled);
  return told();
}
