/* Four threads send and four receive, all of which wait where they have to: each message is
   received once, whole, and those of one sender in their order. */
#include "check.h"

enum { PAIRS = 4, EACH = 20000 };

static int id;
static long sums[PAIRS];

static void *sends(void *its) {
  long number = (long)its;
  struct message *m = calloc(1, sizeof *m);
  for (long i = 0; i < EACH; i++) {
    size_t size = 8 + (size_t)((i * 37 + number * 11) % 3000);
    m->type = number + 1;
    memset(m->text, (int)i, size);
    memcpy(m->text, &i, sizeof i);
    if (civdrax_msgsnd(id, m, size, 0)) check(0, "a send is refused", __LINE__);
  }
  free(m);
  return NULL;
}

static void *receives(void *its) {
  long number = (long)its;
  struct message *m = calloc(1, sizeof *m);
  for (long i = 0; i < EACH; i++) {
    long place;
    ssize_t size = civdrax_msgrcv(id, m, sizeof m->text, number + 1, 0);
    memcpy(&place, m->text, sizeof place);
    int whole = size == 8 + (i * 37 + number * 11) % 3000;
    for (ssize_t k = 8; whole && k < size; k++) whole = m->text[k] == (char)i;
    if (!whole || place != i || m->type != number + 1) check(0, "another message", __LINE__);
    sums[number] += place;
  }
  free(m);
  return NULL;
}

int main(void) {
  pthread_t threads[2 * PAIRS];
  watch(120);
  id = new_queue();
  for (long i = 0; i < PAIRS; i++) {
    CHECK(pthread_create(&threads[2 * i], NULL, receives, (void *)i) == 0);
    CHECK(pthread_create(&threads[2 * i + 1], NULL, sends, (void *)i) == 0);
  }
  for (int i = 0; i < 2 * PAIRS; i++) CHECK(pthread_join(threads[i], NULL) == 0);
  for (int i = 0; i < PAIRS; i++) CHECK(sums[i] == (long)EACH * (EACH - 1) / 2);
  struct msqid_ds ds;
  CHECK(civdrax_msgctl(id, IPC_STAT, &ds) == 0 && ds.msg_qnum == 0);
  remove_queue(id);
  return told();
}
