/* As many messages as the first word says, through one queue after another: the memory stays.
 * Each 1,024th entry, at which a log is drained, is a send in the first half, and a receipt in the
 * second. */
#include "check.h"
#include <sys/resource.h>

static long resident(void) {
  long pages = 0, all = 0;
  FILE *file = fopen("/proc/self/statm", "r");
  if (!file || fscanf(file, "%ld %ld", &all, &pages) != 2) return -1;
  fclose(file);
  return pages * sysconf(_SC_PAGESIZE);
}

/* Sends and receives these messages, one after the other, and returns how many
   were received whole. */
static long pass(const int *ids, long from, long to) {
  static struct message m;
  long right = 0;
  for (long i = from; i < to; i++) {
    int id = ids[i & 3];
    m.type = 1 + (i & 7);
    right += civdrax_msgsnd(id, &m, i & 127, 0) == 0 && civdrax_msgrcv(id, &m, 128, 0, 0) == (i & 127);
  }
  return right;
}

int main(int count, char **words) {
  long messages = count > 1 ? atol(words[1]) : 10000000;
  watch(600);
  int ids[4];
  for (int i = 0; i < 4; i++) ids[i] = new_queue();
  long before = resident();
  long right = pass(ids, 0, messages / 2);
  for (int i = 0; i < 4; i++) {
    struct msqid_ds ds;
    CHECK(civdrax_msgctl(ids[i], IPC_STAT, &ds) == 0);
    CHECK(civdrax_msgctl(ids[i], IPC_SET, &ds) == 0);
  }
  right += pass(ids, messages / 2, messages);
  long grown = resident() - before;
  CHECK(right == messages);
  CHECK(before > 0 && grown < (16 << 20) + (1 << 20));
  fprintf(stderr, "%ld messages: %ld KiB more\n", messages, grown >> 10);
  for (int i = 0; i < 4; i++) remove_queue(ids[i]);
  return told();
}
