/* A call that timed out is retried once, and what changed before it had the lock is answered.
   Here a timed wait ends at once, and lets such a change happen. */
#include "check.h"
#include <linux/futex.h>
#include <stdarg.h>

static struct message m;
static int id, waits;
static void (*change)(void);

long syscall(long number, ...) {
  va_list words;
  va_start(words, number);
  int is_wait = (va_arg(words, uint32_t *), va_arg(words, int)) == FUTEX_WAIT_BITSET_PRIVATE;
  va_end(words);
  if (!is_wait) return 0;
  waits++;
  change();
  errno = ETIMEDOUT;
  return -1;
}

static void nothing(void) {}

static void removal(void) { remove_queue(id); }

static void send(long type) {
  static struct message its;
  its.type = type;
  CHECK(civdrax_msgsnd(id, &its, 3, IPC_NOWAIT) == 0);
}

static void message(void) { send(5); }

static void other_message(void) { send(4); }

static void room(void) { CHECK(civdrax_msgrcv(id, &m, 10, 4, IPC_NOWAIT) == 3); }

/* A receipt of type 5, and a send to a full queue, with such a change: what each answers, or the
   number by which it is refused. */
static ssize_t received(void (*it)(void)) {
  struct timespec end = in_milliseconds(0);
  change = it;
  waits = 0;
  ssize_t size = civdrax_timedrcv(id, &m, 10, 5, 0, &end);
  CHECK(waits == 1);
  return size < 0 ? -errno : size;
}

static int sent(void (*it)(void)) {
  struct timespec end = in_milliseconds(0);
  change = it;
  waits = 0;
  m.type = 5;
  int done = civdrax_timedsnd(id, &m, 1, 0, &end);
  CHECK(waits == 1);
  return done < 0 ? -errno : done;
}

static void fill(void) {
  struct msqid_ds ds;
  id = new_queue();
  send(4);
  CHECK(civdrax_msgctl(id, IPC_STAT, &ds) == 0);
  ds.msg_qbytes = 3;
  CHECK(civdrax_msgctl(id, IPC_SET, &ds) == 0);
}

int main(void) {
  watch(60);
  id = new_queue();
  CHECK(received(nothing) == -ETIMEDOUT);
  CHECK(received(other_message) == -ETIMEDOUT);
  CHECK(received(message) == 3 && m.type == 5);
  CHECK(received(removal) == -EIDRM);
  fill();
  CHECK(sent(nothing) == -ETIMEDOUT);
  CHECK(sent(room) == 0);
  remove_queue(id);
  fill();
  CHECK(sent(removal) == -EIDRM);
  return told();
}
