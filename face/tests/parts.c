/* The queues are sharded into parts: what several of them hold is reported as of one. */
#include "check.h"

enum { SLOTS = 64, GETTERS = 4, KEYS = 200 };

static struct message m;
static int ids[SLOTS];

static void send(int id, size_t size) {
  m.type = 1;
  CHECK(civdrax_msgsnd(id, &m, size, IPC_NOWAIT) == 0);
}

static struct msginfo info(int cmd, int greatest) {
  struct msginfo all;
  memset(&all, '-', sizeof all);
  CHECK(civdrax_msgctl(0, cmd, (struct msqid_ds *)&all) == greatest);
  return all;
}

/* So many queues and no more, each with an index of its own below that; MSG_STAT shows each. */
static void fill(int count) {
  struct msqid_ds ds;
  int seen[SLOTS] = {0};
  for (int i = 0; i < count; i++) {
    CHECK((ids[i] = new_queue()) >= 0);
    int index = ids[i] % A_SEQ;
    CHECK(index < count && !seen[index]++);
    set_quota(ids[i], 1000 + i);
    CHECK(civdrax_msgctl(index, MSG_STAT, &ds) == ids[i] && ds.msg_qbytes == 1000ul + i);
  }
  REFUSED(new_queue(), ENOSPC);
  REFUSED(civdrax_msgget(5, IPC_CREAT), ENOSPC);
  REFUSED(civdrax_msgget(5, 0), ENOENT);
  for (int i = count; i < 2 * SLOTS; i++) REFUSED(civdrax_msgctl(i, MSG_STAT, &ds), EINVAL);
}

/* Each in turn is removed, is none any more, and is made again with its index. */
static void each_comes_again(int count) {
  struct msqid_ds ds;
  for (int i = 0; i < count; i++) {
    remove_queue(ids[i]);
    REFUSED(civdrax_msgctl(ids[i], IPC_STAT, &ds), EINVAL);
    REFUSED(civdrax_msgctl(ids[i] % A_SEQ, MSG_STAT, &ds), EINVAL);
    int next = civdrax_msgget(i + 1, IPC_CREAT | IPC_EXCL);
    CHECK(next == ids[i] + A_SEQ);
    CHECK(civdrax_msgctl(next, IPC_STAT, &ds) == 0);
    CHECK(ds.msg_perm.__key == i + 1 && ds.msg_perm.__seq == 1);
    ids[i] = next;
  }
}

/* A key's queue is found in whatever part it is. */
static void keys_are_found(int count) {
  for (int i = 0; i < count; i++) {
    CHECK(civdrax_msgget(i + 1, 0) == ids[i]);
    CHECK(civdrax_msgget(i + 1, IPC_CREAT) == ids[i]);
    CHECK(civdrax_msgget(i + 1, IPC_EXCL) == ids[i]);
    REFUSED(civdrax_msgget(i + 1, IPC_CREAT | IPC_EXCL), EEXIST);
  }
}

static void messages_are_added_up(int count) {
  int bytes = 0;
  for (int i = 0; i < count; i++) {
    send(ids[i], i);
    send(ids[i], 1);
    bytes += i + 1;
  }
  struct msginfo all = info(MSG_INFO, count - 1);
  CHECK(all.msgpool == count && all.msgmap == 2 * count && all.msgtql == bytes);
  for (int i = 0; i < count; i++) CHECK(civdrax_msgrcv(ids[i], &m, SLOTS, 0, IPC_NOWAIT) == i);
  all = info(MSG_INFO, count - 1);
  CHECK(all.msgpool == count && all.msgmap == count && all.msgtql == count);
}

/* The greatest index of those that are left. */
static void indexes_fall(int count) {
  for (int left = count; left > 0; left--) {
    info(IPC_INFO, left - 1);
    for (int i = 0; i < count; i++)
      if (ids[i] % A_SEQ == left - 1) remove_queue(ids[i]);
  }
  CHECK(info(MSG_INFO, 0).msgpool == 0);
}

/* In a child, which has another number of slots: each of the first eight has pages of its own. */
static void has_slots(int count) {
  char number[8];
  struct msqid_ds ds;
  snprintf(number, sizeof number, "%d", count);
  CHECK(setenv("CIVDRAX_SLOTS", number, 1) == 0);
  struct msginfo all = info(IPC_INFO, 0);
  int pages = 1024 * (count < PARTS ? count : PARTS);
  CHECK(all.msgmax == 65536 && all.msgmnb == 131072 && all.msgmni == count && all.msgssz == 1024);
  CHECK(all.msgseg == pages && all.msgpool == pages);
  fill(count);
  /* Parts without slots have no queues. */
  for (int id = 0; id < PARTS; id++)
    if (id >= count) REFUSED(civdrax_msgctl(id, IPC_STAT, &ds), EINVAL);
  all = info(IPC_INFO, count - 1);
  CHECK(all.msgmni == count && all.msgseg == pages && all.msgpool == pages);
  each_comes_again(count);
  keys_are_found(count);
  messages_are_added_up(count);
  indexes_fall(count);
}

static void in_a_child(int slots) {
  pid_t pid = fork();
  int status;
  if (!pid) {
    watch(60);
    has_slots(slots);
    _exit(failed != 0);
  }
  CHECK(pid > 0 && waitpid(pid, &status, 0) == pid && status == 0);
}

/* The queues are spread evenly, also after removals; another part's pages are not allocated. */
static void each_has_its_part(void) {
  int all[PARTS], full[3], in_part[PARTS] = {0};
  for (int i = 0; i < PARTS; i++) in_part[(all[i] = new_queue()) % PARTS]++;
  for (int i = 0; i < PARTS; i++) CHECK(in_part[i] == 1);
  remove_queue(all[5]);
  CHECK((all[5] = new_queue()) % PARTS == 5);
  take_pages(all[3], full);
  for (int i = 0; i < PARTS; i++) {
    m.type = 1;
    if (i == 3) REFUSED(civdrax_msgsnd(all[i], &m, 1, IPC_NOWAIT), ENOMEM);
    else send(all[i], 1);
  }
  for (int i = 0; i < 3; i++) remove_queue(full[i]);
  for (int i = 0; i < PARTS; i++) remove_queue(all[i]);
}

static int got[GETTERS][KEYS], is_new[GETTERS][KEYS];

static void *gets(void *its) {
  long number = (long)its;
  for (int i = 0; i < KEYS; i++) {
    int key = 1000 + i % 40, id = civdrax_msgget(key, IPC_CREAT | IPC_EXCL);
    is_new[number][i] = id >= 0;
    if (id < 0 && errno != EEXIST) check(0, "neither made nor there", __LINE__);
    got[number][i] = civdrax_msgget(key, 0);
  }
  return its;
}

/* A key has one queue, however many make it at once. */
static void a_key_has_one_queue(void) {
  pthread_t threads[GETTERS];
  for (long i = 0; i < GETTERS; i++)
    CHECK(pthread_create(&threads[i], NULL, gets, (void *)i) == 0);
  for (int i = 0; i < GETTERS; i++) CHECK(pthread_join(threads[i], NULL) == 0);
  for (int i = 0; i < KEYS; i++) {
    int made = 0;
    for (int k = 0; k < GETTERS; k++) {
      made += is_new[k][i];
      CHECK(got[k][i] >= 0 && got[k][i] == got[0][i]);
    }
    CHECK(made == (i < 40));
  }
  for (int i = 0; i < 40; i++) remove_queue(got[0][i]);
}

static volatile int is_over;

/* Sends and receives in a queue of its own, which holds no more than one message. */
static void *is_busy(void *its) {
  static __thread struct message own;
  int id = *(int *)its, right = 1;
  while (right && !is_over) {
    own.type = 1;
    right = civdrax_msgsnd(id, &own, 10, 0) == 0 && civdrax_msgrcv(id, &own, 10, 0, 0) == 10;
  }
  CHECK(right);
  return its;
}

/* What is reported of all parts is one snapshot: no thread has two messages. Queues are made and
   removed and keys are looked up beside them. */
static void is_told_of_one_moment(void) {
  pthread_t threads[GETTERS];
  int all[GETTERS];
  for (int i = 0; i < GETTERS; i++) {
    all[i] = new_queue();
    CHECK(pthread_create(&threads[i], NULL, is_busy, &all[i]) == 0);
  }
  for (int i = 0; i < 2000; i++) {
    struct msginfo now;
    int id = new_queue();
    REFUSED(civdrax_msgget(7, 0), ENOENT);
    CHECK(civdrax_msgctl(0, MSG_INFO, (struct msqid_ds *)&now) == id % A_SEQ);
    CHECK(now.msgpool == GETTERS + 1 && now.msgmap <= GETTERS && now.msgtql == 10 * now.msgmap);
    remove_queue(id);
  }
  is_over = 1;
  for (int i = 0; i < GETTERS; i++) CHECK(pthread_join(threads[i], NULL) == 0);
  for (int i = 0; i < GETTERS; i++) remove_queue(all[i]);
}

int main(void) {
  static const int sizes[] = {1, 2, 3, 7, 8, 9, 10, 63, 64};
  watch(120);
  for (size_t i = 0; i < sizeof sizes / sizeof *sizes; i++) in_a_child(sizes[i]);
  each_has_its_part();
  a_key_has_one_queue();
  is_told_of_one_moment();
  return told();
}
