/* Each call once, and each refusal of the manual, in one thread. */
#include "check.h"

static struct message m;

/* In a child: the figures of IPC_INFO and MSG_INFO at another size. */
static void shows_its_size(void) {
  struct msginfo all;
  CHECK(civdrax_msgctl(0, IPC_INFO, (struct msqid_ds *)&all) == 0);
  CHECK(all.msgmax == 65536 && all.msgmnb == 131072 && all.msgmni == 3);
  CHECK(all.msgssz == 1024 && all.msgseg == 192 && all.msgpool == 192);
  CHECK(all.msgmap == 131072 && all.msgtql == 131072);
  CHECK(civdrax_msgctl(0, MSG_INFO, (struct msqid_ds *)&all) == 0);
  CHECK(all.msgmax == 65536 && all.msgmnb == 131072 && all.msgmni == 3);
  CHECK(all.msgssz == 1024 && all.msgseg == 192);
  CHECK(all.msgpool == 0 && all.msgmap == 0 && all.msgtql == 0);
}

/* In a child: a queue's owner and creator are who makes it, here not root. */
static void owns_as_another(void) {
  struct msqid_ds ds;
  if (geteuid() == 0) CHECK(setegid(4321) == 0 && seteuid(1234) == 0);
  int id = civdrax_msgget(IPC_PRIVATE, IPC_CREAT | 0777);
  CHECK(civdrax_msgctl(id, IPC_STAT, &ds) == 0 && ds.msg_perm.mode == 0777);
  CHECK(ds.msg_perm.uid == geteuid() && ds.msg_perm.gid == getegid());
  CHECK(ds.msg_perm.cuid == geteuid() && ds.msg_perm.cgid == getegid());
  ds.msg_perm.uid++;
  ds.msg_perm.gid += 2;
  ds.msg_perm.cuid += 3;
  ds.msg_perm.cgid += 3;
  CHECK(civdrax_msgctl(id, IPC_SET, &ds) == 0 && civdrax_msgctl(id, IPC_STAT, &ds) == 0);
  CHECK(ds.msg_perm.uid == geteuid() + 1 && ds.msg_perm.gid == getegid() + 2);
  CHECK(ds.msg_perm.cuid == geteuid() && ds.msg_perm.cgid == getegid());
}

static void is_small(void) {
  CHECK(setenv("CIVDRAX_HEIGHT", "6", 1) == 0 && setenv("CIVDRAX_SLOTS", "3", 1) == 0);
  shows_its_size();
}

/* Has this run in a child, before the first call: it may be of another size. */
static void in_a_child(void (*it)(void)) {
  pid_t pid = fork();
  int status;
  if (!pid) {
    failed = 0;
    watch(60);
    it();
    _exit(failed != 0);
  }
  CHECK(pid > 0 && waitpid(pid, &status, 0) == pid && status == 0);
}

static void makes(void) {
  int id = civdrax_msgget(77, IPC_CREAT | IPC_EXCL | 0640);
  CHECK(id >= 0);
  CHECK(civdrax_msgget(77, 0) == id);
  CHECK(civdrax_msgget(77, IPC_CREAT) == id);
  REFUSED(civdrax_msgget(77, IPC_CREAT | IPC_EXCL), EEXIST);
  REFUSED(civdrax_msgget(78, 0), ENOENT);
  struct msqid_ds ds;
  CHECK(civdrax_msgctl(id, IPC_STAT, &ds) == 0);
  CHECK(ds.msg_perm.__key == 77 && ds.msg_perm.mode == 0640 && ds.msg_perm.uid == geteuid());
  CHECK(ds.msg_qnum == 0 && ds.msg_qbytes > 0 && ds.msg_ctime > 0 && ds.msg_stime == 0);
  CHECK(ds.msg_lspid == 0 && ds.msg_lrpid == 0);
  int all[64];
  for (int i = 0; i < 63; i++) CHECK((all[i] = new_queue()) >= 0);
  REFUSED(new_queue(), ENOSPC);
  for (int i = 0; i < 63; i++) remove_queue(all[i]);
  remove_queue(id);
  REFUSED(civdrax_msgget(77, 0), ENOENT);
}

static void sends(int id) {
  m.type = 5;
  memcpy(m.text, "hello", 5);
  CHECK(civdrax_msgsnd(id, &m, 5, 0) == 0);
  CHECK(civdrax_msgsnd(id, &m, 0, 0) == 0);
  REFUSED(civdrax_msgsnd(id, NULL, 5, 0), EFAULT);
  REFUSED(civdrax_msgsnd(-1, &m, 5, 0), EINVAL);
  REFUSED(civdrax_msgsnd(id + 64, &m, 5, 0), EINVAL);
  REFUSED(civdrax_msgsnd(id + A_SEQ, &m, 5, 0), EINVAL);
  REFUSED(civdrax_msgsnd(id, &m, 65537, 0), EINVAL);
  REFUSED(civdrax_msgsnd(id, &m, (size_t)-1, 0), EINVAL);
  m.type = 0;
  REFUSED(civdrax_msgsnd(id, &m, 5, 0), EINVAL);
  m.type = -5;
  REFUSED(civdrax_msgsnd(id, &m, 5, 0), EINVAL);
}

static void receives(int id) {
  memset(&m, '-', sizeof m);
  REFUSED(civdrax_msgrcv(id, &m, 4, 0, 0), E2BIG);
  REFUSED(civdrax_msgrcv(id, &m, 4, 6, IPC_NOWAIT), ENOMSG);
  REFUSED(civdrax_msgrcv(id, NULL, 4, 0, IPC_NOWAIT), EFAULT);
  REFUSED(civdrax_msgrcv(-1, &m, 4, 0, 0), EINVAL);
  REFUSED(civdrax_msgrcv(id + 64, &m, 4, 0, 0), EINVAL);
  REFUSED(civdrax_msgrcv(id + A_SEQ, &m, 4, 0, 0), EINVAL);
  REFUSED(civdrax_msgrcv(id, &m, (size_t)-1, 0, 0), EINVAL);
  REFUSED(civdrax_msgrcv(id, &m, 4, 0, MSG_COPY), EINVAL);
  REFUSED(civdrax_msgrcv(id, &m, 4, 0, MSG_COPY | MSG_EXCEPT | IPC_NOWAIT), EINVAL);
  REFUSED(civdrax_msgrcv(id, &m, 4, 0, MSG_COPY | IPC_NOWAIT), ENOSYS);
  CHECK(m.type != 5 && m.text[0] == '-');
  CHECK(civdrax_msgrcv(id, &m, 4, 0, MSG_NOERROR) == 4);
  CHECK(m.type == 5 && !memcmp(m.text, "hell-", 5));
  CHECK(civdrax_msgrcv(id, &m, 100, 5, 0) == 0);
  CHECK(m.type == 5 && m.text[0] == 'h');
}

static void selects(int id) {
  for (long type = 1; type <= 3; type++) {
    m.type = type;
    m.text[0] = '0' + type;
    CHECK(civdrax_msgsnd(id, &m, 1, 0) == 0);
  }
  CHECK(civdrax_msgrcv(id, &m, 1, 1, MSG_EXCEPT) == 1 && m.type == 2 && m.text[0] == '2');
  CHECK(civdrax_msgrcv(id, &m, 1, -3, 0) == 1 && m.type == 1 && m.text[0] == '1');
  CHECK(civdrax_msgrcv(id, &m, 1, 3, 0) == 1 && m.type == 3 && m.text[0] == '3');
}

/* Each length about the ends of a page is received byte for byte. */
static void carries(int id) {
  static const size_t lengths[] = {1, 1023, 1024, 1025, 2048, 8191, 8192, 8193, 65535, 65536};
  static struct message got;
  for (size_t i = 0; i < sizeof lengths / sizeof *lengths; i++) {
    m.type = 9;
    for (size_t k = 0; k < lengths[i]; k++) m.text[k] = (char)(k * 7 + i);
    memset(&got, 0, sizeof got);
    CHECK(civdrax_msgsnd(id, &m, lengths[i], IPC_NOWAIT) == 0);
    CHECK(civdrax_msgrcv(id, &got, sizeof got.text, 0, IPC_NOWAIT) == (ssize_t)lengths[i]);
    CHECK(!memcmp(m.text, got.text, lengths[i]) && got.text[lengths[i]] == 0);
  }
}

static void controls(int id) {
  struct msqid_ds ds;
  CHECK(civdrax_msgctl(id, IPC_STAT, &ds) == 0);
  CHECK(ds.msg_lspid == getpid() && ds.msg_lrpid == getpid() && ds.msg_stime > 0);
  ds.msg_qbytes = 10;
  ds.msg_perm.mode = 0444;
  CHECK(civdrax_msgctl(id, IPC_SET, &ds) == 0);
  CHECK(civdrax_msgctl(id, IPC_STAT, &ds) == 0);
  CHECK(ds.msg_qbytes == 10 && (ds.msg_perm.mode & 0777) == 0444);
  m.type = 1;
  CHECK(civdrax_msgsnd(id, &m, 10, IPC_NOWAIT) == 0);
  REFUSED(civdrax_msgsnd(id, &m, 1, IPC_NOWAIT), EAGAIN);
  CHECK(civdrax_msgctl(id, IPC_STAT, &ds) == 0);
  CHECK(ds.msg_qnum == 1 && ds.__msg_cbytes == 10);
  struct msqid_ds slot;
  CHECK(civdrax_msgctl(id % 64, MSG_STAT, &slot) == id && slot.msg_qnum == 1);
  CHECK(civdrax_msgctl(id % 64, MSG_STAT_ANY, &slot) == id && slot.__msg_cbytes == 10);
  REFUSED(civdrax_msgctl(63, MSG_STAT, &slot), EINVAL);
  REFUSED(civdrax_msgctl(64, MSG_STAT, &slot), EINVAL);
  REFUSED(civdrax_msgctl(256, MSG_STAT, &slot), EINVAL);
  REFUSED(civdrax_msgctl(256 * PARTS, MSG_STAT, &slot), EINVAL);
  struct msginfo all;
  CHECK(civdrax_msgctl(0, IPC_INFO, (struct msqid_ds *)&all) == id % 64);
  CHECK(all.msgmax == 65536 && all.msgmnb == 131072 && all.msgmni == 64);
  CHECK(civdrax_msgctl(0, MSG_INFO, (struct msqid_ds *)&all) == id % 64);
  CHECK(all.msgpool == 1 && all.msgmap == 1 && all.msgtql == 10);
  ds.msg_qbytes = 131073;
  REFUSED(civdrax_msgctl(id, IPC_SET, &ds), EPERM);
  REFUSED(civdrax_msgctl(id, IPC_SET, NULL), EFAULT);
  REFUSED(civdrax_msgctl(id, IPC_STAT, NULL), EFAULT);
  REFUSED(civdrax_msgctl(id % 64, MSG_STAT, NULL), EFAULT);
  REFUSED(civdrax_msgctl(0, IPC_INFO, NULL), EFAULT);
  REFUSED(civdrax_msgctl(0, MSG_INFO, NULL), EFAULT);
  REFUSED(civdrax_msgctl(id, 4, &ds), EINVAL);
  REFUSED(civdrax_msgctl(id, -1, &ds), EINVAL);
  REFUSED(civdrax_msgctl(-1, IPC_STAT, &ds), EINVAL);
  REFUSED(civdrax_msgctl(-1, IPC_RMID, NULL), EINVAL);
}

/* A queue that was removed is none; its id is never given again. */
static void is_gone(int id) {
  struct msqid_ds ds;
  remove_queue(id);
  REFUSED(civdrax_msgctl(id, IPC_RMID, NULL), EINVAL);
  REFUSED(civdrax_msgctl(id, IPC_STAT, &ds), EINVAL);
  REFUSED(civdrax_msgsnd(id, &m, 1, 0), EINVAL);
  REFUSED(civdrax_msgrcv(id, &m, 1, 0, 0), EINVAL);
  int next = new_queue();
  CHECK(next >= A_SEQ && next != id && next % A_SEQ == id % A_SEQ);
  CHECK(civdrax_msgctl(next, IPC_STAT, &ds) == 0 && ds.msg_perm.__seq == next / A_SEQ);
  remove_queue(next);
}

/* All pages are allocated: without IPC_NOWAIT a send would wait, and an invalid id is EINVAL. */
static void runs_out_of_pages(void) {
  int ids[3];
  take_pages(0, ids);
  m.type = 1;
  REFUSED(civdrax_msgsnd(ids[0] + A_SEQ, &m, 1, 0), EINVAL);
  CHECK(civdrax_msgsnd(ids[0], &m, 0, IPC_NOWAIT) == 0);
  CHECK(civdrax_msgrcv(ids[0], &m, 1, 0, 0) == 1);
  CHECK(civdrax_msgsnd(ids[1], &m, 1, IPC_NOWAIT) == 0);
  for (int i = 0; i < 3; i++) remove_queue(ids[i]);
}

static int has_come(const struct timespec *end) {
  struct timespec now = in_milliseconds(0);
  return now.tv_sec > end->tv_sec || (now.tv_sec == end->tv_sec && now.tv_nsec >= end->tv_nsec);
}

/* A wait ends at its deadline, and not before. */
static void times_out(void) {
  int id = new_queue();
  struct timespec end = in_milliseconds(20);
  REFUSED(civdrax_timedrcv(id, &m, 1, 0, 0, &end), ETIMEDOUT);
  CHECK(has_come(&end));
  struct msqid_ds ds;
  CHECK(civdrax_msgctl(id, IPC_STAT, &ds) == 0);
  ds.msg_qbytes = 0;
  CHECK(civdrax_msgctl(id, IPC_SET, &ds) == 0);
  end = in_milliseconds(20);
  m.type = 1;
  REFUSED(civdrax_timedsnd(id, &m, 1, 0, &end), ETIMEDOUT);
  CHECK(has_come(&end));
  end.tv_nsec = -1;
  REFUSED(civdrax_timedsnd(id, &m, 1, 0, &end), EINVAL);
  remove_queue(id);
}

int main(void) {
  watch(60);
  in_a_child(owns_as_another);
  in_a_child(is_small);
  makes();
  int id = new_queue();
  CHECK(id >= 0);
  sends(id);
  receives(id);
  selects(id);
  carries(id);
  controls(id);
  is_gone(id);
  runs_out_of_pages();
  times_out();
  return told();
}
