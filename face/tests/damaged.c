/* Random calls with damaged arguments, as many as the first word says: no crash, no hang, and no
   answer outside the manual's list. */
#include "check.h"

static uint64_t seed = 88172645463325252u;

static uint64_t next(void) {
  seed ^= seed << 13;
  seed ^= seed >> 7;
  return seed ^= seed << 17;
}

static const long odd[] = {0, 1, -1, 2, 63, 64, 65, 1023, 8192, 65536, 65537, 1 << 20,
                           0x7fffffff, -0x7fffffff - 1, 0x7fffffffffffffff,
                           -0x7fffffffffffffff - 1, 0x80000000, 0xffffffff, 1024, 04000};

static long any(void) {
  return next() % 4 ? odd[next() % (sizeof odd / sizeof *odd)] : (long)next();
}

static int ids[8];

static int an_id(void) { return next() % 8 ? ids[next() % 8] : (int)any(); }

static int flags(void) { return next() % 8 ? (int)(next() % 8 << 11) : (int)any(); }

static int is_listed(int error, const int *list) {
  for (; *list; list++) if (*list == error) return 1;
  return 0;
}

static const int get_errors[] = {EACCES, EEXIST, ENOENT, ENOMEM, ENOSPC, 0};
static const int send_errors[] = {EACCES, EAGAIN, EFAULT, EIDRM, EINTR, EINVAL, ENOMEM, ETIMEDOUT, 0};
static const int receive_errors[] = {E2BIG, EACCES, EFAULT, EIDRM, EINTR, EINVAL, ENOMSG, ENOSYS,
                                     ETIMEDOUT, 0};
static const int control_errors[] = {EACCES, EFAULT, EIDRM, EINVAL, EPERM, 0};

static long refused, done;

static void answered(long result, const int *list, const char *what) {
  if (result >= 0) done++;
  else if (is_listed(errno, list)) refused++;
  else check(0, what, __LINE__);
}

/* A buffer of just so many bytes as the call may touch. */
static struct message *buffer_of(size_t size) {
  struct message *buffer = malloc(sizeof buffer->type + size);
  if (!buffer) abort();
  memset(buffer, 'x', sizeof buffer->type + size);
  return buffer;
}

static void get(int which) {
  int id = civdrax_msgget(which == 1 ? IPC_PRIVATE : (int)any(),
                          which < 6 ? flags() | IPC_CREAT : flags());
  answered(id, get_errors, "msgget");
  if (id < 0) return;
  int *place = &ids[next() % 8];
  if (*place != id) civdrax_msgctl(*place, IPC_RMID, NULL);
  *place = id;
}

static void control(int which) {
  static const int commands[] = {IPC_RMID, IPC_SET, IPC_STAT, IPC_INFO, MSG_STAT, MSG_INFO,
                                 MSG_STAT_ANY, 4, 99};
  int command = which ? commands[next() % 32 ? 1 + next() % 8 : 0] : (int)any() | 1;
  struct msqid_ds *ds = malloc(sizeof *ds);
  if (!ds) abort();
  memset(ds, (int)next(), sizeof *ds);
  if (next() % 4) ds->msg_qbytes = 20000;
  answered(civdrax_msgctl(an_id(), command, next() % 8 ? ds : NULL), control_errors, "msgctl");
  free(ds);
}

static void send(int which, size_t size) {
  static const struct timespec past;
  struct message *message = buffer_of(size > 65536 ? 0 : size);
  message->type = which ? (long)(next() % 5) + 1 : any();
  answered(civdrax_timedsnd(an_id(), next() % 64 ? message : NULL, size, flags(), &past),
           send_errors, "msgsnd");
  free(message);
}

static void receive(int which, size_t size) {
  static const struct timespec past;
  struct message *message = buffer_of(size > 65536 ? 65536 : size);
  answered(civdrax_timedrcv(an_id(), next() % 64 ? message : NULL, size,
                            which ? (long)(next() % 11) - 5 : any(), flags(), &past),
           receive_errors, "msgrcv");
  free(message);
}

static void one(void) {
  int which = next() % 8, kind = next() % 16;
  size_t size = next() % 8 ? next() % 3000 : (size_t)any();
  if (kind == 0) get(which);
  else if (kind == 1) control(which);
  else if (kind < 9) send(which, size);
  else receive(which, size);
}

int main(int count, char **words) {
  long calls = count > 1 ? atol(words[1]) : 1000000;
  watch(600);
  for (long i = 0; i < calls && !failed; i++) one();
  CHECK(done > calls / 5 && refused > calls / 5);
  fprintf(stderr, "%ld calls done, %ld refused\n", done, refused);
  return told();
}
