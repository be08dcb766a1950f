/* The table of the queues as it is printed, and that `ipcs -q` prints the same of the same queues of
   the kernel's, but for their ids. With a word it is printed alone, and again where there was no
   memory. */
#include "check.h"

static const char head[] = "\n------ Message Queues --------\n"
                           "key        msqid      owner      perms      used-bytes   messages    \n";

/* The calls of either. */
struct calls {
  int (*get)(key_t, int);
  int (*send)(int, const void *, size_t, int);
  int (*control)(int, int, struct msqid_ds *);
};

static const struct calls here = {civdrax_msgget, civdrax_msgsnd, civdrax_msgctl};
static const struct calls kernel = {msgget, msgsnd, msgctl};

static void give_to(const struct calls *by, int id, uid_t uid) {
  struct msqid_ds ds;
  CHECK(by->control(id, IPC_STAT, &ds) == 0);
  ds.msg_perm.uid = uid;
  CHECK(by->control(id, IPC_SET, &ds) == 0);
}

/* Three queues: one of root's, a private one of a user who has no name, and one of a negative key,
   which has two messages. */
static void make_three(const struct calls *by, int *ids) {
  static const struct message m = {.type = 1};
  ids[0] = by->get(getpid(), IPC_CREAT | 0640);
  ids[1] = by->get(IPC_PRIVATE, IPC_CREAT | 0600);
  ids[2] = by->get(-getpid(), IPC_CREAT | 0007);
  give_to(by, ids[0], 0);
  give_to(by, ids[1], 3999999999);
  give_to(by, ids[2], 0);
  CHECK(by->send(ids[2], &m, 8000, 0) == 0 && by->send(ids[2], &m, 5, 0) == 0);
}

/* The row of the queue `i` of these, by its id. */
static void row_of(int i, int id, char *to) {
  const char *owner[] = {"root", "3999999999", "root"}, *perms[] = {"640", "600", "7"};
  const char *bytes[] = {"0", "0", "8005"}, *messages[] = {"0", "0", "2"};
  int key[] = {getpid(), 0, -getpid()};
  sprintf(to, "0x%08x %-10d %-10s %-10s %-12s %-12s\n", key[i], id, owner[i], perms[i], bytes[i],
          messages[i]);
}

/* What is printed now. */
static char *table(void) {
  static char text[16384];
  FILE *to = fmemopen(text, sizeof text, "w");
  CHECK(to && civdrax_print(to) == 0 && !fclose(to));
  return text;
}

/* The head, these rows in their order, and an empty line. */
static void wants(const char *one, const char *two, const char *three) {
  char text[1024];
  sprintf(text, "%s%s%s%s\n", head, one, two, three);
  CHECK(!strcmp(table(), text));
}

static void three(void) {
  char row[3][100], again[100];
  int ids[3];
  wants("", "", "");
  make_three(&here, ids);
  for (int i = 0; i < 3; i++) row_of(i, ids[i], row[i]);
  wants(row[0], row[1], row[2]);
  remove_queue(ids[1]);
  wants(row[0], row[2], "");
  ids[1] = new_queue();
  give_to(&here, ids[1], 3999999999);
  row_of(1, ids[1], again);
  CHECK(strcmp(row[1], again));
  wants(row[0], again, row[2]);
  remove_queue(ids[0]);
  remove_queue(ids[2]);
  wants(again, "", "");
  remove_queue(ids[1]);
  wants("", "", "");
}

static void most(void) {
  for (int i = 0; i < 64; i++) CHECK(new_queue() >= 0);
  char *text = table();
  int lines = 0;
  for (; *text; text++) lines += *text == '\n';
  CHECK(lines == 64 + 4);
}

static void refusals(void) {
  FILE *full = fopen("/dev/full", "w"), *to_read = fopen("/dev/null", "r");
  REFUSED(civdrax_print(NULL), EFAULT);
  REFUSED(civdrax_print(full), ENOSPC);
  REFUSED(civdrax_print(to_read), EBADF);
  fclose(full);
  fclose(to_read);
}

/* Of a size that there is not, nothing is printed. */
static void no_size(void) {
  int status;
  pid_t pid = fork();
  if (!pid) {
    FILE *to = tmpfile();
    setenv("CIVDRAX_SLOTS", "0", 1);
    close(2);
    _exit(!(to && civdrax_print(to) == -1 && errno == ENOSYS && ftell(to) == 0));
  }
  CHECK(waitpid(pid, &status, 0) == pid && status == 0);
}

static void beside_ipcs(void) {
  static char text[1 << 20];
  char row[100];
  int ids[3];
  if (system("command -v ipcs > /dev/null")) {
    printf("LEFT OUT: the table beside that of ipcs, which is not here\n");
    return;
  }
  make_three(&kernel, ids);
  FILE *from = popen("LC_ALL=C ipcs -q", "r");
  CHECK(from && fread(text, 1, sizeof text - 1, from) > 0 && !pclose(from));
  CHECK(!strncmp(text, head, sizeof head - 1));
  for (int i = 0; i < 3; i++) {
    row_of(i, ids[i], row);
    CHECK(strstr(text, row) != NULL);
    CHECK(msgctl(ids[i], IPC_RMID, NULL) == 0);
  }
}

/* Into a file that has its memory: nothing of the first table, or all of it. */
static int again(void) {
  static char bytes[BUFSIZ], text[1024];
  FILE *to = NULL;
  for (int i = 0; i < 2 && !to; i++) to = tmpfile();
  CHECK(to && !setvbuf(to, bytes, _IOFBF, sizeof bytes));
  int id = civdrax_msgget(IPC_PRIVATE, IPC_CREAT);
  if (id < 0) id = civdrax_msgget(IPC_PRIVATE, IPC_CREAT);
  CHECK(id >= 0);
  if (civdrax_print(to)) {
    CHECK(errno == ENOMEM && ftell(to) == 0);
    CHECK(civdrax_print(to) == 0);
  }
  rewind(to);
  CHECK(fread(text, 1, sizeof text, to) == sizeof head + 70);
  return told();
}

int main(int argc, char **argv) {
  (void)argv;
  watch(60);
  if (argc > 1) return again();
  no_size();
  three();
  refusals();
  most();
  beside_ipcs();
  return told();
}
