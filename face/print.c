/* The table of this process's queues, as `ipcs -q` prints that of the kernel's, by the calls of the
   header alone. */
#define _GNU_SOURCE
#include "civdrax.h"
#include <errno.h>
#include <pwd.h>
#include <stdlib.h>

/* A row, with the name of the owner by the file itself, since the C library's own lookup may not
   return when out of memory; else with the number. */
static void print_row(FILE *to, int id, const struct msqid_ds *its) {
  char line[4096], owner[16];
  struct passwd user, *found;
  FILE *users = fopen("/etc/passwd", "re");
  snprintf(owner, sizeof owner, "%u", its->msg_perm.uid);
  while (users && !fgetpwent_r(users, &user, line, sizeof line, &found))
    if (user.pw_uid == its->msg_perm.uid) {
      snprintf(owner, sizeof owner, "%.10s", user.pw_name);
      break;
    }
  if (users) fclose(users);
  fprintf(to, "0x%08x %-10d %-10s %-10o %-12lu %-12lu\n", (unsigned)its->msg_perm.__key, id, owner,
          its->msg_perm.mode & 0777u, its->__msg_cbytes, its->msg_qnum);
}

/* All rows up to that of the last index in use: 0, or why not. */
static int print_table(FILE *to, int last) {
  struct msqid_ds its;
  fprintf(to, "\n------ Message Queues --------\n%-10s %-10s %-10s %-10s %-12s %-12s\n", "key",
          "msqid", "owner", "perms", "used-bytes", "messages");
  for (int index = 0; index <= last; index++) {
    int id = civdrax_msgctl(index, MSG_STAT, &its);
    if (id < 0 && errno != EINVAL) return errno;
    if (id >= 0) print_row(to, id, &its);
  }
  fputc('\n', to);
  return 0;
}

/* Prints the whole table or nothing. */
int civdrax_print(FILE *to) {
  struct msginfo usage;
  char *text = NULL;
  size_t size;
  int last = civdrax_msgctl(0, MSG_INFO, (struct msqid_ds *)&usage);
  if (last < 0) return -1;
  FILE *table = open_memstream(&text, &size);
  int error = table ? print_table(table, last) : ENOMEM;
  if (table && (fclose(table) || !text)) error = ENOMEM;
  if (!error && !to) error = EFAULT;
  if (!error && (fwrite(text, 1, size, to) < size || fflush(to))) error = errno;
  free(text);
  if (error) errno = error;
  return error ? -1 : 0;
}
