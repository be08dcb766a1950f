/* That the size is wrong is printed on standard error alone: on a terminal, or where descriptor 2
   is what it was when the program began; in no file of the program's that has this number. The
   program runs itself anew for each case. */
#include "check.h"
#include <fcntl.h>

/* The program anew: what it does with descriptor 2 before its first call, and which file it opens
   by that number. */
static int refused(const char *how, const char *name) {
  int kept = dup(2);
  if (strcmp(how, "keeps")) {
    close(2);
    if (open(name, O_RDWR | O_NOCTTY) != 2) return 1;
  }
  if (!strcmp(how, "returns")) dup2(kept, 2);
  return civdrax_msgget(IPC_PRIVATE, IPC_CREAT) != -1 || errno != ENOSYS;
}

/* Whether the line is in a file, which is then emptied; -1 where something else is. */
static int line_in(int file) {
  static const char line[] = "civdrax: CIVDRAX_HEIGHT is 'x': a number from 0 to 10 is wanted";
  char text[256] = "";
  ssize_t n = isatty(file) ? read(file, text, sizeof text - 1) : pread(file, text, 255, 0);
  if (!isatty(file)) CHECK(ftruncate(file, 0) == 0 && lseek(file, 0, SEEK_SET) == 0);
  return n == 0 ? 0 : n > 0 && !strncmp(text, line, sizeof line - 1) ? 1 : -1;
}

/* Runs it with that file as descriptor 2, or without one. */
static void run(int error, const char *how, const char *name) {
  int status;
  pid_t pid = fork();
  if (!pid) {
    if (error < 0) close(2);
    else dup2(error, 2);
    setenv("CIVDRAX_HEIGHT", "x", 1);
    execl("/proc/self/exe", "standard_error", how, name, NULL);
    _exit(9);
  }
  CHECK(waitpid(pid, &status, 0) == pid && status == 0);
}

int main(int argc, char **argv) {
  char first[] = "/tmp/civdrax_XXXXXX", other[] = "/tmp/civdrax_XXXXXX";
  watch(60);
  if (argc == 3) return refused(argv[1], argv[2]);
  int at_start = mkstemp(first), later = mkstemp(other);
  int terminal = posix_openpt(O_RDWR | O_NOCTTY);
  CHECK(at_start >= 0 && later >= 0 && terminal >= 0 && !grantpt(terminal) && !unlockpt(terminal));
  run(at_start, "keeps", other);
  CHECK(line_in(at_start) == 1);
  run(at_start, "returns", other);
  CHECK(line_in(at_start) == 1 && line_in(later) == 0);
  run(at_start, "opens", other);
  CHECK(line_in(at_start) == 0 && line_in(later) == 0);
  run(-1, "opens", other);
  CHECK(line_in(later) == 0);
  run(-1, "keeps", other);
  run(at_start, "opens", ptsname(terminal));
  CHECK(line_in(at_start) == 0 && line_in(terminal) == 1);
  unlink(first);
  unlink(other);
  return told();
}
