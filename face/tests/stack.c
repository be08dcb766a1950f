/* A signal handler that runs while its thread is inside a call is on the stack of the proved part.
   One with a large array touches far below there: the program's own memory stays as it was, and a
   handler that needs more than there is ends the process, and touches nothing of it either. The
   signal is that of a page that may not be read, met as its text is copied. */
#include "check.h"
#include <sys/mman.h>

enum { PAGE = 4096, BELOW = 16 << 20, HELD = 7 << 20, TOO_MUCH = (8 << 20) + (1 << 19) };

static char *text, *below;
static volatile int handled;

static void let_it_be_read(int is_right) {
  handled += is_right && !mprotect(text, 2 * PAGE, PROT_READ | PROT_WRITE);
}

/* The compiler is not to touch the pages between, as by its flags it may. */
#define FAR_DOWN(name, size) \
  __attribute__((optimize("no-stack-clash-protection"), no_sanitize("address"))) \
  static void name(int signal) { \
    volatile char array[size]; \
    for (int i = 0; i < PAGE; i++) array[i] = (char)signal; \
    let_it_be_read(array[0] == (char)signal); \
  }

FAR_DOWN(touches_a_little, 1300000)
FAR_DOWN(touches_much, HELD)
FAR_DOWN(touches_too_much, TOO_MUCH)

static int is_as_it_was(void) {
  for (size_t i = 0; i < BELOW; i++)
    if (below[i] != 'p') return 0;
  return 1;
}

/* Sends a text in the midst of which the handler runs. */
static void send_with(int id, void (*handler)(int)) {
  signal(SIGSEGV, handler);
  CHECK(mprotect(text + PAGE, PAGE, PROT_NONE) == 0);
  handled = 0;
  CHECK(civdrax_msgsnd(id, text, PAGE + 100, IPC_NOWAIT) == 0);
  CHECK(handled == 1);
  CHECK(is_as_it_was());
  CHECK(civdrax_msgrcv(id, text, PAGE + 100, 0, IPC_NOWAIT) == PAGE + 100);
}

static void has_too_little(int id) {
  pid_t pid = fork();
  int status;
  if (!pid) {
    signal(SIGSEGV, touches_too_much);
    mprotect(text + PAGE, PAGE, PROT_NONE);
    civdrax_msgsnd(id, text, PAGE + 100, IPC_NOWAIT);
    _exit(0);
  }
  CHECK(pid > 0 && waitpid(pid, &status, 0) == pid && WIFSIGNALED(status));
}

static void *map(size_t size, int flags) {
  void *at = mmap(NULL, size, PROT_READ | PROT_WRITE, MAP_ANONYMOUS | flags, -1, 0);
  CHECK(at != MAP_FAILED);
  return at;
}

int main(void) {
  watch(60);
  text = map(2 * PAGE, MAP_PRIVATE);
  memset(text, 1, 2 * PAGE);
  *(long *)text = 5;
  int id = new_queue();
  /* What is mapped next lies below, and a child shares it. */
  below = map(BELOW, MAP_SHARED);
  memset(below, 'p', BELOW);
  send_with(id, touches_a_little);
  send_with(id, touches_much);
  has_too_little(id);
  CHECK(is_as_it_was());
  remove_queue(id);
  return told();
}
