/* The library, whose path is given, is opened and closed again and again: it takes addresses and
   memory once, the queues stay, and a thread that waited in a call may end after that. */
#include "check.h"
#include <dlfcn.h>

static const char *path;
static int id;
static volatile pid_t waiter;
static volatile int served;
static pthread_barrier_t step;

/* The pages of addresses, and those in memory. */
static void pages(long *both) {
  FILE *file = fopen("/proc/self/statm", "r");
  CHECK(file && fscanf(file, "%ld %ld", &both[0], &both[1]) == 2);
  if (file) fclose(file);
}

static void *opened(void) {
  void *library = dlopen(path, RTLD_NOW | RTLD_LOCAL);
  if (library) return library;
  fprintf(stderr, "%s\n", dlerror());
  exit(1);
}

/* The queue of a key, in a library that is opened for that call alone. */
static int found(int flags) {
  void *library = opened();
  int (*get)(key_t, int) = (int (*)(key_t, int))dlsym(library, "civdrax_msgget");
  int it = get(77, flags);
  CHECK(!dlclose(library));
  return it;
}

static void *waits(void *library) {
  static struct message m;
  ssize_t (*receive)(int, void *, size_t, long, int) =
      (ssize_t (*)(int, void *, size_t, long, int))dlsym(library, "civdrax_msgrcv");
  waiter = gettid();
  CHECK(receive(id, &m, 10, 5, 0) == 3);
  served = 1;
  pthread_barrier_wait(&step);
  pthread_barrier_wait(&step);
  return NULL;
}

static void a_thread_ends_later(void) {
  static struct message m = {.type = 5};
  pthread_t thread;
  void *library = opened();
  int (*send)(int, const void *, size_t, int) =
      (int (*)(int, const void *, size_t, int))dlsym(library, "civdrax_msgsnd");
  CHECK(!pthread_barrier_init(&step, NULL, 2) && !pthread_create(&thread, NULL, waits, library));
  await_sleep(&waiter, &served);
  CHECK(!served && send(id, &m, 3, 0) == 0);
  pthread_barrier_wait(&step);
  CHECK(!dlclose(library));
  pthread_barrier_wait(&step);
  CHECK(!pthread_join(thread, NULL));
}

int main(int argc, char **argv) {
  long before[2], after[2];
  path = argc > 1 ? argv[1] : "";
  watch(60);
  id = found(IPC_CREAT | 0600);
  CHECK(id >= 0);
  pages(before);
  int right = 0;
  for (int i = 0; i < 50; i++) right += found(0) == id;
  pages(after);
  CHECK(right == 50);
  for (int i = 0; i < 2; i++) CHECK(after[i] - before[i] < 100);
  if (!failed) a_thread_ends_later();
  return told();
}
