/* The very names of the manual, for programs that are not built for these queues. */
#define _GNU_SOURCE
#include "civdrax.h"
#include <dlfcn.h>
#include <pthread.h>
#include <stdio.h>
#include <stdlib.h>
#include <string.h>

static unsigned long calls;

static void count(void) { __atomic_add_fetch(&calls, 1, __ATOMIC_RELAXED); }

int msgget(key_t key, int flags) { return count(), civdrax_msgget(key, flags); }

int msgsnd(int id, const void *message, size_t size, int flags) {
  return count(), civdrax_msgsnd(id, message, size, flags);
}

ssize_t msgrcv(int id, void *message, size_t size, long type, int flags) {
  return count(), civdrax_msgrcv(id, message, size, type, flags);
}

int msgctl(int id, int cmd, struct msqid_ds *buf) { return count(), civdrax_msgctl(id, cmd, buf); }

/* PHP opens its extensions with RTLD_DEEPBIND, under which a preloaded name is not seen. The C
   library searches by the paths of the caller, which it knows by the address that it returns to: so
   the last call must be a jump, as the Makefile's flags for this file have it. */
void *dlopen(const char *name, int flags) {
  void *(*next)(const char *, int) = (void *(*)(const char *, int))dlsym(RTLD_NEXT, "dlopen");
  return next(name, flags & ~RTLD_DEEPBIND);
}

/* With CIVDRAX_COUNT a process that ends adds a line to that file: how many of its calls were made
   here. A program may have changed its environment by then, and a child counts its own. */
static const char *count_name;

static void count_anew(void) { calls = 0; }

__attribute__((constructor)) static void begin_to_count(void) {
  const char *name = secure_getenv("CIVDRAX_COUNT");
  if (name && !pthread_atfork(NULL, NULL, count_anew)) count_name = strdup(name);
}

__attribute__((destructor)) static void tell_count(void) {
  FILE *file = count_name ? fopen(count_name, "a") : NULL;
  if (!file) return;
  fprintf(file, "%lu\n", calls);
  fclose(file);
}
