/* The control: preloaded, each call of the manual answers ENOSYS. */
#define _GNU_SOURCE
#include <dlfcn.h>
#include <errno.h>
#include <sys/ipc.h>
#include <sys/msg.h>

static int none(void) {
  errno = ENOSYS;
  return -1;
}

int msgget(key_t key, int flags) { return (void)key, (void)flags, none(); }

int msgsnd(int id, const void *message, size_t size, int flags) {
  return (void)id, (void)message, (void)size, (void)flags, none();
}

ssize_t msgrcv(int id, void *message, size_t size, long type, int flags) {
  return (void)id, (void)message, (void)size, (void)type, (void)flags, none();
}

int msgctl(int id, int cmd, struct msqid_ds *buf) {
  return (void)id, (void)cmd, (void)buf, none();
}

void *dlopen(const char *name, int flags) {
  void *(*next)(const char *, int) = (void *(*)(const char *, int))dlsym(RTLD_NEXT, "dlopen");
  return next(name, flags & ~RTLD_DEEPBIND);
}
