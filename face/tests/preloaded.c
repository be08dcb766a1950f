/* Over the preloaded library: another library is found where the program says, also where it is to
   be opened past preloaded names, and its calls are made here; a child counts its own. Built also
   as that other library, with OPENED. */
#define _GNU_SOURCE
#include <dlfcn.h>
#include <stdio.h>
#include <stdlib.h>
#include <sys/ipc.h>
#include <sys/msg.h>
#include <sys/wait.h>
#include <unistd.h>

#ifdef OPENED
int new_queue(void) { return msgget(IPC_PRIVATE, IPC_CREAT | 0600); }
#else
int main(void) {
  void *opened = dlopen("opened.so", RTLD_NOW | RTLD_DEEPBIND);
  int (*new_queue)(void) = opened ? (int (*)(void))dlsym(opened, "new_queue") : NULL;
  if (!new_queue) {
    fprintf(stderr, "%s\n", dlerror());
    return 1;
  }
  struct msqid_ds ds;
  int id = new_queue(), right = 0, status;
  for (int i = 0; i < 2; i++) right += msgctl(id, IPC_STAT, &ds) == 0;
  pid_t pid = fork();
  if (!pid) exit(msgctl(id, IPC_STAT, &ds) != 0);
  right += pid > 0 && waitpid(pid, &status, 0) == pid && status == 0;
  right += msgctl(id, IPC_RMID, NULL) == 0;
  printf("%d passed, %d failed\n", right, 4 - right);
  return right != 4;
}
#endif
