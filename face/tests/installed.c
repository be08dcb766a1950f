/* A program of the installed library, by its header alone: in any edition of C or C++. */
#include <civdrax.h>

int main(void) {
  struct {
    long type;
    char text[6];
  } m = {5, "hello"};
  int id = civdrax_msgget(IPC_PRIVATE, IPC_CREAT | 0600);
  if (id < 0 || civdrax_msgsnd(id, &m, 3, 0) || civdrax_timedsnd(id, &m, 6, 0, NULL)) return 1;
  if (civdrax_msgrcv(id, &m, 6, 5, 0) != 3 || civdrax_timedrcv(id, &m, 6, 5, 0, NULL) != 6)
    return 1;
  return civdrax_msgctl(id, IPC_RMID, NULL) != 0;
}
