/* Each call, made once more where there was no memory: the answers are as if there had always been.
   It is run with each allocation refused in turn. */
#include "check.h"

static struct message m;

/* The call's answer, made again once where it is out of memory. */
#define AGAIN(call) \
  ({ long it = (call); it == -1 && errno == ENOMEM ? (call) : it; })

static void all(void) {
  int id = AGAIN(civdrax_msgget(55, IPC_CREAT | 0600));
  CHECK(id >= 0);
  for (int i = 0; i < 40; i++) {
    m.type = i % 5 + 1;
    m.text[0] = (char)i;
    size_t size = i == 17 ? 20000 : 1;
    CHECK(AGAIN(civdrax_msgsnd(id, &m, size, IPC_NOWAIT)) == 0);
  }
  int other = AGAIN(civdrax_msgget(IPC_PRIVATE, IPC_CREAT | 0600));
  CHECK(other >= 0 && other != id);
  for (int type = 1; type <= 5; type++)
    for (int i = 0; i < 8; i++) {
      long size = AGAIN(civdrax_msgrcv(id, &m, sizeof m.text, type, IPC_NOWAIT));
      CHECK(size == (i * 5 + type - 1 == 17 ? 20000 : 1) && m.text[0] == i * 5 + type - 1);
    }
  struct msqid_ds ds;
  CHECK(AGAIN(civdrax_msgctl(id, IPC_STAT, &ds)) == 0 && ds.msg_qnum == 0);
  ds.msg_qbytes = 7;
  CHECK(AGAIN(civdrax_msgctl(id, IPC_SET, &ds)) == 0);
  CHECK(AGAIN(civdrax_msgctl(id, IPC_RMID, NULL)) == 0);
  CHECK(AGAIN(civdrax_msgctl(other, IPC_RMID, NULL)) == 0);
  REFUSED(civdrax_msgctl(id, IPC_RMID, NULL), EINVAL);
}

/* As many changes that the logs are cut. */
static void cuts(void) {
  int id = AGAIN(civdrax_msgget(55, IPC_CREAT | 0600));
  int right = 0;
  for (int i = 0; i < 3000; i++) {
    m.type = 1;
    right += AGAIN(civdrax_msgsnd(id, &m, 0, IPC_NOWAIT)) == 0;
    right += AGAIN(civdrax_msgrcv(id, &m, 0, 0, IPC_NOWAIT)) == 0;
  }
  CHECK(right == 6000);
  CHECK(AGAIN(civdrax_msgctl(id, IPC_RMID, NULL)) == 0);
}

int main(void) {
  watch(60);
  all();
  cuts();
  return told();
}
