/* The C side of the queues, which are sharded into parts. In each part `civdrax_serve`, which is
   proved, runs as a coroutine, on a stack of its own, as long as the process does. Under the part's
   lock a call writes its numbers into `call` and switches to that stack, where `read` takes them
   and the bytes of a text, and `write` fills `answer`, `shown` and the caller's buffer; where the
   next call is read it switches back. A part's number is the descriptor that it reads, and in each
   id of its queues, so queues of two parts share nothing. What concerns all parts locks all.

   Each wait is here, outside of the proved part: a call whose answer is to wait enters its thread's
   waiter into a list, releases the lock, sleeps on the waiter's futex, and is then retried. Each
   slot has lists of waiters for a message, by types, and one of waiters for room, each part one of
   waiters for pages. A message rouses those whose selection has its type, a receipt the waiters for
   room there and for pages, a new quota those for room, a removal all of the slot and those for
   pages: of each all, so that none has to pass on a wake that it does not use, where its text is
   too long, it is cancelled, or a handler jumps out of its wait. The lock is held from the answer
   until the waiter is in its list, so no wake is lost. A handler ends the sleep.

   Each call is decided in the proved part. Kept here are the figures that it has no place for: the
   owner, the mode and the two process ids of each slot's queue. */
#define _GNU_SOURCE
#include "civdrax.h"
#include <errno.h>
#include <linux/futex.h>
#include <pthread.h>
#include <signal.h>
#include <stdint.h>
#include <stdio.h>
#include <stdlib.h>
#include <string.h>
#include <sys/mman.h>
#include <sys/queue.h>
#include <sys/stat.h>
#include <sys/syscall.h>
#include <unistd.h>

enum { MAX_HEIGHT = 10, MAX_SLOTS = 64, PARTS = 8, PART_SLOTS = MAX_SLOTS / PARTS };
#define WOKEN_LATER 16 /* once the lock is free; others before */
/* A handler's frame is no nearer to the one that it interrupts: between are the saved registers. */
#define SIGNAL_FRAME 1024
/* The stack of the proved part, on which a signal handler that interrupts it runs too: it is as
   long as a thread's is by default. Below it lies a guard, which cannot be touched. */
enum { STACK = 8 << 20, GUARD = 1 << 20 };

/* The numbers of the proved part. */
enum { GET = 1, SEND, RECEIVE, CONTROL, WAIT_CHANGE = 1, WAIT_PAGES };

struct call {
  uint64_t kind, number, flags, type, size, moment, waited, buffer;
};

struct answer {
  uint64_t value, error, wait, slot, changed, type, length, shown;
};

union shown {
  struct { uint64_t qnum, cbytes, qbytes, stime, rtime, ctime, lspid, lrpid; } queue;
  struct { uint64_t queues, messages, bytes, slots, pages, msgmax, msgmnb, page; } usage;
  uint64_t numbers[8];
};
enum { SUMMED = 5 }; /* so many of the usage's, over the parts; the others are alike in each */

_Static_assert(sizeof(struct call) == 64 && sizeof(struct answer) == 64
               && sizeof(union shown) == 64, "calls, answers, and what is shown");

extern int32_t civdrax_serve(int32_t calls, uint8_t height, uint8_t slots);

/* A waiter: thread-local, since a handler may leave the wait by siglongjmp, and it stays in its
   list then. It is changed under its part's lock alone; `part` by its thread. */
enum { WAITS, ROUSED };
struct waiter {
  TAILQ_ENTRY(waiter) link;
  struct part *part;  /* whose list it has still to leave, or null */
  struct waiters *in; /* or null */
  uint32_t word;      /* WAITS or ROUSED: the futex */
  int64_t type;       /* what a receipt selects */
  uint64_t flags;
};
TAILQ_HEAD(waiters, waiter);

/* Lists of waiters of a slot: for a message, of any type or more than one, and of one type, hashed
   by its remainder; for room; and, of a part, for pages. */
enum { TYPES = 256, KINDS, SENDERS = PART_SLOTS * KINDS, PAGERS = SENDERS + PART_SLOTS, LISTS };
static int receivers(int slot, long type) { return slot * KINDS + (type > 0) * (1 + type % TYPES); }

/* No two share a cache line, nor a pair of lines that the processor fetches together. */
struct part {
  pthread_mutex_t lock;
  enum { NEW, RUNS, LOST } state; /* LOST where a step was left in its midst: it cannot end */
  int slots, queues;              /* how many */
  int has_old_lists;              /* none, or in a child its parent's */
  /* The two stacks, and where that of the proved part lies, above its guard. */
  void *outside, *inside;
  char *guard;
  volatile int is_inside;
  /* The call that is made, how many of its bytes were given and of its answer taken, and how many
     of the text in either way. */
  struct call call;
  struct answer answer;
  union shown shown; /* is written behind the answer */
  const char *text_in;
  char *text_out;
  size_t given, taken, text_at;
  struct ipc_perm owner[PART_SLOTS];
  pid_t sent_by[PART_SLOTS], received_by[PART_SLOTS];
  struct waiters lists[LISTS];
} __attribute__((aligned(128)));

static struct part parts[PARTS] = {
    [0 ... PARTS - 1] = {.lock = PTHREAD_MUTEX_INITIALIZER, .has_old_lists = 1}};

enum { ALL = (1 << PARTS) - 1 }; /* a set of parts has their bits */
static int bit_of(const struct part *part) { return 1 << (part - parts); }
#define FOR_PARTS(part, set) \
  for (struct part *part = parts; part < parts + PARTS; part++) if ((set) & bit_of(part))

/* What a thread has to know where a signal handler calls, forks or jumps. */
struct thread {
  char *volatile began; /* where on the stack it is in a call; null in none, and in a sleep */
  volatile int holds;   /* the parts whose locks it has */
  volatile int forks;   /* those of them that it has taken to fork */
  volatile int sleeps;  /* where its cancellation is asynchronous, and else `cancel_type` */
  int cancel_type;
  int roused_count; /* waiters that it has roused, and not woken yet */
  uint32_t *roused[WOKEN_LATER];
  struct part *begins; /* the part whose loop is to begin */
};

/* Not lazy: thread-locals that are made at their first use call malloc, which no handler may do. */
#define OF_THREAD static __thread __attribute__((tls_model("initial-exec")))
OF_THREAD struct waiter mine;
OF_THREAD struct thread thread;
static pthread_key_t ends; /* its destructor takes a thread that ends off its list */
static pid_t self;         /* this process, for which getpid makes a system call each time */

/* The size, once it is read: which parts have slots. And why no call is answered, where none is. */
static int is_read, height, sized, no_call;

/* Saves the callee-saved registers on this stack, and continues on the other, where it stopped. */
void civdrax_switch(void **from, void *to) __attribute__((visibility("hidden")));
__asm__(".text\n.globl civdrax_switch\n.hidden civdrax_switch\n"
        ".type civdrax_switch,@function\ncivdrax_switch:\npushq %rbp\npushq %rbx\n"
        "pushq %r12\npushq %r13\npushq %r14\npushq %r15\nmovq %rsp,(%rdi)\nmovq %rsi,%rsp\n"
        "popq %r15\npopq %r14\npopq %r13\npopq %r12\npopq %rbx\npopq %rbp\nret\n"
        ".size civdrax_switch,.-civdrax_switch\n");

static void go_in(struct part *part) {
  part->is_inside = 1;
  civdrax_switch(&part->outside, part->inside);
  part->is_inside = 0;
}

static void come_out(struct part *part) { civdrax_switch(&part->inside, part->outside); }
static size_t least(size_t a, size_t b) { return a < b ? a : b; }

/* Gives the bytes of the text that is sent, once the call is given and before it is answered; else
   those of the next call, for which it switches out. */
ssize_t __wrap_read(int fd, void *to, size_t n) {
  struct part *part = &parts[fd];
  const size_t all = sizeof part->call;
  if (part->given == all && part->call.kind == SEND && part->taken == 0
      && part->text_at < part->call.size) {
    n = least(n, part->call.size - part->text_at);
    memcpy(to, part->text_in + part->text_at, n);
    part->text_at += n;
    return n;
  }
  if (part->given == all) come_out(part);
  if (part->given == 0 && n == all) {
    memcpy(to, &part->call, all);
    return part->given = all;
  }
  n = least(n, all - part->given);
  memcpy(to, (char *)&part->call + part->given, n);
  part->given += n;
  return n;
}

/* Takes the bytes of the answer, of what is shown, if something is, and of the text. */
ssize_t __wrap_write(int fd, const void *from, size_t n) {
  struct part *part = &parts[fd];
  const size_t head = sizeof part->answer, end = part->answer.shown ? 2 * head : head;
  if (part->taken == 0 && n == head) {
    memcpy(&part->answer, from, head);
    return part->taken = n;
  }
  if (part->taken == end) {
    n = least(n, least(part->answer.length, part->call.size) - part->text_at);
    memcpy(part->text_out + part->text_at, from, n);
    part->text_at += n;
    return n;
  }
  n = least(n, end - part->taken);
  memcpy((char *)part + offsetof(struct part, answer) + part->taken, from, n);
  part->taken += n;
  return n;
}

static void serve(void) {
  struct part *part = thread.begins;
  part->answer.error = civdrax_serve((int)(part - parts), height, part->slots);
  part->state = NEW;
  for (;;) come_out(part);
}

/* What descriptor 2 was when the library was loaded: no inode is 0. */
static struct stat first;

/* Whether it is a terminal or the same, and no file that the program has since opened by 2. */
static int has_standard_error(void) {
  struct stat now;
  return isatty(2) || (first.st_ino && !fstat(2, &now) && now.st_dev == first.st_dev
                       && now.st_ino == first.st_ino);
}

/* A number of the environment within its limits, or -1 and a line that says so. A thread that is
   cancelled as it writes that line would keep the lock. */
static int configured(const char *name, int low, int high, int otherwise) {
  const char *text = secure_getenv(name);
  char *end;
  int kept;
  if (!text) return otherwise;
  errno = 0;
  long n = strtol(text, &end, 10);
  if (text[0] >= '0' && text[0] <= '9' && !*end && !errno && n >= low && n <= high) return n;
  pthread_setcancelstate(PTHREAD_CANCEL_DISABLE, &kept);
  if (has_standard_error())
    dprintf(2, "civdrax: %s is '%.40s': a number from %d to %d is wanted\n", name, text, low, high);
  pthread_setcancelstate(kept, &kept);
  return -1;
}

/* A waiter whose wait is over, whether or not it sleeps, is in no list and retries. */
static void unlist(struct waiter *its) {
  struct waiters *list = its->in;
  its->in = NULL;
  __atomic_store_n(&its->word, ROUSED, __ATOMIC_RELEASE);
  if (list) TAILQ_REMOVE(list, its, link);
}

static void wake(uint32_t *word) { syscall(SYS_futex, word, FUTEX_WAKE_PRIVATE, 1); }

static void rouse_one(struct waiter *its) {
  int is_later = thread.roused_count < WOKEN_LATER;
  if (is_later) thread.roused[thread.roused_count++] = &its->word;
  unlist(its);
  if (!is_later) wake(&its->word);
}

/* Whether a receipt selects messages of this type, or 0, any: the proved part decides. */
static int selects(const struct waiter *its, int64_t type) {
  if (its->type == 0 || type == 0) return 1;
  if (its->type < 0) return -type >= its->type;
  return its->flags & MSG_EXCEPT ? type != its->type : type == its->type;
}

/* Rouses those in a list that a message of this type may serve; with 0 all. */
static void rouse(struct part *part, int list, int64_t type) {
  struct waiter *its, *next = TAILQ_FIRST(&part->lists[list]);
  while ((its = next)) {
    next = TAILQ_NEXT(its, link);
    if (selects(its, type)) rouse_one(its);
  }
}

/* A lock is not held over a wait, so this spins 200 times before it blocks. */
static void acquire(struct part *part) {
  for (int tries = 0; pthread_mutex_trylock(&part->lock); tries++)
    if (tries < 200) __builtin_ia32_pause();
    else if (!pthread_mutex_lock(&part->lock)) break;
  thread.holds |= bit_of(part);
}

static int acquire_within(struct part *part, int milliseconds) {
  struct timespec end;
  clock_gettime(CLOCK_REALTIME, &end);
  end.tv_nsec += milliseconds * 1000000L;
  end.tv_sec += end.tv_nsec / 1000000000;
  end.tv_nsec %= 1000000000;
  return !pthread_mutex_timedlock(&part->lock, &end) && (thread.holds |= bit_of(part));
}

/* Makes the lists, without waiters. */
static void forget_waiters(struct part *part) {
  part->has_old_lists = 0;
  for (int list = 0; list < LISTS; list++) TAILQ_INIT(&part->lists[list]);
  if (mine.part == part) mine.in = NULL, unlist(&mine);
}

/* Releases the lock, and only then wakes those roused: else they would block once more, on it. For
   one that has ended meanwhile there is no thread to wake, and its word is not read. */
static void release(struct part *part) {
  if (part->has_old_lists) forget_waiters(part);
  thread.holds &= ~bit_of(part);
  pthread_mutex_unlock(&part->lock);
  for (int i = 0; i < thread.roused_count; i++) wake(thread.roused[i]);
  thread.roused_count = 0;
}

static void release_these(int set) { FOR_PARTS(part, set) release(part); }

/* A lock that times out may be held by a fork within a call, which waits for the others; or there
   are more threads than processors, so the next timeout is longer. */
static void acquire_all(void) {
  for (int i = 0, milliseconds = 20; i < PARTS; i++) {
    if (acquire_within(&parts[i], milliseconds)) continue;
    release_these(thread.holds);
    acquire(&parts[i]);
    release(&parts[i]);
    i = -1;
    milliseconds *= 2;
  }
}

/* A child has a copy of the queues of its own, without waiters. A handler may fork within a call:
   the child has its locks then, and continues it. Of two that do so in two parts each may not get
   the other's, which is lost in its child. */
static void before_fork(void) {
  int had = thread.holds;
  if (!had) acquire_all();
  FOR_PARTS(part, ALL & ~thread.holds) acquire_within(part, 5000);
  thread.forks = thread.holds & ~had;
}

static void in_parent(void) { release_these(thread.forks), thread.forks = 0; }

static void in_child(void) {
  self = getpid();
  FOR_PARTS(part, ALL & ~thread.holds) {
    pthread_mutex_init(&part->lock, NULL);
    part->state = LOST;
  }
  FOR_PARTS(part, ALL) part->has_old_lists = 1;
  in_parent();
}

/* A thread that is cancelled in its wait, or has left it by siglongjmp, leaves its list. */
static void leave(void *its) {
  struct waiter *waiter = its;
  struct part *part = waiter->part;
  if (!part) return;
  acquire(part);
  unlist(waiter);
  release(part);
  waiter->part = NULL;
}

/* Before any call: a fork that began before it knew of these would copy the locks as they are. */
__attribute__((constructor)) static void is_loaded(void) {
  fstat(2, &first);
  if (pthread_atfork(before_fork, in_parent, in_child)) no_call = ENOMEM;
}

/* Makes the stack of the proved part above its guard, and what is called first on it. It reserves
   addresses: memory is taken by the pages that are touched. */
static int make_stack(struct part *part) {
  int flags = MAP_PRIVATE | MAP_ANONYMOUS | MAP_NORESERVE | MAP_STACK;
  void *at = part->guard;
  if (!at) at = mmap(NULL, GUARD + STACK, PROT_READ | PROT_WRITE, flags, -1, 0);
  if (at == MAP_FAILED) return ENOMEM;
  part->guard = at;
  if (mprotect(at, GUARD, PROT_NONE)) return ENOMEM;
  void **top = (void **)(part->guard + GUARD + STACK);
  top[-2] = (void *)serve;
  part->inside = top - 8;
  return 0;
}

static void read_size(void) {
  acquire_all();
  if (!is_read) {
    height = configured("CIVDRAX_HEIGHT", 0, MAX_HEIGHT, MAX_HEIGHT);
    int slots = configured("CIVDRAX_SLOTS", 1, MAX_SLOTS, MAX_SLOTS);
    for (int i = 0; i < PARTS; i++) parts[i].slots = (slots + PARTS - 1 - i) / PARTS;
    sized = (1 << least(slots, PARTS)) - 1;
    self = getpid();
    if (height < 0 || slots < 0) no_call = ENOSYS;
    else if (pthread_key_create(&ends, leave)) no_call = ENOMEM;
    __atomic_store_n(&is_read, 1, __ATOMIC_RELEASE);
  }
  release_these(ALL);
}

/* Under the lock: begins the loop, which switches out where it reads its first call; `call` has
   that call already. 0, or why no call is answered: after ENOMEM the next call tries again. */
static int begin(struct part *part) {
  if (part->state != NEW) return part->state == LOST ? ENOTRECOVERABLE : 0;
  int error = make_stack(part);
  if (error) return error;
  part->state = RUNS;
  part->given = sizeof part->call;
  part->taken = sizeof part->answer;
  thread.begins = part;
  go_in(part);
  return part->state == RUNS ? 0 : part->answer.error;
}

/* Under the lock: has `call` answered. 0, or why it is refused. */
static int ask(struct part *part, const void *in, void *out) {
  part->answer = (struct answer){0};
  int error = begin(part);
  if (error) return error;
  part->call.moment = time(NULL);
  part->text_in = in;
  part->text_out = out;
  part->given = part->taken = part->text_at = 0;
  go_in(part);
  if (part->taken < sizeof part->answer) return ENOMEM;
  return part->answer.error;
}

/* Whether a handler makes this call, within another that the thread is in: then it is on the stack
   of a proved part, on the alternate signal stack, or further down. */
static int is_nested(const char *here) {
  stack_t own;
  FOR_PARTS(part, thread.holds)
    if (here >= part->guard && here < part->guard + GUARD + STACK) return 1;
  if (!sigaltstack(NULL, &own) && own.ss_flags & SS_ONSTACK) return 1;
  return here < thread.began - SIGNAL_FRAME;
}

/* The thread has left a call by siglongjmp, with its locks. All waiters retry, since it may have
   stopped before it roused some; the lists are whole when read forward, and then made anew. */
static void recover(void) {
  FOR_PARTS(part, thread.holds) {
    if (part->is_inside) part->state = LOST;
    for (int list = 0; list < LISTS; list++) rouse(part, list, 0);
    part->has_old_lists = 1;
    release(part);
  }
}

static ssize_t end_call(int error, ssize_t value) {
  thread.began = NULL;
  if (error) errno = error;
  return error ? -1 : value;
}

/* Begins a call; or answers 0, and errno says why not. In a handler that ran in a sleep, or after a
   jump out of one, cancellation is no longer asynchronous, and the thread is no longer in its list:
   so the sleep, if it has not begun yet, ends. */
static int begin_call(void) {
  char *here = __builtin_frame_address(0);
  if (thread.forks || (thread.began && is_nested(here))) return errno = EDEADLK, 0;
  if (thread.holds) recover();
  if (thread.sleeps) {
    int type;
    thread.sleeps = 0;
    pthread_setcanceltype(thread.cancel_type, &type);
  }
  thread.began = here;
  if (mine.part) leave(&mine);
  if (!__atomic_load_n(&is_read, __ATOMIC_ACQUIRE)) read_size();
  if (no_call) end_call(no_call, 0);
  return !no_call;
}

/* An id is that in its part times the number of parts, plus the part's; an index likewise. */
static int id_of(const struct part *part, int within) { return within * PARTS + (part - parts); }

/* Begins a call on an id, which becomes that in its part, with the part's lock; or answers null. A
   part without slots refuses all. */
static struct part *enter(int *id) {
  if (!begin_call()) return NULL;
  struct part *part = &parts[*id < 0 ? 0 : *id % PARTS];
  if (*id >= 0) *id /= PARTS;
  acquire(part);
  return part;
}

/* Sleeps until it is roused, until the deadline, or until a handler has run: 0, or why. With a
   deadline, if one that never passes, the kernel does not restart a sleep after a handler, whatever
   SA_RESTART says. */
static int sleep_until(const struct timespec *end) {
  static const struct timespec never = {.tv_sec = 1L << 32};
  struct timespec at = end ? *end : never;
  int kept = errno, error = 0;
  /* The kernel refuses a negative time. */
  if (at.tv_sec < 0) at.tv_sec = 0;
  while (!error && __atomic_load_n(&mine.word, __ATOMIC_ACQUIRE) == WAITS)
    if (syscall(SYS_futex, &mine.word, FUTEX_WAIT_BITSET_PRIVATE, WAITS, &at, NULL,
                FUTEX_BITSET_MATCH_ANY) && errno != EAGAIN)
      error = errno;
  errno = kept;
  return error;
}

/* Enters the list of the call, whose answer is to wait. */
static void enlist(struct part *part) {
  int slot = part->answer.slot, list = SENDERS + slot;
  mine.part = part;
  mine.type = (int64_t)part->call.type;
  mine.flags = part->call.flags;
  if (part->call.kind == RECEIVE) list = receivers(slot, mine.flags & MSG_EXCEPT ? 0 : mine.type);
  mine.in = &part->lists[part->answer.wait == WAIT_PAGES ? PAGERS : list];
  __atomic_store_n(&mine.word, WAITS, __ATOMIC_RELAXED);
  TAILQ_INSERT_TAIL(mine.in, &mine, link);
}

/* Under the lock, which is released meanwhile: waits in a list. A thread is cancelled in its sleep
   alone, where it has nothing to release but its place in the list. */
static int wait_in(struct part *part, const struct timespec *end) {
  struct call kept = part->call;
  char *began = thread.began;
  int error, type;
  if (pthread_setspecific(ends, &mine)) return ENOMEM;
  enlist(part);
  release(part);
  thread.began = NULL;
  pthread_cleanup_push(leave, &mine);
  thread.sleeps = 1;
  pthread_setcanceltype(PTHREAD_CANCEL_ASYNCHRONOUS, &thread.cancel_type);
  error = sleep_until(end);
  pthread_setcanceltype(thread.cancel_type, &type);
  thread.sleeps = 0;
  pthread_cleanup_pop(0);
  thread.began = began;
  acquire(part);
  unlist(&mine);
  mine.part = NULL;
  part->call = kept;
  return error;
}

/* Under the lock: makes a call, again after each wait, also after one that timed out or in which a
   handler ran: others may have changed what it waits for before it had the lock. 0, or why it is
   refused. */
static int make(struct part *part, const void *in, void *out, const struct timespec *end) {
  for (int ended = 0;; part->call.waited = 1) {
    int error = ask(part, in, out);
    if (!error || !part->answer.wait) return error;
    if (ended) return ended;
    ended = wait_in(part, end);
  }
}

/* Under the lock: has a msgget answered in this part. 0 and the id, or why it is refused. */
static int get_in(struct part *part, key_t key, int flags, int *id) {
  part->call = (struct call){.kind = GET, .number = (uint32_t)key, .flags = (uint32_t)flags};
  int error = ask(part, NULL, NULL);
  if (error) return error;
  *id = id_of(part, part->answer.value);
  if (!part->answer.changed) return 0;
  int slot = part->answer.slot;
  part->queues++;
  part->sent_by[slot] = part->received_by[slot] = 0;
  part->owner[slot] = (struct ipc_perm){.__key = key, .uid = geteuid(), .gid = getegid(),
                                        .cuid = geteuid(), .cgid = getegid(), .mode = flags & 0777,
                                        .__seq = (unsigned)part->answer.value / MAX_SLOTS};
  return 0;
}

/* Under all locks: searches for the key's queue, of which a part that has not begun has none; else
   makes one, in the first part of those that have the fewest. */
static int get(key_t key, int flags, int *id) {
  int error = ENOENT;
  FOR_PARTS(part, key == IPC_PRIVATE ? 0 : sized) {
    if (part->state == NEW && part != parts) continue;
    error = get_in(part, key, flags & ~IPC_CREAT, id);
    if (error != ENOENT) return error ? error : get_in(part, key, flags, id);
  }
  if (key != IPC_PRIVATE && !(flags & IPC_CREAT)) return error;
  for (int most = 0; most <= PART_SLOTS; most++)
    FOR_PARTS(part, sized) {
      if (part->queues > most) continue;
      error = get_in(part, key, flags, id);
      if (error != ENOSPC && error != ENOTRECOVERABLE) return error;
    }
  return error;
}

int civdrax_msgget(key_t key, int flags) {
  int id = -1;
  if (!begin_call()) return -1;
  acquire_all();
  int error = get(key, flags, &id);
  release_these(ALL);
  return end_call(error, id);
}

int civdrax_timedsnd(int id, const void *message, size_t size, int flags,
                     const struct timespec *end) {
  long type = 0;
  if (message) memcpy(&type, message, sizeof type);
  struct part *part = enter(&id);
  if (!part) return -1;
  part->call = (struct call){.kind = SEND, .number = (uint32_t)id, .flags = (uint32_t)flags,
                             .type = (uint64_t)type, .size = size, .buffer = !!message};
  int error = make(part, message ? (const char *)message + sizeof type : NULL, NULL, end);
  if (!error) {
    part->sent_by[part->answer.slot] = self;
    rouse(part, receivers(part->answer.slot, 0), type);
    rouse(part, receivers(part->answer.slot, type), type);
  }
  release(part);
  return end_call(error, 0);
}

int civdrax_msgsnd(int id, const void *message, size_t size, int flags) {
  return civdrax_timedsnd(id, message, size, flags, NULL);
}

ssize_t civdrax_timedrcv(int id, void *message, size_t size, long type, int flags,
                         const struct timespec *end) {
  struct part *part = enter(&id);
  if (!part) return -1;
  part->call = (struct call){.kind = RECEIVE, .number = (uint32_t)id, .flags = (uint32_t)flags,
                             .type = (uint64_t)type, .size = size, .buffer = !!message};
  int error = make(part, NULL, message ? (char *)message + sizeof type : NULL, end);
  ssize_t length = part->answer.value;
  if (!error) {
    type = (long)part->answer.type;
    memcpy(message, &type, sizeof type);
    part->received_by[part->answer.slot] = self;
    rouse(part, SENDERS + part->answer.slot, 0);
    rouse(part, PAGERS, 0);
  }
  release(part);
  return end_call(error, length);
}

ssize_t civdrax_msgrcv(int id, void *message, size_t size, long type, int flags) {
  return civdrax_timedrcv(id, message, size, type, flags, NULL);
}

/* Under the lock: what `shown` says of the queue in a slot. */
static void fill(struct msqid_ds *to, const struct part *part, int slot) {
  const union shown *its = &part->shown;
  *to = (struct msqid_ds){.msg_perm = part->owner[slot], .msg_stime = its->queue.stime,
                          .msg_rtime = its->queue.rtime, .msg_ctime = its->queue.ctime,
                          .__msg_cbytes = its->queue.cbytes, .msg_qnum = its->queue.qnum,
                          .msg_qbytes = its->queue.qbytes};
  if (its->queue.lspid) to->msg_lspid = part->sent_by[slot];
  if (its->queue.lrpid) to->msg_lrpid = part->received_by[slot];
}

/* The limits; of MSG_INFO three fields are what is in use. */
static void tell(struct msginfo *to, const union shown *all, int is_usage) {
  *to = (struct msginfo){.msgmax = all->usage.msgmax, .msgmnb = all->usage.msgmnb,
                         .msgmni = all->usage.slots, .msgssz = all->usage.page,
                         .msgseg = all->usage.pages};
  to->msgpool = is_usage ? all->usage.queues : all->usage.pages * all->usage.page / 1024;
  to->msgmap = is_usage ? all->usage.messages : all->usage.msgmnb;
  to->msgtql = is_usage ? all->usage.bytes : all->usage.msgmnb;
}

/* IPC_INFO and MSG_INFO, of one moment: the sum of the parts, of which one that has not begun has
   its size alone, and the greatest index in use. Of the id the sign alone matters. */
static int inform(int id, int cmd, void *buf) {
  union shown all = {0};
  int error = 0, greatest = 0;
  if (!begin_call()) return -1;
  acquire_all();
  FOR_PARTS(part, sized) {
    union shown its = {.usage = {.slots = part->slots, .pages = 1 << height}};
    if (part->state != NEW || part == parts) {
      part->call = (struct call){.kind = CONTROL, .number = (uint32_t)(id < 0 ? id : 0),
                                 .flags = (uint32_t)cmd, .buffer = !!buf};
      if ((error = ask(part, NULL, NULL))) break;
      its = part->shown;
      int index = its.usage.queues ? id_of(part, part->answer.value) : 0;
      greatest = index > greatest ? index : greatest;
    }
    for (int i = 0; i < 8; i++)
      all.numbers[i] = i < SUMMED ? all.numbers[i] + its.numbers[i] : parts->shown.numbers[i];
  }
  release_these(ALL);
  if (!error) tell(buf, &all, cmd == MSG_INFO);
  return end_call(error, greatest);
}

int civdrax_msgctl(int id, int cmd, struct msqid_ds *buf) {
  struct msqid_ds wanted = {0};
  if (cmd == IPC_SET && buf) wanted = *buf;
  if (cmd == IPC_INFO || cmd == MSG_INFO) return inform(id, cmd, buf);
  struct part *part = enter(&id);
  if (!part) return -1;
  part->call = (struct call){.kind = CONTROL, .number = (uint32_t)id, .flags = (uint32_t)cmd,
                             .size = wanted.msg_qbytes, .buffer = !!buf};
  int error = ask(part, NULL, NULL);
  int slot = part->answer.slot, value = part->answer.value;
  if (!error) {
    if (cmd == MSG_STAT || cmd == MSG_STAT_ANY) value = id_of(part, value);
    if (part->answer.shown) fill(buf, part, slot);
    if (cmd == IPC_SET) { /* the owner and the mode, of which nothing is checked */
      struct ipc_perm *its = &part->owner[slot], *to = &wanted.msg_perm;
      its->uid = to->uid, its->gid = to->gid;
      its->mode = (its->mode & ~0777) | (to->mode & 0777);
    }
    if (part->answer.changed) rouse(part, SENDERS + slot, 0);
    if (cmd == IPC_RMID) {
      part->queues--;
      for (int type = 0; type <= TYPES; type++) rouse(part, receivers(slot, type), 0);
      rouse(part, PAGERS, 0);
    }
  }
  release(part);
  return end_call(error, value);
}
