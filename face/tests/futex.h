/* Stands in for the C library's `syscall`, and counts the sleeps of calls and the wakes. */
#ifndef FUTEX_H
#define FUTEX_H
#include <errno.h>
#include <linux/futex.h>
#include <stdarg.h>
#include <stdlib.h>
#include <sys/syscall.h>

static int sleep_count, wake_count;
/* What is done before each wake, and between a thread's check and its sleep, or null. */
static void (*at_wake)(void), (*at_sleep)(void);

static inline void at(void (*it)(void)) {
  if (it) it();
}

static inline void count(int operation) {
  if (operation == FUTEX_WAIT_BITSET_PRIVATE) {
    __atomic_add_fetch(&sleep_count, 1, __ATOMIC_SEQ_CST);
    at(at_sleep);
  } else if (operation == FUTEX_WAKE_PRIVATE) {
    __atomic_add_fetch(&wake_count, 1, __ATOMIC_SEQ_CST);
    at(at_wake);
  }
}

long syscall(long number, ...) {
  long words[6] = {0}, result;
  va_list its;
  if (number != SYS_futex) abort();
  va_start(its, number);
  for (int i = 0; i < 3; i++) words[i] = va_arg(its, long);
  int operation = (int)words[1], given = operation == FUTEX_WAIT_BITSET_PRIVATE ? 6 : 3;
  for (int i = 3; i < given; i++) words[i] = va_arg(its, long);
  va_end(its);
  count(operation);
  register long fourth __asm__("r10") = words[3];
  register long fifth __asm__("r8") = words[4];
  register long sixth __asm__("r9") = words[5];
  __asm__ volatile("syscall"
                   : "=a"(result)
                   : "a"(number), "D"(words[0]), "S"(words[1]), "d"(words[2]), "r"(fourth),
                     "r"(fifth), "r"(sixth)
                   : "rcx", "r11", "memory");
  if (result >= 0 || result < -4095) return result;
  errno = (int)-result;
  return -1;
}
#endif
