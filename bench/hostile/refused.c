// Refuses one allocation of a program that is started with this in front of the C library (LD_PRELOAD): the one whose number
// REFUSED names, counted from 1 over malloc, calloc, realloc, aligned_alloc, posix_memalign and pthread_create, by whichever
// threads. With STAY set all behind it are refused too. Where the number is reached the file that REACHED names is made.
#define _GNU_SOURCE
#include <dlfcn.h>
#include <errno.h>
#include <fcntl.h>
#include <pthread.h>
#include <stdatomic.h>
#include <stdlib.h>
#include <unistd.h>

extern void *__libc_malloc(size_t);
extern void *__libc_calloc(size_t, size_t);
extern void *__libc_realloc(void *, size_t);
extern void *__libc_memalign(size_t, size_t);

static atomic_long made;
static long number, stays;

// Numbers begin when the program itself does: what the loader takes before is its own.
__attribute__((constructor)) static void begin(void) {
  const char *told = getenv("REFUSED");
  stays = getenv("STAY") != NULL;
  atomic_store(&made, 0);
  number = told ? atol(told) : 0;
}

static int is_refused(void) {
  if (number == 0) return 0;
  long own = atomic_fetch_add(&made, 1) + 1;
  if (own != number && !(stays && own > number)) return 0;
  const char *path = getenv("REACHED");
  if (path && own == number) {
    int file = open(path, O_CREAT | O_WRONLY, 0600);
    if (file >= 0) close(file);
  }
  errno = ENOMEM;
  return 1;
}

void *malloc(size_t size) { return is_refused() ? NULL : __libc_malloc(size); }

void *calloc(size_t count, size_t size) { return is_refused() ? NULL : __libc_calloc(count, size); }

void *realloc(void *old, size_t size) { return is_refused() ? NULL : __libc_realloc(old, size); }

void *aligned_alloc(size_t side, size_t size) { return is_refused() ? NULL : __libc_memalign(side, size); }

int posix_memalign(void **found, size_t side, size_t size) {
  if (is_refused()) return ENOMEM;
  *found = __libc_memalign(side, size);
  return *found ? 0 : ENOMEM;
}

int pthread_create(pthread_t *thread, const pthread_attr_t *how, void *(*body)(void *), void *with) {
  static int (*real)(pthread_t *, const pthread_attr_t *, void *(*)(void *), void *);
  if (is_refused()) return EAGAIN;
  if (!real) real = dlsym(RTLD_NEXT, "pthread_create");
  return real(thread, how, body, with);
}
