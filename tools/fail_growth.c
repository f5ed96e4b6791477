/* Refuses one growth of memory: the N-th call of malloc, realloc or an aligned form, N from the environment variable FAIL_GROWTH,
   counted from 1. fail_growths.sh compiles it and loads it before the program. */
#define _GNU_SOURCE
#include <dlfcn.h>
#include <errno.h>
#include <stdlib.h>

static long refused = -1, calls = 0;

static int fails(void) {
  if (refused == -1) {
    const char *number = getenv("FAIL_GROWTH");
    refused = number ? atol(number) : 0;
  }
  if (refused > 0 && ++calls == refused) {
    errno = ENOMEM;
    return 1;
  }
  return 0;
}

#define REAL(name) if (!real) real = dlsym(RTLD_NEXT, name)

void *malloc(size_t size) {
  static void *(*real)(size_t);
  REAL("malloc");
  return fails() ? 0 : real(size);
}

void *realloc(void *old, size_t size) {
  static void *(*real)(void *, size_t);
  REAL("realloc");
  return fails() ? 0 : real(old, size);
}

void *aligned_alloc(size_t alignment, size_t size) {
  static void *(*real)(size_t, size_t);
  REAL("aligned_alloc");
  return fails() ? 0 : real(alignment, size);
}

int posix_memalign(void **to, size_t alignment, size_t size) {
  static int (*real)(void **, size_t, size_t);
  REAL("posix_memalign");
  return fails() ? ENOMEM : real(to, alignment, size);
}
