/* A malloc and a realloc of which the call numbered FAIL_AT fails, from 1, for
   LD_PRELOAD; none where FAIL_AT is 0 or isn't set. It counts both together. */
#define _GNU_SOURCE
#include <dlfcn.h>
#include <errno.h>
#include <stdlib.h>

static long calls;

static int fails(void) {
  const char *at = getenv("FAIL_AT");
  long number = __atomic_add_fetch(&calls, 1, __ATOMIC_SEQ_CST);
  if (!at || number != atol(at)) return 0;
  errno = ENOMEM;
  return 1;
}

void *malloc(size_t size) {
  static void *(*real)(size_t);
  if (!real) real = dlsym(RTLD_NEXT, "malloc");
  return fails() ? 0 : real(size);
}

void *realloc(void *old, size_t size) {
  static void *(*real)(void *, size_t);
  if (!real) real = dlsym(RTLD_NEXT, "realloc");
  return fails() ? 0 : real(old, size);
}
