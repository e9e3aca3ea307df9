/* Refuses one allocation: the one whose number, from 1, the variable REFUSE says. Every later one is served.
   Built as a shared object, it stands before the C library's own functions (LD_PRELOAD). At the program's end it
   writes to the file that REFUSE_COUNT names how many allocations were asked for. */
#define _GNU_SOURCE
#include <dlfcn.h>
#include <errno.h>
#include <stddef.h>
#include <stdio.h>
#include <stdlib.h>

static long asked, refused;

__attribute__((constructor)) static void begin(void) {
  const char *number = getenv("REFUSE");
  refused = number ? atol(number) : 0;
  asked = 0;
}

__attribute__((destructor)) static void end(void) {
  long count = asked;
  const char *name = getenv("REFUSE_COUNT");
  FILE *file = name ? fopen(name, "w") : NULL;
  if (file) {
    fprintf(file, "%ld\n", count);
    fclose(file);
  }
}

/* A program with threads ends so, and no destructor is called. */
__attribute__((noreturn)) void _exit(int status) {
  void (*next)(int) = (void (*)(int))dlsym(RTLD_NEXT, "_exit");
  end();
  next(status);
  __builtin_unreachable();
}

static int is_refused(void) {
  if (__atomic_add_fetch(&asked, 1, __ATOMIC_SEQ_CST) != refused)
    return 0;
  errno = ENOMEM;
  return 1;
}

void *malloc(size_t size) {
  static void *(*next)(size_t);
  if (!next)
    next = dlsym(RTLD_NEXT, "malloc");
  return is_refused() ? NULL : next(size);
}

void *realloc(void *old, size_t size) {
  static void *(*next)(void *, size_t);
  if (!next)
    next = dlsym(RTLD_NEXT, "realloc");
  return is_refused() ? NULL : next(old, size);
}

void *aligned_alloc(size_t alignment, size_t size) {
  static void *(*next)(size_t, size_t);
  if (!next)
    next = dlsym(RTLD_NEXT, "aligned_alloc");
  return is_refused() ? NULL : next(alignment, size);
}

int posix_memalign(void **place, size_t alignment, size_t size) {
  static int (*next)(void **, size_t, size_t);
  if (!next)
    next = dlsym(RTLD_NEXT, "posix_memalign");
  return is_refused() ? ENOMEM : next(place, alignment, size);
}
