/* Refuses one call for memory of the program that it is loaded into: the one whose number stands in REFUSED, from 1 on. Then a
   byte is written to the descriptor of which the number stands in TOLD. The program takes memory by malloc and
   realloc alone. tests/refused-memory builds and loads this. */
#define _GNU_SOURCE
#include <dlfcn.h>
#include <errno.h>
#include <stdlib.h>
#include <unistd.h>

static long number_in(const char *name) {
  const char *text = getenv(name);
  return text ? atol(text) : -1;
}

static int is_refused(void) {
  static long calls, refused;
  if (refused == 0)
    refused = number_in("REFUSED");
  if (++calls != refused)
    return 0;
  if (write((int)number_in("TOLD"), "r", 1) != 1)
    abort();
  errno = ENOMEM;
  return 1;
}

/* The call of the library that is loaded after this one. */
#define FIND(real, name) ((real) ? (void)0 : (void)((real) = (__typeof__(real))dlsym(RTLD_NEXT, name)))

void *malloc(size_t size) {
  static void *(*real)(size_t);
  FIND(real, "malloc");
  return is_refused() ? NULL : real(size);
}

void *calloc(size_t count, size_t size) {
  static void *(*real)(size_t, size_t);
  FIND(real, "calloc");
  return is_refused() ? NULL : real(count, size);
}

void *realloc(void *block, size_t size) {
  static void *(*real)(void *, size_t);
  FIND(real, "realloc");
  return is_refused() ? NULL : real(block, size);
}
