/* Loaded before the C library, it refuses one growth of a program: the one with the number REFUSED in the environment,
 * from 1 on. At the end it writes how many there were to the file that COUNTED names. */
#define _GNU_SOURCE
#include <dlfcn.h>
#include <stdio.h>
#include <stdlib.h>

static unsigned long growths, refused;

static int is_refused(void) {
  if (growths == 0) {
    const char *number = getenv("REFUSED");
    refused = number ? strtoul(number, NULL, 10) : 0;
  }
  growths += 1;
  return growths == refused;
}

void *malloc(size_t size) {
  static void *(*next)(size_t);
  if (next == NULL) next = dlsym(RTLD_NEXT, "malloc");
  return is_refused() ? NULL : next(size);
}

void *realloc(void *old, size_t size) {
  static void *(*next)(void *, size_t);
  if (next == NULL) next = dlsym(RTLD_NEXT, "realloc");
  return is_refused() ? NULL : next(old, size);
}

__attribute__((destructor)) static void tell(void) {
  const char *name = getenv("COUNTED");
  unsigned long count = growths;
  FILE *file = name ? fopen(name, "w") : NULL;
  if (file == NULL) return;
  fprintf(file, "%lu\n", count);
  fclose(file);
}
