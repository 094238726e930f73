/* Lets one allocation of a program fail:
 *
 *   FAIL_ALLOC=N LD_PRELOAD=fail_alloc.so PROGRAM     the allocation of number N, from 1, is refused
 *
 * If COUNT_ALLOC is a path, the number of allocations is written there as the program ends. */
#include <stddef.h>
#include <stdio.h>
#include <stdlib.h>

extern void *__libc_malloc(size_t);
extern void *__libc_realloc(void *, size_t);

static long count, refused = -1;

static int is_refused(void) {
  if (refused < 0) {
    const char *word = getenv("FAIL_ALLOC");
    refused = word ? atol(word) : 0;
  }
  return ++count == refused;
}

void *malloc(size_t size) { return is_refused() ? NULL : __libc_malloc(size); }

void *realloc(void *old, size_t size) { return is_refused() ? NULL : __libc_realloc(old, size); }

__attribute__((destructor)) static void say(void) {
  const char *path = getenv("COUNT_ALLOC");
  long found = count;
  FILE *file = path ? fopen(path, "w") : NULL;
  if (file) {
    fprintf(file, "%ld\n", found);
    fclose(file);
  }
}
