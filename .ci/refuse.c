/* Loaded before the C library (LD_PRELOAD), this refuses the allocation with the number REFUSE (counted from 1).
   At the end of the program it writes to the file REFUSE_COUNT: the number of allocations that were asked for,
   their bytes in all, the bytes that were never freed, the number of fences (allocations of FENCE bytes), and the
   number of other allocations between the first and the second fence, the third and the fourth, and so on. */
#include <malloc.h>
#include <stdio.h>
#include <stdlib.h>

enum { FENCE = 1000003 };

void *__libc_malloc(size_t size);
void *__libc_realloc(void *old, size_t size);
void __libc_free(void *old);

static unsigned long asked, refused, bytes, live, fences, fenced;

__attribute__((constructor)) static void begin(void) {
  const char *number = getenv("REFUSE");
  refused = number ? strtoul(number, NULL, 10) : 0;
  asked = bytes = live = fences = fenced = 0;
}

__attribute__((destructor)) static void end(void) {
  unsigned long counts[] = {asked, bytes, live, fences, fenced};
  const char *path = getenv("REFUSE_COUNT");
  FILE *file = path ? fopen(path, "w") : NULL;
  if (file) {
    fprintf(file, "%lu %lu %lu %lu %lu\n", counts[0], counts[1], counts[2], counts[3], counts[4]);
    fclose(file);
  }
}

/* Counts an allocation, and returns whether it is refused. */
static int is_refused(size_t size) {
  if (size == FENCE) {
    fences++;
  } else {
    fenced += fences % 2;
    bytes += size;
  }
  return ++asked == refused;
}

static void *taken(void *block) {
  live += malloc_usable_size(block);
  return block;
}

void *malloc(size_t size) { return is_refused(size) ? NULL : taken(__libc_malloc(size)); }

void *realloc(void *old, size_t size) {
  size_t before = malloc_usable_size(old);
  void *block = is_refused(size) ? NULL : __libc_realloc(old, size);
  return block ? (live -= before, taken(block)) : NULL;
}

void free(void *old) {
  live -= malloc_usable_size(old);
  __libc_free(old);
}
