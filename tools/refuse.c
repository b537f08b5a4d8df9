/* An allocator for trials: the growth whose number is in REFUSE_AT, counted from 1, is refused, and every other is
 * passed on to the C library. At the end the number of growths that were asked for is written into the file that
 * COUNT_TO names. Preloaded by refused_memory.py; no part of the program. */
#include <errno.h>
#include <stddef.h>
#include <stdio.h>
#include <stdlib.h>

extern void *__libc_malloc(size_t);
extern void *__libc_calloc(size_t, size_t);
extern void *__libc_realloc(void *, size_t);
extern void *__libc_memalign(size_t, size_t);

static unsigned long refused, count;

__attribute__((constructor)) static void begin(void) {
  const char *number = getenv("REFUSE_AT");
  refused = number ? strtoul(number, NULL, 10) : 0;
  count = 0;
}

__attribute__((destructor)) static void end(void) {
  unsigned long asked = count;
  const char *name = getenv("COUNT_TO");
  FILE *file = name ? fopen(name, "w") : NULL;
  if (!file) return;
  fprintf(file, "%lu\n", asked);
  fclose(file);
}

static int is_refused(void) {
  count += 1;
  if (count != refused) return 0;
  errno = ENOMEM;
  return 1;
}

void *malloc(size_t size) { return is_refused() ? NULL : __libc_malloc(size); }

void *calloc(size_t items, size_t size) { return is_refused() ? NULL : __libc_calloc(items, size); }

void *realloc(void *block, size_t size) { return is_refused() ? NULL : __libc_realloc(block, size); }

void *aligned_alloc(size_t alignment, size_t size) {
  return is_refused() ? NULL : __libc_memalign(alignment, size);
}

void *memalign(size_t alignment, size_t size) { return is_refused() ? NULL : __libc_memalign(alignment, size); }

int posix_memalign(void **block, size_t alignment, size_t size) {
  if (is_refused()) return ENOMEM;
  *block = __libc_memalign(alignment, size);
  return *block ? 0 : ENOMEM;
}
