/* Makes one growth of a program fail: loaded before it, this refuses call REFUSED, from 1, of the functions that give memory, counted over
   the whole process, and then writes the file REACHED. */
#define _GNU_SOURCE
#include <dlfcn.h>
#include <errno.h>
#include <fcntl.h>
#include <stdatomic.h>
#include <stdlib.h>
#include <unistd.h>

static atomic_ulong calls;
static unsigned long refused;

__attribute__((constructor)) static void begin(void) {
  const char *given = getenv("REFUSED");
  refused = given ? strtoul(given, 0, 10) : 0;
  atomic_store(&calls, 0);
}

static int is_refused(void) {
  if (atomic_fetch_add(&calls, 1) + 1 != refused) return 0;
  const char *name = getenv("REACHED");
  int file = name ? open(name, O_WRONLY | O_CREAT, 0644) : -1;
  if (file >= 0) close(file);
  errno = ENOMEM;
  return 1;
}

void *malloc(size_t size) {
  static void *(*next)(size_t);
  if (!next) next = dlsym(RTLD_NEXT, "malloc");
  return is_refused() ? 0 : next(size);
}

void *realloc(void *old, size_t size) {
  static void *(*next)(void *, size_t);
  if (!next) next = dlsym(RTLD_NEXT, "realloc");
  return is_refused() ? 0 : next(old, size);
}
