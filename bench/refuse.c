/* Refuses an allocation of a program, for bench/allocations.sh.
 *
 * Its calls of malloc and realloc are counted from 1, from its start. With REFUSE=12 in the environment the twelfth gets
 * no memory, as if none were left; with REFUSE=12- that one and all behind it. Where one was refused, the file that
 * REFUSED names has these characters then.
 */
#define _GNU_SOURCE
#include <dlfcn.h>
#include <errno.h>
#include <fcntl.h>
#include <stdlib.h>
#include <string.h>
#include <unistd.h>

static unsigned long count, first, last;
static void *(*true_malloc)(size_t);
static void *(*true_realloc)(void *, size_t);

static void look_up(void) {
  const char *number = getenv("REFUSE");
  char *end = "";
  first = last = number ? strtoul(number, &end, 10) : 0;
  if (*end == '-') last = -1;
  true_malloc = (void *(*)(size_t))dlsym(RTLD_NEXT, "malloc");
  true_realloc = (void *(*)(void *, size_t))dlsym(RTLD_NEXT, "realloc");
}

/* Tells that an allocation was refused. */
static void tell(void) {
  const char *number = getenv("REFUSE"), *name = getenv("REFUSED");
  int file = name ? open(name, O_CREAT | O_TRUNC | O_WRONLY, 0600) : -1;
  if (file < 0) return;
  if (write(file, number, strlen(number)) < 0) abort();
  close(file);
}

/* Whether the call that is at hand gets no memory. */
static int is_refused(void) {
  if (!true_malloc) look_up();
  count++;
  if (!first || count < first || count > last) return 0;
  if (count == first) tell();
  errno = ENOMEM;
  return 1;
}

void *malloc(size_t size) { return is_refused() ? 0 : true_malloc(size); }

void *realloc(void *at, size_t size) { return is_refused() ? 0 : true_realloc(at, size); }
