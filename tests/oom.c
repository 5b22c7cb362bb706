// An allocator that refuses what it is told to, to be preloaded: tests/oom.sh does so.
//
// OOM_FROM is the number of the first allocation that is refused, counted from 1; without it none is. Where OOM_ONE is set no
// other one is. OOM_TOLD names a file that is made once one was refused.
#include <errno.h>
#include <fcntl.h>
#include <stdatomic.h>
#include <stdlib.h>
#include <unistd.h>

extern void *__libc_malloc(size_t);
extern void *__libc_calloc(size_t, size_t);
extern void *__libc_realloc(void *, size_t);
extern void *__libc_memalign(size_t, size_t);

static atomic_ulong asked, from;
static int one;
static const char *told;

__attribute__((constructor)) static void begin(void) {
  const char *text = getenv("OOM_FROM");
  one = getenv("OOM_ONE") != NULL;
  told = getenv("OOM_TOLD");
  asked = 0;
  if (text != NULL) from = strtoul(text, NULL, 10);
}

static int refused(void) {
  unsigned long number = ++asked;
  if (from == 0 || number < from || (one && number > from)) return 0;
  if (told != NULL && number == from) close(open(told, O_CREAT | O_WRONLY | O_CLOEXEC, 0600));
  errno = ENOMEM;
  return 1;
}

void *malloc(size_t size) { return refused() ? NULL : __libc_malloc(size); }

void *calloc(size_t n, size_t size) { return refused() ? NULL : __libc_calloc(n, size); }

void *realloc(void *old, size_t size) { return refused() ? NULL : __libc_realloc(old, size); }

void *memalign(size_t align, size_t size) { return refused() ? NULL : __libc_memalign(align, size); }

void *aligned_alloc(size_t align, size_t size) { return memalign(align, size); }

int posix_memalign(void **out, size_t align, size_t size) {
  void *made = memalign(align, size);
  if (made == NULL) return ENOMEM;
  *out = made;
  return 0;
}
