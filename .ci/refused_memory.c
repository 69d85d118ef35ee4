// A library that is loaded before a program (LD_PRELOAD) and refuses one of its allocations: the one whose number, from 1 and over
// all threads, the variable REFUSED_ALLOCATION gives. That the program came to it is told at once, by a byte on the
// descriptor that REFUSED_TOLD_ON gives.
//
// Counted is what is asked for once the loader has done its work: what the program asks for, and the C library for it, as when
// a thread is made. What is given is the C library's own memory, so `free` stays as it is.
#include <errno.h>
#include <stdatomic.h>
#include <stddef.h>
#include <stdlib.h>
#include <unistd.h>

// The C library's own calls, under their second names.
void *__libc_malloc(size_t size);
void *__libc_calloc(size_t count, size_t size);
void *__libc_realloc(void *block, size_t size);
void *__libc_memalign(size_t align, size_t size);

static atomic_ulong asked;
static unsigned long refused;
static int told_on;

static unsigned long number_of(const char *variable) {
  const char *text = getenv(variable);
  return text ? strtoul(text, NULL, 10) : 0;
}

__attribute__((constructor)) static void begin(void) {
  told_on = (int)number_of("REFUSED_TOLD_ON");
  atomic_store(&asked, 0);
  refused = number_of("REFUSED_ALLOCATION");
}

static int is_refused(void) {
  if (refused == 0 || atomic_fetch_add(&asked, 1) + 1 != refused)
    return 0;
  // There is nobody to tell where this can't be written; the run then counts as one that didn't come here.
  (void)!write(told_on, "!", 1);
  errno = ENOMEM;
  return 1;
}

void *malloc(size_t size) { return is_refused() ? NULL : __libc_malloc(size); }

void *calloc(size_t count, size_t size) { return is_refused() ? NULL : __libc_calloc(count, size); }

void *realloc(void *block, size_t size) { return is_refused() ? NULL : __libc_realloc(block, size); }

void *memalign(size_t align, size_t size) { return is_refused() ? NULL : __libc_memalign(align, size); }

void *aligned_alloc(size_t align, size_t size) { return memalign(align, size); }

int posix_memalign(void **block, size_t align, size_t size) {
  void *given = memalign(align, size);
  if (given == NULL)
    return ENOMEM;
  *block = given;
  return 0;
}
