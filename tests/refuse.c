// Stands between sfcmon and the C library, and makes one thing fail. The environment says which:
//   SFC_REFUSE=alloc:N    the Nth allocation is refused, counted from 1
//   SFC_REFUSE=pair:N     the Nth allocation and the one behind it are refused
//   SFC_REFUSE=read:N     the Nth read fails
//   SFC_REFUSE=take:K     reads give K bytes in all, and then fail
//   SFC_REFUSE=write:K    standard output takes K bytes in all, and then fails
//   SFC_REFUSE=full:K     standard output takes K bytes in all, and then none, without failing
//   SFC_SHORT=1           each read and each write moves one byte
//   SFC_COUNTS=FILE       the numbers of allocations and reads are written to this file at the end
// Built by refused.sh: cc -shared -fPIC -o refuse.so refuse.c -ldl
#define _GNU_SOURCE
#include <dlfcn.h>
#include <errno.h>
#include <fcntl.h>
#include <stdio.h>
#include <stdlib.h>
#include <string.h>
#include <unistd.h>

enum kind { NOTHING, ALLOCATION, READ, TAKE, WRITE, FULL };

static enum kind wanted = NOTHING;
static long limit, allocations, reads, taken, written;
static int is_ready, is_short, is_pair;

__attribute__((constructor)) static void set_up(void) {
  const char *word = getenv("SFC_REFUSE");
  if (word && !strncmp(word, "alloc:", 6)) { wanted = ALLOCATION; limit = atol(word + 6); }
  if (word && !strncmp(word, "pair:", 5)) { wanted = ALLOCATION; is_pair = 1; limit = atol(word + 5); }
  if (word && !strncmp(word, "read:", 5)) { wanted = READ; limit = atol(word + 5); }
  if (word && !strncmp(word, "take:", 5)) { wanted = TAKE; limit = atol(word + 5); }
  if (word && !strncmp(word, "full:", 5)) { wanted = FULL; limit = atol(word + 5); }
  if (word && !strncmp(word, "write:", 6)) { wanted = WRITE; limit = atol(word + 6); }
  is_short = getenv("SFC_SHORT") != NULL;
  is_ready = 1;
}

static void *next_of(const char *name) { return dlsym(RTLD_NEXT, name); }

__attribute__((destructor)) static void report(void) {
  const char *file = getenv("SFC_COUNTS");
  char text[80];
  is_ready = 0;
  if (!file) return;
  int target = open(file, O_WRONLY | O_CREAT | O_TRUNC, 0600);
  if (target < 0) return;
  int length = snprintf(text, sizeof text, "%ld %ld\n", allocations, reads);
  ssize_t (*real)(int, const void *, size_t) = next_of("write");
  if (real(target, text, (size_t)length) < 0) abort();
  close(target);
}

// A program with threads ends by this, and no destructor runs.
void _exit(int status) {
  void (*real)(int) = next_of("_exit");
  report();
  real(status);
  __builtin_unreachable();
}

static int is_refused(void) {
  if (!is_ready) return 0;
  long number = __atomic_add_fetch(&allocations, 1, __ATOMIC_SEQ_CST);
  return wanted == ALLOCATION && (number == limit || (is_pair && number == limit + 1));
}

void *malloc(size_t size) {
  static void *(*real)(size_t);
  if (!real) real = next_of("malloc");
  if (is_refused()) { errno = ENOMEM; return NULL; }
  return real(size);
}

void *realloc(void *block, size_t size) {
  static void *(*real)(void *, size_t);
  if (!real) real = next_of("realloc");
  if (is_refused()) { errno = ENOMEM; return NULL; }
  return real(block, size);
}

void *aligned_alloc(size_t alignment, size_t size) {
  static void *(*real)(size_t, size_t);
  if (!real) real = next_of("aligned_alloc");
  if (is_refused()) { errno = ENOMEM; return NULL; }
  return real(alignment, size);
}

int posix_memalign(void **block, size_t alignment, size_t size) {
  static int (*real)(void **, size_t, size_t);
  if (!real) real = next_of("posix_memalign");
  return is_refused() ? ENOMEM : real(block, alignment, size);
}

ssize_t read(int file, void *buffer, size_t size) {
  static ssize_t (*real)(int, void *, size_t);
  if (!real) real = next_of("read");
  if (!is_ready) return real(file, buffer, size);
  reads++;
  if (wanted == READ && reads == limit) { errno = EIO; return -1; }
  if (is_short && size > 1) size = 1;
  if (wanted == TAKE) {
    if (taken >= limit) { errno = EIO; return -1; }
    if ((long)size > limit - taken) size = (size_t)(limit - taken);
  }
  ssize_t count = real(file, buffer, size);
  if (count > 0) taken += count;
  return count;
}

ssize_t write(int file, const void *buffer, size_t size) {
  static ssize_t (*real)(int, const void *, size_t);
  if (!real) real = next_of("write");
  if (!is_ready || file != 1) return real(file, buffer, size);
  if (is_short && size > 1) size = 1;
  if (wanted == WRITE || wanted == FULL) {
    if (written >= limit && wanted == FULL) return 0;
    if (written >= limit) { errno = EIO; return -1; }
    if ((long)size > limit - written) size = (size_t)(limit - written);
  }
  ssize_t count = real(file, buffer, size);
  if (count > 0) written += count;
  return count;
}

ssize_t __write(int file, const void *buffer, size_t size) { return write(file, buffer, size); }
