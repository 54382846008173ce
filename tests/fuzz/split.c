// Stands between the fuzzed sfcmon and its files, so that one input holds a chart and a script: the script begins behind the
// first line that is `====`. The input is the last word of the command line. The first time that it is opened it is the chart,
// each later time the script. An exit status other than 0 and 1 is a crash: no text leads to a fault of a device, and no input
// is large enough for want of memory.
// Linked by build.sh with -Wl,--wrap=open.
#define _GNU_SOURCE
#include <fcntl.h>
#include <stdarg.h>
#include <stdlib.h>
#include <string.h>
#include <sys/mman.h>
#include <unistd.h>

enum { MOST = 1 << 22 };

static const char *input;
static int opened;
static char bytes[MOST];

static void judge(int status, void *unused) {
  (void)unused;
  if (status != 0 && status != 1) abort();
}

__attribute__((constructor)) static void set_up(int argc, char **argv) {
  if (argc > 2) input = argv[argc - 1];
  on_exit(judge, NULL);
}

int __real_open(const char *path, int flags, mode_t mode);

// A file in memory that has these bytes, to be read from its front.
static int file_of(const char *from, size_t size) {
  int file = memfd_create("part", 0);
  if (file < 0 || write(file, from, size) != (ssize_t)size || lseek(file, 0, SEEK_SET)) abort();
  return file;
}

// All bytes of the input, and how many there are.
static size_t taken(void) {
  int file = __real_open(input, O_RDONLY, 0);
  size_t size = 0;
  ssize_t more = 1;
  if (file < 0) abort();
  while (more > 0 && size < MOST) {
    more = read(file, bytes + size, MOST - size);
    if (more > 0) size += (size_t)more;
  }
  close(file);
  return size;
}

int __wrap_open(const char *path, int flags, ...) {
  va_list more;
  va_start(more, flags);
  mode_t mode = flags & O_CREAT ? va_arg(more, mode_t) : 0;
  va_end(more);
  if (!input || strcmp(path, input)) return __real_open(path, flags, mode);
  size_t size = taken();
  char *mark = memmem(bytes, size, "\n====\n", 6);
  size_t chart = mark ? (size_t)(mark - bytes) + 1 : size;
  size_t script = mark ? chart + 5 : size;
  return opened++ ? file_of(bytes + script, size - script) : file_of(bytes, chart);
}
