/* Loaded before the C library (LD_PRELOAD), this counts the reads of each opened file, in the order of opening,
   and makes one read fail: that of file READS_FILE (counted from 1) after READS_BYTES bytes, with the error
   READS_ERROR, or EIO. No read gives more than READS_MOST bytes, if that is given. The file with the name
   READS_UNOPENED isn't opened, with the same error. At the end of the program it
   writes a line for each file to the file READS_COUNT: the number of reads, the number of bytes that were read, and
   the number of reads after an end or a failure. */
#define _GNU_SOURCE
#include <errno.h>
#include <fcntl.h>
#include <stdarg.h>
#include <stdio.h>
#include <stdlib.h>
#include <string.h>
#include <sys/resource.h>
#include <sys/syscall.h>
#include <unistd.h>

enum { MOST = 16 };

static struct { int fd, is_over; unsigned long reads, given, after; } files[MOST];
static int opened, failing, error;
static unsigned long bytes, most;
static const char *unopened;

__attribute__((constructor)) static void begin(void) {
  const char *file = getenv("READS_FILE"), *count = getenv("READS_BYTES"), *piece = getenv("READS_MOST");
  const char *number = getenv("READS_ERROR");
  unopened = getenv("READS_UNOPENED");
  failing = file ? atoi(file) : 0;
  bytes = count ? strtoul(count, NULL, 10) : 0;
  error = number && *number ? atoi(number) : EIO;
  most = piece ? strtoul(piece, NULL, 10) : -1ul;
}

__attribute__((destructor)) static void end(void) {
  const char *path = getenv("READS_COUNT");
  struct rlimit size;
  // the size of files may be limited for the program
  if (!getrlimit(RLIMIT_FSIZE, &size)) size.rlim_cur = size.rlim_max, setrlimit(RLIMIT_FSIZE, &size);
  FILE *out = path ? fopen(path, "w") : NULL;
  if (!out) return;
  for (int i = 0; i < opened; i++) fprintf(out, "%lu %lu %lu\n", files[i].reads, files[i].given, files[i].after);
  fclose(out);
}

int open(const char *path, int flags, ...) {
  if (unopened && !strcmp(path, unopened)) return errno = error, -1;
  va_list more;
  va_start(more, flags);
  int fd = syscall(SYS_openat, AT_FDCWD, path, flags, va_arg(more, int));
  va_end(more);
  if (fd >= 0 && opened < MOST) files[opened++].fd = fd;
  return fd;
}

int close(int fd) {
  for (int i = 0; i < opened; i++)
    if (files[i].fd == fd) files[i].fd = -1;
  return syscall(SYS_close, fd);
}

static ssize_t read_file(int i, void *buffer, size_t size) {
  files[i].reads++;
  files[i].after += files[i].is_over;
  int fails = i + 1 == failing;
  size_t left = fails ? bytes - files[i].given : size;
  if (most < size) size = most;
  ssize_t got = fails && !left ? -1 : syscall(SYS_read, files[i].fd, buffer, left < size ? left : size);
  if (fails && !left) errno = error;
  files[i].is_over = got <= 0;
  files[i].given += got > 0 ? got : 0;
  return got;
}

ssize_t read(int fd, void *buffer, size_t size) {
  for (int i = 0; i < opened; i++)
    if (files[i].fd == fd) return read_file(i, buffer, size);
  return syscall(SYS_read, fd, buffer, size);
}
