#define _GNU_SOURCE
/* Makes one call of the program that it is loaded into (by LD_PRELOAD) fail, that with the number REFUSE_AT, from 1: of its
   allocations, or, where REFUSE_DISK is set, of the reads and writes of its database. At the end the number of calls is
   written to the file REFUSE_COUNT, where it is given. */
#include <dlfcn.h>
#include <errno.h>
#include <fcntl.h>
#include <stddef.h>
#include <stdio.h>
#include <stdlib.h>
#include <unistd.h>

extern void *__libc_malloc(size_t);
extern void *__libc_realloc(void *, size_t);

static long count, at = -1, disk;

static int is_refused(int of_disk) {
  if (at < 0) {
    const char *text = getenv("REFUSE_AT");
    at = text ? atol(text) : 0;
    disk = getenv("REFUSE_DISK") != NULL;
  }
  return of_disk == disk && ++count == at;
}

#define FAIL_OR(call) do { if (is_refused(1)) { errno = EIO; return -1; } return call; } while (0)
#define REAL(name) __typeof__(name) *real = (__typeof__(name) *)dlsym(RTLD_NEXT, #name)

void *malloc(size_t size) { return is_refused(0) ? NULL : __libc_malloc(size); }

void *realloc(void *old, size_t size) { return is_refused(0) ? NULL : __libc_realloc(old, size); }

ssize_t pread(int file, void *into, size_t size, off_t from) {
  REAL(pread);
  FAIL_OR(real(file, into, size, from));
}

ssize_t pwrite(int file, const void *bytes, size_t size, off_t to) {
  REAL(pwrite);
  FAIL_OR(real(file, bytes, size, to));
}

int fdatasync(int file) {
  REAL(fdatasync);
  FAIL_OR(real(file));
}

int fsync(int file) {
  REAL(fsync);
  FAIL_OR(real(file));
}

int ftruncate(int file, off_t size) {
  REAL(ftruncate);
  FAIL_OR(real(file, size));
}

__attribute__((destructor)) static void tell(void) {
  const char *path = getenv("REFUSE_COUNT");
  char text[32];
  int length = snprintf(text, sizeof text, "%ld\n", count);
  int file = path ? open(path, O_WRONLY | O_CREAT | O_TRUNC, 0600) : -1;
  if (file >= 0 && write(file, text, length) == length) close(file);
}
