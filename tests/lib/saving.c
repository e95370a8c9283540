/* Gives a program that is started with it (LD_PRELOAD) a disk that stops. The calls that change files are counted: a file that is opened
   to be written, a write to a file, a flush, a new name, a cut, a removal, new permissions, and closing a file. Of these, each that is set:
   KILL: before the call of this number the program is killed; FAIL: that call fails with the error ERROR; SLOW: each write to a file takes so many
   milliseconds; NO_NEW: no new file can be made; FULL: each write to a file fails, after it has taken a part; NAMES: the first so many flushes
   of a folder fail; NO_RENAME: no file gets a new name. */
#define _GNU_SOURCE
#include <errno.h>
#include <fcntl.h>
#include <signal.h>
#include <stdarg.h>
#include <stdio.h>
#include <stdlib.h>
#include <sys/stat.h>
#include <sys/syscall.h>
#include <time.h>
#include <unistd.h>

static long calls = 0;
static char is_open[1024];

static long number(const char *name) {
  const char *text = getenv(name);
  return text ? atol(text) : 0;
}

/* Counts a call. Returns whether it fails. */
static int step(void) {
  calls++;
  if (calls == number("KILL")) kill(getpid(), SIGKILL);
  if (calls == number("FAIL")) {
    errno = (int)number("ERROR");
    return 1;
  }
  return 0;
}

static int is_file(int file) {
  struct stat state;
  return file > 2 && fstat(file, &state) == 0 && S_ISREG(state.st_mode);
}

static int open_at(int at, const char *path, int flags, mode_t mode) {
  if ((flags & O_ACCMODE) != O_RDONLY) {
    if ((flags & O_EXCL) && getenv("NO_NEW")) {
      errno = EACCES;
      return -1;
    }
    if (step()) return -1;
  }
  int file = (int)syscall(SYS_openat, at, path, flags, mode);
  if (file >= 0 && file < 1024) is_open[file] = (flags & O_ACCMODE) != O_RDONLY;
  return file;
}

int open(const char *path, int flags, ...) {
  va_list more;
  va_start(more, flags);
  mode_t mode = (flags & O_CREAT) ? va_arg(more, mode_t) : 0;
  va_end(more);
  return open_at(AT_FDCWD, path, flags, mode);
}

int open64(const char *path, int flags, ...) {
  va_list more;
  va_start(more, flags);
  mode_t mode = (flags & O_CREAT) ? va_arg(more, mode_t) : 0;
  va_end(more);
  return open_at(AT_FDCWD, path, flags, mode);
}

ssize_t write(int file, const void *bytes, size_t count) {
  if (is_file(file)) {
    long slow = number("SLOW");
    struct timespec time = {slow / 1000, slow % 1000 * 1000000};
    if (slow) nanosleep(&time, NULL);
    if (getenv("FULL")) {
      static int parts = 0;
      if (parts++ || count < 2) {
        errno = ENOSPC;
        return -1;
      }
      count /= 2;
    }
    if (step()) return -1;
  }
  return syscall(SYS_write, file, bytes, count);
}

ssize_t __write(int file, const void *bytes, size_t count) { return write(file, bytes, count); }

int fsync(int file) {
  static long folders = 0;
  struct stat state;
  if (fstat(file, &state) == 0 && S_ISDIR(state.st_mode) && folders++ < number("NAMES")) {
    errno = EIO;
    return -1;
  }
  return step() ? -1 : (int)syscall(SYS_fsync, file);
}

int fchmod(int file, mode_t mode) { return step() ? -1 : (int)syscall(SYS_fchmod, file, mode); }

int ftruncate(int file, off_t size) { return step() ? -1 : (int)syscall(SYS_ftruncate, file, size); }

int rename(const char *from, const char *to) {
  if (getenv("NO_RENAME")) {
    errno = EBUSY;
    return -1;
  }
  return step() ? -1 : (int)syscall(SYS_rename, from, to);
}

int unlink(const char *path) { return step() ? -1 : (int)syscall(SYS_unlink, path); }

int close(int file) {
  if (file > 2 && file < 1024 && is_open[file]) {
    is_open[file] = 0;
    if (step()) {
      syscall(SYS_close, file);
      return -1;
    }
  }
  return (int)syscall(SYS_close, file);
}
