/* Gives a program that is started with it (LD_PRELOAD) other devices for standard input and standard output. Of these, each that is set:
   PIECE: a read returns so many bytes at most; READ: the read of this number fails; WRITE: after so many bytes a write fails;
   WRITES: after so many writes a write fails;
   READ_INTERRUPTED, WRITE_INTERRUPTED: so many reads, or writes, are interrupted, and the next ones are not.
   FILE_READ, FILE_WRITE: of the reads, or writes, of files the one of this number fails. */
#include <errno.h>
#include <stddef.h>
#include <stdlib.h>
#include <sys/syscall.h>
#include <sys/types.h>
#include <unistd.h>

static long piece, failing_read, last_byte = -1, last_write = -1, interrupted_reads, interrupted_writes, failing_file_read, failing_file_write;
static long reads = 0, writes = 0, file_reads = 0, file_writes = 0, written = 0;

static long number(const char *name, long missing) {
  const char *text = getenv(name);
  return text ? atol(text) : missing;
}

__attribute__((constructor)) static void begin(void) {
  piece = number("PIECE", 0);
  failing_read = number("READ", 0);
  last_byte = number("WRITE", -1);
  last_write = number("WRITES", -1);
  interrupted_reads = number("READ_INTERRUPTED", 0);
  interrupted_writes = number("WRITE_INTERRUPTED", 0);
  failing_file_read = number("FILE_READ", 0);
  failing_file_write = number("FILE_WRITE", 0);
}

static ssize_t fail(int with) {
  errno = with;
  return -1;
}

ssize_t read(int file, void *buffer, size_t size) {
  if (file > 2 && ++file_reads == failing_file_read) return fail(EIO);
  if (file != 0) return syscall(SYS_read, file, buffer, size);
  if (interrupted_reads > 0) {
    interrupted_reads--;
    return fail(EINTR);
  }
  if (++reads == failing_read) return fail(EIO);
  if (piece > 0 && size > (size_t)piece) size = piece;
  return syscall(SYS_read, file, buffer, size);
}

ssize_t write(int file, const void *buffer, size_t size) {
  if (file > 2 && ++file_writes == failing_file_write) return fail(ENOSPC);
  if (file != 1) return syscall(SYS_write, file, buffer, size);
  if (interrupted_writes > 0) {
    interrupted_writes--;
    return fail(EINTR);
  }
  if (last_write >= 0 && ++writes > last_write) return fail(ENOSPC);
  if (last_byte >= 0) {
    if (written >= last_byte) return fail(ENOSPC);
    if (size > (size_t)(last_byte - written)) size = last_byte - written;
  }
  ssize_t done = syscall(SYS_write, file, buffer, size);
  if (done > 0) written += done;
  return done;
}

ssize_t __write(int file, const void *buffer, size_t size) { return write(file, buffer, size); }
