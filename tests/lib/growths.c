/* Refuses memory to a program that is started with it (LD_PRELOAD): of the growths of the program's own buffers those from the number
   GROWTH on are refused, ROW of them (1 if it is not set), and all to the end if ROW is 0; none if GROWTH is 0. Growths are counted
   from the first read of standard input or of a file on, or if EARLY is set from the start on. At the end their number is written
   into the file GROWTHS. */
#define _GNU_SOURCE
#include <errno.h>
#include <fcntl.h>
#include <stddef.h>
#include <stdio.h>
#include <stdlib.h>
#include <string.h>
#include <sys/syscall.h>
#include <unistd.h>

extern void *__libc_malloc(size_t size);
extern void *__libc_calloc(size_t count, size_t size);
extern void *__libc_realloc(void *old, size_t size);
extern void *__libc_memalign(size_t alignment, size_t size);

static int reading = 0;
static unsigned long growths = 0, refused = 0, row = 1;

__attribute__((constructor)) static void begin(void) {
  const char *growth = getenv("GROWTH");
  const char *length = getenv("ROW");
  refused = growth ? strtoul(growth, NULL, 10) : 0;
  row = length ? strtoul(length, NULL, 10) : 1;
  reading = getenv("EARLY") != NULL;
}

__attribute__((destructor)) static void end(void) {
  const char *name = getenv("GROWTHS");
  int file = name ? open(name, O_WRONLY | O_CREAT | O_TRUNC, 0644) : -1;
  if (file < 0) return;
  reading = 0;
  char text[32];
  int length = snprintf(text, sizeof text, "%lu\n", growths);
  if (write(file, text, length) != length) _exit(99);
  close(file);
}

static int is_refused(void) {
  if (!reading) return 0;
  growths++;
  if (refused == 0 || growths < refused || (row > 0 && growths >= refused + row)) return 0;
  errno = ENOMEM;
  return 1;
}

ssize_t read(int file, void *buffer, size_t size) {
  if (file == 0 || file > 2) reading = 1;
  return syscall(SYS_read, file, buffer, size);
}

void *malloc(size_t size) { return is_refused() ? NULL : __libc_malloc(size); }
void *calloc(size_t count, size_t size) { return is_refused() ? NULL : __libc_calloc(count, size); }
void *realloc(void *old, size_t size) { return is_refused() ? NULL : __libc_realloc(old, size); }
void *memalign(size_t alignment, size_t size) { return is_refused() ? NULL : __libc_memalign(alignment, size); }
void *aligned_alloc(size_t alignment, size_t size) { return memalign(alignment, size); }
int posix_memalign(void **made, size_t alignment, size_t size) {
  void *block = memalign(alignment, size);
  if (!block) return ENOMEM;
  *made = block;
  return 0;
}
