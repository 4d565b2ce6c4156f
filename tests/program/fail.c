/* Placed before the C library, fails allocations, and reads and writes of the standard streams. FAILED_ALLOCATION is the number of
   the allocation that fails, counted from 1, whose bytes are written to descriptor 3; 0 writes those of each and fails none.
   FAILED_SIZE fails those of so many bytes. FAILED_READ and FAILED_WRITE are the numbers of the read and the write that fail, with
   those after it; a call after a failed one is written to descriptor 3. SHORT_READ and SHORT_WRITE are the most bytes that one
   moves; a write of 0 bytes takes none. */
#define _GNU_SOURCE
#include <errno.h>
#include <stdio.h>
#include <stdlib.h>
#include <sys/syscall.h>
#include <unistd.h>

void *__libc_malloc(size_t);
void *__libc_calloc(size_t, size_t);
void *__libc_realloc(void *, size_t);
void *__libc_memalign(size_t, size_t);

static long number_of(const char *name) {
  const char *number = getenv(name);
  return number ? atol(number) : -1;
}

static void say(long number) {
  char text[32];
  int length = snprintf(text, sizeof text, "%ld\n", number);
  if (syscall(SYS_write, 3, text, length) != length)
    _exit(3);
}

static int is_failed(size_t size) {
  static long count;
  long number = number_of("FAILED_ALLOCATION");
  count++;
  if (number == 0 || number == count)
    say((long)size);
  return number == count || number_of("FAILED_SIZE") == (long)size;
}

void *malloc(size_t size) { return is_failed(size) ? NULL : __libc_malloc(size); }

void *calloc(size_t count, size_t size) { return is_failed(count * size) ? NULL : __libc_calloc(count, size); }

void *realloc(void *old, size_t size) { return is_failed(size) ? NULL : __libc_realloc(old, size); }

void *aligned_alloc(size_t alignment, size_t size) { return is_failed(size) ? NULL : __libc_memalign(alignment, size); }

int posix_memalign(void **made, size_t alignment, size_t size) {
  *made = aligned_alloc(alignment, size);
  return *made ? 0 : ENOMEM;
}

/* A call of a standard stream, where this is the number of calls so far. */
static ssize_t move(long call, int file, void *bytes, size_t size, long count, const char *failed, const char *most) {
  long number = number_of(failed), limit = number_of(most);
  if (number >= 0 && count > number)
    say(count);
  if (number >= 0 && count >= number) {
    errno = EIO;
    return -1;
  }
  size = limit >= 0 && (size_t)limit < size ? (size_t)limit : size;
  return size || call == SYS_read ? syscall(call, file, bytes, size) : 0;
}

ssize_t read(int file, void *bytes, size_t size) {
  static long count;
  return file ? syscall(SYS_read, file, bytes, size) : move(SYS_read, file, bytes, size, ++count, "FAILED_READ", "SHORT_READ");
}

ssize_t write(int file, const void *bytes, size_t size) {
  static long count;
  return file != 1 ? syscall(SYS_write, file, bytes, size) : move(SYS_write, file, (void *)bytes, size, ++count, "FAILED_WRITE", "SHORT_WRITE");
}
