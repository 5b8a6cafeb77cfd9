// Interrupts every other call that reads or writes, as signals may. The library stands before the C library (LD_PRELOAD).

#include <errno.h>
#include <sys/syscall.h>
#include <unistd.h>

static int is_interrupted(void) {
  static unsigned calls;
  return __sync_fetch_and_add(&calls, 1) % 2 == 0;
}

ssize_t read(int file, void *buffer, size_t length) {
  if (!is_interrupted()) return syscall(SYS_read, file, buffer, length);
  errno = EINTR;
  return -1;
}

ssize_t write(int file, const void *bytes, size_t length) {
  if (!is_interrupted()) return syscall(SYS_write, file, bytes, length);
  errno = EINTR;
  return -1;
}
