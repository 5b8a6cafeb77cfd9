// Replaces a file where its first reading ends, as another program may. The library stands before the C library (LD_PRELOAD). At the
// first end that a read finds, the file that REPLACEMENT names takes the place of the one that REPLACED names.

#include <stdio.h>
#include <stdlib.h>
#include <sys/syscall.h>
#include <unistd.h>

ssize_t read(int file, void *buffer, size_t length) {
  static int is_replaced;
  ssize_t count = syscall(SYS_read, file, buffer, length);
  if (count == 0 && !__sync_lock_test_and_set(&is_replaced, 1)) rename(getenv("REPLACEMENT"), getenv("REPLACED"));
  return count;
}
