// Ends the program at one of the calls by which it saves a file, or has this call fail. The library stands before the C library
// (LD_PRELOAD). It counts the calls that create, write, sync, rename or remove a file; what is written on a standard stream isn't
// counted. At the call END_AT the process is killed before it is done, and the call FAIL_AT fails as on a full disk. A write takes at
// most MOST bytes. Each call that was counted is a line in the file CALLS.

#include <errno.h>
#include <fcntl.h>
#include <signal.h>
#include <stdarg.h>
#include <stdlib.h>
#include <string.h>
#include <sys/stat.h>
#include <sys/syscall.h>
#include <unistd.h>

static long setting(const char *name) {
  const char *value = getenv(name);
  return value ? atol(value) : 0;
}

static void note(const char *call) {
  const char *calls = getenv("CALLS");
  if (!calls) return;
  int file = syscall(SYS_open, calls, O_WRONLY | O_CREAT | O_APPEND, 0600);
  syscall(SYS_write, file, call, strlen(call));
  syscall(SYS_write, file, "\n", 1);
  syscall(SYS_close, file);
}

// Counts a call, and says whether it fails.
static int fails(const char *call) {
  static long calls;
  calls++;
  if (calls == setting("END_AT")) kill(getpid(), SIGKILL);
  note(call);
  if (calls != setting("FAIL_AT")) return 0;
  errno = ENOSPC;
  return 1;
}

int open(const char *name, int flags, ...) {
  va_list rest;
  va_start(rest, flags);
  int rights = flags & O_CREAT ? va_arg(rest, int) : 0;
  va_end(rest);
  if (flags & O_CREAT && fails("create")) return -1;
  return syscall(SYS_open, name, flags, rights);
}

ssize_t write(int file, const void *bytes, size_t length) {
  long most = setting("MOST");
  if (file > 2) {
    if (fails("write")) return -1;
    if (most && length > (size_t)most) length = most;
  }
  return syscall(SYS_write, file, bytes, length);
}

int fsync(int file) {
  struct stat about;
  fstat(file, &about);
  if (fails(S_ISDIR(about.st_mode) ? "sync folder" : "sync file")) return -1;
  return syscall(SYS_fsync, file);
}

int rename(const char *from, const char *to) {
  return fails("rename") ? -1 : syscall(SYS_rename, from, to);
}

int unlink(const char *name) {
  return fails("remove") ? -1 : syscall(SYS_unlink, name);
}
