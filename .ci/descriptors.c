/* Random calls that open and close descriptors, by four threads and by children, of which some run another program. At its end each process
   prints its number and what the kernel lists as open in it. The arguments are a seed, and "single" for calls that give one descriptor
   alone. A thread closes only what it opened, so that the order of two threads' calls doesn't matter. */
#define _GNU_SOURCE
#include <dirent.h>
#include <fcntl.h>
#include <pthread.h>
#include <stdio.h>
#include <stdlib.h>
#include <string.h>
#include <sys/epoll.h>
#include <sys/eventfd.h>
#include <sys/socket.h>
#include <sys/syscall.h>
#include <sys/wait.h>
#include <unistd.h>

enum { THREADS = 4, CALLS = 120, CHILDREN = 3, MOST = 400 };

typedef struct {
  unsigned state;
  int first; /* the first of eight numbers that are only this one's */
  int own[MOST], count;
} worker;

static int has_pairs;

static unsigned next(worker *it) {
  it->state = it->state * 1103515245u + 12345u;
  return it->state >> 16;
}

static void keep(worker *it, int descriptor) {
  if (descriptor >= 0 && it->count < MOST)
    it->own[it->count++] = descriptor;
}

static void close_one(worker *it) {
  if (it->count > 0) {
    int place = (int)(next(it) % (unsigned)it->count);
    close(it->own[place]);
    it->own[place] = it->own[--it->count];
  }
}

static void call(worker *it) {
  int pair[2], some = it->count ? it->own[next(it) % (unsigned)it->count] : 0;
  int target = it->first + (int)(next(it) % 8);
  switch (next(it) % 11) {
  case 0: keep(it, open("/dev/null", O_RDONLY | (next(it) % 2 ? O_CLOEXEC : 0))); break;
  case 1: if (has_pairs && !pipe2(pair, O_CLOEXEC)) keep(it, pair[0]), keep(it, pair[1]); break;
  case 2: dup2(some, target); break;
  case 3: if (has_pairs && !socketpair(AF_UNIX, SOCK_STREAM, 0, pair)) keep(it, pair[0]), keep(it, pair[1]); break;
  case 4: keep(it, fcntl(some, F_DUPFD, 20)); break;
  case 5: keep(it, eventfd(0, 0)); break;
  case 6: keep(it, epoll_create1(EPOLL_CLOEXEC)); break;
  case 7: syscall(SYS_close_range, target, it->first + 7, next(it) % 2 ? 4 : 0); break;
  default: close_one(it);
  }
}

static void *work(void *given) {
  for (int i = 0; i < CALLS; i++)
    call(given);
  return NULL;
}

/* Prints the number of the process and of each descriptor but the one with which they are listed. */
static void print_open(void) {
  char line[8192];
  int length = sprintf(line, "%d", getpid());
  DIR *listed = opendir("/proc/self/fd");
  for (struct dirent *it = readdir(listed); it; it = readdir(listed))
    if (it->d_name[0] != '.' && atoi(it->d_name) != dirfd(listed))
      length += sprintf(line + length, " %s", it->d_name);
  closedir(listed);
  line[length++] = '\n';
  write(1, line, (size_t)length);
}

int main(int count, char **words) {
  static worker workers[THREADS + CHILDREN];
  unsigned seed = (unsigned)atoi(words[1]);
  pthread_t threads[THREADS];
  has_pairs = count < 3 || strcmp(words[2], "single") != 0;
  if (strcmp(words[0], "again") == 0) { /* the other program */
    print_open();
    return 0;
  }
  syscall(SYS_close_range, 3, ~0u, 0);
  for (int i = 0; i < THREADS + CHILDREN; i++)
    workers[i].state = seed * 977 + (unsigned)i, workers[i].first = 600 + 8 * i;
  for (int i = 0; i < THREADS; i++)
    pthread_create(&threads[i], NULL, work, &workers[i]);
  for (int i = 0; i < THREADS; i++)
    pthread_join(threads[i], NULL);
  for (int i = 0; i < CHILDREN; i++) {
    if (fork() == 0) {
      work(&workers[THREADS + i]);
      if (i % 2)
        execl(words[0], "again", words[1], (char *)NULL);
      print_open();
      _exit(0);
    }
    wait(NULL);
  }
  print_open();
  return 0;
}
