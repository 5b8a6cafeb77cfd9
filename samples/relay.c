/* A relay reads the files with its routes, and runs a program. It leaks descriptors: samples/README.md tells how. */
#include <fcntl.h>
#include <sys/wait.h>
#include <unistd.h>

static int start_log(void) {
  return open("relay.log", O_WRONLY | O_CREAT | O_APPEND | O_CLOEXEC, 0644);
}

static void end_log(int log) {
  write(log, "end\n", 4);
  close(log);
}

/* How many routes a file has: one or none. */
static int read_route(const char *path) {
  char route[80];
  int file = open(path, O_RDONLY);
  if (read(file, route, sizeof route) <= 0)
    return 0; /* the leak: the file is empty, and stays open */
  close(file);
  return 1;
}

/* Runs a program, to which goes what is open here and isn't closed at exec. */
static void run(char *program) {
  char *words[] = {program, NULL};
  if (fork() == 0) {
    execv(program, words);
    _exit(127);
  }
  wait(NULL);
}

int main(int count, char **paths) {
  int log = start_log(), routes = 0;
  for (int i = 1; i < count; i++)
    routes += read_route(paths[i]);
  if (routes > 0)
    run("/bin/true");
  end_log(log);
  close(log); /* once too often */
  return 0;
}
