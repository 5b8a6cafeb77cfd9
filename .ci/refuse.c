// Refuses one allocation. The library stands before the C library (LD_PRELOAD) and replaces the calls that give
// memory.
//
// A whole run is tried with REFUSED_ALLOCATION=N in its environment: allocation N, counted from the program's start,
// is refused, and 'refused' goes to file 9. A program that tries one call after the other (crates/allocation_trials)
// says when a call begins and ends. It can do so only by a call of the C library that takes a name of its choice, and
// that is the look at its environment: where it asks for the variable REFUSE_ALLOCATION_N, allocation N, counted from
// there on, is refused, and where it asks for ALLOCATION_REFUSED, none is any more, and the answer is whether one was.

extern char **environ;
extern void *__libc_malloc(unsigned long size);
extern void *__libc_realloc(void *block, unsigned long size);
extern long write(int file, const void *bytes, unsigned long count);

static long refused_allocation; // counted from 1; 0: none is refused
static long allocations;
static int was_refused;

static int is_refused(void) {
  if (!refused_allocation || __sync_add_and_fetch(&allocations, 1) != refused_allocation) return 0;
  was_refused = 1;
  write(9, "refused\n", 8);
  return 1;
}

void *malloc(unsigned long size) {
  return is_refused() ? 0 : __libc_malloc(size);
}

void *realloc(void *block, unsigned long size) {
  return is_refused() ? 0 : __libc_realloc(block, size);
}

static void refuse(long allocation) {
  allocations = was_refused = 0;
  refused_allocation = allocation;
}

// What follows the prefix, if the text begins with it.
static const char *after(const char *prefix, const char *text) {
  while (*prefix && *prefix == *text) prefix++, text++;
  return *prefix ? 0 : text;
}

static long number(const char *digits) {
  long number = 0;
  for (; *digits >= '0' && *digits <= '9'; digits++) number = 10 * number + *digits - '0';
  return number;
}

// The value of a variable of the environment.
static char *value(char **environment, const char *name) {
  for (; environment && *environment; environment++) {
    const char *rest = after(name, *environment);
    if (rest && *rest == '=') return (char *)rest + 1;
  }
  return 0;
}

char *getenv(const char *name) {
  const char *allocation = after("REFUSE_ALLOCATION_", name);
  if (allocation) {
    refuse(number(allocation));
    return 0;
  }
  if (after("ALLOCATION_REFUSED", name)) {
    refused_allocation = 0;
    return was_refused ? "yes" : "no";
  }
  return value(environ, name);
}

__attribute__((constructor)) static void begin(int words, char **word, char **environment) {
  const char *allocation = value(environment, "REFUSED_ALLOCATION");
  if (allocation) refuse(number(allocation));
}
