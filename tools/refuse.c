// Makes calls of a program fail: its requests for memory, its reads of standard input, its writes to standard output, and
// its starts of threads. It is loaded before the C library (LD_PRELOAD), and hands every other call on.
// tools/tests/refusing.py builds it.
//
//   FAIL_WHAT   what fails: memory (also without the word), read, write or thread
//   FAIL_NTH    which call of that kind fails, counted from 1; without it none does
//   FAIL_ON     where it is set, all after that one fail too
//   TAKE_NONE   where it is set, a write that would fail takes no byte instead
//   SHORT_IO    where it is set, each read and each write moves one byte
//   TOLD        the file to which it writes, at the program's end, how many calls of each kind there were, in the order
//               above, and last how many threads were started and never joined
#define _GNU_SOURCE
#include <dlfcn.h>
#include <errno.h>
#include <fcntl.h>
#include <pthread.h>
#include <stdatomic.h>
#include <stdio.h>
#include <stdlib.h>
#include <string.h>
#include <sys/types.h>
#include <unistd.h>

enum { MEMORY, READ, WRITE, THREAD, KINDS };

static const char *const names[KINDS] = {"memory", "read", "write", "thread"};
static atomic_long asked[KINDS];
static atomic_long unjoined;
static int kind;
static long first;
static int all_after, take_none, short_io;
static void *(*next_malloc)(size_t);
static void *(*next_realloc)(void *, size_t);
static void *(*next_aligned_alloc)(size_t, size_t);
static int (*next_posix_memalign)(void **, size_t, size_t);
static ssize_t (*next_read)(int, void *, size_t);
static ssize_t (*next_write)(int, const void *, size_t);
static int (*next_create)(pthread_t *, const pthread_attr_t *, void *(*)(void *), void *);
static int (*next_join)(pthread_t, void **);
static void (*next_exit)(int) __attribute__((noreturn));

static void find_next(void) {
  next_realloc = dlsym(RTLD_NEXT, "realloc");
  next_aligned_alloc = dlsym(RTLD_NEXT, "aligned_alloc");
  next_posix_memalign = dlsym(RTLD_NEXT, "posix_memalign");
  next_read = dlsym(RTLD_NEXT, "read");
  next_write = dlsym(RTLD_NEXT, "write");
  next_create = dlsym(RTLD_NEXT, "pthread_create");
  next_join = dlsym(RTLD_NEXT, "pthread_join");
  next_exit = dlsym(RTLD_NEXT, "_exit");
  next_malloc = dlsym(RTLD_NEXT, "malloc");
}

__attribute__((constructor)) static void begin(void) {
  const char *nth = getenv("FAIL_NTH"), *what = getenv("FAIL_WHAT");
  find_next();
  for (int k = 0; what && k < KINDS; k++)
    if (!strcmp(what, names[k])) kind = k;
  all_after = getenv("FAIL_ON") != NULL;
  take_none = getenv("TAKE_NONE") != NULL;
  short_io = getenv("SHORT_IO") != NULL;
  first = nth ? atol(nth) : 0;
}

__attribute__((destructor)) static void tell(void) {
  const char *told = getenv("TOLD");
  char line[160];
  if (!told) return;
  int length = snprintf(line, sizeof line, "%ld %ld %ld %ld %ld\n", atomic_load(&asked[MEMORY]), atomic_load(&asked[READ]),
                        atomic_load(&asked[WRITE]), atomic_load(&asked[THREAD]), atomic_load(&unjoined));
  int file = open(told, O_WRONLY | O_CREAT | O_TRUNC, 0600);
  if (file < 0) return;
  if (next_write(file, line, length) != length) unlink(told);
  close(file);
}

// The program ends by this call, at which no destructor runs.
void _exit(int status) {
  if (!next_exit) find_next();
  tell();
  next_exit(status);
}

static int is_refused(int what) {
  long number = atomic_fetch_add(&asked[what], 1) + 1;
  return first && what == kind && (number == first || (all_after && number > first));
}

static int no_memory(void) {
  if (!is_refused(MEMORY)) return 0;
  errno = ENOMEM;
  return 1;
}

void *malloc(size_t size) {
  if (!next_malloc) find_next();
  return no_memory() ? NULL : next_malloc(size);
}

void *realloc(void *block, size_t size) {
  if (!next_realloc) find_next();
  return no_memory() ? NULL : next_realloc(block, size);
}

void *aligned_alloc(size_t alignment, size_t size) {
  if (!next_aligned_alloc) find_next();
  return no_memory() ? NULL : next_aligned_alloc(alignment, size);
}

int posix_memalign(void **block, size_t alignment, size_t size) {
  if (!next_posix_memalign) find_next();
  return no_memory() ? ENOMEM : next_posix_memalign(block, alignment, size);
}

ssize_t read(int file, void *bytes, size_t count) {
  if (!next_read) find_next();
  if (file != STDIN_FILENO) return next_read(file, bytes, count);
  if (is_refused(READ)) {
    errno = EIO;
    return -1;
  }
  return next_read(file, bytes, short_io && count > 1 ? 1 : count);
}

ssize_t write(int file, const void *bytes, size_t count) {
  if (!next_write) find_next();
  if (file != STDOUT_FILENO) return next_write(file, bytes, count);
  if (is_refused(WRITE)) {
    if (take_none) return 0;
    errno = EIO;
    return -1;
  }
  return next_write(file, bytes, short_io && count > 1 ? 1 : count);
}

int pthread_create(pthread_t *thread, const pthread_attr_t *attributes, void *(*work)(void *), void *given) {
  if (!next_create) find_next();
  if (is_refused(THREAD)) return EAGAIN;
  int failed = next_create(thread, attributes, work, given);
  if (!failed) atomic_fetch_add(&unjoined, 1);
  return failed;
}

int pthread_join(pthread_t thread, void **result) {
  if (!next_join) find_next();
  int failed = next_join(thread, result);
  if (!failed) atomic_fetch_sub(&unjoined, 1);
  return failed;
}
