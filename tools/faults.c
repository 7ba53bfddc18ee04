// A library to be preloaded: makes one call of a kind fail, give less than was asked for, or be
// interrupted, and counts the calls of each kind; or makes each read wait, as on a slow device.
// tools/fault_runs and tools/bench build and use it.
//
// FAULT_KIND  what the call is: open, status (statx), length (lseek), read (pread), out, err
//             (write to the two standard streams), memory (malloc, realloc), thread
//             (pthread_create)
// FAULT_AT    which call of that kind, from 1; 0 for none
// FAULT_HOW   fail, full (the system's want of memory), short, interrupted
// FAULT_LATER whether all later calls of that kind fail too
// FAULT_COUNT a file that gets the number of calls of that kind, as the machine keeps a long
// FAULT_WAIT  how many microseconds each pread sleeps first
#define _GNU_SOURCE
#include <dlfcn.h>
#include <errno.h>
#include <fcntl.h>
#include <pthread.h>
#include <stdarg.h>
#include <stdatomic.h>
#include <stdlib.h>
#include <string.h>
#include <sys/mman.h>
#include <sys/prctl.h>
#include <sys/stat.h>
#include <sys/types.h>
#include <time.h>
#include <unistd.h>

static atomic_long own_calls, *calls = &own_calls;
static long fault_at = -1, wait_for;
static int fault_later;
static const char *fault_kind = "", *fault_how = "";

// The count lies in a file, since a program may end without running what is registered for its end.
__attribute__((constructor)) static void read_settings(void) {
  const char *path = getenv("FAULT_COUNT"), *at = getenv("FAULT_AT"), *wait = getenv("FAULT_WAIT");
  if (path) {
    int file = open(path, O_RDWR | O_CREAT | O_TRUNC, 0600);
    if (file >= 0 && !ftruncate(file, sizeof *calls)) {
      void *found = mmap(NULL, sizeof *calls, PROT_READ | PROT_WRITE, MAP_SHARED, file, 0);
      if (found != MAP_FAILED) calls = found;
    }
    close(file);
  }
  if (getenv("FAULT_KIND")) fault_kind = getenv("FAULT_KIND");
  fault_how = getenv("FAULT_HOW") ? getenv("FAULT_HOW") : "fail";
  fault_at = at ? atol(at) : 0;
  fault_later = getenv("FAULT_LATER") != NULL;
  // A sleep may else last 50 microseconds longer than it should. New threads have this from here.
  if (wait) wait_for = 1000 * atol(wait), prctl(PR_SET_TIMERSLACK, 1);
}

// Whether this call of the kind is the one.
static int is_hit(const char *kind) {
  if (fault_at < 0 || strcmp(kind, fault_kind)) return 0;
  long call = atomic_fetch_add(calls, 1) + 1;
  return call == fault_at || (fault_later && fault_at > 0 && call > fault_at);
}

static int is_how(const char *how) { return !strcmp(fault_how, how); }

// The error of a call that fails.
static int fault(void) {
  errno = is_how("interrupted") ? EINTR : is_how("full") ? ENOMEM : EIO;
  return -1;
}

#define REAL(type, name, ...) ((type(*)(__VA_ARGS__))dlsym(RTLD_NEXT, name))

int open(const char *path, int flags, ...) {
  va_list rest;
  va_start(rest, flags);
  mode_t mode = flags & (O_CREAT | O_TMPFILE) ? va_arg(rest, mode_t) : 0;
  va_end(rest);
  if (is_hit("open")) return fault();
  return REAL(int, "open", const char *, int, ...)(path, flags, mode);
}

int statx(int at, const char *path, int flags, unsigned mask, struct statx *found) {
  if (is_hit("status")) return fault();
  return REAL(int, "statx", int, const char *, int, unsigned, struct statx *)(at, path, flags, mask, found);
}

off_t lseek(int file, off_t at, int from) {
  if (is_hit("length")) return fault();
  return REAL(off_t, "lseek", int, off_t, int)(file, at, from);
}

ssize_t pread(int file, void *bytes, size_t count, off_t at) {
  if (wait_for) nanosleep(&(struct timespec){0, wait_for}, NULL);
  if (is_hit("read")) {
    if (!is_how("short")) return fault();
    count = count > 5000 ? 5000 : count / 2 + 1;
  }
  return REAL(ssize_t, "pread", int, void *, size_t, off_t)(file, bytes, count, at);
}

ssize_t write(int file, const void *bytes, size_t count) {
  if ((file == 1 && is_hit("out")) || (file == 2 && is_hit("err"))) {
    if (!is_how("short")) return fault();
    count = count / 2 + 1;
  }
  return REAL(ssize_t, "write", int, const void *, size_t)(file, bytes, count);
}

int pthread_create(pthread_t *made, const pthread_attr_t *how, void *(*work)(void *), void *with) {
  if (is_hit("thread")) return EAGAIN;
  return REAL(int, "pthread_create", pthread_t *, const pthread_attr_t *, void *(*)(void *), void *)(made, how, work, with);
}

void *malloc(size_t size) {
  static void *(*real)(size_t);
  if (!real) real = REAL(void *, "malloc", size_t);
  if (is_hit("memory")) return errno = ENOMEM, NULL;
  return real(size);
}

void *realloc(void *old, size_t size) {
  static void *(*real)(void *, size_t);
  if (!real) real = REAL(void *, "realloc", void *, size_t);
  if (is_hit("memory")) return errno = ENOMEM, NULL;
  return real(old, size);
}
