/* Refuses calls of the program that it is loaded into. REFUSE says which, and AT is a number:

     malloc, read, write   the call of this number, counted from 1
     memory                each call for memory from this number on
     interrupt             the read or write of this number, as one that a signal comes between
     thread                the start of a thread of this number
     threads               each start of a thread from this number on
     full                  each write once so many bytes are written, as on a disk that is full; the last one before is short
     short                 no call, but a read or a write is of at most so many bytes
     count                 no call; a letter goes to standard error for each: m, r, w or t

   An x goes to standard error for each call that is refused. */
#define _GNU_SOURCE
#include <dlfcn.h>
#include <errno.h>
#include <pthread.h>
#include <stdatomic.h>
#include <stdlib.h>
#include <string.h>
#include <sys/syscall.h>
#include <unistd.h>

extern void *__libc_malloc(size_t);
extern void *__libc_calloc(size_t, size_t);
extern void *__libc_realloc(void *, size_t);
extern void *__libc_memalign(size_t, size_t);

static int asked(const char *what) {
  const char *wanted = getenv("REFUSE");
  return wanted && strcmp(wanted, what) == 0;
}

static long at(void) {
  const char *number = getenv("AT");
  return number ? atol(number) : 0;
}

static int marked(int refused, const char *kind) {
  if (refused || asked("count")) syscall(SYS_write, 2, refused ? "x" : kind, 1);
  return refused;
}

/* Whether this call, the next of its kind, is refused, where perhaps all are refused from one on. Threads that call at once are
   given numbers of their own. */
static int is_refused(const char *kind, const char *from_one_on, atomic_long *count) {
  long number = atomic_fetch_add(count, 1) + 1;
  return marked((asked(kind) && number == at()) || (asked(from_one_on) && number >= at()), kind);
}

static atomic_long calls;

static int is_interrupted(void) {
  return asked("interrupt") && marked(atomic_fetch_add(&calls, 1) + 1 == at(), "");
}

static size_t shortened(size_t size) { return asked("short") && size > (size_t)at() ? (size_t)at() : size; }

static atomic_long allocations, reads, writes;

void *malloc(size_t size) {
  if (is_refused("malloc", "memory", &allocations)) return errno = ENOMEM, NULL;
  return __libc_malloc(size);
}

void *calloc(size_t count, size_t size) {
  if (is_refused("malloc", "memory", &allocations)) return errno = ENOMEM, NULL;
  return __libc_calloc(count, size);
}

void *realloc(void *old, size_t size) {
  if (is_refused("malloc", "memory", &allocations)) return errno = ENOMEM, NULL;
  return __libc_realloc(old, size);
}

void *aligned_alloc(size_t alignment, size_t size) {
  if (is_refused("malloc", "memory", &allocations)) return errno = ENOMEM, NULL;
  return __libc_memalign(alignment, size);
}

ssize_t read(int from, void *to, size_t size) {
  if (is_interrupted()) return errno = EINTR, -1;
  if (is_refused("read", "", &reads)) return errno = EIO, -1;
  return syscall(SYS_read, from, to, shortened(size));
}

static atomic_long written;

ssize_t write(int to, const void *from, size_t size) {
  if (is_interrupted()) return errno = EINTR, -1;
  if (is_refused("write", "", &writes)) return errno = EIO, -1;
  if (asked("full")) {
    long left = at() - atomic_load(&written);
    if (marked(left <= 0, "")) return errno = ENOSPC, -1;
    size = size < (size_t)left ? size : (size_t)left;
  }
  ssize_t done = syscall(SYS_write, to, from, shortened(size));
  if (done > 0) atomic_fetch_add(&written, done);
  return done;
}

int pthread_create(pthread_t *thread, const pthread_attr_t *how, void *(*begin)(void *), void *with) {
  static atomic_long threads;
  int (*started)(pthread_t *, const pthread_attr_t *, void *(*)(void *), void *) = dlsym(RTLD_NEXT, "pthread_create");
  if (is_refused("thread", "threads", &threads)) return EAGAIN;
  return started(thread, how, begin, with);
}
