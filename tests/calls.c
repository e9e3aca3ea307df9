/* Writes down what a program asks of a disk and puts on its standard output, in the order in which it does. Built as a
   shared object, it stands before the C library's own functions (LD_PRELOAD), does what they do, and appends to the file
   that CALLS names: a line "write AT COUNT" and the bytes, a line "sync", a line "put COUNT" and the bytes, and a line
   "failed write" or "failed sync" for one that fails. What is done to a folder is left out. The write or sync with the
   number that the variable FAIL says, from 1 on, fails, and nothing is done for it. */
#define _GNU_SOURCE
#include <errno.h>
#include <fcntl.h>
#include <stdio.h>
#include <stdlib.h>
#include <sys/stat.h>
#include <sys/syscall.h>
#include <unistd.h>

static int said = -1;
static long asked, failing;

__attribute__((constructor)) static void begin(void) {
  const char *name = getenv("CALLS");
  const char *number = getenv("FAIL");
  failing = number ? atol(number) : 0;
  if (name)
    said = open(name, O_WRONLY | O_CREAT | O_APPEND | O_CLOEXEC, 0644);
}

static void say(const void *bytes, size_t count) {
  while (count > 0) {
    long done = syscall(SYS_write, said, bytes, count);
    if (done <= 0)
      abort();
    bytes = (const char *)bytes + done;
    count -= (size_t)done;
  }
}

static void note(const char *word, long at, const void *bytes, long result) {
  char line[80];
  int error = errno;
  if (said < 0)
    return;
  if (result < 0)
    say(line, (size_t)snprintf(line, sizeof line, "failed %s\n", word));
  else if (at >= 0)
    say(line, (size_t)snprintf(line, sizeof line, "%s %ld %ld\n", word, at, result));
  else if (bytes)
    say(line, (size_t)snprintf(line, sizeof line, "%s %ld\n", word, result));
  else
    say(line, (size_t)snprintf(line, sizeof line, "%s\n", word));
  if (bytes && result > 0)
    say(bytes, (size_t)result);
  errno = error;
}

/* Whether this call of the disk is the one that fails. */
static int fails(void) {
  if (++asked != failing)
    return 0;
  errno = EIO;
  return 1;
}

static int is_file(int fd) {
  struct stat about;
  return fstat(fd, &about) == 0 && S_ISREG(about.st_mode);
}

ssize_t pwrite(int fd, const void *bytes, size_t count, off_t at) {
  long done = fails() ? -1 : syscall(SYS_pwrite64, fd, bytes, count, at);
  note("write", at, bytes, done);
  return done;
}

ssize_t pwrite64(int fd, const void *bytes, size_t count, off_t at) {
  return pwrite(fd, bytes, count, at);
}

ssize_t write(int fd, const void *bytes, size_t count) {
  long done = syscall(SYS_write, fd, bytes, count);
  if (fd == 1)
    note("put", -1, bytes, done);
  return done;
}

static int synced(int fd, long call) {
  long done;
  if (!is_file(fd))
    return (int)syscall(call, fd);
  done = fails() ? -1 : syscall(call, fd);
  note("sync", -1, NULL, done);
  return (int)done;
}

int fsync(int fd) { return synced(fd, SYS_fsync); }

int fdatasync(int fd) { return synced(fd, SYS_fdatasync); }
