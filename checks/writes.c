// Preloaded into a program, stops it at one of its calls that write, sync, cut, rename or remove a
// file: that of the number which the variable STOPPED_CALL has, counted from 1. STOPPED_HOW says
// how: `kill` it before the call, `part` before which half of the bytes are written, or `lose`,
// with all bytes that were not synced, as where the power goes; or the call alone, which `fail`s,
// or every write, which is `short`: of one byte.
#define _GNU_SOURCE
#include <errno.h>
#include <fcntl.h>
#include <signal.h>
#include <stdbool.h>
#include <stdio.h>
#include <stdlib.h>
#include <string.h>
#include <sys/stat.h>
#include <sys/syscall.h>
#include <unistd.h>

static const char *how = "";
static unsigned long left;

__attribute__((constructor)) static void begin(void) {
  const char *number = getenv("STOPPED_CALL");
  how = getenv("STOPPED_HOW") ? getenv("STOPPED_HOW") : "";
  left = number ? strtoul(number, NULL, 10) : 0;
}

// A file that was written to, by a descriptor of our own, and how many of its bytes are synced.
struct written {
  int file;
  dev_t device;
  ino_t inode;
  off_t synced;
};

static struct written files[100];
static int many;

// What is known of a file; what it has when it is first written to is taken for synced.
static struct written *written_of(int file) {
  struct stat it;
  if (fstat(file, &it) != 0 || !S_ISREG(it.st_mode)) {
    return NULL;
  }
  for (int at = 0; at < many; at++) {
    if (files[at].device == it.st_dev && files[at].inode == it.st_ino) {
      return &files[at];
    }
  }
  if (many == 100) {
    abort();
  }
  int own = fcntl(file, F_DUPFD_CLOEXEC, 100);
  files[many] = (struct written){own, it.st_dev, it.st_ino, it.st_size};
  return &files[many++];
}

static void sync_is_done(int file) {
  struct written *of = written_of(file);
  struct stat it;
  if (of != NULL && fstat(file, &it) == 0) {
    of->synced = it.st_size;
  }
}

static void lose_what_is_not_synced(void) {
  struct stat it;
  for (int at = 0; at < many; at++) {
    if (fstat(files[at].file, &it) == 0 && it.st_size > files[at].synced) {
      syscall(SYS_ftruncate, files[at].file, files[at].synced);
    }
  }
}

static bool is_now(void) { return left > 0 && --left == 0; }

// Whether the call is to fail; does not return where the program is killed.
static bool is_stopped(int file, const void *bytes, size_t length) {
  if (!is_now()) {
    return false;
  }
  if (strcmp(how, "fail") == 0) {
    errno = EIO;
    return true;
  }
  if (strcmp(how, "part") == 0 && length > 1) {
    syscall(SYS_write, file, bytes, length / 2);
  }
  if (strcmp(how, "lose") == 0) {
    lose_what_is_not_synced();
  }
  kill(getpid(), SIGKILL);
  return true;
}

ssize_t write(int file, const void *bytes, size_t length) {
  if (is_stopped(file, bytes, length)) {
    return -1;
  }
  if (strcmp(how, "short") == 0 && length > 1) {
    length = 1;
  }
  written_of(file);
  return syscall(SYS_write, file, bytes, length);
}

int fsync(int file) {
  if (is_stopped(file, NULL, 0)) {
    return -1;
  }
  int answer = (int)syscall(SYS_fsync, file);
  if (answer == 0) {
    sync_is_done(file);
  }
  return answer;
}

int ftruncate(int file, off_t length) {
  return is_stopped(file, NULL, 0) ? -1 : (int)syscall(SYS_ftruncate, file, length);
}

int ftruncate64(int file, off_t length) { return ftruncate(file, length); }

int rename(const char *from, const char *to) {
  return is_stopped(-1, NULL, 0) ? -1 : (int)syscall(SYS_rename, from, to);
}

int unlink(const char *name) {
  return is_stopped(-1, NULL, 0) ? -1 : (int)syscall(SYS_unlink, name);
}
