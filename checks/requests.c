// Preloaded into a program, refuses one of its requests for memory: the one of the number that the
// variable REFUSED_REQUEST has, counted from 1. On standard error it says that it did, and at the
// end if the program kept what it was given.
#define _GNU_SOURCE
#include <dlfcn.h>
#include <stdbool.h>
#include <stddef.h>
#include <stdlib.h>
#include <unistd.h>

static void *(*next_malloc)(size_t);
static void *(*next_realloc)(void *, size_t);
static void (*next_free)(void *);
static unsigned long left;
static long kept;

static void say(const char *text, size_t length) {
  if (write(STDERR_FILENO, text, length) < 0) {
    _exit(125);
  }
}

__attribute__((constructor)) static void begin(void) {
  const char *number = getenv("REFUSED_REQUEST");
  next_malloc = dlsym(RTLD_NEXT, "malloc");
  next_realloc = dlsym(RTLD_NEXT, "realloc");
  next_free = dlsym(RTLD_NEXT, "free");
  left = number ? strtoul(number, NULL, 10) : 0;
  kept = 0;
}

__attribute__((destructor)) static void end(void) {
  if (kept != 0) {
    say("kept\n", 5);
  }
}

static bool is_refused(void) {
  if (left == 0 || --left > 0) {
    return false;
  }
  say("refused\n", 8);
  return true;
}

void *malloc(size_t size) {
  if (!next_malloc) {
    begin();
  }
  if (is_refused()) {
    return NULL;
  }
  void *block = next_malloc(size);
  kept += block != NULL;
  return block;
}

void *realloc(void *block, size_t size) {
  if (!next_realloc) {
    begin();
  }
  if (is_refused()) {
    return NULL;
  }
  void *moved = next_realloc(block, size);
  kept += moved != NULL && block == NULL;
  return moved;
}

void free(void *block) {
  if (!next_free) {
    begin();
  }
  kept -= block != NULL;
  next_free(block);
}
