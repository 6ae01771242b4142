/* The library for C with a fault, for tests of what stands above it: each call is passed on to the built library, whose path is REAL.

   STANDIN says what goes wrong with questions: `slow=S` makes each wait S seconds, `held=FILE` as long as there is this file, and after K of them
   `fails=K` answers that there is no memory. */
#define _GNU_SOURCE
#include <dlfcn.h>
#include <stdint.h>
#include <stdio.h>
#include <stdlib.h>
#include <string.h>
#include <unistd.h>

enum { NO_MEMORY = 1, LONGEST = 4096 };

/* Calls are passed on with as many words as the longest has: those that a shorter one lacks are not read. */
#define WORDS uint64_t a, uint64_t b, uint64_t c, uint64_t d, uint64_t e, uint64_t f, uint64_t g, uint64_t h, uint64_t i, uint64_t j, \
  uint64_t k, uint64_t l, uint64_t m, uint64_t n
typedef uint32_t (*call)(WORDS);

static call real(const char *name) {
  static void *library;
  if (!library) library = dlopen(REAL, RTLD_NOW | RTLD_LOCAL);
  return (call)dlsym(library, name);
}

/* Copies what follows `name=` in STANDIN; whether it is there. */
static int mood(const char *name, char *value) {
  const char *words = getenv("STANDIN");
  for (; words && *words; words += strcspn(words, " ") + (words[strcspn(words, " ")] == ' ')) {
    size_t length = strlen(name), whole = strcspn(words, " ");
    if (whole > length && whole - length < LONGEST && !strncmp(words, name, length) && words[length] == '=') {
      memcpy(value, words + length + 1, whole - length - 1);
      value[whole - length - 1] = 0;
      return 1;
    }
  }
  return 0;
}

static uint32_t before_question(void) {
  static unsigned asked;
  char value[LONGEST];
  unsigned count = __sync_fetch_and_add(&asked, 1);
  while (mood("held", value) && !access(value, F_OK)) usleep(10000);
  if (mood("slow", value)) usleep((useconds_t)(1e6 * atof(value)));
  return mood("fails", value) && count >= (unsigned)atoi(value) ? NO_MEMORY : 0;
}

#define PASS(name) uint32_t name(WORDS) { return real(#name)(a, b, c, d, e, f, g, h, i, j, k, l, m, n); }
#define ASK(name) \
  uint32_t name(WORDS) { \
    uint32_t status = before_question(); \
    return status ? status : real(#name)(a, b, c, d, e, f, g, h, i, j, k, l, m, n); \
  }

CALLS
