/* Refuses allocations, for tests/alloc_faults.py: loaded before the C library, it lets the call of malloc or realloc with the number in
   REFUSE_AT answer NULL, and each N-th after it too where REFUSE_REST is a number N. How many calls there were goes into the file in
   REFUSE_COUNT. */
#include <stdio.h>
#include <stdlib.h>
#include <string.h>
#include <fcntl.h>
#include <unistd.h>

extern void *__libc_malloc(size_t);
extern void *__libc_realloc(void *, size_t);

static long calls, at = -1, rest;

static long number_in(const char *name) {
  const char *number = getenv(name);
  return number ? strtol(number, 0, 10) : 0;
}

static int is_refused(void) {
  if (at < 0) {
    at = number_in("REFUSE_AT");
    rest = number_in("REFUSE_REST");
  }
  calls++;
  return at > 0 && (calls == at || (rest > 0 && calls > at && (calls - at) % rest == 0));
}

void *malloc(size_t size) { return is_refused() ? 0 : __libc_malloc(size); }

void *realloc(void *old, size_t size) { return is_refused() ? 0 : __libc_realloc(old, size); }

__attribute__((destructor)) static void tell(void) {
  const char *name = getenv("REFUSE_COUNT");
  char text[32];
  int file = name ? open(name, O_WRONLY | O_CREAT | O_TRUNC, 0666) : -1;
  if (file >= 0) {
    int length = snprintf(text, sizeof text, "%ld\n", calls);
    if (write(file, text, length) != length) _exit(125);
    close(file);
  }
}
