/* Reads a file and writes the same lines to another, each in one write: what a certificate costs the system alone. */
#include <fcntl.h>
#include <stdlib.h>
#include <string.h>
#include <unistd.h>

int main(int argc, char **argv) {
  if (argc != 3) return 2;
  int from = open(argv[1], O_RDONLY);
  int to = open(argv[2], O_WRONLY | O_CREAT | O_TRUNC | O_APPEND, 0644);
  if (from < 0 || to < 0) return 1;
  off_t size = lseek(from, 0, SEEK_END);
  char *bytes = malloc(size + 1), *at = bytes, *end = bytes + size;
  if (!bytes || lseek(from, 0, SEEK_SET) < 0) return 1;
  while (at < end) {
    ssize_t some = read(from, at, end - at);
    if (some <= 0) return 1;
    at += some;
  }
  for (at = bytes; at < end;) {
    char *line = memchr(at, '\n', end - at);
    ssize_t length = line ? line + 1 - at : end - at;
    if (write(to, at, length) != length) return 1;
    at += length;
  }
  return 0;
}
