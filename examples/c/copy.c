/* Checks the log in a directory, which no program has open, for holes in its entries, and copies it to another directory. */
#include <dafirondo.h>
#include <stdio.h>
#include <string.h>

static uint8_t room[65536];
static size_t needed;

/* Prints why a call failed. */
static int failed(const char *call, int32_t status) {
  int len = (int)(needed < sizeof room ? needed : sizeof room);
  fprintf(stderr, "%s: status %d: %.*s\n", call, status, len, (char *)room);
  return 1;
}

/* The number of `width` bytes in the room, little-endian. */
static uint64_t number(size_t at, int width) {
  uint64_t found = 0;
  for (int i = width; i-- > 0;) found = found << 8 | room[at + i];
  return found;
}

int main(int argc, char **argv) {
  char settings[512];
  if (argc != 3 || snprintf(settings, sizeof settings, "dir = '%s'\nenable-log-recycle = false\n", argv[1]) >=
                       (int)sizeof settings) return 2;
  const uint8_t *text = (const uint8_t *)settings;
  int32_t status = dafirondo_check(text, strlen(settings), 2, room, sizeof room, &needed);
  if (status) return failed("check", status);
  for (size_t at = 0; at < needed; at += 16)
    printf("group %llu: a hole after entry %llu\n", (unsigned long long)number(at, 8),
           (unsigned long long)number(at + 8, 8));
  printf("groups with a hole: %zu\n", needed / 16);
  status = dafirondo_fork(text, strlen(settings), 2, (const uint8_t *)argv[2], strlen(argv[2]), room, sizeof room, &needed);
  if (status) return failed("fork", status);
  for (size_t at = 0; at < needed; at += 4 + number(at, 4))
    printf("copied: %.*s\n", (int)number(at, 4), (char *)room + at + 4);
  return 0;
}
