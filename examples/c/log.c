/* Appends an entry and a vote of one Raft group to the log in a directory, and reads the log back. */
#include <dafirondo.h>
#include <stdio.h>
#include <string.h>

enum { GROUP = 7 };

static uint8_t room[65536];
static size_t needed, count, written;

/* Appends a number of `width` bytes to a batch, little-endian. */
static size_t put(uint8_t *batch, size_t at, uint64_t number, int width) {
  for (int i = 0; i < width; i++) batch[at + i] = (uint8_t)(number >> 8 * i);
  return at + width;
}

/* Prints why a call failed. */
static int failed(const char *call, int32_t status, size_t len) {
  if (len > sizeof room) len = sizeof room;
  fprintf(stderr, "%s: status %d: %.*s\n", call, status, (int)len, (char *)room);
  return 1;
}

/* Appends an entry at an index, and stores a vote, as one record with a sync. */
static int32_t append(dafirondo *log, uint64_t index, const char *entry, uint64_t vote) {
  uint8_t batch[512];
  size_t at = put(batch, 0, 1, 1), len = strlen(entry);
  at = put(batch, put(batch, put(batch, at, GROUP, 8), index, 8), 1, 4);
  at = put(batch, at, len, 4);
  memcpy(batch + at, entry, len);
  at = put(batch, at + len, 2, 1);
  at = put(batch, put(batch, at, GROUP, 8), 4, 4);
  memcpy(batch + at, "vote", 4);
  at = put(batch, put(batch, at + 4, 8, 4), vote, 8);
  return dafirondo_write(log, batch, at, true, &written);
}

int main(int argc, char **argv) {
  char settings[512];
  if (argc != 2 || snprintf(settings, sizeof settings, "dir = '%s'\n", argv[1]) >= (int)sizeof settings) return 2;
  dafirondo log;
  int32_t status = dafirondo_open((uint8_t *)settings, strlen(settings), 2, &log, room, sizeof room, &needed);
  if (status) return failed("open", status, needed);
  uint64_t first = 1, last = 0;
  dafirondo_first_index(&log, GROUP, &first);
  dafirondo_last_index(&log, GROUP, &last);
  if (last) {
    status = append(&log, last + 2, "past the end", 1);
    printf("an entry past the end: %s\n", status == DAFIRONDO_HOLE ? "rejected as a hole" : "wrong");
  }
  char entry[64];
  snprintf(entry, sizeof entry, "entry of run %llu", (unsigned long long)last + 1);
  status = append(&log, last + 1, entry, last + 1);
  if (status) return failed("write", status, dafirondo_last_error(&log, room, sizeof room));
  status = dafirondo_fetch(&log, GROUP, first, last + 2, SIZE_MAX, room, sizeof room, &needed, &count);
  if (status) return failed("fetch", status, dafirondo_last_error(&log, room, sizeof room));
  for (size_t at = 0, i = 0; i < count; i++) {
    uint32_t len = room[at] | room[at + 1] << 8 | room[at + 2] << 16 | (uint32_t)room[at + 3] << 24;
    printf("%llu: %.*s\n", (unsigned long long)(first + i), (int)len, (char *)room + at + 4);
    at += 4 + len;
  }
  status = dafirondo_get(&log, GROUP, (const uint8_t *)"vote", 4, room, sizeof room, &needed);
  printf("vote: %u, in %zu bytes\n", status == DAFIRONDO_OK ? room[0] : 0, needed);
  status = dafirondo_close(log, room, sizeof room, &needed);
  return status ? failed("close", status, needed) : 0;
}
