/* Eight threads append to eight Raft groups of one log. Each append is one record with a sync, and is printed when it is
** durable. A lock gives the handle to one call at a time.
**
** threads DIR run COUNT: checks what is in the log in a directory, and appends COUNT entries by each thread
** threads DIR check FILE: checks that the log has what the lines of a file confirm
*/
#define _POSIX_C_SOURCE 200809L
#include <dafirondo.h>
#include <pthread.h>
#include <stdio.h>
#include <stdlib.h>
#include <string.h>
#include <unistd.h>

enum { THREADS = 8, PURGE = 50, KEPT = 32 };

static dafirondo log;
static pthread_mutex_t lock = PTHREAD_MUTEX_INITIALIZER;
static uint64_t last[THREADS + 1], count;

/* Ends the program with the reason. */
static void fail(const char *what, unsigned long long group, int32_t status) {
  fprintf(stderr, "group %llu: %s: status %d\n", group, what, status);
  exit(1);
}

/* Appends a number of `width` bytes to a batch, little-endian. */
static size_t put(uint8_t *batch, size_t at, uint64_t number, int width) {
  for (int i = 0; i < width; i++) batch[at + i] = (uint8_t)(number >> 8 * i);
  return at + width;
}

/* The entry of a group at an index. */
static int entry(char *text, size_t len, uint64_t group, uint64_t index) {
  return snprintf(text, len, "entry %llu of group %llu", (unsigned long long)index, (unsigned long long)group);
}

/* The batch that appends an entry, and drops old ones from time to time. */
static size_t encode(uint8_t *batch, uint64_t group, uint64_t index) {
  char text[64];
  int len = entry(text, sizeof text, group, index);
  size_t at = put(batch, put(batch, put(batch, put(batch, 0, 1, 1), group, 8), index, 8), 1, 4);
  at = put(batch, at, len, 4);
  memcpy(batch + at, text, len);
  at += len;
  if (index % (2 * KEPT)) return at;
  return put(batch, put(batch, put(batch, at, 4, 1), group, 8), index - KEPT, 8);
}

/* Writes and syncs under the lock, purges from time to time, and then prints what is durable. */
static void *append(void *at) {
  uint64_t group = (uint64_t *)at - last;
  uint64_t purged[THREADS];
  for (uint64_t done = 0; done < count; done++) {
    uint8_t batch[256];
    size_t len = encode(batch, group, last[group] + 1), written, needed;
    pthread_mutex_lock(&lock);
    int32_t status = dafirondo_write(&log, batch, len, true, &written);
    if (!status && group == 1 && done % PURGE == 0) status = dafirondo_purge(&log, purged, THREADS, &needed);
    pthread_mutex_unlock(&lock);
    if (status) fail("write", group, status);
    char line[64];
    int size = snprintf(line, sizeof line, "%llu %llu\n", (unsigned long long)group, (unsigned long long)++last[group]);
    if (write(STDOUT_FILENO, line, size) != size) exit(1);
  }
  return NULL;
}

/* Reads a group back: each entry from the first to the last one is there, as it was appended. */
static void load(uint64_t group) {
  uint64_t first = 1;
  int32_t status = dafirondo_last_index(&log, group, &last[group]);
  if (status == DAFIRONDO_NONE) return;
  if (!status) status = dafirondo_first_index(&log, group, &first);
  if (status) fail("index", group, status);
  for (uint64_t index = first; index <= last[group]; index++) {
    uint8_t room[64];
    char text[64];
    size_t needed, len = entry(text, sizeof text, group, index);
    status = dafirondo_entry(&log, group, index, room, sizeof room, &needed);
    if (status || needed != len || memcmp(room, text, len)) fail("a wrong entry", group, status);
  }
}

/* Checks that the log has each entry that a whole line confirms. */
static void check(const char *path) {
  FILE *lines = fopen(path, "r");
  if (!lines) fail("no file of lines", 0, 0);
  char line[64];
  while (fgets(line, sizeof line, lines) && strchr(line, '\n')) {
    unsigned long long group, index;
    if (sscanf(line, "%llu %llu", &group, &index) != 2 || group > THREADS) fail("no confirmation", 0, 0);
    if (last[group] < index) fail("a confirmed entry is lost", group, 0);
  }
  fclose(lines);
}

int main(int argc, char **argv) {
  char settings[512];
  uint8_t text[256];
  size_t needed;
  if (argc != 4 || snprintf(settings, sizeof settings, "dir = '%s'\ntarget-file-size = '64KiB'\npurge-threshold = '256KiB'\n",
                            argv[1]) >= (int)sizeof settings) return 2;
  int32_t status = dafirondo_open((uint8_t *)settings, strlen(settings), 2, &log, text, sizeof text, &needed);
  if (status) {
    fprintf(stderr, "open: status %d: %.*s\n", status, (int)(needed < sizeof text ? needed : sizeof text), (char *)text);
    return 1;
  }
  for (uint64_t group = 1; group <= THREADS; group++) load(group);
  pthread_t threads[THREADS];
  if (!strcmp(argv[2], "check")) check(argv[3]);
  else count = strtoull(argv[3], NULL, 10);
  for (int i = 0; count && i < THREADS; i++) pthread_create(&threads[i], NULL, append, &last[i + 1]);
  for (int i = 0; count && i < THREADS; i++) pthread_join(threads[i], NULL);
  status = dafirondo_close(log, text, sizeof text, &needed);
  if (status) fail("close", 0, status);
  return 0;
}
