/* Notes each call that changes files below a directory, or refuses one, in a program that this library is loaded before.

   POWER_CUTTER_ROOT   the directory, as a path with no link in it
   POWER_CUTTER_TRACE  the file to which the calls are noted, in their order, with the bytes written
   POWER_CUTTER_FAULT  none, or `KIND N ERROR`: what is done at the N-th call below the directory, counted from 1:
                       refuse (nothing is done, and ERROR is answered), part (half of a write is done, and ERROR is answered),
                       short (half of a write is done, and that is answered), made (the call is done, and ERROR is answered),
                       gone (as refuse, and every later call too), kill (the program is killed before the call),
                       kill-part (the program is killed behind half of a write), kill-made (it is killed behind the call),
                       refuse-sync (as refuse, and N counts the syncs alone)

   Reads, and calls that ask for names, sizes and locks, aren't noted, but are counted and refused as the others.

   What the program writes to its standard output is noted too, so that it is known what was answered by which call. A lock
   is held from a call to its note, so notes have the order of the calls. A call that could change files in a way that isn't
   followed here is noted as `other`, and whoever reads the trace has to refuse it. */
#define _GNU_SOURCE
#include <dlfcn.h>
#include <errno.h>
#include <fcntl.h>
#include <limits.h>
#include <pthread.h>
#include <signal.h>
#include <stdarg.h>
#include <stdint.h>
#include <stdio.h>
#include <stdlib.h>
#include <string.h>
#include <sys/file.h>
#include <sys/mman.h>
#include <sys/stat.h>
#include <sys/uio.h>
#include <unistd.h>

enum call { OPENED = 1, CLOSED, COPIED, WRITTEN, CUT, SYNCED, RENAMED, UNLINKED, MADE_DIRECTORY, REMOVED_DIRECTORY, TOLD, OTHER, FELL };
enum fault { NONE, REFUSE, PART, SHORT, MADE, GONE, KILL, KILL_PART, KILL_MADE, REFUSE_SYNC };

/* A note: two byte strings of these lengths follow. */
struct note {
    uint32_t call;
    int32_t error;
    int64_t file, at, size;
    uint32_t first, second;
};

#define FILES 65536
static unsigned char is_followed[FILES];
static char root[PATH_MAX];
static size_t root_length;
static int trace = -1;
static enum fault fault;
static long fault_number, counted;
static int fault_error;
static pthread_mutex_t lock = PTHREAD_MUTEX_INITIALIZER;
static pthread_once_t once = PTHREAD_ONCE_INIT;

static int (*real_open)(const char *, int, ...);
static int (*real_openat)(int, const char *, int, ...);
static int (*real_close)(int);
static int (*real_fcntl)(int, int, ...);
static int (*real_dup)(int), (*real_dup2)(int, int), (*real_dup3)(int, int, int);
static ssize_t (*real_write)(int, const void *, size_t), (*real_pwrite)(int, const void *, size_t, off_t);
static ssize_t (*real_read)(int, void *, size_t), (*real_pread)(int, void *, size_t, off_t);
static int (*real_ftruncate)(int, off_t), (*real_fsync)(int), (*real_fdatasync)(int);
static int (*real_renameat2)(int, const char *, int, const char *, unsigned);
static int (*real_unlinkat)(int, const char *, int), (*real_mkdirat)(int, const char *, mode_t);
static int (*real_statx)(int, const char *, int, unsigned, struct statx *), (*real_flock)(int, int);
static ssize_t (*real_getdents64)(int, void *, size_t);
static void *(*real_mmap)(void *, size_t, int, int, int, off_t);

static void find_fault(void) {
    static const char *names[] = {"none", "refuse", "part", "short", "made", "gone", "kill", "kill-part", "kill-made", "refuse-sync"};
    char kind[32] = "none";
    const char *text = getenv("POWER_CUTTER_FAULT");
    if (text) sscanf(text, "%31s %ld %d", kind, &fault_number, &fault_error);
    for (int each = 0; each < 10; each++)
        if (!strcmp(kind, names[each])) fault = each;
}

static void begin(void) {
    real_open = dlsym(RTLD_NEXT, "open");
    real_openat = dlsym(RTLD_NEXT, "openat");
    real_close = dlsym(RTLD_NEXT, "close");
    real_fcntl = dlsym(RTLD_NEXT, "fcntl");
    real_dup = dlsym(RTLD_NEXT, "dup");
    real_dup2 = dlsym(RTLD_NEXT, "dup2");
    real_dup3 = dlsym(RTLD_NEXT, "dup3");
    real_write = dlsym(RTLD_NEXT, "write");
    real_pwrite = dlsym(RTLD_NEXT, "pwrite");
    real_read = dlsym(RTLD_NEXT, "read");
    real_pread = dlsym(RTLD_NEXT, "pread");
    real_ftruncate = dlsym(RTLD_NEXT, "ftruncate");
    real_fsync = dlsym(RTLD_NEXT, "fsync");
    real_fdatasync = dlsym(RTLD_NEXT, "fdatasync");
    real_renameat2 = dlsym(RTLD_NEXT, "renameat2");
    real_unlinkat = dlsym(RTLD_NEXT, "unlinkat");
    real_mkdirat = dlsym(RTLD_NEXT, "mkdirat");
    real_statx = dlsym(RTLD_NEXT, "statx");
    real_flock = dlsym(RTLD_NEXT, "flock");
    real_getdents64 = dlsym(RTLD_NEXT, "getdents64");
    real_mmap = dlsym(RTLD_NEXT, "mmap");
    const char *where = getenv("POWER_CUTTER_ROOT"), *to = getenv("POWER_CUTTER_TRACE");
    if (!where || !to) return;
    strncpy(root, where, PATH_MAX - 1);
    root_length = strlen(root);
    find_fault();
    trace = real_open(to, O_WRONLY | O_CREAT | O_APPEND | O_CLOEXEC, 0600);
}

static void enter(void) {
    pthread_once(&once, begin);
    pthread_mutex_lock(&lock);
}

static void leave(void) {
    int error = errno;
    pthread_mutex_unlock(&lock);
    errno = error;
}

static void put(const void *from, size_t size) {
    const char *bytes = from;
    while (size > 0) {
        ssize_t done = real_write(trace, bytes, size);
        if (done <= 0) _exit(99);
        bytes += done;
        size -= done;
    }
}

static void note(enum call call, int error, int file, int64_t at, const void *first, size_t first_size, const char *second) {
    int before = errno;
    struct note head = {call, error, file, at, 0, first_size, second ? strlen(second) : 0};
    if (trace < 0) return;
    put(&head, sizeof head);
    put(first, first_size);
    put(second, head.second);
    errno = before;
}

static void note_path(enum call call, int error, int file, int64_t at, const char *path) {
    note(call, error, file, at, path, strlen(path), NULL);
}

/* Whether the fault falls at this call; a program that is to be killed before it is killed. */
static int falls_at(int is_sync) {
    if (fault == REFUSE_SYNC && !is_sync) return 0;
    counted++;
    if (fault == NONE || counted < fault_number || (counted > fault_number && fault != GONE)) return 0;
    if (fault == KILL) raise(SIGKILL);
    note(FELL, fault_error, fault, counted, "", 0, NULL);
    return 1;
}

static int falls(void) { return falls_at(0); }

/* What is answered behind a call that was done though the fault fell at it. */
static long after(int fell, long answer) {
    if (fell && fault == KILL_MADE) raise(SIGKILL);
    if (!fell || fault != MADE || answer < 0) return answer;
    errno = fault_error;
    return -1;
}

static int is_refused(int fell) {
    if (!fell || (fault != REFUSE && fault != GONE && fault != PART && fault != REFUSE_SYNC)) return 0;
    errno = fault_error;
    return 1;
}

static int follows(int file) { return file >= 0 && file < FILES && is_followed[file]; }

/* The path from the top, without points and double bars. */
static void whole_path(int directory, const char *path, char *out) {
    char joined[2 * PATH_MAX + 2] = "", place[64];
    if (path[0] != '/' && directory == AT_FDCWD && !getcwd(joined, PATH_MAX)) joined[0] = 0;
    if (path[0] != '/' && directory != AT_FDCWD) {
        snprintf(place, sizeof place, "/proc/self/fd/%d", directory);
        ssize_t size = readlink(place, joined, PATH_MAX - 1);
        joined[size > 0 ? size : 0] = 0;
    }
    strcat(joined, "/");
    strncat(joined, path, PATH_MAX - 1);
    size_t length = 0;
    for (char *rest = joined, *word; (word = strsep(&rest, "/"));) {
        if (!*word || !strcmp(word, ".")) continue;
        if (!strcmp(word, "..")) {
            while (length > 0 && out[--length] != '/') continue;
            continue;
        }
        length += snprintf(out + length, PATH_MAX - length, "/%s", word);
        if (length >= PATH_MAX) length = PATH_MAX - 1;
    }
    out[length] = 0;
}

static int is_below(const char *path) {
    return trace >= 0 && !strncmp(path, root, root_length) && (path[root_length] == 0 || path[root_length] == '/');
}

/* Files are opened and let go. */

static int opened_at(int directory, const char *path, int flags, mode_t mode) {
    char whole[PATH_MAX];
    enter();
    whole_path(directory, path, whole);
    int below = is_below(whole), fell = below && falls(), file = -1;
    if (!is_refused(fell)) file = real_openat(directory, path, flags, mode);
    if (below) note_path(OPENED, file < 0 ? errno : 0, file, flags, whole);
    if (fell && fault == MADE && file >= 0) {
        note(CLOSED, 0, file, 0, "", 0, NULL);
        real_close(file);
        file = -1;
        errno = fault_error;
    }
    after(fell, file);
    if (file >= 0 && file < FILES) is_followed[file] = below;
    leave();
    return file;
}

static mode_t mode_of(int flags, va_list rest) { return flags & (O_CREAT | __O_TMPFILE) ? va_arg(rest, mode_t) : 0; }

#define OPEN(name)                                   \
    int name(const char *path, int flags, ...) {     \
        va_list rest;                                \
        va_start(rest, flags);                       \
        mode_t mode = mode_of(flags, rest);          \
        va_end(rest);                                \
        return opened_at(AT_FDCWD, path, flags, mode); \
    }
#define OPENAT(name)                                           \
    int name(int directory, const char *path, int flags, ...) { \
        va_list rest;                                          \
        va_start(rest, flags);                                 \
        mode_t mode = mode_of(flags, rest);                    \
        va_end(rest);                                          \
        return opened_at(directory, path, flags, mode);        \
    }
OPEN(open)
OPEN(open64)
OPENAT(openat)
OPENAT(openat64)

int creat(const char *path, mode_t mode) { return opened_at(AT_FDCWD, path, O_CREAT | O_WRONLY | O_TRUNC, mode); }

int close(int file) {
    enter();
    int followed = follows(file), answer = real_close(file);
    if (followed) note(CLOSED, answer ? errno : 0, file, 0, "", 0, NULL);
    if (followed) is_followed[file] = 0;
    leave();
    return answer;
}

static int copied(int file, int other) {
    if (other < 0 || other >= FILES) return other;
    if (is_followed[other]) note(CLOSED, 0, other, 0, "", 0, NULL);
    is_followed[other] = follows(file);
    if (is_followed[other]) note(COPIED, 0, file, other, "", 0, NULL);
    return other;
}

int fcntl(int file, int command, ...) {
    va_list rest;
    va_start(rest, command);
    void *argument = va_arg(rest, void *);
    va_end(rest);
    enter();
    int answer = real_fcntl(file, command, argument);
    if (command == F_DUPFD || command == F_DUPFD_CLOEXEC) copied(file, answer);
    leave();
    return answer;
}
int fcntl64(int file, int command, ...) __attribute__((alias("fcntl")));

int dup(int file) {
    enter();
    int answer = copied(file, real_dup(file));
    leave();
    return answer;
}

int dup2(int file, int other) {
    enter();
    int answer = file == other ? real_dup2(file, other) : copied(file, real_dup2(file, other));
    leave();
    return answer;
}

int dup3(int file, int other, int flags) {
    enter();
    int answer = copied(file, real_dup3(file, other, flags));
    leave();
    return answer;
}

/* Bytes are read and written. */

static ssize_t write_to(int file, const void *bytes, size_t size, off_t at) {
    return at < 0 ? real_write(file, bytes, size) : real_pwrite(file, bytes, size, at);
}

static ssize_t written(int file, const void *bytes, size_t size, off_t at) {
    ssize_t done;
    enter();
    if (!follows(file)) {
        done = write_to(file, bytes, size, at);
        if (file == 1 && done > 0) note(TOLD, 0, file, 0, bytes, done, NULL);
        leave();
        return done;
    }
    int fell = falls(), is_half = fell && (fault == PART || fault == SHORT || fault == KILL_PART) && size > 1;
    if (is_half) size /= 2;
    if (is_refused(fell) && fault != PART) done = -1;
    else done = write_to(file, bytes, size, at);
    if (done >= 0) {
        off_t place = at >= 0 ? at : lseek(file, 0, SEEK_CUR) - done;
        note(WRITTEN, 0, file, place, bytes, done, NULL);
    }
    if (is_half && fault == KILL_PART) raise(SIGKILL);
    if (done >= 0 && is_refused(fell)) done = -1;
    done = after(fell, done);
    leave();
    return done;
}

ssize_t write(int file, const void *bytes, size_t size) { return written(file, bytes, size, -1); }
ssize_t __write(int file, const void *bytes, size_t size) { return written(file, bytes, size, -1); }
ssize_t pwrite(int file, const void *bytes, size_t size, off_t at) { return written(file, bytes, size, at); }
ssize_t pwrite64(int file, const void *bytes, size_t size, off64_t at) { return written(file, bytes, size, at); }

static ssize_t read_from(int file, void *room, size_t size, off_t at) {
    enter();
    int refused = follows(file) && is_refused(falls());
    leave();
    if (refused) return -1;
    return at < 0 ? real_read(file, room, size) : real_pread(file, room, size, at);
}

ssize_t read(int file, void *room, size_t size) { return read_from(file, room, size, -1); }
ssize_t pread(int file, void *room, size_t size, off_t at) { return read_from(file, room, size, at); }
ssize_t pread64(int file, void *room, size_t size, off64_t at) { return read_from(file, room, size, at); }

static int changed(int (*make)(int), int file, enum call call) {
    enter();
    int below = follows(file), fell = below && falls_at(call == SYNCED), answer = -1;
    if (!is_refused(fell)) answer = make(file);
    if (below) note(call, answer < 0 ? errno : 0, file, 0, "", 0, NULL);
    answer = after(fell, answer);
    leave();
    return answer;
}

int fsync(int file) {
    pthread_once(&once, begin);
    return changed(real_fsync, file, SYNCED);
}

int fdatasync(int file) {
    pthread_once(&once, begin);
    return changed(real_fdatasync, file, SYNCED);
}

int ftruncate(int file, off_t size) {
    enter();
    int below = follows(file), fell = below && falls(), answer = -1;
    if (!is_refused(fell)) answer = real_ftruncate(file, size);
    if (below) note(CUT, answer < 0 ? errno : 0, file, size, "", 0, NULL);
    answer = after(fell, answer);
    leave();
    return answer;
}
int ftruncate64(int file, off64_t size) __attribute__((alias("ftruncate")));

/* Names change. */

int renameat2(int from_directory, const char *from, int to_directory, const char *to, unsigned flags) {
    char old[PATH_MAX], new[PATH_MAX];
    enter();
    whole_path(from_directory, from, old);
    whole_path(to_directory, to, new);
    int below = is_below(old) || is_below(new), fell = below && falls(), answer = -1;
    if (below && (flags || !is_below(old) || !is_below(new))) note_path(OTHER, 0, 0, 0, "rename");
    if (!is_refused(fell)) answer = real_renameat2(from_directory, from, to_directory, to, flags);
    if (below) note(RENAMED, answer < 0 ? errno : 0, 0, 0, old, strlen(old), new);
    answer = after(fell, answer);
    leave();
    return answer;
}
int renameat(int from_directory, const char *from, int to_directory, const char *to) {
    return renameat2(from_directory, from, to_directory, to, 0);
}
int rename(const char *from, const char *to) { return renameat2(AT_FDCWD, from, AT_FDCWD, to, 0); }

int unlinkat(int directory, const char *path, int flags) {
    char whole[PATH_MAX];
    enter();
    whole_path(directory, path, whole);
    int below = is_below(whole), fell = below && falls(), answer = -1;
    if (!is_refused(fell)) answer = real_unlinkat(directory, path, flags);
    if (below) note_path(flags & AT_REMOVEDIR ? REMOVED_DIRECTORY : UNLINKED, answer < 0 ? errno : 0, 0, 0, whole);
    answer = after(fell, answer);
    leave();
    return answer;
}
int unlink(const char *path) { return unlinkat(AT_FDCWD, path, 0); }
int rmdir(const char *path) { return unlinkat(AT_FDCWD, path, AT_REMOVEDIR); }

int mkdirat(int directory, const char *path, mode_t mode) {
    char whole[PATH_MAX];
    enter();
    whole_path(directory, path, whole);
    int below = is_below(whole), fell = below && falls(), answer = -1;
    if (!is_refused(fell)) answer = real_mkdirat(directory, path, mode);
    if (below) note_path(MADE_DIRECTORY, answer < 0 ? errno : 0, 0, 0, whole);
    answer = after(fell, answer);
    leave();
    return answer;
}
int mkdir(const char *path, mode_t mode) { return mkdirat(AT_FDCWD, path, mode); }

/* Sizes, names and locks are asked for. */

int statx(int directory, const char *path, int flags, unsigned mask, struct statx *found) {
    char whole[PATH_MAX];
    enter();
    if (*path) whole_path(directory, path, whole);
    int below = *path ? is_below(whole) : follows(directory), fell = below && falls(), answer = -1;
    if (!is_refused(fell)) answer = real_statx(directory, path, flags, mask, found);
    answer = after(fell, answer);
    leave();
    return answer;
}

ssize_t getdents64(int file, void *room, size_t size) {
    enter();
    int fell = follows(file) && falls();
    ssize_t answer = -1;
    if (!is_refused(fell)) answer = real_getdents64(file, room, size);
    answer = after(fell, answer);
    leave();
    return answer;
}

int flock(int file, int how) {
    enter();
    int fell = follows(file) && falls(), answer = -1;
    if (!is_refused(fell)) answer = real_flock(file, how);
    answer = after(fell, answer);
    leave();
    return answer;
}

/* Calls that aren't followed. */

static void not_followed(const char *name, int is_one) {
    enter();
    if (is_one) note_path(OTHER, 0, 0, 0, name);
    leave();
}

#define HAND_ON(name, file, result, parameters, arguments)              \
    result name parameters {                                           \
        result(*real) parameters = (result(*) parameters)dlsym(RTLD_NEXT, #name); \
        not_followed(#name, file);                                     \
        return real arguments;                                         \
    }
HAND_ON(writev, follows(file) || file == 1, ssize_t, (int file, const struct iovec *parts, int count), (file, parts, count))
HAND_ON(pwritev, follows(file), ssize_t, (int file, const struct iovec *parts, int count, off_t at), (file, parts, count, at))
HAND_ON(fallocate, follows(file), int, (int file, int mode, off_t at, off_t size), (file, mode, at, size))
HAND_ON(posix_fallocate, follows(file), int, (int file, off_t at, off_t size), (file, at, size))
HAND_ON(copy_file_range, follows(to), ssize_t, (int from, off64_t *start, int to, off64_t *at, size_t size, unsigned flags),
        (from, start, to, at, size, flags))
HAND_ON(sendfile, follows(to), ssize_t, (int to, int from, off_t *start, size_t size), (to, from, start, size))
HAND_ON(sync_file_range, follows(file), int, (int file, off64_t at, off64_t size, unsigned flags), (file, at, size, flags))
HAND_ON(syncfs, follows(file), int, (int file), (file))
HAND_ON(truncate, trace >= 0, int, (const char *path, off_t size), (path, size))
HAND_ON(link, trace >= 0, int, (const char *from, const char *to), (from, to))
HAND_ON(linkat, trace >= 0, int, (int a, const char *from, int b, const char *to, int flags), (a, from, b, to, flags))
HAND_ON(symlink, trace >= 0, int, (const char *from, const char *to), (from, to))
HAND_ON(remove, trace >= 0, int, (const char *path), (path))

void *mmap(void *place, size_t size, int rights, int flags, int file, off_t at) {
    pthread_once(&once, begin);
    if (follows(file) && (rights & PROT_WRITE) && (flags & MAP_SHARED)) not_followed("mmap", 1);
    return real_mmap(place, size, rights, flags, file, at);
}
