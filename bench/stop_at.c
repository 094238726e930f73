/* Stops a program at one of its calls that change a file, as a kill or a loss of power would:
 *
 *   STOP_AT=N LD_PRELOAD=stop_at.so PROGRAM     the call of number N, from 1, isn't made; the program ends at once, with status 99
 *   STOP_HALF=1                                 of a write that is stopped at, half the bytes are written first
 *   STOP_LOSE=1                                 what was written to a file after its last sync is undone first
 *
 * Calls are counted that write to a regular file, cut it, sync it or remove it; standard input, output and error don't count. */
#define _GNU_SOURCE
#include <dlfcn.h>
#include <stdlib.h>
#include <string.h>
#include <sys/stat.h>
#include <sys/types.h>
#include <unistd.h>

/* What a write or a cut changed: the bytes and the size before. */
struct undo {
  struct undo *before;
  int fd;
  ino_t file;
  off_t at, size;
  size_t len;
  char old[];
};

static struct undo *last;
static long count;

static long number(const char *name) {
  const char *word = getenv(name);
  return word ? atol(word) : 0;
}

static int is_file(int fd, struct stat *st) { return fd > 2 && fstat(fd, st) == 0 && S_ISREG(st->st_mode); }

#define REAL(type, name) ((type)dlsym(RTLD_NEXT, name))
typedef ssize_t (*write_at)(int, const void *, size_t, off_t);
typedef int (*cut)(int, off_t);

static void lose(void) {
  for (struct undo *u = last; u; u = u->before) {
    REAL(write_at, "pwrite64")(u->fd, u->old, u->len, u->at);
    REAL(cut, "ftruncate64")(u->fd, u->size);
  }
}

static int stops(void) { return ++count == number("STOP_AT"); }

static void stop(void) {
  if (number("STOP_LOSE")) lose();
  _exit(99);
}

static void remember(int fd, const struct stat *st, off_t at, size_t len) {
  off_t size = st->st_size;
  struct undo *u;
  if (at > size) at = size;
  if (at + (off_t)len > size) len = size - at;
  u = malloc(sizeof *u + len);
  *u = (struct undo){last, fd, st->st_ino, at, size, 0};
  u->len = len ? pread(fd, u->old, len, at) : 0;
  last = u;
}

static void forget(ino_t file) {
  for (struct undo **u = &last; *u;) {
    struct undo *it = *u;
    if (it->file == file) {
      *u = it->before;
      free(it);
    } else
      u = &it->before;
  }
}

ssize_t pwrite64(int fd, const void *from, size_t len, off_t at) {
  struct stat st;
  if (is_file(fd, &st)) {
    int is_last = stops();
    if (is_last && !number("STOP_HALF")) stop();
    remember(fd, &st, at, len);
    if (is_last) {
      if (number("STOP_LOSE")) lose();
      REAL(write_at, "pwrite64")(fd, from, len / 2, at);
      _exit(99);
    }
  }
  return REAL(write_at, "pwrite64")(fd, from, len, at);
}
ssize_t pwrite(int fd, const void *from, size_t len, off_t at) { return pwrite64(fd, from, len, at); }

ssize_t write(int fd, const void *from, size_t len) {
  struct stat st;
  if (is_file(fd, &st)) {
    ssize_t done = pwrite64(fd, from, len, lseek(fd, 0, SEEK_CUR));
    if (done > 0) lseek(fd, done, SEEK_CUR);
    return done;
  }
  return REAL(ssize_t(*)(int, const void *, size_t), "write")(fd, from, len);
}

int ftruncate64(int fd, off_t size) {
  struct stat st;
  if (is_file(fd, &st)) {
    if (stops()) stop();
    remember(fd, &st, size, st.st_size > size ? st.st_size - size : 0);
  }
  return REAL(cut, "ftruncate64")(fd, size);
}
int ftruncate(int fd, off_t size) { return ftruncate64(fd, size); }

static int synced(int fd, const char *name) {
  struct stat st;
  int done, counts = is_file(fd, &st);
  if (counts && stops()) stop();
  done = REAL(int (*)(int), name)(fd);
  if (counts && done == 0) forget(st.st_ino);
  return done;
}
int fsync(int fd) { return synced(fd, "fsync"); }
int fdatasync(int fd) { return synced(fd, "fdatasync"); }

/* What wasn't synced is lost after a close, too. */
int close(int fd) {
  int kept = -1;
  for (struct undo *u = last; u; u = u->before)
    if (u->fd == fd) u->fd = kept < 0 ? (kept = dup(fd)) : kept;
  return REAL(int (*)(int), "close")(fd);
}

int unlink(const char *path) {
  if (stops()) stop();
  return REAL(int (*)(const char *), "unlink")(path);
}
int unlinkat(int dir, const char *path, int flags) {
  if (stops()) stop();
  return REAL(int (*)(int, const char *, int), "unlinkat")(dir, path, flags);
}
