#define _DEFAULT_SOURCE
#include "held.h"

#include "say.h"

#include <errno.h>
#include <fcntl.h>
#include <inttypes.h>
#include <setjmp.h>
#include <signal.h>
#include <string.h>
#include <sys/mman.h>
#include <sys/stat.h>
#include <unistd.h>

/* A file that shrinks takes its mapped bytes away, and reading them is a signal. It can only come while
 * the library reads, or marks.c copies a field; both hold nothing: so the jump out of it is safe. */
static sigjmp_buf taken_away;
static const char *reading;

static void on_bus(int number) { siglongjmp(taken_away, number); }

int while_held(int (*work)(int, char **), int words, char **word) {
  struct sigaction action = {.sa_handler = on_bus};
  (void)sigaction(SIGBUS, &action, NULL);
  if (sigsetjmp(taken_away, 1) != 0) fail(reading, "shrank while it was read, or the disk failed");
  return work(words, word);
}

void read_next(const struct held *file) { reading = file->name; }

static struct stat status_of(const struct held *file) {
  struct stat now;
  if (fstat(file->descriptor, &now) != 0) fail(file->name, "%s", strerror(errno));
  return now;
}

/* O_NONBLOCK: a pipe that nobody writes to gets its message, too. */
struct held hold(const char *name, bool open_file) {
  struct held file = {.name = name, .bytes = NULL, .open = open_file};
  file.descriptor = open(name, O_RDONLY | O_CLOEXEC | O_NONBLOCK);
  if (file.descriptor < 0) fail(name, "%s", strerror(errno));
  struct stat now = status_of(&file);
  if (S_ISDIR(now.st_mode)) fail(name, "is a directory; name a file of the product");
  if (!S_ISREG(now.st_mode)) fail(name, "is no file on disk; an image on standard input is listed by ceoslist");
  file.size = (size_t)now.st_size;
  file.written = now.st_mtim;
  read_next(&file);
  if (file.size == 0) return file; /* no bytes cannot be mapped, and need not be */
  void *bytes = mmap(NULL, file.size, PROT_READ, MAP_SHARED, file.descriptor, 0);
  if (bytes == MAP_FAILED) fail(name, "its %zu bytes cannot be mapped: %s", file.size, strerror(errno));
  file.bytes = bytes;
  return file;
}

void see_unchanged(const struct held *file) {
  struct stat now = status_of(file);
  uintmax_t size = (uintmax_t)now.st_size;
  if (size < file->size) fail(file->name, "shrank from %zu to %ju bytes while it was read", file->size, size);
  if (file->open) return;
  if (size > file->size)
    fail(file->name, "grew from %zu to %ju bytes while it was read; use --open while it is still arriving",
         file->size, size);
  if (now.st_mtim.tv_sec != file->written.tv_sec || now.st_mtim.tv_nsec != file->written.tv_nsec)
    fail(file->name, "was written to while it was read");
}

void see_after(const struct held *file) {
  struct stat now = status_of(file);
  uintmax_t size = (uintmax_t)now.st_size;
  if (size > file->size)
    note(file->name, "grew from %zu to %ju bytes meanwhile; the answer is for the first %zu", file->size, size,
         file->size);
  if (now.st_nlink == 0) note(file->name, "was removed or replaced while it was read; the answer is for the old file");
}

/* Only whole pages can be given back: the one with the last of these bytes stays. */
void release(const struct held *file, uint64_t bytes) {
  size_t page = (size_t)sysconf(_SC_PAGESIZE);
  size_t whole = (size_t)bytes / page * page;
  if (whole > 0) (void)madvise((void *)(uintptr_t)file->bytes, whole, MADV_DONTNEED);
}

void let_go(struct held *file) {
  if (file->bytes != NULL) (void)munmap((void *)(uintptr_t)file->bytes, file->size);
  (void)close(file->descriptor);
  file->bytes = NULL;
}
