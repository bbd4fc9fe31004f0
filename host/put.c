#define _DEFAULT_SOURCE
#include "put.h"

#include "say.h"

#include <errno.h>
#include <fcntl.h>
#include <signal.h>
#include <stdio.h>
#include <stdlib.h>
#include <string.h>
#include <sys/stat.h>
#include <unistd.h>

void see_apart(const char *name, const struct held *file) {
  struct stat there, other;
  if (stat(name, &there) != 0) return; /* what else may be wrong is said when it is written */
  if (!S_ISREG(there.st_mode)) fail(name, "is no file on disk; name a file that is to be written");
  if (fstat(file->descriptor, &other) != 0) fail(file->name, "%s", strerror(errno));
  if (there.st_dev == other.st_dev && there.st_ino == other.st_ino)
    fail(name, "is the file that is read; name another one to be written");
}

/* A signal that ends the program must not leave the new file behind: it comes later. One that says that the file is
 * too long is an error of the write, too. */
static void hold_signals(sigset_t *before) {
  sigset_t ends;
  (void)sigemptyset(&ends);
  (void)sigaddset(&ends, SIGINT);
  (void)sigaddset(&ends, SIGTERM);
  (void)sigaddset(&ends, SIGHUP);
  (void)sigaddset(&ends, SIGQUIT);
  (void)sigprocmask(SIG_BLOCK, &ends, before);
  (void)signal(SIGXFSZ, SIG_IGN);
}

/* A new file in the folder of that name, so that a rename is enough; its own name is short, as the other may be as
 * long as a name can be. */
struct fresh {
  char *name;
  int descriptor; /* -1 where there is none */
};

static struct fresh create_beside(const char *name) {
  const char *slash = strrchr(name, '/');
  size_t folder = slash == NULL ? 0 : (size_t)(slash - name) + 1, room = folder + 64;
  struct fresh fresh = {malloc(room), -1};
  if (fresh.name == NULL) fail(name, "there is no memory for a name");
  for (unsigned turn = 0; fresh.descriptor < 0; turn++) {
    (void)snprintf(fresh.name, room, "%.*s.ceos-%ld-%u", (int)folder, name, (long)getpid(), turn);
    fresh.descriptor = open(fresh.name, O_WRONLY | O_CREAT | O_EXCL | O_CLOEXEC, 0666);
    if (fresh.descriptor < 0 && errno != EEXIST) break;
  }
  return fresh;
}

/* All bytes, down to the disk: a rename may be there before what it renames. */
static bool write_all(int descriptor, const uint8_t *bytes, size_t size) {
  while (size > 0) {
    ssize_t done = write(descriptor, bytes, size);
    if (done < 0 && errno != EINTR) return false;
    if (done > 0) bytes += done, size -= (size_t)done;
  }
  return fsync(descriptor) == 0;
}

void put_file(const char *name, const uint8_t *bytes, size_t size) {
  sigset_t before;
  hold_signals(&before);
  struct fresh fresh = create_beside(name);
  if (fresh.descriptor < 0) fail(name, "cannot be written: %s", strerror(errno));
  bool good = write_all(fresh.descriptor, bytes, size);
  int why = errno;
  if (close(fresh.descriptor) != 0 && good) good = false, why = errno;
  if (good && rename(fresh.name, name) != 0) good = false, why = errno;
  if (!good) {
    (void)unlink(fresh.name);
    fail(name, "cannot be written: %s", strerror(why));
  }
  free(fresh.name);
  (void)sigprocmask(SIG_SETMASK, &before, NULL);
}
