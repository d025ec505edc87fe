/* Notes what a program asks of the system about files, in order: each file that it makes where none may stand, each file or
   folder that it syncs or locks, and each name that it links, renames or removes. It is made into a library that is loaded
   before glibc, and makes each call itself. The notes, a line each, go to the descriptor that WATCHED_TO says; a call that
   failed is not noted. It includes no header, so that a compiler alone makes it. The numbers of calls are those of x86-64. */

typedef unsigned long size;

extern long syscall(long number, ...);
extern char *getenv(const char *name);
extern long write(int descriptor, const void *from, size bytes);

enum { OPEN = 2, FLOCK = 73, FSYNC = 74, RENAME = 82, LINK = 86, UNLINK = 87 };
enum { MAKES = 0100, ONLY_NEW = 0200, ALONE = 2, WITH_OTHERS = 1 };
enum { MOST = 256, LONGEST = 1024 };

/* The name of each open file. */
static char names[MOST][LONGEST];

static size length(const char *text) {
  size bytes = 0;
  while (text[bytes])
    bytes++;
  return bytes;
}

static void keep(long descriptor, const char *name) {
  size bytes = length(name);
  if (descriptor < 0 || descriptor >= MOST || bytes >= LONGEST)
    return;
  for (size at = 0; at <= bytes; at++)
    names[descriptor][at] = name[at];
}

static const char *name_of(int descriptor) {
  return descriptor >= 0 && descriptor < MOST ? names[descriptor] : "";
}

/* The descriptor that the notes go to, and -1 where there is none. */
static int notes(void) {
  const char *text = getenv("WATCHED_TO");
  int number = text && *text ? 0 : -1;
  while (text && *text >= '0' && *text <= '9')
    number = number * 10 + (*text++ - '0');
  return number;
}

static void say(const char *text) {
  write(notes(), text, length(text));
}

static void note(const char *word, const char *name, const char *other) {
  if (notes() < 0)
    return;
  say(word);
  say(" ");
  say(name);
  if (other)
    say(" "), say(other);
  say("\n");
}

static int opened(const char *name, int how, int mode) {
  long descriptor = syscall(OPEN, name, (long)how, (long)mode);
  keep(descriptor, name);
  if (descriptor >= 0 && (how & MAKES) && (how & ONLY_NEW))
    note("make new", name, 0);
  return (int)descriptor;
}

int open(const char *name, int how, ...) {
  __builtin_va_list rest;
  __builtin_va_start(rest, how);
  int mode = how & MAKES ? __builtin_va_arg(rest, int) : 0;
  __builtin_va_end(rest);
  return opened(name, how, mode);
}

int open64(const char *name, int how, ...) {
  __builtin_va_list rest;
  __builtin_va_start(rest, how);
  int mode = how & MAKES ? __builtin_va_arg(rest, int) : 0;
  __builtin_va_end(rest);
  return opened(name, how, mode);
}

int fsync(int descriptor) {
  long status = syscall(FSYNC, (long)descriptor);
  if (!status)
    note("sync", name_of(descriptor), 0);
  return (int)status;
}

int flock(int descriptor, int how) {
  long status = syscall(FLOCK, (long)descriptor, (long)how);
  if (!status && (how & (ALONE | WITH_OTHERS)))
    note(how & ALONE ? "lock" : "lock with others", name_of(descriptor), 0);
  return (int)status;
}

int link(const char *from, const char *to) {
  long status = syscall(LINK, from, to);
  if (!status)
    note("link", from, to);
  return (int)status;
}

int rename(const char *from, const char *to) {
  long status = syscall(RENAME, from, to);
  if (!status)
    note("rename", from, to);
  return (int)status;
}

int unlink(const char *name) {
  long status = syscall(UNLINK, name);
  if (!status)
    note("unlink", name, 0);
  return (int)status;
}
