/* Refuses one allocation of a program: the one whose number, counted from 1, the variable REFUSED_ALLOCATION says. It is
   made into a library that is loaded before glibc, to whose allocator it hands on every other call. Where it refuses, it
   writes a byte to the descriptor that REFUSED_TO says, so that a run in which nothing was refused is told from the others.
   It includes no header, so that a compiler alone makes it. */

typedef unsigned long size;

extern void *__libc_malloc(size bytes);
extern void *__libc_realloc(void *old, size bytes);
extern char *getenv(const char *name);
extern long write(int descriptor, const void *from, size bytes);

/* The number that a variable says, and 0 where there is none. */
static long number_in(const char *name) {
  const char *text = getenv(name);
  long number = 0;
  while (text && *text >= '0' && *text <= '9')
    number = number * 10 + (*text++ - '0');
  return number;
}

static int is_refused(void) {
  static long made;
  if (__atomic_add_fetch(&made, 1, __ATOMIC_SEQ_CST) != number_in("REFUSED_ALLOCATION"))
    return 0;
  write((int)number_in("REFUSED_TO"), "!", 1);
  return 1;
}

void *malloc(size bytes) {
  return is_refused() ? 0 : __libc_malloc(bytes);
}

void *realloc(void *old, size bytes) {
  return is_refused() ? 0 : __libc_realloc(old, bytes);
}
