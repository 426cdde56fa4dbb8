/* Preloaded, it stops the process before the read of a file at a place with number PAUSE_AT, counted from 1 on, so that a
   test can change the file then. It is built by clang alone, without a header. */

typedef unsigned long size_t;

extern char *getenv(const char *);
extern int raise(int);
extern long syscall(long, ...);

enum { PREAD = 17, STOP = 19 };

static long pause_at, counted;

__attribute__((constructor)) static void begin(void) {
    const char *text = getenv("PAUSE_AT");
    while (text && *text >= '0' && *text <= '9')
        pause_at = 10 * pause_at + (*text++ - '0');
}

long pread(int file, void *room, size_t size, long at) {
    if (__atomic_add_fetch(&counted, 1, __ATOMIC_SEQ_CST) == pause_at)
        raise(STOP);
    return syscall(PREAD, file, room, size, at);
}
