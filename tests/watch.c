/* Preloaded, it tells on the descriptor of number WATCH_TOLD_ON what a program starts and asks for, in a line each: a
   thread as 0, and a request for memory of at least WATCH_FROM bytes as their number. It is built by clang alone, without
   a header. */

typedef unsigned long size_t;

extern void *__libc_malloc(size_t);
extern void *__libc_calloc(size_t, size_t);
extern void *__libc_realloc(void *, size_t);
extern void *dlsym(void *, const char *);
extern char *getenv(const char *);
extern long write(int, const void *, size_t);

#define NEXT ((void *)-1L)

static size_t told_from, told_on;

static size_t number_in(const char *name) {
    const char *text = getenv(name);
    size_t number = 0;
    while (text && *text >= '0' && *text <= '9')
        number = 10 * number + (size_t)(*text++ - '0');
    return number;
}

__attribute__((constructor)) static void begin(void) {
    told_from = number_in("WATCH_FROM");
    told_on = number_in("WATCH_TOLD_ON");
}

static void tell(size_t number) {
    char line[24], *at = line + sizeof line;
    *--at = '\n';
    do
        *--at = (char)('0' + number % 10);
    while (number /= 10);
    write((int)told_on, at, (size_t)(line + sizeof line - at));
}

static size_t told(size_t size) {
    if (told_from && size >= told_from)
        tell(size);
    return size;
}

void *malloc(size_t size) {
    return __libc_malloc(told(size));
}

void *calloc(size_t count, size_t size) {
    told(count * size);
    return __libc_calloc(count, size);
}

void *realloc(void *block, size_t size) {
    return __libc_realloc(block, told(size));
}

int pthread_create(void *thread, const void *attributes, void *(*start)(void *), void *given) {
    int (*create)(void *, const void *, void *(*)(void *), void *) =
        (int (*)(void *, const void *, void *(*)(void *), void *))dlsym(NEXT, "pthread_create");
    tell(0);
    return create(thread, attributes, start, given);
}
