/* Refuses one request for memory, to see what a program does then.

   Preloaded, it answers null to one call of malloc, calloc or realloc: to number REFUSE_AT, counted from 1
   on, of the whole process. Where REFUSE_FROM and REFUSE_TO are set, only requests between one of
   REFUSE_FROM bytes and one of REFUSE_TO bytes count: so a program marks a call. What was refused is told
   on the descriptor of number REFUSE_TOLD_ON. It is built by clang alone, without a header. */

typedef unsigned long size_t;

extern void *__libc_malloc(size_t);
extern void *__libc_calloc(size_t, size_t);
extern void *__libc_realloc(void *, size_t);
extern int *__errno_location(void);
extern char *getenv(const char *);
extern long write(int, const void *, size_t);

enum { OUT_OF_MEMORY = 12 };

static size_t refuse_at, count_from, count_to, told_on;
static size_t counted;
static int is_counting;

static size_t number_in(const char *name) {
    const char *text = getenv(name);
    size_t number = 0;
    while (text && *text >= '0' && *text <= '9')
        number = 10 * number + (size_t)(*text++ - '0');
    return number;
}

/* Requests of the dynamic linker come before this, and don't count. */
__attribute__((constructor)) static void begin(void) {
    refuse_at = number_in("REFUSE_AT");
    count_from = number_in("REFUSE_FROM");
    count_to = number_in("REFUSE_TO");
    told_on = number_in("REFUSE_TOLD_ON");
    is_counting = count_from == 0;
}

static int is_refused(size_t size) {
    if (count_from && (size == count_from || size == count_to)) {
        is_counting = size == count_from;
        return 0;
    }
    if (!is_counting || __atomic_add_fetch(&counted, 1, __ATOMIC_SEQ_CST) != refuse_at)
        return 0;
    write((int)told_on, "refused\n", 8);
    *__errno_location() = OUT_OF_MEMORY;
    return 1;
}

void *malloc(size_t size) {
    return is_refused(size) ? 0 : __libc_malloc(size);
}

void *calloc(size_t count, size_t size) {
    return is_refused(count * size) ? 0 : __libc_calloc(count, size);
}

void *realloc(void *block, size_t size) {
    return is_refused(size) ? 0 : __libc_realloc(block, size);
}
