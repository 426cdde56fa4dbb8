/* Preloaded, it is a clock that each look at it moves on by CLOCK_STEP milliseconds, and nothing else does: a test sees what
   a program does as time passes, and waits for none of it. It is built by clang alone, without a header. */

struct moment {
    long seconds, nanoseconds;
};

extern char *getenv(const char *);

static long step, now;

__attribute__((constructor)) static void begin(void) {
    const char *text = getenv("CLOCK_STEP");
    while (text && *text >= '0' && *text <= '9')
        step = 10 * step + (*text++ - '0');
}

int clock_gettime(int clock, struct moment *at) {
    long millis = __atomic_add_fetch(&now, step, __ATOMIC_SEQ_CST);
    (void)clock;
    at->seconds = millis / 1000;
    at->nanoseconds = millis % 1000 * 1000000;
    return 0;
}
