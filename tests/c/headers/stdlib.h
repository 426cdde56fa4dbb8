#include <stddef.h>
void *malloc(size_t);
void free(void *);
void abort(void);
unsigned long strtoul(const char *, char **, int);
