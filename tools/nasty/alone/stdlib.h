#include <stddef.h>
void *malloc(size_t size);
void *calloc(size_t many, size_t size);
void *realloc(void *at, size_t size);
void free(void *at);
_Noreturn void abort(void);
unsigned long strtoul(const char *text, char **rest, int base);
unsigned long long strtoull(const char *text, char **rest, int base);
