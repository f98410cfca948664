#include <stddef.h>
void *memcpy(void *to, const void *from, size_t many);
void *memmove(void *to, const void *from, size_t many);
void *memset(void *at, int byte, size_t many);
int memcmp(const void *a, const void *b, size_t many);
void *memchr(const void *at, int byte, size_t many);
size_t strlen(const char *text);
size_t strcspn(const char *text, const char *ends);
