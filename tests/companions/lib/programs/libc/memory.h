/* An allocator and a copy, as a library has them. */
typedef unsigned size;

void *malloc(size bytes);
void *calloc(size count, size bytes);
void *realloc(void *block, size bytes);
int posix_memalign(void **block, size alignment, size bytes);
void free(void *block);
size size_of(void *memory);
void *memcpy(void *to, const void *from, size bytes);
char *copy(char *to, const char *from, size bytes);
