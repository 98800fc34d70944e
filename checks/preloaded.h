/* What a library needs that stands before the C library. */

extern void *dlsym(void *library, const char *name);
extern char *getenv(const char *name);
extern long atol(const char *text);
extern long write(int descriptor, const void *bytes, unsigned long count);

/* The next library that has the name. */
#define NEXT ((void *)-1l)
