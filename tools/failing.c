/* Preloaded into the program: refuses one call of a kind, or each from that one on. FAIL is KIND:N or KIND:N+ with KIND one of
   alloc, open, read, write; FAIL_COUNTS names a file for how many calls of each kind there were. See failing.py. */
#define _GNU_SOURCE
#include <dlfcn.h>
#include <errno.h>
#include <fcntl.h>
#include <stdarg.h>
#include <stdio.h>
#include <stdlib.h>
#include <string.h>
#include <sys/types.h>
#include <unistd.h>

enum kind { ALLOC, OPEN, READ, WRITE, KINDS };

static const char *const names[KINDS] = {"alloc", "open", "read", "write"};
static const int faults[KINDS] = {ENOMEM, EMFILE, EIO, ENOSPC};
static unsigned long counts[KINDS];
static enum kind failing = KINDS;
static unsigned long first;
static int and_on, is_on;

extern void *__libc_malloc(size_t size);
extern void *__libc_calloc(size_t count, size_t size);
extern void *__libc_realloc(void *old, size_t size);
extern void *__libc_memalign(size_t alignment, size_t size);

__attribute__((constructor)) static void begin(void)
{
    const char *fail = getenv("FAIL");
    for (enum kind kind = 0; fail && kind < KINDS; kind++) {
        size_t length = strlen(names[kind]);
        if (strncmp(fail, names[kind], length) == 0 && fail[length] == ':') {
            failing = kind;
            first = strtoul(fail + length + 1, NULL, 10);
            and_on = strchr(fail, '+') != NULL;
        }
    }
    is_on = 1;
}

__attribute__((destructor)) static void end(void)
{
    const char *name = getenv("FAIL_COUNTS");
    is_on = 0;
    if (name) {
        FILE *file = fopen(name, "w");
        for (int kind = 0; file && kind < KINDS; kind++)
            fprintf(file, "%lu\n", counts[kind]);
        if (file)
            fclose(file);
    }
}

/* Whether this call is refused. */
static int refuses(enum kind kind)
{
    if (!is_on)
        return 0;
    unsigned long number = ++counts[kind];
    if (kind != failing || (and_on ? number < first : number != first))
        return 0;
    errno = faults[kind];
    return 1;
}

void *malloc(size_t size) { return refuses(ALLOC) ? NULL : __libc_malloc(size); }
void *calloc(size_t count, size_t size) { return refuses(ALLOC) ? NULL : __libc_calloc(count, size); }
void *realloc(void *old, size_t size) { return refuses(ALLOC) ? NULL : __libc_realloc(old, size); }
void *memalign(size_t alignment, size_t size) { return refuses(ALLOC) ? NULL : __libc_memalign(alignment, size); }
void *aligned_alloc(size_t alignment, size_t size) { return refuses(ALLOC) ? NULL : __libc_memalign(alignment, size); }

int posix_memalign(void **made, size_t alignment, size_t size)
{
    void *block = refuses(ALLOC) ? NULL : __libc_memalign(alignment, size);
    if (!block)
        return ENOMEM;
    *made = block;
    return 0;
}

/* The function of the C library that stands behind this one. */
static void *behind(const char *name) { return dlsym(RTLD_NEXT, name); }

ssize_t read(int file, void *bytes, size_t size)
{
    ssize_t (*next)(int, void *, size_t) = (ssize_t (*)(int, void *, size_t))behind("read");
    return refuses(READ) ? -1 : next(file, bytes, size);
}

ssize_t write(int file, const void *bytes, size_t size)
{
    ssize_t (*next)(int, const void *, size_t) = (ssize_t (*)(int, const void *, size_t))behind("write");
    return refuses(WRITE) ? -1 : next(file, bytes, size);
}

static mode_t mode_of(int flags, va_list words) { return flags & (O_CREAT | O_TMPFILE) ? va_arg(words, mode_t) : 0; }

int open(const char *name, int flags, ...)
{
    va_list words;
    va_start(words, flags);
    mode_t mode = mode_of(flags, words);
    va_end(words);
    int (*next)(const char *, int, ...) = (int (*)(const char *, int, ...))behind("open");
    return refuses(OPEN) ? -1 : next(name, flags, mode);
}

int openat(int folder, const char *name, int flags, ...)
{
    va_list words;
    va_start(words, flags);
    mode_t mode = mode_of(flags, words);
    va_end(words);
    int (*next)(int, const char *, int, ...) = (int (*)(int, const char *, int, ...))behind("openat");
    return refuses(OPEN) ? -1 : next(folder, name, flags, mode);
}
