/* Preloaded into a program (LD_PRELOAD), refuses its Nth memory allocation, and on request each
 * later one too, and creates a file as a mark that it did. If the program ends and has joined all
 * threads that it made, it creates another file. The environment gives N as REFUSED_CALL, the
 * request to refuse all later ones as REFUSED_ONWARD, and the files as REFUSED_MARK and
 * REFUSED_JOINED. No header is included, because the toolchain's clang has none: the declarations
 * are those of Linux on x86-64 with glibc. */

typedef unsigned long size;
typedef void *(*body)(void *);
typedef int (*creator)(unsigned long *, const void *, body, void *);
typedef int (*joiner)(unsigned long, void **);
typedef void (*ender)(int);

extern void *__libc_malloc(size), *__libc_calloc(size, size), *__libc_realloc(void *, size), *__libc_memalign(size, size);
extern void *dlsym(void *, const char *);
extern char *getenv(const char *);
extern long atol(const char *);
extern int creat(const char *, unsigned);
extern int close(int);
extern int *__errno_location(void);

#define THE_NEXT_ONE ((void *)-1L)
#define ENOMEM 12

static size calls, made, joined;

static size one_more(size *count)
{
    return __atomic_add_fetch(count, 1, __ATOMIC_SEQ_CST);
}

static void leave(const char *file)
{
    if (file)
        close(creat(file, 0666));
}

static int is_refused(void)
{
    const char *call = getenv("REFUSED_CALL");
    if (!call)
        return 0;
    size first = atol(call), now = one_more(&calls);
    if (now != first && !(now > first && getenv("REFUSED_ONWARD")))
        return 0;
    if (now == first)
        leave(getenv("REFUSED_MARK"));
    *__errno_location() = ENOMEM;
    return 1;
}

void *malloc(size bytes)
{
    return is_refused() ? 0 : __libc_malloc(bytes);
}

void *calloc(size count, size bytes)
{
    return is_refused() ? 0 : __libc_calloc(count, bytes);
}

void *realloc(void *block, size bytes)
{
    return is_refused() ? 0 : __libc_realloc(block, bytes);
}

void *aligned_alloc(size alignment, size bytes)
{
    return is_refused() ? 0 : __libc_memalign(alignment, bytes);
}

int posix_memalign(void **block, size alignment, size bytes)
{
    void *got = aligned_alloc(alignment, bytes);
    if (!got)
        return ENOMEM;
    *block = got;
    return 0;
}

int pthread_create(unsigned long *thread, const void *attributes, body start, void *argument)
{
    int status = ((creator)dlsym(THE_NEXT_ONE, "pthread_create"))(thread, attributes, start, argument);
    if (!status)
        one_more(&made);
    return status;
}

int pthread_join(unsigned long thread, void **result)
{
    int status = ((joiner)dlsym(THE_NEXT_ONE, "pthread_join"))(thread, result);
    if (!status)
        one_more(&joined);
    return status;
}

/* A program ends by _exit, which calls no destructor, or by coming back from main. */
__attribute__((destructor)) static void end(void)
{
    if (made == joined)
        leave(getenv("REFUSED_JOINED"));
}

void _exit(int status)
{
    end();
    ((ender)dlsym(THE_NEXT_ONE, "_exit"))(status);
}
