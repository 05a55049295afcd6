/* Preloaded into a program (LD_PRELOAD), refuses its Nth call of pthread_create with EAGAIN, and
 * creates a file as a mark that it did. The environment gives N as REFUSED_CALL, and the file as
 * REFUSED_MARK. No header is included, because the toolchain's clang has none: the declarations are
 * those of Linux on x86-64. */

typedef void *(*body)(void *);
typedef int (*creator)(unsigned long *, const void *, body, void *);

extern void *dlsym(void *, const char *);
extern char *getenv(const char *);
extern long atol(const char *);
extern int creat(const char *, unsigned);
extern int close(int);

#define THE_NEXT_ONE ((void *)-1L)
#define EAGAIN 11

static unsigned long calls;

int pthread_create(unsigned long *thread, const void *attributes, body start, void *argument)
{
    const char *call = getenv("REFUSED_CALL"), *mark = getenv("REFUSED_MARK");
    if (call && mark && __atomic_add_fetch(&calls, 1, __ATOMIC_SEQ_CST) == (unsigned long)atol(call)) {
        close(creat(mark, 0666));
        return EAGAIN;
    }
    return ((creator)dlsym(THE_NEXT_ONE, "pthread_create"))(thread, attributes, start, argument);
}
