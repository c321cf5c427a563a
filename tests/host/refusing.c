/* Loaded before a program of tests by tests/values: refuses one of its growths, or one of its starts of a thread, that
   whose number the environment names. It includes nothing, since the toolchain's compiler of C has no headers. */
typedef unsigned long size_t;
enum { AGAIN = 11 };

void *__libc_malloc(size_t size), *__libc_realloc(void *old, size_t size);
void *dlsym(void *after, const char *name);
char *getenv(const char *name);
long atol(const char *digits), write(int file, const void *bytes, size_t count);

static long growths, starts;

/* Counts a call, and tells whether it is the one to refuse. */
static int is_refused(long *count, const char *name) {
    long call = __atomic_add_fetch(count, 1, __ATOMIC_SEQ_CST);
    const char *number = getenv(name);
    return number && call == atol(number) && write(2, "refused\n", 8) == 8;
}

void *malloc(size_t size) {
    return is_refused(&growths, "REFUSED_GROWTH") ? 0 : __libc_malloc(size);
}

void *realloc(void *old, size_t size) {
    return is_refused(&growths, "REFUSED_GROWTH") ? 0 : __libc_realloc(old, size);
}

int pthread_create(void *thread, const void *how, void *(*body)(void *), void *word) {
    int (*create)(void *, const void *, void *(*)(void *), void *) = dlsym((void *)-1L, "pthread_create");
    return is_refused(&starts, "REFUSED_START") ? AGAIN : create(thread, how, body, word);
}
