/* A library that is loaded before a program and refuses one of its allocations: the one whose number, counted from 1, the
   environment has as REFUSE. Once it did, the file that REFUSE_MARK names stands. tests/memory.sh builds and uses it. */
#define _GNU_SOURCE
#include <dlfcn.h>
#include <errno.h>
#include <fcntl.h>
#include <stdlib.h>
#include <unistd.h>

static unsigned long asked;

/* Whether this allocation is the one to refuse. */
static int is_refused(void) {
    static unsigned long wanted;
    const char *word = getenv("REFUSE");
    if (wanted == 0 && word != NULL) {
        wanted = strtoul(word, NULL, 10);
    }
    if (__atomic_add_fetch(&asked, 1, __ATOMIC_SEQ_CST) != wanted) {
        return 0;
    }
    const char *mark = getenv("REFUSE_MARK");
    if (mark != NULL) {
        close(open(mark, O_CREAT | O_WRONLY, 0600));
    }
    errno = ENOMEM;
    return 1;
}

void *malloc(size_t size) {
    static void *(*next)(size_t);
    if (next == NULL) {
        next = (void *(*)(size_t))dlsym(RTLD_NEXT, "malloc");
    }
    return is_refused() ? NULL : next(size);
}

void *realloc(void *at, size_t size) {
    static void *(*next)(void *, size_t);
    if (next == NULL) {
        next = (void *(*)(void *, size_t))dlsym(RTLD_NEXT, "realloc");
    }
    return is_refused() ? NULL : next(at, size);
}
