/*
 * small_stack KIB: runs the summary program (its object file, with `main` renamed to summary_main) on a stack of KIB KiB with nothing mapped below it, for tests/stack.py where the
 * program runs under an emulator, which gives every program 128 KiB or more. The thread's own block of the C library lies on that stack too.
 */
#define _GNU_SOURCE
#include <pthread.h>
#include <stdlib.h>
#include <sys/mman.h>

int summary_main(void);

static void *run(void *nothing)
{
    summary_main();
    return nothing;
}

int main(int count, char **words)
{
    enum { GUARD = 1 << 20 };
    size_t size = count == 2 ? (size_t)atol(words[1]) * 1024 : 0;
    char *block = mmap(NULL, GUARD + size, PROT_NONE, MAP_PRIVATE | MAP_ANONYMOUS, -1, 0);
    pthread_attr_t how;
    pthread_t thread;
    if (size == 0 || block == MAP_FAILED || mprotect(block + GUARD, size, PROT_READ | PROT_WRITE) != 0)
        return 2;
    if (pthread_attr_init(&how) != 0 || pthread_attr_setstack(&how, block + GUARD, size) != 0 || pthread_create(&thread, &how, run, NULL) != 0)
        return 2;
    return pthread_join(thread, NULL) != 0;
}
