/* Refuses one allocation of a program that it is loaded into: the one whose number REFUSED says, counted from 1 over all threads. At the end
   it says on standard error how many there were. */
#include <errno.h>
#include <stdio.h>
#include <stdlib.h>
#include <sys/syscall.h>
#include <unistd.h>

extern void *__libc_malloc(size_t);
extern void *__libc_realloc(void *, size_t);

static long count, refused;
static int counts;

__attribute__((constructor)) static void begin(void) {
    const char *number = getenv("REFUSED");
    refused = number ? atol(number) : 0;
    counts = 1;
}

static void tell(void) {
    if (!counts) return;
    counts = 0;
    dprintf(2, "allocations %ld\n", count);
}

/* A program ends by returning from main, or by _exit, and then no destructor runs. */
__attribute__((destructor)) static void end(void) { tell(); }

__attribute__((noreturn)) void _exit(int status) {
    tell();
    for (;;) syscall(SYS_exit_group, status);
}

static int refuses(void) {
    if (!counts || __atomic_add_fetch(&count, 1, __ATOMIC_SEQ_CST) != refused) return 0;
    errno = ENOMEM;
    return 1;
}

void *malloc(size_t size) { return refuses() ? NULL : __libc_malloc(size); }
void *realloc(void *block, size_t size) { return refuses() ? NULL : __libc_realloc(block, size); }
