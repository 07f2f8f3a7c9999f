// Loaded before the C library: refuses one call of a kind that the program itself makes.
// REFUSE is KIND:N, for the Nth call: of alloc, malloc or realloc finds no memory; of read, a read fails; of write, a write to standard
// output fails; of short, a read of several bytes, or a write of several to standard output, moves one.
// REFUSED names a file that is made where there was an Nth call, and STARTED one that is made where a thread is started.
#define _GNU_SOURCE
#include <dlfcn.h>
#include <elf.h>
#include <errno.h>
#include <fcntl.h>
#include <pthread.h>
#include <stdatomic.h>
#include <stdlib.h>
#include <string.h>
#include <sys/auxv.h>
#include <sys/syscall.h>
#include <sys/uio.h>
#include <unistd.h>

extern void *__libc_malloc(size_t size);
extern void *__libc_realloc(void *at, size_t size);

static atomic_long calls;

// Whether the code at this address is the program's, and not the C library's.
static int is_own(void *at) {
    Dl_info info;
    return dladdr(at, &info) && info.dli_fbase == (char *)getauxval(AT_PHDR) - sizeof(Elf64_Ehdr);
}

// Makes the file that a variable names.
static void make(const char *variable) {
    int made = open(getenv(variable), O_CREAT | O_WRONLY, 0600);
    if (made >= 0) close(made);
}

// Whether this call of a kind is the one to refuse.
static int is_refused(const char *kind, void *caller) {
    const char *asked = getenv("REFUSE");
    size_t length = strlen(kind);
    if (!asked || strncmp(asked, kind, length) || asked[length] != ':' || !is_own(caller)) return 0;
    if (atomic_fetch_add(&calls, 1) + 1 != atol(asked + length + 1)) return 0;
    make("REFUSED");
    return 1;
}

void *malloc(size_t size) {
    return is_refused("alloc", __builtin_return_address(0)) ? NULL : __libc_malloc(size);
}

void *realloc(void *at, size_t size) {
    return is_refused("alloc", __builtin_return_address(0)) ? NULL : __libc_realloc(at, size);
}

ssize_t read(int file, void *to, size_t count) {
    void *caller = __builtin_return_address(0);
    if (is_refused("read", caller)) {
        errno = EIO;
        return -1;
    }
    if (count > 1 && is_refused("short", caller)) count = 1;
    return syscall(SYS_read, file, to, count);
}

ssize_t write(int file, const void *from, size_t count) {
    void *caller = __builtin_return_address(0);
    if (file == 1 && is_refused("write", caller)) {
        errno = EIO;
        return -1;
    }
    if (file == 1 && count > 1 && is_refused("short", caller)) count = 1;
    return syscall(SYS_write, file, from, count);
}

int pthread_create(pthread_t *thread, const pthread_attr_t *how, void *(*run)(void *), void *with) {
    int (*next)(pthread_t *, const pthread_attr_t *, void *(*)(void *), void *) = dlsym(RTLD_NEXT, "pthread_create");
    make("STARTED");
    return next(thread, how, run, with);
}
