/* Lies before the C library for refuse-in-turn and refuse-rows: answers none to an allocation, or gives half of what a
 * read of a file asks for. */
#define _GNU_SOURCE
#include <errno.h>
#include <fcntl.h>
#include <stdint.h>
#include <stdlib.h>
#include <sys/mman.h>
#include <sys/stat.h>
#include <sys/syscall.h>
#include <unistd.h>

void *__libc_malloc(size_t size);
void *__libc_realloc(void *block, size_t size);

enum { ALLOCATIONS, READS };

/* Shared with the script: what is lost, how many of these there were, the first that is lost (0: none), whether all later ones are. */
static volatile struct { int64_t what, counted, first, all; } *control;

__attribute__((constructor)) static void begin(void) {
    const char *name = getenv("LOSING_CONTROL");
    int file = name ? open(name, O_RDWR | O_CLOEXEC) : -1;
    void *found = file < 0 ? MAP_FAILED : mmap(NULL, sizeof *control, PROT_READ | PROT_WRITE, MAP_SHARED, file, 0);
    if (found != MAP_FAILED) control = found;
}

static int is_lost(int what) {
    if (!control || control->what != what) return 0;
    int64_t now = ++control->counted;
    return control->first && (now == control->first || (control->all && now > control->first));
}

void *malloc(size_t size) {
    if (is_lost(ALLOCATIONS)) { errno = ENOMEM; return NULL; }
    return __libc_malloc(size);
}

void *realloc(void *block, size_t size) {
    if (is_lost(ALLOCATIONS)) { errno = ENOMEM; return NULL; }
    return __libc_realloc(block, size);
}

static size_t given(int file, size_t size) {
    struct stat is;
    return size < 2 || fstat(file, &is) || !S_ISREG(is.st_mode) || !is_lost(READS) ? size : size - size / 2;
}

ssize_t read(int file, void *to, size_t size) { return syscall(SYS_read, file, to, given(file, size)); }

ssize_t pread(int file, void *to, size_t size, off_t at) { return syscall(SYS_pread64, file, to, given(file, size), at); }

ssize_t pread64(int file, void *to, size_t size, off64_t at) { return syscall(SYS_pread64, file, to, given(file, size), at); }
