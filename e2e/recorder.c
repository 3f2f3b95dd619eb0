/* For lose-power: lists what a program does to the files of an office (names that begin with office.db) in the file that
 * RECORD_LIST names. It lies before the C library. An entry is the head below, and as many bytes as it says. */
#define _GNU_SOURCE
#include <fcntl.h>
#include <stdarg.h>
#include <stdint.h>
#include <stdio.h>
#include <stdlib.h>
#include <string.h>
#include <sys/socket.h>
#include <sys/syscall.h>
#include <unistd.h>

enum { BEGUN, SENT, MADE, WRITTEN, RESIZED, FLUSHED, REMOVED, RENAMED };
static int list = -1;
static char names[1024][32];  /* of the open files of the office */

static const char *office_name(const char *path) {
    const char *slash = strrchr(path, '/');
    const char *name = slash ? slash + 1 : path;
    return strncmp(name, "office.db", 9) || strlen(name) > 31 ? NULL : name;
}

static void note(int64_t kind, const char *name, int64_t offset, const void *bytes, int64_t length) {
    struct { int64_t kind, offset, length; char name[32]; } head = { kind, offset, length, "" };
    if (list < 0) return;
    strncpy(head.name, name, 31);
    if (syscall(SYS_write, list, &head, sizeof head) != sizeof head || syscall(SYS_write, list, bytes, length) != length) abort();
}

static const char *named(int file) { return file >= 0 && file < 1024 && names[file][0] ? names[file] : NULL; }

__attribute__((constructor)) static void begin(void) {
    const char *name = getenv("RECORD_LIST");
    if (name) list = syscall(SYS_openat, AT_FDCWD, name, O_WRONLY | O_APPEND | O_CLOEXEC);
    note(BEGUN, "", 0, "", 0);
}

int open(const char *path, int flags, ...) {
    va_list rest;
    va_start(rest, flags);
    int file = syscall(SYS_openat, AT_FDCWD, path, flags, flags & O_CREAT ? va_arg(rest, int) : 0);
    va_end(rest);
    if (file >= 0 && file < 1024) names[file][0] = 0;
    if (file < 0 || !office_name(path)) return file;
    if (file >= 1024) abort();
    strcpy(names[file], office_name(path));
    if (flags & O_CREAT) note(MADE, names[file], 0, "", 0);
    if (flags & O_TRUNC) note(RESIZED, names[file], 0, "", 0);
    return file;
}

ssize_t pwrite(int file, const void *bytes, size_t length, off_t offset) {
    ssize_t done = syscall(SYS_pwrite64, file, bytes, length, offset);
    if (done > 0 && named(file)) note(WRITTEN, named(file), offset, bytes, done);
    return done;
}

ssize_t write(int file, const void *bytes, size_t length) {
    int64_t offset = named(file) ? lseek(file, 0, SEEK_CUR) : 0;
    ssize_t done = syscall(SYS_write, file, bytes, length);
    if (done > 0 && named(file)) note(WRITTEN, named(file), offset, bytes, done);
    else if (done > 0 && file <= 2) note(SENT, "", 0, "", 0);
    return done;
}
ssize_t __write(int file, const void *bytes, size_t length) { return write(file, bytes, length); }

int ftruncate(int file, off_t length) {
    int failed = syscall(SYS_ftruncate, file, length);
    if (!failed && named(file)) note(RESIZED, named(file), length, "", 0);
    return failed;
}

static int flushed(int failed, int file) {
    if (!failed && named(file)) note(FLUSHED, named(file), 0, "", 0);
    return failed;
}
int fsync(int file) { return flushed(syscall(SYS_fsync, file), file); }
int fdatasync(int file) { return flushed(syscall(SYS_fdatasync, file), file); }

int unlink(const char *path) {
    int failed = syscall(SYS_unlink, path);
    if (!failed && office_name(path)) note(REMOVED, office_name(path), 0, "", 0);
    return failed;
}

int rename(const char *one, const char *other) {
    int failed = syscall(SYS_rename, one, other);
    const char *from = office_name(one), *to = office_name(other);
    if (!failed && from && to) note(RENAMED, from, 0, to, strlen(to));
    else if (!failed && (from || to)) abort();
    return failed;
}

int accept4(int file, struct sockaddr *address, socklen_t *length, int flags) {
    int client = syscall(SYS_accept4, file, address, length, flags);
    if (client >= 0) note(BEGUN, "", 0, "", 0);
    return client;
}

ssize_t send(int file, const void *bytes, size_t length, int flags) {
    ssize_t done = syscall(SYS_sendto, file, bytes, length, flags, NULL, 0);
    if (done > 0) note(SENT, "", 0, "", 0);
    return done;
}
