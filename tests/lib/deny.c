/* Stands between an interpreter and the C library, and refuses one call of the system on what lies below the folder DENY_BELOW: that
   of number DENY_AT, counted from 0, with the error of the number DENY_CODE. The file DENY_LOG gets a line for each such call, its
   name. What the interpreter starts is left alone. tests/lib/denied.py loads this by LD_PRELOAD. */
#define _GNU_SOURCE
#include <dirent.h>
#include <dlfcn.h>
#include <errno.h>
#include <fcntl.h>
#include <limits.h>
#include <stdarg.h>
#include <stdatomic.h>
#include <stdio.h>
#include <stdlib.h>
#include <string.h>
#include <sys/file.h>
#include <sys/stat.h>
#include <sys/statvfs.h>
#include <sys/syscall.h>
#include <sys/uio.h>
#include <unistd.h>

static char below[PATH_MAX];
static size_t length;
static long at = -1;
static int code = EIO, log_file = -1;
static atomic_long count;

__attribute__((constructor)) static void begin(void) {
    const char *folder = getenv("DENY_BELOW"), *number = getenv("DENY_AT"), *error = getenv("DENY_CODE"), *path = getenv("DENY_LOG");
    if (folder) length = (size_t)snprintf(below, sizeof below, "%s", folder);
    if (number) at = atol(number);
    if (error) code = atoi(error);
    if (path) log_file = (int)syscall(SYS_openat, AT_FDCWD, path, O_WRONLY | O_CREAT | O_APPEND | O_CLOEXEC, 0600);
    if (length) unsetenv("LD_PRELOAD");
}

/* Whether a path is the folder or below it. */
static int lies(const char *path) {
    return length && !strncmp(path, below, length) && (path[length] == '/' || !path[length]);
}

static int lies_at(int handle, const char *path) {
    char place[64], found[PATH_MAX];
    if (!length || !path) return 0;
    if (path[0] == '/') return lies(path);
    snprintf(place, sizeof place, handle == AT_FDCWD ? "/proc/self/cwd" : "/proc/self/fd/%d", handle);
    ssize_t size = readlink(place, found, sizeof found - 1);
    if (size <= 0) return 0;
    found[size] = 0;
    return lies(found);
}

static int lies_open(int handle) { return lies_at(handle, ""); }

/* Counts a call of which it is known that it is below the folder; whether it is the one that is refused. */
static int is_refused(int is_below, const char *name) {
    if (!is_below) return 0;
    long number = atomic_fetch_add(&count, 1);
    if (log_file >= 0) dprintf(log_file, "%s\n", name);
    if (number != at) return 0;
    errno = code;
    return 1;
}

#define REAL(name) ((__typeof__(&name))dlsym(RTLD_NEXT, #name))
#define REFUSED(where, name, value) if (is_refused(where, name)) return value

#define OPENS(name) \
    int name(const char *path, int flags, ...) { \
        va_list more; va_start(more, flags); mode_t mode = va_arg(more, mode_t); va_end(more); \
        REFUSED(lies_at(AT_FDCWD, path), flags & (O_WRONLY | O_RDWR) ? "open to write" : "open", -1); \
        return REAL(name)(path, flags, mode); }
OPENS(open)
OPENS(open64)
#define OPENS_AT(name) \
    int name(int handle, const char *path, int flags, ...) { \
        va_list more; va_start(more, flags); mode_t mode = va_arg(more, mode_t); va_end(more); \
        REFUSED(lies_at(handle, path), flags & (O_WRONLY | O_RDWR) ? "open to write" : "open", -1); \
        return REAL(name)(handle, path, flags, mode); }
OPENS_AT(openat)
OPENS_AT(openat64)

ssize_t write(int handle, const void *data, size_t size) {
    REFUSED(handle > 2 && handle != log_file && lies_open(handle), "write", -1);
    return REAL(write)(handle, data, size);
}
ssize_t read(int handle, void *data, size_t size) {
    REFUSED(handle > 2 && lies_open(handle), "read", -1);
    return REAL(read)(handle, data, size);
}
int fsync(int handle) {
    REFUSED(lies_open(handle), "fsync", -1);
    return REAL(fsync)(handle);
}
int ftruncate(int handle, off_t size) {
    REFUSED(lies_open(handle), "ftruncate", -1);
    return REAL(ftruncate)(handle, size);
}
int ftruncate64(int handle, off64_t size) {
    REFUSED(lies_open(handle), "ftruncate", -1);
    return REAL(ftruncate64)(handle, size);
}
int flock(int handle, int how) {
    REFUSED(lies_open(handle), "flock", -1);
    return REAL(flock)(handle, how);
}
int rename(const char *from, const char *to) {
    REFUSED(lies_at(AT_FDCWD, to), "rename", -1);
    return REAL(rename)(from, to);
}
int renameat(int a, const char *from, int b, const char *to) {
    REFUSED(lies_at(b, to), "rename", -1);
    return REAL(renameat)(a, from, b, to);
}
int link(const char *from, const char *to) {
    REFUSED(lies_at(AT_FDCWD, to), "link", -1);
    return REAL(link)(from, to);
}
int linkat(int a, const char *from, int b, const char *to, int flags) {
    REFUSED(lies_at(b, to), "link", -1);
    return REAL(linkat)(a, from, b, to, flags);
}
int unlink(const char *path) {
    REFUSED(lies_at(AT_FDCWD, path), "unlink", -1);
    return REAL(unlink)(path);
}
int unlinkat(int handle, const char *path, int flags) {
    REFUSED(lies_at(handle, path), flags & AT_REMOVEDIR ? "rmdir" : "unlink", -1);
    return REAL(unlinkat)(handle, path, flags);
}
int mkdir(const char *path, mode_t mode) {
    REFUSED(lies_at(AT_FDCWD, path), "mkdir", -1);
    return REAL(mkdir)(path, mode);
}
int rmdir(const char *path) {
    REFUSED(lies_at(AT_FDCWD, path), "rmdir", -1);
    return REAL(rmdir)(path);
}
int chmod(const char *path, mode_t mode) {
    REFUSED(lies_at(AT_FDCWD, path), "chmod", -1);
    return REAL(chmod)(path, mode);
}
DIR *opendir(const char *path) {
    REFUSED(lies_at(AT_FDCWD, path), "opendir", NULL);
    return REAL(opendir)(path);
}
DIR *fdopendir(int handle) {
    REFUSED(lies_open(handle), "opendir", NULL);
    return REAL(fdopendir)(handle);
}
int fstatvfs(int handle, struct statvfs *found) {
    REFUSED(lies_open(handle), "statvfs", -1);
    return REAL(fstatvfs)(handle, found);
}
int fstatvfs64(int handle, struct statvfs64 *found) {
    REFUSED(lies_open(handle), "statvfs", -1);
    return REAL(fstatvfs64)(handle, found);
}
int statvfs64(const char *path, struct statvfs64 *found) {
    REFUSED(lies_at(AT_FDCWD, path), "statvfs", -1);
    return REAL(statvfs64)(path, found);
}
#define STATS(name, type) \
    int name(const char *path, struct type *found) { \
        REFUSED(lies_at(AT_FDCWD, path), "stat", -1); \
        return REAL(name)(path, found); }
STATS(stat, stat)
STATS(stat64, stat64)
STATS(lstat, stat)
STATS(lstat64, stat64)
int fstatat(int handle, const char *path, struct stat *found, int flags) {
    REFUSED(lies_at(handle, path), "stat", -1);
    return REAL(fstatat)(handle, path, found, flags);
}
int fstatat64(int handle, const char *path, struct stat64 *found, int flags) {
    REFUSED(lies_at(handle, path), "stat", -1);
    return REAL(fstatat64)(handle, path, found, flags);
}
