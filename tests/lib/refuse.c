/* Stands between the program and the C library, and refuses a call: that of number REFUSE_AT, counted from 0, of the kind REFUSE, and
   where REFUSE_ON is set each one from it on; none where that is no kind. It fails with the error of the number REFUSE_CODE, or else with
   the one that is usual for its kind. The file REFUSE_COUNTS has how many calls of each kind were made, a line each, in the order of
   the kinds, and last how many faults of files were told. tests/refusals loads this by LD_PRELOAD.

   A fault may come later than the write that caused it, as on a disk on the net: of the kind "late" a write is taken, and then the next
   sync or closing of what was written fails. So of two kinds is a closing: "close" of what has bytes that no sync has made certain, and
   "idle" of all else. */
#define _GNU_SOURCE
#include <dlfcn.h>
#include <errno.h>
#include <fcntl.h>
#include <pthread.h>
#include <stdarg.h>
#include <stdatomic.h>
#include <stdio.h>
#include <stdlib.h>
#include <string.h>
#include <sys/mman.h>
#include <sys/stat.h>
#include <unistd.h>

enum kind { MEMORY, THREAD, OPEN, READ, WRITE, LATE, SYNC, FOLDER, CLOSE, IDLE, RENAME, LOOK, MODE, TOLD, KINDS };
static const char *const NAMES[KINDS] = {"memory", "thread", "open", "read", "write", "late", "sync", "folder", "close", "idle", "rename",
                                         "look", "mode", "told"};

/* A line of the file: a name in eight bytes, a count, an LF. */
#define LINE 32

/* What is known of an open file: it was written since its last sync, and a write of it is lost. */
#define FILES 4096
enum { WRITTEN = 1, LOST = 2 };
static atomic_int known[FILES];

static atomic_long calls[KINDS];
static int refused_kind = -1, refused_code, lasts;
static long refused_at = -1;
static atomic_int begun;
static char *told;

/* Counts a call, and gives its number. */
static long counted(enum kind kind) {
    long number = atomic_fetch_add(&calls[kind], 1);
    if (told) {
        char digits[21];
        int size = 0;
        long left = number + 1;
        do {
            digits[size++] = (char)('0' + left % 10);
            left /= 10;
        } while (left);
        for (int place = 0; place < size; place++) told[kind * LINE + LINE - 2 - place] = digits[place];
    }
    return number;
}

/* Whether this call is the one, or behind it where that lasts; it counts. */
static int is_refused(enum kind kind) {
    if (!atomic_load(&begun)) return 0;
    long number = counted(kind);
    return kind == (enum kind)refused_kind && refused_at >= 0 && (number == refused_at || (lasts && number > refused_at));
}

/* Tells a fault of a file. */
static int fault(int code) {
    counted(TOLD);
    errno = refused_code ? refused_code : code;
    return -1;
}

__attribute__((constructor)) static void begin(void) {
    const char *kind = getenv("REFUSE"), *at = getenv("REFUSE_AT"), *path = getenv("REFUSE_COUNTS"), *code = getenv("REFUSE_CODE");
    for (int k = 0; k < KINDS; k++)
        if (kind && !strcmp(kind, NAMES[k])) refused_kind = k;
    if (at) refused_at = atol(at);
    if (code) refused_code = atoi(code);
    lasts = getenv("REFUSE_ON") != NULL;
    int file = path ? open(path, O_RDWR | O_CREAT | O_TRUNC, 0600) : -1;
    if (file >= 0 && !ftruncate(file, KINDS * LINE)) {
        told = mmap(NULL, KINDS * LINE, PROT_READ | PROT_WRITE, MAP_SHARED, file, 0);
        if (told == MAP_FAILED) told = NULL;
        for (int k = 0; told && k < KINDS; k++) {
            memset(told + k * LINE, ' ', LINE - 1);
            memcpy(told + k * LINE, NAMES[k], strlen(NAMES[k]));
            told[k * LINE + LINE - 2] = '0';
            told[k * LINE + LINE - 1] = '\n';
        }
        close(file);
    }
    atomic_store(&begun, 1);
}

#define REAL(name) ((__typeof__(name) *)dlsym(RTLD_NEXT, #name))
#define FAIL(kind, code) if (is_refused(kind)) return fault(code);
#define IS_KNOWN(file) ((file) >= 0 && (file) < FILES)

/* What is known of an open file that is synced or closed, and is not known any more. */
static int forget(int file) { return IS_KNOWN(file) ? atomic_exchange(&known[file], 0) : 0; }

static int is_folder(int file) {
    struct stat found;
    return fstat(file, &found) == 0 && S_ISDIR(found.st_mode);
}

extern void *__libc_malloc(size_t);
extern void *__libc_realloc(void *, size_t);

void *malloc(size_t size) {
    if (!is_refused(MEMORY)) return __libc_malloc(size);
    errno = ENOMEM;
    return NULL;
}
void *realloc(void *old, size_t size) {
    if (!is_refused(MEMORY)) return __libc_realloc(old, size);
    errno = ENOMEM;
    return NULL;
}
int pthread_create(pthread_t *made, const pthread_attr_t *how, void *(*what)(void *), void *with) {
    if (is_refused(THREAD)) return EAGAIN;
    return REAL(pthread_create)(made, how, what, with);
}
int open(const char *path, int flags, ...) {
    va_list rest;
    va_start(rest, flags);
    mode_t mode = flags & (O_CREAT | O_TMPFILE) ? va_arg(rest, mode_t) : 0;
    va_end(rest);
    FAIL(OPEN, EIO)
    return REAL(open)(path, flags, mode);
}
ssize_t read(int file, void *into, size_t size) {
    FAIL(READ, EIO)
    return REAL(read)(file, into, size);
}
ssize_t write(int file, const void *from, size_t size) {
    FAIL(WRITE, ENOSPC)
    if (IS_KNOWN(file) && file > 2) atomic_fetch_or(&known[file], is_refused(LATE) ? WRITTEN | LOST : WRITTEN);
    return REAL(write)(file, from, size);
}
static int synced(int file, int answer) {
    FAIL(is_folder(file) ? FOLDER : SYNC, EIO)
    return forget(file) & LOST ? fault(EDQUOT) : answer;
}
int fsync(int file) { return synced(file, REAL(fsync)(file)); }
int fdatasync(int file) { return synced(file, REAL(fdatasync)(file)); }
int close(int file) {
    int was = forget(file), closed = REAL(close)(file);
    FAIL(was & WRITTEN ? CLOSE : IDLE, EIO)
    return was & LOST ? fault(EDQUOT) : closed;
}
int rename(const char *from, const char *to) {
    FAIL(RENAME, EIO)
    return REAL(rename)(from, to);
}
int link(const char *from, const char *to) {
    FAIL(RENAME, EIO)
    return REAL(link)(from, to);
}
int statx(int at, const char *path, int flags, unsigned mask, struct statx *into) {
    FAIL(LOOK, EIO)
    return REAL(statx)(at, path, flags, mask, into);
}
char *realpath(const char *path, char *into) {
    if (!is_refused(LOOK)) return REAL(realpath)(path, into);
    errno = refused_code ? refused_code : EIO;
    return NULL;
}
int fchmod(int file, mode_t mode) {
    FAIL(MODE, EPERM)
    return REAL(fchmod)(file, mode);
}
int fchown(int file, uid_t user, gid_t group) {
    FAIL(MODE, EPERM)
    return REAL(fchown)(file, user, group);
}
