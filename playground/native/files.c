// Files, words and what else the proved program asks of a system. The page has them: machine.js.
#include "shim.h"
IMPORT(open) int web_open(const char *path, int flags);
IMPORT(read) ssize_t web_read(int fd, void *to, size_t n);
IMPORT(write) ssize_t web_write(int fd, const void *from, size_t n);
IMPORT(seek) long web_seek(int fd, long offset, int whence);
IMPORT(close) int web_close(int fd);
IMPORT(mkdir) int web_mkdir(const char *path);
IMPORT(arg) ssize_t web_arg(size_t i, void *to, size_t n);
IMPORT(error) int web_errno(void);
IMPORT(set_error) void web_set_errno(int error);

int memcmp(const void *a, const void *b, size_t n) {
    const unsigned char *p = a, *q = b;
    while (n >= 8) {
        u64 x, y;
        __builtin_memcpy(&x, p, 8);
        __builtin_memcpy(&y, q, 8);
        if (x != y) break;
        p += 8, q += 8, n -= 8;
    }
    for (; n; n--, p++, q++)
        if (*p != *q) return *p - *q;
    return 0;
}
int bcmp(const void *a, const void *b, size_t n) { return memcmp(a, b, n); }
EXPORT(compare) int compare(const void *a, const void *b, size_t n) { return memcmp(a, b, n); }

int open(const char *path, int flags, ...) { return web_open(path, flags); }
ssize_t read(int fd, void *to, size_t n) { return web_read(fd, to, n); }
ssize_t write(int fd, const void *from, size_t n) { return web_write(fd, from, n); }
long lseek(int fd, long offset, int whence) { return web_seek(fd, offset, whence); }
int close(int fd) { return web_close(fd); }
int mkdir(const char *path, unsigned mode) { return web_mkdir(path); }
ssize_t rattle_arg(size_t i, void *to, size_t n) { return web_arg(i, to, n); }
int rattle_errno(void) { return web_errno(); }
void rattle_set_errno(int error) { web_set_errno(error); }

// There is no environment.
ssize_t rattle_env(const char *name, void *to, size_t n) { return -1; }
ssize_t rattle_env_at(size_t i, void *to, size_t n) { return -1; }
// Nothing is said of a file (ENOSYS); the program reads it without.
int statx(int fd, const char *path, int flags, unsigned mask, void *to) {
    web_set_errno(38);
    return -1;
}

// The start of the program for x86-64 ignores SIGPIPE, and asks which instructions the processor has.
long __sysv_signal(int number, long handler) { return 0; }
ssize_t __write(int fd, const void *from, size_t n) { return web_write(fd, from, n); }
static u64 all[8] = {~0ULL, ~0ULL, ~0ULL, ~0ULL, ~0ULL, ~0ULL, ~0ULL, ~0ULL};
const void *__x86_get_cpuid_feature_leaf(unsigned leaf) { return all; }
