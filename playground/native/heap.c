// The heap of the program in a page: Doug Lea's malloc (dlmalloc/malloc.c, public domain) over the memory of WebAssembly.
#include "shim.h"
#define PAGE 65536UL
IMPORT(grown) void web_grown(size_t bytes);

extern char __heap_base;
static size_t top, end;

// Whether memory has so many pages more. What memory.grow answers is not looked at: where addresses are made 32 bits wide, a refusal is no longer -1.
static int grows(size_t pages) {
    __builtin_wasm_memory_grow(0, pages);
    if (__builtin_wasm_memory_size(0) * PAGE < end + pages * PAGE) return 0;
    end += pages * PAGE;
    return 1;
}

// More memory, right behind what was given before. It is never taken back. An eighth more is asked for where there is, since some browsers copy all.
static void *more(long n) {
    if (n < 0 || n > 1L << 32) return (void *)-1;
    if (!top) {
        top = ((size_t)&__heap_base + 15) & ~15UL;
        end = __builtin_wasm_memory_size(0) * PAGE;
    }
    if ((size_t)n > end - top) {
        size_t pages = ((size_t)n - (end - top) + PAGE - 1) / PAGE;
        size_t eighth = end / PAGE / 8;
        if (!(eighth > pages && grows(eighth)) && !grows(pages)) return (void *)-1;
        web_grown(end);
    }
    void *given = (void *)top;
    top += n;
    return given;
}

// The settings of dlmalloc: no system below it, no threads, blocks at multiples of 16, one mebibyte at a time.
#define __wasilibc_unmodified_upstream 1
#define USE_DL_PREFIX 1
#define DLMALLOC_EXPORT static
#define HAVE_MMAP 0
#define HAVE_MORECORE 1
#define MORECORE more
#define MORECORE_CONTIGUOUS 1
#define MORECORE_CANNOT_TRIM 1
#define DEFAULT_GRANULARITY (1UL << 20)
#define MALLOC_ALIGNMENT 16
#define MALLOC_FAILURE_ACTION
#define ABORT __builtin_trap()
#define ENOMEM 12
#define EINVAL 22
#define NO_MALLINFO 1
#define NO_MALLOC_STATS 1
#define NO_MALLOC_INSPECT_ALL 1
#define NO_SEGMENT_TRAVERSAL 1
#define USE_LOCKS 0
#define LACKS_UNISTD_H
#define LACKS_FCNTL_H
#define LACKS_SYS_PARAM_H
#define LACKS_SYS_MMAN_H
#define LACKS_STRINGS_H
#define LACKS_STRING_H
#define LACKS_SYS_TYPES_H
#define LACKS_ERRNO_H
#define LACKS_STDLIB_H
#define LACKS_SCHED_H
#define LACKS_TIME_H
#define malloc_getpagesize PAGE
#define memcpy __builtin_memcpy
#define memset __builtin_memset
static size_t dlmalloc_usable_size(void *);
#include "dlmalloc/malloc.c"

EXPORT(heap_take) void *heap_take(size_t n) { return dlmalloc(n); }
EXPORT(heap_retake) void *heap_retake(void *p, size_t n) { return dlrealloc(p, n); }
EXPORT(heap_give) void heap_give(void *p) { dlfree(p); }

// What Rattle's own heap does over malloc, realloc and free: an empty block has the size of its alignment.
typedef struct {
    u64 ok;
    void *p;
} Tried;
static u64 nothing[2];
static Tried tried(void *p) {
    Tried it = {p != 0, p ? p : nothing};
    return it;
}
Tried rattle_alloc(size_t n, size_t a) { return tried(heap_take(n ? n : a)); }
Tried rattle_realloc(void *p, size_t kept, size_t n, size_t a) { return tried(heap_retake(p, n ? n : a)); }
void rattle_dealloc(void *p) { heap_give(p); }
