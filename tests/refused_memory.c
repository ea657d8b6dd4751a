/* Lets one allocation of a process fail, or all from one on: loaded before the C library's own, by LD_PRELOAD.

   REFUSED is the number of the allocation, counted from 1; with REFUSED_AND_LATER those after it fail, too. The file
   REFUSED_MARK is made when the library is loaded, and gets a byte when the allocation comes. */
#define _GNU_SOURCE
#include <errno.h>
#include <fcntl.h>
#include <stdlib.h>
#include <sys/mman.h>
#include <sys/syscall.h>
#include <unistd.h>

extern void *__libc_malloc(size_t size);
extern void *__libc_calloc(size_t count, size_t size);
extern void *__libc_realloc(void *block, size_t size);
extern void *__libc_memalign(size_t alignment, size_t size);

static long refused, seen;
static int and_later;
static const char *mark;

static void write_mark(const char *bytes, size_t count) {
    int file = open(mark, O_WRONLY | O_CREAT | O_APPEND, 0644);
    if (file < 0 || write(file, bytes, count) != (ssize_t)count) _exit(99);
    close(file);
}

/* What the C library takes to start the process is not counted. */
__attribute__((constructor)) static void begin(void) {
    mark = getenv("REFUSED_MARK");
    and_later = getenv("REFUSED_AND_LATER") != NULL;
    const char *number = getenv("REFUSED");
    if (!mark || !number) return;
    write_mark("", 0);
    refused = atol(number);
}

static int is_refused(void) {
    if (!refused) return 0;
    seen++;
    if (seen < refused || (seen > refused && !and_later)) return 0;
    if (seen == refused) write_mark("x", 1);
    errno = ENOMEM;
    return 1;
}

void *malloc(size_t size) { return is_refused() ? NULL : __libc_malloc(size); }

void *calloc(size_t count, size_t size) { return is_refused() ? NULL : __libc_calloc(count, size); }

void *realloc(void *block, size_t size) { return is_refused() ? NULL : __libc_realloc(block, size); }

void *memalign(size_t alignment, size_t size) { return is_refused() ? NULL : __libc_memalign(alignment, size); }

void *aligned_alloc(size_t alignment, size_t size) { return memalign(alignment, size); }

int posix_memalign(void **block, size_t alignment, size_t size) {
    void *made = memalign(alignment, size);
    if (!made) return ENOMEM;
    *block = made;
    return 0;
}

void *mmap(void *place, size_t size, int rights, int kind, int file, off_t from) {
    if ((kind & MAP_ANONYMOUS) && is_refused()) return MAP_FAILED;
    return (void *)syscall(SYS_mmap, place, size, rights, kind, file, from);
}
