/*
 * Stands before the C library (LD_PRELOAD). It refuses growths of a program; it interrupts reads of standard input and writes
 * to standard output, lets a write take few bytes or none; and it counts all these.
 *
 * A growth is a call that asks for a block: malloc, calloc, realloc, aligned_alloc, memalign or posix_memalign. They are
 * counted from just before main on, whoever makes them: the program, or the C library for it, as where a thread is started.
 * What the loader took earlier isn't counted, nor is memory that is mapped, as a stack.
 *
 * PRELOADED_PLAN names a file of numbers of 64 bits, as in `plan` below.
 */
#define _GNU_SOURCE
#include <errno.h>
#include <fcntl.h>
#include <stdatomic.h>
#include <stdint.h>
#include <stdlib.h>
#include <sys/mman.h>
#include <sys/syscall.h>
#include <unistd.h>

extern void *__libc_malloc(size_t size);
extern void *__libc_calloc(size_t count, size_t size);
extern void *__libc_realloc(void *block, size_t size);
extern void *__libc_memalign(size_t align, size_t size);

static struct plan {
    /* the first growth to refuse and the last; and counts, of growths that were asked for, and that were refused */
    uint64_t first, last;
    _Atomic uint64_t asked, refused;
    /* how many of the first calls are interrupted, how many bytes a write takes at most, which write takes none; and counts,
     * of reads, of those that gave nothing, and of writes */
    uint64_t bad_reads, bad_writes, most, none_at, reads, ends, writes;
} nothing = {.first = -1, .last = -1, .most = -1}, *plan = &nothing;

__attribute__((constructor)) static void begin(void) {
    const char *name = getenv("PRELOADED_PLAN");
    int file = name ? open(name, O_RDWR | O_CLOEXEC) : -1;
    void *room = file < 0 ? MAP_FAILED : mmap(NULL, sizeof *plan, PROT_READ | PROT_WRITE, MAP_SHARED, file, 0);
    if (file >= 0) close(file);
    if (room != MAP_FAILED) plan = room;
}

static int is_refused(void) {
    uint64_t number = atomic_fetch_add(&plan->asked, 1) + 1;
    if (number < plan->first || plan->last < number) return 0;
    atomic_fetch_add(&plan->refused, 1);
    errno = ENOMEM;
    return 1;
}

void *malloc(size_t size) { return is_refused() ? NULL : __libc_malloc(size); }
void *calloc(size_t count, size_t size) { return is_refused() ? NULL : __libc_calloc(count, size); }
void *realloc(void *block, size_t size) { return is_refused() ? NULL : __libc_realloc(block, size); }
void *memalign(size_t align, size_t size) { return is_refused() ? NULL : __libc_memalign(align, size); }
void *aligned_alloc(size_t align, size_t size) { return memalign(align, size); }

int posix_memalign(void **block, size_t align, size_t size) {
    void *found = memalign(align, size);
    if (found) *block = found;
    return found ? 0 : ENOMEM;
}

ssize_t read(int file, void *to, size_t count) {
    if (file == 0 && ++plan->reads <= plan->bad_reads) return errno = EINTR, -1;
    ssize_t given = syscall(SYS_read, file, to, count);
    if (file == 0 && given == 0) plan->ends++;
    return given;
}

ssize_t write(int file, const void *from, size_t count) {
    if (file == 1) {
        if (++plan->writes <= plan->bad_writes) return errno = EINTR, -1;
        if (plan->writes == plan->none_at) return 0;
        if (count > plan->most) count = plan->most;
    }
    return syscall(SYS_write, file, from, count);
}
