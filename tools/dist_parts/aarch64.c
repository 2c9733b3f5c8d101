/* What the toolchain's libraries call in C, for programs on aarch64.
 *
 * Those libraries declare each of these functions with a contract, which nothing proves. The toolchain has the functions
 * for x86_64 alone, in liblibc_c.a and libos_c.a, without their sources; so here they are written anew, to do what that
 * code does. tools/second_machine compares both, call by call.
 */
#include <errno.h>
#include <fcntl.h>
#include <stdlib.h>

/* Whether there is memory, and where; where there is none it points to a byte that nobody uses. */
struct tried {
    _Bool ok;
    void *p;
};

static char nothing;

static struct tried tried(void *p) {
    return (struct tried){p != NULL, p != NULL ? p : &nothing};
}

/* (one of no bytes takes as many as it is aligned to: at most 16, as each that malloc gives is aligned) */
struct tried rattle_alloc(size_t size, size_t align) {
    return tried(malloc(size != 0 ? size : align));
}

struct tried rattle_realloc(void *p, size_t kept, size_t size, size_t align) {
    (void)kept;
    return tried(realloc(p, size != 0 ? size : align));
}

void rattle_dealloc(void *p) {
    free(p);
}

int rattle_errno(void) {
    return errno;
}

void rattle_set_errno(int error) {
    errno = error;
}

static int count;
static char **words;

/* The C library calls this before main, with what main is given. */
__attribute__((constructor)) static void keep(int given_count, char **given) {
    count = given_count;
    words = given;
}

/* Copies a text without the 0 at its end, and answers its length: -1 where there is none, -2 where it doesn't fit. */
static ssize_t copied(const char *text, char *to, size_t room) {
    if (text == NULL) return -1;
    size_t at = 0;
    for (; text[at] != 0; at++) {
        if (at == room) return -2;
        to[at] = text[at];
    }
    return (ssize_t)at;
}

ssize_t rattle_arg(size_t number, char *to, size_t room) {
    return copied(number < (size_t)count ? words[number] : NULL, to, room);
}

ssize_t rattle_env(const char *name, char *to, size_t room) {
    return copied(getenv(name), to, room);
}

int rattle_open_dir_at(int folder, const char *name) {
    return openat(folder, name, O_RDONLY | O_DIRECTORY | O_NOFOLLOW | O_CLOEXEC);
}
