/* Calls the functions of aarch64.c, or the toolchain's own of these names, and prints what each does.
 *
 * tools/second_machine runs it over both, and compares what is printed. What the functions ask of the heap goes to
 * malloc, realloc and free below, which note it, and refuse what is large.
 */
#include <errno.h>
#include <fcntl.h>
#include <stdint.h>
#include <stdio.h>
#include <string.h>
#include <sys/stat.h>
#include <unistd.h>

#define COUNT(list) (sizeof(list) / sizeof *(list))

enum { MOST = 100000, ROOM = 8 };

struct tried {
    _Bool ok;
    void *p;
};

struct tried rattle_alloc(size_t size, size_t align);
struct tried rattle_realloc(void *p, size_t kept, size_t size, size_t align);
void rattle_dealloc(void *p);
int rattle_errno(void);
void rattle_set_errno(int error);
ssize_t rattle_arg(size_t number, char *to, size_t room);
ssize_t rattle_env(const char *name, char *to, size_t room);
int rattle_open_dir_at(int folder, const char *name);

void *__libc_malloc(size_t size);
void *__libc_realloc(void *p, size_t size);
void __libc_free(void *p);

/* How many bytes were last asked for, in place of what, and what was given; what was last freed. */
static size_t asked;
static void *moved, *given, *freed;

void *malloc(size_t size) {
    asked = size;
    return given = size > MOST ? NULL : __libc_malloc(size);
}

void *realloc(void *p, size_t size) {
    asked = size;
    moved = p;
    return given = size > MOST ? NULL : __libc_realloc(p, size);
}

void free(void *p) {
    freed = p;
    __libc_free(p);
}

static void tell_memory(const char *call, struct tried got) {
    const char *where = got.p == NULL ? "nowhere" : got.p == given ? "what was given" : "elsewhere";
    printf("%s: asked %zu, ok %d, %s\n", call, asked, got.ok, where);
}

static const size_t SIZES[] = {0, 1, 17, MOST, MOST + 1, SIZE_MAX / 2}, ALIGNS[] = {1, 8, 16};

static void memory(size_t size, size_t align) {
    struct tried got = rattle_alloc(size, align);
    tell_memory("alloc", got);
    for (size_t at = 0; got.ok && at < COUNT(SIZES); at++) {
        void *was = got.p;
        struct tried next = rattle_realloc(was, size, SIZES[at], align);
        tell_memory("realloc", next);
        printf("of what was there %d\n", moved == was);
        if (next.ok) got = next;
    }
    if (!got.ok) return;
    void *last = got.p;
    rattle_dealloc(last);
    printf("freed what was there %d\n", freed == last);
}

/* How much of a text is put where there is this much room. */
static void tell_text(const char *what, size_t room, ssize_t answer, char *text) {
    printf("%s in %zu: %zd %.*s\n", what, room, answer, ROOM, text);
    memset(text, '#', ROOM);
}

static void texts(size_t room, size_t count) {
    static const char *const NAMES[] = {"EMPTY", "NONE", "SET"};
    char text[ROOM];
    memset(text, '#', ROOM);
    for (size_t number = 0; number <= count + 1; number++) tell_text("word", room, rattle_arg(number, text, room), text);
    tell_text("last word", room, rattle_arg(SIZE_MAX, text, room), text);
    for (size_t at = 0; at < COUNT(NAMES); at++) tell_text(NAMES[at], room, rattle_env(NAMES[at], text, room), text);
}

static void errors(int error) {
    errno = error;
    printf("errno %d\n", rattle_errno());
    rattle_set_errno(error + 1);
    printf("errno %d after it was set\n", errno);
}

static void opened(int folder, const char *name) {
    struct stat found = {0};
    errno = 0;
    int file = rattle_open_dir_at(folder, name);
    int error = errno;
    if (file >= 0) fstat(file, &found);
    printf("open %s: %s, %s, folder %d, closed on exec %d, to read alone %d\n", name, file < 0 ? "no" : "yes", strerror(error),
           S_ISDIR(found.st_mode), fcntl(file, F_GETFD), file < 0 ? 0 : (fcntl(file, F_GETFL) & O_ACCMODE) == O_RDONLY);
    if (file >= 0) close(file);
}

/* The words are names in the folder that it runs in, of which the last is a folder. */
int main(int count, char **words) {
    for (size_t room = 0; room <= ROOM; room++) texts(room, (size_t)count);
    for (size_t size = 0; size < COUNT(SIZES); size++)
        for (size_t align = 0; align < COUNT(ALIGNS); align++) memory(SIZES[size], ALIGNS[align]);
    for (int error = -1; error < 40; error++) errors(error);
    int folders[] = {open(".", O_RDONLY), open(words[count - 1], O_RDONLY), AT_FDCWD, -5};
    for (size_t at = 0; at < COUNT(folders); at++)
        for (int word = 1; word < count; word++) opened(folders[at], words[word]);
    return 0;
}
