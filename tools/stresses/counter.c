/* Counts what a program asks the C library for, and refuses the Nth allocation. */
#include <errno.h>
#include <fcntl.h>
#include <stdlib.h>
#include <sys/mman.h>
#include <unistd.h>

extern void *__libc_malloc(size_t), *__libc_calloc(size_t, size_t);
extern void *__libc_realloc(void *, size_t), *__libc_memalign(size_t, size_t);

/* How often the program asked, and whether it was refused: in a file, since a program may end
   without any exit. */
struct note { long asked, refused; };

static struct note own, *note = &own;
static long refused_at;

__attribute__((constructor)) static void begin(void) {
    int file = open(getenv("REFUSAL_NOTE"), O_RDWR);
    note = mmap(NULL, sizeof *note, PROT_READ | PROT_WRITE, MAP_SHARED, file, 0);
    if (file < 0 || note == MAP_FAILED) _exit(126);
    close(file);
    refused_at = atol(getenv("REFUSED_AT"));
}

static int is_refused(void) {
    if (__atomic_add_fetch(&note->asked, 1, __ATOMIC_SEQ_CST) != refused_at) return 0;
    note->refused = 1;
    errno = ENOMEM;
    return 1;
}

void *malloc(size_t size) { return is_refused() ? NULL : __libc_malloc(size); }
void *calloc(size_t count, size_t size) { return is_refused() ? NULL : __libc_calloc(count, size); }
void *realloc(void *old, size_t size) { return is_refused() ? NULL : __libc_realloc(old, size); }
void *memalign(size_t align, size_t size) {
    return is_refused() ? NULL : __libc_memalign(align, size);
}
void *aligned_alloc(size_t align, size_t size) { return memalign(align, size); }

int posix_memalign(void **to, size_t align, size_t size) {
    void *made = memalign(align, size);
    if (!made) return ENOMEM;
    *to = made;
    return 0;
}
