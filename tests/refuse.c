/*
 * Loaded before the C library (LD_PRELOAD), it counts the allocations of a program, malloc and realloc, and refuses one of them.
 * Both numbers stand in the file that REFUSE_PAGE names: how many were asked for, and the number of the one that is refused
 * (none where it is 0). Whoever runs the program may change the second while it waits.
 */
#include <fcntl.h>
#include <stddef.h>
#include <stdint.h>
#include <stdlib.h>
#include <sys/mman.h>
#include <unistd.h>

extern void *__libc_malloc(size_t size);
extern void *__libc_realloc(void *block, size_t size);

struct page {
    uint64_t asked;
    uint64_t refused;
};

static struct page nowhere;
static volatile struct page *page = &nowhere;

__attribute__((constructor)) static void open_page(void) {
    const char *path = getenv("REFUSE_PAGE");
    int file = path == NULL ? -1 : open(path, O_RDWR | O_CLOEXEC);
    if (file < 0) {
        return;
    }
    void *place = mmap(NULL, sizeof(struct page), PROT_READ | PROT_WRITE, MAP_SHARED, file, 0);
    if (place != MAP_FAILED) {
        page = place;
    }
    close(file);
}

static int is_refused(void) {
    page->asked += 1;
    return page->asked == page->refused;
}

void *malloc(size_t size) {
    return is_refused() ? NULL : __libc_malloc(size);
}

void *realloc(void *block, size_t size) {
    return is_refused() ? NULL : __libc_realloc(block, size);
}
