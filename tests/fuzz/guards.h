/* Bytes to lend. The station's code is not instrumented for addresses, so the page that is lent from stands between two that can't be
 * touched, and what is lent stands against one of them: a byte too far is a fault. The page is mapped twice, so that what an entry may
 * not write is lent where it can't be written. Needs _GNU_SOURCE, for memfd_create. */
#ifndef GUARDS_H
#define GUARDS_H

#include <stdint.h>
#include <stdio.h>
#include <stdlib.h>
#include <sys/mman.h>
#include <unistd.h>

struct page {
    uint8_t *writable, *readable;
};

static uint8_t *between_guards(int file, size_t page_size, int protection) {
    uint8_t *three = mmap(NULL, 3 * page_size, PROT_NONE, MAP_PRIVATE | MAP_ANONYMOUS, -1, 0);
    if (three == MAP_FAILED || mmap(three + page_size, page_size, protection, MAP_SHARED | MAP_FIXED, file, 0) == MAP_FAILED) {
        perror("mmap");
        exit(1);
    }
    return three + page_size;
}

static void open_page(struct page *page, size_t page_size) {
    int file = memfd_create("lent", 0);
    if (file < 0 || ftruncate(file, (off_t)page_size) != 0) {
        perror("memfd_create");
        exit(1);
    }
    page->writable = between_guards(file, page_size, PROT_READ | PROT_WRITE);
    page->readable = between_guards(file, page_size, PROT_READ);
    close(file);
}

#endif
