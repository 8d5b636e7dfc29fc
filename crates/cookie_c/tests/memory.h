/* What C's tests share: memory that ends where its page does, so that a byte beyond it is a fault, and requests for
 * memory that are refused. The linker puts these two in the place of malloc and realloc. It is for one file. */
#ifndef COOKIE_TESTS_MEMORY_H
#define COOKIE_TESTS_MEMORY_H

#include "cookie.h"
#include <stdlib.h>
#include <string.h>
#include <sys/mman.h>
#include <unistd.h>

enum { ROOM = 1 << 16 };

/* How often this thread asked for memory, and which request is refused, counted from 1; 0 if none is. */
static _Thread_local size_t asked = 0, refused_at = 0;

void *__real_malloc(size_t size);
void *__real_realloc(void *at, size_t size);
void *__wrap_malloc(size_t size);
void *__wrap_realloc(void *at, size_t size);

void *__wrap_malloc(size_t size) { return ++asked == refused_at ? NULL : __real_malloc(size); }
void *__wrap_realloc(void *at, size_t size) { return ++asked == refused_at ? NULL : __real_realloc(at, size); }

/* Refuses this request for memory of the next call, or none. */
static inline void refuse(size_t number) {
    asked = 0;
    refused_at = number;
}

/* ROOM bytes, between two pages that mustn't be touched. */
static inline uint8_t *region(void) {
    size_t page = (size_t)sysconf(_SC_PAGESIZE);
    uint8_t *all = mmap(NULL, ROOM + 2 * page, PROT_NONE, MAP_PRIVATE | MAP_ANONYMOUS, -1, 0);
    if (all == MAP_FAILED || mprotect(all + page, ROOM, PROT_READ | PROT_WRITE) != 0)
        exit(2);
    return all + page;
}

/* Calls that tell more than a length, as an answer: their text ends where its last part does. */
static inline cookie_answer of_pair(cookie_pair it) { return (cookie_answer){it.status, it.value.start + it.value.length}; }
static inline cookie_answer of_reading(cookie_reading it) {
    return (cookie_answer){it.status, it.value.start + it.value.length};
}
static inline cookie_answer of_token(cookie_token_reading it) { return (cookie_answer){it.status, it.length}; }
static inline cookie_answer of_url(cookie_url_reading it) {
    return (cookie_answer){it.status, it.path.start + it.path.length};
}
static inline cookie_answer of_explanation(cookie_explanation it) {
    return (cookie_answer){it.status, it.section.start + it.section.length + it.stored.path.start + it.stored.path.length};
}
static inline cookie_answer of_saving(cookie_agent_saving it) { return (cookie_answer){it.status, it.length}; }

#endif
