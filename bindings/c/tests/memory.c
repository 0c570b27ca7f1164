/* Each allocation of wfe_open and of wfe_close fails in turn: the code says that memory ran out, what the handles have is as it is due, and
 * no block is lost. The C library's allocator is taken by glibc's names; elsewhere nothing is tried. */
#include "wfe.h"
#include <stdio.h>
#include <stdlib.h>

#ifdef __GLIBC__
void *__libc_malloc(size_t size);
void *__libc_realloc(void *at, size_t size);
void __libc_free(void *at);

static long blocks, calls, failing = -1;

void *malloc(size_t size) {
    void *at = calls++ == failing ? 0 : __libc_malloc(size);
    blocks += at != 0;
    return at;
}

void *realloc(void *at, size_t size) {
    void *to = calls++ == failing ? 0 : __libc_realloc(at, size);
    blocks += !at && to;
    return to;
}

void free(void *at) {
    blocks -= at != 0;
    __libc_free(at);
}

#define IS(what)                                                               \
    do {                                                                       \
        if (!(what)) {                                                         \
            failing = -1;                                                      \
            fprintf(stderr, "%s:%d: not so: %s\n", __FILE__, __LINE__, #what); \
            exit(1);                                                           \
        }                                                                      \
    } while (0)

static wfe_setting setting(uint32_t scheme) {
    wfe_setting made = wfe_usual((enum wfe_scheme)scheme, 2, 4);
    made.slots = 32;
    return made;
}

static long opens(uint32_t scheme) {
    wfe_seat seats[2] = { WFE_NO_SEAT, WFE_NO_SEAT };
    long before = blocks;
    for (long turn = 0;; turn++) {
        calls = 0, failing = turn;
        uint32_t code = wfe_open(setting(scheme), seats, 2);
        failing = -1;
        if (code == WFE_OK) {
            IS(wfe_leave(&seats[0]).code == WFE_OK && wfe_leave(&seats[1]).code == WFE_OK && blocks == before);
            return turn;
        }
        IS(code == WFE_NO_MEMORY && !seats[0].state && !seats[1].state && blocks == before);
    }
}

static long closes(uint32_t scheme) {
    wfe_seat seats[2] = { WFE_NO_SEAT, WFE_NO_SEAT };
    long before = blocks;
    for (long turn = 0;; turn++) {
        IS(wfe_open(setting(scheme), seats, 2) == WFE_OK);
        IS(wfe_put(&seats[0], 1, 10).code == WFE_OK && wfe_put(&seats[1], 1, 11).code == WFE_OK && wfe_enqueue(&seats[0], 70).code == WFE_OK);
        IS(wfe_close(&seats[0]) == WFE_NOT_LAST && wfe_leave(&seats[1]).code == WFE_OK);
        calls = 0, failing = turn;
        uint32_t code = wfe_close(&seats[0]);
        failing = -1;
        if (code == WFE_OK) {
            IS(wfe_closed_pair(&seats[0], 1, 0).value == 11 && wfe_closed_queued(&seats[0], 0).value == 70);
            IS(wfe_end(&seats[0]) == WFE_OK && blocks == before);
            return turn;
        }
        IS(code == WFE_NO_MEMORY && wfe_get(&seats[0], 1).code == WFE_HAS_LEFT && wfe_end(&seats[0]) == WFE_HAS_LEFT && blocks == before);
    }
}

int main(void) {
    long opening = 0, closing = 0;
    for (uint32_t scheme = 0; scheme < 4; scheme++) opening += opens(scheme), closing += closes(scheme);
    IS(opening > 0 && closing > 0);
    printf("%ld allocations of wfe_open and %ld of wfe_close failed, and no block was lost\n", opening, closing);
    return 0;
}
#else
int main(void) {
    printf("this C library has other names for its allocator: nothing was tried\n");
    return 0;
}
#endif
