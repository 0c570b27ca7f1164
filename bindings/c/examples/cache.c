/* A cache of buffers, which readers use in place while writers replace them. The table has the address of each buffer, one a bucket.
 * A reader holds the row, and with it the buffer; a writer frees a buffer once the row that named it went back, which wfe_backs tells. */
#include "wfe.h"
#include <inttypes.h>
#include <pthread.h>
#include <stdio.h>
#include <stdlib.h>
#include <string.h>

#if defined(__has_feature)
#if __has_feature(thread_sanitizer)
#define __SANITIZE_THREAD__ 1
#endif
#endif
#ifdef __SANITIZE_THREAD__ /* the library's steps order the threads, and the sanitizer doesn't see them */
void __tsan_acquire(void *at);
void __tsan_release(void *at);
#else
#define __tsan_acquire(at) ((void)(at))
#define __tsan_release(at) ((void)(at))
#endif

#define KEYS 16
#define SLOTS 1024
#define TURNS 20000
#define WORDS 32

typedef struct {
    wfe_seat seat;
    uint64_t *old[SLOTS + 1]; /* by slot: the buffer of a row that this seat has retired */
    uint32_t backs[2 * SLOTS];
    uint64_t freed, read;
    unsigned draw;
    const char *why;
} worker;

static void free_those(worker *me, const uint32_t *slots, uint64_t count) {
    for (uint64_t it = 0; it < count; it++) {
        if (!me->old[slots[it]]) continue; /* (a row that named no buffer) */
        __tsan_acquire(me->old[slots[it]]);
        free(me->old[slots[it]]);
        me->old[slots[it]] = 0;
        me->freed++;
    }
}

/* After each call that can retire or scan: `old` is the buffer of the row that the call has replaced, if it did. */
static void settle(worker *me, uint64_t *old) {
    wfe_notes_told notes = wfe_notes(&me->seat);
    wfe_backs(&me->seat, me->backs, sizeof me->backs / sizeof *me->backs);
    free_those(me, me->backs, notes.early);
    if (notes.retired != WFE_NO_SLOT) me->old[notes.retired] = old;
    free_those(me, me->backs + notes.early, notes.backs - notes.early);
}

static uint64_t *buffer_of(wfe_answer looked) {
    uint64_t *at = looked.code == WFE_OK ? (uint64_t *)(uintptr_t)looked.value : 0;
    if (at) __tsan_acquire(at);
    return at;
}

static void replace(worker *me, uint64_t key) {
    uint64_t *made = malloc(WORDS * sizeof *made);
    if (!made) exit(1);
    for (int it = 0; it < WORDS; it++) made[it] = key;
    for (;;) {
        wfe_answer held = wfe_hold(&me->seat, key), looked = wfe_look(&me->seat, 2, key);
        uint64_t *old = held.code == WFE_OK ? buffer_of(looked) : 0;
        __tsan_release(made);
        wfe_answer put = wfe_put_if(&me->seat, key, (uint64_t)(uintptr_t)made, held.code == WFE_OK ? looked.number : 0);
        settle(me, old);
        wfe_release(&me->seat);
        if (old) __tsan_release(old);
        if (put.code == WFE_OK) return;
        if (put.code == WFE_STALE) continue;
        if (put.code == WFE_FULL) {
            wfe_scan(&me->seat);
            settle(me, 0);
            continue;
        }
        me->why = wfe_text(put.code);
        free(made);
        return;
    }
}

static void read_one(worker *me, uint64_t key) {
    if (wfe_hold(&me->seat, key).code == WFE_OK) {
        uint64_t *at = buffer_of(wfe_look(&me->seat, 2, key));
        for (int it = 0; at && it < WORDS; it++)
            if (at[it] != key) me->why = "a buffer was freed, or used for another key, while it was held";
        if (at) __tsan_release(at);
        me->read++;
    }
    wfe_release(&me->seat);
}

static void *work(void *its) {
    worker *me = its;
    for (int turn = 0; turn < TURNS && !me->why; turn++) {
        me->draw = me->draw * 1103515245u + 12345u;
        uint64_t key = me->draw >> 16 & (KEYS - 1);
        if (me->draw >> 28 & 1) replace(me, key);
        else read_one(me, key);
    }
    return 0;
}

int main(void) {
    enum { THREADS = 4 };
    wfe_seat seats[THREADS] = { WFE_NO_SEAT };
    worker *workers = calloc(THREADS, sizeof *workers);
    pthread_t threads[THREADS];
    wfe_setting setting = wfe_usual(WFE_HAZARD_POINTERS, THREADS, KEYS);
    setting.slots = SLOTS;
    setting.every = 8;
    uint32_t code = workers ? wfe_open(setting, seats, THREADS) : (uint32_t)WFE_NO_MEMORY;
    if (code) return fprintf(stderr, "%s\n", wfe_text(code)), 1;
    for (unsigned it = 0; it < THREADS; it++) {
        wfe_move(&workers[it].seat, &seats[it]);
        workers[it].draw = it + 1;
        if (pthread_create(&threads[it], 0, work, &workers[it])) return 1;
    }
    for (int it = 0; it < THREADS; it++) pthread_join(threads[it], 0);
    uint64_t freed = 0, read = 0;
    for (int it = 0; it < THREADS; it++) {
        if (workers[it].why) return fprintf(stderr, "%s\n", workers[it].why), 1;
        freed += workers[it].freed;
        read += workers[it].read;
    }
    /* At the end no other thread is there: the buffers that the table names are freed, and those that wait. */
    for (uint64_t key = 0; key < KEYS; key++) {
        wfe_answer got = wfe_get(&workers[0].seat, key);
        if (got.code == WFE_OK) free((void *)(uintptr_t)got.value);
    }
    for (int it = 0; it < THREADS; it++) {
        for (int slot = 0; slot <= SLOTS; slot++) free(workers[it].old[slot]);
        wfe_leave(&workers[it].seat);
    }
    free(workers);
    printf(freed && read ? "buffers were read and freed\n" : "nothing was read, or freed\n");
    return 0;
}
