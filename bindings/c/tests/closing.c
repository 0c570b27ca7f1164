/* Four threads on one table leave it, and the last one closes it: what it reads then is compared with what the threads have counted.
 *
 * Before that seats leave one by one on one thread, which tries to close the table in between.
 *
 * Each thread counts one key up with all others, by puts at the version read; puts keys of its own, and takes some away; and queues
 * numbers, of which it takes some. So each bucket's version and keys are known at the end, each value in the queue, and how many rows
 * are in use. */
#define _POSIX_C_SOURCE 200809L
#include "wfe.h"
#include <inttypes.h>
#include <pthread.h>
#include <sched.h>
#include <stdatomic.h>
#include <stdio.h>
#include <string.h>

#define THREADS 4
#define TURNS 2000
#define BUCKETS 8
#define COUNTER 5
#define OWN 3 /* keys of each thread, in the buckets 0 to 2 */

typedef struct {
    wfe_seat seat;
    uint64_t me, adds, changes[BUCKETS], values[OWN], queued, taken, sum_in, sum_out, listed;
    wfe_closed_told told;
    const char *why;
} worker;

static worker workers[THREADS];
static atomic_int here; /* threads that have not begun to leave */

#define IS(what)             \
    do {                     \
        if (!(what)) {       \
            me->why = #what; \
            return;          \
        }                    \
    } while (0)

static uint64_t own_key(const worker *me, uint64_t which) { return (me->me + 1) * BUCKETS * 100 + which; }

/* A change whose call found no free row is made again. */
static wfe_answer put(worker *me, uint64_t key, uint64_t value) {
    wfe_answer it;
    while ((it = wfe_put(&me->seat, key, value)).code == WFE_FULL) wfe_scan(&me->seat);
    me->changes[key % BUCKETS] += it.code == WFE_OK;
    return it;
}

static wfe_answer take_away(worker *me, uint64_t key) {
    wfe_answer it;
    while ((it = wfe_remove(&me->seat, key)).code == WFE_FULL) wfe_scan(&me->seat);
    me->changes[key % BUCKETS] += it.code == WFE_OK;
    return it;
}

static void count_up(worker *me) {
    for (;;) {
        wfe_answer got = wfe_get(&me->seat, COUNTER);
        wfe_answer it = wfe_put_if(&me->seat, COUNTER, got.value + 1, got.number);
        if (it.code == WFE_OK) {
            me->adds++;
            me->changes[COUNTER]++;
            return;
        }
        if (it.code == WFE_FULL) wfe_scan(&me->seat);
        else IS(it.code == WFE_STALE);
    }
}

static void turns(worker *me) {
    for (uint64_t turn = 1; turn <= TURNS; turn++) {
        count_up(me);
        uint64_t which = turn % OWN;
        if (turn % 7 == 0 && me->values[which]) {
            IS(take_away(me, own_key(me, which)).code == WFE_OK);
            me->values[which] = 0;
        } else {
            IS(put(me, own_key(me, which), turn).code == WFE_OK);
            me->values[which] = turn;
        }
        if (turn % 50 == 0) {
            uint64_t value = me->me << 32 | turn;
            wfe_answer it = wfe_enqueue(&me->seat, value);
            if (it.code == WFE_OK) me->queued++, me->sum_in += value;
            else IS(it.code == WFE_FULL);
        }
        if (turn % 100 == 0) {
            wfe_answer it = wfe_dequeue(&me->seat);
            if (it.code == WFE_OK) me->taken++, me->sum_out += it.value;
            else IS(it.code == WFE_EMPTY);
        }
    }
}

/* The thread that comes last closes the table, once the leaves of the others are over; its seat makes calls until then. */
static void depart(worker *me) {
    me->listed = wfe_about(&me->seat).listed;
    if (atomic_fetch_sub(&here, 1) > 1) {
        wfe_answer left = wfe_leave(&me->seat);
        IS(left.code == WFE_OK && left.number == me->listed);
        return;
    }
    uint32_t code;
    while ((code = wfe_close(&me->seat)) == WFE_NOT_LAST) {
        IS(wfe_get(&me->seat, COUNTER).code == WFE_OK);
        sched_yield();
    }
    IS(code == WFE_OK);
    me->told = wfe_closed(&me->seat);
    IS(me->told.code == WFE_OK);
}

static void *work(void *its) {
    worker *me = its;
    turns(me);
    if (!me->why) depart(me);
    return 0;
}

static const worker *whose(uint64_t key, uint64_t *which) {
    for (int it = 0; it < THREADS; it++)
        for (*which = 0; *which < OWN; ++*which)
            if (own_key(&workers[it], *which) == key) return &workers[it];
    return 0;
}

/* Reads all of the closed table; the line of what is not as it is due, or 0. */
static int read_all(wfe_seat *seat, const wfe_closed_told *told, const worker *all, uint64_t pairs_due) {
    uint64_t pairs = 0, changed = 0, sum = 0, number = all->taken, last = 0;
    for (uint32_t bucket = 0; bucket < told->buckets; bucket++) {
        wfe_answer row = wfe_closed_bucket(seat, bucket);
        if (row.code != WFE_OK || row.number != all->changes[bucket]) return __LINE__;
        changed += row.number > 0;
        pairs += row.value;
        for (uint32_t pair = 0; pair < row.value; pair++) {
            wfe_answer it = wfe_closed_pair(seat, bucket, pair);
            uint64_t which;
            const worker *its = whose(it.number, &which);
            if (it.code != WFE_OK || it.number % BUCKETS != bucket) return __LINE__;
            if (it.number == COUNTER ? it.value != all->adds : !its || it.value != its->values[which]) return __LINE__;
        }
        if (wfe_closed_pair(seat, bucket, (uint32_t)row.value).code != WFE_BAD_INDEX) return __LINE__;
    }
    if (pairs != pairs_due || wfe_closed_bucket(seat, (uint32_t)told->buckets).code != WFE_BAD_INDEX) return __LINE__;
    if (told->queued != all->queued - all->taken) return __LINE__;
    for (uint32_t place = 0; place < told->queued; place++) {
        wfe_answer it = wfe_closed_queued(seat, place);
        if (it.code != WFE_OK || it.number != ++number) return __LINE__;
        sum += it.value;
    }
    if (sum != all->sum_in - all->sum_out || wfe_closed_queued(seat, (uint32_t)told->queued).code != WFE_BAD_INDEX) return __LINE__;
    if (told->used != changed + told->queued + 1 + all->listed) return __LINE__;
    for (uint32_t place = 0; place < told->used; place++) {
        wfe_answer it = wfe_closed_used(seat, place);
        if (it.code != WFE_OK || (place && it.slot <= last)) return __LINE__;
        last = it.slot;
    }
    return wfe_closed_used(seat, (uint32_t)told->used).code == WFE_BAD_INDEX ? 0 : __LINE__;
}

static int run(uint32_t scheme) {
    wfe_seat seats[THREADS] = { WFE_NO_SEAT };
    pthread_t ids[THREADS];
    wfe_setting setting = wfe_usual((enum wfe_scheme)scheme, THREADS, BUCKETS);
    setting.buckets = BUCKETS;
    setting.slots = 1024;
    setting.every = 8;
    setting.pairs = 14;
    uint32_t code = wfe_open(setting, seats, THREADS);
    if (code) return fprintf(stderr, "%s\n", wfe_text(code)), 1;
    memset(workers, 0, sizeof workers);
    atomic_store(&here, THREADS);
    for (int it = 0; it < THREADS; it++) {
        workers[it].me = (uint64_t)it;
        wfe_move(&workers[it].seat, &seats[it]);
        if (pthread_create(&ids[it], 0, work, &workers[it])) return 1;
    }
    worker all;
    wfe_seat *closed = 0;
    wfe_closed_told told;
    memset(&all, 0, sizeof all);
    memset(&told, 0, sizeof told);
    uint64_t pairs = 1; /* the counter */
    for (int it = 0; it < THREADS; it++) {
        pthread_join(ids[it], 0);
        worker *its = &workers[it];
        if (its->why) return fprintf(stderr, "scheme %u: not so: %s\n", scheme, its->why), 1;
        all.adds += its->adds, all.queued += its->queued, all.taken += its->taken;
        all.sum_in += its->sum_in, all.sum_out += its->sum_out, all.listed += its->listed;
        for (int bucket = 0; bucket < BUCKETS; bucket++) all.changes[bucket] += its->changes[bucket];
        for (int which = 0; which < OWN; which++) pairs += its->values[which] != 0;
        if (its->told.code == WFE_OK && its->told.buckets) closed = &its->seat, told = its->told;
    }
    if (!closed) return fprintf(stderr, "scheme %u: no thread has closed the table\n", scheme), 1;
    int line = told.buckets != BUCKETS || all.adds != THREADS * TURNS ? __LINE__ : read_all(closed, &told, &all, pairs);
    if (!line && (wfe_get(closed, COUNTER).code != WFE_CLOSED || wfe_end(closed) != WFE_OK || wfe_end(closed) != WFE_HAS_LEFT)) line = __LINE__;
    if (line) return fprintf(stderr, "scheme %u: line %d: not as it is due\n", scheme, line), 1;
    printf("scheme %u: closed with %" PRIu64 " buckets, %" PRIu64 " pairs, %" PRIu64 " values and %" PRIu64 " rows, as they are due\n", scheme,
        told.buckets, pairs, told.queued, told.used);
    return 0;
}

/* Seats leave one after another: a close is refused until the last of the others has left, and then is not. */
static int one_by_one(uint32_t scheme, int count) {
    wfe_seat seats[THREADS] = { WFE_NO_SEAT };
    uint32_t code = wfe_open(wfe_usual((enum wfe_scheme)scheme, (uint32_t)count, BUCKETS), seats, (size_t)count);
    int line = code ? __LINE__ : 0;
    for (int left = 1; left < count && !line; left++) {
        if (wfe_close(&seats[0]) != WFE_NOT_LAST || wfe_put(&seats[0], COUNTER, (uint64_t)left).number != (uint64_t)left) line = __LINE__;
        if (wfe_close(&seats[left]) != WFE_NOT_LAST || wfe_leave(&seats[left]).code != WFE_OK) line = __LINE__;
    }
    if (!line && (wfe_close(&seats[0]) != WFE_OK || wfe_close(&seats[0]) != WFE_CLOSED || wfe_end(&seats[0]) != WFE_OK)) line = __LINE__;
    if (line) return fprintf(stderr, "scheme %u, %d seats: line %d: not as it is due\n", scheme, count, line), 1;
    return 0;
}

int main(void) {
    int bad = 0;
    for (uint32_t scheme = 0; scheme < 4; scheme++) {
        for (int count = 1; count <= THREADS; count++) bad |= one_by_one(scheme, count);
        bad |= run(scheme);
    }
    return bad;
}
