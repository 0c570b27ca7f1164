/* Threads on one table for so many seconds, under each scheme by turns; what they counted is compared at the end.
 *
 *     stress [SECONDS [THREADS]]
 *
 * Each thread counts one key up with all others, by puts at the version read; puts and reads a key of its own; queues numbers and takes
 * some; holds a row while others change it; and now and then leaves, so that a newcomer adopts its list. At the end each
 * row that was retired went back, or is on a list. */
#define _POSIX_C_SOURCE 200809L
#include "wfe.h"
#include <inttypes.h>
#include <pthread.h>
#include <stdatomic.h>
#include <stdio.h>
#include <stdlib.h>
#include <string.h>
#include <time.h>

#define MOST 16
#define SEATS 64
#define COUNTER 1000

static atomic_int ended;

typedef struct {
    wfe_seat seat;
    uint64_t me, calls, adds, queued, taken, sum_in, sum_out, retired, backs, most, full;
    const char *why;
} worker;

static pthread_mutex_t spare_lock = PTHREAD_MUTEX_INITIALIZER;
static wfe_seat spare[SEATS];
static int spares;

#define IS(what)                                                     \
    do {                                                             \
        if (!(what)) {                                               \
            me->why = #what;                                         \
            return;                                                  \
        }                                                            \
    } while (0)

/* After each call that can retire a row or give rows back. */
static void note(worker *me) {
    wfe_notes_told notes = wfe_notes(&me->seat);
    me->retired += notes.retired != WFE_NO_SLOT;
    me->backs += notes.backs;
}

static void count_up(worker *me) {
    for (;;) {
        wfe_answer got = wfe_get(&me->seat, COUNTER);
        IS(got.code == WFE_OK || got.code == WFE_ABSENT);
        uint64_t steps = wfe_notes(&me->seat).steps;
        if (steps > me->most) me->most = steps;
        wfe_answer put = wfe_put_if(&me->seat, COUNTER, got.value + 1, got.number);
        me->calls += 2;
        note(me);
        if (put.code == WFE_OK) {
            IS(put.number == got.number + 1);
            me->adds++;
            return;
        }
        if (put.code == WFE_FULL) {
            me->full++;
            wfe_scan(&me->seat);
            note(me);
            if (atomic_load(&ended)) return;
        } else IS(put.code == WFE_STALE && put.number != got.number);
    }
}

static void own_key(worker *me, uint64_t turn) {
    uint64_t key = 2000 + me->me;
    wfe_answer put = wfe_put(&me->seat, key, turn);
    me->calls += 2;
    note(me);
    if (put.code == WFE_FULL) return;
    IS(put.code == WFE_OK);
    wfe_answer got = wfe_get(&me->seat, key);
    IS(got.code == WFE_OK && got.value == turn && got.number >= put.number);
}

static void queue(worker *me, uint64_t turn) {
    uint64_t value = me->me << 40 | turn;
    wfe_answer in = wfe_enqueue(&me->seat, value);
    note(me);
    if (in.code == WFE_OK) me->queued++, me->sum_in += value;
    else IS(in.code == WFE_FULL);
    wfe_answer out = wfe_dequeue(&me->seat);
    note(me);
    if (out.code == WFE_OK) me->taken++, me->sum_out += out.value;
    else IS(out.code == WFE_EMPTY);
    me->calls += 2;
}

static void hold(worker *me) {
    wfe_answer held = wfe_hold(&me->seat, COUNTER);
    if (held.code == WFE_NOTHING) return;
    IS(held.code == WFE_OK);
    wfe_answer first = wfe_look(&me->seat, 2, COUNTER);
    for (int it = 0; it < 3; it++) {
        wfe_answer again = wfe_look(&me->seat, 2, COUNTER);
        IS(again.slot == held.slot && again.number == first.number && again.value == first.value && again.code == first.code);
    }
    IS(wfe_copy(&me->seat, 2, 3).slot == held.slot);
    IS(wfe_release(&me->seat).code == WFE_OK);
    IS(wfe_look(&me->seat, 3, COUNTER).number == first.number);
    IS(wfe_drop_index(&me->seat, 3).code == WFE_OK);
    me->calls += 8;
}

/* Leaves, and goes on with a seat that nobody has had, which adopts the list. */
static void change_seats(worker *me) {
    wfe_seat next = WFE_NO_SEAT;
    pthread_mutex_lock(&spare_lock);
    if (spares) wfe_move(&next, &spare[--spares]);
    pthread_mutex_unlock(&spare_lock);
    if (wfe_about(&next).code != WFE_OK) return;
    uint32_t place = wfe_about(&me->seat).number;
    wfe_answer left = wfe_leave(&me->seat), adopted = wfe_adopt(&next, place);
    IS(left.code == WFE_OK && adopted.code == WFE_OK && adopted.number == left.number);
    IS(wfe_get(&me->seat, 1).code == WFE_HAS_LEFT);
    wfe_move(&me->seat, &next);
    me->calls += 3;
}

static void *work(void *its) {
    worker *me = its;
    for (uint64_t turn = 1; !atomic_load(&ended) && !me->why; turn++) {
        count_up(me);
        own_key(me, turn);
        queue(me, turn);
        if (turn % 8 == 0) hold(me);
        if (turn % 4096 == 0) change_seats(me);
    }
    return 0;
}

static int run(uint32_t scheme, double seconds, int threads) {
    static worker workers[MOST];
    wfe_seat seats[SEATS];
    pthread_t ids[MOST];
    memset(workers, 0, sizeof workers);
    memset(seats, 0, sizeof seats);
    wfe_setting setting = wfe_usual((enum wfe_scheme)scheme, SEATS, 64);
    setting.slots = 4096;
    setting.every = 8;
    setting.indexes = 4;
    uint32_t code = wfe_open(setting, seats, SEATS);
    if (code) return fprintf(stderr, "%s\n", wfe_text(code)), 1;
    atomic_store(&ended, 0);
    for (int it = 0; it < SEATS; it++) wfe_move(it < threads ? &workers[it].seat : &spare[it - threads], &seats[it]);
    spares = SEATS - threads;
    for (int it = 0; it < threads; it++) {
        workers[it].me = (uint64_t)it + 1;
        if (pthread_create(&ids[it], 0, work, &workers[it])) return 1;
    }
    struct timespec pause = { (time_t)seconds, (long)((seconds - (double)(time_t)seconds) * 1e9) };
    nanosleep(&pause, 0);
    atomic_store(&ended, 1);
    worker all;
    memset(&all, 0, sizeof all);
    for (int it = 0; it < threads; it++) {
        pthread_join(ids[it], 0);
        worker *its = &workers[it];
        if (its->why) return fprintf(stderr, "scheme %u: not so: %s\n", scheme, its->why), 1;
        all.calls += its->calls, all.adds += its->adds, all.queued += its->queued, all.taken += its->taken;
        all.sum_in += its->sum_in, all.sum_out += its->sum_out, all.retired += its->retired, all.backs += its->backs, all.full += its->full;
        if (its->most > all.most) all.most = its->most;
    }
    wfe_answer it, got = wfe_get(&workers[0].seat, COUNTER);
    while ((it = wfe_dequeue(&workers[0].seat)).code == WFE_OK) {
        all.taken++, all.sum_out += it.value;
        wfe_notes_told notes = wfe_notes(&workers[0].seat);
        all.retired++, all.backs += notes.backs;
    }
    uint64_t listed = 0;
    for (int at = 0; at < threads; at++) listed += wfe_leave(&workers[at].seat).number;
    while (spares) wfe_leave(&spare[--spares]);
    uint64_t bound = scheme == WFE_WAIT_FREE_ERAS ? 3 * setting.tries + 18 + setting.pairs : UINT64_MAX;
    int good = got.value == all.adds && all.queued == all.taken && all.sum_in == all.sum_out && all.most <= bound && all.adds && all.retired == all.backs + listed;
    printf("scheme %u, %d threads: %" PRIu64 " calls; counted %" PRIu64 " of %" PRIu64 "; queued %" PRIu64 ", taken %" PRIu64 "; %" PRIu64
           " rows were retired, %" PRIu64 " went back; most steps of a get %" PRIu64 "; no row was free %" PRIu64 " times: %s\n",
        scheme, threads, all.calls, got.value, all.adds, all.queued, all.taken, all.retired, all.backs, all.most, all.full, good ? "right" : "WRONG");
    return !good;
}

int main(int words, char **word) {
    double seconds = words > 1 ? atof(word[1]) : 4;
    int threads = words > 2 ? atoi(word[2]) : 8, bad = 0;
    if (threads < 1 || threads > MOST || !(seconds > 0)) return fprintf(stderr, "usage: stress [SECONDS [THREADS]]\n"), 2;
    for (uint32_t scheme = 0; scheme < 4; scheme++) bad |= run(scheme, seconds / 4, threads);
    return bad;
}
