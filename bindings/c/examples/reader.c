/* A reader whose gets are bounded: two threads change the bucket that it reads as fast as they can, and yet under Wait-Free Eras no get
 * takes more steps than the setting says. */
#include "wfe.h"
#include <inttypes.h>
#include <pthread.h>
#include <stdatomic.h>
#include <stdio.h>

#define GETS 100000
#define KEY 7

static atomic_int ended;

static void *change(void *its) {
    for (uint64_t value = 0; !atomic_load(&ended); value++) wfe_put(its, KEY, value);
    return 0;
}

int main(void) {
    wfe_seat seats[3] = { WFE_NO_SEAT };
    pthread_t threads[2];
    wfe_setting setting = wfe_usual(WFE_WAIT_FREE_ERAS, 3, 1);
    setting.every = 1; /* the clock moves at each change: as many failed tries as there can be */
    uint64_t bound = 3 * setting.tries + 18 + setting.pairs, most = 0, before = 0;
    uint32_t code = wfe_open(setting, seats, 3);
    if (code) return fprintf(stderr, "%s\n", wfe_text(code)), 1;
    for (int it = 0; it < 2; it++)
        if (pthread_create(&threads[it], 0, change, &seats[it + 1])) return 1;
    for (int it = 0; it < GETS; it++) {
        wfe_answer got = wfe_get(&seats[0], KEY);
        uint64_t steps = wfe_notes(&seats[0]).steps;
        if (steps > most) most = steps;
        if (got.number < before) return fprintf(stderr, "a version fell\n"), 1;
        before = got.number;
    }
    atomic_store(&ended, 1);
    for (int it = 0; it < 2; it++) pthread_join(threads[it], 0);
    for (int it = 0; it < 3; it++) wfe_leave(&seats[it]);
    if (most > bound) return fprintf(stderr, "%" PRIu64 " steps\n", most), 1;
    printf("no get took more than %" PRIu64 " steps\n", bound);
    return 0;
}
