/* Four threads on one table: each counts a key of the map up, by puts at the version that it has read, and queues what it has drawn;
 * the main thread takes all from the queue at the end. */
#include "wfe.h"
#include <inttypes.h>
#include <pthread.h>
#include <stdio.h>

#define THREADS 4
#define TURNS 10000
#define KEY 7

static void *work(void *its) {
    wfe_seat *seat = its;
    for (int turn = 0; turn < TURNS;) {
        wfe_answer got = wfe_get(seat, KEY);
        uint64_t before = got.code == WFE_OK ? got.value : 0; /* (WFE_ABSENT: nobody has counted) */
        wfe_answer put = wfe_put_if(seat, KEY, before + 1, got.number);
        if (put.code == WFE_STALE) continue; /* another thread's came first */
        if (put.code != WFE_OK) return (void *)wfe_text(put.code);
        if (++turn % 1000 == 0) {
            wfe_answer queued = wfe_enqueue(seat, before + 1);
            if (queued.code != WFE_OK) return (void *)wfe_text(queued.code);
        }
    }
    return 0;
}

int main(void) {
    wfe_seat seats[THREADS] = { WFE_NO_SEAT };
    pthread_t threads[THREADS];
    uint32_t code = wfe_open(wfe_usual(WFE_WAIT_FREE_ERAS, THREADS, 100), seats, THREADS);
    if (code) return fprintf(stderr, "%s\n", wfe_text(code)), 1;
    for (int it = 0; it < THREADS; it++)
        if (pthread_create(&threads[it], 0, work, &seats[it])) return 1;
    for (int it = 0; it < THREADS; it++) {
        void *why;
        pthread_join(threads[it], &why);
        if (why) return fprintf(stderr, "%s\n", (const char *)why), 1;
    }
    int queued = 0;
    while (wfe_dequeue(&seats[0]).code == WFE_OK) queued++;
    printf("counted to %" PRIu64 ", %d values were queued\n", wfe_get(&seats[0], KEY).value, queued);
    for (int it = 0; it < THREADS; it++) wfe_leave(&seats[it]);
    return 0;
}
