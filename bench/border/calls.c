/* The calls of `wfe_bench` through C: the same keys in the same order on the same table.
 *
 *     calls SCHEME WORK THREADS CALLS
 *
 * SCHEME is `he`, `ibr`, `wfe` or `hp`, and WORK is `reads`, `mixed`, `puts` or `pairs`. Each thread makes CALLS calls, and adds up the
 * numbers and values that they answer as `wfe_bench` does, so that both loops need the same of each answer and print the same sum. */
#include "wfe.h"
#include <inttypes.h>
#include <pthread.h>
#include <stdio.h>
#include <stdlib.h>
#include <string.h>

#define KEYS 128
#define MOST 64

enum work { READS, MIXED, PUTS, PAIRS };

typedef struct {
    wfe_seat seat;
    enum work work;
    uint64_t calls, refused, sum;
} caller;

static int named(const char *word, const char *const *names) {
    for (int it = 0; names[it]; it++)
        if (!strcmp(word, names[it])) return it;
    return -1;
}

static inline wfe_answer call(wfe_seat *seat, enum work work, uint64_t turn, uint64_t key) {
    switch (work) {
    case READS: return wfe_get(seat, key);
    case MIXED: return turn % 10 ? wfe_get(seat, key) : wfe_put(seat, key, turn);
    case PUTS: return wfe_put(seat, key, turn);
    default: return turn % 2 ? wfe_dequeue(seat) : wfe_enqueue(seat, turn);
    }
}

static void *work(void *its) {
    caller *me = its;
    enum work kind = me->work;
    uint64_t calls = me->calls, refused = 0, sum = 0, random = wfe_about(&me->seat).number + 1;
    for (uint64_t turn = 0; turn < calls; turn++) {
        random = random * UINT64_C(6364136223846793005) + UINT64_C(1442695040888963407);
        wfe_answer told = call(&me->seat, kind, turn, (random >> 33) % KEYS);
        if (told.code == WFE_OK) sum += told.number + told.value;
        else refused++;
    }
    me->refused = refused;
    me->sum = sum;
    return 0;
}

int main(int words, char **word) {
    static const char *const schemes[] = { "he", "ibr", "wfe", "hp", 0 }, *const works[] = { "reads", "mixed", "puts", "pairs", 0 };
    static wfe_seat seats[MOST];
    static caller callers[MOST];
    static pthread_t ids[MOST];
    int scheme = words == 5 ? named(word[1], schemes) : -1, kind = words == 5 ? named(word[2], works) : -1;
    uint32_t threads = words == 5 ? (uint32_t)strtoul(word[3], 0, 10) : 0;
    if (scheme < 0 || kind < 0 || threads < 1 || threads > MOST) return fprintf(stderr, "usage: calls he|ibr|wfe|hp reads|mixed|puts|pairs THREADS CALLS\n"), 1;
    wfe_setting setting = { (uint32_t)scheme, threads, 3, 4096, 64, 4, 8, 4294967295u, UINT64_C(281474976710656), 6 };
    uint32_t code = wfe_open(setting, seats, threads);
    if (code) return fprintf(stderr, "%s\n", wfe_text(code)), 1;
    for (uint64_t key = 0; key < KEYS; key++) wfe_put(&seats[0], key, key);
    for (uint32_t it = 0; it < threads; it++) {
        wfe_move(&callers[it].seat, &seats[it]);
        callers[it].work = (enum work)kind;
        callers[it].calls = strtoull(word[4], 0, 10);
        if (it && pthread_create(&ids[it], 0, work, &callers[it])) return 1;
    }
    work(&callers[0]);
    uint64_t refused = callers[0].refused, sum = callers[0].sum;
    for (uint32_t it = 1; it < threads; it++) {
        pthread_join(ids[it], 0);
        refused += callers[it].refused;
        sum += callers[it].sum;
    }
    printf("%" PRIu64 " calls, %" PRIu64 " refused, sum %" PRIu64 "\n", threads * callers[0].calls, refused, sum);
    for (uint32_t it = 0; it < threads; it++) wfe_leave(&callers[it].seat);
    return 0;
}
