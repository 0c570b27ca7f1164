/* Sequences of exports drawn from bytes, with good and bad arguments, beside a model on one thread: what a map, a queue, handles and
 * indexes answer. It stops where an answer is another than the model's.
 *
 * Built with libFuzzer, or with a main that reads files (-DWITH_MAIN). */
#include "wfe.h"
#include <stdio.h>
#include <stdlib.h>
#include <string.h>

#define SEATS 3
#define BUCKETS 2
#define PAIRS 6
#define INDEXES 4
#define QUEUE 64
#define IS(what)                                                                     \
    do {                                                                             \
        if (!(what)) {                                                               \
            fprintf(stderr, "line %d: not so: %s (code %u)\n", __LINE__, #what, it.code); \
            abort();                                                                 \
        }                                                                            \
    } while (0)

typedef struct {
    uint64_t version, keys[PAIRS], values[PAIRS];
    unsigned count;
} bucket;

typedef struct {
    int stands;
    uint64_t of;
    bucket was;
} kept;

typedef struct {
    bucket buckets[BUCKETS];
    uint64_t queue[QUEUE], first, last;
    kept at[SEATS][INDEXES];
    int left[SEATS], adopted[SEATS], closed[SEATS];
} model;

typedef struct {
    const uint8_t *at;
    size_t left;
} bytes;

static uint32_t draw(bytes *from) {
    if (!from->left) return 0;
    from->left--;
    return *from->at++;
}

/* Mostly a small number, and now and then a great one. */
static uint32_t number(bytes *from, uint32_t below) {
    uint32_t it = draw(from);
    return it < 250 ? it % below : it < 253 ? 4294967295u - (it - 250) : it * 16777619u;
}

static int found(const bucket *in, uint64_t key) {
    for (unsigned it = 0; it < in->count; it++)
        if (in->keys[it] == key) return (int)it;
    return -1;
}

static int is_missing(model *m, wfe_seat *seat, wfe_answer it, int who) {
    if (!seat) {
        IS(it.code == WFE_NULL);
        return 1;
    }
    if (m->left[who]) {
        IS(it.code == (m->closed[who] ? WFE_CLOSED : WFE_HAS_LEFT));
        return 1;
    }
    return 0;
}

/* The same of what reads a closed table. */
static int is_unclosed(model *m, wfe_seat *seat, wfe_answer it, int who) {
    if (seat && m->closed[who]) return 0;
    IS(it.code == (!seat ? WFE_NULL : m->left[who] ? WFE_HAS_LEFT : WFE_NOT_CLOSED));
    return 1;
}

static void put(model *m, wfe_answer it, uint64_t key, uint64_t value, const uint64_t *version) {
    bucket *in = &m->buckets[key % BUCKETS];
    int at = found(in, key);
    if (it.code == WFE_FULL) return;
    if (version && *version != in->version) {
        IS(it.code == WFE_STALE && it.number == in->version);
        return;
    }
    if (at < 0 && in->count == PAIRS) {
        IS(it.code == WFE_BUCKET_FULL && it.number == in->version);
        return;
    }
    IS(it.code == WFE_OK && it.number == in->version + 1);
    if (at < 0) at = (int)in->count++;
    in->keys[at] = key;
    in->values[at] = value;
    in->version++;
}

static void removed(model *m, wfe_answer it, uint64_t key) {
    bucket *in = &m->buckets[key % BUCKETS];
    int at = found(in, key);
    if (it.code == WFE_FULL) {
        IS(at >= 0);
        return;
    }
    if (at < 0) {
        IS(it.code == WFE_ABSENT && it.number == in->version);
        return;
    }
    IS(it.code == WFE_OK && it.number == in->version + 1);
    in->count--;
    in->keys[at] = in->keys[in->count];
    in->values[at] = in->values[in->count];
    in->version++;
}

static void read_from(const bucket *in, wfe_answer it, uint64_t key) {
    int at = found(in, key);
    IS(it.number == in->version);
    if (at < 0) IS(it.code == WFE_ABSENT && !it.value);
    else IS(it.code == WFE_OK && it.value == in->values[at]);
}

/* Closes the table where this is its last seat. */
static void close_by(model *m, wfe_seat *seat, int who) {
    wfe_answer it;
    memset(&it, 0, sizeof it);
    it.code = wfe_close(seat);
    if (is_missing(m, seat, it, who)) return;
    int others = 0;
    for (int other = 0; other < SEATS; other++) others += other != who && !m->left[other];
    IS(it.code == (others ? WFE_NOT_LAST : WFE_OK));
    if (!others) m->left[who] = m->closed[who] = 1;
}

static void read_bucket(const model *m, wfe_seat *seat, uint32_t index) {
    wfe_answer it = wfe_closed_bucket(seat, index);
    if (index >= BUCKETS) IS(it.code == WFE_BAD_INDEX);
    else IS(it.code == WFE_OK && it.number == m->buckets[index].version && it.value == m->buckets[index].count);
}

static void read_pair(const model *m, wfe_seat *seat, uint32_t index, uint32_t pair) {
    wfe_answer it = wfe_closed_pair(seat, index, pair);
    if (index >= BUCKETS || pair >= m->buckets[index].count) IS(it.code == WFE_BAD_INDEX);
    else {
        int at = found(&m->buckets[index], it.number);
        IS(it.code == WFE_OK && at >= 0 && it.value == m->buckets[index].values[at]);
    }
}

static void read_queued(const model *m, wfe_seat *seat, uint32_t index) {
    wfe_answer it = wfe_closed_queued(seat, index);
    if (index >= m->last - m->first) IS(it.code == WFE_BAD_INDEX);
    else IS(it.code == WFE_OK && it.number == m->first + index + 1 && it.value == m->queue[(m->first + index) % QUEUE]);
}

static wfe_closed_told read_counts(const model *m, wfe_seat *seat) {
    wfe_closed_told it = wfe_closed(seat);
    IS(it.code == WFE_OK && it.clock && it.buckets == BUCKETS && it.queued == m->last - m->first && it.used > it.queued);
    return it;
}

/* Reads something of a closed table, or frees it. */
static void read_closed(model *m, wfe_seat *seat, bytes *from, int who) {
    wfe_closed_told told = wfe_closed(seat);
    uint32_t index = number(from, 8), pair = number(from, 8);
    wfe_answer it;
    memset(&it, 0, sizeof it);
    it.code = told.code;
    if (is_unclosed(m, seat, it, who)) {
        is_unclosed(m, seat, wfe_closed_bucket(seat, index), who);
        is_unclosed(m, seat, wfe_closed_pair(seat, index, pair), who);
        is_unclosed(m, seat, wfe_closed_queued(seat, index), who);
        is_unclosed(m, seat, wfe_closed_used(seat, index), who);
        it.code = wfe_end(seat);
        is_unclosed(m, seat, it, who);
        return;
    }
    told = read_counts(m, seat);
    switch (draw(from) % 5) {
    case 0: read_bucket(m, seat, index); break;
    case 1: read_pair(m, seat, index, pair); break;
    case 2: read_queued(m, seat, index); break;
    case 3:
        it = wfe_closed_used(seat, index);
        IS(it.code == (index < told.used ? WFE_OK : WFE_BAD_INDEX));
        break;
    default:
        if (draw(from) % 4) break;
        it.code = wfe_end(seat);
        IS(it.code == WFE_OK);
        m->closed[who] = 0;
    }
}

static void one_call(model *m, wfe_seat *seats, bytes *from) {
    uint32_t which = draw(from) % 21;
    int who = (int)(draw(from) % SEATS);
    wfe_seat *seat = draw(from) % 16 ? &seats[who] : 0;
    uint64_t key = draw(from) % 16, value = draw(from);
    uint32_t slots[8] = { 1, 2, 3, 4, 5, 6, 7, 8 };
    wfe_answer it;
    memset(&it, 0, sizeof it);
    switch (which) {
    case 0: case 1:
        it = wfe_get(seat, key);
        if (!is_missing(m, seat, it, who)) read_from(&m->buckets[key % BUCKETS], it, key);
        break;
    case 2: case 3:
        it = wfe_put(seat, key, value);
        if (!is_missing(m, seat, it, who)) put(m, it, key, value, 0);
        break;
    case 4: {
        uint64_t version = draw(from) % 4 ? m->buckets[key % BUCKETS].version : number(from, 8);
        it = wfe_put_if(seat, key, value, version);
        if (!is_missing(m, seat, it, who)) put(m, it, key, value, &version);
        break;
    }
    case 5:
        it = wfe_remove(seat, key);
        if (!is_missing(m, seat, it, who)) removed(m, it, key);
        break;
    case 6: case 7:
        it = wfe_enqueue(seat, value);
        if (is_missing(m, seat, it, who) || it.code == WFE_FULL) break;
        IS(it.code == WFE_OK && it.number == m->last + 1 && m->last - m->first < QUEUE);
        m->queue[m->last++ % QUEUE] = value;
        break;
    case 8: case 9:
        it = wfe_dequeue(seat);
        if (is_missing(m, seat, it, who)) break;
        if (m->first == m->last) {
            IS(it.code == WFE_EMPTY);
            break;
        }
        IS(it.code == WFE_OK && it.number == m->first + 1 && it.value == m->queue[m->first % QUEUE]);
        m->first++;
        break;
    case 10: {
        bucket *in = &m->buckets[key % BUCKETS];
        it = wfe_hold(seat, key);
        if (is_missing(m, seat, it, who)) break;
        m->at[who][2].stands = in->version != 0;
        m->at[who][2].was = *in;
        IS(it.code == (in->version ? WFE_OK : WFE_NOTHING));
        break;
    }
    case 11:
        it = wfe_release(seat);
        if (is_missing(m, seat, it, who)) break;
        IS(it.code == WFE_OK);
        m->at[who][2].stands = 0;
        break;
    case 12: {
        uint32_t low = number(from, 6), high = number(from, 6);
        it = wfe_copy(seat, low, high);
        if (is_missing(m, seat, it, who)) break;
        if (low < 2 || high <= low || high >= INDEXES) {
            IS(it.code == WFE_BAD_INDEX);
            break;
        }
        IS(it.code == (m->at[who][low].stands ? WFE_OK : WFE_NOTHING));
        if (m->at[who][low].stands) m->at[who][high] = m->at[who][low];
        break;
    }
    case 13: {
        uint32_t index = number(from, 6);
        it = wfe_look(seat, index, key);
        if (is_missing(m, seat, it, who)) break;
        if (index < 2 || index >= INDEXES) IS(it.code == WFE_BAD_INDEX);
        else if (!m->at[who][index].stands) IS(it.code == WFE_NOTHING);
        else read_from(&m->at[who][index].was, it, key);
        break;
    }
    case 14: {
        uint32_t index = number(from, 6);
        it = wfe_drop_index(seat, index);
        if (is_missing(m, seat, it, who)) break;
        if (index < 2 || index >= INDEXES) {
            IS(it.code == WFE_BAD_INDEX);
            break;
        }
        IS(it.code == WFE_OK);
        m->at[who][index].stands = 0;
        break;
    }
    case 15:
        it = wfe_scan(seat);
        if (is_missing(m, seat, it, who)) break;
        IS(it.code == WFE_OK && it.number == wfe_about(seat).listed && it.value == wfe_backs(seat, 0, 0).number);
        break;
    case 16:
        it = wfe_advance(seat);
        if (!is_missing(m, seat, it, who)) IS(it.code == WFE_OK && it.clock < 4);
        break;
    case 17: {
        size_t room = draw(from) % 9;
        it = wfe_backs(seat, draw(from) % 8 ? slots : 0, room);
        if (is_missing(m, seat, it, who)) break;
        IS(it.code == WFE_OK || it.code == WFE_SHORT);
        for (size_t at = room; at < 8; at++) IS(slots[at] == at + 1);
        break;
    }
    case 18: {
        uint32_t place = number(from, 5);
        it = wfe_adopt(seat, place);
        if (is_missing(m, seat, it, who)) break;
        if (place >= SEATS) IS(it.code == WFE_BAD_INDEX);
        else if (!m->left[place]) IS(it.code == WFE_NOT_LEFT);
        else if (m->adopted[place]) IS(it.code == WFE_ADOPTED_BEFORE);
        else {
            IS(it.code == WFE_OK);
            m->adopted[place] = 1;
        }
        break;
    }
    case 19:
        read_closed(m, seat, from, who);
        break;
    default:
        if (draw(from) % 4) {
            wfe_about_told about = wfe_about(seat);
            it.code = about.code;
            if (!is_missing(m, seat, it, who)) IS(about.code == WFE_OK && about.number == (uint32_t)who && about.setting.seats == SEATS);
            it.code = wfe_notes(seat).code;
            if (!is_missing(m, seat, it, who)) IS(it.code == WFE_OK);
            it = wfe_seen(seat, number(from, 4));
            if (!is_missing(m, seat, it, who)) IS(it.code == WFE_OK || it.code == WFE_BAD_INDEX);
            break;
        }
        if (draw(from) % 2) {
            close_by(m, seat, who);
            break;
        }
        it = wfe_leave(seat);
        if (is_missing(m, seat, it, who)) break;
        IS(it.code == WFE_OK);
        m->left[who] = 1;
    }
}

/* At the end each seat leaves but the last one, which closes the table: all that it holds is what the model has. */
static void end_all(model *m, wfe_seat *seats) {
    for (int who = 0; who < SEATS; who++) {
        wfe_seat *seat = &seats[who];
        if (m->left[who] && !m->closed[who]) continue;
        if (!m->closed[who]) close_by(m, seat, who);
        if (!m->closed[who]) {
            wfe_answer it = wfe_leave(seat);
            IS(it.code == WFE_OK);
            m->left[who] = 1;
            continue;
        }
        wfe_closed_told it = read_counts(m, seat);
        for (uint32_t index = 0; index <= BUCKETS; index++) {
            read_bucket(m, seat, index);
            for (uint32_t pair = 0; pair <= PAIRS; pair++) read_pair(m, seat, index, pair);
        }
        for (uint32_t index = 0; index <= it.queued; index++) read_queued(m, seat, index);
        uint32_t last = 0;
        for (uint32_t index = 0; index < it.used; index++) {
            wfe_answer row = wfe_closed_used(seat, index);
            IS(row.code == WFE_OK && (!index || row.slot > last));
            last = row.slot;
        }
        it.code = wfe_end(seat);
        IS(it.code == WFE_OK);
        m->closed[who] = 0;
    }
}

int LLVMFuzzerTestOneInput(const uint8_t *at, size_t left);

int LLVMFuzzerTestOneInput(const uint8_t *at, size_t left) {
    bytes from = { at, left };
    wfe_seat seats[SEATS] = { WFE_NO_SEAT };
    static model m;
    memset(&m, 0, sizeof m);
    wfe_setting setting = wfe_usual((enum wfe_scheme)(draw(&from) % 4), SEATS, BUCKETS);
    setting.slots = 12 + draw(&from) % 32;
    setting.every = 1 + draw(&from) % 4;
    setting.indexes = INDEXES;
    setting.tries = 1 + draw(&from) % 3;
    if (draw(&from) % 16 == 0) { /* a setting with numbers of any kind: refused, or made */
        wfe_setting any = { number(&from, 5), number(&from, 5), number(&from, 10), number(&from, 64), number(&from, 8), number(&from, 8),
            number(&from, 8), number(&from, 8), number(&from, 8), number(&from, 16) };
        uint32_t code = wfe_open(any, draw(&from) % 4 ? seats : 0, draw(&from) % (SEATS + 1));
        for (int it = 0; it < SEATS; it++)
            if ((wfe_leave(&seats[it]).code == WFE_OK) != (code == WFE_OK && (uint32_t)it < any.seats)) abort();
        memset(seats, 0, sizeof seats);
    }
    if (wfe_open(setting, seats, SEATS) != WFE_OK) abort();
    while (from.left) one_call(&m, seats, &from);
    end_all(&m, seats);
    return 0;
}

#ifdef WITH_MAIN
/* As many sequences as are asked for, drawn from numbers in a row. */
int main(int words, char **word) {
    uint64_t state = 1, runs = words > 1 ? strtoull(word[1], 0, 10) : 2000;
    uint8_t made[512];
    for (uint64_t run = 0; run < runs; run++) {
        for (size_t it = 0; it < sizeof made; it++) {
            state = state * UINT64_C(6364136223846793005) + UINT64_C(1442695040888963407);
            made[it] = (uint8_t)(state >> 56);
        }
        LLVMFuzzerTestOneInput(made, (size_t)(state >> 20 & 511));
    }
    printf("%llu sequences answered as the model does\n", (unsigned long long)runs);
    return 0;
}
#endif
