/* What each call answers, and each argument that is bad. */
#include "layout.h"
#include <stdio.h>
#include <stdlib.h>
#include <string.h>

static int count;

#define IS(what)                                                                  \
    do {                                                                          \
        count++;                                                                  \
        if (!(what)) {                                                            \
            fprintf(stderr, "%s:%d: not so: %s\n", __FILE__, __LINE__, #what);    \
            exit(1);                                                              \
        }                                                                         \
    } while (0)

static wfe_setting setting(uint32_t scheme, uint32_t seats) {
    wfe_setting made = wfe_usual((enum wfe_scheme)scheme, seats, 4);
    made.slots = 16;
    made.every = 2;
    made.indexes = 4;
    return made;
}

/* Each call with a handle that has no seat. */
static void without_a_seat(wfe_seat *seat, uint32_t code) {
    wfe_seat before = seat ? *seat : (wfe_seat)WFE_NO_SEAT;
    uint32_t slots[2] = { 77, 78 };
    IS(wfe_get(seat, 1).code == code);
    IS(wfe_put(seat, 1, 2).code == code);
    IS(wfe_put_if(seat, 1, 2, 3).code == code);
    IS(wfe_remove(seat, 1).code == code);
    IS(wfe_enqueue(seat, 1).code == code);
    IS(wfe_dequeue(seat).code == code);
    IS(wfe_hold(seat, 1).code == code);
    IS(wfe_release(seat).code == code);
    IS(wfe_copy(seat, 2, 3).code == code);
    IS(wfe_look(seat, 2, 1).code == code);
    IS(wfe_drop_index(seat, 2).code == code);
    IS(wfe_advance(seat).code == code);
    IS(wfe_scan(seat).code == code);
    IS(wfe_adopt(seat, 0).code == code);
    IS(wfe_leave(seat).code == code);
    IS(wfe_notes(seat).code == code && wfe_notes(seat).given == WFE_NO_SLOT);
    IS(wfe_backs(seat, slots, 2).code == code && slots[0] == 77 && slots[1] == 78);
    IS(wfe_about(seat).code == code && wfe_about(seat).setting.seats == 0);
    IS(wfe_seen(seat, 0).code == code);
    IS(wfe_close(seat) == code);
    if (seat) IS(seat->state == before.state && seat->at == before.at);
}

/* Each call that reads a closed table, with a handle that has none. */
static void without_a_closed_table(wfe_seat *seat, uint32_t code) {
    wfe_seat before = seat ? *seat : (wfe_seat)WFE_NO_SEAT;
    wfe_closed_told told = wfe_closed(seat);
    IS(told.code == code && !told.clock && !told.buckets && !told.queued && !told.used);
    IS(wfe_closed_bucket(seat, 0).code == code);
    IS(wfe_closed_pair(seat, 0, 0).code == code);
    IS(wfe_closed_queued(seat, 0).code == code);
    IS(wfe_closed_used(seat, 0).code == code);
    IS(wfe_end(seat) == code);
    if (seat) IS(seat->state == before.state && seat->at == before.at);
}

static void settings_out_of_range(void) {
    static const struct {
        uint32_t code;
        size_t field, bytes;
        uint64_t number;
    } cases[] = {
#define BAD(field, number, code) { code, offsetof(wfe_setting, field), sizeof((wfe_setting *)0)->field, number }
        BAD(scheme, 4, WFE_BAD_SCHEME), BAD(scheme, 4294967295u, WFE_BAD_SCHEME),
        BAD(seats, 65, WFE_BAD_SEATS),
        BAD(indexes, 2, WFE_BAD_INDEXES), BAD(indexes, 9, WFE_BAD_INDEXES),
        BAD(slots, 1, WFE_BAD_SLOTS), BAD(slots, 65537, WFE_BAD_SLOTS),
        BAD(buckets, 0, WFE_BAD_BUCKETS), BAD(buckets, 1025, WFE_BAD_BUCKETS),
        BAD(tries, 0, WFE_BAD_TRIES), BAD(tries, 65, WFE_BAD_TRIES),
        BAD(every, 0, WFE_BAD_EVERY), BAD(every, 65537, WFE_BAD_EVERY),
        BAD(last_era, 0, WFE_BAD_LAST_ERA),
        BAD(last_version, 0, WFE_BAD_LAST_VERSION), BAD(last_version, UINT64_C(281474976710657), WFE_BAD_LAST_VERSION),
        BAD(pairs, 7, WFE_BAD_PAIRS),
    };
    wfe_seat seats[65] = { WFE_NO_SEAT };
    wfe_setting good = setting(0, 2);
    for (size_t it = 0; it < sizeof cases / sizeof *cases; it++) {
        wfe_setting bad = good;
        memcpy((char *)&bad + cases[it].field, &cases[it].number, cases[it].bytes); /* (the low bytes come first) */
        IS(wfe_open(bad, seats, bad.seats) == cases[it].code);
        IS(!seats[0].state && !seats[0].at && !seats[64].at);
    }
    IS(wfe_open(good, seats, 1) == WFE_BAD_COUNT && wfe_open(good, seats, 3) == WFE_BAD_COUNT);
    IS(wfe_open(good, 0, 2) == WFE_NULL && wfe_open(good, 0, 0) == WFE_NULL && wfe_open(good, seats, 0) == WFE_NULL);
    IS(wfe_open(wfe_usual((enum wfe_scheme)9, 2, 4), seats, 0) == WFE_BAD_SCHEME);
    wfe_setting much = wfe_usual(WFE_WAIT_FREE_ERAS, 2, 14337);
    IS(wfe_open(much, seats, 2) == WFE_BAD_BUCKETS);
}

static void map(wfe_seat *seat) {
    wfe_answer it;
    it = wfe_get(seat, 5);
    IS(it.code == WFE_ABSENT && it.number == 0 && it.value == 0);
    IS(wfe_hold(seat, 5).code == WFE_NOTHING);
    it = wfe_put(seat, 5, 50);
    IS(it.code == WFE_OK && it.number == 1);
    IS(wfe_notes(seat).given != WFE_NO_SLOT && wfe_notes(seat).retired == WFE_NO_SLOT && wfe_notes(seat).steps > 0);
    it = wfe_get(seat, 5);
    IS(it.code == WFE_OK && it.number == 1 && it.value == 50);
    it = wfe_put_if(seat, 5, 51, 0);
    IS(it.code == WFE_STALE && it.number == 1);
    it = wfe_put_if(seat, 5, 51, 1);
    IS(it.code == WFE_OK && it.number == 2);
    IS(wfe_notes(seat).retired != WFE_NO_SLOT);
    it = wfe_remove(seat, 9); /* the same bucket, of four */
    IS(it.code == WFE_ABSENT && it.number == 2);
    it = wfe_remove(seat, 5);
    IS(it.code == WFE_OK && it.number == 3);
    it = wfe_get(seat, 5);
    IS(it.code == WFE_ABSENT && it.number == 3);
    IS(wfe_seen(seat, 1).code == WFE_OK && wfe_seen(seat, 1).number == 3);
    IS(wfe_seen(seat, 4).code == WFE_BAD_INDEX);
    for (uint64_t key = 0; key < 6; key++) IS(wfe_put(seat, 4 * key + 2, key).code == WFE_OK);
    it = wfe_put(seat, 26, 6);
    IS(it.code == WFE_BUCKET_FULL && it.number == 6);
}

static void queue(wfe_seat *seat) {
    wfe_answer it;
    IS(wfe_dequeue(seat).code == WFE_EMPTY);
    it = wfe_enqueue(seat, 70);
    IS(it.code == WFE_OK && it.number == 1);
    it = wfe_enqueue(seat, 71);
    IS(it.code == WFE_OK && it.number == 2);
    it = wfe_dequeue(seat);
    IS(it.code == WFE_OK && it.number == 1 && it.value == 70);
    it = wfe_dequeue(seat);
    IS(it.code == WFE_OK && it.number == 2 && it.value == 71);
    IS(wfe_dequeue(seat).code == WFE_EMPTY);
}

static void kept_rows(wfe_seat *seat, wfe_seat *other) {
    wfe_answer it, held;
    IS(wfe_put(other, 3, 30).code == WFE_OK);
    held = wfe_hold(seat, 3);
    IS(held.code == WFE_OK);
    IS(wfe_put(other, 3, 31).code == WFE_OK);
    it = wfe_look(seat, 2, 3);
    IS(it.code == WFE_OK && it.slot == held.slot && it.value == 30 && it.number == 1);
    it = wfe_look(seat, 2, 7);
    IS(it.code == WFE_ABSENT && it.slot == held.slot && it.number == 1);
    IS(wfe_copy(seat, 2, 3).slot == held.slot);
    IS(wfe_copy(seat, 3, 3).code == WFE_BAD_INDEX && wfe_copy(seat, 3, 2).code == WFE_BAD_INDEX);
    IS(wfe_copy(seat, 1, 3).code == WFE_BAD_INDEX && wfe_copy(seat, 2, 4).code == WFE_BAD_INDEX);
    IS(wfe_look(seat, 1, 3).code == WFE_BAD_INDEX && wfe_look(seat, 4, 3).code == WFE_BAD_INDEX);
    IS(wfe_drop_index(seat, 1).code == WFE_BAD_INDEX && wfe_drop_index(seat, 4294967295u).code == WFE_BAD_INDEX);
    IS(wfe_release(seat).code == WFE_OK);
    IS(wfe_look(seat, 2, 3).code == WFE_NOTHING && wfe_copy(seat, 2, 3).code == WFE_NOTHING);
    IS(wfe_drop_index(seat, 3).code == WFE_OK);
}

static void goes_back(wfe_seat *seat) {
    uint32_t slots[40];
    for (int it = 0; it < 20; it++) {
        while (wfe_put(seat, 8, 1).code == WFE_FULL) IS(wfe_scan(seat).code == WFE_OK);
        wfe_answer all = wfe_backs(seat, slots, 40), none = wfe_backs(seat, 0, 0);
        wfe_notes_told notes = wfe_notes(seat);
        IS(all.code == WFE_OK && all.number == notes.backs && none.number == notes.backs);
        IS(none.code == (notes.backs ? (uint32_t)WFE_SHORT : (uint32_t)WFE_OK));
        if (notes.backs > 1) {
            uint32_t one[2] = { 999, 999 };
            wfe_answer some = wfe_backs(seat, one, 1);
            IS(some.code == WFE_SHORT && some.number == notes.backs && one[0] == slots[0] && one[1] == 999);
        }
    }
    wfe_answer moved = wfe_advance(seat);
    IS(moved.code == WFE_OK && moved.clock <= WFE_ERA_SPENT);
    wfe_answer scanned = wfe_scan(seat);
    IS(scanned.code == WFE_OK && wfe_backs(seat, slots, 40).number == scanned.value && wfe_about(seat).listed == scanned.number);
}

static void come_and_go(wfe_seat *seats) {
    wfe_answer it;
    IS(wfe_adopt(&seats[0], 1).code == WFE_NOT_LEFT);
    IS(wfe_adopt(&seats[0], 3).code == WFE_BAD_INDEX && wfe_adopt(&seats[0], 4294967295u).code == WFE_BAD_INDEX);
    while (wfe_put(&seats[1], 8, 2).code == WFE_FULL) wfe_scan(&seats[0]), wfe_scan(&seats[1]);
    uint64_t listed = wfe_about(&seats[1]).listed;
    it = wfe_leave(&seats[1]);
    IS(it.code == WFE_OK && it.number == listed);
    without_a_seat(&seats[1], WFE_HAS_LEFT);
    it = wfe_adopt(&seats[0], 1);
    IS(it.code == WFE_OK && it.number == listed);
    IS(wfe_adopt(&seats[0], 1).code == WFE_ADOPTED_BEFORE);
}

static void a_table(uint32_t scheme) {
    wfe_seat seats[3] = { WFE_NO_SEAT }, moved = WFE_NO_SEAT;
    wfe_setting made = setting(scheme, 3);
    IS(wfe_open(made, seats, 3) == WFE_OK);
    IS(wfe_open(made, seats, 3) == WFE_IN_USE);
    for (uint32_t it = 0; it < 3; it++) {
        wfe_about_told about = wfe_about(&seats[it]);
        IS(about.code == WFE_OK && about.number == it && about.listed == 0 && about.setting.scheme == scheme);
        IS(about.setting.slots == 16 && about.setting.last_version == made.last_version && about.setting.pairs == 6);
    }
    map(&seats[0]);
    queue(&seats[1]);
    kept_rows(&seats[0], &seats[2]);
    goes_back(&seats[0]);
    wfe_move(&moved, &seats[2]);
    without_a_seat(&seats[2], WFE_BAD_SEAT);
    IS(wfe_about(&moved).number == 2);
    come_and_go(seats);
    IS(wfe_leave(&moved).code == WFE_OK && wfe_leave(&seats[0]).code == WFE_OK);
    without_a_seat(&seats[0], WFE_HAS_LEFT);
    /* handles whose seats have left may be used anew */
    IS(wfe_open(made, seats, 3) == WFE_OK && wfe_get(&seats[0], 8).code == WFE_ABSENT);
    for (int it = 0; it < 3; it++) IS(wfe_leave(&seats[it]).code == WFE_OK);
}

/* A table that is closed by its last seat, and each index that it lacks. */
static void closes(uint32_t scheme) {
    wfe_seat seats[2] = { WFE_NO_SEAT }, moved = WFE_NO_SEAT;
    wfe_answer it;
    IS(wfe_open(setting(scheme, 2), seats, 2) == WFE_OK);
    without_a_closed_table(&seats[0], WFE_NOT_CLOSED);
    IS(wfe_put(&seats[0], 1, 10).code == WFE_OK && wfe_put(&seats[1], 5, 50).code == WFE_OK && wfe_put(&seats[0], 2, 20).code == WFE_OK);
    IS(wfe_remove(&seats[0], 2).code == WFE_OK);
    for (uint64_t value = 70; value < 73; value++) IS(wfe_enqueue(&seats[1], value).code == WFE_OK);
    IS(wfe_dequeue(&seats[0]).value == 70);
    IS(wfe_close(&seats[0]) == WFE_NOT_LAST && wfe_close(&seats[1]) == WFE_NOT_LAST);
    IS(wfe_get(&seats[1], 1).value == 10 && wfe_about(&seats[0]).code == WFE_OK);
    uint64_t listed = wfe_leave(&seats[1]).number + wfe_about(&seats[0]).listed;
    IS(wfe_close(&seats[1]) == WFE_HAS_LEFT);
    IS(wfe_close(&seats[0]) == WFE_OK);
    without_a_seat(&seats[0], WFE_CLOSED);
    IS(wfe_open(setting(scheme, 2), seats, 2) == WFE_IN_USE);
    wfe_closed_told told = wfe_closed(&seats[0]);
    /* in use are the rows of buckets 1 and 2, two values, the dummy, and the rows on the lists */
    IS(told.code == WFE_OK && told.clock >= 1 && told.buckets == 4 && told.queued == 2 && told.used == 5 + listed);
    it = wfe_closed_bucket(&seats[0], 0);
    IS(it.code == WFE_OK && it.number == 0 && it.value == 0);
    it = wfe_closed_bucket(&seats[0], 1);
    IS(it.code == WFE_OK && it.number == 2 && it.value == 2);
    it = wfe_closed_bucket(&seats[0], 2);
    IS(it.code == WFE_OK && it.number == 2 && it.value == 0);
    IS(wfe_closed_bucket(&seats[0], 4).code == WFE_BAD_INDEX && wfe_closed_bucket(&seats[0], 4294967295u).code == WFE_BAD_INDEX);
    uint64_t sum = 0;
    for (uint32_t pair = 0; pair < 2; pair++) {
        it = wfe_closed_pair(&seats[0], 1, pair);
        IS(it.code == WFE_OK && it.value == 10 * it.number);
        sum += it.number;
    }
    IS(sum == 6);
    IS(wfe_closed_pair(&seats[0], 1, 2).code == WFE_BAD_INDEX && wfe_closed_pair(&seats[0], 1, 4294967295u).code == WFE_BAD_INDEX);
    IS(wfe_closed_pair(&seats[0], 2, 0).code == WFE_BAD_INDEX && wfe_closed_pair(&seats[0], 4, 0).code == WFE_BAD_INDEX);
    for (uint32_t place = 0; place < 2; place++) {
        it = wfe_closed_queued(&seats[0], place);
        IS(it.code == WFE_OK && it.number == place + 2 && it.value == place + 71);
    }
    IS(wfe_closed_queued(&seats[0], 2).code == WFE_BAD_INDEX && wfe_closed_queued(&seats[0], 4294967295u).code == WFE_BAD_INDEX);
    uint32_t last = 0;
    for (uint32_t place = 0; place < told.used; place++) {
        it = wfe_closed_used(&seats[0], place);
        IS(it.code == WFE_OK && it.slot <= 16 && (!place || it.slot > last));
        last = it.slot;
    }
    IS(wfe_closed_used(&seats[0], (uint32_t)told.used).code == WFE_BAD_INDEX && wfe_closed_used(&seats[0], 4294967295u).code == WFE_BAD_INDEX);
    wfe_move(&moved, &seats[0]);
    without_a_closed_table(&seats[0], WFE_BAD_SEAT);
    IS(wfe_closed(&moved).used == told.used && wfe_closed_queued(&moved, 1).value == 72);
    IS(wfe_end(&moved) == WFE_OK);
    without_a_seat(&moved, WFE_HAS_LEFT);
    without_a_closed_table(&moved, WFE_HAS_LEFT);
    IS(wfe_open(setting(scheme, 2), seats, 2) == WFE_OK && wfe_leave(&seats[0]).code == WFE_OK && wfe_leave(&seats[1]).code == WFE_OK);
    /* a table of one seat, which nobody has used */
    IS(wfe_open(setting(scheme, 1), &moved, 1) == WFE_OK && wfe_close(&moved) == WFE_OK);
    told = wfe_closed(&moved);
    IS(told.clock == 1 && told.buckets == 4 && told.queued == 0 && told.used == 1 && wfe_closed_used(&moved, 0).slot == 16);
    IS(wfe_end(&moved) == WFE_OK);
}

/* The last version of a bucket, and of the queue. */
static void last_versions(void) {
    wfe_seat seat = WFE_NO_SEAT;
    wfe_setting made = setting(WFE_WAIT_FREE_ERAS, 1);
    made.last_version = 2;
    IS(wfe_open(made, &seat, 1) == WFE_OK);
    IS(wfe_put(&seat, 1, 1).code == WFE_OK && wfe_put(&seat, 1, 2).code == WFE_OK);
    IS(wfe_put(&seat, 1, 3).code == WFE_SPENT && wfe_put(&seat, 1, 3).number == 2);
    IS(wfe_put_if(&seat, 1, 3, 2).code == WFE_SPENT && wfe_remove(&seat, 1).code == WFE_SPENT);
    IS(wfe_enqueue(&seat, 1).code == WFE_OK && wfe_enqueue(&seat, 2).code == WFE_OK);
    IS(wfe_enqueue(&seat, 3).code == WFE_SPENT && wfe_enqueue(&seat, 3).number == 2);
    IS(wfe_leave(&seat).code == WFE_OK);
}

/* A handle with a number that the library never leaves in it. */
static void wrong_states(void) {
    wfe_seat none = WFE_NO_SEAT;
    without_a_seat(&none, WFE_BAD_SEAT);
    without_a_closed_table(&none, WFE_BAD_SEAT);
    none.state = 5;
    without_a_seat(&none, WFE_BAD_SEAT);
    without_a_closed_table(&none, WFE_BAD_SEAT);
    none.state = 4294967295u;
    without_a_seat(&none, WFE_BAD_SEAT);
    without_a_seat(0, WFE_NULL);
    without_a_closed_table(0, WFE_NULL);
}

int main(void) {
    settings_out_of_range();
    wrong_states();
    for (uint32_t scheme = 0; scheme < 4; scheme++) a_table(scheme), closes(scheme);
    last_versions();
    for (uint32_t code = 0; code < 31; code++) IS(wfe_text(code)[0] && strcmp(wfe_text(code), wfe_text(31)));
    printf("%d answers are as they are due\n", count);
    return 0;
}
