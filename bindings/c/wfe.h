/* wfe.h - a table that threads share: a map of buckets and a queue, without locks, whose rows are reclaimed by Hazard Eras,
 * 2GE intervals, Wait-Free Eras or hazard pointers.
 *
 * The machine code of libwfe_c.a comes from a proof: that no row is used again while a seat protects it, that a retired row goes back
 * once at most, that a call answers what was so, and more. This header is not proved; it is tested.
 *
 *     wfe_seat seats[2] = { WFE_NO_SEAT, WFE_NO_SEAT };
 *     if (wfe_open(wfe_usual(WFE_WAIT_FREE_ERAS, 2, 100), seats, 2) != WFE_OK) ..
 *     (each of two threads has one of the seats)
 *     wfe_answer put = wfe_put(&seats[0], 7, 70);      put.code is WFE_OK, put.number the version of the bucket
 *     wfe_answer got = wfe_get(&seats[1], 7);          got.code is WFE_OK, got.value 70
 *     wfe_leave(&seats[0]); wfe_leave(&seats[1]);      the last one frees the table
 *     (or the last one closes it, wfe_close(&seats[1]), and reads all that it held)
 *
 * WHAT YOU OWE. Nothing checks these five; all else is tested by the call, and answered by a code.
 *  1. A wfe_seat is all zeros (WFE_NO_SEAT) or what the library left in it: don't write in it, and don't copy it; wfe_move moves it.
 *  2. One call at a time is made with a seat, which may go from thread to thread by what orders them: a lock, a thread's start or
 *     end, a sequentially consistent atomic.
 *  3. A pointer that is not null points to as much memory as is said, aligned, that only this call uses.
 *  4. malloc, realloc and free are of one allocator, whose blocks are aligned to 16.
 *  5. No call is made in a signal handler, or in the child of a fork of a process that has threads.
 *
 * THREADS. Seats of one table are used at once by as many threads. No call takes a lock, waits or takes memory, but for wfe_open and
 * wfe_close, and for wfe_leave and wfe_end, which give memory back. All atomic steps are sequentially consistent: what a thread wrote
 * before a put is seen by a thread that got the value. A thread that stops, even in the middle of a call, holds up no other; what its
 * seat protects stays so.
 *
 * STEPS are atomic operations of the seat, whatever the other threads do; wfe_notes tells those of the last call. Where a call has no
 * bound below, it begins anew only where another thread has changed its bucket, or the queue, since it began. */
#ifndef WFE_H
#define WFE_H

#include <stddef.h>
#include <stdint.h>

#ifdef __cplusplus
extern "C" {
#endif

/* ---- what is passed ---------------------------------------------------------------------------------------------------------- */

/* A seat: one thread's place at a table. It keeps the table, which lasts as long as one of its seats is there; the seat that closes the
 * table keeps what the table held.
 * It is 128 bytes long, and its two words lie in the middle: so they share no line of the cache, of 64 bytes, with another seat or with
 * your own data beside them, and one thread's calls don't slow another's down. It is aligned as a pointer is: it may lie on the stack, in
 * an array, in a struct of yours, or in what malloc gives. */
typedef struct wfe_seat {
    uint64_t before[7];
    uint32_t state;
    void *at;
    uint64_t after[7];
} wfe_seat;

#define WFE_NO_SEAT { { 0 }, 0, 0, { 0 } }
#define WFE_NOBODY { { 0 }, 3, 0, { 0 } } /* what stands for a null below; make none yourself */

/* The schemes that say when a row may be used again. */
enum wfe_scheme { WFE_HAZARD_ERAS = 0, WFE_2GE_INTERVALS = 1, WFE_WAIT_FREE_ERAS = 2, WFE_HAZARD_POINTERS = 3 };

/* How a table is made. wfe_usual gives one; each number may be set anew, within its range. */
typedef struct wfe_setting {
    uint32_t scheme;       /* of enum wfe_scheme */
    uint32_t seats;        /* 1 to 64: as many as threads take part at a time, and as join and leave in the table's whole time */
    uint32_t indexes;      /* 3 to 8: rows that a seat may protect; 0 and 1 serve its calls, 2 is a hold's, those from 3 on are for copies */
    uint32_t slots;        /* 2 to 65,536 rows */
    uint32_t buckets;      /* 1 to 1,024; a key's bucket is its remainder */
    uint32_t tries;        /* 1 to 64: under Wait-Free Eras, tries before a reader asks for help */
    uint32_t every;        /* 1 to 65,536: after so many retired rows a seat scans */
    uint32_t last_era;     /* 1 to 4,294,967,295: where the clock stops */
    uint64_t last_version; /* 1 to 281,474,976,710,656: after which a bucket, or the queue, takes no more changes */
    uint32_t pairs;        /* 6 or 14: keys of a bucket, at most */
} wfe_setting;

/* ---- what is answered -------------------------------------------------------------------------------------------------------- */

enum wfe_code {
    WFE_OK = 0,
    /* nothing was done: */
    WFE_BAD_SEAT = 1,       /* the handle has no seat: it is all zeros */
    WFE_HAS_LEFT = 2,       /* the handle's seat has left */
    WFE_NULL = 3,           /* there is no handle: a null */
    WFE_BAD_INDEX = 4,      /* the table lacks the index, the place or the bucket, or a copy does not go upwards */
    /* the call was made, and changed nothing: */
    WFE_FULL = 5,           /* no row was free, though it has scanned; try again when others have released or scanned */
    WFE_BUCKET_FULL = 6,    /* at version `number` the bucket had `pairs` keys, and not this one */
    WFE_SPENT = 7,          /* the bucket, or the queue, is at last_version: `number` */
    WFE_STALE = 8,          /* the bucket was at version `number`, and not at the one named */
    WFE_ABSENT = 9,         /* the key had no value at version `number`; 0 is that of a bucket that was never changed */
    WFE_EMPTY = 10,         /* the queue was empty */
    WFE_NOTHING = 11,       /* no row stands there; a hold: the bucket was never changed */
    WFE_NOT_LEFT = 12,      /* that seat had not left */
    WFE_ADOPTED_BEFORE = 13, /* that seat's list has been adopted */
    /* of wfe_backs: */
    WFE_SHORT = 14,         /* there were more slots than there was room for */
    /* of wfe_open, which made nothing: */
    WFE_IN_USE = 15,        /* one of the handles has a seat, or what a closed table held */
    WFE_BAD_COUNT = 16,     /* as many handles are needed as the setting has seats */
    WFE_NO_MEMORY = 17,     /* (of wfe_close too, where the table is gone then) */
    WFE_BAD_SCHEME = 18,
    WFE_BAD_SEATS = 19,     /* the first number of the setting that is out of its range */
    WFE_BAD_INDEXES = 20,
    WFE_BAD_SLOTS = 21,
    WFE_BAD_BUCKETS = 22,
    WFE_BAD_TRIES = 23,
    WFE_BAD_EVERY = 24,
    WFE_BAD_LAST_ERA = 25,
    WFE_BAD_LAST_VERSION = 26,
    WFE_BAD_PAIRS = 27,
    /* of wfe_close, which did nothing: */
    WFE_NOT_LAST = 28,      /* another seat of the table has not left */
    /* the call is not for what the handle has, and nothing was done: */
    WFE_CLOSED = 29,        /* the handle's table is closed: its seat makes no calls any more */
    WFE_NOT_CLOSED = 30     /* the handle has a seat: its table is not closed */
};

/* What a call answers. A field to which neither the code nor the call gives a meaning is 0. */
typedef struct wfe_answer {
    uint32_t code;   /* of enum wfe_code */
    uint32_t clock;  /* of enum wfe_clock: what came of the clock in this call */
    uint32_t era;    /* the era that goes with it */
    uint32_t slot;   /* of a row */
    uint64_t number; /* the version of the key's bucket; of the queue, a value's number; rows that are kept, left or adopted; a key */
    uint64_t value;
} wfe_answer;

enum wfe_clock {
    WFE_STILL = 0,    /* no move was due */
    WFE_MOVED = 1,    /* this call moved the clock to `era` */
    WFE_OTHERS = 2,   /* another one moved it: it was seen at `era` */
    WFE_ERA_SPENT = 3 /* it stands at last_era */
};

#define WFE_NO_SLOT UINT32_C(4294967295)

/* What the last call of a seat did. */
typedef struct wfe_notes_told {
    uint32_t code;    /* WFE_OK, or WFE_BAD_SEAT, WFE_HAS_LEFT, WFE_NULL */
    uint32_t given;   /* the slot of the row that the call was given, or WFE_NO_SLOT */
    uint32_t retired; /* the slot of the row that it retired, or WFE_NO_SLOT */
    uint32_t unused;  /* 1: the row that it was given was given up again */
    uint32_t early;   /* so many of the slots that went back did so before it was given a row */
    uint64_t backs;   /* how many slots went back */
    uint64_t steps;   /* its atomic steps */
} wfe_notes_told;

/* Which seat it is, and of which table. */
typedef struct wfe_about_told {
    uint32_t code;   /* as above */
    uint32_t number; /* the seat's number, from 0: its place, for wfe_adopt */
    uint64_t listed; /* how many rows are on its list: retired or adopted by it, and not back */
    wfe_setting setting;
} wfe_about_told;

/* What a closed table held, in numbers. */
typedef struct wfe_closed_told {
    uint32_t code;    /* WFE_OK, or WFE_BAD_SEAT, WFE_HAS_LEFT, WFE_NULL, WFE_NOT_CLOSED */
    uint32_t clock;   /* the era clock, 1 to last_era */
    uint64_t buckets; /* how many buckets: setting.buckets */
    uint64_t queued;  /* how many values were in the queue */
    uint64_t used;    /* how many rows were in use */
} wfe_closed_told;

/* ---- a table ----------------------------------------------------------------------------------------------------------------- */

/* A setting for so many threads, with a seat each, and for so many keys that lie evenly in the buckets, as numbers in a row do. It is
 * good for 1 to 64 threads and up to 14,336 keys. */
static inline wfe_setting wfe_usual(enum wfe_scheme scheme, uint32_t threads, uint32_t keys);

/* Makes a table, and puts its seats at seats[0] to seats[count - 1], by number. count is setting.seats; none of the handles has a seat,
 * or what a closed table held. WFE_OK, or why nothing was made, and the handles are as they were. It takes all memory that the table will
 * ever need for its calls: by the usual setting 3 MB for two threads, 26 for 64. */
static inline uint32_t wfe_open(wfe_setting setting, wfe_seat *seats, size_t count);

/* The seat lets go of all that it protects and leaves; its list of retired rows, of `number` rows, stays for another seat to adopt.
 * WFE_OK. From here on its handle answers WFE_HAS_LEFT, and may be used for another table. The last seat that leaves frees the table.
 * A seat of the table that has left does not come back; hand seats on from thread to thread instead.
 * Steps: 1, and one for each index from 2 on at which a row stands. */
static inline wfe_answer wfe_leave(wfe_seat *seat);

/* Takes over the list that the seat of this number has left: WFE_OK, `number` rows, which go back from here on through this seat.
 * WFE_NOT_LEFT, WFE_ADOPTED_BEFORE, WFE_BAD_INDEX. Steps: 2, or 1 where there is none. */
static inline wfe_answer wfe_adopt(wfe_seat *seat, uint32_t place);

/* Moves a seat, or what a closed table held, to another handle, which has neither, and leaves neither. */
static inline void wfe_move(wfe_seat *to, wfe_seat *from);

/* ---- the map ----------------------------------------------------------------------------------------------------------------- */
/* Keys and values are any numbers of 64 bits. A bucket is a small map with a version, which each change of it raises by one. `number`
 * is the version of the key's bucket. */

/* WFE_OK: at this version, which the bucket had during the call, the key had this `value`. WFE_ABSENT: it had none.
 * Steps: under Wait-Free Eras at most 3 * tries + 18 + pairs. */
static inline wfe_answer wfe_get(wfe_seat *seat, uint64_t key);

/* Gives the key this value: WFE_OK, and this change made the version. WFE_FULL, WFE_BUCKET_FULL, WFE_SPENT. */
static inline wfe_answer wfe_put(wfe_seat *seat, uint64_t key, uint64_t value);

/* The same, where the bucket is at this version: WFE_OK, and the version is the next one. Also WFE_STALE. */
static inline wfe_answer wfe_put_if(wfe_seat *seat, uint64_t key, uint64_t value, uint64_t version);

/* Takes the key's value away: WFE_OK. WFE_ABSENT, WFE_FULL (a row without the key is linked), WFE_SPENT. */
static inline wfe_answer wfe_remove(wfe_seat *seat, uint64_t key);

/* ---- the queue --------------------------------------------------------------------------------------------------------------- */

/* Puts a value at the end: WFE_OK, and `number` is its number, from 1. WFE_FULL, WFE_SPENT. */
static inline wfe_answer wfe_enqueue(wfe_seat *seat, uint64_t value);

/* Takes the value at the front: WFE_OK, `value` and its `number`. WFE_EMPTY. */
static inline wfe_answer wfe_dequeue(wfe_seat *seat);

/* ---- rows that are kept ------------------------------------------------------------------------------------------------------ */
/* A row that stands at an index of a seat is given to no thread until it is let go: what its values name outside may be read. */

/* Lets the row of the key's bucket stand at index 2, where what stood is let go: WFE_OK and its `slot`. WFE_NOTHING.
 * Steps: under Wait-Free Eras at most 3 * tries + 16. */
static inline wfe_answer wfe_hold(wfe_seat *seat, uint64_t key);

/* Lets go of what stands at index 2: WFE_OK. Steps: 1. */
static inline wfe_answer wfe_release(wfe_seat *seat);

/* Lets the row that stands at index `from` stand at the higher `index` too: WFE_OK and its `slot`. WFE_NOTHING, WFE_BAD_INDEX.
 * Steps: at most 2. */
static inline wfe_answer wfe_copy(wfe_seat *seat, uint32_t from, uint32_t index);

/* Reads the row that stands at an index, however old: WFE_OK, its `slot`, its version, and the key's `value` there; WFE_ABSENT: the
 * same without a value. WFE_NOTHING, WFE_BAD_INDEX. Steps: at most 3 + pairs. */
static inline wfe_answer wfe_look(wfe_seat *seat, uint32_t index, uint64_t key);

/* Lets go of what stands at an index: WFE_OK. WFE_BAD_INDEX. Steps: 1. */
static inline wfe_answer wfe_drop_index(wfe_seat *seat, uint32_t index);

/* ---- reclamation ------------------------------------------------------------------------------------------------------------- */
/* A change retires the row that it replaces: it is on the list of the seat, and goes back, free again, in a scan that finds it at no
 * index of any seat. Scans come by themselves, after every `every` retired rows.
 *
 * What does not fit into a row you keep outside, by the slot of its row, and free it when the slot went back. After each call of the
 * seat that can have retired or scanned, in this order:
 *     notes = wfe_notes(seat); wfe_backs(seat, slots, room);
 *     free what you keep for slots[0] to slots[early - 1];
 *     keep, for notes.retired, what the row named that this call replaced (a wfe_put_if at the version that you looked at tells which);
 *     free what you keep for the slots after those.
 * examples/cache.c does so. */

/* Reads all guards, and gives back the rows of the list that none covers: WFE_OK, `number` rows stay, `value` went back.
 * Steps: one for each guard, and one for each row that went back. */
static inline wfe_answer wfe_scan(wfe_seat *seat);

/* Tries once to move the clock: WFE_OK, `clock` and `era`. Steps: under Wait-Free Eras at most 7 * seats + 3, else at most 2. */
static inline wfe_answer wfe_advance(wfe_seat *seat);

/* What the seat's last call did. This, and the next three, are no calls by these notes. */
static inline wfe_notes_told wfe_notes(wfe_seat *seat);

/* Writes the slots that went back in the seat's last call, in order, as many as there is room for: WFE_OK, and `number` slots there
 * were; WFE_SHORT: the same, and the last ones are missing. slots may be null where room is 0. */
static inline wfe_answer wfe_backs(wfe_seat *seat, uint32_t *slots, size_t room);

/* Which seat it is, and of which table. */
static inline wfe_about_told wfe_about(wfe_seat *seat);

/* The greatest version that a call of this seat, but no look, told of the bucket: WFE_OK and `number`. WFE_BAD_INDEX. */
static inline wfe_answer wfe_seen(wfe_seat *seat, uint32_t bucket);

/* A code in words. */
static inline const char *wfe_text(uint32_t code);

/* ---- a table's end ----------------------------------------------------------------------------------------------------------- */
/* The last seat of a table may close it in place of leaving: its handle then has all that the table held when no call was under way any
 * more, to be read by index, from 0. On a handle whose table is closed all other calls answer WFE_CLOSED; on one that has a seat these
 * answer WFE_NOT_CLOSED. They are no calls by the notes either. */

/* Closes the table, if each other seat of it has left, by a wfe_leave that has returned: WFE_OK. WFE_NOT_LAST: one has not; nothing was
 * done, and the seat may make calls, and close the table later. WFE_NO_MEMORY: the seat has left, and the table is freed, as by wfe_leave.
 * A close takes somewhat more memory than the table has, and gives most of it back, with the table's. */
static inline uint32_t wfe_close(wfe_seat *seat);

/* The clock, and how many buckets, values and rows there are to be read. */
static inline wfe_closed_told wfe_closed(wfe_seat *seat);

/* A bucket: WFE_OK, its version `number`, which is how often it was changed, and how many keys it had, `value`. WFE_BAD_INDEX. */
static inline wfe_answer wfe_closed_bucket(wfe_seat *seat, uint32_t bucket);

/* A key of that bucket: WFE_OK, the key `number` and its `value`. They come in the order of the bucket's row. WFE_BAD_INDEX. */
static inline wfe_answer wfe_closed_pair(wfe_seat *seat, uint32_t bucket, uint32_t pair);

/* A value that was in the queue, those from the front first: WFE_OK, its number `number` and `value`. WFE_BAD_INDEX. */
static inline wfe_answer wfe_closed_queued(wfe_seat *seat, uint32_t place);

/* A row that was in use, by rising slots: WFE_OK and `slot`. In use are one row for each bucket that was changed, one for each value in
 * the queue and its dummy, and those that were retired and are not back, on the lists of the seats, of those too that have left; no
 * others. WFE_BAD_INDEX. */
static inline wfe_answer wfe_closed_used(wfe_seat *seat, uint32_t place);

/* Frees what the table held: WFE_OK. From here on the handle answers WFE_HAS_LEFT, and may be used for another table. */
static inline uint32_t wfe_end(wfe_seat *seat);

/* ---- the exports ------------------------------------------------------------------------------------------------------------- */
/* What libwfe_c.a defines: the same, but that no pointer is null. In place of a null goes a handle whose state says so, which the
 * exports test as they test each state; numbers come with how many there are; and the shortest calls answer their code with a word, a get's value or
 * an enqueue's number, or alone, and the rest at a pointer. */

typedef struct wfe_coded {
    uint32_t code;
    uint64_t word;
} wfe_coded;

typedef struct wfe_taken {
    uint64_t number;
    uint64_t value;
    uint32_t clock;
    uint32_t era;
} wfe_taken;

wfe_setting wfe_c_usual(uint32_t scheme, uint32_t threads, uint32_t keys);
uint32_t wfe_c_open(wfe_setting setting, wfe_seat *seats, size_t count);
wfe_answer wfe_c_leave(wfe_seat *seat);
wfe_answer wfe_c_adopt(wfe_seat *seat, uint32_t place);
wfe_coded wfe_c_get(wfe_seat *seat, uint64_t key, uint64_t *number);
wfe_answer wfe_c_put(wfe_seat *seat, uint64_t key, uint64_t value);
wfe_answer wfe_c_put_if(wfe_seat *seat, uint64_t key, uint64_t value, uint64_t version);
wfe_answer wfe_c_remove(wfe_seat *seat, uint64_t key);
wfe_coded wfe_c_enqueue(wfe_seat *seat, uint64_t value);
uint32_t wfe_c_dequeue(wfe_seat *seat, wfe_taken *taken);
wfe_answer wfe_c_hold(wfe_seat *seat, uint64_t key);
wfe_answer wfe_c_release(wfe_seat *seat);
wfe_answer wfe_c_copy(wfe_seat *seat, uint32_t from, uint32_t index);
wfe_answer wfe_c_look(wfe_seat *seat, uint32_t index, uint64_t key);
wfe_answer wfe_c_drop_index(wfe_seat *seat, uint32_t index);
wfe_answer wfe_c_advance(wfe_seat *seat);
wfe_answer wfe_c_scan(wfe_seat *seat);
wfe_notes_told wfe_c_notes(wfe_seat *seat);
wfe_answer wfe_c_backs(wfe_seat *seat, uint32_t *slots, size_t room);
wfe_about_told wfe_c_about(wfe_seat *seat);
wfe_answer wfe_c_seen(wfe_seat *seat, uint32_t bucket);
uint32_t wfe_c_close(wfe_seat *seat);
wfe_closed_told wfe_c_closed(wfe_seat *seat);
wfe_answer wfe_c_closed_bucket(wfe_seat *seat, uint32_t bucket);
wfe_answer wfe_c_closed_pair(wfe_seat *seat, uint32_t bucket, uint32_t pair);
wfe_answer wfe_c_closed_queued(wfe_seat *seat, uint32_t place);
wfe_answer wfe_c_closed_used(wfe_seat *seat, uint32_t place);
uint32_t wfe_c_end(wfe_seat *seat);

/* a call on the handle at the pointer, or on one that says that there is none */
#define WFE_CALL(given, call, otherwise) \
    if (given) return call;              \
    wfe_seat nobody = WFE_NOBODY;        \
    return otherwise;

static inline wfe_setting wfe_usual(enum wfe_scheme scheme, uint32_t threads, uint32_t keys) { return wfe_c_usual((uint32_t)scheme, threads, keys); }
static inline uint32_t wfe_open(wfe_setting setting, wfe_seat *seats, size_t count) {
    WFE_CALL(seats, wfe_c_open(setting, seats, count), wfe_c_open(setting, &nobody, 0))
}
static inline wfe_answer wfe_leave(wfe_seat *seat) {
    WFE_CALL(seat, wfe_c_leave(seat), wfe_c_leave(&nobody))
}
static inline wfe_answer wfe_adopt(wfe_seat *seat, uint32_t place) {
    WFE_CALL(seat, wfe_c_adopt(seat, place), wfe_c_adopt(&nobody, place))
}
static inline void wfe_move(wfe_seat *to, wfe_seat *from) {
    to->state = from->state;
    to->at = from->at;
    from->state = 0;
    from->at = 0;
}
/* these by their exports, as an answer */
static inline wfe_answer wfe_by_get(wfe_seat *seat, uint64_t key) {
    uint64_t number;
    wfe_coded told = wfe_c_get(seat, key, &number);
    wfe_answer answer = { told.code, 0, 0, 0, number, told.word };
    return answer;
}
static inline wfe_answer wfe_by_enqueue(wfe_seat *seat, uint64_t value) {
    wfe_coded told = wfe_c_enqueue(seat, value);
    wfe_answer answer = { told.code, 0, 0, 0, told.word, 0 };
    return answer;
}
static inline wfe_answer wfe_by_dequeue(wfe_seat *seat) {
    wfe_taken taken;
    uint32_t code = wfe_c_dequeue(seat, &taken);
    wfe_answer answer = { code, taken.clock, taken.era, 0, taken.number, taken.value };
    return answer;
}
static inline wfe_answer wfe_get(wfe_seat *seat, uint64_t key) {
    WFE_CALL(seat, wfe_by_get(seat, key), wfe_by_get(&nobody, key))
}
static inline wfe_answer wfe_put(wfe_seat *seat, uint64_t key, uint64_t value) {
    WFE_CALL(seat, wfe_c_put(seat, key, value), wfe_c_put(&nobody, key, value))
}
static inline wfe_answer wfe_put_if(wfe_seat *seat, uint64_t key, uint64_t value, uint64_t version) {
    WFE_CALL(seat, wfe_c_put_if(seat, key, value, version), wfe_c_put_if(&nobody, key, value, version))
}
static inline wfe_answer wfe_remove(wfe_seat *seat, uint64_t key) {
    WFE_CALL(seat, wfe_c_remove(seat, key), wfe_c_remove(&nobody, key))
}
static inline wfe_answer wfe_enqueue(wfe_seat *seat, uint64_t value) {
    WFE_CALL(seat, wfe_by_enqueue(seat, value), wfe_by_enqueue(&nobody, value))
}
static inline wfe_answer wfe_dequeue(wfe_seat *seat) {
    WFE_CALL(seat, wfe_by_dequeue(seat), wfe_by_dequeue(&nobody))
}
static inline wfe_answer wfe_hold(wfe_seat *seat, uint64_t key) {
    WFE_CALL(seat, wfe_c_hold(seat, key), wfe_c_hold(&nobody, key))
}
static inline wfe_answer wfe_release(wfe_seat *seat) {
    WFE_CALL(seat, wfe_c_release(seat), wfe_c_release(&nobody))
}
static inline wfe_answer wfe_copy(wfe_seat *seat, uint32_t from, uint32_t index) {
    WFE_CALL(seat, wfe_c_copy(seat, from, index), wfe_c_copy(&nobody, from, index))
}
static inline wfe_answer wfe_look(wfe_seat *seat, uint32_t index, uint64_t key) {
    WFE_CALL(seat, wfe_c_look(seat, index, key), wfe_c_look(&nobody, index, key))
}
static inline wfe_answer wfe_drop_index(wfe_seat *seat, uint32_t index) {
    WFE_CALL(seat, wfe_c_drop_index(seat, index), wfe_c_drop_index(&nobody, index))
}
static inline wfe_answer wfe_scan(wfe_seat *seat) {
    WFE_CALL(seat, wfe_c_scan(seat), wfe_c_scan(&nobody))
}
static inline wfe_answer wfe_advance(wfe_seat *seat) {
    WFE_CALL(seat, wfe_c_advance(seat), wfe_c_advance(&nobody))
}
static inline wfe_notes_told wfe_notes(wfe_seat *seat) {
    WFE_CALL(seat, wfe_c_notes(seat), wfe_c_notes(&nobody))
}
static inline wfe_answer wfe_backs(wfe_seat *seat, uint32_t *slots, size_t room) {
    uint32_t none, *to = slots ? slots : &none;
    size_t count = slots ? room : 0;
    WFE_CALL(seat, wfe_c_backs(seat, to, count), wfe_c_backs(&nobody, to, count))
}
static inline wfe_about_told wfe_about(wfe_seat *seat) {
    WFE_CALL(seat, wfe_c_about(seat), wfe_c_about(&nobody))
}
static inline wfe_answer wfe_seen(wfe_seat *seat, uint32_t bucket) {
    WFE_CALL(seat, wfe_c_seen(seat, bucket), wfe_c_seen(&nobody, bucket))
}

static inline uint32_t wfe_close(wfe_seat *seat) {
    WFE_CALL(seat, wfe_c_close(seat), wfe_c_close(&nobody))
}
static inline wfe_closed_told wfe_closed(wfe_seat *seat) {
    WFE_CALL(seat, wfe_c_closed(seat), wfe_c_closed(&nobody))
}
static inline wfe_answer wfe_closed_bucket(wfe_seat *seat, uint32_t bucket) {
    WFE_CALL(seat, wfe_c_closed_bucket(seat, bucket), wfe_c_closed_bucket(&nobody, bucket))
}
static inline wfe_answer wfe_closed_pair(wfe_seat *seat, uint32_t bucket, uint32_t pair) {
    WFE_CALL(seat, wfe_c_closed_pair(seat, bucket, pair), wfe_c_closed_pair(&nobody, bucket, pair))
}
static inline wfe_answer wfe_closed_queued(wfe_seat *seat, uint32_t place) {
    WFE_CALL(seat, wfe_c_closed_queued(seat, place), wfe_c_closed_queued(&nobody, place))
}
static inline wfe_answer wfe_closed_used(wfe_seat *seat, uint32_t place) {
    WFE_CALL(seat, wfe_c_closed_used(seat, place), wfe_c_closed_used(&nobody, place))
}
static inline uint32_t wfe_end(wfe_seat *seat) {
    WFE_CALL(seat, wfe_c_end(seat), wfe_c_end(&nobody))
}

static inline const char *wfe_text(uint32_t code) {
    switch (code) {
    case WFE_OK: return "it is done";
    case WFE_BAD_SEAT: return "the handle has no seat";
    case WFE_HAS_LEFT: return "the seat has left";
    case WFE_NULL: return "there is no handle";
    case WFE_BAD_INDEX: return "the table has no such index, place or bucket, or the copy does not go upwards";
    case WFE_FULL: return "no row was free";
    case WFE_BUCKET_FULL: return "the bucket had no room for another key";
    case WFE_SPENT: return "the bucket, or the queue, is at its last version";
    case WFE_STALE: return "another version was named than the bucket's";
    case WFE_ABSENT: return "the key had no value";
    case WFE_EMPTY: return "the queue was empty";
    case WFE_NOTHING: return "no row stands there";
    case WFE_NOT_LEFT: return "that seat had not left";
    case WFE_ADOPTED_BEFORE: return "that seat's list has been adopted";
    case WFE_SHORT: return "there were more slots than there was room for";
    case WFE_IN_USE: return "a handle has a seat already, or what a closed table held";
    case WFE_BAD_COUNT: return "as many handles are needed as the setting has seats";
    case WFE_NO_MEMORY: return "memory ran out";
    case WFE_BAD_SCHEME: return "there is no such scheme";
    case WFE_BAD_SEATS: return "the setting's seats must be 1 to 64";
    case WFE_BAD_INDEXES: return "the setting's indexes must be 3 to 8";
    case WFE_BAD_SLOTS: return "the setting's slots must be 2 to 65,536";
    case WFE_BAD_BUCKETS: return "the setting's buckets must be 1 to 1,024";
    case WFE_BAD_TRIES: return "the setting's tries must be 1 to 64";
    case WFE_BAD_EVERY: return "the setting's every must be 1 to 65,536";
    case WFE_BAD_LAST_ERA: return "the setting's last_era must be 1 to 4,294,967,295";
    case WFE_BAD_LAST_VERSION: return "the setting's last_version must be 1 to 281,474,976,710,656";
    case WFE_BAD_PAIRS: return "the setting's pairs must be 6 or 14";
    case WFE_NOT_LAST: return "another seat of the table has not left";
    case WFE_CLOSED: return "the table is closed";
    case WFE_NOT_CLOSED: return "the table is not closed";
    default: return "there is no such code";
    }
}

#ifdef __cplusplus
}
#endif
#endif
