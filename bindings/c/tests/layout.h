/* The form of what is passed, which the exports' structs have too. */
#include "wfe.h"
#ifdef __cplusplus
#define HAS(what) static_assert(what, #what)
#else
#define HAS(what) _Static_assert(what, #what)
#endif
HAS(sizeof(void *) == 8);
HAS(sizeof(wfe_seat) == 128 && offsetof(wfe_seat, state) == 56 && offsetof(wfe_seat, at) == 64);
HAS(sizeof(wfe_setting) == 48 && offsetof(wfe_setting, last_version) == 32 && offsetof(wfe_setting, pairs) == 40);
HAS(sizeof(wfe_answer) == 32 && offsetof(wfe_answer, slot) == 12 && offsetof(wfe_answer, number) == 16 && offsetof(wfe_answer, value) == 24);
HAS(sizeof(wfe_coded) == 16 && offsetof(wfe_coded, word) == 8);
HAS(sizeof(wfe_taken) == 24 && offsetof(wfe_taken, value) == 8 && offsetof(wfe_taken, clock) == 16 && offsetof(wfe_taken, era) == 20);
HAS(sizeof(wfe_notes_told) == 40 && offsetof(wfe_notes_told, early) == 16 && offsetof(wfe_notes_told, backs) == 24 && offsetof(wfe_notes_told, steps) == 32);
HAS(sizeof(wfe_about_told) == 64 && offsetof(wfe_about_told, listed) == 8 && offsetof(wfe_about_told, setting) == 16);
HAS(sizeof(wfe_closed_told) == 32 && offsetof(wfe_closed_told, clock) == 4 && offsetof(wfe_closed_told, buckets) == 8 && offsetof(wfe_closed_told, queued) == 16 && offsetof(wfe_closed_told, used) == 24);
