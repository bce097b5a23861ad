// What each engine offers, and the numbers of document 01. Ours is Zwirotek's library, over c/replay.h; plain and
// hashed are C.
// No C library headers for x86-64 are at hand, so what is used of the C library is declared where it is used.
#ifndef ENGINES_H
#define ENGINES_H

#include "../c/replay.h"

typedef unsigned int u32;
typedef unsigned long u64;
typedef unsigned long usize;
void *memmove(void *, const void *, usize);
void *memcpy(void *, const void *, usize);
void *memset(void *, int, usize);
int memcmp(const void *, const void *, usize);

enum { CAR = 1, CART, FIFO, CLOCK, LRU };
enum { CMAX = 1024, MOST_PAGES = 1000 };

// A directory: the header, then 2c entries of two words, page and flags.
enum { POLICY, SIZE, P, Q, T1_LENGTH, T2_LENGTH, B1_LENGTH, B2_LENGTH, HEADER };
enum { ENTRY = 2, WORDS = HEADER + 2 * CMAX * ENTRY };
enum { BIT = 1, LONG = 2, MOST_FLAGS = 3 };

// The lists in their order: list i has its length at T1_LENGTH + i, and list i + 2 is its history.
enum { T1, T2, B1, B2, LISTS };

// An answer's words, its kinds, and a tally's words.
enum { KIND, EVICTED, LIST, MOVES, ANSWER };
enum { HIT, WITH_ROOM, NEW_PAGE, FOUND_IN_B1, FOUND_IN_B2 };
enum { REQUESTS, HITS, MISSES, EVICTIONS, ALL_MOVES, TALLY };

enum { ACCEPTED, POLICY_NOT_KNOWN, SIZE_NOT_KNOWN, WRONG_LENGTH, NOT_SOUND, TOO_MANY_PAGES, BUFFER_TOO_SHORT };

// n_S and n_L, the S and the L pages in T1 and T2.
struct counts {
    u32 s, l;
};

static inline usize words_of(u32 c) {
    return HEADER + 2 * ENTRY * (usize)c;
}

// (r) ours, answers and tallies as words; fresh and check are those of replay.h
u32 ours_request(u32 *dir, usize n, u32 page, u32 *answer);
u32 ours_run(u32 *dir, usize n, const u32 *trace, usize t, u32 *answers, usize m, u32 *tally);

// (a) plain C on the same words
u32 plain_fresh(u32 policy, u32 c, u32 *dir, usize n);
u32 plain_check(const u32 *dir, usize n);
u32 plain_request(u32 *dir, usize n, u32 page, u32 *answer);
u32 plain_run(u32 *dir, usize n, const u32 *trace, usize t, u32 *answers, usize m, u32 *tally);

// (b) C with a hash table and linked clocks. Its state is its own, in HASHED_WORDS words, and so is not checked;
// n is the length of the directory that it stands for, and hashed_check is given that directory.
enum { HASHED_WORDS = 16 * 1024 };
u32 hashed_fresh(u32 policy, u32 c, u32 *state, usize n);
u32 hashed_check(const u32 *dir, usize n);
u32 hashed_request(u32 *state, usize n, u32 page, u32 *answer);
u32 hashed_run(u32 *state, usize n, const u32 *trace, usize t, u32 *answers, usize m, u32 *tally);
void hashed_load(u32 *state, const u32 *dir, usize n);
void hashed_store(const u32 *state, u32 *dir, usize n);

#endif
