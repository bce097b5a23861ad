// Zwirotek's cache directory for a program in C, such as a controller's firmware. docs/CONTROLLER.md says how to build
// the library, how much stack each call takes, and what is proved.
//
// A directory says which pages a cache of c pages holds and what its policy remembers; no page's contents are kept.
// It is a run of 8 + 4c 32-bit words of yours, REPLAY_WORDS(c) of them:
//
//     word 0            the policy, REPLAY_CAR to REPLAY_LRU
//     word 1            c, 1 to 1,024
//     words 2, 3        the targets p and q of CAR and CART
//     words 4 to 7      how many pages are in T1, T2, B1 and B2
//     from word 8 on    2c entries of two words, the page and its flags: those of T1, T2, B1 and B2, then zeros
//
// replay_fresh makes one. Then hand it to replay_request, a page at a time, or to replay_run, a trace at a time. You
// may store it, and bring it back after a restart: every call checks the words that it is lent.
//
// What you owe. Every pointer points to as many 32-bit words as the length behind it says and is not null, even where
// the length is 0. A length counts words, not bytes. What one call is lent does not overlap, and nobody else uses it
// before the call returns. That is all: whatever the words hold, the call returns, reads and writes nothing else, and
// says in its number what it found.
//
// What you keep. All memory is yours, before and after. The library keeps nothing from call to call: no heap, no
// variables of its own, no threads, no locks. Calls that are lent different memory may run at the same time. From
// outside it calls memmove and memset, nothing else.
#ifndef REPLAY_H
#define REPLAY_H

#include <stddef.h>
#include <stdint.h>

#ifdef __cplusplus
extern "C" {
#endif

enum { REPLAY_CAR = 1, REPLAY_CART, REPLAY_FIFO, REPLAY_CLOCK, REPLAY_LRU };

enum { REPLAY_MOST_SIZE = 1024, REPLAY_MOST_PAGES = 1000 };

// The words of a directory of c pages, and of the answers to a trace of n pages.
#define REPLAY_WORDS(c) (8 + 4 * (size_t)(c))
#define REPLAY_ANSWER_WORDS(n) (4 * (size_t)(n))

// The number that every function answers. Where it is not 0 the call was refused: all that was lent is as it was, and
// every other number of the answer is 0.
enum {
    REPLAY_ACCEPTED = 0,
    REPLAY_POLICY_NOT_KNOWN = 1, // none of the five
    REPLAY_SIZE_NOT_KNOWN = 2,   // c is not 1 to 1,024
    REPLAY_WRONG_LENGTH = 3,     // the directory has not 8 + 4c words
    REPLAY_NOT_SOUND = 4,        // the words are not those of a directory
    REPLAY_TOO_MANY_PAGES = 5,   // the trace has more than 1,000 pages
    REPLAY_BUFFER_TOO_SHORT = 6  // fewer than four words of answers for each page of the trace
};

// What a request came to. In a run the answers lie one behind another, four words each: kind, page, list and moves.
struct replay_answer {
    uint32_t number;
    uint32_t kind;
    uint32_t page;  // the page that was evicted, for the last three kinds
    uint32_t list;  // the list that it was in: 1 is T1, 2 is T2
    uint32_t moves; // the hand moves that this took
};

enum {
    REPLAY_HIT = 0,         // the page was in the cache
    REPLAY_WITH_ROOM = 1,   // it was not, and there was room
    REPLAY_NEW = 2,         // it was not, and a page was evicted for it
    REPLAY_FOUND_IN_B1 = 3, // the same, and the page was remembered in B1
    REPLAY_FOUND_IN_B2 = 4  // the same, in B2
};

// What a run came to. A run has at most 1,000 requests and each at most 2,049 moves, so that no number wraps.
struct replay_tally {
    uint32_t requests;
    uint32_t hits;
    uint32_t misses;
    uint32_t evictions;
    uint32_t moves;
};

struct replay_ran {
    uint32_t number;
    struct replay_tally tally;
};

// Makes the words an empty directory of c pages. They may hold anything before. Refusals: 1, 2, 3.
uint32_t replay_fresh(uint32_t policy, uint32_t c, uint32_t *directory, size_t words);

// Is this a sound directory? Changes nothing. Refusals: 3 under 8 words, then 1, 2, 3, 4.
uint32_t replay_check(const uint32_t *directory, size_t words);

// One request of a page; any number is a page. Refusals: as replay_check.
struct replay_answer replay_request(uint32_t *directory, size_t words, uint32_t page);

// The requests of a trace, in order. Words behind the last answer stay. Refusals: as replay_check, then 5, 6.
struct replay_ran replay_run(uint32_t *directory, size_t words, const uint32_t *trace, size_t pages, uint32_t *answers,
                             size_t answer_words);

#ifdef __cplusplus
}
#endif

#endif
