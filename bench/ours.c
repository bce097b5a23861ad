// Ours: what replay.h answers by structs, as the words that the engines are compared by.
#include "engines.h"

u32 ours_request(u32 *dir, usize n, u32 page, u32 *answer) {
    struct replay_answer a = replay_request(dir, n, page);
    answer[KIND] = a.kind;
    answer[EVICTED] = a.page;
    answer[LIST] = a.list;
    answer[MOVES] = a.moves;
    return a.number;
}

u32 ours_run(u32 *dir, usize n, const u32 *trace, usize t, u32 *answers, usize m, u32 *tally) {
    struct replay_ran r = replay_run(dir, n, trace, t, answers, m);
    tally[REQUESTS] = r.tally.requests;
    tally[HITS] = r.tally.hits;
    tally[MISSES] = r.tally.misses;
    tally[EVICTIONS] = r.tally.evictions;
    tally[ALL_MOVES] = r.tally.moves;
    return r.number;
}
