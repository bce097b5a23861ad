// Measures one operation on all engines: in every round engine after engine, each from the same warmed-up directory;
// the least time of each counts.
#include "bench.h"

// There are rounds until so many nanoseconds are spent, but not fewer and not more than these.
enum { LEAST_ROUNDS = 3, MOST_ROUNDS = 25 };
static const double enough = 2e9;

struct time {
    long seconds, nanoseconds;
};
int clock_gettime(int clock, struct time *);
enum { CPU_TIME_OF_THIS_PROCESS = 2 };

static double now(void) {
    struct time time;
    if (clock_gettime(CPU_TIME_OF_THIS_PROCESS, &time) != 0) {
        dprintf(STANDARD_ERROR, "bench: there is no clock for CPU time\n");
        exit(1);
    }
    return time.seconds * 1e9 + time.nanoseconds;
}

const char *const operation_names[OPERATIONS] = { "fresh", "check", "request", "run" };

// So many calls of fresh and check that a block takes about as long for every c.
static u32 calls(u32 c) {
    return 64 * CMAX / c;
}

static u32 states[ENGINES][HASHED_WORDS];
static u32 answers[ANSWER * MOST_PAGES], tally[TALLY];

static void block(const struct setting *s, u32 operation, const struct engine *engine, u32 *state) {
    switch (operation) {
    case FRESH:
        for (u32 k = 0; k < calls(s->c); k++) engine->fresh(s->policy->number, s->c, state, s->n);
        break;
    case CHECK:
        for (u32 k = 0; k < calls(s->c); k++) engine->check(s->start, s->n);
        break;
    case REQUEST:
        for (u32 k = 0; k < MOST_PAGES; k++) engine->request(state, s->n, s->trace[k], answers);
        break;
    case RUN:
        for (u32 k = 0; k < PAGES; k += MOST_PAGES)
            engine->run(state, s->n, s->trace + k, MOST_PAGES, answers, ANSWER * MOST_PAGES, tally);
    }
}

static double time_of_block(const struct setting *s, u32 operation, u32 e) {
    engines[e].load(states[e], s->start, s->n);
    double begun = now();
    block(s, operation, &engines[e], states[e]);
    return now() - begun;
}

void measure(const struct setting *s, u32 operation, double least[ENGINES]) {
    u32 served = operation == RUN ? PAGES : operation == REQUEST ? MOST_PAGES : 1;
    double begun = now();
    for (u32 round = 0; round < MOST_ROUNDS && (round < LEAST_ROUNDS || now() - begun < enough); round++)
        for (u32 e = 0; e < ENGINES; e++) {
            double time = time_of_block(s, operation, e) / served;
            if (round == 0 || time < least[e]) least[e] = time;
        }
}
