// What the parts of the benchmark share: the tables of engines, policies, traces and operations, and what is measured.
#include "engines.h"

int printf(const char *, ...);
int dprintf(int, const char *, ...);
void exit(int);
enum { STANDARD_ERROR = 2 };

enum { OURS, PLAIN, HASHED, ENGINES };

// Ours and plain keep their state in the directory's own words; load and store bring a directory in and out.
struct engine {
    const char *name;
    u32 (*fresh)(u32 policy, u32 c, u32 *state, usize n);
    u32 (*check)(const u32 *dir, usize n);
    u32 (*request)(u32 *state, usize n, u32 page, u32 *answer);
    u32 (*run)(u32 *state, usize n, const u32 *trace, usize t, u32 *answers, usize m, u32 *tally);
    void (*load)(u32 *state, const u32 *dir, usize n);
    void (*store)(const u32 *state, u32 *dir, usize n);
};
extern const struct engine engines[ENGINES];

// A warmed-up directory lists `full` times c pages.
struct policy {
    u32 number;
    const char *name;
    u32 full;
};
enum { POLICIES = 5 };
extern const struct policy policies[POLICIES];

// Pages for a cache of c pages; `dir` is the warmed-up directory, where there is one.
typedef void fill(u32 *pages, usize t, u32 c, const u32 *dir);
struct kind {
    const char *name;
    fill *warm_up, *measured;
};
enum { ALL_HITS, UNIFORM, ZIPF, KINDS };
extern const struct kind kinds[KINDS];
u32 random_below(u32 n);

// What is measured: a policy, a size, a kind of trace; the warmed-up directory of n words, and the trace from it on.
enum { RUNS = 8, PAGES = RUNS * MOST_PAGES };
struct setting {
    const struct policy *policy;
    const struct kind *kind;
    u32 c;
    usize n;
    u32 start[WORDS];
    u32 trace[PAGES];
};

// The setting, after all engines were seen to agree on it; it stays until the next call. Says so on standard error.
const struct setting *prepared(const struct policy *policy, u32 c, const struct kind *kind);
void agree_on_fresh(void);

enum { FRESH, CHECK, REQUEST, RUN, OPERATIONS };
extern const char *const operation_names[OPERATIONS];

// The least CPU time of a block of calls for each engine; for request and run, of one request.
void measure(const struct setting *s, u32 operation, double least[ENGINES]);

void print_table(void);
void draw_growth(void);
