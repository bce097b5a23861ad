// Sees that all engines agree, before anything is measured: numbers, answers, tallies and words, on sound directories
// and on damaged ones. A difference ends the program.
#include "bench.h"

enum { WARM_UP = 32, DAMAGES = 100 };

static struct setting setting;
static u32 states[ENGINES][HASHED_WORDS];
static u32 words[ENGINES][WORDS + 1];
static u32 answers[ENGINES][ANSWER * MOST_PAGES];
static u32 tallies[ENGINES][TALLY];
static u32 numbers[ENGINES];

static void must(int good, const char *what) {
    if (good) return;
    dprintf(STANDARD_ERROR, "bench: %s c=%u %s: %s\n", setting.policy->name, setting.c, setting.kind->name, what);
    exit(1);
}

// The engine gave the number, the answers and the tally that ours gave, and left the same words.
static int agrees(u32 e, usize n, usize answer_words) {
    engines[e].store(states[e], words[e], n);
    return numbers[e] == numbers[OURS] && memcmp(words[e], words[OURS], n * sizeof(u32)) == 0 &&
           memcmp(answers[e], answers[OURS], answer_words * sizeof(u32)) == 0 &&
           memcmp(tallies[e], tallies[OURS], sizeof tallies[e]) == 0;
}

static void must_agree(u32 last, usize n, usize answer_words, const char *what) {
    for (u32 e = OURS; e <= last; e++) {
        if (agrees(e, n, answer_words)) continue;
        dprintf(STANDARD_ERROR, "bench: %s differs from %s\n", engines[e].name, engines[OURS].name);
        must(0, what);
    }
}

static void load_all(const u32 *dir) {
    for (u32 e = 0; e < ENGINES; e++) engines[e].load(states[e], dir, setting.n);
}

static void agree_on_run(const u32 *trace, usize t) {
    for (u32 e = 0; e < ENGINES; e++)
        numbers[e] = engines[e].run(states[e], setting.n, trace, t, answers[e], ANSWER * t, tallies[e]);
    must(numbers[OURS] == ACCEPTED, "a run is refused");
    must_agree(HASHED, setting.n, ANSWER * t, "the engines differ in a run");
}

static void agree_on_request(u32 page) {
    for (u32 e = 0; e < ENGINES; e++) numbers[e] = engines[e].request(states[e], setting.n, page, answers[e]);
    must(numbers[OURS] == ACCEPTED, "a request is refused");
    must_agree(HASHED, setting.n, ANSWER, "the engines differ in a request");
}

static u32 agree_on_check(const u32 *dir, usize n) {
    for (u32 e = 0; e < ENGINES; e++) {
        numbers[e] = engines[e].check(dir, n);
        must(numbers[e] == numbers[OURS], "the engines differ in a check");
    }
    return numbers[OURS];
}

// Words that may be damaged: ours and plain say the same in a request and a run, and leave refused words alone.
static void agree_on_lent(const u32 *dir, usize n, u32 page) {
    u32 number = agree_on_check(dir, n);
    for (u32 e = OURS; e <= PLAIN; e++) {
        engines[e].load(states[e], dir, n);
        numbers[e] = engines[e].request(states[e], n, page, answers[e]);
    }
    must_agree(PLAIN, n, ANSWER, "the engines differ in a request of damaged words");
    must(number == ACCEPTED || memcmp(words[OURS], dir, n * sizeof *dir) == 0, "a refused request leaves other words");
    for (u32 e = OURS; e <= PLAIN; e++)
        numbers[e] = engines[e].run(states[e], n, &page, 1, answers[e], ANSWER, tallies[e]);
    must_agree(PLAIN, n, ANSWER, "the engines differ in a run of damaged words");
}

static u32 any_entry(void) {
    return HEADER + ENTRY * random_below(2 * setting.c);
}

// One word becomes another: a word of the header, by one or to about a limit (0, c, 2c); a page, that of another
// entry; any flags.
static void damage(u32 *dir) {
    switch (random_below(4)) {
    case 0:
        dir[random_below(HEADER)] += random_below(3) - 1;
        break;
    case 1:
        dir[random_below(HEADER)] = random_below(3) * setting.c + random_below(3) - 1;
        break;
    case 2:
        dir[any_entry()] = dir[any_entry()];
        break;
    default:
        dir[any_entry() + 1] = random_below(MOST_FLAGS + 2);
    }
}

static void agree_on_damaged(void) {
    static u32 dir[WORDS + 1];
    for (u32 k = 0; k < DAMAGES; k++) {
        memcpy(dir, setting.start, sizeof setting.start);
        damage(dir);
        agree_on_lent(dir, setting.n, setting.trace[k]);
    }
    for (u32 list = T1; list < B2; list++) { // its tail becomes the next list's head
        memcpy(dir, setting.start, sizeof setting.start);
        dir[T1_LENGTH + list]--;
        dir[T1_LENGTH + list + 1]++;
        agree_on_lent(dir, setting.n, 0);
    }
    memcpy(dir, setting.start, sizeof setting.start);
    for (usize n = 0; n <= HEADER; n++) agree_on_lent(dir, n, 0);
    agree_on_lent(dir, setting.n - 1, 0);
    agree_on_lent(dir, setting.n + 1, 0);
}

// From a fresh directory: the warmed-up one is what all engines agree on.
static void warm_up(void) {
    static u32 pages[WARM_UP * CMAX];
    usize t = WARM_UP * setting.c;
    setting.kind->warm_up(pages, t, setting.c, 0);
    for (u32 e = 0; e < ENGINES; e++) engines[e].fresh(setting.policy->number, setting.c, states[e], setting.n);
    for (usize i = 0; i < t; i += MOST_PAGES) agree_on_run(pages + i, t - i < MOST_PAGES ? t - i : MOST_PAGES);
    memcpy(setting.start, words[OURS], setting.n * sizeof(u32));
    u32 listed = 0;
    for (u32 list = T1; list < LISTS; list++) listed += setting.start[T1_LENGTH + list];
    must(listed == setting.policy->full * setting.c, "the warmed-up directory is not full");
    must(agree_on_check(setting.start, setting.n) == ACCEPTED, "the warmed-up directory is refused");
}

const struct setting *prepared(const struct policy *policy, u32 c, const struct kind *kind) {
    setting.policy = policy;
    setting.kind = kind;
    setting.c = c;
    setting.n = words_of(c);
    dprintf(STANDARD_ERROR, "bench: %s c=%u %s\n", policy->name, c, kind->name);
    warm_up();
    kind->measured(setting.trace, PAGES, c, setting.start);
    load_all(setting.start);
    for (u32 k = 0; k < RUNS; k++) agree_on_run(setting.trace + MOST_PAGES * k, MOST_PAGES);
    load_all(setting.start);
    for (u32 k = 0; k < MOST_PAGES; k++) agree_on_request(setting.trace[k]);
    agree_on_damaged();
    return &setting;
}

static void agree_on_one_fresh(u32 policy, u32 c, usize n) {
    for (u32 e = 0; e < ENGINES; e++) {
        memset(states[e], 0xff, sizeof states[e]);
        numbers[e] = engines[e].fresh(policy, c, states[e], n);
        if (numbers[e] == ACCEPTED) engines[e].store(states[e], words[e], n);
        if (numbers[e] == numbers[OURS] && memcmp(words[e], words[OURS], sizeof words[e]) == 0) continue;
        dprintf(STANDARD_ERROR, "bench: the engines differ in fresh(%u, %u) of %lu words\n", policy, c, n);
        exit(1);
    }
}

void agree_on_fresh(void) {
    for (u32 policy = 0; policy <= policies[POLICIES - 1].number + 1; policy++)
        for (u32 c = 0; c <= CMAX + 1; c++)
            for (usize n = words_of(c) - 1; n <= words_of(c) + 1; n++) agree_on_one_fresh(policy, c, n);
}
