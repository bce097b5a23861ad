// The three kinds of trace. All come from one fixed seed, so that every run of the benchmark serves the same pages.
#include "bench.h"

static u64 seed = 88172645463325252ul;

static u32 random_word(void) {
    seed ^= seed << 13;
    seed ^= seed >> 7;
    seed ^= seed << 17;
    return seed >> 32;
}

u32 random_below(u32 n) {
    return (u64)random_word() * n >> 32;
}

static void resident_pages(u32 *pages, usize t, u32 c, const u32 *dir) {
    for (usize i = 0; i < t; i++) pages[i] = dir[HEADER + ENTRY * random_below(c)];
}

static void uniform_pages(u32 *pages, usize t, u32 c, const u32 *dir) {
    (void)dir;
    for (usize i = 0; i < t; i++) pages[i] = random_below(4 * c);
}

// Page numbers as on a large disk: popular pages are not neighbours. Two ranks never have the same page.
static u32 spread(u32 rank) {
    rank = (rank ^ rank >> 16) * 0x85ebca6bu;
    rank = (rank ^ rank >> 13) * 0xc2b2ae35u;
    return rank ^ rank >> 16;
}

// The first rank whose running sum of weights reaches the mark.
static u32 rank_at(const double *sums, u32 ranks, double mark) {
    u32 low = 0, high = ranks - 1;
    while (low < high) {
        u32 middle = (low + high) / 2;
        if (sums[middle] < mark) low = middle + 1;
        else high = middle;
    }
    return low;
}

// Of c requests, the first quarter is a scan of neighbouring pages, the rest by Zipf's law over 8c pages.
static void zipf_pages(u32 *pages, usize t, u32 c, const u32 *dir) {
    static double sums[8 * CMAX];
    u32 ranks = 8 * c;
    double sum = 0;
    (void)dir;
    for (u32 i = 0; i < ranks; i++) sums[i] = sum += 1.0 / (i + 1);
    for (usize i = 0; i < t; i++) {
        if (i % c == 0) pages[i] = random_word();
        else if (i % c < c / 4) pages[i] = pages[i - 1] + 1;
        else pages[i] = spread(rank_at(sums, ranks, random_word() / 4294967296.0 * sum));
    }
}

const struct kind kinds[KINDS] = {
    [ALL_HITS] = { "all hits", uniform_pages, resident_pages },
    [UNIFORM] = { "uniform", uniform_pages, uniform_pages },
    [ZIPF] = { "Zipf", zipf_pages, zipf_pages },
};
