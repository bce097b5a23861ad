// Measures all settings, and prints how long ours takes beside plain and beside hashed: ratios only.
#include "bench.h"

static const u32 sizes[] = { 16, 128, 1024 };
enum { SIZES = sizeof sizes / sizeof *sizes };

static double times[POLICIES][SIZES][KINDS][OPERATIONS][ENGINES];

// Fresh does not depend on the trace: it is measured with the first kind alone.
static void measure_setting(u32 policy, u32 size, u32 kind) {
    const struct setting *s = prepared(&policies[policy], sizes[size], &kinds[kind]);
    for (u32 operation = kind == 0 ? FRESH : CHECK; operation < OPERATIONS; operation++)
        measure(s, operation, times[policy][size][kind][operation]);
}

static void print_heading(const char *trace, u32 first, u32 last) {
    printf("\n%-6s %5s  %-8s", "", "", "");
    for (u32 operation = first; operation <= last; operation++) printf("  %17s", operation_names[operation]);
    printf("\n%-6s %5s  %-8s", "policy", "c", trace);
    for (u32 operation = first; operation <= last; operation++) printf("  %7s %9s", "r/a", "r/b");
    printf("\n");
}

static void print_row(u32 policy, u32 size, u32 kind, const char *trace, u32 first, u32 last) {
    printf("%-6s %5u  %-8s", policies[policy].name, sizes[size], trace);
    for (u32 operation = first; operation <= last; operation++) {
        const double *each = times[policy][size][kind][operation];
        printf("  %7.2f %9.2f", each[OURS] / each[PLAIN], each[OURS] / each[HASHED]);
    }
    printf("\n");
}

// Rows of all policies and sizes, with so many kinds of trace.
static void print_rows(u32 traces, u32 first, u32 last) {
    print_heading(traces > 1 ? "trace" : "", first, last);
    for (u32 policy = 0; policy < POLICIES; policy++)
        for (u32 size = 0; size < SIZES; size++)
            for (u32 kind = 0; kind < traces; kind++)
                print_row(policy, size, kind, traces > 1 ? kinds[kind].name : "", first, last);
}

void print_table(void) {
    for (u32 policy = 0; policy < POLICIES; policy++)
        for (u32 size = 0; size < SIZES; size++)
            for (u32 kind = 0; kind < KINDS; kind++) measure_setting(policy, size, kind);
    printf("CPU time of Zwirotek's library beside C: 1.00 is as fast, 2.00 takes twice as long.\n"
           "r  Zwirotek, proved, in Rattle\n"
           "a  plain C on the same words by the same method\n"
           "b  C with a hash table and linked clocks, on a state of its own that it need not check\n");
    print_rows(KINDS, CHECK, RUN);
    print_rows(1, FRESH, FRESH);
}
