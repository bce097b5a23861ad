// How many bytes of stack the functions of replay.h take at c = 1,024: each is called in its worst cases on a painted
// stack of its own. Ends with 1 where one takes more than LIMIT, or answers or leaves anything but what Figures 2 and 3
// make of the directory, worked out by hand. For x86-64. What is used of the C library is declared here.
#include "replay.h"

int printf(const char *, ...);
int dprintf(int, const char *, ...);
int fflush(void *);
void *memset(void *, int, size_t);
void *memcpy(void *, const void *, size_t);
int memcmp(const void *, const void *, size_t);

enum { LIMIT = 8192, C = REPLAY_MOST_SIZE, PAGES = REPLAY_MOST_PAGES };
enum { T1, T2, B1, B2 };
enum { BIT = 1, LONG = 2 };

// Pages that are in no list before they are asked for, and the first pages of the histories where there are any.
enum { NEW = 5000, IN_B1 = 100000, IN_B2 = 200000 };

// Pages in a row in a list, all with the same flags; and a directory as its lists in order, from head to tail.
struct stretch {
    uint32_t list, first, count, flags;
};

enum { STRETCHES = 6 };
struct layout {
    uint32_t p, q;
    struct stretch stretches[STRETCHES];
};

enum operation { FRESH, CHECK, REQUEST, RUN };

// A call and what it must come to. Of a run: its first answer, all its moves, and the page that its second evicts.
struct call {
    const char *policy_name, *what;
    uint32_t policy;
    enum operation operation;
    uint32_t page;
    struct layout before, after;
    struct replay_answer answer;
    uint32_t moves, second;
};

// What is lent, with room for an answer too many, and what is answered.
struct outcome {
    uint32_t directory[REPLAY_WORDS(C)];
    uint32_t answers[REPLAY_ANSWER_WORDS(PAGES + 1)];
    uint32_t number;
    struct replay_answer answer;
    struct replay_ran ran;
};

static struct outcome given, expected;
static uint32_t trace[PAGES];
static const struct call *call;
static size_t most;
static int status;

// THE PAINTED STACK

enum { STACK = 1 << 20 };
static unsigned char stack[STACK] __attribute__((aligned(64)));

// Calls function with the stack pointer at top.
void call_on(void *top, void (*function)(void));
__asm__(".text\n"
        "call_on:\n"
        "\tpushq %rbx\n"
        "\tmovq %rsp, %rbx\n"
        "\tmovq %rdi, %rsp\n"
        "\tcallq *%rsi\n"
        "\tmovq %rbx, %rsp\n"
        "\tpopq %rbx\n"
        "\tretq\n");

// The few bytes of this function are counted with those of the call that it makes.
static void make_call(void) {
    uint32_t *d = given.directory, *a = given.answers;
    size_t n = REPLAY_WORDS(C), m = REPLAY_ANSWER_WORDS(PAGES + 1);
    switch (call->operation) {
    case FRESH: given.number = replay_fresh(call->policy, C, d, n); break;
    case CHECK: given.number = replay_check(d, n); break;
    case REQUEST: given.answer = replay_request(d, n, call->page); break;
    case RUN: given.ran = replay_run(d, n, trace, PAGES, a, m); break;
    }
}

// From the top down to the last byte that has lost its colour.
static size_t written_to(unsigned char colour) {
    memset(stack, colour, STACK);
    call_on(stack + STACK, make_call);
    size_t low = 0;
    while (low < STACK && stack[low] == colour) low++;
    return STACK - low;
}

// WHAT IS LENT, AND WHAT IT MUST COME TO

static uint32_t *lay_stretch(uint32_t *entry, struct stretch s) {
    for (uint32_t i = 0; i < s.count; i++) {
        *entry++ = s.first + i;
        *entry++ = s.flags;
    }
    return entry;
}

static void lay(uint32_t *directory, const struct layout *layout) {
    memset(directory, 0, sizeof given.directory);
    directory[0] = call->policy;
    directory[1] = C;
    directory[2] = layout->p;
    directory[3] = layout->q;
    uint32_t *entry = directory + 8;
    for (int i = 0; i < STRETCHES; i++) {
        directory[4 + layout->stretches[i].list] += layout->stretches[i].count;
        entry = lay_stretch(entry, layout->stretches[i]);
    }
}

static void lay_trace(void) {
    for (uint32_t i = 0; i < PAGES; i++) trace[i] = NEW + i;
}

static void expect_answer(size_t i, struct replay_answer a) {
    uint32_t words[] = { a.kind, a.page, a.list, a.moves };
    memcpy(expected.answers + REPLAY_ANSWER_WORDS(i), words, sizeof words);
}

// After the first request of a run no bit is set: each of the others evicts T1's head in one move.
static void expect_answers(void) {
    expect_answer(0, call->answer);
    for (uint32_t i = 1; i < PAGES; i++)
        expect_answer(i, (struct replay_answer){ 0, REPLAY_NEW, call->second + i - 1, 1, 1 });
}

static void expect_run(void) {
    expected.ran = (struct replay_ran){ call->answer.number, { 0, 0, 0, 0, 0 } };
    if (call->answer.number != REPLAY_ACCEPTED) return;
    expected.ran.tally = (struct replay_tally){ PAGES, 0, PAGES, PAGES, call->moves };
    expect_answers();
}

// Before the call there are ones wherever it may write, but for the directory.
static void prepare(void) {
    memset(&given, 0xFF, sizeof given);
    if (call->operation != FRESH) lay(given.directory, &call->before);
    expected = given;
    lay(expected.directory, &call->after);
    switch (call->operation) {
    case FRESH:
    case CHECK: expected.number = call->answer.number; break;
    case REQUEST: expected.answer = call->answer; break;
    case RUN: expect_run(); break;
    }
}

// Makes the call three times: the first binds memmove and memset, and a byte that has one colour loses the other.
static void measure(const struct call *one) {
    static const unsigned char colours[] = { 0, 0x5A, 0xA5 };
    size_t bytes = 0;
    call = one;
    for (int i = 0; i < 3; i++) {
        prepare();
        size_t n = written_to(colours[i]);
        if (i > 0 && bytes < n) bytes = n;
    }
    uint32_t moves = one->operation == RUN ? one->moves : one->answer.moves;
    printf("%-6s%-28s%5u moves%6lu bytes\n", one->policy_name, one->what, moves, bytes);
    if (most < bytes) most = bytes;
    if (memcmp(&given, &expected, sizeof given) == 0) return;
    dprintf(2, "stack: %s, %s: not what was expected\n", one->policy_name, one->what);
    status = 1;
}

// THE CALLS

// What a policy makes of c pages in T1, all with these flags: a hit on page 1, a request of a new page, and a run of
// 1,000 new pages. CAR and CART also of a page of B1, where all lists have 512 pages and all bits are set.
struct policy {
    const char *name;
    uint32_t number, flags;
    struct layout hit;
    struct replay_answer answer;
    struct layout requested, run;
    uint32_t moves, second;
    uint32_t flags_in_t2_b2;
    struct replay_answer answer_from_b1;
    struct layout from_b1;
};

static const struct policy policies[] = {
    { .name = "CAR", .number = REPLAY_CAR, .flags = BIT,
      .hit = { 0, 0, { { T1, 1, C, BIT } } },
      .answer = { 0, REPLAY_NEW, 1, 2, C + 1 },
      .requested = { 0, 0, { { T1, NEW, 1, 0 }, { T2, 2, C - 1, 0 }, { B2, 1, 1, 0 } } },
      .run = { 0, 0, { { T1, NEW + 999, 1, 0 }, { T2, 2, C - 1, 0 }, { B1, NEW, 999, 0 }, { B2, 1, 1, 0 } } },
      .moves = C + 1 + 999, .second = NEW,
      .answer_from_b1 = { 0, REPLAY_FOUND_IN_B1, 1, 2, C + 1 },
      .from_b1 = { 1, 0, { { T2, 2, C - 1, 0 }, { T2, IN_B1, 1, 0 }, { B1, IN_B1 + 1, C / 2 - 1, 0 },
                           { B2, IN_B2, C / 2, 0 }, { B2, 1, 1, 0 } } } },
    { .name = "CART", .number = REPLAY_CART, .flags = BIT,
      .hit = { 0, 0, { { T1, 1, C, BIT } } },
      .answer = { 0, REPLAY_NEW, 1, 2, 2 * C + 1 },
      .requested = { 0, C, { { T1, NEW, 1, 0 }, { T2, 2, C - 1, LONG }, { B2, 1, 1, LONG } } },
      .run = { 0, C, { { T1, NEW + 999, 1, 0 }, { T2, 2, C - 1, LONG }, { B1, NEW, 999, 0 }, { B2, 1, 1, LONG } } },
      .moves = 2 * C + 1 + 999, .second = NEW,
      .flags_in_t2_b2 = LONG,
      .answer_from_b1 = { 0, REPLAY_FOUND_IN_B1, C / 2 + 1, 2, 2 * C + 1 },
      .from_b1 = { 1, C, { { T1, IN_B1, 1, LONG }, { T2, C / 2 + 2, C / 2 - 1, LONG }, { T2, 1, C / 2, LONG },
                           { B1, IN_B1 + 1, C / 2 - 1, 0 }, { B2, IN_B2, C / 2, LONG },
                           { B2, C / 2 + 1, 1, LONG } } } },
    { .name = "FIFO", .number = REPLAY_FIFO,
      .hit = { 0, 0, { { T1, 1, C, 0 } } },
      .answer = { 0, REPLAY_NEW, 1, 1, 1 },
      .requested = { 0, 0, { { T1, 2, C - 1, 0 }, { T1, NEW, 1, 0 } } },
      .run = { 0, 0, { { T1, 1001, C - 1000, 0 }, { T1, NEW, 1000, 0 } } },
      .moves = 1000, .second = 2 },
    { .name = "CLOCK", .number = REPLAY_CLOCK, .flags = BIT,
      .hit = { 0, 0, { { T1, 1, C, BIT } } },
      .answer = { 0, REPLAY_NEW, 1, 1, C + 1 },
      .requested = { 0, 0, { { T1, 2, C - 1, 0 }, { T1, NEW, 1, 0 } } },
      .run = { 0, 0, { { T1, 1001, C - 1000, 0 }, { T1, NEW, 1000, 0 } } },
      .moves = C + 1 + 999, .second = 2 },
    { .name = "LRU", .number = REPLAY_LRU,
      .hit = { 0, 0, { { T1, 2, C - 1, 0 }, { T1, 1, 1, 0 } } },
      .answer = { 0, REPLAY_NEW, 1, 1, 1 },
      .requested = { 0, 0, { { T1, 2, C - 1, 0 }, { T1, NEW, 1, 0 } } },
      .run = { 0, 0, { { T1, 1001, C - 1000, 0 }, { T1, NEW, 1000, 0 } } },
      .moves = 1000, .second = 2 },
};

// A damaged directory: the last page of T1 is the first once more. Every operation that reads it refuses it.
static void measure_damaged(const struct policy *p) {
    struct call one = { p->name, "a check, damaged", p->number, CHECK, NEW, .answer = { .number = REPLAY_NOT_SOUND } };
    one.before = (struct layout){ 0, 0, { { T1, 1, C - 1, p->flags }, { T1, 1, 1, p->flags } } };
    one.after = one.before;
    measure(&one);
    one.what = "a request, damaged";
    one.operation = REQUEST;
    measure(&one);
    one.what = "a run, damaged";
    one.operation = RUN;
    measure(&one);
}

static void measure_from_b1(const struct policy *p) {
    struct call one = { p->name, "a request of a page of B1", p->number, REQUEST, IN_B1, .after = p->from_b1 };
    uint32_t f = p->flags_in_t2_b2;
    one.answer = p->answer_from_b1;
    one.before = (struct layout){ 0, 0, { { T1, 1, C / 2, BIT }, { T2, C / 2 + 1, C / 2, BIT | f },
                                          { B1, IN_B1, C / 2, 0 }, { B2, IN_B2, C / 2, f } } };
    measure(&one);
}

static void measure_policy(const struct policy *p) {
    struct call one = { p->name, "a fresh directory", p->number, FRESH, .page = 1 };
    measure(&one);
    one.what = "a check";
    one.operation = CHECK;
    one.before = (struct layout){ 0, 0, { { T1, 1, C, p->flags } } };
    one.after = one.before;
    measure(&one);
    one.what = "a request, a hit";
    one.operation = REQUEST;
    one.after = p->hit;
    measure(&one);
    one.what = "a request of a new page";
    one.page = NEW;
    one.answer = p->answer;
    one.after = p->requested;
    measure(&one);
    one.what = "a run of 1,000 new pages";
    one.operation = RUN;
    one.moves = p->moves;
    one.second = p->second;
    one.after = p->run;
    measure(&one);
    if (p->number == REPLAY_CAR || p->number == REPLAY_CART) measure_from_b1(p);
    measure_damaged(p);
}

int main(void) {
    lay_trace();
    for (size_t i = 0; i < sizeof policies / sizeof *policies; i++) measure_policy(&policies[i]);
    printf("at most %lu bytes, of %u\n", most, (uint32_t)LIMIT);
    if (most > LIMIT) {
        dprintf(2, "stack: more than %u bytes\n", (uint32_t)LIMIT);
        status = 1;
    }
    if (fflush(0) != 0) {
        dprintf(2, "stack: standard output cannot be written\n");
        status = 1;
    }
    return status;
}
