// (a) Plain C on the very same words and by the same method as ours: linear find, memmove for every shift, and the
// soundness check at every call.
#include "soundness.h"

typedef u32 state;
#include "figures.h"

// A set of bits, and how many of the 2^32 mixed numbers share a bit.
enum { BITS = 32768, BITS_OF_WORD = 32, MIXED_OF_BIT = 131072 };

static u32 *header_of(state *dir) {
    return dir;
}

// The word at which a list starts; one after the last list would start after the last entry.
static usize start_of(const u32 *dir, u32 list) {
    usize entries = 0;
    for (u32 i = 0; i < list; i++) entries += dir[T1_LENGTH + i];
    return HEADER + ENTRY * entries;
}

static usize find(const u32 *entry, usize entries, u32 page) {
    for (usize i = 0; i < entries; i++)
        if (entry[ENTRY * i] == page) return i;
    return entries;
}

// Sets the bit, and says whether it was set before.
static u32 take_bit(u32 *bits, u32 bit) {
    u32 *word = &bits[bit / BITS_OF_WORD], mask = 1u << bit % BITS_OF_WORD, before = *word & mask;
    *word |= mask;
    return before;
}

// From the last entry to the first: only a page whose two bits are both taken can be among the entries behind it.
static int pages_differ(const u32 *entry, usize entries) {
    u32 bits[BITS / BITS_OF_WORD] = { 0 };
    for (usize i = entries; i-- > 0;) {
        u32 page = entry[ENTRY * i];
        u32 first = take_bit(bits, page % BITS), second = take_bit(bits, mixed(page) / MIXED_OF_BIT);
        if (!first || !second) continue;
        usize behind = entries - i - 1;
        if (find(entry + ENTRY * (i + 1), behind, page) < behind) return 0;
    }
    return 1;
}

static u32 head_page(const state *dir, u32 list) {
    return dir[start_of(dir, list)];
}

static u32 head_flags(const state *dir, u32 list) {
    return dir[start_of(dir, list) + 1];
}

// The entry at word `at` becomes the last before word `end`.
static void to_end(u32 *dir, usize at, usize end, u32 page, u32 flags) {
    memmove(dir + at, dir + at + ENTRY, (end - at - ENTRY) * sizeof *dir);
    dir[end - ENTRY] = page;
    dir[end - ENTRY + 1] = flags;
}

// An entry is put at word `at`; the last before word `end` is overwritten.
static void put_in(u32 *dir, usize at, usize end, u32 page, u32 flags) {
    memmove(dir + at + ENTRY, dir + at, (end - at - ENTRY) * sizeof *dir);
    dir[at] = page;
    dir[at + 1] = flags;
}

static void move_head(state *dir, u32 from, u32 to, u32 flags) {
    usize at = start_of(dir, from);
    // T2 stands right behind T1, so that only the border between them moves
    if (from == T2 && to == T1) dir[at + 1] = flags;
    else to_end(dir, at, start_of(dir, to + 1), dir[at], flags);
    dir[T1_LENGTH + from]--;
    dir[T1_LENGTH + to]++;
}

static void drop_head(state *dir, u32 list) {
    to_end(dir, start_of(dir, list), start_of(dir, LISTS), 0, 0);
    dir[T1_LENGTH + list]--;
}

static void place_new(state *dir, u32 page) {
    put_in(dir, start_of(dir, T2), start_of(dir, LISTS) + ENTRY, page, 0);
    dir[T1_LENGTH]++;
}

static void come_back(state *dir, struct found found, u32 to, u32 page, u32 flags) {
    put_in(dir, start_of(dir, to + 1), start_of(dir, found.list) + ENTRY * (found.place + 1), page, flags);
    dir[T1_LENGTH + to]++;
    dir[T1_LENGTH + found.list]--;
}

static void set_bit(state *dir, usize place) {
    dir[HEADER + ENTRY * place + 1] |= BIT;
}

static void renew(state *dir, usize place) {
    usize at = HEADER + ENTRY * place;
    to_end(dir, at, start_of(dir, T2), dir[at], dir[at + 1]);
}

// FIFO, CLOCK and LRU have none.
static struct found find_in_histories(const u32 *dir, u32 page) {
    struct found found = { dir[POLICY] <= CART ? B1 : LISTS, 0 };
    for (; found.list < LISTS; found.list++) {
        found.place = find(dir + start_of(dir, found.list), dir[T1_LENGTH + found.list], page);
        if (found.place < dir[T1_LENGTH + found.list]) break;
    }
    return found;
}

static void miss(u32 *dir, u32 page, u32 *answer) {
    struct counts n = { 0, 0 };
    if (dir[POLICY] == CART) {
        n.l = count_flag(dir + HEADER, dir[SIZE], LONG);
        n.s = dir[SIZE] - n.l;
    }
    evict(dir, &n, answer);
    place(dir, &n, find_in_histories(dir, page), page, answer);
}

static void serve(state *dir, u32 page, u32 *answer) {
    usize resident = dir[T1_LENGTH] + dir[T2_LENGTH], at = find(dir + HEADER, resident, page);
    memset(answer, 0, ANSWER * sizeof *answer);
    if (at < resident) {
        hit(dir, at);
        answer[KIND] = HIT;
    } else if (resident < dir[SIZE]) {
        place_new(dir, page);
        answer[KIND] = WITH_ROOM;
    } else {
        miss(dir, page, answer);
    }
}

u32 plain_fresh(u32 policy, u32 c, u32 *dir, usize n) {
    u32 number = fresh_refusal(policy, c, n);
    if (number != ACCEPTED) return number;
    memset(dir, 0, n * sizeof *dir);
    dir[POLICY] = policy;
    dir[SIZE] = c;
    return ACCEPTED;
}

u32 plain_check(const u32 *dir, usize n) {
    return refusal(dir, n, pages_differ);
}

u32 plain_request(u32 *dir, usize n, u32 page, u32 *answer) {
    u32 number = plain_check(dir, n);
    if (number == ACCEPTED) serve(dir, page, answer);
    else memset(answer, 0, ANSWER * sizeof *answer);
    return number;
}

u32 plain_run(u32 *dir, usize n, const u32 *trace, usize t, u32 *answers, usize m, u32 *tally) {
    return replay(dir, plain_check(dir, n), trace, t, answers, m, tally);
}
