// (b) What a good engineer would write: a hash table from page to slot, doubly linked circular lists, a hand that
// moves in O(1), n_S and n_L kept.
#include "soundness.h"

enum { SLOTS = 2 * CMAX, BUCKETS = 4 * CMAX };
#define NONE 0xffffffffu

// Slots that were never used start at `used`; those given back are chained from `spare`.
typedef struct {
    u32 header[HEADER];
    struct counts counts;
    u32 head[LISTS], spare, used, mask;
    u32 page[SLOTS], next[SLOTS], previous[SLOTS], chain[SLOTS];
    unsigned char flags[SLOTS], list[SLOTS];
    u32 bucket[BUCKETS];
} state;
_Static_assert(sizeof(state) <= HASHED_WORDS * sizeof(u32), "HASHED_WORDS");
#include "figures.h"

static u32 *header_of(state *s) {
    return s->header;
}

// For 2c pages, twice as many buckets or more, so that chains are short.
static u32 mask_for(u32 c) {
    u32 buckets = 1;
    while (buckets < 4 * c) buckets *= 2;
    return buckets - 1;
}

static u32 hash(u32 page, u32 mask) {
    return mixed(page) >> 16 & mask;
}

static u32 look_up(const state *s, u32 page) {
    u32 slot = s->bucket[hash(page, s->mask)];
    while (slot != NONE && s->page[slot] != page) slot = s->chain[slot];
    return slot;
}

static void hash_in(state *s, u32 slot) {
    u32 *bucket = &s->bucket[hash(s->page[slot], s->mask)];
    s->chain[slot] = *bucket;
    *bucket = slot;
}

static void hash_out(state *s, u32 slot) {
    u32 *link = &s->bucket[hash(s->page[slot], s->mask)];
    while (*link != slot) link = &s->chain[*link];
    *link = s->chain[slot];
}

static void take_out(state *s, u32 slot) {
    u32 list = s->list[slot], next = s->next[slot], previous = s->previous[slot];
    s->next[previous] = next;
    s->previous[next] = previous;
    if (s->head[list] == slot) s->head[list] = next;
    s->header[T1_LENGTH + list]--;
}

static void put_at_tail(state *s, u32 list, u32 slot) {
    if (s->header[T1_LENGTH + list]++ == 0) {
        s->head[list] = s->next[slot] = s->previous[slot] = slot;
    } else {
        u32 head = s->head[list], tail = s->previous[head];
        s->next[tail] = s->previous[head] = slot;
        s->previous[slot] = tail;
        s->next[slot] = head;
    }
    s->list[slot] = list;
}

static void to_tail(state *s, u32 list, u32 slot) {
    take_out(s, slot);
    put_at_tail(s, list, slot);
}

static u32 head_page(const state *s, u32 list) {
    return s->page[s->head[list]];
}

static u32 head_flags(const state *s, u32 list) {
    return s->flags[s->head[list]];
}

static void move_head(state *s, u32 from, u32 to, u32 flags) {
    u32 slot = s->head[from];
    s->flags[slot] = flags;
    if (from == to) s->head[from] = s->next[slot];
    else to_tail(s, to, slot);
}

static void drop_head(state *s, u32 list) {
    u32 slot = s->head[list];
    take_out(s, slot);
    hash_out(s, slot);
    s->chain[slot] = s->spare;
    s->spare = slot;
}

static void add(state *s, u32 list, u32 page, u32 flags) {
    u32 slot = s->spare;
    if (slot == NONE) slot = s->used++;
    else s->spare = s->chain[slot];
    s->page[slot] = page;
    s->flags[slot] = flags;
    hash_in(s, slot);
    put_at_tail(s, list, slot);
}

static void place_new(state *s, u32 page) {
    add(s, T1, page, 0);
}

static void come_back(state *s, struct found found, u32 to, u32 page, u32 flags) {
    (void)page; // the slot has it
    to_tail(s, to, found.place);
    s->flags[found.place] = flags;
}

static void set_bit(state *s, usize place) {
    s->flags[place] |= BIT;
}

static void renew(state *s, usize place) {
    to_tail(s, T1, place);
}

static void serve(state *s, u32 page, u32 *answer) {
    u32 slot = look_up(s, page);
    struct found found = { slot == NONE ? LISTS : s->list[slot], slot };
    memset(answer, 0, ANSWER * sizeof *answer);
    if (found.list <= T2) {
        hit(s, slot);
        answer[KIND] = HIT;
    } else if (s->header[T1_LENGTH] + s->header[T2_LENGTH] < s->header[SIZE]) {
        place_new(s, page);
        s->counts.s++;
        answer[KIND] = WITH_ROOM;
    } else {
        evict(s, &s->counts, answer);
        place(s, &s->counts, found, page, answer);
    }
}

u32 hashed_fresh(u32 policy, u32 c, u32 *words, usize n) {
    state *s = (state *)words;
    u32 number = fresh_refusal(policy, c, n);
    if (number != ACCEPTED) return number;
    memset(s->header, 0, sizeof s->header);
    s->header[POLICY] = policy;
    s->header[SIZE] = c;
    s->counts = (struct counts){ 0, 0 };
    s->spare = NONE;
    s->used = 0;
    s->mask = mask_for(c);
    memset(s->bucket, 0xff, (s->mask + 1) * sizeof *s->bucket);
    return ACCEPTED;
}

// A table of places, counted from 1, with open addressing.
static int pages_differ(const u32 *entry, usize entries) {
    unsigned short table[BUCKETS];
    u32 mask = mask_for((entries + 1) / 2);
    memset(table, 0, (mask + 1) * sizeof *table);
    for (usize i = 0; i < entries; i++) {
        u32 page = entry[ENTRY * i], at = hash(page, mask);
        for (; table[at]; at = (at + 1) & mask)
            if (entry[ENTRY * (table[at] - 1u)] == page) return 0;
        table[at] = i + 1;
    }
    return 1;
}

u32 hashed_check(const u32 *dir, usize n) {
    return refusal(dir, n, pages_differ);
}

static u32 length_refusal(const state *s, usize n) {
    return n == words_of(s->header[SIZE]) ? ACCEPTED : WRONG_LENGTH;
}

u32 hashed_request(u32 *words, usize n, u32 page, u32 *answer) {
    state *s = (state *)words;
    u32 number = length_refusal(s, n);
    if (number == ACCEPTED) serve(s, page, answer);
    return number;
}

u32 hashed_run(u32 *words, usize n, const u32 *trace, usize t, u32 *answers, usize m, u32 *tally) {
    state *s = (state *)words;
    return replay(s, length_refusal(s, n), trace, t, answers, m, tally);
}

void hashed_load(u32 *words, const u32 *dir, usize n) {
    state *s = (state *)words;
    hashed_fresh(dir[POLICY], dir[SIZE], words, n);
    s->header[P] = dir[P];
    s->header[Q] = dir[Q];
    const u32 *entry = dir + HEADER;
    for (u32 list = T1; list < LISTS; list++)
        for (u32 k = 0; k < dir[T1_LENGTH + list]; k++, entry += ENTRY) add(s, list, entry[0], entry[1]);
    u32 resident = dir[T1_LENGTH] + dir[T2_LENGTH];
    s->counts.l = count_flag(dir + HEADER, resident, LONG);
    s->counts.s = resident - s->counts.l;
}

void hashed_store(const u32 *words, u32 *dir, usize n) {
    const state *s = (const state *)words;
    memset(dir, 0, n * sizeof *dir);
    memcpy(dir, s->header, sizeof s->header);
    u32 *entry = dir + HEADER;
    for (u32 list = T1; list < LISTS; list++) {
        u32 slot = s->head[list];
        for (u32 k = 0; k < s->header[T1_LENGTH + list]; k++, entry += ENTRY, slot = s->next[slot]) {
            entry[0] = s->page[slot];
            entry[1] = s->flags[slot];
        }
    }
}
