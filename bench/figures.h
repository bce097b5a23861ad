// CAR and CART by Figures 2 and 3 of the paper, and FIFO, CLOCK and LRU, once for both C engines. An engine defines
// `state`, whose first words are a directory's header, includes this, and defines the functions that are declared here.
#include "engines.h"

// Where a page was found: its list (LISTS for none) and its place, which is the engine's own.
struct found {
    u32 list;
    usize place;
};

static u32 *header_of(state *s);
static u32 head_page(const state *s, u32 list);
static u32 head_flags(const state *s, u32 list);
static void move_head(state *s, u32 from, u32 to, u32 flags);
static void drop_head(state *s, u32 list);
static void place_new(state *s, u32 page);
static void come_back(state *s, struct found found, u32 to, u32 page, u32 flags);
static void set_bit(state *s, usize place);
static void renew(state *s, usize place);
static void serve(state *s, u32 page, u32 *answer);

static u32 least(u32 a, u32 b) {
    return a < b ? a : b;
}

static u32 greatest(u32 a, u32 b) {
    return a < b ? b : a;
}

// A difference below zero is never wrapped.
static u32 less(u32 a, u32 b) {
    return a < b ? 0 : a - b;
}

static u32 chosen_clock(const u32 *header) {
    return header[T1_LENGTH] >= greatest(1, header[P]) ? T1 : T2;
}

static void tell_evicted(const state *s, u32 list, u32 moves, u32 *answer) {
    answer[EVICTED] = head_page(s, list);
    answer[LIST] = list + 1;
    answer[MOVES] = moves;
}

static void demote(state *s, u32 list, u32 moves, u32 *answer) {
    tell_evicted(s, list, moves, answer);
    move_head(s, list, list + 2, head_flags(s, list));
}

static void car_evict(state *s, u32 *answer) {
    u32 moves = 1, list = chosen_clock(header_of(s));
    for (; head_flags(s, list) & BIT; moves++) {
        move_head(s, list, T2, 0);
        list = chosen_clock(header_of(s));
    }
    demote(s, list, moves, answer);
}

static void raise_q(u32 *header, const struct counts *n) {
    if (header[T2_LENGTH] + header[B2_LENGTH] + header[T1_LENGTH] - n->s >= header[SIZE])
        header[Q] = least(header[Q] + 1, 2 * header[SIZE] - header[T1_LENGTH]);
}

// CART: T1's head, which is L or has bit 1, makes one hand move.
static void turn_t1(state *s, struct counts *n) {
    u32 *header = header_of(s), flags = head_flags(s, T1);
    if (flags & BIT) {
        if (flags == BIT && header[T1_LENGTH] >= least(header[P] + 1, header[B1_LENGTH])) {
            n->s--;
            n->l++;
            flags |= LONG;
        }
        move_head(s, T1, T1, flags - BIT);
    } else {
        move_head(s, T1, T2, flags);
        header[Q] = greatest(less(header[Q], 1), header[SIZE] - header[T1_LENGTH]);
    }
}

static void cart_evict(state *s, struct counts *n, u32 *answer) {
    u32 *header = header_of(s), moves = 1;
    for (; header[T2_LENGTH] && head_flags(s, T2) & BIT; moves++) {
        move_head(s, T2, T1, LONG);
        raise_q(header, n);
    }
    for (; header[T1_LENGTH] && head_flags(s, T1); moves++) turn_t1(s, n);
    u32 list = chosen_clock(header);
    demote(s, list, moves, answer);
    if (list == T1) n->s--;
    else n->l--;
}

// The target p, when the page is found in a history; the page itself still counts in the quotient.
static void adapt_p(u32 *header, u32 history, u32 dividend) {
    u32 step = greatest(1, dividend / header[T1_LENGTH + history]);
    header[P] = history == B1 ? least(header[P] + step, header[SIZE]) : less(header[P], step);
}

static void car_trim(state *s) {
    const u32 *header = header_of(s);
    u32 t1_and_b1 = header[T1_LENGTH] + header[B1_LENGTH], t2_and_b2 = header[T2_LENGTH] + header[B2_LENGTH];
    if (t1_and_b1 == header[SIZE]) drop_head(s, B1);
    else if (t1_and_b1 + t2_and_b2 == 2 * header[SIZE]) drop_head(s, B2);
}

static void car_place(state *s, struct found found, u32 page) {
    u32 *header = header_of(s);
    if (found.list == LISTS) {
        car_trim(s);
        place_new(s, page);
    } else {
        adapt_p(header, found.list, header[found.list == B1 ? B2_LENGTH : B1_LENGTH]);
        come_back(s, found, T2, page, 0);
    }
}

static void cart_trim(state *s) {
    const u32 *header = header_of(s);
    if (header[B1_LENGTH] + header[B2_LENGTH] == header[SIZE] + 1)
        drop_head(s, header[B1_LENGTH] > header[Q] || header[B2_LENGTH] == 0 ? B1 : B2);
}

static void cart_place(state *s, struct counts *n, struct found found, u32 page) {
    u32 *header = header_of(s);
    if (found.list == LISTS) {
        cart_trim(s);
        place_new(s, page);
        n->s++;
    } else {
        adapt_p(header, found.list, found.list == B1 ? n->s : n->l);
        come_back(s, found, T1, page, LONG);
        if (found.list == B2) raise_q(header, n);
        n->l++;
    }
}

// FIFO, CLOCK and LRU have T1 alone, and what they evict is forgotten. Where no bit is set, as under FIFO and LRU,
// CLOCK's hand stops at once.
static void classic_evict(state *s, u32 *answer) {
    u32 moves = 1;
    for (; head_flags(s, T1) & BIT; moves++) move_head(s, T1, T1, 0);
    tell_evicted(s, T1, moves, answer);
    drop_head(s, T1);
}

// FIFO ignores a hit; LRU's page goes to T1's tail.
static void hit(state *s, usize place) {
    u32 policy = header_of(s)[POLICY];
    if (policy == LRU) renew(s, place);
    else if (policy != FIFO) set_bit(s, place);
}

static void evict(state *s, struct counts *n, u32 *answer) {
    u32 policy = header_of(s)[POLICY];
    if (policy == CAR) car_evict(s, answer);
    else if (policy == CART) cart_evict(s, n, answer);
    else classic_evict(s, answer);
}

static void place(state *s, struct counts *n, struct found found, u32 page, u32 *answer) {
    u32 policy = header_of(s)[POLICY];
    if (policy == CAR) car_place(s, found, page);
    else if (policy == CART) cart_place(s, n, found, page);
    else place_new(s, page);
    answer[KIND] = found.list == B1 ? FOUND_IN_B1 : found.list == B2 ? FOUND_IN_B2 : NEW_PAGE;
}

static void note(u32 *tally, const u32 *answer) {
    tally[REQUESTS]++;
    tally[HITS] += answer[KIND] == HIT;
    tally[MISSES] += answer[KIND] != HIT;
    tally[EVICTIONS] += answer[KIND] >= NEW_PAGE;
    tally[ALL_MOVES] += answer[MOVES];
}

// A run, where the directory has been given that number: refusals 5 and 6 come after the directory's own.
static u32 replay(state *s, u32 number, const u32 *trace, usize t, u32 *answers, usize m, u32 *tally) {
    memset(tally, 0, TALLY * sizeof *tally);
    if (number != ACCEPTED) return number;
    if (t > MOST_PAGES) return TOO_MANY_PAGES;
    if (m < ANSWER * t) return BUFFER_TOO_SHORT;
    for (usize i = 0; i < t; i++) {
        serve(s, trace[i], answers + ANSWER * i);
        note(tally, answers + ANSWER * i);
    }
    return ACCEPTED;
}
