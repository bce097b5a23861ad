// The soundness check of document 01, for both C engines: only how they see that all pages differ is their own.
#include "engines.h"

// Neighbouring pages fall far apart in the upper bits.
static inline u32 mixed(u32 page) {
    return page * 2654435769u;
}

static inline int known_policy(u32 policy) {
    return CAR <= policy && policy <= LRU;
}

static inline int known_size(u32 c) {
    return 1 <= c && c <= CMAX;
}

static inline u32 fresh_refusal(u32 policy, u32 c, usize n) {
    if (!known_policy(policy)) return POLICY_NOT_KNOWN;
    if (!known_size(c)) return SIZE_NOT_KNOWN;
    return n == words_of(c) ? ACCEPTED : WRONG_LENGTH;
}

// Of so many entries from this one on, those with the flag.
static inline u32 count_flag(const u32 *entry, usize entries, u32 flag) {
    u32 sum = 0;
    for (usize i = 0; i < entries; i++) sum += (entry[ENTRY * i + 1] & flag) != 0;
    return sum;
}

static inline int lengths_sound(const u32 *dir) {
    u64 c = dir[SIZE], resident = (u64)dir[T1_LENGTH] + dir[T2_LENGTH], past = (u64)dir[B1_LENGTH] + dir[B2_LENGTH];
    return resident <= c && past <= c && (resident == c || past == 0);
}

static inline int flags_in_range(const u32 *entry, usize entries) {
    for (usize i = 0; i < entries; i++)
        if (entry[ENTRY * i + 1] > MOST_FLAGS) return 0;
    return 1;
}

static inline int all_zero(const u32 *from, const u32 *end) {
    for (; from < end; from++)
        if (*from) return 0;
    return 1;
}

static inline int car_sound(const u32 *dir, usize listed) {
    return dir[Q] == 0 && count_flag(dir + HEADER, listed, LONG) == 0 && dir[T1_LENGTH] + dir[B1_LENGTH] <= dir[SIZE];
}

static inline int cart_sound(const u32 *dir) {
    const u32 *t2 = dir + HEADER + ENTRY * dir[T1_LENGTH];
    const u32 *b1 = t2 + ENTRY * dir[T2_LENGTH];
    const u32 *b2 = b1 + ENTRY * dir[B1_LENGTH];
    return dir[Q] <= 2 * dir[SIZE] && count_flag(t2, dir[T2_LENGTH], LONG) == dir[T2_LENGTH] &&
           count_flag(b1, dir[B1_LENGTH], LONG) == 0 && count_flag(b2, dir[B2_LENGTH], LONG) == dir[B2_LENGTH];
}

// FIFO, CLOCK and LRU.
static inline int classic_sound(const u32 *dir, usize listed) {
    return dir[P] == 0 && dir[Q] == 0 && dir[T1_LENGTH] == listed && count_flag(dir + HEADER, listed, LONG) == 0 &&
           (dir[POLICY] == CLOCK || count_flag(dir + HEADER, listed, BIT) == 0);
}

static inline int is_sound(const u32 *dir, usize n, int (*pages_differ)(const u32 *entry, usize entries)) {
    if (dir[P] > dir[SIZE] || !lengths_sound(dir)) return 0;
    usize resident = dir[T1_LENGTH] + dir[T2_LENGTH], past = dir[B1_LENGTH] + dir[B2_LENGTH], listed = resident + past;
    if (!flags_in_range(dir + HEADER, listed)) return 0;
    if (!all_zero(dir + HEADER + ENTRY * listed, dir + n)) return 0;
    if (!pages_differ(dir + HEADER, listed)) return 0;
    if (count_flag(dir + HEADER + ENTRY * resident, past, BIT)) return 0;
    if (dir[POLICY] == CAR) return car_sound(dir, listed);
    return dir[POLICY] == CART ? cart_sound(dir) : classic_sound(dir, listed);
}

static inline u32 refusal(const u32 *dir, usize n, int (*pages_differ)(const u32 *entry, usize entries)) {
    if (n < HEADER) return WRONG_LENGTH;
    u32 number = fresh_refusal(dir[POLICY], dir[SIZE], n);
    if (number != ACCEPTED) return number;
    return is_sound(dir, n, pages_differ) ? ACCEPTED : NOT_SOUND;
}
