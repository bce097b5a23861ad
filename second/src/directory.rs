// The directory: its 8 + 4c words taken apart into the four lists T1, T2, B1, B2 and put together again,
// the fresh directory, and the soundness check with its refusals in their order.

use crate::policy::{keeps_bits, known, CAR, CART};

pub const LARGEST_C: u32 = 1024;
pub const HEADER: usize = 8;

/// One entry: a page, its reference bit and its filter ("L" is long, "S" is not).
#[derive(Clone, Debug, PartialEq, Eq)]
pub struct Entry {
    pub page: u32,
    pub referenced: bool,
    pub long: bool,
}

/// The directory's contents. Numbers are signed, so a difference below zero is below zero.
#[derive(Clone, Debug, PartialEq, Eq)]
pub struct Directory {
    pub policy: u32,
    pub c: i64,
    pub p: i64,
    pub q: i64,
    pub t1: Vec<Entry>,
    pub t2: Vec<Entry>,
    pub b1: Vec<Entry>,
    pub b2: Vec<Entry>,
}

pub fn size(list: &[Entry]) -> i64 {
    list.len() as i64
}

pub fn holds(list: &[Entry], page: u32) -> bool {
    list.iter().any(|entry| entry.page == page)
}

/// Words of a directory for c pages.
pub fn words_for(c: u32) -> usize {
    HEADER + 4 * c as usize
}

/// Fresh directory: 1, 2, 3; else zeros everywhere but words 0 and 1.
pub fn fresh(policy: u32, c: u32, dir: &mut [u32]) -> u32 {
    if !known(policy) {
        return 1;
    }
    if !(1..=LARGEST_C).contains(&c) {
        return 2;
    }
    if dir.len() != words_for(c) {
        return 3;
    }
    dir.fill(0);
    dir[0] = policy;
    dir[1] = c;
    0
}

/// Soundness check: under 8 words 3, then 1, 2, length 3, then 4; 0 for a sound directory.
pub fn check(dir: &[u32]) -> u32 {
    if dir.len() < HEADER {
        return 3;
    }
    if !known(dir[0]) {
        return 1;
    }
    if !(1..=LARGEST_C).contains(&dir[1]) {
        return 2;
    }
    if dir.len() != words_for(dir[1]) {
        return 3;
    }
    if !(numbers_sound(dir) && entries_sound(dir) && policy_sound(dir)) {
        return 4;
    }
    0
}

/// Targets and lengths, for every policy.
fn numbers_sound(dir: &[u32]) -> bool {
    let [c, p, t1, t2, b1, b2] = [1, 2, 4, 5, 6, 7].map(|at| dir[at] as u64);
    let histories_may_be = t1 + t2 == c || b1 + b2 == 0;
    p <= c && t1 + t2 <= c && b1 + b2 <= c && histories_may_be
}

/// Flags, distinct pages and unused words, for every policy (the lengths are known to fit).
fn entries_sound(dir: &[u32]) -> bool {
    let used: usize = dir[4..8].iter().map(|&length| length as usize).sum();
    let (listed, unused) = dir[HEADER..].split_at(2 * used);
    let flags_fit = listed.chunks(2).all(|entry| entry[1] <= 3);
    let mut pages: Vec<u32> = listed.chunks(2).map(|entry| entry[0]).collect();
    pages.sort();
    let all_differ = pages.windows(2).all(|pair| pair[0] != pair[1]);
    let lists = decode(dir);
    flags_fit && all_differ && unused.iter().all(|&word| word == 0) && no_bit(&lists.b1) && no_bit(&lists.b2)
}

/// What is demanded of CAR alone, of CART alone, and of FIFO, CLOCK and LRU.
fn policy_sound(dir: &[u32]) -> bool {
    let d = decode(dir);
    match d.policy {
        CAR => {
            let no_filter = all_short(&d.t1) && all_short(&d.t2) && all_short(&d.b1) && all_short(&d.b2);
            d.q == 0 && no_filter && size(&d.t1) + size(&d.b1) <= d.c
        }
        CART => d.q <= 2 * d.c && all_long(&d.t2) && all_long(&d.b2) && all_short(&d.b1),
        _ => t1_alone_sound(&d),
    }
}

/// FIFO, CLOCK and LRU share all of it but one thing: only CLOCK may have a reference bit.
fn t1_alone_sound(d: &Directory) -> bool {
    let others_empty = d.t2.is_empty() && d.b1.is_empty() && d.b2.is_empty();
    let bits_may_be = keeps_bits(d.policy) || no_bit(&d.t1);
    d.p == 0 && d.q == 0 && others_empty && all_short(&d.t1) && bits_may_be
}

fn no_bit(list: &[Entry]) -> bool {
    list.iter().all(|entry| !entry.referenced)
}

fn all_long(list: &[Entry]) -> bool {
    list.iter().all(|entry| entry.long)
}

fn all_short(list: &[Entry]) -> bool {
    list.iter().all(|entry| !entry.long)
}

/// Takes the words apart; the lengths must fit.
pub fn decode(dir: &[u32]) -> Directory {
    let mut at = HEADER;
    let mut next = |length: u32| -> Vec<Entry> {
        let from = at;
        at += 2 * length as usize;
        let entry = |words: &[u32]| Entry { page: words[0], referenced: words[1] & 1 != 0, long: words[1] & 2 != 0 };
        dir[from..at].chunks(2).map(entry).collect()
    };
    let (t1, t2, b1, b2) = (next(dir[4]), next(dir[5]), next(dir[6]), next(dir[7]));
    Directory { policy: dir[0], c: dir[1] as i64, p: dir[2] as i64, q: dir[3] as i64, t1, t2, b1, b2 }
}

/// Puts the words together: header, T1, T2, B1, B2 from head to tail, zeros.
pub fn encode(d: &Directory, dir: &mut [u32]) {
    dir.fill(0);
    let lists = [&d.t1, &d.t2, &d.b1, &d.b2];
    let header = [d.policy as i64, d.c, d.p, d.q, size(&d.t1), size(&d.t2), size(&d.b1), size(&d.b2)];
    for (at, number) in header.iter().enumerate() {
        dir[at] = *number as u32;
    }
    let mut at = HEADER;
    for entry in lists.into_iter().flatten() {
        dir[at] = entry.page;
        dir[at + 1] = entry.referenced as u32 + 2 * entry.long as u32;
        at += 2;
    }
}

#[cfg(test)]
mod tests {
    use super::*;
    use crate::policy::{CLOCK, FIFO, LRU};

    fn cart_of_two() -> Vec<u32> {
        // T1 = 0 (S, bit), 7 (L); T2 empty; B1 = 9; B2 = 8 (L); unused none.
        vec![2, 2, 1, 4, 2, 0, 1, 1, 0, 1, 7, 2, 9, 0, 8, 2]
    }

    #[test]
    fn fresh_refusals_in_order() {
        let mut dir = vec![7; 12];
        assert_eq!(fresh(0, 0, &mut dir), 1);
        assert_eq!(fresh(6, 1, &mut dir), 1);
        assert_eq!(fresh(1, 0, &mut dir), 2);
        assert_eq!(fresh(1, 1025, &mut dir), 2);
        assert_eq!(fresh(1, 2, &mut dir), 3);
        assert_eq!(dir, vec![7; 12]);
        assert_eq!(fresh(2, 1, &mut dir), 0);
        assert_eq!(dir, [2, 1, 0, 0, 0, 0, 0, 0, 0, 0, 0, 0]);
        for policy in 1..=5 {
            let mut large = vec![1; 4104];
            assert_eq!(fresh(policy, 1024, &mut large), 0);
            assert_eq!((large[0], check(&large)), (policy, 0));
        }
    }

    #[test]
    fn check_refusals_in_order() {
        assert_eq!(check(&[0; 7]), 3);
        assert_eq!(check(&[0; 8]), 1);
        assert_eq!(check(&[6; 8]), 1);
        assert_eq!(check(&[1, 0, 0, 0, 0, 0, 0, 0]), 2);
        assert_eq!(check(&[1, 1025, 0, 0, 0, 0, 0, 0]), 2);
        assert_eq!(check(&[1, 1, 2, 0, 0, 0, 0, 0]), 3);
        assert_eq!(check(&[1, 1, 2, 0, 0, 0, 0, 0, 0, 0, 0, 0]), 4);
        assert_eq!(check(&[1, 1, 1, 0, 0, 0, 0, 0, 0, 0, 0, 0]), 0);
    }

    #[test]
    fn each_soundness_rule_for_cart() {
        assert_eq!(check(&cart_of_two()), 0);
        let changes = [(2, 3), (3, 5), (4, 3), (4, 1), (4, u32::MAX), (6, 2), (9, 4), (10, 0), (13, 1), (13, 2), (15, 0), (15, 3)];
        for (at, word) in changes {
            let mut dir = cart_of_two();
            dir[at] = word;
            assert_eq!(check(&dir), 4, "word {at} = {word}");
        }
    }

    #[test]
    fn each_soundness_rule_for_car() {
        let sound = vec![1, 2, 2, 0, 1, 1, 1, 0, 0, 1, 7, 1, 9, 0, 0, 0];
        assert_eq!(check(&sound), 0);
        let changes = [(2, 3), (3, 1), (5, 0), (6, 0), (6, 2), (9, 2), (11, 2), (13, 1), (13, 2), (14, 1), (15, 1)];
        for (at, word) in changes {
            let mut dir = sound.clone();
            dir[at] = word;
            assert_eq!(check(&dir), 4, "word {at} = {word}");
        }
    }

    /// c = 2, T1 = 5, 0; the bits of one policy's directory are another's fault.
    #[test]
    fn each_soundness_rule_for_the_three() {
        for policy in [FIFO, CLOCK, LRU] {
            let full = vec![policy, 2, 0, 0, 2, 0, 0, 0, 5, 0, 0, 0, 0, 0, 0, 0];
            assert_eq!(check(&full), 0);
            let with = |changes: &[(usize, u32)]| {
                let mut dir = full.clone();
                changes.iter().for_each(|&(at, word)| dir[at] = word);
                check(&dir)
            };
            assert_eq!(with(&[(4, 1), (8, 0)]), 0, "page 0 alone, room for another");
            let bit = if policy == CLOCK { 0 } else { 4 };
            assert_eq!((with(&[(9, 1)]), with(&[(11, 1)]), with(&[(9, 1), (11, 1)])), (bit, bit, bit));
            let broken: [&[(usize, u32)]; 16] = [
                &[(2, 1)], &[(2, 2)], &[(3, 1)], &[(3, 4)], &[(4, 1), (5, 1)], &[(4, 0), (5, 2)], &[(6, 1), (12, 7)], &[(7, 1), (12, 7)],
                &[(9, 2)], &[(11, 2)], &[(9, 4)], &[(10, 5)], &[(12, 1)], &[(13, 1)], &[(15, 1)], &[(4, 3), (12, 7)],
            ];
            for changes in broken {
                assert_eq!(with(changes), 4, "policy {policy}, {changes:?}");
            }
            for policy in [0, 6, u32::MAX] {
                assert_eq!((with(&[(0, policy)]), with(&[(0, policy), (1, 0), (2, 1)])), (1, 1));
            }
        }
    }

    #[test]
    fn car_keeps_t1_and_b1_within_c() {
        let dir = [1, 2, 0, 0, 2, 0, 1, 0, 1, 0, 2, 0, 3, 0, 0, 0];
        assert_eq!(check(&dir), 4);
        let mut cart = dir;
        cart[0] = 2;
        assert_eq!(check(&cart), 0);
    }

    #[test]
    fn encode_undoes_decode() {
        let dir = cart_of_two();
        let mut again = vec![5; dir.len()];
        encode(&decode(&dir), &mut again);
        assert_eq!(dir, again);
    }
}
