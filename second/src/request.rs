// One request under CAR or CART (Figures 2 and 3), or under FIFO, CLOCK or LRU: hit, or miss with evict, trim
// and place. Each part reads as its paragraph in 01; sizes are those at the moment a rule is read.

use crate::directory::{check, decode, encode, holds, size, Directory, Entry};
use crate::policy::{CAR, CART, FIFO, LRU};
use std::cmp::{max, min};

/// The four words of an answer.
#[derive(Clone, Copy, Debug, Default, PartialEq, Eq)]
pub struct Answer {
    pub kind: u32,
    pub page: u32,
    pub list: u32,
    pub moves: u32,
}

/// What evict gives: the page, the list it came from (1 for T1, 2 for T2), the hand moves.
struct Evicted {
    page: u32,
    list: u32,
    moves: u32,
}

/// A request on lent words: a refusal leaves them as they were.
pub fn request(dir: &mut [u32], page: u32) -> (u32, Answer) {
    let number = check(dir);
    if number != 0 {
        return (number, Answer::default());
    }
    let mut d = decode(dir);
    let answer = serve(&mut d, page);
    encode(&d, dir);
    (0, answer)
}

/// A request on a sound directory.
pub fn serve(d: &mut Directory, page: u32) -> Answer {
    if hit(d, page) {
        return Answer { kind: 0, page: 0, list: 0, moves: 0 };
    }
    if size(&d.t1) + size(&d.t2) < d.c {
        place(d, page);
        return Answer { kind: 1, page: 0, list: 0, moves: 0 };
    }
    let evicted = evict(d);
    trim(d, page);
    let kind = place(d, page);
    Answer { kind, page: evicted.page, list: evicted.list, moves: evicted.moves }
}

/// Whether the page is in T1 or T2; then its bit is set, but FIFO ignores the hit and LRU moves the page.
fn hit(d: &mut Directory, page: u32) -> bool {
    let Some(entry) = d.t1.iter_mut().chain(d.t2.iter_mut()).find(|entry| entry.page == page) else {
        return false;
    };
    match d.policy {
        FIFO => {}
        LRU => to_tail(&mut d.t1, page),
        _ => entry.referenced = true,
    }
    true
}

fn evict(d: &mut Directory) -> Evicted {
    match d.policy {
        CAR => evict_car(d),
        CART => evict_cart(d),
        _ => evict_t1_alone(d),
    }
}

fn trim(d: &mut Directory, page: u32) {
    if holds(&d.b1, page) || holds(&d.b2, page) {
        return;
    }
    match d.policy {
        CAR => trim_car(d),
        CART => trim_cart(d),
        _ => {} // no histories
    }
}

/// Places the page and gives the kind of the miss, if a page was evicted before.
fn place(d: &mut Directory, page: u32) -> u32 {
    match d.policy {
        CAR => place_car(d, page),
        CART => place_cart(d, page),
        _ => place_new(d, page),
    }
}

/// A page in neither history.
fn place_new(d: &mut Directory, page: u32) -> u32 {
    d.t1.push(Entry { page, referenced: false, long: false });
    2
}

// ---- CAR ----

fn evict_car(d: &mut Directory) -> Evicted {
    let mut moves = 0;
    loop {
        moves += 1;
        if size(&d.t1) >= max(1, d.p) {
            let mut head = d.t1.remove(0);
            if !head.referenced {
                let page = head.page;
                d.b1.push(head);
                return Evicted { page, list: 1, moves };
            }
            head.referenced = false; // line 29, from T1 on to T2
            d.t2.push(head);
        } else {
            let mut head = d.t2.remove(0);
            if !head.referenced {
                let page = head.page;
                d.b2.push(head); // line 34
                return Evicted { page, list: 2, moves };
            }
            head.referenced = false; // line 36
            d.t2.push(head);
        }
    }
}

fn trim_car(d: &mut Directory) {
    if size(&d.t1) + size(&d.b1) == d.c {
        d.b1.remove(0);
    } else if size(&d.t1) + size(&d.t2) + size(&d.b1) + size(&d.b2) == 2 * d.c {
        d.b2.remove(0);
    }
}

fn place_car(d: &mut Directory, page: u32) -> u32 {
    if holds(&d.b1, page) {
        d.p = min(d.p + max(1, size(&d.b2) / size(&d.b1)), d.c);
        take_out(&mut d.b1, page);
        d.t2.push(Entry { page, referenced: false, long: false });
        3
    } else if holds(&d.b2, page) {
        d.p = max(d.p - max(1, size(&d.b1) / size(&d.b2)), 0);
        take_out(&mut d.b2, page);
        d.t2.push(Entry { page, referenced: false, long: false });
        4
    } else {
        place_new(d, page)
    }
}

// ---- CART ----

/// The S pages in T1 and T2.
fn n_s(d: &Directory) -> i64 {
    d.t1.iter().chain(d.t2.iter()).filter(|entry| !entry.long).count() as i64
}

/// The L pages in T1 and T2.
fn n_l(d: &Directory) -> i64 {
    d.t1.iter().chain(d.t2.iter()).filter(|entry| entry.long).count() as i64
}

fn raise_q(d: &mut Directory) {
    if size(&d.t2) + size(&d.b2) + size(&d.t1) - n_s(d) >= d.c {
        d.q = min(d.q + 1, 2 * d.c - size(&d.t1));
    }
}

fn evict_cart(d: &mut Directory) -> Evicted {
    let mut moves = 0;
    while !d.t2.is_empty() && d.t2[0].referenced {
        let mut head = d.t2.remove(0);
        head.referenced = false;
        d.t1.push(head);
        moves += 1;
        raise_q(d);
    }
    while !d.t1.is_empty() && (d.t1[0].long || d.t1[0].referenced) {
        move_t1_head(d);
        moves += 1;
    }
    moves += 1;
    if size(&d.t1) >= max(1, d.p) {
        let head = d.t1.remove(0);
        let page = head.page;
        d.b1.push(head);
        Evicted { page, list: 1, moves }
    } else {
        let head = d.t2.remove(0);
        let page = head.page;
        d.b2.push(head);
        Evicted { page, list: 2, moves }
    }
}

/// Lines 28 to 34: T1's head, which is L or has its bit set, goes on.
fn move_t1_head(d: &mut Directory) {
    let mut head = d.t1.remove(0);
    if head.referenced {
        head.referenced = false; // line 29
        d.t1.push(head);
        let enough = size(&d.t1) >= min(d.p + 1, size(&d.b1));
        if let Some(moved) = d.t1.last_mut() {
            if !moved.long && enough {
                moved.long = true;
            }
        }
    } else {
        d.t2.push(head);
        d.q = max(d.q - 1, d.c - size(&d.t1)); // line 33
    }
}

fn trim_cart(d: &mut Directory) {
    if size(&d.b1) + size(&d.b2) == d.c + 1 {
        if size(&d.b1) > d.q || d.b2.is_empty() {
            d.b1.remove(0);
        } else {
            d.b2.remove(0);
        }
    }
}

fn place_cart(d: &mut Directory, page: u32) -> u32 {
    if holds(&d.b1, page) {
        d.p = min(d.p + max(1, n_s(d) / size(&d.b1)), d.c);
        take_out(&mut d.b1, page);
        d.t1.push(Entry { page, referenced: false, long: true });
        3
    } else if holds(&d.b2, page) {
        d.p = max(d.p - max(1, n_l(d) / size(&d.b2)), 0);
        take_out(&mut d.b2, page);
        d.t1.push(Entry { page, referenced: false, long: true });
        raise_q(d);
        4
    } else {
        place_new(d, page)
    }
}

// ---- FIFO, CLOCK and LRU ----

/// T1's head is forgotten; a head with bit 1, which only CLOCK has, gets its second chance before that.
fn evict_t1_alone(d: &mut Directory) -> Evicted {
    let mut moves = 0;
    loop {
        moves += 1;
        let mut head = d.t1.remove(0);
        if !head.referenced {
            return Evicted { page: head.page, list: 1, moves };
        }
        head.referenced = false; // second chance
        d.t1.push(head);
    }
}

// ---- lists ----

fn take_out(list: &mut Vec<Entry>, page: u32) {
    list.retain(|entry| entry.page != page);
}

/// The page becomes the tail, the others keep their order.
fn to_tail(list: &mut [Entry], page: u32) {
    if let Some(at) = list.iter().position(|entry| entry.page == page) {
        list[at..].rotate_left(1);
    }
}

#[cfg(test)]
mod tests {
    use super::*;
    use crate::directory::{fresh, words_for};
    use crate::policy::CLOCK;

    const TRACE: [u32; 8] = [1, 2, 1, 3, 2, 1, 4, 2];

    /// Serves the pages on a fresh directory: the last answer and the directory.
    fn after(policy: u32, c: u32, pages: &[u32]) -> (Answer, Directory) {
        let mut dir = vec![0; words_for(c)];
        assert_eq!(fresh(policy, c, &mut dir), 0);
        let mut last = Answer::default();
        for &page in pages {
            let (number, answer) = request(&mut dir, page);
            assert_eq!((number, check(&dir)), (0, 0));
            last = answer;
        }
        (last, decode(&dir))
    }

    fn answer(kind: u32, page: u32, list: u32, moves: u32) -> Answer {
        Answer { kind, page, list, moves }
    }

    fn pages(list: &[Entry]) -> Vec<u32> {
        list.iter().map(|entry| entry.page).collect()
    }

    #[test]
    fn p1_to_p4() {
        assert_eq!(after(CAR, 2, &TRACE[..4]).0, answer(2, 2, 1, 2));
        let (got, d) = after(CAR, 2, &TRACE[..5]);
        assert_eq!((got, d.p), (answer(3, 3, 1, 1), 1));
        assert_eq!(after(CAR, 2, &TRACE[..7]).0, answer(2, 2, 2, 2));
        let (got, d) = after(CAR, 2, &TRACE);
        assert_eq!((got, d.p), (answer(4, 4, 1, 1), 0));
        assert_eq!((pages(&d.t1), pages(&d.t2)), (vec![], vec![1, 2]));
        assert_eq!((pages(&d.b1), pages(&d.b2)), (vec![3, 4], vec![]));
    }

    #[test]
    fn p5() {
        let (got, d) = after(CAR, 2, &[1, 2, 1, 3, 2, 1, 4, 2, 5]);
        assert_eq!((got.kind, got.page, got.list), (2, 1, 2));
        assert_eq!(pages(&d.b1), vec![4]);
    }

    #[test]
    fn p6_to_p9() {
        assert_eq!(after(CART, 2, &TRACE[..4]).0, answer(2, 2, 1, 2));
        let (got, d) = after(CART, 2, &TRACE[..5]);
        assert_eq!((got, d.p, d.q), (answer(3, 3, 1, 2), 1, 1));
        assert_eq!(after(CART, 2, &TRACE[..7]).0, answer(2, 2, 2, 4));
        let (got, d) = after(CART, 2, &TRACE);
        assert_eq!((got, d.p, d.q), (answer(4, 4, 1, 1), 0, 3));
        assert_eq!((pages(&d.t1), pages(&d.t2), pages(&d.b1)), (vec![2], vec![1], vec![3, 4]));
        assert!(d.t1[0].long);
    }

    #[test]
    fn p10_to_p12() {
        let both = [1, 2, 1, 2, 3];
        assert_eq!(after(CAR, 2, &both).0, answer(2, 1, 2, 3));
        let (got, d) = after(CART, 2, &both);
        assert_eq!((got, d.q), (answer(2, 1, 2, 5), 2));
        let (got, d) = after(CAR, 1, &[1, 2]);
        assert_eq!((got.page, pages(&d.t1)), (1, vec![2]));
        assert!(d.b1.is_empty() && d.b2.is_empty());
    }

    /// One request of a hand-worked trace: the page, the answer's words, and T1 after it with `*` for a set bit.
    type Step = (u32, [u32; 4], &'static str);

    /// Serves the steps on a fresh directory; but T1 all of it stays empty and zero.
    fn worked(policy: u32, c: u32, steps: &[Step]) {
        let mut dir = vec![0; words_for(c)];
        assert_eq!(fresh(policy, c, &mut dir), 0);
        for (at, &(page, [kind, evicted, list, moves], t1)) in steps.iter().enumerate() {
            let got = request(&mut dir, page);
            let d = decode(&dir);
            assert_eq!((got, shown(&d.t1)), ((0, answer(kind, evicted, list, moves)), t1.to_string()), "policy {policy}, step {at}");
            assert_eq!((check(&dir), dir[2], dir[3], &dir[5..8]), (0, 0, 0, &[0, 0, 0][..]));
        }
    }

    fn shown(t1: &[Entry]) -> String {
        t1.iter().map(|entry| format!("{}{}", entry.page, if entry.referenced { "*" } else { "" })).collect::<Vec<String>>().join(" ")
    }

    /// 01's trace: FIFO ignores the hits, CLOCK lets page 1 go round once, LRU moves it at once.
    #[test]
    fn the_trace_of_01_under_the_three() {
        worked(FIFO, 2, &[
            (1, [1, 0, 0, 0], "1"), (2, [1, 0, 0, 0], "1 2"), (1, [0, 0, 0, 0], "1 2"), (3, [2, 1, 1, 1], "2 3"),
            (2, [0, 0, 0, 0], "2 3"), (1, [2, 2, 1, 1], "3 1"), (4, [2, 3, 1, 1], "1 4"), (2, [2, 1, 1, 1], "4 2"),
        ]);
        worked(CLOCK, 2, &[
            (1, [1, 0, 0, 0], "1"), (2, [1, 0, 0, 0], "1 2"), (1, [0, 0, 0, 0], "1* 2"), (3, [2, 2, 1, 2], "1 3"),
            (2, [2, 1, 1, 1], "3 2"), (1, [2, 3, 1, 1], "2 1"), (4, [2, 2, 1, 1], "1 4"), (2, [2, 1, 1, 1], "4 2"),
        ]);
        worked(LRU, 2, &[
            (1, [1, 0, 0, 0], "1"), (2, [1, 0, 0, 0], "1 2"), (1, [0, 0, 0, 0], "2 1"), (3, [2, 2, 1, 1], "1 3"),
            (2, [2, 1, 1, 1], "3 2"), (1, [2, 3, 1, 1], "2 1"), (4, [2, 2, 1, 1], "1 4"), (2, [2, 1, 1, 1], "4 2"),
        ]);
    }

    /// Page 4 evicts 1 under FIFO, 3 under CLOCK and 2 under LRU; page 1 is then a miss only under FIFO.
    #[test]
    fn the_three_evict_differently() {
        worked(FIFO, 3, &[
            (1, [1, 0, 0, 0], "1"), (2, [1, 0, 0, 0], "1 2"), (2, [0, 0, 0, 0], "1 2"), (1, [0, 0, 0, 0], "1 2"), (3, [1, 0, 0, 0], "1 2 3"),
            (4, [2, 1, 1, 1], "2 3 4"), (1, [2, 2, 1, 1], "3 4 1"), (5, [2, 3, 1, 1], "4 1 5"),
        ]);
        worked(CLOCK, 3, &[
            (1, [1, 0, 0, 0], "1"), (2, [1, 0, 0, 0], "1 2"), (2, [0, 0, 0, 0], "1 2*"), (1, [0, 0, 0, 0], "1* 2*"), (3, [1, 0, 0, 0], "1* 2* 3"),
            (4, [2, 3, 1, 3], "1 2 4"), (1, [0, 0, 0, 0], "1* 2 4"), (5, [2, 2, 1, 2], "4 1 5"),
        ]);
        worked(LRU, 3, &[
            (1, [1, 0, 0, 0], "1"), (2, [1, 0, 0, 0], "1 2"), (2, [0, 0, 0, 0], "1 2"), (1, [0, 0, 0, 0], "2 1"), (3, [1, 0, 0, 0], "2 1 3"),
            (4, [2, 2, 1, 1], "1 3 4"), (1, [0, 0, 0, 0], "3 4 1"), (5, [2, 3, 1, 1], "4 1 5"),
        ]);
    }

    /// c = 1: the only page is head and tail; CLOCK's goes round and is evicted, c + 1 moves.
    #[test]
    fn one_page_under_the_three() {
        let miss = |moves| [(1, [1, 0, 0, 0], "1"), (2, [2, 1, 1, moves], "2"), (2, [0, 0, 0, 0], "2"), (1, [2, 2, 1, moves], "1")];
        worked(FIFO, 1, &miss(1));
        worked(LRU, 1, &miss(1));
        worked(CLOCK, 1, &[(1, [1, 0, 0, 0], "1"), (2, [2, 1, 1, 1], "2"), (2, [0, 0, 0, 0], "2*"), (1, [2, 2, 1, 2], "1")]);
    }

    /// All bits set: the hand goes round, comes back to the first head, and all bits are 0 after it.
    #[test]
    fn clock_moves_c_and_one() {
        worked(CLOCK, 3, &[
            (7, [1, 0, 0, 0], "7"), (8, [1, 0, 0, 0], "7 8"), (9, [1, 0, 0, 0], "7 8 9"), (9, [0, 0, 0, 0], "7 8 9*"), (8, [0, 0, 0, 0], "7 8* 9*"),
            (7, [0, 0, 0, 0], "7* 8* 9*"), (7, [0, 0, 0, 0], "7* 8* 9*"), (0, [2, 7, 1, 4], "8 9 0"), (7, [2, 8, 1, 1], "9 0 7"),
        ]);
    }

    /// A hit on the head, on the middle and on the tail.
    #[test]
    fn lru_moves_from_everywhere() {
        worked(LRU, 3, &[
            (4, [1, 0, 0, 0], "4"), (5, [1, 0, 0, 0], "4 5"), (6, [1, 0, 0, 0], "4 5 6"), (4, [0, 0, 0, 0], "5 6 4"),
            (6, [0, 0, 0, 0], "5 4 6"), (6, [0, 0, 0, 0], "5 4 6"), (7, [2, 5, 1, 1], "4 6 7"), (5, [2, 4, 1, 1], "6 7 5"),
        ]);
    }

    #[test]
    fn page_zero_and_the_largest_are_pages() {
        assert_eq!(after(CAR, 2, &[0, u32::MAX, 0]).0, answer(0, 0, 0, 0));
        assert_eq!(after(CART, 1, &[u32::MAX, 0]).0, answer(2, u32::MAX, 1, 1));
        assert_eq!(after(CART, 1, &[0, 5, 0]).0, answer(3, 5, 1, 1));
        for policy in [FIFO, CLOCK, LRU] {
            assert_eq!(after(policy, 2, &[0, u32::MAX, 0]).0, answer(0, 0, 0, 0));
            assert_eq!(after(policy, 1, &[u32::MAX, 0]).0, answer(2, u32::MAX, 1, 1));
            assert_eq!(after(policy, 1, &[0, 5, 0]).0, answer(2, 5, 1, 1));
        }
    }

    #[test]
    fn a_refused_request_leaves_all() {
        for mut dir in [vec![1, 1, 2, 0, 0, 0, 0, 0, 0, 0, 0, 0], vec![1; 7], vec![6; 8], vec![1, 0, 1, 1, 1, 1, 1, 1]] {
            let before = dir.clone();
            let (number, got) = request(&mut dir, 1);
            assert_eq!(number, check(&before));
            assert!(number != 0 && got == Answer::default() && dir == before);
        }
    }
}
