// A run: a trace of at most 1,000 pages served one after another, the answers written in order,
// one running tally brought up to date by every request.

use crate::directory::{check, decode, encode};
use crate::request::{serve, Answer};

pub const LONGEST_TRACE: usize = 1000;

#[derive(Clone, Copy, Debug, Default, PartialEq, Eq)]
pub struct Tally {
    pub requests: u32,
    pub hits: u32,
    pub misses: u32,
    pub evictions: u32,
    pub moves: u32,
}

/// Refused as a request, then 5, 6; all lent memory stays then.
pub fn run(dir: &mut [u32], trace: &[u32], answers: &mut [u32]) -> (u32, Tally) {
    let mut tally = Tally::default();
    let number = refusal(dir, trace, answers);
    if number != 0 {
        return (number, tally);
    }
    let mut d = decode(dir);
    for (at, &page) in trace.iter().enumerate() {
        let answer = serve(&mut d, page);
        answers[4 * at] = answer.kind;
        answers[4 * at + 1] = answer.page;
        answers[4 * at + 2] = answer.list;
        answers[4 * at + 3] = answer.moves;
        count(&mut tally, &answer);
    }
    encode(&d, dir);
    (0, tally)
}

fn refusal(dir: &[u32], trace: &[u32], answers: &[u32]) -> u32 {
    let number = check(dir);
    if number != 0 {
        return number;
    }
    if trace.len() > LONGEST_TRACE {
        return 5;
    }
    if answers.len() < 4 * trace.len() {
        return 6;
    }
    0
}

fn count(tally: &mut Tally, answer: &Answer) {
    tally.requests += 1;
    if answer.kind == 0 {
        tally.hits += 1;
    } else {
        tally.misses += 1;
    }
    if answer.kind >= 2 {
        tally.evictions += 1;
    }
    tally.moves += answer.moves;
}

#[cfg(test)]
mod tests {
    use super::*;
    use crate::directory::{fresh, words_for};
    use crate::policy::{CLOCK, FIFO, LRU};
    use crate::random::Random;
    use crate::request::request;

    fn fresh_directory(policy: u32, c: u32) -> Vec<u32> {
        let mut dir = vec![0; words_for(c)];
        assert_eq!(fresh(policy, c, &mut dir), 0);
        dir
    }

    #[test]
    fn the_worked_run() {
        let mut dir = fresh_directory(1, 2);
        let mut answers = vec![9; 34];
        let (number, tally) = run(&mut dir, &[1, 2, 1, 3, 2, 1, 4, 2], &mut answers);
        assert_eq!(number, 0);
        assert_eq!(tally, Tally { requests: 8, hits: 2, misses: 6, evictions: 4, moves: 6 });
        assert_eq!(answers[12..16], [2, 2, 1, 2]);
        assert_eq!(answers[32..], [9, 9]);
    }

    #[test]
    fn the_worked_run_under_the_three() {
        let tallies = [(FIFO, [8, 2, 6, 4, 4]), (CLOCK, [8, 1, 7, 5, 6]), (LRU, [8, 1, 7, 5, 5])];
        for (policy, [requests, hits, misses, evictions, moves]) in tallies {
            let got = run(&mut fresh_directory(policy, 2), &[1, 2, 1, 3, 2, 1, 4, 2], &mut [9; 32]);
            assert_eq!(got, (0, Tally { requests, hits, misses, evictions, moves }));
        }
    }

    /// FIFO and LRU never need more than one move, CLOCK c + 1 at most, and none more than one a request from fresh.
    #[test]
    fn moves_of_the_three() {
        let mut random = Random::new(2);
        let mut met = 0;
        for trace_number in 0..600 {
            let (policy, c) = (random.pick(&[FIFO, CLOCK, LRU]), random.pick(&[1, 2, 3, 5, 8, 13, 100, 1024]));
            let kinds = random.within(c, 2 * c);
            let trace: Vec<u32> = (0..1000).map(|_| random.below(kinds) as u32).collect();
            let mut answers = vec![0; 4000];
            let (number, tally) = run(&mut fresh_directory(policy, c as u32), &trace, &mut answers);
            assert_eq!((number, tally.requests), (0, 1000));
            let bound = if policy == CLOCK { c as u32 + 1 } else { 1 };
            let mut so_far = 0;
            for (at, answer) in answers.chunks(4).enumerate() {
                so_far += answer[3];
                assert!(answer[3] <= bound && so_far as usize <= at + 1, "trace {trace_number}, request {at}");
                assert!(answer[0] <= 2 && answer[2] == (answer[0] == 2) as u32 && (answer[3] > 0) == (answer[0] == 2));
                met += (c > 2 && policy == CLOCK && answer[3] == bound) as u32;
            }
            assert_eq!(tally.moves, so_far);
        }
        assert!(met > 20, "CLOCK's bound is met {met} times");
    }

    #[test]
    fn a_run_is_its_requests() {
        for policy in 1..=5 {
            let trace: Vec<u32> = (0..1000).map(|at: u32| at * at % 37 % 11).collect();
            let mut dir = fresh_directory(policy, 4);
            let mut single = dir.clone();
            let mut answers = vec![0; 4000];
            assert_eq!(run(&mut dir, &trace, &mut answers).0, 0);
            for (at, &page) in trace.iter().enumerate() {
                let (_, a) = request(&mut single, page);
                assert_eq!(answers[4 * at..4 * at + 4], [a.kind, a.page, a.list, a.moves]);
            }
            assert_eq!(dir, single);
        }
    }

    #[test]
    fn limits_and_order() {
        let mut dir = fresh_directory(2, 1024);
        let trace = vec![3; 1001];
        assert_eq!(run(&mut dir, &trace[..1000], &mut vec![0; 4000]).0, 0);
        let before = dir.clone();
        assert_eq!(run(&mut dir, &trace, &mut []).0, 5);
        assert_eq!(run(&mut dir, &trace[..1000], &mut vec![0; 3999]), (6, Tally::default()));
        assert_eq!(run(&mut dir, &[], &mut []), (0, Tally::default()));
        assert_eq!(dir, before);
        assert_eq!(run(&mut [1; 7], &trace, &mut []).0, 3);
    }
}
