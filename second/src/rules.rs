// Directories of FIFO, CLOCK and LRU in which one rule of soundness is broken and no other, for the group "rules";
// some are sound, so that a rule too many is seen as well.

use crate::directory::{decode, holds, HEADER, LARGEST_C};
use crate::inputs::{any_call, odd_of};
use crate::policy::{CLOCK, FIFO, LRU};
use crate::probe::Call;
use crate::random::Random;

#[derive(Clone, Copy, PartialEq, Eq)]
enum Rule {
    Nothing,
    Policy,
    P,
    Q,
    T2,
    B1,
    B2,
    ReferenceBit,
    FilterBit,
    Flags,
    EqualPages,
    Unused,
    OneTooMany,
}

const RULES: [Rule; 13] = [
    Rule::Nothing, Rule::Policy, Rule::P, Rule::Q, Rule::T2, Rule::B1, Rule::B2, Rule::ReferenceBit, Rule::FilterBit, Rule::Flags,
    Rule::EqualPages, Rule::Unused, Rule::OneTooMany,
];

pub fn rules(random: &mut Random, count: usize) -> Vec<Call> {
    (0..count)
        .map(|_| {
            let c = match random.below(200) {
                0 => LARGEST_C as usize,
                1..=4 => random.within(7, 60),
                _ => random.within(1, 6),
            };
            let (policy, rule) = (random.pick(&[FIFO, CLOCK, LRU]), random.pick(&RULES));
            let dir = broken(random, policy, c, rule);
            any_call(random, dir)
        })
        .collect()
}

/// A directory of at least one page, and full where a page too few would break another rule.
fn broken(random: &mut Random, policy: u32, c: usize, rule: Rule) -> Vec<u32> {
    let full = [Rule::B1, Rule::B2, Rule::OneTooMany].contains(&rule) || random.chance(60);
    let used = if full { c } else { random.within(1, c) };
    let mut dir = odd_of(random, policy, c, [used, 0, 0, 0]);
    break_rule(random, &mut dir, rule);
    dir
}

/// A reference bit breaks no rule of CLOCK, and one page alone has none that it could equal.
fn break_rule(random: &mut Random, dir: &mut [u32], rule: Rule) {
    let (c, used) = (dir[1], dir[4] as usize);
    let one = random.below(used);
    let (page, next, flags) = (HEADER + 2 * one, HEADER + 2 * ((one + 1) % used), HEADER + 2 * one + 1);
    let unused = HEADER + 2 * used;
    match rule {
        Rule::Nothing => {}
        Rule::Policy => dir[0] = random.pick(&[0, 6, u32::MAX]),
        Rule::P => dir[2] = random.pick(&[1, c]),
        Rule::Q => dir[3] = random.pick(&[1, 2 * c]),
        Rule::T2 => {
            let moved = random.within(1, used) as u32;
            dir[4] -= moved;
            dir[5] = moved;
        }
        Rule::B1 => one_more(dir, 6),
        Rule::B2 => one_more(dir, 7),
        Rule::ReferenceBit => dir[flags] |= 1,
        Rule::FilterBit => dir[flags] |= 2,
        Rule::Flags => dir[flags] += random.pick(&[4, 4, 8, 1 << 31]),
        Rule::EqualPages => dir[page] = dir[next],
        Rule::Unused => {
            let anywhere = random.within(unused, dir.len() - 1);
            dir[random.pick(&[unused, unused + 1, dir.len() - 1, anywhere])] = random.pick(&[1, 2, u32::MAX]);
        }
        Rule::OneTooMany => one_more(dir, 4),
    }
}

/// The first unused entry becomes a page of this list that none has.
fn one_more(dir: &mut [u32], length: usize) {
    let t1 = decode(dir).t1;
    let new = (0..).find(|&page| !holds(&t1, page));
    dir[HEADER + 2 * t1.len()] = new.unwrap_or(0);
    dir[length] += 1;
}

#[cfg(test)]
mod tests {
    use super::*;
    use crate::directory::check;

    #[test]
    fn each_rule_has_its_number() {
        let mut random = Random::new(1);
        for rule in RULES {
            for (policy, c) in [FIFO, CLOCK, LRU].into_iter().flat_map(|policy| [1, 2, 3, 6, 1024].map(|c| (policy, c))) {
                let dir = broken(&mut random, policy, c, rule);
                let number = match rule {
                    Rule::Nothing => 0,
                    Rule::Policy => 1,
                    Rule::ReferenceBit if policy == CLOCK => 0,
                    Rule::EqualPages if dir[4] == 1 => 0,
                    _ => 4,
                };
                assert_eq!(check(&dir), number, "{dir:?}");
            }
        }
    }
}
