// The generators: for each group seeded calls of the probe, the sheets for score and ledger,
// and the cut or unreadable streams for the wire.

use crate::bids::{self, DRAWN};
use crate::directory::{decode, fresh, words_for, Directory, Entry, HEADER, LARGEST_C};
use crate::policy::{keeps_bits, t1_alone, CAR, CART};
use crate::probe::{put_call, to_bytes, Call};
use crate::random::Random;
use crate::request::{request, serve};
use crate::result::Outcome;
use crate::rules::rules;
use crate::run::run;
use crate::traces;

/// A group of probe calls: its name, its cases in a full comparison, the most cases of one probe process,
/// and what draws that many calls.
pub struct Group {
    pub name: &'static str,
    pub cases: usize,
    pub at_once: usize,
    pub draw: fn(&mut Random, usize) -> Vec<Call>,
}

pub const GROUPS: [Group; 9] = [
    Group { name: "requests", cases: 5_500_000, at_once: 80_000, draw: requests },
    Group { name: "odd", cases: 3_300_000, at_once: 80_000, draw: odd },
    Group { name: "runs", cases: 11_000, at_once: 300, draw: runs },
    Group { name: "damaged", cases: 1_100_000, at_once: 80_000, draw: damaged },
    Group { name: "fresh", cases: 10_000, at_once: 1_000, draw: fresh_calls },
    Group { name: "sheets", cases: 140_000, at_once: 4_000, draw: sheets },
    Group { name: "result", cases: 54_000, at_once: 12_000, draw: results },
    Group { name: "rules", cases: 120_000, at_once: 12_000, draw: rules },
    Group { name: "council", cases: 60_000, at_once: 3_000, draw: council },
];

// ---- requests ----

/// Short traces, each request on the directory the last one left.
fn requests(random: &mut Random, count: usize) -> Vec<Call> {
    let mut calls = Vec::with_capacity(count);
    while calls.len() < count {
        let c = random.within(1, 12);
        let kinds = random.within(c, 3 * c) as u32;
        let first = random.pick(&[0, 1, 1000, u32::MAX - kinds + 1]);
        let (hits, history) = (random.pick(&[5, 20, 35, 60]), random.pick(&[0, 15, 35]));
        let mut dir = fresh_directory(random.pick(&DRAWN).1, c as u32);
        for _ in 0..random.within(20, 100) {
            let page = next_page(random, &decode(&dir), hits, history, first, kinds);
            calls.push(Call::Request { dir: dir.clone(), page });
            request(&mut dir, page);
        }
    }
    calls.truncate(count);
    calls
}

fn fresh_directory(policy: u32, c: u32) -> Vec<u32> {
    let mut dir = vec![0; words_for(c)];
    fresh(policy, c, &mut dir);
    dir
}

/// Percents of listed pages and of history pages; else one of `kinds` pages.
fn next_page(random: &mut Random, d: &Directory, hits: usize, history: usize, first: u32, kinds: u32) -> u32 {
    let draw = random.below(100);
    let near = if random.chance(50) { [&d.t1, &d.t2] } else { [&d.t2, &d.t1] };
    let far = if random.chance(50) { [&d.b1, &d.b2] } else { [&d.b2, &d.b1] };
    let lists = if draw < hits { near } else { far };
    if draw < hits + history {
        if let Some(list) = lists.into_iter().find(|list| !list.is_empty()) {
            return list[random.below(list.len())].page;
        }
    }
    first + random.below(kinds as usize) as u32
}

// ---- odd sound directories ----

fn odd(random: &mut Random, count: usize) -> Vec<Call> {
    (0..count)
        .map(|_| {
            let c = match random.below(2000) {
                0 => random.within(15, LARGEST_C as usize),
                1..=400 => random.within(6, 14),
                _ => random.within(1, 5),
            };
            let policy = random.pick(&DRAWN).1;
            let dir = odd_directory(random, policy, c);
            let page = any_page(random, &decode(&dir));
            Call::Request { dir, page }
        })
        .collect()
}

/// A page of one of the lists that the policy has, or a new one.
fn any_page(random: &mut Random, d: &Directory) -> u32 {
    let new = Vec::new();
    let lists = [&d.t1, &new, &new, &d.t2, &d.b1, &d.b1, &d.b2, &d.b2, &new];
    let list = random.pick(if t1_alone(d.policy) { &lists[..3] } else { &lists });
    if list.is_empty() {
        return random.pick(&[0, u32::MAX, 3 * d.c as u32 + 9, 777]);
    }
    list[random.below(list.len())].page
}

/// A sound directory that need not be reachable.
fn odd_directory(random: &mut Random, policy: u32, c: usize) -> Vec<u32> {
    let lengths = odd_lengths(random, policy, c);
    odd_of(random, policy, c, lengths)
}

/// The same with these lengths, which must be sound ones.
pub fn odd_of(random: &mut Random, policy: u32, c: usize, lengths: [usize; 4]) -> Vec<u32> {
    let mut dir = vec![0; words_for(c as u32)];
    let q = if policy == CART { near_limits(random, 2 * c) } else { 0 };
    let p = if t1_alone(policy) { 0 } else { near_limits(random, c) };
    dir[..4].copy_from_slice(&[policy, c as u32, p as u32, q as u32]);
    let (first, apart) = random.pick(&[(0, 1), (0, 32_768), (1, 1), (u32::MAX - 3 * c as u32, 1)]);
    let mut pages: Vec<u32> = (0..=3 * c as u32).map(|page| first + page * apart).collect();
    let percent = random.pick(&[0, 30, 50, 80, 100]);
    let mut at = HEADER;
    for (list, length) in lengths.into_iter().enumerate() {
        dir[4 + list] = length as u32;
        for _ in 0..length {
            dir[at] = pages.swap_remove(random.below(pages.len()));
            dir[at + 1] = odd_flags(random, policy, list, percent);
            at += 2;
        }
    }
    dir
}

fn near_limits(random: &mut Random, most: usize) -> usize {
    match random.below(5) {
        0 => 0,
        1 => most,
        _ => random.within(0, most),
    }
}

fn odd_lengths(random: &mut Random, policy: u32, c: usize) -> [usize; 4] {
    let cached = if random.chance(90) { c } else { random.below(c) };
    if t1_alone(policy) {
        return [cached, 0, 0, 0];
    }
    let t1 = near_limits(random, cached);
    if cached < c {
        return [t1, cached - t1, 0, 0];
    }
    let history = near_limits(random, c);
    let b1 = if policy == CAR { near_limits(random, history.min(c - t1)) } else { near_limits(random, history) };
    [t1, c - t1, b1, history - b1]
}

fn odd_flags(random: &mut Random, policy: u32, list: usize, percent: usize) -> u32 {
    let bit = (keeps_bits(policy) && random.chance(percent)) as u32;
    let long = if policy == CART { 2 } else { 0 };
    match list {
        0 => bit + long * random.below(2) as u32,
        1 => bit + long,
        2 => 0,
        _ => long,
    }
}

// ---- runs ----

fn runs(random: &mut Random, count: usize) -> Vec<Call> {
    let mut calls = Vec::with_capacity(count);
    while calls.len() < count {
        let policy = random.within(1, 5) as u32;
        let c = match random.below(100) {
            0..=54 => random.within(1, 16),
            55..=77 => random.within(17, 128),
            78..=91 => random.within(129, 1023),
            _ => LARGEST_C as usize,
        };
        let mut dir = fresh_directory(policy, c as u32);
        if random.chance(40) {
            dir = odd_directory(random, policy, c);
        } else if c > 128 && random.chance(70) {
            let filling = filling_runs(&mut dir, c);
            calls.extend(filling);
        }
        for _ in 0..random.within(1, 6) {
            let call = one_run(random, &dir, c);
            if let Call::Run { trace, answers, .. } = &call {
                run(&mut dir, trace, &mut answers.clone());
            }
            calls.push(call);
        }
    }
    calls.truncate(count);
    calls
}

/// New pages until the directory is full and beyond, at most 1,000 in a run.
fn filling_runs(dir: &mut [u32], c: usize) -> Vec<Call> {
    let pages: Vec<u32> = (0..c as u32 + c as u32 / 3).collect();
    let mut calls = Vec::new();
    for trace in pages.chunks(1000) {
        let mut answers = vec![7; 4 * trace.len()];
        calls.push(Call::Run { dir: dir.to_vec(), trace: trace.to_vec(), answers: answers.clone() });
        run(dir, trace, &mut answers);
    }
    calls
}

fn one_run(random: &mut Random, dir: &[u32], c: usize) -> Call {
    let length = match random.below(20) {
        0..=1 => random.pick(&[0, 1, 999, 1000]),
        2 => random.within(1001, 1100),
        3..=8 => random.within(600, 1000),
        _ => random.within(0, 6 * c.min(120)),
    };
    let trace = if random.chance(15) { few_pages(random, c) } else { run_trace(random, &decode(dir), length, c) };
    let length = trace.len();
    let answers = match random.below(10) {
        0 => 4 * length - random.within(0, 4 * length.min(1)),
        1..=5 => 4 * length,
        6 => random.below(4 * length + 1),
        _ => 4 * length + random.within(1, 90),
    };
    Call::Run { dir: dir.to_vec(), trace, answers: random.words(answers) }
}

/// A long trace of few different pages, which all come again and again.
fn few_pages(random: &mut Random, c: usize) -> Vec<u32> {
    let kinds = random.within(2, 2 * c.min(20) + 1);
    let first = random.pick(&[0, 1, u32::MAX - kinds as u32 + 1]);
    (0..random.within(600, 1000)).map(|_| first + random.below(kinds) as u32).collect()
}

/// Pages now listed, new ones in a row, a window of pages asked for again, 0 and the largest.
fn run_trace(random: &mut Random, d: &Directory, length: usize, c: usize) -> Vec<u32> {
    let window = random.pick(&[c / 2 + 1, c, c + 1, 3 * c / 2 + 1, 2 * c, 3 * c]);
    let (again, listed) = (random.pick(&[0, 20, 50, 80]), random.pick(&[0, 20, 50]));
    let anywhere = random.word() / 2;
    let start = random.pick(&[0, 500, 5000, anywhere]);
    let before: Vec<u32> = [&d.t1, &d.t2, &d.b1, &d.b2].into_iter().flatten().map(|entry: &Entry| entry.page).collect();
    let mut trace: Vec<u32> = Vec::with_capacity(length);
    for at in 0..length {
        let draw = random.below(100);
        let page = match draw {
            0 => 0,
            1 => u32::MAX,
            _ if draw < 2 + again && at > 0 => trace[at - 1 - random.below(at.min(window))],
            _ if draw < 2 + again + listed && !before.is_empty() => random.pick(&before),
            _ if again == 20 => start + random.below(window) as u32,
            _ => start + at as u32,
        };
        trace.push(page);
    }
    trace
}

// ---- damaged directories ----

fn damaged(random: &mut Random, count: usize) -> Vec<Call> {
    (0..count)
        .map(|_| {
            let c = if random.chance(99) { random.within(1, 6) } else { random.within(7, 60) };
            let policy = random.pick(&DRAWN).1;
            let mut dir = odd_directory(random, policy, c);
            damage(random, &mut dir, c as u32);
            any_call(random, dir)
        })
        .collect()
}

/// A check, a request or a run on a directory that need not be sound.
pub fn any_call(random: &mut Random, dir: Vec<u32>) -> Call {
    let page = any_page_word(random, &dir);
    match random.below(3) {
        0 => Call::Check { dir },
        1 => Call::Request { dir, page },
        _ => damaged_run(random, dir, page),
    }
}

fn any_page_word(random: &mut Random, dir: &[u32]) -> u32 {
    if dir.len() > HEADER && random.chance(70) {
        return dir[HEADER + 2 * random.below((dir.len() - HEADER).div_ceil(2))];
    }
    random.below(9) as u32
}

fn damaged_run(random: &mut Random, dir: Vec<u32>, page: u32) -> Call {
    let length = if random.chance(1) { 1001 } else { random.below(6) };
    let trace: Vec<u32> = (0..length).map(|_| random.pick(&[page, 1, 2, 3, 0])).collect();
    let answers = if random.chance(80) { 4 * length } else { random.below(4 * length.min(900) + 1) };
    Call::Run { dir, trace, answers: random.words(answers) }
}

/// One word, two words or the length changed.
fn damage(random: &mut Random, dir: &mut Vec<u32>, c: u32) {
    match random.below(20) {
        0..=13 => damage_word(random, dir, c),
        14..=16 => (0..2).for_each(|_| damage_word(random, dir, c)),
        17 => dir.truncate(random.below(dir.len())),
        18 => dir.truncate(dir.len() - random.within(1, 4)),
        _ => dir.extend(vec![random.below(2) as u32; random.within(1, 8)]),
    }
}

fn damage_word(random: &mut Random, dir: &mut [u32], c: u32) {
    let at = if random.chance(45) { random.below(HEADER) } else { random.within(HEADER, dir.len() - 1) };
    let word = dir[at];
    let other = dir[HEADER + 2 * random.below(2 * c as usize)];
    let near = [word.wrapping_add(1), word.wrapping_sub(1), word ^ 1, word ^ 2, word ^ 3, word ^ 4, word ^ (1 << 31)];
    let known = [0, 1, 2, 3, 4, 5, 6, c, c + 1, 2 * c, 2 * c + 1, u32::MAX, u32::MAX - c, 1 << 31, 1024, 1025];
    dir[at] = match random.below(4) {
        0 | 1 => random.pick(&near),
        2 => random.pick(&known),
        _ if random.chance(70) => other,
        _ => random.word(),
    };
}

// ---- fresh ----

fn fresh_calls(random: &mut Random, count: usize) -> Vec<Call> {
    let sizes = [0, 1, 1, 2, 2, 3, 7, 12, 64, 1023, 1024, 1024, 1025, 1026, 1 << 30, 1 << 31, u32::MAX];
    (0..count)
        .map(|_| {
            let policy = random.pick(&[0, 1, 1, 1, 2, 2, 2, 3, 3, 4, 4, 5, 5, 6, 257, 1 << 31, u32::MAX]);
            let c = random.pick(&sizes);
            let right = HEADER + 4 * c.min(1025) as usize;
            let length = match random.below(10) {
                0..=5 => right,
                6 => right + random.within(1, 8),
                7 => right - random.within(1, 8),
                8 => random.within(0, 12),
                _ => random.pick(&[0, 7, 8, 12, 16, 4103, 4104, 4105, 4200]),
            };
            Call::Fresh { policy, c, dir: random.words(length.min(4200)) }
        })
        .collect()
}

// ---- sheets ----

fn sheets(random: &mut Random, count: usize) -> Vec<Call> {
    (0..count)
        .map(|_| {
            let sheet = any_sheet(random);
            if random.chance(45) {
                let length = random.pick(&[1000, 1000, 1000, 1000, 1001, 1100, 999, 0]);
                return Call::Read { sheet, pages: random.words(length) };
            }
            let lines = sheet.iter().filter(|&&byte| byte == b'\n').count();
            let line = match random.below(12) {
                0 => 0,
                1 => u32::MAX,
                2 => lines as u32,
                3 => lines as u32 + 1,
                4 => lines as u32 + 2,
                5 => random.word(),
                6 => random.within(1, lines + 1) as u32,
                _ => random.within(1, lines.min(9) + 1) as u32,
            };
            Call::LookUp { sheet, line }
        })
        .collect()
}

fn any_sheet(random: &mut Random) -> Vec<u8> {
    match random.below(100) {
        0 => bids::long(random),
        1 => bids::many_pages(random),
        2..=11 => bids::letters(random),
        _ => bids::any_short(random),
    }
}

// ---- results ----

fn results(random: &mut Random, count: usize) -> Vec<Call> {
    (0..count)
        .map(|_| {
            let outcome = Outcome {
                policy: random.pick(&[1, 1, 1, 1, 2, 2, 2, 2, 3, 3, 4, 4, 5, 5, 0, 6, 258, u32::MAX]),
                pages: border(random) as u32,
                requests: border(random) as u32,
                hits: border(random) as u32,
                misses: border(random) as u32,
                evictions: border(random) as u32,
                steps: border(random) as u32,
                wait: wait(random),
            };
            let length = random.pick(&[256, 256, 256, 257, 400, 255, 0, 100]);
            let out = (0..length).map(|_| random.word() as u8 | 1).collect();
            Call::Write { outcome, out }
        })
        .collect()
}

/// A number at a border of digit counts, 32 bits.
fn border(random: &mut Random) -> u64 {
    let ten = 10u64.pow(random.below(10) as u32);
    let (less, any) = (random.next() % ten, random.word() as u64);
    random.pick(&[0, ten - 1, ten, ten + 1, less, u32::MAX as u64, any])
}

fn wait(random: &mut Random) -> u64 {
    let ten = 10u64.pow(random.below(20) as u32);
    let (less, any) = (random.next() % ten, random.next());
    random.pick(&[0, ten - 1, ten, ten + 1, less, u64::MAX, u32::MAX as u64, 1 << 32, any])
}

// ---- council ----

fn council(random: &mut Random, count: usize) -> Vec<Call> {
    (0..count)
        .map(|_| {
            let unit = traces::any_unit(random);
            let file = traces::any_trace(random, unit);
            let short = random.below(1000);
            let length = random.pick(&[1000, 1000, 1000, 1000, 1000, 1000, 1000, 1000, 1001, 1001, 1100, 1100, 999, short]);
            Call::Council { file, unit, pages: random.words(length) }
        })
        .collect()
}

// ---- programs ----

/// Sheets for score and ledger: the worked one under all policies, blank, and blank but for a CR; the limits; then so many
/// freely drawn ones.
pub fn program_sheets(random: &mut Random, drawn: usize) -> Vec<Vec<u8>> {
    let mut sheets = bids::NAMES.map(bids::worked).to_vec();
    sheets.extend(["", "\r"].map(bids::worked));
    sheets.extend([vec![], bids::of_length("cart", 16000), bids::of_length("cart", 16001)]);
    let mut over = bids::worked("car");
    over.resize(40_000, b'\n');
    sheets.extend([over, bids::of_pages(random, 1000), bids::of_pages(random, 1001), vec![b'='; 17_000], vec![b'\n'; 100_000]]);
    sheets.extend((0..drawn).map(|_| drawn_sheet(random)));
    sheets
}

/// The larger part good sheets whose replay evicts, the others good, damaged, full and long ones.
fn drawn_sheet(random: &mut Random) -> Vec<u8> {
    match random.below(100) {
        0..=59 => evicting_sheet(random),
        60..=64 => {
            let count = random.within(0, 1000);
            bids::of_pages(random, count)
        }
        65..=69 => bids::good(random),
        70..=79 => bids::odd_value(random),
        80..=84 => bids::byte_damage(random),
        85..=89 => bids::line_damage(random),
        90..=92 => bids::two_wrong(random),
        93..=96 => bids::many_pages(random),
        _ => bids::long(random),
    }
}

/// A sheet of 2 to 1,000 pages with a c below their count (refused 7 only with some 998 long numbers or more).
fn evicting_sheet(random: &mut Random) -> Vec<u8> {
    let count = match random.below(20) {
        0 => 1000,
        1..=5 => random.within(2, 60),
        _ => random.within(61, 1000),
    };
    let c = match random.below(10) {
        0..=4 => random.within(1, count.min(13) - 1),
        5..=7 => random.within(1, count / 3 + 1),
        _ => random.within(1, count - 1),
    };
    let (name, policy) = random.pick(&DRAWN);
    let trace = evicting_trace(random, decode(&fresh_directory(policy, c as u32)), count);
    bids::good_of(name, &c.to_string(), &bids::good_cost(random), &trace)
}

/// Pages served as they are drawn: listed ones, those of the histories, new ones in a row or of few kinds.
fn evicting_trace(random: &mut Random, mut d: Directory, count: usize) -> Vec<u32> {
    let c = d.c as usize;
    let kinds = random.within(c + 1, 3 * c) as u32;
    let large = 3 * c > count;
    let in_a_row = random.chance(if large { 90 } else { 30 });
    let hits = if large { random.pick(&[1, 5, 20]) } else { random.pick(&[5, 20, 35, 60]) };
    let history = random.pick(&[0, 15, 35]);
    let first = random.pick(&[0, 1, 1000, u32::MAX - kinds.max(count as u32)]);
    let any = random.word() | 1;
    let factor = random.pick(&[1, 1, any]);
    let mut trace = Vec::with_capacity(count);
    for at in 0..count as u32 {
        let (from, kinds) = if in_a_row { (first + at, 1) } else { (first, kinds) };
        let page = next_page(random, &d, hits, history, from, kinds);
        serve(&mut d, page);
        trace.push(page.wrapping_mul(factor));
    }
    trace
}

// ---- wire ----

/// Streams that end well, stop in the middle, or hold a call that cannot be read.
pub fn wire_streams(random: &mut Random, count: usize) -> Vec<Vec<u8>> {
    let mut streams = ended_streams(random);
    let unreadable: [&[u32]; 22] = [
        &[0], &[9], &[u32::MAX], &[1, 1, 1, 4201], &[2, 4201], &[2, u32::MAX], &[3, 1 << 30], &[4, 0, 1101], &[4, 0, 0, 4501],
        &[5, 17001], &[5, 0, 1101], &[5, 1, 256], &[6, 2, 61, 266], &[6, 17001], &[7, 1, 1, 1, 1, 1, 1, 1, 1, 1, 401],
        &[7, 1, 1, 1, 1, 1, 1, 1, 1, 1, 1, 256], &[8, 17001], &[8, 1, 256], &[8, 0, 1, 1101], &[1], &[3, 0], &[8, 0],
    ];
    for stop in unreadable {
        let mut words = few_calls(random);
        words.extend_from_slice(stop);
        if !matches!(stop, [1] | [3, 0] | [8, 0]) {
            words.extend(vec![0; 20_000]);
        }
        streams.push(to_bytes(&words));
    }
    while streams.len() < count {
        let mut bytes = to_bytes(&few_calls(random));
        bytes.truncate(random.below(bytes.len()));
        streams.push(bytes);
    }
    streams.truncate(count);
    streams
}

/// No call, 100,000 calls, these and one that cannot be read but need not be; whole calls, and 1 or 3 bytes more.
fn ended_streams(random: &mut Random) -> Vec<Vec<u8>> {
    let many = [2, 0].repeat(100_000);
    let over = [&many[..], &[9]].concat();
    let whole = to_bytes(&few_calls(random));
    let (one, three) = ([&whole[..], &[2]].concat(), [&whole[..], &[2, 0, 0]].concat());
    vec![vec![], to_bytes(&many), to_bytes(&over), whole, one, three]
}

/// One or two calls of each group.
fn few_calls(random: &mut Random) -> Vec<u32> {
    let mut words = Vec::new();
    for group in &GROUPS {
        let count = random.within(1, 2);
        (group.draw)(random, count).iter().for_each(|call| put_call(call, &mut words));
    }
    words
}

#[cfg(test)]
mod tests {
    use super::*;
    use crate::directory::check;
    use crate::policy::{BLANK, CLOCK};
    use crate::probe::probe;
    use crate::programs::score;
    use crate::sheet::read_whole;

    const LISTED: usize = 15;

    /// Whether each kind of each policy came more often than this, and none that the policy has not.
    fn all_kinds(kinds: &[[usize; 5]; 6], often: usize) -> bool {
        (1..=5).all(|policy| {
            let (has, has_not) = kinds[policy].split_at(if t1_alone(policy as u32) { 3 } else { 5 });
            has.iter().all(|&count| count > often) && has_not.iter().all(|&count| count == 0)
        })
    }

    #[test]
    fn odd_directories_are_sound_and_stay_so() {
        let mut random = Random::new(9);
        let mut met = [0; 6];
        for call in odd(&mut random, 20_000) {
            let Call::Request { mut dir, page } = call else { panic!() };
            assert_eq!(check(&dir), 0);
            let before = decode(&dir);
            let (number, answer) = request(&mut dir, page);
            let d = decode(&dir);
            let listed = d.t1.iter().chain(d.t2.iter()).any(|entry| entry.page == page);
            assert!(number == 0 && check(&dir) == 0 && listed);
            let most = match before.policy {
                CAR | CLOCK => before.c + 1,
                CART => 2 * before.c + 1,
                _ => 1,
            };
            assert!(answer.moves as i64 <= most);
            met[before.policy as usize] += (answer.moves as i64 == most) as usize;
        }
        assert!(met[1..].iter().all(|&count| count > 0), "each bound is met: {met:?}");
    }

    #[test]
    fn every_kind_of_answer_is_drawn() {
        let mut random = Random::new(4);
        let mut kinds = [[0; 5]; 6];
        for call in requests(&mut random, 50_000) {
            let Call::Request { mut dir, page } = call else { panic!() };
            kinds[dir[0] as usize][request(&mut dir, page).1.kind as usize] += 1;
        }
        assert!(all_kinds(&kinds, 400), "{kinds:?}");
    }

    /// How often each number is answered, by group and op.
    #[test]
    fn every_number_is_drawn() {
        let mut drawn = std::collections::BTreeMap::new();
        for group in &GROUPS {
            let count = (group.cases / 50).min(4000);
            for call in (group.draw)(&mut Random::new(6), count) {
                let key = (group.name, crate::probe::op(&call), crate::probe::answer(call)[0]);
                *drawn.entry(key).or_insert(0) += 1;
            }
        }
        println!("{drawn:?}");
        let wanted = [("runs", 4, "056"), ("damaged", 2, "01234"), ("damaged", 3, "01234"), ("damaged", 4, "012346"),
            ("fresh", 1, "0123"), ("sheets", 5, "01256789"), ("sheets", 6, "078"), ("result", 7, "016"),
            ("rules", 2, "014"), ("rules", 3, "014"), ("rules", 4, "0146"), ("council", 8, "0567ab")];
        for (group, op, numbers) in wanted {
            for number in numbers.chars().filter_map(|digit| digit.to_digit(16)) {
                assert!(drawn.contains_key(&(group, op, number)), "{group} {op} {number}");
            }
        }
    }

    /// Blank are more than one in ten of the sheets that the probe reads or that are scored, and of the good ones.
    #[test]
    fn blanks_are_often_drawn() {
        let read = sheets(&mut Random::new(6), 4_000).into_iter().filter_map(|call| match call {
            Call::Read { sheet, pages } if pages.len() >= 1000 => Some(sheet),
            _ => None,
        });
        for drawn in [read.collect(), program_sheets(&mut Random::new(6), 970)] {
            let blank: Vec<&Vec<u8>> = drawn.iter().filter(|sheet| sheet.starts_with(b"policy=\n")).collect();
            let good = drawn.iter().filter(|sheet| read_whole(sheet, BLANK).is_ok()).count();
            let both = blank.iter().filter(|sheet| read_whole(sheet, BLANK).is_ok()).count();
            println!("{} drawn, {} blank, {good} good, {both} both", drawn.len(), blank.len());
            assert!(10 * blank.len() > drawn.len() && 10 * both > good && both > 40);
        }
    }

    #[test]
    fn full_directories_of_the_largest_size_are_run() {
        let (mut evicting, mut kinds) = ([0; 6], [0; 5]);
        for call in runs(&mut Random::new(7), 3_000) {
            let Call::Run { mut dir, trace, mut answers } = call else { panic!() };
            let (number, tally) = run(&mut dir, &trace, &mut answers);
            if number == 0 && dir[1] == LARGEST_C && tally.evictions > 0 {
                evicting[dir[0] as usize] += 1;
                (0..trace.len()).for_each(|at| kinds[answers[4 * at] as usize] += 1);
            }
        }
        println!("{evicting:?} {kinds:?}");
        assert!(evicting[1..].iter().all(|&count| count > 2) && kinds.iter().all(|&count| count > 0), "{evicting:?}");
    }

    #[test]
    fn most_drawn_sheets_are_accepted_and_evict() {
        for seed in 1..=6 {
            let sheets = program_sheets(&mut Random::new(seed), 210).split_off(LISTED);
            let texts: Vec<String> = sheets.iter().map(|sheet| String::from_utf8(score(sheet)).unwrap()).collect();
            let accepted: Vec<&String> = texts.iter().filter(|text| text.starts_with("policy=")).collect();
            let evicting = accepted.iter().filter(|text| !text.contains("\nevictions=0\n")).count();
            println!("{} drawn, {} accepted, {evicting} with evictions", texts.len(), accepted.len());
            assert!(texts.len() == 210 && accepted.len() >= 105 && evicting >= 70);
        }
    }

    /// Every refusal of a sheet; and among those that evict, every kind of every policy and every size of c and length.
    #[test]
    fn drawn_sheets_are_of_all_kinds() {
        let (mut refusals, mut kinds, mut sizes) = ([0; 10], [[0; 5]; 6], [[0; 5]; 2]);
        for sheet in program_sheets(&mut Random::new(3), 970).split_off(LISTED) {
            let read = read_whole(&sheet, BLANK);
            refusals[read.as_ref().map_or_else(|refused| refused.number as usize, |_| 0)] += 1;
            let Ok((bid, pages)) = read else { continue };
            let (mut dir, mut answers) = (fresh_directory(bid.policy, bid.c), vec![0; 4000]);
            if run(&mut dir, &pages, &mut answers).1.evictions == 0 {
                continue;
            }
            (0..bid.count as usize).for_each(|at| kinds[bid.policy as usize][answers[4 * at] as usize] += 1);
            sizes[0][(bid.count as usize - 1) / 200] += 1;
            sizes[1][[1, 12, 100, 300].iter().filter(|&&below| bid.c > below).count()] += 1;
        }
        println!("refusals {refusals:?} kinds {kinds:?} lengths and sizes {sizes:?}");
        assert!([1, 2, 5, 7, 8, 9].iter().all(|&number| refusals[number] > 0), "{refusals:?}");
        assert!(all_kinds(&kinds, 1000), "{kinds:?}");
        assert!(sizes.iter().flatten().all(|&count| count > 5), "{sizes:?}");
    }

    #[test]
    fn streams_end_in_both_ways() {
        let streams = wire_streams(&mut Random::new(8), 44);
        let error = |stream: &Vec<u8>| probe(stream, &mut Vec::new()).map_or_else(|why| why.to_string(), |()| String::new());
        let errors: Vec<String> = streams.iter().map(error).collect();
        assert_eq!(streams.len(), 44);
        assert_eq!(errors[..4], ["", "", "", ""]);
        assert!(errors[4..28].iter().all(|text| text.ends_with(" cannot be read")), "{errors:?}");
        assert!(streams[28..].iter().any(|stream| stream.len() % 4 != 0));
    }

    #[test]
    fn every_call_can_be_read() {
        let mut random = Random::new(5);
        for group in &GROUPS {
            for call in (group.draw)(&mut random, 300) {
                let mut words = Vec::new();
                put_call(&call, &mut words);
                let bytes = to_bytes(&words);
                let mut stream = crate::probe::Words::new(&bytes);
                assert_eq!(crate::probe::read_call(&mut stream), Some(call));
                assert_eq!(stream.bytes_left(), 0);
            }
        }
    }
}
