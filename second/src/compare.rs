// Drives the other side's probe, score, ledger, copy and spc as child processes with seeded inputs and compares
// every answer word, all lent memory and the processes' ends with our own; tells each group's first difference.

use crate::copy::{copy_of, means_as_before};
use crate::copy_sheets::copy_sheets;
use crate::drive::{drive, our_own, Did, End, Status};
use crate::inputs::{program_sheets, wire_streams, Group, GROUPS};
use crate::probe::{answer, op, probe, put_call, shape, to_bytes, Call, Words};
use crate::programs::{copy, ledger, score, spc, unit_of};
use crate::random::Random;
use crate::spc_starts::{spc_starts, Start};
use crate::tell;

const LONGEST_BUFFER: usize = 20_000;

/// Cases and differences of one group so far.
struct Count {
    name: &'static str,
    cases: usize,
    differences: usize,
}

/// The whole comparison; gives the number of differences.
pub fn compare(seed: u64, full: bool, command: &[String]) -> usize {
    let mut counts = Vec::new();
    for (at, group) in GROUPS.iter().enumerate() {
        counts.push(compare_group(group, &mut random_of(seed, at as u64), full, command));
    }
    let mut random = random_of(seed, 900);
    counts.push(compare_programs([&mut random, &mut random_of(seed, 901), &mut random_of(seed, 902)], full, command));
    counts.push(compare_wire(&mut random, full, command));
    let cases: usize = counts.iter().map(|count| count.cases).sum();
    let differences = counts.iter().map(|count| count.differences).sum();
    println!("seed={seed} cases={cases} differences={differences}");
    differences
}

/// Each part of the comparison has its own draws.
fn random_of(seed: u64, part: u64) -> Random {
    Random::new(seed.wrapping_mul(1000).wrapping_add(part))
}

impl Count {
    fn new(name: &'static str) -> Count {
        Count { name, cases: 0, differences: 0 }
    }

    /// One more case; its difference is told if it is the group's first.
    fn case(&mut self, difference: Option<impl FnOnce() -> String>) {
        self.cases += 1;
        if let Some(text) = difference {
            self.differences += 1;
            if self.differences == 1 {
                println!("first difference of group {} after {} cases:\n{}", self.name, self.cases, text());
            }
        }
    }

    fn print(self) -> Count {
        println!("group={} cases={} differences={}", self.name, self.cases, self.differences);
        self
    }
}

// ---- probe calls ----

fn compare_group(group: &Group, random: &mut Random, full: bool, command: &[String]) -> Count {
    let mut count = Count::new(group.name);
    let mut left = if full { group.cases } else { group.cases / 10 };
    while left > 0 {
        let now = left.min(group.at_once);
        let calls = (group.draw)(random, now);
        compare_calls(&calls, &mut count, command);
        left -= now;
    }
    count.print()
}

/// One probe process for all these calls; its end counts with the last one.
fn compare_calls(calls: &[Call], count: &mut Count, command: &[String]) {
    let mut words = Vec::new();
    calls.iter().for_each(|call| put_call(call, &mut words));
    let (good, did) = (End::good(), drive(command, &[b"probe"], to_bytes(&words)));
    let mut stream = Words::new(&did.output);
    for (at, call) in calls.iter().enumerate() {
        let ours = answer(call.clone());
        let theirs = take_answer(&mut stream, op(call));
        let last = at + 1 == calls.len();
        let more = last && stream.bytes_left() > 0;
        let differs = theirs.as_ref() != Some(&ours) || more || (last && !did.end.alike(&good));
        let text = || tell::difference(call, &ours, theirs.as_deref(), more) + &tell::ends(&good, &did.end);
        count.case(differs.then_some(text));
    }
}

/// The next answer in the shape of its op, by the lengths the other side gives.
fn take_answer(stream: &mut Words, op: u32) -> Option<Vec<u32>> {
    let (numbers, buffers) = shape(op);
    let mut words = Vec::new();
    for _ in 0..numbers {
        words.push(stream.word()?);
    }
    for _ in 0..buffers {
        let buffer = stream.buffer(LONGEST_BUFFER)?;
        crate::probe::put_buffer(&mut words, &buffer);
    }
    Some(words)
}

// ---- programs and wire ----

/// Score and ledger over the same sheets, copy and spc over their own inputs, which have their own draws.
fn compare_programs([random, for_copies, for_starts]: [&mut Random; 3], full: bool, command: &[String]) -> Count {
    let mut count = Count::new("programs");
    for sheet in program_sheets(random, if full { 970 } else { 210 }) {
        for (name, program) in [("score", score as fn(&[u8]) -> Vec<u8>), ("ledger", ledger)] {
            let (ours, theirs) = both_sides(name, program, &sheet, command);
            count.case((!theirs.alike(&ours)).then_some(|| tell::texts(name, &sheet, &ours, &theirs)));
        }
    }
    for sheet in copy_sheets(for_copies, if full { 931 } else { 45 }) {
        compare_copy(&sheet, &mut count, command);
    }
    for start in spc_starts(for_starts, if full { 350 } else { 10 }) {
        compare_start(&start, &mut count, command);
    }
    count.print()
}

/// What our program and the other side's do over the sheet.
fn both_sides(name: &str, program: fn(&[u8]) -> Vec<u8>, sheet: &[u8], command: &[String]) -> (Did, Did) {
    let ours = Did { output: program(sheet), end: End::good() };
    (ours, drive(command, &[name.as_bytes()], sheet.to_vec()))
}

/// Both sides alike; and if the sheet is copied, theirs means what the sheet meant, which tells a fault of ours as well.
fn compare_copy(sheet: &[u8], count: &mut Count, command: &[String]) {
    let (ours, theirs) = both_sides("copy", copy, sheet, command);
    let means_other = copy_of(sheet).is_ok() && !means_as_before(sheet, &theirs.output);
    let differs = means_other || !theirs.alike(&ours);
    count.case(differs.then_some(|| tell::copies(sheet, &ours, &theirs, means_other)));
}

/// Both sides alike; where the arguments name no unit, theirs tells so in its own words.
fn compare_start(start: &Start, count: &mut Count, command: &[String]) {
    let words: Vec<&[u8]> = [&b"spc"[..]].into_iter().chain(start.arguments.iter().map(Vec::as_slice)).collect();
    let theirs = drive(command, &words, start.trace.clone());
    let (ours, alike) = match unit_of(&start.arguments) {
        Some(unit) => {
            let ours = Did { output: spc(&start.trace, unit), end: End::good() };
            let alike = theirs.alike(&ours);
            (ours, alike)
        }
        None => {
            let usage = End { error: b"spc UNIT\n".to_vec(), status: Status::Number(2) };
            (Did { output: Vec::new(), end: usage }, theirs.is_usage())
        }
    };
    count.case((!alike).then_some(|| tell::starts(&start.arguments, &start.trace, &ours, &theirs)));
}

fn compare_wire(random: &mut Random, full: bool, command: &[String]) -> Count {
    let mut count = Count::new("wire");
    for input in wire_streams(random, if full { 44 } else { 30 }) {
        let ours = our_own(probe, &input);
        let theirs = drive(command, &[b"probe"], input.clone());
        count.case((!theirs.alike(&ours)).then_some(|| tell::streams(&input, &ours, &theirs)));
    }
    count.print()
}

#[cfg(test)]
mod tests {
    use super::*;

    /// Two checks of nothing, both refused 3, against a shell that answers so and then ends as it is told.
    fn two_checks(ending: &str) -> (usize, usize) {
        let text = format!("cat >/dev/null; printf '\\003\\000\\000\\000\\003\\000\\000\\000'; {ending}");
        let command = ["sh", "-c", text.as_str(), "sh"].map(str::to_string);
        let mut count = Count::new("checks");
        compare_calls(&[Call::Check { dir: vec![] }, Call::Check { dir: vec![] }], &mut count, &command);
        (count.cases, count.differences)
    }

    /// Differences of the copies of these sheets against a shell's.
    fn shell_copies(text: &str, sheets: &[Vec<u8>]) -> usize {
        let command = ["sh", "-c", text, "sh"].map(str::to_string);
        let mut count = Count::new("copies");
        sheets.iter().for_each(|sheet| compare_copy(sheet, &mut count, &command));
        count.differences
    }

    #[test]
    fn copies_are_compared() {
        let good = ["", "car", "cart", "lru"].map(crate::bids::worked);
        let refused = [crate::bids::of_length("", 15_998), crate::bids::of_length("lru", 16_001)];
        let seven = "cat >/dev/null; printf 'refused=7\\nline=0\\n'";
        assert_eq!(shell_copies("sed '1s/=$/=car/'", &good), 0);
        assert_eq!((shell_copies("cat", &good), shell_copies("sed '1s/=$/=cart/'", &good)), (1, 1));
        assert_eq!((shell_copies("sed '1s/=.*$/=car/'", &good), shell_copies("sed '1s/=$/=car/'; exit 1", &good)), (2, 4));
        assert_eq!((shell_copies(seven, &refused), shell_copies("sed '1s/=$/=car/'", &refused), shell_copies(seven, &good)), (0, 2, 4));
    }

    /// Differences of the starts against a shell's.
    fn shell_starts(text: &str, starts: &[(&[&str], &[u8])]) -> usize {
        let command = ["sh", "-c", text, "sh"].map(str::to_string);
        let mut count = Count::new("starts");
        for (arguments, trace) in starts {
            let arguments = arguments.iter().map(|argument| argument.as_bytes().to_vec()).collect();
            compare_start(&Start { arguments, trace: trace.to_vec() }, &mut count, &command);
        }
        assert_eq!(count.cases, starts.len());
        count.differences
    }

    #[test]
    fn starts_are_compared() {
        let (one, ten, none): (&[u8], &[u8], &[u8]) = (b"7,8,1,r,0.0\n", b"7,8,1,r,0\n", b"7,8,1,w,0.0\n");
        let named: [(&[&str], &[u8]); 3] = [(&["7"], one), (&["007"], ten), (&["7"], none)];
        let wrong: [(&[&str], &[u8]); 4] = [(&[], one), (&[""], one), (&["7", "7"], one), (&["x"], ten)];
        let right = "case $1$(cat) in spc*w,0.0) ;; spc*r,0) echo refused=10; echo line=1 ;; spc*) echo page=1 ;; esac";
        assert_eq!((shell_starts(right, &named), shell_starts("echo page=1", &named), shell_starts(right, &wrong)), (0, 2, 4));
        assert_eq!((shell_starts("echo UNIT >&2; exit 2", &wrong), shell_starts("echo UNIT >&2; echo more >&2; exit 1", &wrong)), (0, 0));
        for other in ["echo UNIT >&2", "exit 2", "echo UNIT; exit 2", "echo UNIT; echo UNIT >&2; exit 2", "echo UNIT >&2; exit 101"] {
            assert_eq!(shell_starts(other, &wrong), 4, "{other}");
        }
        assert_eq!(shell_starts("echo UNIT >&2; exit 2", &named), 3);
    }

    #[test]
    fn the_end_of_a_probe_counts_with_its_last_call() {
        assert_eq!(two_checks("exit 0"), (2, 0));
        for ending in ["exit 1", "echo broken >&2", "echo broken >&2; exit 1", "kill -9 $$", "printf x"] {
            assert_eq!(two_checks(ending), (2, 1), "{ending}");
        }
    }
}
