// Traces in the council's format as bytes: right ones, near misses of every kind, and those at the limits of request 3.
// Used by the group "council" and by the starts of the program spc.

use crate::random::Random;

/// The blocks of all pages up to 4,294,967,295, and their bytes.
const BLOCKS: u64 = 8 << 32;
const BYTES: u64 = 4096 << 32;

const UNIT: usize = 0;
const LBA: usize = 1;
const SIZE: usize = 2;
const OPCODE: usize = 3;
const TIMESTAMP: usize = 4;

const SIZES: [u64; 12] = [0, 1, 511, 512, 513, 4095, 4096, 4097, 8191, 8192, 8193, 16384];

/// 8 · 2^32, 2^32, 2^55, 2^64, 2^119, 2^128 and neighbours, of which some wrap, alone or times 512; forty digits.
const FAR: [&str; 16] = [
    "34359738367", "34359738368", "34359738376", "4294967296", "36028797018963968", "36028797018963976", "18446744073709551615",
    "18446744073709551616", "18446744073709551624", "664613997892457936451903530140172288", "340282366920938463463374607431768211455",
    "340282366920938463463374607431768211456", "340282366920938463463374607431768211464", "1000000000000000000000000000000000000000",
    "9999999999999999999999999999999999999999", "1111111111111111111111111111111111111111",
];
/// 2^55, 2^64, 2^119 and 2^128, and a page more.
const WRAPPED_LBAS: [&str; 8] = [
    "36028797018963968", "36028797018963976", "18446744073709551616", "18446744073709551624", "664613997892457936451903530140172288",
    "664613997892457936451903530140172296", "340282366920938463463374607431768211456", "340282366920938463463374607431768211464",
];
/// 2^32, 2^64 and 2^128, some bytes less and some more.
const WRAPPED_SIZES: [&str; 9] = [
    "4294967296", "4294967808", "18446744073709547520", "18446744073709551104", "18446744073709551615", "18446744073709551616",
    "18446744073709552128", "340282366920938463463374607431768211456", "340282366920938463463374607431768212000",
];
const NO_NUMBERS: [&str; 20] = [
    "", " ", "+1", "-1", "-0", " 1", "1 ", "1.0", "0x1", "a", "1a", "a1", "1\r", "1\t", "\0", "1_0", "1e3", "r", "\u{661}", "8:1",
];
const NO_OPCODES: [&str; 20] = [
    "", "x", "rr", "RR", "ww", "rw", "RW", "Rw", " r", "r ", "R\r", "w\r", "0", "1", "read", "W.", "q", "s", "\0", "\u{fc}",
];
const NO_TIMESTAMPS: [&str; 28] = [
    "", ".", "0", "17", "1.", "17.", ".1", ".551706", "1..1", "1.1.1", "1.1.", "..", ".1.1", "1.1\r", "1.\r", "1.1 ", " 1.1", "+1.1", "-1.1",
    "1.-1", "1.+1", "1 .1", "1. 1", "1:1", "1,1", "a.b", "1.1e5", "0x1.1",
];
const TIMESTAMPS: [&str; 6] = ["0.0", "00.00", "0.551706", "1.609859", "12345678901234567890.12345678901234567890", "000000000000000000001.1"];
const FURTHER: [&str; 16] = [
    ",Alpha/NT", ",,", ",,,", ",a,b,c", ",,x", ",x,", ",\r", ", ", ",0.1", ",0,8,512,r,0.1", ",\0", ",\"q\"", ",page=1", ",.", ",\u{fc}", ",#",
];
const NO_LINES: [&str; 16] = [
    "", ",", ",,,,", ",,,,,", " ", "\r", "# trace", "ASU,LBA,Size,Opcode,Timestamp", "0;8;512;r;0.1", "0 8 512 r 0.1", "0, 8, 512, r, 0.1",
    "page=1", ",0,8,512,r,0.1", "0,,8,512,r,0.1", "\u{feff}0,8,512,r,0.1", "r,0,8,512,0.1",
];

/// A line's fields, the further ones with their commas.
#[derive(Clone)]
struct Line {
    fields: Vec<String>,
    further: Vec<u8>,
}

fn of_lines(lines: &[Line]) -> Vec<u8> {
    lines.iter().flat_map(|line| [line.fields.join(",").as_bytes(), &line.further, b"\n"].concat()).collect()
}

/// A trace of these reads of unit 0, an LBA and a size each.
pub fn of_reads(reads: &[(u64, u64)]) -> Vec<u8> {
    reads.iter().flat_map(|(lba, size)| format!("0,{lba},{size},r,0.0\n").into_bytes()).collect()
}

pub fn any_unit(random: &mut Random) -> u32 {
    let any = random.word();
    random.pick(&[0, 0, 0, 0, 1, 1, 1, 7, 10, u32::MAX, u32::MAX, u32::MAX - 1, any])
}

/// A trace for the reads of this unit.
pub fn any_trace(random: &mut Random, unit: u32) -> Vec<u8> {
    match random.below(100) {
        0 => vec![],
        1..=16 => of_lines(&right(random, unit)),
        17..=42 => near_miss(random, unit),
        43..=53 => line_damage(random, unit),
        54..=61 => byte_damage(random, unit),
        62..=75 => limits(random, unit),
        76..=87 => many_pages(random, unit),
        88..=92 => two_wrong(random, unit),
        93..=95 => long(random, unit),
        _ => letters(random),
    }
}

// ---- right ones ----

/// Some records, most of them reads of the unit, of less than 200 pages.
fn right(random: &mut Random, unit: u32) -> Vec<Line> {
    let count = random.pick(&[1, 1, 2, 3, 5, 8, 12, 20]);
    (0..count).map(|_| right_line(random, unit)).collect()
}

fn right_line(random: &mut Random, unit: u32) -> Line {
    match random.below(10) {
        0..=5 => counted(random, unit),
        6 => empty(random, unit),
        _ => uncounted(random, unit),
    }
}

/// A read of the unit, far enough from the last page.
fn counted(random: &mut Random, unit: u32) -> Line {
    let (near, any) = (random.below(40) as u64, random.next() % (BLOCKS - 64));
    let lba = random.pick(&[0, 7, 7, 8, 8, 9, 15, 16, near, near, any, any, BLOCKS - 64]);
    let less = random.below(20_000) as u64;
    let size = if random.chance(80) { random.pick(&SIZES) } else { less };
    line(random, &unit.to_string(), &lba.to_string(), &size.to_string(), "rR")
}

/// A read of the unit of no size, from anywhere.
fn empty(random: &mut Random, unit: u32) -> Line {
    let lba = any_number(random);
    line(random, &unit.to_string(), &lba, "0", "rR")
}

/// A write, or another unit's record, of any place and size.
fn uncounted(random: &mut Random, unit: u32) -> Line {
    let (lba, size) = (any_number(random), any_number(random));
    if random.chance(50) {
        return line(random, &unit.to_string(), &lba, &size, "wW");
    }
    let other = other_unit(random, unit);
    line(random, &other, &lba, &size, "rRrRwW")
}

/// Near the unit, like it in 32 or 64 bits or in its first or last digits, or far.
fn other_unit(random: &mut Random, unit: u32) -> String {
    let (next, last, far) = ((unit ^ 1).to_string(), (u32::MAX - u32::from(unit == u32::MAX)).to_string(), random.pick(&FAR).to_string());
    let (wrapped, wide) = ((1u128 << 32) + unit as u128, (1u128 << 64) + unit as u128);
    let longer = [format!("1{unit}"), format!("{unit}1")];
    random.pick(&[next.clone(), next, last, far, wrapped.to_string(), wide.to_string(), longer[0].clone(), longer[1].clone()])
}

fn any_number(random: &mut Random) -> String {
    match random.below(5) {
        0..=1 => random.below(100).to_string(),
        2..=3 => random.pick(&SIZES).to_string(),
        _ => random.pick(&FAR).to_string(),
    }
}

/// A line of these numbers, one of these letters, and what else a right line has.
fn line(random: &mut Random, unit: &str, lba: &str, size: &str, letters: &str) -> Line {
    let opcode = random.pick(letters.as_bytes()) as char;
    let numbers = [unit, lba, size].map(|number| spelled(random, number));
    let rest = [opcode.to_string(), timestamp(random)];
    Line { fields: [&numbers[..], &rest].concat(), further: further(random) }
}

/// With leading zeros in one case of ten.
fn spelled(random: &mut Random, number: &str) -> String {
    let zeros = if random.chance(10) { random.pick(&[1, 1, 2, 3, 10, 40]) } else { 0 };
    "0".repeat(zeros) + number
}

fn timestamp(random: &mut Random) -> String {
    if random.chance(15) {
        return random.pick(&TIMESTAMPS).to_string();
    }
    format!("{}.{:06}", random.below(5000), random.below(1_000_000))
}

/// None, an empty one, several, or one of any bytes.
fn further(random: &mut Random) -> Vec<u8> {
    match random.below(10) {
        0..=4 => vec![],
        5..=6 => vec![b','],
        7..=8 => random.pick(&FURTHER).as_bytes().to_vec(),
        _ => {
            let bytes = (0..random.below(12)).map(|_| random.word() as u8).filter(|&byte| byte != b'\n');
            [b','].into_iter().chain(bytes).collect()
        }
    }
}

// ---- near misses ----

/// A right trace with one line, of the unit or not, that has a field of another form.
fn near_miss(random: &mut Random, unit: u32) -> Vec<u8> {
    let mut lines = right(random, unit);
    let at = random.below(lines.len());
    spoil(random, &mut lines[at]);
    of_lines(&lines)
}

/// A field of another form, dressed with a byte, taken out or doubled.
fn spoil(random: &mut Random, line: &mut Line) {
    let field = random.pick(&[UNIT, LBA, SIZE, OPCODE, OPCODE, TIMESTAMP, TIMESTAMP, TIMESTAMP]);
    match random.below(12) {
        0..=7 => line.fields[field] = wrong_field(random, field),
        8..=9 => {
            let text = line.fields[field].clone();
            let dress = random.pick(&["+", "-", " ", "\r", "\t", "\0", ".", ",", "0.", "\u{661}", "e"]);
            line.fields[field] = if random.chance(50) { dress.to_string() + &text } else { text + dress };
        }
        10 => drop(line.fields.remove(field)),
        _ => line.fields.insert(field, line.fields[field].clone()),
    }
}

fn wrong_field(random: &mut Random, field: usize) -> String {
    match field {
        OPCODE => random.pick(&NO_OPCODES),
        TIMESTAMP => random.pick(&NO_TIMESTAMPS),
        _ => random.pick(&NO_NUMBERS),
    }
    .to_string()
}

/// A right trace with lines swapped, dropped, doubled, of no record's form, of too few fields, or cut at its end.
fn line_damage(random: &mut Random, unit: u32) -> Vec<u8> {
    let mut lines = right(random, unit);
    let (one, two) = (random.below(lines.len()), random.below(lines.len()));
    match random.below(9) {
        0 => lines.swap(one, two),
        1 => drop(lines.remove(one)),
        2 => lines.insert(one, lines[two].clone()),
        3..=4 => {
            let no_line = Line { fields: vec![random.pick(&NO_LINES).to_string()], further: vec![] };
            lines.insert(random.pick(&[one, lines.len()]), no_line);
        }
        5 => lines[one].further.push(b'\r'),
        6 => lines[one] = Line { fields: lines[one].fields[..random.below(5)].to_vec(), further: vec![] },
        7 => {
            let mut trace = of_lines(&lines);
            trace.pop();
            return trace;
        }
        _ => {
            let mut trace = of_lines(&lines);
            trace.truncate(random.below(trace.len()));
            return trace;
        }
    }
    of_lines(&lines)
}

/// A right trace with one byte changed, dropped or doubled, or a byte put in.
fn byte_damage(random: &mut Random, unit: u32) -> Vec<u8> {
    let mut trace = of_lines(&right(random, unit));
    let at = random.below(trace.len());
    let odd = [0, 10, 13, 32, 43, 44, 45, 46, 47, 48, 49, 57, 58, 82, 87, 114, 119, 127, 128, 255];
    match random.below(5) {
        0 => trace[at] = random.pick(&odd),
        1 => trace[at] = random.word() as u8,
        2 => drop(trace.remove(at)),
        3 => trace.insert(at, trace[at]),
        _ => trace.insert(at, random.pick(&odd)),
    }
    trace
}

/// Lines of few letters.
fn letters(random: &mut Random) -> Vec<u8> {
    let length = random.pick(&[1, 2, 3, 5, 10, 20, 60]);
    (0..length).map(|_| random.pick(b"\n\n,,,,,0178..rRwW \r\xff")).collect()
}

// ---- limits ----

/// A right trace with a record at the last page, at 2^44 bytes or far off.
fn limits(random: &mut Random, unit: u32) -> Vec<u8> {
    let mut lines = right(random, unit);
    let at = random.within(0, lines.len());
    let at_limit = limit_line(random, unit);
    lines.insert(at, at_limit);
    of_lines(&lines)
}

/// In four of five a read of the unit.
fn limit_line(random: &mut Random, unit: u32) -> Line {
    let (lba, size) = match random.below(10) {
        0..=5 => at_last_page(random),
        6 => at_last_byte(random),
        _ => far(random),
    };
    let named = if random.chance(90) { unit.to_string() } else { other_unit(random, unit) };
    let letters = if random.chance(90) { "rR" } else { "wW" };
    line(random, &named, &lba, &size, letters)
}

/// From the last pages' blocks or the first ones past them, up to the end of the last page or about.
fn at_last_page(random: &mut Random) -> (String, String) {
    let back = random.pick(&[0, 1, 1, 1, 2, 7, 8, 8, 8, 9, 15, 16, 17, 24]);
    let end = 512 * back;
    let past = random.pick(&[0, 0, 0, 0, 1, 8]);
    let lba = if past > 0 { BLOCKS + past } else { BLOCKS - back };
    let any = random.pick(&SIZES);
    let size = random.pick(&[any, any, end, end, end + 1, end.saturating_sub(1), end + 512]);
    (lba.to_string(), size.to_string())
}

/// From the first blocks to the end of the last page or about: too many pages, or one over.
fn at_last_byte(random: &mut Random) -> (String, String) {
    let lba = random.pick(&[0, 1, 7, 8]);
    let size = BYTES - 512 * lba + random.pick(&[0, 1, 2]) - 1;
    (lba.to_string(), size.to_string())
}

/// An LBA, a size or both far off, often such that numbers of 32, 64 or 128 bits would wrap to little ones.
fn far(random: &mut Random) -> (String, String) {
    let (lba, size) = (random.below(20).to_string(), random.pick(&SIZES).to_string());
    match random.below(8) {
        0..=2 => (random.pick(&WRAPPED_LBAS).to_string(), size),
        3..=4 => (lba, random.pick(&WRAPPED_SIZES).to_string()),
        5 => (random.pick(&FAR).to_string(), size),
        6 => (lba, random.pick(&FAR).to_string()),
        _ => (random.pick(&FAR).to_string(), random.pick(&FAR).to_string()),
    }
}

// ---- many pages ----

/// 998 to 1,003 pages across records or inside one, and what comes before or after them.
fn many_pages(random: &mut Random, unit: u32) -> Vec<u8> {
    let total = random.pick(&[998, 999, 1000, 1000, 1000, 1001, 1001, 1002, 1003]);
    let mut lines = match random.below(5) {
        0 => vec![covering(random, unit, total)],
        1 if unit < 100 => return [one_page_each(random, unit, total), of_lines(&after(random, unit))].concat(),
        2 => {
            let last = random.within(1, 30) as u64;
            vec![covering(random, unit, total - last), covering(random, unit, last)]
        }
        _ => across(random, unit, total),
    };
    if random.chance(20) {
        let at = random.below(lines.len() + 1);
        let other = uncounted(random, unit);
        lines.insert(at, other);
    }
    lines.extend(after(random, unit));
    let mut trace = of_lines(&lines);
    if random.chance(8) {
        trace.pop();
    }
    trace
}

/// So many pages in records of some tens, with others between them.
fn across(random: &mut Random, unit: u32, total: u64) -> Vec<Line> {
    let mut lines = Vec::new();
    let mut left = total;
    while left > 0 {
        let now = left.min(random.within(1, 120) as u64);
        lines.push(covering(random, unit, now));
        left -= now;
        if random.chance(15) {
            lines.push(if random.chance(50) { uncounted(random, unit) } else { empty(random, unit) });
        }
    }
    lines
}

/// A read of the unit that touches exactly so many pages, in some cases up to the last one.
fn covering(random: &mut Random, unit: u32, pages: u64) -> Line {
    let offset = random.pick(&[0, 0, 1, 7, 7]);
    let any = random.below(1_000_000) as u64;
    let first = random.pick(&[0, 1, any, (1 << 32) - pages]);
    let most = 4096 * pages - 512 * offset;
    let least = most.saturating_sub(4095).max(1);
    let between = least + random.next() % (most - least + 1);
    let size = random.pick(&[least, most, between]);
    line(random, &unit.to_string(), &(8 * first + offset).to_string(), &size.to_string(), "rR")
}

/// Short lines of one page each, so that a thousand of them and one of a short unit are below 16,000 bytes.
fn one_page_each(random: &mut Random, unit: u32, count: u64) -> Vec<u8> {
    let size = random.pick(&["1", "512", "01"]);
    (0..count).flat_map(|_| format!("{unit},{},{size},r,0.0\n", 8 * random.below(2)).into_bytes()).collect()
}

/// What follows the thousandth page or about: nothing, what does not count, one page more, another refusal.
fn after(random: &mut Random, unit: u32) -> Vec<Line> {
    let mut wrong = right_line(random, unit);
    spoil(random, &mut wrong);
    match random.below(8) {
        0..=2 => vec![],
        3 => vec![uncounted(random, unit), empty(random, unit)],
        4 => vec![covering(random, unit, 1)],
        5 => vec![limit_line(random, unit)],
        6 => vec![wrong],
        _ => vec![empty(random, unit), covering(random, unit, 2), wrong],
    }
}

// ---- several refusals ----

/// Two lines that are refused, or would be if they counted, at any places of a right trace; in some one line that is refused twice.
fn two_wrong(random: &mut Random, unit: u32) -> Vec<u8> {
    let mut lines = right(random, unit);
    for _ in 0..2 {
        let at = random.below(lines.len() + 1);
        let wrong = refused_line(random, unit);
        lines.insert(at, wrong);
    }
    of_lines(&lines)
}

fn refused_line(random: &mut Random, unit: u32) -> Line {
    let named = if random.chance(85) { unit.to_string() } else { other_unit(random, unit) };
    let (lba, size) = random.pick(&[(8, 1), (BLOCKS, 1), (8, 4_096_001), (BLOCKS - 80, 5_000_000), (BLOCKS - 8, 4097), (BLOCKS - 8008, 4_100_096)]);
    let mut wrong = line(random, &named, &lba.to_string(), &size.to_string(), "rRrRrRwW");
    if random.chance(25) {
        spoil(random, &mut wrong);
    }
    wrong
}

// ---- long ones ----

/// About 16,000 bytes: right ones, some with a byte damaged, and 15,999 to 17,000 bytes of other contents.
fn long(random: &mut Random, unit: u32) -> Vec<u8> {
    let length = random.pick(&[15_990, 15_999, 16_000, 16_000, 16_000, 16_001, 16_001, 16_002, 16_500, 17_000]);
    if random.chance(25) {
        let mut trace = of_lines(&right(random, unit));
        trace.resize(length, random.pick(b"\n,0r\0"));
        return trace;
    }
    let mut trace = of_length(random, unit, length);
    if random.chance(20) {
        let at = random.below(trace.len());
        trace[at] = random.pick(b"\nx,0");
    }
    trace
}

/// A right trace of exactly so many bytes: short records, then a last line that a further field fills up.
pub fn of_length(random: &mut Random, unit: u32, length: usize) -> Vec<u8> {
    let mut trace = of_lines(&right(random, unit));
    let lines = random.pick(&[0, 100, 1400]);
    for _ in 0..lines {
        let opcode = random.pick(b"rwwWW") as char;
        let next = format!("{unit},{},{},{opcode},0.0\n", random.below(10), random.below(10));
        if trace.len() + next.len() + 40 < length {
            trace.extend(next.bytes());
        }
    }
    trace.extend(format!("{unit},16,512,R,0.0,").bytes());
    trace.resize(length - 1, b'x');
    trace.push(b'\n');
    trace
}

#[cfg(test)]
mod tests {
    use super::*;
    use crate::council::{pages, Taken};

    fn taken(trace: &[u8], unit: u32) -> Taken {
        pages(trace, unit, &mut vec![0; 1000])
    }

    #[test]
    fn right_ones_are_taken() {
        let mut random = Random::new(1);
        for unit in [0, 1, 10, u32::MAX].repeat(50) {
            assert_eq!(taken(&of_lines(&right(&mut random, unit)), unit).number, 0);
            for length in [15_999, 16_000, 16_001] {
                let trace = of_length(&mut random, unit, length);
                assert_eq!((trace.len(), taken(&trace, unit).number), (length, if length > 16_000 { 7 } else { 0 }));
            }
        }
        assert_eq!(taken(&of_reads(&[(8, 1), (0, 4096 * 999)]), 0), Taken { number: 0, line: 0, count: 1000 });
    }

    #[test]
    fn what_does_not_count_and_what_covers() {
        let mut random = Random::new(2);
        for unit in [0, 7, u32::MAX].repeat(500) {
            for line in [uncounted(&mut random, unit), empty(&mut random, unit)] {
                assert_eq!(taken(&of_lines(&[line]), unit), Taken { number: 0, line: 0, count: 0 });
            }
            for (many, number, count) in [(1, 0, 1), (2, 0, 2), (999, 0, 999), (1000, 0, 1000), (1001, 5, 0), (1003, 5, 0)] {
                let answer = taken(&of_lines(&[covering(&mut random, unit, many)]), unit);
                assert_eq!((answer.number, answer.count), (number, count));
            }
        }
    }

    /// Every wrong field and every line that is none, in a record that counts, in a write and in another unit's.
    #[test]
    fn near_misses_are_refused() {
        let lists: [(usize, &[&str]); 5] =
            [(UNIT, &NO_NUMBERS), (LBA, &NO_NUMBERS), (SIZE, &NO_NUMBERS), (OPCODE, &NO_OPCODES), (TIMESTAMP, &NO_TIMESTAMPS)];
        for (at, wrong) in lists.iter().flat_map(|(at, list)| list.iter().map(|wrong| (*at, *wrong))) {
            for record in ["0,8,1,r,0.0", "0,8,1,W,0.0", "5,8,1,R,0.0"] {
                let mut fields: Vec<&str> = record.split(',').collect();
                fields[at] = wrong;
                let trace = format!("0,8,1,r,0.0\n{}\n", fields.join(","));
                assert_eq!(taken(trace.as_bytes(), 0), Taken { number: 10, line: 2, count: 0 }, "{trace:?}");
            }
        }
        for no_line in NO_LINES {
            assert_eq!(taken(format!("{no_line}\n").as_bytes(), 0), Taken { number: 10, line: 1, count: 0 }, "{no_line:?}");
        }
    }

    /// How often each number is answered; and of those taken, how many give pages, the last page, a thousand; how long the lines are.
    #[test]
    fn all_kinds_are_drawn() {
        let mut random = Random::new(3);
        let (mut numbers, mut some, mut last, mut thousand, mut lines, mut longest) = ([0; 12], 0, 0, 0, [0; 3], [0; 2]);
        for _ in 0..5000 {
            let unit = any_unit(&mut random);
            let trace = any_trace(&mut random, unit);
            assert!(trace.len() <= 17_000);
            let mut buffer = vec![0; 1000];
            let Taken { number, line, count } = pages(&trace, unit, &mut buffer);
            numbers[number as usize] += 1;
            some += (count > 0) as usize;
            last += buffer[..count as usize].contains(&u32::MAX) as usize;
            thousand += (count == 1000) as usize;
            lines[[1, 1000].iter().filter(|&&most| line > most).count()] += (line > 0) as usize;
            longest[0] += (trace.len() == 16_000 && number == 0) as usize;
            longest[1] += (trace.len() == 16_001) as usize;
        }
        println!("numbers {numbers:?}, some {some}, last {last}, thousand {thousand}, lines {lines:?}, longest {longest:?}");
        assert!(numbers[0] > 1200 && numbers[5] > 200 && numbers[7] > 20 && numbers[10] > 800 && numbers[11] > 200);
        assert!(some > 800 && last > 100 && thousand > 50 && lines.iter().all(|&count| count > 20) && longest.iter().all(|&count| count > 5));
    }
}
