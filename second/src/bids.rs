// Bid sheets as bytes: good ones, damaged ones, and those at the limits of 01.
// Used by the groups "sheets" and "programs".

use crate::policy::{BLANK, CAR, CART, CLOCK, FIFO, LRU};
use crate::random::Random;

/// Names and numbers as they are drawn: CAR and CART, where more can go wrong, four times as often as each of the three,
/// half of CART's by a blank.
pub const DRAWN: [(&str, u32); 11] = [
    ("car", CAR), ("car", CAR), ("car", CAR), ("car", CAR), ("", BLANK), ("", BLANK), ("cart", CART), ("cart", CART),
    ("fifo", FIFO), ("clock", CLOCK), ("lru", LRU),
];

/// The five names, each once.
pub const NAMES: [&str; 5] = ["car", "cart", "fifo", "clock", "lru"];

/// A sheet of these lines, each closed by a line feed.
pub fn of_lines(lines: &[String]) -> Vec<u8> {
    lines.iter().flat_map(|line| [line.as_bytes(), b"\n"].concat()).collect()
}

/// The worked sheet of 01, under this policy.
pub fn worked(policy: &str) -> Vec<u8> {
    good_of(policy, "2", "1,250", &[1, 2, 1, 3, 2, 1, 4, 2])
}

/// A good sheet of these values and pages.
pub fn good_of(policy: &str, pages: &str, cost: &str, trace: &[u32]) -> Vec<u8> {
    let mut lines = vec![format!("policy={policy}"), format!("pages={pages}"), format!("misscost={cost}")];
    lines.extend(trace.iter().map(|page| format!("page={page}")));
    of_lines(&lines)
}

/// A well-formed sheet of exactly this many bytes (7,036 to 16,031), 1,000 page lines.
pub fn of_length(policy: &str, bytes: usize) -> Vec<u8> {
    let mut sheet = good_of(policy, "5", "0,001", &[]);
    let mut left = bytes - sheet.len();
    for lines in (1..=1000).rev() {
        let length = (left / lines).clamp(7, 16);
        sheet.extend(format!("page={}\n", "1".repeat(length - 6)).bytes());
        left -= length;
    }
    sheet
}

/// A sheet of this many page lines with short numbers.
pub fn of_pages(random: &mut Random, count: usize) -> Vec<u8> {
    let c = random.pick(&[1, 2, 3, 5, 8, 12, 40, 1024]);
    let kinds = random.within(c.min(30), 3 * c.min(30));
    let mut trace: Vec<u32> = (0..count).map(|_| random.below(kinds) as u32).collect();
    for at in 1..count {
        if random.chance(25) {
            trace[at] = trace[at - random.within(1, at.min(c))];
        }
    }
    good_of(random.pick(&DRAWN).0, &c.to_string(), "12,345", &trace)
}

/// A good sheet with a few page lines.
pub fn good(random: &mut Random) -> Vec<u8> {
    let c = random.pick(&[1, 2, 2, 3, 4, 5, 8, 100, 1023, 1024]);
    let kinds = random.within(1, 3 * c.min(12));
    let count = random.pick(&[0, 1, 2, 5, 10, 20, 40, 80]);
    let trace: Vec<u32> = (0..count).map(|_| page(random, kinds)).collect();
    let cost = good_cost(random);
    good_of(random.pick(&DRAWN).0, &c.to_string(), &cost, &trace)
}

pub fn good_cost(random: &mut Random) -> String {
    format!("{},{:03}", random.pick(&[0, 1, 9, 10, 99, 100, 999, 1000, 9999]), random.below(1000))
}

fn page(random: &mut Random, kinds: usize) -> u32 {
    match random.below(40) {
        0 => u32::MAX,
        1 => random.word(),
        2 => 10u32.pow(random.below(10) as u32) - random.below(2) as u32,
        _ => random.below(kinds) as u32,
    }
}

/// A good sheet with one value of another form, near the limits.
pub fn odd_value(random: &mut Random) -> Vec<u8> {
    let mut lines: Vec<String> = text_lines(&good(random));
    lines.push("page=7".to_string());
    let at = random.pick(&[0, 0, 1, 1, 2, 2, 2, 3, lines.len() - 1]);
    let at = at.min(lines.len() - 1);
    lines[at] = match at {
        0 => format!("policy={}", random.pick(&POLICIES)),
        1 => format!("pages={}", random.pick(&NUMBERS)),
        2 => format!("misscost={}", random.pick(&COSTS)),
        _ => format!("page={}", random.pick(&NUMBERS)),
    };
    of_lines(&lines)
}

const POLICIES: [&str; 34] = [
    "", "car", "cart", "CAR", "Cart", "carts", "ca", "arc", " car", "car ", "=", "=car", "1", "c", "fifo", "fif", "fifoo", "fifo ",
    "FIFO", "filo", "clock", "cloc", "clocks", "Clock", " clock", "clock2", "lru", "lr", "lruu", "LRU", "lru ", "mru", "3", "6",
];
const NUMBERS: [&str; 38] = [
    "0", "1", "2", "9", "10", "1023", "1024", "1025", "1026", "999", "65536", "4294967294", "4294967295", "4294967296",
    "4294967297", "4294967300", "9999999999", "10000000000", "42949672950", "04294967295", "00", "01", "000", "010",
    "01024", "", " ", " 1", "1 ", "+1", "-1", "1,0", "1.0", "0x1", "1a", "a", "=1", "99999999999999999999",
];
const COSTS: [&str; 40] = [
    "0,000", "0,001", "1,250", "9,999", "10,000", "99,999", "100,000", "999,999", "1000,000", "9999,999", "10000,000",
    "00000,000", "1250", "1.250", "01,250", "1,25", "1,2500", "1,", ",250", ",", "", "00,250", "00,000", "0,00", "0,0000",
    "1,2,3", "1,250,", ",1,250", "1,,250", "1, 250", " 1,250", "1,250 ", "-1,250", "+1,250", "1,-50", "a,250", "1,a50",
    "1,25a", "0001,250", "12345",
];

fn text_lines(sheet: &[u8]) -> Vec<String> {
    String::from_utf8_lossy(sheet).lines().map(str::to_string).collect()
}

/// A good sheet with one byte changed, dropped or doubled, or a byte put in.
pub fn byte_damage(random: &mut Random) -> Vec<u8> {
    let mut sheet = good(random);
    let reach = if random.chance(60) { sheet.len().min(45) } else { sheet.len() };
    let at = random.below(reach);
    let odd = [0, 10, 13, 32, 44, 46, 47, 48, 49, 57, 58, 61, 127, 128, 255];
    match random.below(5) {
        0 => sheet[at] = random.pick(&odd),
        1 => sheet[at] = random.word() as u8,
        2 => drop(sheet.remove(at)),
        3 => sheet.insert(at, sheet[at]),
        _ => sheet.insert(at, random.pick(&odd)),
    }
    sheet
}

/// A good sheet with lines swapped, dropped, doubled, emptied, or cut at its end.
pub fn line_damage(random: &mut Random) -> Vec<u8> {
    let mut sheet = good(random);
    let mut lines = text_lines(&sheet);
    let (one, two) = (random.below(lines.len().min(6)), random.below(lines.len()));
    match random.below(9) {
        0 => lines.swap(one, two),
        1 => drop(lines.remove(one)),
        2 => lines.insert(one, lines[one].clone()),
        3 => lines[one] = String::new(),
        4 => lines[one].push('\r'),
        5 => lines.insert(one, "page=1".to_string()),
        6 => lines[one] = random.pick(&["page=", "pages", "page", "policy", "misscost", "=", "Page=1", " page=1", "page =1"]).to_string(),
        7 => {
            sheet.pop();
            return sheet;
        }
        _ => {
            sheet.truncate(random.below(sheet.len()));
            return sheet;
        }
    }
    of_lines(&lines)
}

/// Two wrong lines in one sheet, of the same or of different kinds.
pub fn two_wrong(random: &mut Random) -> Vec<u8> {
    let mut lines = text_lines(&good(random));
    lines.push("page=1".to_string());
    lines.push("page=2".to_string());
    for _ in 0..2 {
        let at = if random.chance(50) { random.below(4) } else { random.below(lines.len()) };
        let value = random.pick(&["x", "", "0", "1025", "01", "1,25"]);
        let key = random.pick(&["policy=", "pages=", "misscost=", "page=", "page", ""]);
        let kept = lines[at].split('=').next().unwrap_or("").to_string();
        lines[at] = if random.chance(70) { format!("{kept}={value}") } else { format!("{key}{value}") };
    }
    of_lines(&lines)
}

/// 998 to 1,002 page lines, some with a wrong or an unclosed last line.
pub fn many_pages(random: &mut Random) -> Vec<u8> {
    let count = random.pick(&[998, 999, 1000, 1000, 1001, 1001, 1002]);
    let mut sheet = of_pages(random, count);
    match random.below(8) {
        0 => drop(sheet.pop()),
        1 => sheet.extend(b"page=x\n"),
        2 => sheet.extend(b"pages=1\n"),
        3 => sheet.extend(b"page=1"),
        4 => sheet.extend(b"\n"),
        5 => {
            let at = random.within(30, sheet.len() - 1);
            sheet[at] = b'x';
        }
        _ => {}
    }
    sheet
}

/// About 16,000 bytes: well-formed ones, and 15,999 to 17,000 of other contents.
pub fn long(random: &mut Random) -> Vec<u8> {
    if random.chance(60) {
        let length = random.pick(&[15990, 15999, 16000, 16000, 16001, 16002, 16030]);
        return about_of_length(random, "cart", length);
    }
    let length = random.pick(&[15999, 16000, 16001, 16002, 16500, 17000]);
    let mut sheet = good(random);
    let fill = random.pick(b"\n=1a\0");
    sheet.resize(length, fill);
    if random.chance(50) {
        sheet[length - 1] = b'\n';
    }
    sheet
}

/// A sheet of this many bytes, one of them damaged in one sheet of four.
pub fn about_of_length(random: &mut Random, policy: &str, bytes: usize) -> Vec<u8> {
    let mut sheet = of_length(policy, bytes);
    if random.chance(25) {
        let at = random.below(sheet.len());
        sheet[at] = random.pick(b"\nx=0");
    }
    sheet
}

/// Lines of few letters, for the look-up: without `=`, with several, empty values.
pub fn letters(random: &mut Random) -> Vec<u8> {
    let length = random.pick(&[0, 1, 2, 3, 5, 10, 20, 60]);
    (0..length).map(|_| random.pick(b"\n\n\n===ab\r\0\xff")).collect()
}

/// Any sheet but the very long ones.
pub fn any_short(random: &mut Random) -> Vec<u8> {
    match random.below(12) {
        0..=1 => good(random),
        2..=4 => odd_value(random),
        5..=7 => byte_damage(random),
        8..=9 => line_damage(random),
        10 => two_wrong(random),
        _ => letters(random),
    }
}

#[cfg(test)]
mod tests {
    use super::*;
    use crate::sheet::read_whole;

    #[test]
    fn good_sheets_are_read() {
        let mut random = Random::new(3);
        for _ in 0..200 {
            assert!(read_whole(&good(&mut random), BLANK).is_ok());
            assert!(read_whole(&of_pages(&mut random, 1000), BLANK).is_ok());
        }
        for name in NAMES.into_iter().chain([""]) {
            for length in [7036, 15000, 15997, 16000] {
                assert_eq!(of_length(name, length).len(), length);
                assert!(read_whole(&of_length(name, length), BLANK).is_ok());
            }
            assert_eq!((of_length(name, 16001).len(), of_length(name, 16031).len()), (16001, 16031));
        }
    }
}
