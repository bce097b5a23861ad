// The sheets for the program copy: at the edges of the copy's length, with odd first lines, with a wrong line further
// down, with a named policy; and drawn ones, good and damaged, the larger part of them blank.

use crate::bids;
use crate::random::Random;

/// What turns a line of a sheet into a wrong one, the sheet's length kept.
const WRONG_LINES: [(&str, &str); 9] = [
    ("pages=5", "pages=0"),
    ("pages=5", "pages=x"),
    ("pages=5", "Pages=5"),
    ("0,001", "0.001"),
    ("misscost=", "misscosts"),
    ("0,001\n", "0,001\r"),
    ("\npage=1", "\npage=x"),
    ("\npage=1", "\npages="),
    ("\npage=1", "\npage\n1"),
];

/// The sheets that request 2 names and their neighbours, then so many drawn ones.
pub fn copy_sheets(random: &mut Random, drawn: usize) -> Vec<Vec<u8>> {
    let mut sheets = [edges(), first_lines(), named(), wrong_lines()].concat();
    sheets.extend((0..drawn).map(|_| drawn_sheet(random)));
    sheets
}

/// Blank sheets whose copies have about 16,000 bytes, and sheets that are too long themselves.
fn edges() -> Vec<Vec<u8>> {
    let mut sheets = [15_996, 15_997, 15_998, 15_999, 16_000, 16_001].map(|length| bids::of_length("", length)).to_vec();
    let mut also_wrong = bids::worked("");
    also_wrong.resize(16_001, b'\n');
    sheets.extend([bids::of_length("car", 16_001), bids::of_length("cart", 16_001), also_wrong, vec![b'\n'; 100_000]]);
    sheets
}

/// Single lines and whole sheets that begin like a blank one; the last two would be too long if they were blank.
fn first_lines() -> Vec<Vec<u8>> {
    let alone = ["", "policy", "policy=", "policy=\n", "policy=\r\n", "policy=car", "\n"];
    let mut sheets: Vec<Vec<u8>> = alone.map(|text| text.as_bytes().to_vec()).to_vec();
    sheets.push(bids::worked(""));
    sheets.extend(["\r", " ", "=", "car\r", "\n"].map(bids::worked));
    sheets.extend(["\r", " "].map(|value| bids::of_length(value, 15_998)));
    sheets
}

fn named() -> Vec<Vec<u8>> {
    let long = |name| [15_997, 15_998, 16_000].map(|length| bids::of_length(name, length));
    bids::NAMES.into_iter().flat_map(|name| [vec![bids::worked(name)], long(name).to_vec()].concat()).collect()
}

/// Blank sheets with a wrong line, short ones and ones of 15,998 bytes, whose copies would be too long.
fn wrong_lines() -> Vec<Vec<u8>> {
    let (short, long) = (bids::good_of("", "5", "0,001", &[1, 2, 1]), bids::of_length("", 15_998));
    let pages = |length| [&bids::of_length("", length)[..], b"page=1\n"].concat();
    [wrong_ones(&short), wrong_ones(&long), vec![pages(8_000), pages(15_991)]].concat()
}

/// The sheet with one wrong line, in its head, among its pages or at its end.
fn wrong_ones(sheet: &[u8]) -> Vec<Vec<u8>> {
    let text = String::from_utf8_lossy(sheet);
    let mut wrong = WRONG_LINES.map(|(old, new)| text.replacen(old, new, 1).into_bytes()).to_vec();
    wrong.extend([b"x\n", b"11"].map(|end| [&sheet[..sheet.len() - 2], end].concat()));
    wrong
}

/// Every kind of sheet and of damage, and lengths about the limit; a blank in place of the name in most.
fn drawn_sheet(random: &mut Random) -> Vec<u8> {
    let sheet = match random.below(100) {
        0..=34 => bids::good(random),
        35..=46 => bids::odd_value(random),
        47..=61 => bids::byte_damage(random),
        62..=73 => bids::line_damage(random),
        74..=79 => bids::two_wrong(random),
        80..=84 => bids::many_pages(random),
        _ => {
            let length = random.within(15_996, 16_006);
            bids::about_of_length(random, "car", length)
        }
    };
    if random.chance(60) {
        blanked(sheet)
    } else {
        sheet
    }
}

/// The sheet without the name of its policy; what damage has put behind the name stays.
fn blanked(mut sheet: Vec<u8>) -> Vec<u8> {
    if let Some(value) = sheet.strip_prefix(b"policy=") {
        let name = value.iter().take_while(|byte| byte.is_ascii_lowercase()).count();
        sheet.drain(7..7 + name);
    }
    sheet
}

#[cfg(test)]
mod tests {
    use super::*;
    use crate::copy::copy_of;
    use crate::policy::{BLANK, BLANK_BEFORE};
    use crate::sheet::read_whole;

    const LISTED: usize = 69;

    #[test]
    fn wrong_lines_are_of_all_kinds() {
        let sheets = wrong_lines();
        let refusals = |sheets: &[Vec<u8>]| -> Vec<(u32, u32)> {
            sheets.iter().map(|sheet| copy_of(sheet).map_or_else(|refused| (refused.number, refused.line), |_| (0, 0))).collect()
        };
        let kinds = [(2, 2), (9, 2), (8, 2), (9, 3), (8, 3), (9, 3), (9, 4), (8, 4), (8, 4)];
        assert_eq!(refusals(&sheets[..11]), [&kinds[..], &[(9, 6), (8, 6)]].concat());
        assert_eq!(refusals(&sheets[11..]), [&kinds[..], &[(9, 1003), (8, 1003), (5, 1004), (5, 1004)]].concat());
        assert!(sheets.iter().all(|sheet| sheet.starts_with(b"policy=\n")));
        let long = sheets.iter().filter(|sheet| sheet.len() == 15_998).count();
        assert_eq!((sheets.len(), long), (24, 12));
    }

    #[test]
    fn the_listed_sheets() {
        let sheets = copy_sheets(&mut Random::new(1), 45);
        assert_eq!((sheets.len(), copy_sheets(&mut Random::new(1), 0).len()), (LISTED + 45, LISTED));
        let (blank, name): (Vec<Vec<u8>>, _) = sheets[..LISTED].iter().cloned().partition(|sheet| sheet.starts_with(b"policy=\n"));
        let copied = |sheets: &[Vec<u8>]| sheets.iter().filter(|sheet| copy_of(sheet).is_ok()).count();
        assert_eq!((copied(&blank), copied(&name)), (3, 20));
    }

    /// Blank and named, copied and refused with each number, and copies at both sides of the limit.
    #[test]
    fn drawn_sheets_are_of_all_kinds() {
        for seed in [1, 2, 1901] {
            let (mut copied, mut refusals, mut too_long) = ([0; 2], [0; 10], 0);
            for sheet in copy_sheets(&mut Random::new(seed), 931).split_off(LISTED) {
                let blank = read_whole(&sheet, BLANK) != read_whole(&sheet, BLANK_BEFORE);
                match copy_of(&sheet) {
                    Ok(_) => copied[blank as usize] += 1,
                    Err(refused) => refusals[refused.number as usize] += 1,
                }
                too_long += (blank && copy_of(&sheet).is_err()) as usize;
            }
            println!("copied {copied:?}, refusals {refusals:?}, copies too long {too_long}");
            assert!(copied[0] > 100 && copied[1] > 200 && too_long > 5);
            assert!([1, 2, 5, 7, 8, 9].iter().all(|&number| refusals[number] > 0), "{refusals:?}");
        }
    }

    #[test]
    fn a_blanked_sheet_keeps_its_damage() {
        for (sheet, blank) in
            [("policy=cart\nx", "policy=\nx"), ("policy=car\r\n", "policy=\r\n"), ("policy=", "policy="), ("Policy=car", "Policy=car")]
        {
            assert_eq!(blanked(sheet.as_bytes().to_vec()), blank.as_bytes());
        }
    }
}
