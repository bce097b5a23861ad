// The sheet reader (a bid sheet line after line, the first wrong line decides) and the look-up
// by line number, which hands back the stretch between the first `=` and the line feed.

use crate::policy;

pub const LONGEST_SHEET: usize = 16000;
pub const PAGE_BUFFER: usize = 1000;
pub const MOST_PAGES: usize = 1000;

/// A refusal and the line it belongs to (0 for 6 and 7).
#[derive(Clone, Copy, Debug, PartialEq, Eq)]
pub struct Refused {
    pub number: u32,
    pub line: u32,
}

/// What a sheet means beside its pages.
#[derive(Clone, Copy, Debug, Default, PartialEq, Eq)]
pub struct Bid {
    pub policy: u32,
    pub c: u32,
    pub cost: u32,
    pub count: u32,
}

/// The sheet read with a page buffer of its own: what it means and its pages, where a blank policy means `blank`.
pub fn read_whole(sheet: &[u8], blank: u32) -> Result<(Bid, Vec<u32>), Refused> {
    let mut pages = vec![0; PAGE_BUFFER];
    let bid = read_sheet(sheet, blank, &mut pages)?;
    pages.truncate(bid.count as usize);
    Ok((bid, pages))
}

/// Sheet reader: 6, 7, then the lines from the top. Pages are written only if all is good.
pub fn read_sheet(sheet: &[u8], blank: u32, pages: &mut [u32]) -> Result<Bid, Refused> {
    if pages.len() < PAGE_BUFFER {
        return Err(Refused { number: 6, line: 0 });
    }
    if sheet.len() > LONGEST_SHEET {
        return Err(Refused { number: 7, line: 0 });
    }
    let (mut bid, listed) = read_lines(sheet, blank, 0, 1)?;
    bid.count = listed.len() as u32;
    pages[..listed.len()].copy_from_slice(&listed);
    Ok(bid)
}

/// Reads from a place in the sheet, which is the start of the line with this number.
fn read_lines(sheet: &[u8], blank: u32, mut place: usize, mut line: u32) -> Result<(Bid, Vec<u32>), Refused> {
    let mut bid = Bid::default();
    let mut listed = Vec::new();
    while line <= 3 || place < sheet.len() {
        let Some(text) = closed_line(sheet, place) else {
            return Err(Refused { number: 8, line });
        };
        judge(text, line, blank, &mut bid, &mut listed).map_err(|number| Refused { number, line })?;
        place += text.len() + 1;
        line += 1;
    }
    Ok((bid, listed))
}

/// The line from this place, without its line feed; none if no line feed closes it.
fn closed_line(sheet: &[u8], place: usize) -> Option<&[u8]> {
    let rest = &sheet[place..];
    let length = rest.iter().position(|&byte| byte == b'\n')?;
    Some(&rest[..length])
}

/// One line: 8, then 5, then its value.
fn judge(text: &[u8], line: u32, blank: u32, bid: &mut Bid, listed: &mut Vec<u32>) -> Result<(), u32> {
    match line {
        1 => bid.policy = policy_value(after_key(text, b"policy=")?, blank)?,
        2 => bid.c = size_value(after_key(text, b"pages=")?)?,
        3 => bid.cost = cost_value(after_key(text, b"misscost=")?)?,
        _ => {
            let value = after_key(text, b"page=")?;
            if listed.len() == MOST_PAGES {
                return Err(5);
            }
            listed.push(whole_number(value).ok_or(9u32)?);
        }
    }
    Ok(())
}

fn after_key<'a>(text: &'a [u8], key: &[u8]) -> Result<&'a [u8], u32> {
    text.strip_prefix(key).ok_or(8)
}

fn policy_value(value: &[u8], blank: u32) -> Result<u32, u32> {
    match value {
        b"" => Ok(blank),
        name => policy::number(name).ok_or(1),
    }
}

fn size_value(value: &[u8]) -> Result<u32, u32> {
    let c = whole_number(value).ok_or(9u32)?;
    if (1..=1024).contains(&c) {
        Ok(c)
    } else {
        Err(2)
    }
}

/// Whole part, a comma, exactly three digits: thousandths.
fn cost_value(value: &[u8]) -> Result<u32, u32> {
    let comma = value.iter().position(|&byte| byte == b',').ok_or(9u32)?;
    let (whole, thousandths) = (&value[..comma], &value[comma + 1..]);
    let whole = digits(whole, 4).ok_or(9u32)?;
    if thousandths.len() != 3 || !thousandths.iter().all(u8::is_ascii_digit) {
        return Err(9);
    }
    Ok((whole * 1000 + amount(thousandths)) as u32)
}

/// 1 to 10 digits, no leading zero except 0 itself, at most 4,294,967,295.
fn whole_number(value: &[u8]) -> Option<u32> {
    u32::try_from(digits(value, 10)?).ok()
}

/// 1 to `most` digits, no leading zero except 0 itself.
fn digits(value: &[u8], most: usize) -> Option<u64> {
    let all_digits = value.iter().all(u8::is_ascii_digit);
    let leading_zero = value.len() > 1 && value[0] == b'0';
    if value.is_empty() || value.len() > most || !all_digits || leading_zero {
        return None;
    }
    Some(amount(value))
}

fn amount(digits: &[u8]) -> u64 {
    digits.iter().fold(0, |sum, &digit| 10 * sum + (digit - b'0') as u64)
}

/// Look-up: 7, then 8; else where the part starts in the sheet, and the part itself.
pub fn look_up(sheet: &[u8], line: u32) -> Result<(usize, &[u8]), u32> {
    if sheet.len() > LONGEST_SHEET {
        return Err(7);
    }
    if line == 0 {
        return Err(8);
    }
    let mut place = 0;
    for _ in 1..line {
        place += closed_line(sheet, place).ok_or(8u32)?.len() + 1;
    }
    let text = closed_line(sheet, place).ok_or(8u32)?;
    let equals = text.iter().position(|&byte| byte == b'=').ok_or(8u32)?;
    Ok((place + equals + 1, &text[equals + 1..]))
}

#[cfg(test)]
mod tests {
    use super::*;
    use crate::policy::BLANK;

    fn read(sheet: &[u8]) -> Result<Bid, Refused> {
        let mut pages = vec![7; 1001];
        let answer = read_sheet(sheet, BLANK, &mut pages);
        let count = answer.map_or(0, |bid| bid.count as usize);
        assert!(pages[count..].iter().all(|&page| page == 7));
        answer
    }

    fn refused(sheet: &[u8]) -> (u32, u32) {
        let refused = read(sheet).unwrap_err();
        (refused.number, refused.line)
    }

    fn with_pages(count: usize) -> Vec<u8> {
        let mut sheet = b"policy=cart\npages=5\nmisscost=0,001\n".to_vec();
        (0..count).for_each(|_| sheet.extend_from_slice(b"page=3\n"));
        sheet
    }

    #[test]
    fn good_sheets() {
        let bid = Bid { policy: 1, c: 2, cost: 1250, count: 0 };
        assert_eq!(read(b"policy=car\npages=2\nmisscost=1,250\n"), Ok(bid));
        assert_eq!(read(b"policy=car\npages=2\nmisscost=1,250\npage=0\npage=4294967295\n"), Ok(Bid { count: 2, ..bid }));
        assert_eq!(read(b"policy=cart\npages=1024\nmisscost=9999,999\n"), Ok(Bid { policy: 2, c: 1024, cost: 9_999_999, count: 0 }));
        assert_eq!(read(b"policy=car\npages=1\nmisscost=0,000\n"), Ok(Bid { policy: 1, c: 1, cost: 0, count: 0 }));
        for (policy, name) in (3..=5).zip(["fifo", "clock", "lru"]) {
            let sheet = format!("policy={name}\npages=2\nmisscost=1,250\n");
            assert_eq!(read(sheet.as_bytes()), Ok(Bid { policy, ..bid }));
        }
        let mut pages = vec![7; 1000];
        assert!(read_sheet(b"policy=\npages=2\nmisscost=1,250\npage=0\npage=4294967295\n", BLANK, &mut pages).is_ok());
        assert_eq!(pages[..3], [0, u32::MAX, 7]);
    }

    #[test]
    fn a_blank_means_what_the_reading_says() {
        let rest = "pages=2\nmisscost=1,250\npage=9\n";
        let policy_of = |value: &str, blank| read_whole(format!("policy={value}\n{rest}").as_bytes(), blank).map(|(bid, _)| bid.policy);
        assert_eq!(policy_of("", BLANK), Ok(policy::CART));
        for blank in 1..=5 {
            let meant = (Bid { policy: blank, c: 2, cost: 1250, count: 1 }, vec![9]);
            assert_eq!(read_whole(format!("policy=\n{rest}").as_bytes(), blank), Ok(meant));
            for (named, name) in (1..=5).zip(["car", "cart", "fifo", "clock", "lru"]) {
                assert_eq!(policy_of(name, blank), Ok(named));
            }
            for value in ["\r", " ", "=", "\0", "CART"] {
                assert_eq!(policy_of(value, blank), Err(Refused { number: 1, line: 1 }), "{value:?}");
            }
        }
        assert_eq!((refused(b"policy="), refused(b"policy=\n"), refused(b"policy=\npages=0\n")), ((8, 1), (8, 2), (2, 2)));
    }

    #[test]
    fn first_wrong_line_decides() {
        assert_eq!(refused(b""), (8, 1));
        assert_eq!(refused(b"policy=car"), (8, 1));
        assert_eq!(refused(b"policy=car\n"), (8, 2));
        assert_eq!(refused(b"policy=arc\npages=0\n"), (1, 1));
        assert_eq!(refused(b"policy=car\r\npages=0\n"), (1, 1));
        assert_eq!(refused(b"policy=fifo \npages=0\n"), (1, 1));
        assert_eq!(refused(b"policy=lru"), (8, 1));
        assert_eq!(refused(b"policy=clock\npages=0\n"), (2, 2));
        assert_eq!(refused(b"policy=car\npages=2\n"), (8, 3));
        assert_eq!(refused(b"policy=car\npages=2\nmisscost=1,250\npage=1"), (8, 4));
        assert_eq!(refused(b"policy=car\npages=2\nmisscost=1,250\n\n"), (8, 4));
        assert_eq!(refused(b"policy=car\npages=2\nmisscost=1,250\npage=\npages=1\n"), (9, 4));
        assert_eq!(refused(b"policy=car\npages=2\nmisscost=1,250\npage=1\npages=1\n"), (8, 5));
    }

    #[test]
    fn numbers_and_costs() {
        for (value, number) in [("0", 2), ("1025", 2), ("4294967295", 2), ("4294967296", 9), ("01", 9), ("", 9), ("00", 9), ("10000000000", 9), ("+1", 9), ("1 ", 9)] {
            assert_eq!(refused(format!("policy=car\npages={value}\n").as_bytes()), (number, 2), "{value}");
        }
        for value in ["1250", "1.250", "01,250", "1,25", "1,2500", ",250", "00,250", "10000,000", "1,25x", "1,2,3", "", "1,", "-1,250", "1,250 "] {
            assert_eq!(refused(format!("policy=car\npages=1\nmisscost={value}\n").as_bytes()), (9, 3), "{value}");
        }
    }

    #[test]
    fn limits_of_a_sheet() {
        assert_eq!(read(&with_pages(1000)).unwrap().count, 1000);
        assert_eq!(refused(&with_pages(1001)), (5, 1004));
        let mut sheet = with_pages(1000);
        sheet.extend_from_slice(b"page=x\npolicy");
        assert_eq!(refused(&sheet), (5, 1004));
        let mut sheet = with_pages(1000);
        sheet.extend_from_slice(b"page=1");
        assert_eq!(refused(&sheet), (8, 1004));
        assert_eq!(refused(&[b'\n'; 16001]), (7, 0));
        assert_eq!(refused(&[b'\n'; 16000]), (8, 1));
        let short = read_sheet(&[b'\n'; 16001], BLANK, &mut [0; 999]);
        assert_eq!(short, Err(Refused { number: 6, line: 0 }));
    }

    #[test]
    fn sixteen_thousand_bytes() {
        let sheet = crate::bids::of_length("cart", 16000);
        assert_eq!((sheet.len(), read(&sheet).map(|bid| bid.count)), (16000, Ok(1000)));
        let sheet = crate::bids::of_length("cart", 16001);
        assert_eq!((sheet.len(), refused(&sheet)), (16001, (7, 0)));
        assert_eq!(look_up(&sheet, 1), Err(7));
    }

    #[test]
    fn look_ups() {
        let sheet = b"a=b=c\nno\n=\n\nx=\r\nlast=1";
        assert_eq!(look_up(sheet, 1), Ok((2, &b"b=c"[..])));
        assert_eq!(look_up(sheet, 2), Err(8));
        assert_eq!(look_up(sheet, 3), Ok((10, &b""[..])));
        assert_eq!(look_up(sheet, 4), Err(8));
        assert_eq!(look_up(sheet, 5), Ok((14, &b"\r"[..])));
        for line in [0, 6, 7, u32::MAX] {
            assert_eq!(look_up(sheet, line), Err(8));
        }
        assert_eq!(look_up(&[b'='; 16001], 0), Err(7));
    }
}
