// Traces in the Storage Performance Council's file format (request 3): the form of a record, and the pages
// that the reads of one unit touch, in order, into a lent buffer.

use crate::sheet::Refused;

pub const LONGEST_FILE: usize = 16_000;
pub const PAGE_BUFFER: usize = 1_000;
pub const MOST_PAGES: usize = 1_000;
const BLOCK: u128 = 512;
const PAGE: u128 = 4_096;
const LAST_PAGE: u128 = u32::MAX as u128;

/// What a call gives: the refusal's number and its line (0 for 6 and 7), or two zeros and the count of pages.
#[derive(Clone, Copy, Debug, PartialEq, Eq)]
pub struct Taken {
    pub number: u32,
    pub line: u32,
    pub count: u32,
}

/// What counts of one line. Numbers that 64 bits cannot hold stand here as the largest that they can,
/// which is no unit that can be asked for and, as an LBA or a size, past the last page.
struct Record {
    unit: u64,
    lba: u64,
    size: u64,
    read: bool,
}

/// The page numbers of the unit's reads: 6, 7, then the lines from the top. They are written only if all is good.
pub fn pages(file: &[u8], unit: u32, pages: &mut [u32]) -> Taken {
    match read_trace(file, unit, pages.len()) {
        Ok(touched) => {
            pages[..touched.len()].copy_from_slice(&touched);
            Taken { number: 0, line: 0, count: touched.len() as u32 }
        }
        Err(Refused { number, line }) => Taken { number, line, count: 0 },
    }
}

/// The unit that this text names, if it is one that can be asked for.
pub fn unit(text: &[u8]) -> Option<u32> {
    u32::try_from(integer(text)?).ok()
}

fn read_trace(file: &[u8], unit: u32, room: usize) -> Result<Vec<u32>, Refused> {
    if room < PAGE_BUFFER {
        return Err(Refused { number: 6, line: 0 });
    }
    if file.len() > LONGEST_FILE {
        return Err(Refused { number: 7, line: 0 });
    }
    let mut touched = Vec::new();
    for (line, text) in (1..).zip(file.split_inclusive(|&byte| byte == b'\n')) {
        take(text, unit, &mut touched).map_err(|number| Refused { number, line })?;
    }
    Ok(touched)
}

/// One line: 10, then 11, then 5; else the pages that it touches, if it counts.
fn take(text: &[u8], unit: u32, touched: &mut Vec<u32>) -> Result<(), u32> {
    let record = record(text).ok_or(10u32)?;
    let counts = record.read && record.unit == unit as u64;
    if !counts || record.size == 0 {
        return Ok(());
    }
    let start = record.lba as u128 * BLOCK;
    let last_byte = start + record.size as u128 - 1;
    let (first, last) = (start / PAGE, last_byte / PAGE);
    if last > LAST_PAGE {
        return Err(11);
    }
    if last - first + 1 > (MOST_PAGES - touched.len()) as u128 {
        return Err(5);
    }
    touched.extend(first as u32..=last as u32);
    Ok(())
}

/// The record of a line with its line feed; none if the line is not in the council's form.
fn record(text: &[u8]) -> Option<Record> {
    let mut fields = text.strip_suffix(b"\n")?.split(|&byte| byte == b',');
    let unit = integer(fields.next()?)?;
    let lba = integer(fields.next()?)?;
    let size = integer(fields.next()?)?;
    let read = opcode(fields.next()?)?;
    timestamp(fields.next()?)?;
    Some(Record { unit, lba, size, read })
}

/// One or more digits; a number that is too large for 64 bits gives the largest.
fn integer(field: &[u8]) -> Option<u64> {
    if field.is_empty() || !field.iter().all(u8::is_ascii_digit) {
        return None;
    }
    Some(field.iter().fold(0, |sum: u64, &digit| sum.saturating_mul(10).saturating_add((digit - b'0') as u64)))
}

/// Whether it is a read; a write if not.
fn opcode(field: &[u8]) -> Option<bool> {
    match field {
        b"r" | b"R" => Some(true),
        b"w" | b"W" => Some(false),
        _ => None,
    }
}

/// Both parts and the point between them; a second point is no digit of the fraction.
fn timestamp(field: &[u8]) -> Option<()> {
    let point = field.iter().position(|&byte| byte == b'.')?;
    integer(&field[..point])?;
    integer(&field[point + 1..])?;
    Some(())
}

#[cfg(test)]
mod tests {
    use super::*;

    const FORTY: &str = "1234567890123456789012345678901234567890";
    const LAST_UNIT: u32 = u32::MAX;

    /// The call with a buffer of 1,002 words: its pages or its refusal and line; the other words stay.
    fn taken(file: &[u8], unit: u32) -> Result<Vec<u32>, (u32, u32)> {
        let mut buffer = vec![7; 1002];
        let Taken { number, line, count } = pages(file, unit, &mut buffer);
        assert!(buffer[count as usize..].iter().all(|&word| word == 7));
        if number != 0 {
            assert_eq!(count, 0);
            return Err((number, line));
        }
        assert_eq!(line, 0);
        buffer.truncate(count as usize);
        Ok(buffer)
    }

    /// Unit 0 of a file in text.
    fn of(file: &str) -> Result<Vec<u32>, (u32, u32)> {
        taken(file.as_bytes(), 0)
    }

    /// One read of unit 0.
    fn read(lba: &str, size: &str) -> Result<Vec<u32>, (u32, u32)> {
        of(&format!("0,{lba},{size},r,0.0\n"))
    }

    fn counted(answer: Result<Vec<u32>, (u32, u32)>) -> Result<usize, (u32, u32)> {
        answer.map(|pages| pages.len())
    }

    #[test]
    fn the_documents_records() {
        let file = "0,20941264,8192,W,0.551706,Alpha/NT\n1,3435888,16384,r,1.609859,\n";
        assert_eq!(of(file), Ok(vec![]));
        assert_eq!(taken(file.as_bytes(), 1), Ok(vec![429_486, 429_487, 429_488, 429_489]));
        assert_eq!(of(&file.replace('W', "R")), Ok(vec![2_617_658, 2_617_659]));
        assert_eq!(taken(file.as_bytes(), 2), Ok(vec![]));
    }

    #[test]
    fn pages_that_a_record_touches() {
        let touched: [(&str, &str, &[u32]); 20] = [
            ("0", "0", &[]), ("0", "1", &[0]), ("0", "4095", &[0]), ("0", "4096", &[0]), ("0", "4097", &[0, 1]),
            ("7", "0", &[]), ("7", "1", &[0]), ("7", "511", &[0]), ("7", "512", &[0]), ("7", "513", &[0, 1]),
            ("7", "4096", &[0, 1]), ("7", "4608", &[0, 1]), ("7", "4609", &[0, 1, 2]), ("8", "0", &[]), ("8", "1", &[1]),
            ("8", "4096", &[1]), ("8", "4097", &[1, 2]), ("8", "8192", &[1, 2]), ("15", "512", &[1]), ("16", "1", &[2]),
        ];
        for (lba, size, pages) in touched {
            assert_eq!(read(lba, size), Ok(pages.to_vec()), "{lba} {size}");
        }
        assert_eq!(of("0,80,1,r,5.0\n0,7,513,R,4.0\n0,80,1,r,4.5\n"), Ok(vec![10, 0, 1, 10]));
    }

    #[test]
    fn the_last_page_and_one_more() {
        let last = Ok(vec![u32::MAX]);
        let good = [("34359738360", "1"), ("34359738360", "4096"), ("34359738367", "1"), ("34359738367", "512")];
        for (lba, size) in good {
            assert_eq!(read(lba, size), last, "{lba} {size}");
        }
        assert_eq!(read("34359738359", "513"), Ok(vec![u32::MAX - 1, u32::MAX]));
        let over = [("34359738360", "4097"), ("34359738367", "513"), ("34359738368", "1"), ("34359738352", "8193"), ("34359738368", "4096")];
        for (lba, size) in over {
            assert_eq!(read(lba, size), Err((11, 1)), "{lba} {size}");
        }
        assert_eq!((read("34359738368", "0"), read(FORTY, "0"), read(FORTY, "000")), (Ok(vec![]), Ok(vec![]), Ok(vec![])));
        assert_eq!(of("0,34359738367,512,r,0.0\n0,34359738367,513,r,0.0\n"), Err((11, 2)));
    }

    #[test]
    fn numbers_have_no_limit_and_nothing_wraps() {
        // 2^55, 2^64, 2^64 + 8, 2^119, 2^128, 2^128 + 8: times 512 or alone 0 or little in 64 or 128 bits
        let far = [
            "36028797018963968", "18446744073709551616", "18446744073709551624", "664613997892457936451903530140172288",
            "340282366920938463463374607431768211456", "340282366920938463463374607431768211464", FORTY,
        ];
        for number in far {
            assert_eq!((read(number, "1"), read(number, "0"), read("0", number)), (Err((11, 1)), Ok(vec![]), Err((11, 1))), "{number}");
            assert_eq!(of(&format!("0,{number},{number},w,0.0\n")), Ok(vec![]));
            assert_eq!(of(&format!("{number},{number},{number},r,0.0\n")), Ok(vec![]));
            assert_eq!(of(&format!("{number},8,1,r,{number}.{number}\n0,8,1,r,{number}.{number}\n")), Ok(vec![1]));
        }
        assert_eq!((read("0", "17592186044416"), read("0", "17592186044417")), (Err((5, 1)), Err((11, 1))));
        assert_eq!((read("0", "4294967296"), read("4294967296", "1")), (Err((5, 1)), Ok(vec![536_870_912])));
    }

    #[test]
    fn leading_zeros() {
        assert_eq!(of("000,0008,0512,r,00.00\n"), Ok(vec![1]));
        let zeros = "0".repeat(50);
        assert_eq!(of(&format!("{zeros},{zeros}8,{zeros}1,r,{zeros}.{zeros}\n")), Ok(vec![1]));
        assert_eq!(taken(b"04294967295,8,1,r,0.0\n", LAST_UNIT), Ok(vec![1]));
        assert_eq!((unit(b"007"), unit(zeros.as_bytes()), unit(format!("{zeros}4294967295").as_bytes())), (Some(7), Some(0), Some(LAST_UNIT)));
    }

    #[test]
    fn only_the_units_reads_count() {
        let file = b"0,8,1,r,0.0\n1,16,1,r,0.0\n4294967295,24,1,R,0.0\n4294967296,32,1,r,0.0\n4294967294,40,1,r,0.0\n10,48,1,r,0.0\n";
        assert_eq!((taken(file, 0), taken(file, 1)), (Ok(vec![1]), Ok(vec![2])));
        assert_eq!((taken(file, LAST_UNIT), taken(file, LAST_UNIT - 1)), (Ok(vec![3]), Ok(vec![5])));
        assert_eq!(of("0,8,1,w,0.0\n0,16,1,W,0.0\n0,24,1,R,0.0\n0,32,1,r,0.0\n"), Ok(vec![3, 4]));
        let harmless = format!("0,{FORTY},1,W,0.0\n1,{FORTY},1,r,0.0\n0,0,{FORTY},w,0.0\n1,0,4096001,R,0.0\n");
        assert_eq!(of(&harmless), Ok(vec![]));
    }

    #[test]
    fn further_fields() {
        for further in ["", ",", ",,", ",,,", ",x", ",a,b,,c", ",\r", ", ", ",0.0", ",\0\u{ff}\u{7f}", ",0,8,1,x,y"] {
            assert_eq!(of(&format!("0,8,1,r,0.0{further}\n0,16,1,R,1.0\n")), Ok(vec![1, 2]), "{further:?}");
        }
        let bytes: Vec<u8> = (0..=255).filter(|&byte| byte != b'\n').collect();
        assert_eq!(taken(&[b"0,8,1,r,0.0,", &bytes[..], b"\n"].concat(), 0), Ok(vec![1]));
        assert_eq!(taken(&[b"0,8,1,r,0.0", &bytes[..], b"\n"].concat(), 0), Err((10, 1)));
    }

    #[test]
    fn fields_in_another_form() {
        for number in ["", " ", "+1", "-1", " 1", "1 ", "1.0", "0x1", "a", "1a", "1\r", "1\t", "\0", "1_0", "r", "\u{661}"] {
            for line in [format!("{number},8,1,w,0.0\n"), format!("0,{number},1,w,0.0\n"), format!("9,8,{number},r,0.0\n")] {
                assert_eq!(of(&format!("0,8,1,r,0.0\n{line}")), Err((10, 2)), "{line:?}");
            }
        }
        for opcode in ["", "x", "rr", "RW", "rw", " r", "r ", "R\r", "0", "read", "\0"] {
            assert_eq!(of(&format!("0,8,1,r,0.0\n9,8,1,{opcode},0.0\n")), Err((10, 2)), "{opcode:?}");
        }
        let wrong = [
            "", ".", "0", "1", "1.", ".1", "1..1", "1.1.1", "1.1.", ".1.1", "1.1\r", "1.1 ", " 1.1", "+1.1", "-1.1", "1.-1", "1 .1", "1. 1",
            "1,1", "1:1", "a.b", "1.1e5",
        ];
        for timestamp in wrong {
            assert_eq!(of(&format!("0,8,1,r,0.0\n9,8,1,w,{timestamp}\n")), Err((10, 2)), "{timestamp:?}");
        }
        for timestamp in ["0.0", "1.1", "00.00", "0.551706", "12345678901234567890.12345678901234567890"] {
            assert_eq!(of(&format!("0,8,1,r,9.0\n0,16,1,r,{timestamp}\n")), Ok(vec![1, 2]), "{timestamp:?}");
        }
    }

    #[test]
    fn lines_in_another_form() {
        assert_eq!(of(""), Ok(vec![]));
        for text in ["", "0", "0,8", "0,8,1", "0,8,1,r", "0,8,1,r,", ",,,,", "0,8,1,r,0.0\r", "# x", "0;8;1;r;0.0", ",0,8,1,r,0.0"] {
            assert_eq!((of(&format!("{text}\n")), of(&format!("0,8,1,r,0.0\n{text}\n"))), (Err((10, 1)), Err((10, 2))), "{text:?}");
        }
        for unclosed in ["0,8,1,r,0.0", "0,8,1,w,0.0", "1,8,1,r,0.0,x", "x", "\r"] {
            assert_eq!((of(unclosed), of(&format!("0,8,1,r,0.0\n{unclosed}"))), (Err((10, 1)), Err((10, 2))), "{unclosed:?}");
        }
        assert_eq!(of("0,8,1,r,0.0\n\n"), Err((10, 2)));
    }

    #[test]
    fn a_thousand_pages_and_one() {
        let one = "0,8,1,r,0.0\n";
        assert_eq!((counted(of(&one.repeat(1000))), of(&one.repeat(1001))), (Ok(1000), Err((5, 1001))));
        assert_eq!(read("0", "4096000"), Ok((0..1000).collect()));
        assert_eq!((read("0", "4096001"), read("7", "4092417")), (Err((5, 1)), Err((5, 1))));
        assert_eq!((counted(read("7", "4092416")), counted(read("8", "4096000"))), (Ok(1000), Ok(1000)));
        let more = |rest: &str| counted(of(&format!("0,0,4091904,r,0.0\n{rest}")));
        assert_eq!((more(""), more("1,0,9999,r,0.0\n0,0,9999,w,0.0\n")), (Ok(999), Ok(999)));
        assert_eq!((more(one), more("0,15,513,r,0.0\n")), (Ok(1000), Err((5, 2))));
        let full = format!("0,0,4091904,r,0.0\n{one}");
        assert_eq!(counted(of(&format!("{full}0,8,0,r,0.0\n0,8,1,w,0.0\n1,8,1,r,0.0\n"))), Ok(1000));
        assert_eq!(of(&format!("{full}0,8,0,r,0.0\n{one}")), Err((5, 4)));
        let last: Vec<u32> = (u32::MAX - 999..=u32::MAX).collect();
        assert_eq!((read("34359730368", "4096000"), read("34359730360", "4100096")), (Ok(last), Err((5, 1))));
    }

    #[test]
    fn the_first_wrong_line_decides() {
        let (form, over, many) = ("0,8,1,w,0\n", "0,34359738368,1,r,0.0\n", "0,0,4096001,r,0.0\n");
        for (first, number) in [(form, 10), (over, 11), (many, 5)] {
            for second in [form, over, many] {
                assert_eq!(of(&format!("1,8,1,r,0.0\n{first}{second}")), Err((number, 2)));
            }
        }
        assert_eq!(of("0,34359738368,99999999,r,0\n"), Err((10, 1)));
        assert_eq!(read("34359738368", "99999999"), Err((11, 1)));
        assert_eq!(of(&format!("{many}0,8,1,r,0.0")), Err((5, 1)));
        assert_eq!(of(&format!("{}0,8,1,r,0\n", "0,8,1,r,0.0\n".repeat(1000))), Err((10, 1001)));
        assert_eq!(of(&format!("{}{over}", "0,8,1,r,0.0\n".repeat(1000))), Err((11, 1001)));
    }

    #[test]
    fn buffer_and_length_come_first() {
        let long = |length: usize| [b"0,8,1,r,0.0,", &vec![b'x'; length - 13][..], b"\n"].concat();
        assert_eq!((taken(&long(16_000), 0), taken(&long(16_001), 0)), (Ok(vec![1]), Err((7, 0))));
        assert_eq!((taken(&[b'\n'; 16_000], 0), taken(&[b'\n'; 16_001], 0)), (Err((10, 1)), Err((7, 0))));
        for file in [vec![b'\n'; 16_001], vec![b'\n'], b"0,8,1,r,0.0\n".to_vec(), vec![]] {
            for length in [0, 1, 999] {
                let mut buffer = vec![7; length];
                assert_eq!(pages(&file, 0, &mut buffer), Taken { number: 6, line: 0, count: 0 });
                assert_eq!(buffer, vec![7; length]);
            }
        }
        let mut buffer = vec![7; 1000];
        assert_eq!(pages(b"0,8,4097,r,0.0\n", 0, &mut buffer), Taken { number: 0, line: 0, count: 2 });
        assert_eq!(buffer[..3], [1, 2, 7]);
    }

    #[test]
    fn units_that_can_be_asked_for() {
        for (text, number) in [("0", 0), ("1", 1), ("010", 10), ("4294967295", LAST_UNIT), ("00000000004294967295", LAST_UNIT)] {
            assert_eq!(unit(text.as_bytes()), Some(number), "{text}");
        }
        for text in ["", "+1", "-1", " 1", "1 ", "1\n", "x", "1x", "0x1", "1.0", "4294967296", "18446744073709551616", FORTY, "\u{661}"] {
            assert_eq!(unit(text.as_bytes()), None, "{text}");
        }
    }
}
