// The copy of a bid sheet, in which `car` stands where the policy was blank (request 2), so that the copy
// still means what its sheet meant when it was filed; and the check that it does.

use crate::policy::{BLANK, BLANK_BEFORE};
use crate::sheet::{read_whole, Refused, LONGEST_SHEET};

/// Refused as the sheet reader refuses, then 7, line 0, if the copy would be too long.
pub fn copy_of(sheet: &[u8]) -> Result<Vec<u8>, Refused> {
    read_whole(sheet, BLANK_BEFORE)?;
    let copy = match sheet.strip_prefix(b"policy=\n") {
        Some(rest) => [&b"policy=car\n"[..], rest].concat(),
        None => sheet.to_vec(),
    };
    if copy.len() > LONGEST_SHEET {
        return Err(Refused { number: 7, line: 0 });
    }
    Ok(copy)
}

/// Whether the copy now means what its sheet, a good one, meant before request 2.
pub fn means_as_before(sheet: &[u8], copy: &[u8]) -> bool {
    read_whole(copy, BLANK) == read_whole(sheet, BLANK_BEFORE)
}

#[cfg(test)]
mod tests {
    use super::*;
    use crate::bids::{of_length, worked, NAMES};
    use crate::copy_sheets::copy_sheets;
    use crate::random::Random;

    fn refused(sheet: &[u8]) -> (u32, u32) {
        let refused = copy_of(sheet).unwrap_err();
        (refused.number, refused.line)
    }

    #[test]
    fn car_stands_where_the_policy_was_blank() {
        assert_eq!(copy_of(b"policy=\npages=2\nmisscost=1,250\n"), Ok(b"policy=car\npages=2\nmisscost=1,250\n".to_vec()));
        assert_eq!(copy_of(&worked("")), Ok(worked("car")));
        for length in [7_040, 15_996, 15_997] {
            assert_eq!(copy_of(&of_length("", length)).map(|copy| copy.len()), Ok(length + 3));
        }
    }

    #[test]
    fn a_named_policy_stays() {
        for name in NAMES {
            assert_eq!(copy_of(&worked(name)), Ok(worked(name)));
            for length in [15_996, 15_997, 15_998, 15_999, 16_000] {
                assert_eq!(copy_of(&of_length(name, length)), Ok(of_length(name, length)));
            }
            assert_eq!(refused(&of_length(name, 16_001)), (7, 0));
        }
    }

    #[test]
    fn a_copy_too_long_is_refused_after_the_lines() {
        for length in [15_998, 15_999, 16_000, 16_001] {
            let mut sheet = of_length("", length);
            assert_eq!(refused(&sheet), (7, 0));
            sheet[length - 2] = b'x';
            assert_eq!(refused(&sheet), if length > 16_000 { (7, 0) } else { (9, 1003) });
            sheet[14] = b'0';
            assert_eq!(refused(&sheet), if length > 16_000 { (7, 0) } else { (2, 2) });
        }
        assert_eq!(refused(&[&of_length("", 15_991)[..], b"page=1\n"].concat()), (5, 1004));
        assert_eq!(refused(&of_length("\r", 15_998)), (1, 1));
    }

    #[test]
    fn refused_as_the_reader_refuses() {
        assert_eq!((refused(b""), refused(b"policy="), refused(b"policy=\n"), refused(b"policy=car")), ((8, 1), (8, 1), (8, 2), (8, 1)));
        assert_eq!((refused(b"policy=\r\n"), refused(&worked("\r")), refused(&worked(" "))), ((1, 1), (1, 1), (1, 1)));
        assert_eq!((refused(b"policy=\npages=1025\n"), refused(b"policy=\npages=1\nmisscost=1250\n")), ((2, 2), (9, 3)));
        assert_eq!(refused(&[b'\n'; 100_000]), (7, 0));
    }

    /// Over all sheets of a comparison: the reader's refusal, or 7 beyond the limit, or the copy with its meaning.
    #[test]
    fn a_copy_means_what_its_sheet_meant() {
        for sheet in copy_sheets(&mut Random::new(2), 931) {
            let added = if sheet.starts_with(b"policy=\n") { 3 } else { 0 };
            match (read_whole(&sheet, BLANK_BEFORE), copy_of(&sheet)) {
                (Err(reader), answer) => assert_eq!(answer, Err(reader)),
                (Ok(_), Err(refused)) => assert!(refused == Refused { number: 7, line: 0 } && sheet.len() + added > 16_000),
                (Ok(_), Ok(copy)) => {
                    assert!(copy.len() == sheet.len() + added && copy.len() <= 16_000);
                    assert!(copy[7 + added..] == sheet[7..] && means_as_before(&sheet, &copy));
                    assert_eq!(means_as_before(&sheet, &sheet), added == 0);
                }
            }
        }
    }

    #[test]
    fn other_meanings_are_seen() {
        let sheet = worked("");
        assert!(means_as_before(&sheet, &worked("car")));
        for copy in [worked(""), worked("cart"), worked("lru"), worked("car "), vec![], sheet[..sheet.len() - 7].to_vec()] {
            assert!(!means_as_before(&sheet, &copy));
        }
        let (cost, page) = (b"policy=car\npages=2\nmisscost=1,251\n", b"policy=car\npages=2\nmisscost=1,250\npage=2\n");
        assert!(!means_as_before(b"policy=\npages=2\nmisscost=1,250\n", cost));
        assert!(!means_as_before(b"policy=\npages=2\nmisscost=1,250\npage=1\n", page));
    }
}
