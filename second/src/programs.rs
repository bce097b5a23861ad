// The programs over a bid sheet: score gives the result sheet or the two lines of a refusal, ledger the same and then one
// line for each request, copy the sheet's copy or the two lines; and spc over a trace: a unit's page lines or the two lines.

use crate::copy::copy_of;
use crate::council::{self, Taken, PAGE_BUFFER};
use crate::directory::{fresh, words_for};
use crate::policy::BLANK;
use crate::result::{write_result, Outcome, RESULT_BUFFER};
use crate::run::{run, Tally};
use crate::sheet::{read_whole, Bid, Refused};

/// The sheet's pages served on a fresh directory.
struct Scored {
    bid: Bid,
    pages: Vec<u32>,
    answers: Vec<u32>,
    tally: Tally,
}

/// The program score: the result sheet, or `refused=N` and `line=N`.
pub fn score(sheet: &[u8]) -> Vec<u8> {
    match serve_sheet(sheet) {
        Ok(scored) => result_sheet(&scored),
        Err(text) => text.into_bytes(),
    }
}

/// The program ledger: as score, then a line for each request.
pub fn ledger(sheet: &[u8]) -> Vec<u8> {
    match serve_sheet(sheet) {
        Ok(scored) => [result_sheet(&scored), request_lines(&scored).into_bytes()].concat(),
        Err(text) => text.into_bytes(),
    }
}

/// The program copy: the sheet with `car` where its policy is blank, or `refused=N` and `line=N`.
pub fn copy(sheet: &[u8]) -> Vec<u8> {
    match copy_of(sheet) {
        Ok(copy) => copy,
        Err(refused) => refusal_lines(refused).into_bytes(),
    }
}

/// The program spc: a `page=` line for each page that the unit's reads touch, or `refused=N` and `line=N`.
pub fn spc(trace: &[u8], unit: u32) -> Vec<u8> {
    let mut pages = vec![0; PAGE_BUFFER];
    let Taken { number, line, count } = council::pages(trace, unit, &mut pages);
    if number != 0 {
        return refusal_lines(Refused { number, line }).into_bytes();
    }
    pages[..count as usize].iter().map(|page| format!("page={page}\n")).collect::<String>().into_bytes()
}

/// The unit that spc's arguments name, which must be one argument.
pub fn unit_of(arguments: &[impl AsRef<[u8]>]) -> Option<u32> {
    let [argument] = arguments else {
        return None;
    };
    council::unit(argument.as_ref())
}

fn serve_sheet(sheet: &[u8]) -> Result<Scored, String> {
    let (bid, pages) = read_whole(sheet, BLANK).map_err(refusal_lines)?;
    let mut dir = vec![0; words_for(bid.c)];
    let number = fresh(bid.policy, bid.c, &mut dir);
    let mut answers = vec![0; 4 * pages.len()];
    let (run_number, tally) = run(&mut dir, &pages, &mut answers);
    assert!(number == 0 && run_number == 0, "a good sheet is served");
    Ok(Scored { bid, pages, answers, tally })
}

fn refusal_lines(refused: Refused) -> String {
    format!("refused={}\nline={}\n", refused.number, refused.line)
}

fn result_sheet(scored: &Scored) -> Vec<u8> {
    let tally = &scored.tally;
    let outcome = Outcome {
        policy: scored.bid.policy,
        pages: scored.bid.c,
        requests: tally.requests,
        hits: tally.hits,
        misses: tally.misses,
        evictions: tally.evictions,
        steps: tally.moves,
        wait: tally.misses as u64 * scored.bid.cost as u64,
    };
    let mut out = vec![0; RESULT_BUFFER];
    let (_, count) = write_result(&outcome, &mut out);
    out.truncate(count as usize);
    out
}

fn request_lines(scored: &Scored) -> String {
    let mut text = String::new();
    for (at, page) in scored.pages.iter().enumerate() {
        let [kind, evicted, list, moves] = [0, 1, 2, 3].map(|word| scored.answers[4 * at + word]);
        let request = at + 1;
        text += &format!("request={request} page={page} kind={kind} evicted={evicted} list={list} moves={moves}\n");
    }
    text
}

#[cfg(test)]
mod tests {
    use super::*;

    const WORKED: &[u8] = b"policy=car\npages=2\nmisscost=1,250\npage=1\npage=2\npage=1\npage=3\npage=2\npage=1\npage=4\npage=2\n";
    const RESULT: &str = "policy=car\npages=2\nrequests=8\nhits=2\nmisses=6\nevictions=4\nsteps=6\nwait=7,500\n";

    #[test]
    fn the_worked_run() {
        assert_eq!(String::from_utf8(score(WORKED)).unwrap(), RESULT);
        let text = String::from_utf8(ledger(WORKED)).unwrap();
        assert!(text.starts_with(RESULT));
        let lines: Vec<&str> = text.lines().skip(8).collect();
        assert_eq!(lines.len(), 8);
        assert_eq!(lines[2], "request=3 page=1 kind=0 evicted=0 list=0 moves=0");
        assert_eq!(lines[3], "request=4 page=3 kind=2 evicted=2 list=1 moves=2");
        assert_eq!(lines[7], "request=8 page=2 kind=4 evicted=4 list=1 moves=1");
    }

    #[test]
    fn the_worked_run_under_the_three() {
        let results = [
            ("fifo", "hits=2\nmisses=6\nevictions=4\nsteps=4\nwait=7,500\n", "kind=2 evicted=1 list=1 moves=1"),
            ("clock", "hits=1\nmisses=7\nevictions=5\nsteps=6\nwait=8,750\n", "kind=2 evicted=2 list=1 moves=2"),
            ("lru", "hits=1\nmisses=7\nevictions=5\nsteps=5\nwait=8,750\n", "kind=2 evicted=2 list=1 moves=1"),
        ];
        for (name, rest, fourth) in results {
            let sheet = String::from_utf8(WORKED.to_vec()).unwrap().replace("=car\n", &format!("={name}\n"));
            let result = format!("policy={name}\npages=2\nrequests=8\n{rest}");
            assert_eq!(String::from_utf8(score(sheet.as_bytes())).unwrap(), result);
            let text = String::from_utf8(ledger(sheet.as_bytes())).unwrap();
            assert!(text.starts_with(&result) && text.contains(&format!("request=4 page=3 {fourth}\n")), "{text}");
        }
    }

    #[test]
    fn a_blank_policy_is_scored_as_cart_and_its_copy_as_car() {
        let blank = crate::bids::worked("");
        assert!(score(&blank).starts_with(b"policy=cart\npages=2\nrequests=8\n"));
        assert_eq!(ledger(&blank), ledger(&crate::bids::worked("cart")));
        assert_eq!(copy(&blank), WORKED);
        assert_eq!(copy(WORKED), WORKED);
        assert_eq!(String::from_utf8(score(&copy(&blank))).unwrap(), RESULT);
    }

    #[test]
    fn refused_copies() {
        assert_eq!(copy(b"policy="), b"refused=8\nline=1\n");
        assert_eq!(copy(b"policy=\r\npages=0\n"), b"refused=1\nline=1\n");
        assert_eq!(copy(b"policy=\npages=2\nmisscost=1,25\n"), b"refused=9\nline=3\n");
        assert_eq!(copy(&crate::bids::of_length("", 15_998)), b"refused=7\nline=0\n");
        assert_eq!(copy(&[0; 20000]), b"refused=7\nline=0\n");
    }

    #[test]
    fn page_lines_of_a_unit() {
        let trace = b"0,007,513,r,0.0\n1,34359738367,512,R,0.0,\n0,8,1,w,0.0\n";
        assert_eq!((spc(trace, 0), spc(trace, 1), spc(trace, 2)), (b"page=0\npage=1\n".to_vec(), b"page=4294967295\n".to_vec(), vec![]));
        assert_eq!(spc(b"", 0), b"");
        let sheet = [&b"policy=lru\npages=1\nmisscost=0,001\n"[..], &spc(b"0,8,1,r,0.0\n".repeat(1000).as_slice(), 0)].concat();
        assert!(score(&sheet).starts_with(b"policy=lru\npages=1\nrequests=1000\nhits=999\n"));
    }

    #[test]
    fn refused_traces() {
        assert_eq!(spc(b"1,8,1,r,0.0\n0,8,1,w,0\n", 1), b"refused=10\nline=2\n");
        assert_eq!(spc(b"1,34359738367,513,r,0.0\n", 1), b"refused=11\nline=1\n");
        assert_eq!(spc(b"0,0,1,r,0.0\n0,0,4096000,r,0.0\n", 0), b"refused=5\nline=2\n");
        assert_eq!(spc(&[b'\n'; 16_001], 0), b"refused=7\nline=0\n");
    }

    #[test]
    fn one_argument_names_the_unit() {
        assert_eq!((unit_of(&["7"]), unit_of(&["0004294967295"]), unit_of(&[b"0".to_vec()])), (Some(7), Some(u32::MAX), Some(0)));
        let refused: [&[&str]; 9] = [&[], &["7", "7"], &["7", ""], &[""], &["+7"], &[" 7"], &["seven"], &["4294967296"], &["--help"]];
        refused.iter().for_each(|arguments| assert_eq!(unit_of(arguments), None, "{arguments:?}"));
    }

    #[test]
    fn refused_sheets() {
        assert_eq!(score(b""), b"refused=8\nline=1\n");
        assert_eq!(ledger(b"policy=car\npages=1025\n"), b"refused=2\nline=2\n");
        assert_eq!(ledger(b"policy=lruu\npages=1\n"), b"refused=1\nline=1\n");
        assert_eq!(score(&[0; 16001]), b"refused=7\nline=0\n");
        assert_eq!(ledger(&[0; 20000]), b"refused=7\nline=0\n");
    }
}
