// The result writer: the eight lines of a result sheet into at least 256 lent bytes,
// bytes past its end stay; any numbers are taken.

use crate::policy;

pub const RESULT_BUFFER: usize = 256;

#[derive(Clone, Copy, Debug, PartialEq, Eq)]
pub struct Outcome {
    pub policy: u32,
    pub pages: u32,
    pub requests: u32,
    pub hits: u32,
    pub misses: u32,
    pub evictions: u32,
    pub steps: u32,
    pub wait: u64,
}

/// Refused 1, 6; else number 0 and the count of bytes.
pub fn write_result(outcome: &Outcome, out: &mut [u8]) -> (u32, u32) {
    let Some(name) = policy::name(outcome.policy) else {
        return (1, 0);
    };
    if out.len() < RESULT_BUFFER {
        return (6, 0);
    }
    let text = result_text(name, outcome);
    out[..text.len()].copy_from_slice(text.as_bytes());
    (0, text.len() as u32)
}

fn result_text(name: &str, outcome: &Outcome) -> String {
    let mut text = String::new();
    text += &format!("policy={name}\n");
    text += &format!("pages={}\n", outcome.pages);
    text += &format!("requests={}\n", outcome.requests);
    text += &format!("hits={}\n", outcome.hits);
    text += &format!("misses={}\n", outcome.misses);
    text += &format!("evictions={}\n", outcome.evictions);
    text += &format!("steps={}\n", outcome.steps);
    text += &format!("wait={},{:03}\n", outcome.wait / 1000, outcome.wait % 1000);
    text
}

#[cfg(test)]
mod tests {
    use super::*;

    fn outcome(policy: u32, number: u32, wait: u64) -> Outcome {
        Outcome { policy, pages: number, requests: number, hits: number, misses: number, evictions: number, steps: number, wait }
    }

    #[test]
    fn the_longest_result_fits() {
        let mut out = [7; 256];
        let (number, count) = write_result(&outcome(4, u32::MAX, u64::MAX), &mut out);
        assert_eq!((number, count), (0, 13 + 17 + 20 + 16 + 18 + 21 + 17 + 27));
        let text = String::from_utf8(out[..count as usize].to_vec()).unwrap();
        assert!(text.starts_with("policy=clock\npages=4294967295\nrequests=4294967295\n"));
        assert!(text.ends_with("steps=4294967295\nwait=18446744073709551,615\n"));
        assert!(out[count as usize..].iter().all(|&byte| byte == 7));
    }

    #[test]
    fn waits() {
        for (wait, text) in [(0, "wait=0,000\n"), (7, "wait=0,007\n"), (999, "wait=0,999\n"), (1000, "wait=1,000\n"), (7500, "wait=7,500\n")] {
            assert!(result_text("car", &outcome(1, 0, wait)).ends_with(text));
        }
    }

    #[test]
    fn names() {
        for (policy, name) in (1..=5).zip(["car", "cart", "fifo", "clock", "lru"]) {
            let mut out = [7; 256];
            assert_eq!(write_result(&outcome(policy, 0, 0), &mut out).0, 0);
            assert!(out.starts_with(format!("policy={name}\npages=0\n").as_bytes()));
        }
    }

    #[test]
    fn refusals_in_order() {
        let mut out = [7; 255];
        assert_eq!(write_result(&outcome(0, 1, 1), &mut out), (1, 0));
        assert_eq!(write_result(&outcome(6, 1, 1), &mut out), (1, 0));
        assert_eq!(write_result(&outcome(5, 1, 1), &mut out), (6, 0));
        assert_eq!(write_result(&outcome(1, 1, 1), &mut out), (6, 0));
        assert_eq!(out, [7; 255]);
    }
}
