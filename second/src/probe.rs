// The probe's wire form: calls and answers as little-endian 32-bit words, a buffer as its length
// and its elements; and the probe itself, which answers calls until the end or the first it cannot read.

use crate::council;
use crate::directory::{check, fresh};
use crate::policy::BLANK;
use crate::request::request;
use crate::result::{write_result, Outcome};
use crate::run::run;
use crate::sheet::{look_up, read_sheet};
use std::io::{Error, ErrorKind, Write};

pub const LONGEST_DIR: usize = 4200;
pub const LONGEST_PAGES: usize = 1100;
pub const LONGEST_ANSWERS: usize = 4500;
pub const LONGEST_SHEET: usize = 17000;
pub const LONGEST_OUT: usize = 400;
pub const MOST_CALLS: usize = 100_000;

/// One call, with the buffers as they are lent.
#[derive(Clone, Debug, PartialEq, Eq)]
pub enum Call {
    Fresh { policy: u32, c: u32, dir: Vec<u32> },
    Check { dir: Vec<u32> },
    Request { dir: Vec<u32>, page: u32 },
    Run { dir: Vec<u32>, trace: Vec<u32>, answers: Vec<u32> },
    Read { sheet: Vec<u8>, pages: Vec<u32> },
    LookUp { sheet: Vec<u8>, line: u32 },
    Write { outcome: Outcome, out: Vec<u8> },
    Council { file: Vec<u8>, unit: u32, pages: Vec<u32> },
}

/// The words of a stream, from the front.
pub struct Words<'a> {
    bytes: &'a [u8],
}

impl<'a> Words<'a> {
    pub fn new(bytes: &'a [u8]) -> Words<'a> {
        Words { bytes }
    }

    pub fn word(&mut self) -> Option<u32> {
        let (word, rest) = self.bytes.split_first_chunk::<4>()?;
        self.bytes = rest;
        Some(u32::from_le_bytes(*word))
    }

    /// A buffer of at most `longest` elements.
    pub fn buffer(&mut self, longest: usize) -> Option<Vec<u32>> {
        let length = self.word()? as usize;
        if length > longest || self.bytes.len() < 4 * length {
            return None;
        }
        (0..length).map(|_| self.word()).collect()
    }

    /// A buffer of bytes, a byte to a word.
    fn bytes(&mut self, longest: usize) -> Option<Vec<u8>> {
        self.buffer(longest)?.into_iter().map(|word| u8::try_from(word).ok()).collect()
    }

    pub fn bytes_left(&self) -> usize {
        self.bytes.len()
    }
}

pub fn put_buffer(words: &mut Vec<u32>, elements: &[u32]) {
    words.push(elements.len() as u32);
    words.extend_from_slice(elements);
}

fn put_bytes(words: &mut Vec<u32>, bytes: &[u8]) {
    words.push(bytes.len() as u32);
    words.extend(bytes.iter().map(|&byte| byte as u32));
}

pub fn to_bytes(words: &[u32]) -> Vec<u8> {
    words.iter().flat_map(|word| word.to_le_bytes()).collect()
}

/// The next call, or none if it cannot be read.
pub fn read_call(words: &mut Words) -> Option<Call> {
    match words.word()? {
        1 => Some(Call::Fresh { policy: words.word()?, c: words.word()?, dir: words.buffer(LONGEST_DIR)? }),
        2 => Some(Call::Check { dir: words.buffer(LONGEST_DIR)? }),
        3 => Some(Call::Request { dir: words.buffer(LONGEST_DIR)?, page: words.word()? }),
        4 => Some(Call::Run {
            dir: words.buffer(LONGEST_DIR)?,
            trace: words.buffer(LONGEST_PAGES)?,
            answers: words.buffer(LONGEST_ANSWERS)?,
        }),
        5 => Some(Call::Read { sheet: words.bytes(LONGEST_SHEET)?, pages: words.buffer(LONGEST_PAGES)? }),
        6 => Some(Call::LookUp { sheet: words.bytes(LONGEST_SHEET)?, line: words.word()? }),
        7 => Some(Call::Write { outcome: read_outcome(words)?, out: words.bytes(LONGEST_OUT)? }),
        8 => Some(Call::Council {
            file: words.bytes(LONGEST_SHEET)?,
            unit: words.word()?,
            pages: words.buffer(LONGEST_PAGES)?,
        }),
        _ => None,
    }
}

fn read_outcome(words: &mut Words) -> Option<Outcome> {
    Some(Outcome {
        policy: words.word()?,
        pages: words.word()?,
        requests: words.word()?,
        hits: words.word()?,
        misses: words.word()?,
        evictions: words.word()?,
        steps: words.word()?,
        wait: words.word()? as u64 + ((words.word()? as u64) << 32),
    })
}

/// The call as words, the op first.
pub fn put_call(call: &Call, words: &mut Vec<u32>) {
    words.push(op(call));
    match call {
        Call::Fresh { policy, c, dir } => {
            words.extend([*policy, *c]);
            put_buffer(words, dir);
        }
        Call::Check { dir } => put_buffer(words, dir),
        Call::Request { dir, page } => {
            put_buffer(words, dir);
            words.push(*page);
        }
        Call::Run { dir, trace, answers } => [dir, trace, answers].iter().for_each(|buffer| put_buffer(words, buffer)),
        Call::Read { sheet, pages } => {
            put_bytes(words, sheet);
            put_buffer(words, pages);
        }
        Call::LookUp { sheet, line } => {
            put_bytes(words, sheet);
            words.push(*line);
        }
        Call::Write { outcome: o, out } => {
            words.extend([o.policy, o.pages, o.requests, o.hits, o.misses, o.evictions, o.steps]);
            words.extend([o.wait as u32, (o.wait >> 32) as u32]);
            put_bytes(words, out);
        }
        Call::Council { file, unit, pages } => {
            put_bytes(words, file);
            words.push(*unit);
            put_buffer(words, pages);
        }
    }
}

pub fn op(call: &Call) -> u32 {
    match call {
        Call::Fresh { .. } => 1,
        Call::Check { .. } => 2,
        Call::Request { .. } => 3,
        Call::Run { .. } => 4,
        Call::Read { .. } => 5,
        Call::LookUp { .. } => 6,
        Call::Write { .. } => 7,
        Call::Council { .. } => 8,
    }
}

/// How many numbers and how many buffers the answer of an op has.
pub fn shape(op: u32) -> (usize, usize) {
    [(0, 0), (1, 1), (1, 0), (5, 1), (6, 2), (6, 1), (2, 1), (2, 1), (3, 1)][op as usize]
}

/// Carries the call out: the words of its answer and of the lent buffers after it.
pub fn answer(call: Call) -> Vec<u32> {
    match call {
        Call::Fresh { policy, c, mut dir } => {
            let number = fresh(policy, c, &mut dir);
            joined(&[number], &[&dir])
        }
        Call::Check { dir } => vec![check(&dir)],
        Call::Request { mut dir, page } => {
            let (number, a) = request(&mut dir, page);
            joined(&[number, a.kind, a.page, a.list, a.moves], &[&dir])
        }
        Call::Run { mut dir, trace, mut answers } => {
            let (number, t) = run(&mut dir, &trace, &mut answers);
            joined(&[number, t.requests, t.hits, t.misses, t.evictions, t.moves], &[&dir, &answers])
        }
        Call::Read { sheet, mut pages } => {
            let numbers = match read_sheet(&sheet, BLANK, &mut pages) {
                Ok(bid) => [0, 0, bid.policy, bid.c, bid.cost, bid.count],
                Err(refused) => [refused.number, refused.line, 0, 0, 0, 0],
            };
            joined(&numbers, &[&pages])
        }
        Call::LookUp { sheet, line } => answer_look_up(&sheet, line),
        Call::Write { outcome, mut out } => {
            let (number, count) = write_result(&outcome, &mut out);
            let mut words = vec![number, count];
            put_bytes(&mut words, &out);
            words
        }
        Call::Council { file, unit, mut pages } => {
            let taken = council::pages(&file, unit, &mut pages);
            joined(&[taken.number, taken.line, taken.count], &[&pages])
        }
    }
}

fn answer_look_up(sheet: &[u8], line: u32) -> Vec<u32> {
    match look_up(sheet, line) {
        Ok((start, part)) => {
            let mut words = vec![0, start as u32];
            put_bytes(&mut words, part);
            words
        }
        Err(number) => vec![number, 0, 0],
    }
}

fn joined(numbers: &[u32], buffers: &[&[u32]]) -> Vec<u32> {
    let mut words = numbers.to_vec();
    buffers.iter().for_each(|buffer| put_buffer(&mut words, buffer));
    words
}

/// The probe: answers until the end of the input or the 100,000th call. Each answer goes out before the
/// next call, so a probe that breaks off has given what came before; a call that cannot be read is an error.
pub fn probe(input: &[u8], output: &mut dyn Write) -> std::io::Result<()> {
    let mut words = Words::new(input);
    for number in 1..=MOST_CALLS {
        if words.bytes_left() == 0 {
            break;
        }
        let Some(call) = read_call(&mut words) else {
            return Err(Error::new(ErrorKind::InvalidData, format!("call {number} cannot be read")));
        };
        output.write_all(&to_bytes(&answer(call)))?;
    }
    Ok(())
}

#[cfg(test)]
mod tests {
    use super::*;

    /// The words answered, and what stands on standard error (nothing if the probe ends well).
    fn told(bytes: &[u8]) -> (Vec<u32>, String) {
        let mut output = Vec::new();
        let error = probe(bytes, &mut output).map_or_else(|why| why.to_string(), |()| String::new());
        (output.chunks(4).map(|word| u32::from_le_bytes(word.try_into().unwrap())).collect(), error)
    }

    fn probed(words: &[u32]) -> Vec<u32> {
        let (answers, error) = told(&to_bytes(words));
        assert_eq!(error, "");
        answers
    }

    #[test]
    fn one_call_of_each_op() {
        assert_eq!(probed(&[1, 1, 1, 12, 9, 9, 9, 9, 9, 9, 9, 9, 9, 9, 9, 9]), [0, 12, 1, 1, 0, 0, 0, 0, 0, 0, 0, 0, 0, 0]);
        assert_eq!(probed(&[2, 0]), [3]);
        assert_eq!(probed(&[3, 12, 1, 1, 0, 0, 0, 0, 0, 0, 0, 0, 0, 0, 5]), [0, 1, 0, 0, 0, 12, 1, 1, 0, 0, 1, 0, 0, 0, 5, 0, 0, 0]);
        assert_eq!(probed(&[4, 0, 1, 7, 2, 8, 8]), [3, 0, 0, 0, 0, 0, 0, 2, 8, 8]);
        assert_eq!(probed(&[5, 0, 1, 7]), [6, 0, 0, 0, 0, 0, 1, 7]);
        assert_eq!(probed(&[6, 4, 97, 61, 98, 10, 1]), [0, 2, 1, 98]);
        assert_eq!(probed(&[6, 4, 97, 61, 98, 10, 2]), [8, 0, 0]);
        assert_eq!(probed(&[7, 1, 0, 0, 0, 0, 0, 0, 0, 0, 2, 5, 6]), [6, 0, 2, 5, 6]);
        assert_eq!(probed(&[8, 1, 10, 4, 2, 5, 6]), [6, 0, 0, 2, 5, 6]);
    }

    #[test]
    fn pages_of_a_unit() {
        let file = b"4294967295,7,513,r,0.0\n0,8,1,R,0.0\n".to_vec();
        let answered = |file: &[u8], unit| answer(Call::Council { file: file.to_vec(), unit, pages: vec![5; 1000] });
        assert_eq!(answered(&file, u32::MAX)[..7], [0, 0, 2, 1000, 0, 1, 5]);
        assert_eq!(answered(&file, 0)[..6], [0, 0, 1, 1000, 1, 5]);
        assert_eq!(answered(&file[..file.len() - 1], 0)[..5], [10, 2, 0, 1000, 5]);
        assert_eq!(answered(b"", 3), [&[0, 0, 0, 1000], &[5; 1000][..]].concat());
    }

    #[test]
    fn a_blank_policy_is_read_as_cart() {
        let sheet = b"policy=\npages=3\nmisscost=0,007\npage=9\n".to_vec();
        let answer = answer(Call::Read { sheet, pages: vec![5; 1000] });
        assert_eq!(answer[..9], [0, 0, 2, 3, 7, 1, 1000, 9, 5]);
    }

    #[test]
    fn ends_well_at_the_end_of_a_call() {
        assert_eq!(probed(&[]), []);
        assert_eq!(probed(&[2, 0, 2, 0]), [3, 3]);
        let many = [2, 0].repeat(MOST_CALLS);
        assert_eq!(probed(&many).len(), MOST_CALLS);
        assert_eq!(probed(&[&many[..], &[9, 2, 0]].concat()).len(), MOST_CALLS);
        assert_eq!(told(&[&to_bytes(&many)[..], &[2]].concat()).1, "");
    }

    #[test]
    fn breaks_off_where_it_cannot_read() {
        let broken = (vec![3], "call 2 cannot be read".to_string());
        let unreadable: [&[u32]; 14] = [
            &[9, 0, 2, 0], &[0], &[2], &[2, 1], &[2, 4201], &[3, 0], &[4, 0, 1101], &[6, 1, 256, 1], &[7, 1],
            &[8], &[8, 17_001], &[8, 1, 256, 0, 0], &[8, 0, 0], &[8, 0, 0, 1101],
        ];
        for words in unreadable {
            assert_eq!(told(&to_bytes(&[&[2, 0], words].concat())), broken, "{words:?}");
        }
        let bytes = to_bytes(&[2, 0, 2, 0]);
        for length in 9..16 {
            assert_eq!(told(&bytes[..length]), broken, "{length}");
        }
        assert_eq!(told(&bytes[..7]), (vec![], "call 1 cannot be read".to_string()));
        let last = to_bytes(&[2, 0].repeat(MOST_CALLS));
        assert_eq!(told(&last[..last.len() - 1]).1, "call 100000 cannot be read");
    }

    #[test]
    fn calls_survive_the_wire() {
        let outcome = Outcome { policy: 1, pages: 2, requests: 3, hits: 4, misses: 5, evictions: 6, steps: 7, wait: (9 << 32) + 8 };
        let calls = [
            Call::Fresh { policy: 1, c: 2, dir: vec![3, 4] },
            Call::Check { dir: vec![5] },
            Call::Request { dir: vec![1, 2], page: 3 },
            Call::Run { dir: vec![], trace: vec![1], answers: vec![2, 3] },
            Call::Read { sheet: vec![255, 0], pages: vec![u32::MAX] },
            Call::LookUp { sheet: vec![10], line: 4 },
            Call::Write { outcome, out: vec![1] },
            Call::Council { file: vec![255, 0, 10], unit: u32::MAX, pages: vec![4, 5] },
        ];
        let mut words = Vec::new();
        calls.iter().for_each(|call| put_call(call, &mut words));
        let bytes = to_bytes(&words);
        let mut stream = Words::new(&bytes);
        calls.iter().for_each(|call| assert_eq!(read_call(&mut stream).as_ref(), Some(call)));
    }
}
