// Tells a difference readably: the op, its arguments, the first differing word and what it means, how both
// sides ended. Long buffers are shortened, bytes are shown as text with escapes.

use crate::directory::{check, decode, Directory, Entry, HEADER};
use crate::drive::{Did, End, Status};
use crate::probe::{op, Call};

const SHOWN_WORDS: usize = 80;
const SHOWN_BYTES: usize = 1200;
const SHOWN_ANSWER: usize = 40;

/// A call whose answers differ; `more` when the other side goes on after the last answer.
pub fn difference(call: &Call, ours: &[u32], theirs: Option<&[u32]>, more: bool) -> String {
    let mut text = format!("  op {}: {}\n", op(call), arguments(call));
    let Some(theirs) = theirs else {
        return text + &format!("  ours:   {}\n  theirs: the stream stops before or within this answer", words(ours));
    };
    let first = (0..ours.len().max(theirs.len())).find(|&at| ours.get(at) != theirs.get(at));
    if let Some(at) = first {
        let shown = |side: &[u32]| side.get(at).map_or("nothing".to_string(), |word| word.to_string());
        text += &format!("  word {at} ({}): ours {}, theirs {}\n", meaning(call, ours, at), shown(ours), shown(theirs));
    }
    if more {
        text += "  theirs goes on after the last answer\n";
    }
    text + &format!("  ours:   {}\n  theirs: {}", words(ours), words(theirs))
}

/// What score, ledger, copy or spc did on both sides.
pub fn texts(name: &str, input: &[u8], ours: &Did, theirs: &Did) -> String {
    format!(
        "  {name}, input of {} bytes: {}\n  {}\n  ours:   {}\n  theirs: {}{}",
        input.len(),
        bytes(input),
        outputs(ours, theirs),
        bytes(&ours.output),
        bytes(&theirs.output),
        ends(&ours.end, &theirs.end)
    )
}

/// What copy did on both sides; `means_other` when theirs does not mean what the sheet meant.
pub fn copies(sheet: &[u8], ours: &Did, theirs: &Did, means_other: bool) -> String {
    let meaning = if means_other { "\n  theirs does not mean what the sheet meant" } else { "" };
    texts("copy", sheet, ours, theirs) + meaning
}

/// What spc did on both sides with these arguments and this trace.
pub fn starts(arguments: &[Vec<u8>], trace: &[u8], ours: &Did, theirs: &Did) -> String {
    let shown: Vec<String> = arguments.iter().map(|argument| bytes(argument)).collect();
    format!("  arguments [{}] of\n{}", shown.join(", "), texts("spc", trace, ours, theirs))
}

/// What the probe did on both sides.
pub fn streams(input: &[u8], ours: &Did, theirs: &Did) -> String {
    let from = first_byte(ours, theirs);
    let shown = |did: &Did| format!("{:?}", &did.output[from..did.output.len().min(from + SHOWN_ANSWER)]);
    format!(
        "  stream of {} bytes, its last ones {:?}\n  {}\n  ours from there:   {}\n  theirs from there: {}{}",
        input.len(),
        &input[input.len().saturating_sub(40)..],
        outputs(ours, theirs),
        shown(ours),
        shown(theirs),
        ends(&ours.end, &theirs.end)
    )
}

/// Standard error and status of both sides.
pub fn ends(ours: &End, theirs: &End) -> String {
    format!("\n  end of ours:   {}\n  end of theirs: {}", end(ours), end(theirs))
}

fn end(end: &End) -> String {
    let status = match end.status {
        Status::Number(number) => format!("status {number}"),
        Status::Signal(signal) => format!("ended by signal {signal}"),
        Status::Stopped => "did not end and was stopped".to_string(),
    };
    format!("standard error {}, {status}", bytes(&end.error))
}

fn outputs(ours: &Did, theirs: &Did) -> String {
    let (one, two) = (ours.output.len(), theirs.output.len());
    if ours.output == theirs.output {
        return format!("the outputs of {one} bytes are equal");
    }
    format!("first differing byte {}; ours has {one} bytes, theirs {two}", first_byte(ours, theirs))
}

fn first_byte(ours: &Did, theirs: &Did) -> usize {
    ours.output.iter().zip(&theirs.output).take_while(|(one, two)| one == two).count()
}

fn arguments(call: &Call) -> String {
    match call {
        Call::Fresh { policy, c, dir } => format!("fresh policy={policy} c={c} dir={}", words(dir)),
        Call::Check { dir } => format!("check {}", directory(dir)),
        Call::Request { dir, page } => format!("request page={page} on {}", directory(dir)),
        Call::Run { dir, trace, answers } => {
            format!("run trace={} answers={} words, on {}", words(trace), answers.len(), directory(dir))
        }
        Call::Read { sheet, pages } => format!("read sheet of {} bytes {}, {} pages", sheet.len(), bytes(sheet), pages.len()),
        Call::LookUp { sheet, line } => format!("look-up line={line} in sheet of {} bytes {}", sheet.len(), bytes(sheet)),
        Call::Write { outcome, out } => format!("write {outcome:?} out of {} bytes", out.len()),
        Call::Council { file, unit, pages } => {
            format!("council unit={unit} in trace of {} bytes {}, {} pages", file.len(), bytes(file), pages.len())
        }
    }
}

/// The lists if they can be read, else the bare words.
fn directory(dir: &[u32]) -> String {
    if check(dir) != 0 {
        return format!("the directory {} (refused {})", words(dir), check(dir));
    }
    let Directory { policy, c, p, q, t1, t2, b1, b2 } = decode(dir);
    format!("policy={policy} c={c} p={p} q={q} T1={} T2={} B1={} B2={}", list(&t1), list(&t2), list(&b1), list(&b2))
}

/// Pages from head to tail; `*` reference bit, `L` filter.
fn list(entries: &[Entry]) -> String {
    let shown = |entry: &Entry| {
        let (bit, filter) = (if entry.referenced { "*" } else { "" }, if entry.long { "L" } else { "" });
        format!("{}{bit}{filter}", entry.page)
    };
    format!("[{}]", entries.iter().map(shown).collect::<Vec<String>>().join(" "))
}

fn words(words: &[u32]) -> String {
    if words.len() <= SHOWN_WORDS {
        return format!("{words:?}");
    }
    format!("{:?} and {} more", &words[..SHOWN_WORDS], words.len() - SHOWN_WORDS)
}

fn bytes(bytes: &[u8]) -> String {
    let shown = &bytes[..bytes.len().min(SHOWN_BYTES)];
    format!("\"{}\"{}", shown.escape_ascii(), if shown.len() < bytes.len() { " and more" } else { "" })
}

/// What a word of an answer means.
fn meaning(call: &Call, ours: &[u32], at: usize) -> String {
    let (numbers, buffers): (&[&str], &[&str]) = match call {
        Call::Fresh { .. } => (&["number"], &["dir"]),
        Call::Check { .. } => (&["number"], &[]),
        Call::Request { .. } => (&["number", "kind", "evicted page", "list", "hand moves"], &["dir"]),
        Call::Run { .. } => (&["number", "requests", "hits", "misses", "evictions", "hand moves"], &["dir", "answers"]),
        Call::Read { .. } => (&["number", "line", "policy", "c", "miss cost", "count"], &["pages"]),
        Call::LookUp { .. } => (&["number", "start"], &["part"]),
        Call::Write { .. } => (&["number", "count"], &["out"]),
        Call::Council { .. } => (&["number", "line", "count"], &["pages"]),
    };
    if at < numbers.len() {
        return numbers[at].to_string();
    }
    let mut from = numbers.len();
    for name in buffers {
        let length = ours[from] as usize;
        if at == from {
            return format!("length of {name}");
        }
        if at <= from + length {
            return element(name, &ours[from + 1..=from + length], at - from - 1);
        }
        from += 1 + length;
    }
    "past the answer".to_string()
}

fn element(buffer: &str, elements: &[u32], at: usize) -> String {
    match buffer {
        "dir" if at < HEADER => ["policy", "c", "p", "q", "|T1|", "|T2|", "|B1|", "|B2|"][at].to_string(),
        "dir" => entry_word(elements, at - HEADER),
        "answers" => format!("{} of request {}", ["kind", "evicted page", "list", "hand moves"][at % 4], at / 4 + 1),
        _ => format!("element {at} of {buffer}"),
    }
}

/// Which list's entry, by our own lengths.
fn entry_word(dir: &[u32], at: usize) -> String {
    let what = ["page", "flags"][at % 2];
    let mut entry = at / 2;
    for (name, &length) in ["T1", "T2", "B1", "B2"].iter().zip(&dir[4..HEADER]) {
        if entry < length as usize {
            return format!("{what} of {name}[{entry}]");
        }
        entry -= length as usize;
    }
    format!("{what} of an unused entry")
}

#[cfg(test)]
mod tests {
    use super::*;

    #[test]
    fn meanings() {
        let dir = vec![2, 1, 0, 0, 1, 0, 0, 0, 5, 2, 0, 0];
        let call = Call::Request { dir: dir.clone(), page: 6 };
        let ours = crate::probe::answer(call.clone());
        assert_eq!(meaning(&call, &ours, 4), "hand moves");
        assert_eq!(meaning(&call, &ours, 5), "length of dir");
        assert_eq!(meaning(&call, &ours, 6 + 3), "q");
        assert_eq!(meaning(&call, &ours, 6 + 9), "flags of T1[0]");
        let mut theirs = ours.clone();
        theirs[4] += 1;
        let text = difference(&call, &ours, Some(&theirs), false);
        assert!(text.contains("request page=6 on policy=2 c=1 p=0 q=0 T1=[5L] T2=[] B1=[] B2=[]"), "{text}");
        assert!(text.contains("word 4 (hand moves): ours 2, theirs 3"), "{text}");
    }

    #[test]
    fn a_trace_is_told() {
        let call = Call::Council { file: b"0,8,1,r,0.0\n".to_vec(), unit: 0, pages: vec![5; 1000] };
        let ours = crate::probe::answer(call.clone());
        let told = [(0, "number"), (1, "line"), (2, "count"), (3, "length of pages"), (4, "element 0 of pages"), (1004, "past the answer")];
        told.iter().for_each(|&(at, text)| assert_eq!(meaning(&call, &ours, at), text));
        let mut theirs = ours.clone();
        theirs[4] = 8;
        let text = difference(&call, &ours, Some(&theirs), false);
        assert!(text.contains("op 8: council unit=0 in trace of 12 bytes \"0,8,1,r,0.0\\n\", 1000 pages\n"), "{text}");
        assert!(text.contains("word 4 (element 0 of pages): ours 1, theirs 8\n"), "{text}");
        let did = Did { output: vec![], end: End::good() };
        let text = starts(&[b"7".to_vec(), b"\xff".to_vec()], b"x", &did, &did);
        assert!(text.starts_with("  arguments [\"7\", \"\\xff\"] of\n  spc, input of 1 bytes: \"x\"\n"), "{text}");
    }

    #[test]
    fn both_ends_are_told() {
        let ours = Did { output: b"hits=2\n".to_vec(), end: End::good() };
        let mut theirs = ours.clone();
        theirs.end = End { error: b"late\n".to_vec(), status: Status::Number(1) };
        let text = texts("score", b"policy", &ours, &theirs);
        assert!(text.starts_with("  score, input of 6 bytes: \"policy\"\n  the outputs of 7 bytes are equal\n"), "{text}");
        let told = "  end of ours:   standard error \"\", status 0\n  end of theirs: standard error \"late\\n\", status 1";
        assert!(text.ends_with(told), "{text}");
        assert_eq!(copies(b"policy", &ours, &theirs, false), texts("copy", b"policy", &ours, &theirs));
        assert!(copies(b"policy", &ours, &theirs, true).ends_with("status 1\n  theirs does not mean what the sheet meant"));
        theirs = Did { output: b"hits=3".to_vec(), end: End { error: vec![], status: Status::Signal(9) } };
        let text = streams(&[1, 2], &ours, &theirs);
        assert!(text.contains("first differing byte 5; ours has 7 bytes, theirs 6\n"), "{text}");
        assert!(text.contains("ours from there:   [50, 10]\n  theirs from there: [51]\n"), "{text}");
        assert!(text.ends_with("end of theirs: standard error \"\", ended by signal 9"), "{text}");
    }
}
