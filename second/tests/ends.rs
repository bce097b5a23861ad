// The built program's own ends: output, standard error and status of probe, score, ledger, copy and spc
// as processes, on inputs that can be read whole and on those that cannot.

use std::ffi::OsStr;
use std::io::Write;
use std::os::unix::ffi::OsStrExt;
use std::process::{Command, Stdio};

/// Standard output, the line feeds on standard error, and the status.
fn ran(program: &str, input: &[u8]) -> (Vec<u8>, usize, Option<i32>) {
    ran_with(&[program.as_bytes()], input)
}

/// The same of a program and its arguments; it may leave its input unread.
fn ran_with(words: &[&[u8]], input: &[u8]) -> (Vec<u8>, usize, Option<i32>) {
    let mut child = Command::new(env!("CARGO_BIN_EXE_second"))
        .args(words.iter().map(|word| OsStr::from_bytes(word)))
        .stdin(Stdio::piped())
        .stdout(Stdio::piped())
        .stderr(Stdio::piped())
        .spawn()
        .unwrap();
    let _ = child.stdin.take().unwrap().write_all(input);
    let done = child.wait_with_output().unwrap();
    assert!(done.stderr.is_empty() || done.stderr.ends_with(b"\n"));
    (done.stdout, done.stderr.iter().filter(|&&byte| byte == b'\n').count(), done.status.code())
}

fn bytes(words: &[u32]) -> Vec<u8> {
    words.iter().flat_map(|word| word.to_le_bytes()).collect()
}

#[test]
fn a_probe_that_ends_well() {
    assert_eq!(ran("probe", b""), (vec![], 0, Some(0)));
    assert_eq!(ran("probe", &bytes(&[2, 0, 2, 0])), (bytes(&[3, 3]), 0, Some(0)));
    let over = bytes(&[&[2, 0].repeat(100_000)[..], &[9]].concat());
    assert_eq!(ran("probe", &over), (bytes(&[3].repeat(100_000)), 0, Some(0)));
}

#[test]
fn a_probe_that_breaks_off() {
    let unreadable: [&[u32]; 8] = [&[2], &[2, 1], &[9], &[2, 4201], &[6, 1, 256, 1], &[5, 17_001], &[8, 17_001], &[8, 0, 1, 1101]];
    for words in unreadable {
        let input = bytes(&[&[2, 0], words].concat());
        assert_eq!(ran("probe", &input), (bytes(&[3]), 1, Some(1)), "{words:?}");
    }
    assert_eq!(ran("probe", &[2, 0, 0, 0, 0, 0, 0, 0, 2]), (bytes(&[3]), 1, Some(1)));
    assert_eq!(ran("probe", &[2]), (vec![], 1, Some(1)));
}

#[test]
fn a_refused_sheet_is_an_answer() {
    for program in ["score", "ledger", "copy"] {
        assert_eq!(ran(program, b""), (b"refused=8\nline=1\n".to_vec(), 0, Some(0)));
        assert_eq!(ran(program, &[0; 40_000]), (b"refused=7\nline=0\n".to_vec(), 0, Some(0)));
    }
}

#[test]
fn a_blank_policy_is_cart_and_copied_as_car() {
    let sheet = b"policy=\npages=1\nmisscost=0,001\npage=5\n";
    for program in ["score", "ledger"] {
        let (output, line_feeds, status) = ran(program, sheet);
        assert!(output.starts_with(b"policy=cart\npages=1\nrequests=1\nhits=0\nmisses=1\n"));
        assert_eq!((line_feeds, status), (0, Some(0)));
    }
    let copy = b"policy=car\npages=1\nmisscost=0,001\npage=5\n".to_vec();
    assert_eq!(ran("copy", sheet), (copy.clone(), 0, Some(0)));
    assert_eq!(ran("copy", &copy), (copy, 0, Some(0)));
}

#[test]
fn the_pages_of_a_unit() {
    let trace = b"7,7,513,r,0.0\n4294967295,34359738367,512,R,0.1,\n7,8,1,w,0.2\n";
    let spc = |unit: &[u8]| ran_with(&[b"spc", unit], trace);
    let pages = |text: &str| (text.as_bytes().to_vec(), 0, Some(0));
    assert_eq!((spc(b"7"), spc(b"0007"), spc(b"4294967295")), (pages("page=0\npage=1\n"), pages("page=0\npage=1\n"), pages("page=4294967295\n")));
    assert_eq!((spc(b"0"), ran_with(&[b"spc", b"7"], b"")), (pages(""), pages("")));
    assert_eq!(ran_with(&[b"spc", b"0"], b"7,7,513,r,0.0"), pages("refused=10\nline=1\n"));
    assert_eq!(ran_with(&[b"spc", b"0"], &[b'\n'; 100_000]), pages("refused=7\nline=0\n"));
}

#[test]
fn arguments_that_name_no_unit() {
    let refused: [&[&[u8]]; 10] = [&[], &[b""], &[b"7", b"7"], &[b"7", b""], &[b"+7"], &[b"-7"], &[b" 7"], &[b"x"], &[b"4294967296"], &[b"7\xff"]];
    for arguments in refused {
        assert_eq!(ran_with(&[&[&b"spc"[..]], arguments].concat(), b"7,7,513,r,0.0\n"), (vec![], 1, Some(2)), "{arguments:?}");
    }
}
