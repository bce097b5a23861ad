// What a program did: its standard output, its standard error and its status; and the driver,
// which runs the other side's program over an input as a child process and keeps all three.

use std::ffi::OsStr;
use std::io::{Read, Write};
use std::os::unix::ffi::OsStrExt;
use std::os::unix::process::ExitStatusExt;
use std::process::{Child, Command, ExitStatus, Stdio};
use std::sync::mpsc::{channel, Receiver};
use std::thread;
use std::time::{Duration, Instant};

const LONGEST_WAIT: Duration = Duration::from_secs(900);
const PANIC: i32 = 101;

/// A program over an input; an error is what it says on standard error.
pub type Program = fn(&[u8], &mut dyn Write) -> std::io::Result<()>;

#[derive(Clone, Debug, PartialEq, Eq)]
pub struct Did {
    pub output: Vec<u8>,
    pub end: End,
}

/// How a program ended: what it wrote to standard error, and its status.
#[derive(Clone, Debug, PartialEq, Eq)]
pub struct End {
    pub error: Vec<u8>,
    pub status: Status,
}

#[derive(Clone, Copy, Debug, PartialEq, Eq)]
pub enum Status {
    Number(i32),
    Signal(i32),
    Stopped,
}

impl Did {
    pub fn alike(&self, other: &Did) -> bool {
        self.output == other.output && self.end.alike(&other.end)
    }

    /// A wrong use told: nothing on standard output, text on standard error and a status that is neither 0 nor a panic's.
    pub fn is_usage(&self) -> bool {
        let told = self.end.error.ends_with(b"\n") && !self.end.error.trim_ascii().is_empty();
        self.output.is_empty() && told && matches!(self.end.status, Status::Number(number) if number != 0 && number != PANIC)
    }
}

impl End {
    /// The end of a program that took its whole input.
    pub fn good() -> End {
        End { error: Vec::new(), status: Status::Number(0) }
    }

    /// Both good, or both broken off by the program itself; the line's words do not count.
    pub fn alike(&self, other: &End) -> bool {
        (self.is_good() && other.is_good()) || (self.is_broken_off() && other.is_broken_off())
    }

    /// Nothing on standard error and status 0.
    fn is_good(&self) -> bool {
        *self == End::good()
    }

    /// One line on standard error and a status that is not 0.
    fn is_broken_off(&self) -> bool {
        let line_feeds = self.error.iter().filter(|&&byte| byte == b'\n').count();
        let one_line = line_feeds == 1 && self.error.ends_with(b"\n");
        one_line && matches!(self.status, Status::Number(number) if number != 0)
    }
}

/// What our own program does, in memory.
pub fn our_own(program: Program, input: &[u8]) -> Did {
    let mut output = Vec::new();
    let end = match program(input, &mut output) {
        Ok(()) => End::good(),
        Err(why) => End { error: format!("{why}\n").into_bytes(), status: Status::Number(1) },
    };
    Did { output, end }
}

/// Runs `COMMAND... WORDS...`, the program's name first, over the input. The child may end before it has read all of it.
pub fn drive(command: &[String], words: &[&[u8]], input: Vec<u8>) -> Did {
    drive_until(Instant::now() + LONGEST_WAIT, command, words, input)
}

fn drive_until(until: Instant, command: &[String], words: &[&[u8]], input: Vec<u8>) -> Did {
    let mut child = start(command, words);
    let (Some(mut stdin), Some(stdout), Some(stderr)) = (child.stdin.take(), child.stdout.take(), child.stderr.take()) else {
        stop("a child without pipes");
    };
    thread::spawn(move || stdin.write_all(&input));
    let (output, error) = (all_of(stdout), all_of(stderr));
    let all = (received(&output, until), received(&error, until), ended(&mut child, until));
    let (Some(output), Some(error), Some(status)) = all else {
        let shown = words.join(&b' ').escape_ascii().to_string();
        println!("the child of {command:?} {shown} does not end, it is stopped");
        let _ = (child.kill(), child.wait());
        return Did { output: Vec::new(), end: End { error: Vec::new(), status: Status::Stopped } };
    };
    Did { output, end: End { error, status: status_of(status) } }
}

fn start(command: &[String], words: &[&[u8]]) -> Child {
    let started = Command::new(&command[0])
        .args(&command[1..])
        .args(words.iter().map(|word| OsStr::from_bytes(word)))
        .stdin(Stdio::piped())
        .stdout(Stdio::piped())
        .stderr(Stdio::piped())
        .spawn();
    started.unwrap_or_else(|why| stop(&format!("cannot start {command:?}: {why}")))
}

/// A thread that reads the pipe to its end.
fn all_of(mut pipe: impl Read + Send + 'static) -> Receiver<Vec<u8>> {
    let (done, bytes) = channel();
    thread::spawn(move || {
        let mut all = Vec::new();
        if pipe.read_to_end(&mut all).is_ok() {
            let _ = done.send(all);
        }
    });
    bytes
}

fn received(bytes: &Receiver<Vec<u8>>, until: Instant) -> Option<Vec<u8>> {
    bytes.recv_timeout(until.saturating_duration_since(Instant::now())).ok()
}

fn ended(child: &mut Child, until: Instant) -> Option<ExitStatus> {
    loop {
        if let Ok(Some(status)) = child.try_wait() {
            return Some(status);
        }
        if Instant::now() >= until {
            return None;
        }
        thread::sleep(Duration::from_millis(1));
    }
}

fn status_of(status: ExitStatus) -> Status {
    match (status.code(), status.signal()) {
        (Some(number), _) => Status::Number(number),
        (None, Some(signal)) => Status::Signal(signal),
        (None, None) => Status::Stopped,
    }
}

fn stop(why: &str) -> ! {
    println!("{why}");
    std::process::exit(1)
}

#[cfg(test)]
mod tests {
    use super::*;

    fn shell(text: &str) -> Vec<String> {
        ["sh", "-c", text, "sh"].map(str::to_string).to_vec()
    }

    fn did(output: &[u8], error: &[u8], status: Status) -> Did {
        Did { output: output.to_vec(), end: End { error: error.to_vec(), status } }
    }

    #[test]
    fn output_error_and_status_are_kept() {
        let driven = |text| drive(&shell(text), &[b"score"], b"abc\n".to_vec());
        assert_eq!(driven("cat"), did(b"abc\n", b"", Status::Number(0)));
        assert_eq!(driven("cat; exit 3"), did(b"abc\n", b"", Status::Number(3)));
        assert_eq!(driven("cat; echo \"$1 x\" >&2"), did(b"abc\n", b"score x\n", Status::Number(0)));
        assert_eq!(driven("cat; kill -9 $$"), did(b"abc\n", b"", Status::Signal(9)));
    }

    #[test]
    fn all_words_are_given() {
        let driven = |words: &[&[u8]]| drive(&shell("printf '%s|' $# \"$@\""), words, vec![]).output;
        assert_eq!(driven(&[b"spc"]), b"1|spc|");
        assert_eq!(driven(&[b"spc", b"", b" 7\xff"]), b"3|spc|| 7\xff|");
    }

    #[test]
    fn a_child_need_not_read_its_input() {
        let much = vec![b'x'; 1_000_000];
        assert_eq!(drive(&shell("echo a; exit 0"), &[b"probe"], much.clone()), did(b"a\n", b"", Status::Number(0)));
        assert_eq!(drive(&shell("echo a >&2; exit 1"), &[b"probe"], much), did(b"", b"a\n", Status::Number(1)));
    }

    #[test]
    fn a_child_that_does_not_end_is_stopped() {
        let stopped = did(b"", b"", Status::Stopped);
        for text in ["echo a; exec sleep 5", "exec >&- 2>&-; exec sleep 5", "sleep 5 & exit 0"] {
            let until = Instant::now() + Duration::from_millis(300);
            let driven = drive_until(until, &shell(text), &[b"score"], Vec::new());
            assert!(driven == stopped && !driven.alike(&stopped), "{text}");
        }
    }

    #[test]
    fn a_wrong_use_is_told() {
        assert!(did(b"", b"spc UNIT\n", Status::Number(2)).is_usage() && did(b"", b"spc UNIT\nmore\n", Status::Number(1)).is_usage());
        let others = [
            did(b"", b"spc UNIT\n", Status::Number(0)), did(b"x", b"spc UNIT\n", Status::Number(2)), did(b"", b"", Status::Number(2)),
            did(b"", b"\n", Status::Number(2)), did(b"", b"x\n", Status::Number(101)), did(b"", b"x\n", Status::Signal(6)),
            did(b"", b"x\n", Status::Stopped), did(b"", b"x", Status::Number(2)),
        ];
        others.iter().for_each(|other| assert!(!other.is_usage(), "{other:?}"));
    }

    #[test]
    fn ends_that_are_alike() {
        let (good, broken) = (did(b"a", b"", Status::Number(0)), did(b"a", b"call 1\n", Status::Number(1)));
        assert!(good.alike(&good) && broken.alike(&broken) && !good.alike(&broken) && !broken.alike(&good));
        assert!(broken.alike(&did(b"a", b"other words\n", Status::Number(2))));
        assert!(!good.alike(&did(b"b", b"", Status::Number(0))) && !broken.alike(&did(b"b", b"call 1\n", Status::Number(1))));
        let others = [
            did(b"a", b"", Status::Number(1)), did(b"a", b"x\n", Status::Number(0)), did(b"a", b"x", Status::Number(1)),
            did(b"a", b"x\ny\n", Status::Number(101)), did(b"a", b"x\ny", Status::Number(1)), did(b"a", b"", Status::Signal(9)),
            did(b"a", b"x\n", Status::Signal(6)), did(b"a", b"", Status::Stopped),
        ];
        for other in others {
            assert!(!good.alike(&other) && !broken.alike(&other), "{other:?}");
        }
    }
}
