// The command line: the programs probe, score, ledger, copy and spc over standard input and output,
// and compare, which drives another side's five programs and compares.

mod bids;
mod compare;
mod copy;
mod copy_sheets;
mod council;
mod directory;
mod drive;
mod inputs;
mod policy;
mod probe;
mod programs;
mod random;
mod request;
mod result;
mod rules;
mod run;
mod sheet;
mod spc_starts;
mod tell;
mod traces;

use std::io::{BufWriter, Read, Write};
use std::process::ExitCode;

fn main() -> ExitCode {
    let words: Vec<String> = std::env::args_os().skip(1).map(|word| word.to_string_lossy().into_owned()).collect();
    match words.first().map(String::as_str) {
        Some("probe") => over_standard(probe::probe),
        Some("score") => over_standard(|sheet, output| output.write_all(&programs::score(sheet))),
        Some("ledger") => over_standard(|sheet, output| output.write_all(&programs::ledger(sheet))),
        Some("copy") => over_standard(|sheet, output| output.write_all(&programs::copy(sheet))),
        Some("spc") => spc_of(&words[1..]),
        Some("compare") => compare_with(&words[1..]),
        _ => usage(),
    }
}

/// `spc UNIT`; the trace is not read if that is no unit.
fn spc_of(arguments: &[String]) -> ExitCode {
    let Some(unit) = programs::unit_of(arguments) else {
        return usage();
    };
    over_standard(|trace, output| output.write_all(&programs::spc(trace, unit)))
}

/// `compare --seed N --size small|full -- COMMAND...`; status 1 if anything differs.
fn compare_with(words: &[String]) -> ExitCode {
    let [seed_key, seed, size_key, size, dashes, command @ ..] = words else {
        return usage();
    };
    let keys = [seed_key, size_key, dashes].map(String::as_str) == ["--seed", "--size", "--"];
    let (Ok(seed), true, false) = (seed.parse::<u64>(), keys, command.is_empty()) else {
        return usage();
    };
    if size != "small" && size != "full" {
        return usage();
    }
    ExitCode::from(u8::from(compare::compare(seed, size == "full", command) > 0))
}

fn usage() -> ExitCode {
    eprintln!("second probe|score|ledger|copy, or second spc UNIT, or second compare --seed N --size small|full -- COMMAND...");
    ExitCode::from(2)
}

/// All of standard input through the program to standard output; what it cannot do is one line on
/// standard error and status 1, after all that it could.
fn over_standard(program: impl Fn(&[u8], &mut dyn Write) -> std::io::Result<()>) -> ExitCode {
    let mut input = Vec::new();
    let mut output = BufWriter::new(std::io::stdout().lock());
    let read = std::io::stdin().read_to_end(&mut input);
    let done = read.and_then(|_| program(&input, &mut output));
    let flushed = output.flush();
    if let Err(why) = done.and(flushed) {
        eprintln!("{why}");
        return ExitCode::FAILURE;
    }
    ExitCode::SUCCESS
}
