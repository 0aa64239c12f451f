//! An independent Elastic Round Robin, to compare the box against. See README.md.

mod account;
mod against;
mod calls;
mod cases;
mod coverage;
mod event;
mod limits;
mod random;
mod replay;
mod rows;
mod scheduler;
mod sheet;
mod soak;
mod store;
mod trace;
mod weeks;

use std::env;
use std::error::Error;
use std::ffi::OsString;
use std::io::{self, BufWriter, Read, Write};
use std::path::Path;
use std::process::ExitCode;

const USAGE: &str = "\
usage: reference replay                 event lines in, departures out
       reference kinds                  the kinds of random traces
       reference trace KIND SEED        one random trace
       reference calls SEED CALLS       the random calls of CALLS.md
       reference rows                   the bench sheet on this implementation
       reference cases                  the names of the recorded cases
       reference case NAME              the input of one case
       reference soak N                 N random traces and 100 times as many random calls of
                                        each layer, under every rule and with every corner met
       reference against FIRST N DIR PROGRAM [ARG..]
                                        N seeds from FIRST through PROGRAM as well
       reference sheet EVENTS OUTPUT [EVENTS OUTPUT..]
                                        the share sheet of these sites
       reference weeks FIRST N DIR PROGRAM [ARG..]
                                        the sheets of N random weeks from FIRST through PROGRAM
                                        as well, with every corner met; PROGRAM runs inside DIR";

/// Whether the command found everything right.
type Verdict = Result<bool, Box<dyn Error>>;

fn main() -> ExitCode {
    let words: Vec<OsString> = env::args_os().skip(1).collect();
    match command(&words) {
        Ok(true) => ExitCode::SUCCESS,
        Ok(false) => ExitCode::FAILURE,
        Err(error) => {
            eprintln!("{error}");
            ExitCode::from(2)
        }
    }
}

fn command(words: &[OsString]) -> Verdict {
    // File names may be no text; all other words are.
    if let [sheet, names @ ..] = words {
        if sheet == "sheet" {
            return print_bytes(&sheet::sheet(names));
        }
    }
    let words: Option<Vec<&str>> = words.iter().map(|word| word.to_str()).collect();
    match words.ok_or(USAGE)?[..] {
        ["replay"] => run_replay(),
        ["kinds"] => print_lines(trace::KINDS.iter().map(|(name, _)| name.to_string())),
        ["trace", kind, seed] => print_trace(kind, seed.parse()?),
        ["calls", seed, calls] => run_calls(seed.parse()?, calls.parse()?),
        ["rows"] => run_rows(),
        ["cases"] => print_lines(cases::cases().into_iter().map(|case| case.name)),
        ["case", name] => print_case(name),
        ["soak", seeds] => run_soak(seeds.parse()?),
        ["against", first, count, keep, ref program @ ..] if !program.is_empty() => {
            run_against(first.parse()?, count.parse()?, Path::new(keep), program)
        }
        ["weeks", first, count, keep, ref program @ ..] if !program.is_empty() => {
            run_weeks(first.parse()?, count.parse()?, Path::new(keep), program)
        }
        _ => Err(USAGE.into()),
    }
}

fn run_replay() -> Verdict {
    let mut input = Vec::new();
    let enough = limits::REPLAY_INPUT as u64 + 1;
    io::stdin().lock().take(enough).read_to_end(&mut input)?;
    print_bytes(replay::replay(&input).as_bytes())
}

fn print_trace(kind: &str, seed: u64) -> Verdict {
    let text = trace::trace(kind, seed).ok_or("no such kind")?;
    print_bytes(&text)
}

fn print_case(name: &str) -> Verdict {
    let mut cases = cases::cases().into_iter();
    let case = cases.find(|case| case.name == name);
    print_bytes(&case.ok_or("no such case")?.input)
}

fn run_calls(seed: u32, calls: u32) -> Verdict {
    let mut output = BufWriter::new(io::stdout());
    calls::run(seed, calls, &mut output)?;
    output.flush()?;
    Ok(true)
}

fn run_rows() -> Verdict {
    let rows = rows::rows();
    let all = rows.iter().all(|(_, holds)| *holds);
    print_lines(rows.into_iter().map(|(name, holds)| {
        let verdict = if holds { "pass" } else { "fail" };
        format!("{verdict} {name}")
    }))?;
    Ok(all)
}

/// A broken rule panics, so what can still be missing is something that was never met.
fn run_soak(seeds: u32) -> Verdict {
    let mut all = true;
    for coverage in soak::soak(seeds) {
        coverage.print();
        all &= coverage.is_whole();
    }
    Ok(all)
}

fn run_against(first: u64, count: u64, keep: &Path, program: &[&str]) -> Verdict {
    match against::first_difference(first..first + count, keep, program)? {
        None => {
            println!("{count} traces agree, seeds from {first}");
            Ok(true)
        }
        Some(seed) => {
            let kind = trace::kind_of(seed);
            println!("trace {kind} {seed} differs, see {}", keep.display());
            Ok(false)
        }
    }
}

fn run_weeks(first: u64, count: u64, keep: &Path, program: &[&str]) -> Verdict {
    let (coverage, fault) = weeks::first_fault(first..first + count, keep, program)?;
    match fault {
        None => {
            coverage.print();
            if coverage.is_whole() {
                println!("{count} weeks agree, seeds from {first}");
            }
            Ok(coverage.is_whole())
        }
        Some(fault) => {
            println!("{fault}, see {}", keep.display());
            Ok(false)
        }
    }
}

fn print_lines(lines: impl Iterator<Item = String>) -> Verdict {
    for line in lines {
        println!("{line}");
    }
    Ok(true)
}

fn print_bytes(bytes: &[u8]) -> Verdict {
    io::stdout().lock().write_all(bytes)?;
    Ok(true)
}
