//! The reference's replay against another program's, over random traces.

use crate::replay::replay;
use crate::trace::{kind_of, trace};
use std::fs;
use std::io::{self, Write};
use std::ops::Range;
use std::path::Path;
use std::process::{Command, Output, Stdio};
use std::thread;

/// Input goes in pieces, so that the program meets short reads.
const PIECE: usize = 5000;

/// The first seed on which the program differs; its input and both outputs are left in `keep`.
pub fn first_difference(
    seeds: Range<u64>,
    keep: &Path,
    program: &[&str],
) -> io::Result<Option<u64>> {
    for seed in seeds {
        let input = trace(kind_of(seed), seed).expect("the kind exists");
        let expected = replay(&input);
        let got = run(program, &input)?;
        // A program that failed gave no answer, even if the text is right.
        if got.stdout != expected.as_bytes() || !got.status.success() {
            fs::write(keep.join("input"), &input)?;
            fs::write(keep.join("expected"), &expected)?;
            fs::write(keep.join("got"), &got.stdout)?;
            return Ok(Some(seed));
        }
    }
    Ok(None)
}

fn run(program: &[&str], input: &[u8]) -> io::Result<Output> {
    let mut child = Command::new(program[0])
        .args(&program[1..])
        .stdin(Stdio::piped())
        .stdout(Stdio::piped())
        .spawn()?;
    let mut stdin = child.stdin.take().expect("its input is piped");
    thread::scope(|scope| {
        // A program may stop reading at a bad line, so a failed write is no difference.
        scope.spawn(move || {
            input
                .chunks(PIECE)
                .try_for_each(|piece| stdin.write_all(piece))
        });
        child.wait_with_output()
    })
}
