//! lockstep SEED CALLS
//!
//! Makes random calls of both layers on the archive and on the independent program, side by side: most by the header's own functions, some by the safe
//! wrapper. After each call the reply's every number is compared, and every buffer that was lent with the bytes around it. Exit status: 0 all agree and
//! all that must be met was met; 1 something differs, or was never met; 2 bad usage.

mod draws;
mod met;
mod said;
mod states;
mod twin;
mod wrapped;

// The independent program's own files, as they stand.
#[allow(dead_code)]
#[path = "../../../reference/src"]
mod reference {
    pub mod limits;
    pub mod random;
    pub mod scheduler;
    pub mod store;
}
use reference::{limits, random, scheduler, store};

use draws::Draws;
use met::Met;
use states::States;
use std::env;
use std::process::ExitCode;
use wrapped::Wrapped;

/// One call in so many goes by the wrapper.
const WRAPPED: usize = 8;

fn main() -> ExitCode {
    let words: Vec<String> = env::args().skip(1).collect();
    let numbers: Vec<u64> = words.iter().flat_map(|word| word.parse()).collect();
    let (seed, calls) = match (words.len(), &numbers[..]) {
        (2, &[seed, calls]) => (seed, calls),
        _ => {
            eprintln!("usage: lockstep SEED CALLS");
            return ExitCode::from(2);
        }
    };
    match run(seed, calls) {
        Ok(met) => {
            println!("lockstep: {calls} calls agree, seed {seed}: {met}");
            ExitCode::SUCCESS
        }
        Err(fault) => {
            eprintln!("lockstep: FAILED, seed {seed}: {fault}");
            ExitCode::FAILURE
        }
    }
}

fn run(seed: u64, calls: u64) -> Result<Met, String> {
    let mut draws = Draws::new(seed);
    let mut met = Met::default();
    let mut states = States::new(&mut draws);
    let mut wrapped = Wrapped::new(&mut draws);
    for n in 1..=calls {
        if draws.one_in(WRAPPED) {
            wrapped.call(&mut draws, &mut met)
        } else {
            states.call(&mut draws, &mut met)
        }
        .map_err(|fault| format!("call {n}: {fault}"))?;
    }
    states.all_stand()?;
    met.all_met()?;
    Ok(met)
}
