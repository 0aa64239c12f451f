//! Random weeks: the share sheets of another program against this one's.

mod damage;
mod events;
mod facts;
mod names;
mod sites;

use crate::coverage::Coverage;
use crate::random::Random;
use crate::sheet::{first_different_line, sheet, SITES};
use facts::{broken_fact, broken_refusal};
use sites::{Maker, Site, RIGHT, WRONG};
use std::env;
use std::ffi::OsString;
use std::fmt;
use std::fs;
use std::io;
use std::ops::Range;
use std::os::unix::ffi::{OsStrExt, OsStringExt};
use std::path::{Path, PathBuf};
use std::process::{Command, Output, Stdio};

/// Where a run of weeks ended, and what was wrong there.
pub struct Fault {
    seed: u64,
    what: String,
}

impl fmt::Display for Fault {
    fn fmt(&self, line: &mut fmt::Formatter) -> fmt::Result {
        write!(line, "week {}: {}", self.seed, self.what)
    }
}

/// What the weeks have met, and the first of them that is not as it should be. Of that one the files
/// are left in `keep`.
pub fn first_fault(
    seeds: Range<u64>,
    keep: &Path,
    program: &[&str],
) -> io::Result<(Coverage, Option<Fault>)> {
    let weeks = seeds.end - seeds.start;
    let mut coverage = Coverage::new(format!("{weeks} weeks"), &expected());
    let keep = fs::canonicalize(keep).map_err(|error| about(keep, error))?;
    let program = Program::new(program)?;
    let folder = keep.join("week");
    for seed in seeds {
        fs::create_dir(&folder).map_err(|error| about(&folder, error))?;
        // A name of the greatest length finds its file only from inside the folder.
        env::set_current_dir(&folder)?;
        let week = Week::new(seed);
        let fault = week.and_then(|week| week.fault(&keep, &program, &mut coverage));
        env::set_current_dir(&keep)?;
        if let Ok(Some(what)) = fault {
            return Ok((coverage, Some(Fault { seed, what })));
        }
        fs::remove_dir_all(&folder)?;
        fault?;
    }
    Ok((coverage, None))
}

/// An error that says what it is about.
fn about(path: &Path, error: io::Error) -> io::Error {
    io::Error::new(error.kind(), format!("{}: {error}", path.display()))
}

/// All that a run must meet.
fn expected() -> Vec<&'static str> {
    let kinds = RIGHT.iter().chain(&WRONG).map(|(kind, _)| *kind);
    let refused = REFUSALS.iter().map(|(refused, _)| *refused);
    let lists = [WEEKS, facts::LINES, names::READ, names::SHOWN];
    kinds.chain(refused).chain(lists.concat()).collect()
}

const WEEKS: &[&str] = &[
    "1 site",
    "2 to 63 sites",
    "64 sites",
    "all sites summed",
    "no site summed",
    "pair summed twice",
];

/// The numbers of names that are refused, and how the refusal begins.
const REFUSALS: [(&str, &str); 5] = [
    ("no names", "sheet: no files named; "),
    ("odd number of names", "sheet: an odd number of names, "),
    (
        "odd number of names above 128",
        "sheet: an odd number of names, ",
    ),
    ("65 sites", "sheet: 65 sites named, 64 at most; "),
    ("66 sites and more", "sheet: "),
];

/// The other program, called from within the week's folder.
struct Program {
    path: PathBuf,
    words: Vec<String>,
}

impl Program {
    fn new(program: &[&str]) -> io::Result<Self> {
        // A name without a folder is looked up among the commands.
        let path = if program[0].contains('/') {
            env::current_dir()?.join(program[0])
        } else {
            program[0].into()
        };
        let words = program[1..].iter().map(|word| word.to_string()).collect();
        Ok(Program { path, words })
    }

    fn run(&self, names: &[OsString]) -> io::Result<Output> {
        Command::new(&self.path)
            .args(&self.words)
            .args(names)
            .stdin(Stdio::null())
            .stderr(Stdio::inherit())
            .output()
            .map_err(|error| about(&self.path, error))
    }
}

struct Week {
    seed: u64,
    random: Random,
    sites: Vec<Site>,
}

impl Week {
    /// Writes the week's files into the current folder. Eight seeds in a row go through all that
    /// matters in the number of sites, and 64 sites go through all kinds of them.
    fn new(seed: u64) -> io::Result<Self> {
        let mut random = Random::new(seed);
        let some = 2 + random.below(SITES - 2);
        let both = [&RIGHT[..], &RIGHT[..], &WRONG[..]].concat();
        let (count, kinds) = match seed % 8 {
            0 => (SITES, both),
            1 => (1, both),
            2 => (SITES - 1, both),
            3 => (some, RIGHT.to_vec()),
            4 => (some, WRONG.to_vec()),
            _ => (some, both),
        };
        let mut maker = Maker::new(Random::new(!seed));
        let mut dealt = Vec::new();
        for _ in 0..count {
            if dealt.is_empty() {
                dealt = kinds.clone();
                random.shuffle(&mut dealt);
            }
            maker.make(dealt.pop().expect("a kind is left"))?;
        }
        Ok(Week {
            seed,
            random,
            sites: maker.sites,
        })
    }

    /// What is wrong with this week's sheet or with a refusal, if anything is.
    fn fault(
        mut self,
        keep: &Path,
        program: &Program,
        coverage: &mut Coverage,
    ) -> io::Result<Option<String>> {
        let call = Call::new(self.names(), program)?;
        let wrong = call
            .difference()
            .or_else(|| broken_fact(&call.expected, &self.sites, coverage));
        if wrong.is_some() {
            call.leave_in(keep)?;
            return Ok(wrong);
        }
        self.meet(coverage);

        let ((refused, start), names) = self.refused_names();
        let call = Call::new(names, program)?;
        let wrong = call
            .difference()
            .or_else(|| broken_refusal(&call.expected, start));
        if wrong.is_some() {
            call.leave_in(keep)?;
        }
        coverage.met(refused);
        Ok(wrong.map(|what| format!("{refused}: {what}")))
    }

    fn names(&self) -> Vec<OsString> {
        let names = self.sites.iter().flat_map(Site::names);
        names
            .map(|name| OsString::from_vec(name.to_vec()))
            .collect()
    }

    fn meet(&self, coverage: &mut Coverage) {
        let count = self.sites.len();
        let summed = self.sites.iter().filter(|site| site.follows()).count();
        coverage.met(match count {
            1 => "1 site",
            SITES => "64 sites",
            _ => "2 to 63 sites",
        });
        coverage.met_if(summed == count, "all sites summed");
        coverage.met_if(summed == 0, "no site summed");
        for (place, site) in self.sites.iter().enumerate() {
            let mut earlier = self.sites[..place].iter();
            let again = earlier.any(|earlier| earlier.names() == site.names());
            coverage.met(site.kind);
            coverage.met_if(again && site.follows(), "pair summed twice");
            for file in [&site.files.events, &site.files.output] {
                if let (Some(style), Some(_)) = (file.style, &file.bytes) {
                    coverage.met(names::READ[style]);
                }
            }
        }
    }

    /// The week's names once more, or over and over, to a number of them that is refused.
    fn refused_names(&mut self) -> ((&'static str, &'static str), Vec<OsString>) {
        let place = (self.seed % REFUSALS.len() as u64) as usize;
        let count = match place {
            0 => 0,
            1 => 1 + 2 * self.random.below(SITES),
            2 => 2 * SITES + 1 + 2 * self.random.below(SITES),
            3 => 2 * (SITES + 1),
            _ => 2 * (SITES + 2 + self.random.below(SITES)),
        };
        let refused = self.names().into_iter().cycle().take(count).collect();
        (REFUSALS[place], refused)
    }
}

/// The same names to both programs.
struct Call {
    names: Vec<OsString>,
    expected: Vec<u8>,
    got: Output,
}

impl Call {
    fn new(names: Vec<OsString>, program: &Program) -> io::Result<Self> {
        let expected = sheet(&names);
        let got = program.run(&names)?;
        Ok(Call {
            names,
            expected,
            got,
        })
    }

    fn difference(&self) -> Option<String> {
        // A program that failed gave no answer, even if the text is right.
        if !self.got.status.success() {
            Some(format!("the program ended with {}", self.got.status))
        } else if self.got.stdout != self.expected {
            let line = first_different_line(&self.got.stdout, &self.expected);
            Some(format!("the sheets differ at line {line}"))
        } else {
            None
        }
    }

    fn leave_in(&self, keep: &Path) -> io::Result<()> {
        let ends = self
            .names
            .iter()
            .map(|name| [name.as_bytes(), b"\0"].concat());
        fs::write(keep.join("names"), ends.collect::<Vec<_>>().concat())?;
        fs::write(keep.join("expected"), &self.expected)?;
        fs::write(keep.join("got"), &self.got.stdout)
    }
}
