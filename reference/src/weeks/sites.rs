//! Sites of a random week: two files each, right or wrong.

use super::damage::{self, Damage};
use super::events::{self, lines_of};
use super::names;
use crate::limits::REPLAY_INPUT;
use crate::random::Random;
use crate::replay::{replay, replayed};
use std::ffi::OsStr;
use std::fs;
use std::io;
use std::os::unix::ffi::OsStrExt;

/// What the coverage calls a site, and what makes its files.
pub type Kind = (&'static str, fn(&mut Maker) -> io::Result<Pair>);

/// Sites whose output follows from their events.
pub const RIGHT: [Kind; 9] = [
    ("right", |maker| maker.right(events::some)),
    ("right", Maker::again),
    ("right on a short trace", |maker| maker.right(events::short)),
    ("right on a whole trace", |maker| maker.right(events::whole)),
    ("right on no events", |maker| maker.right(|_| Vec::new())),
    ("right on a bad line", |maker| {
        maker.right(events::with_bad_line)
    }),
    ("right on the longest input", |maker| {
        maker.right(events::longest)
    }),
    ("right on too long an input", |maker| {
        maker.right(events::too_long)
    }),
    ("right at great length", |maker| {
        maker.right(events::told_at_length)
    }),
];

/// Sites that are left out.
pub const WRONG: [Kind; 31] = [
    ("byte changed", |maker| maker.damaged(damage::change_byte)),
    ("digit changed", |maker| maker.damaged(damage::change_digit)),
    ("line missing", |maker| maker.damaged(damage::drop_line)),
    ("more at the end", |maker| maker.damaged(damage::add_at_end)),
    ("line more within", |maker| {
        maker.damaged(damage::add_within)
    }),
    ("cut at a line end", |maker| {
        maker.damaged(damage::cut_at_line_end)
    }),
    ("cut within a line", |maker| {
        maker.damaged(damage::cut_within_line)
    }),
    ("last line feed missing", |maker| {
        maker.damaged(damage::drop_last_line_feed)
    }),
    ("output emptied", |maker| maker.damaged(damage::empty)),
    ("lines end in CR LF", |maker| {
        maker.damaged(damage::add_carriage_returns)
    }),
    ("longer than any output after a right start", |maker| {
        maker.damaged(damage::go_on_and_on)
    }),
    ("longer than any output after a wrong start", |maker| {
        maker.damaged(damage::go_on_from_a_wrong_start)
    }),
    ("too long an input told of one that is not", |maker| {
        maker.damaged(damage::say_too_long)
    }),
    ("beginning told of too long an input", Maker::beginning_told),
    ("bad line not told", Maker::bad_line_not_told),
    ("bad line passed over", Maker::bad_line_passed_over),
    ("output of another site", Maker::output_of_another),
    ("events and output swapped", Maker::swapped),
    ("events missing", |maker| {
        maker.without_events(Maker::missing)
    }),
    ("output missing", |maker| {
        maker.without_output(Maker::missing)
    }),
    ("both missing", |maker| {
        Ok(Pair {
            events: maker.missing()?,
            output: maker.missing()?,
        })
    }),
    ("folder for events", |maker| {
        maker.without_events(Maker::folder)
    }),
    ("folder for output", |maker| {
        maker.without_output(Maker::folder)
    }),
    ("empty name of events", |maker| {
        maker.without_events(Maker::empty_name)
    }),
    ("empty name of output", |maker| {
        maker.without_output(Maker::empty_name)
    }),
    ("name of events too long by one byte", |maker| {
        maker.without_events(Maker::too_long_by_one)
    }),
    ("name of output too long by one byte", |maker| {
        maker.without_output(Maker::too_long_by_one)
    }),
    ("name of events that is no UTF-8", |maker| {
        maker.without_events(Maker::no_utf8)
    }),
    ("name of output that is no UTF-8", |maker| {
        maker.without_output(Maker::no_utf8)
    }),
    ("name of events far too long", |maker| {
        maker.without_events(Maker::far_too_long)
    }),
    ("name of output longer than is shown", |maker| {
        maker.without_output(Maker::far_too_long)
    }),
];

#[derive(Clone)]
pub struct File {
    pub name: Vec<u8>,
    /// The place of its name in the list of styles, if it has one of them.
    pub style: Option<usize>,
    /// What can be read under the name.
    pub bytes: Option<Vec<u8>>,
}

impl File {
    fn unread(name: Vec<u8>) -> Self {
        File {
            name,
            style: None,
            bytes: None,
        }
    }

    fn path(&self) -> &OsStr {
        OsStr::from_bytes(&self.name)
    }
}

#[derive(Clone)]
pub struct Pair {
    pub events: File,
    pub output: File,
}

pub struct Site {
    pub kind: &'static str,
    pub files: Pair,
    /// What the replay prints for the events, if they can be read.
    pub transcript: Option<String>,
}

impl Site {
    fn new(kind: &'static str, files: Pair) -> Self {
        let events = files.events.bytes.as_deref();
        Site {
            kind,
            transcript: events.map(replay),
            files,
        }
    }

    pub fn names(&self) -> [&[u8]; 2] {
        [&self.files.events.name, &self.files.output.name]
    }

    pub fn follows(&self) -> bool {
        match (&self.transcript, &self.files.output.bytes) {
            (Some(expected), Some(found)) => expected.as_bytes() == found,
            _ => false,
        }
    }
}

/// Writes the files of one site after the other into the current folder.
pub struct Maker {
    pub sites: Vec<Site>,
    random: Random,
    /// How many names were given.
    named: usize,
}

impl Maker {
    pub fn new(random: Random) -> Self {
        Maker {
            sites: Vec::new(),
            random,
            named: 0,
        }
    }

    pub fn make(&mut self, (kind, files): Kind) -> io::Result<()> {
        let site = Site::new(kind, files(self)?);
        self.sites.push(site);
        Ok(())
    }

    // Sites whose output follows.

    fn right(&mut self, draw: fn(&mut Random) -> Vec<u8>) -> io::Result<Pair> {
        let events = draw(&mut self.random);
        let output = replay(&events).into_bytes();
        self.pair(events, output)
    }

    /// The pair of an earlier site that follows, if there is one.
    fn again(&mut self) -> io::Result<Pair> {
        let right: Vec<&Site> = self.sites.iter().filter(|site| site.follows()).collect();
        if right.is_empty() {
            return self.right(events::some);
        }
        Ok(self.random.pick(&right).files.clone())
    }

    // Sites whose output does not follow.

    fn damaged(&mut self, damage: Damage) -> io::Result<Pair> {
        let (events, output) = self.telling_events();
        let output = damage(output, &mut self.random);
        self.pair(events, output)
    }

    /// Events for which the replay prints three lines or more, and these.
    fn telling_events(&mut self) -> (Vec<u8>, Vec<u8>) {
        loop {
            let events = events::some(&mut self.random);
            let output = replay(&events).into_bytes();
            if lines_of(&output).len() >= 3 {
                return (events, output);
            }
        }
    }

    fn beginning_told(&mut self) -> io::Result<Pair> {
        let events = events::too_long(&mut self.random);
        let output = replay(&events[..REPLAY_INPUT]).into_bytes();
        self.pair(events, output)
    }

    fn bad_line_not_told(&mut self) -> io::Result<Pair> {
        let events = events::with_bad_line(&mut self.random);
        let output = replay(&events).into_bytes();
        let mut lines = lines_of(&output);
        lines.pop();
        self.pair(events, lines.concat())
    }

    /// As though the replay went on after the bad line.
    fn bad_line_passed_over(&mut self) -> io::Result<Pair> {
        loop {
            let events = events::with_bad_line(&mut self.random);
            let replayed = replayed(&events);
            let mut lines = lines_of(&events);
            lines.remove(replayed.bad.expect("a line is bad") - 1);
            let output = replay(&lines.concat());
            // The next line may be as bad.
            if output != replayed.output {
                return self.pair(events, output.into_bytes());
            }
        }
    }

    /// The very file of an earlier site, if one has another output.
    fn output_of_another(&mut self) -> io::Result<Pair> {
        let (events, right) = self.telling_events();
        let outputs = self.sites.iter().map(|site| &site.files.output);
        let others: Vec<&File> = outputs
            .filter(|file| file.bytes.as_ref().map_or(false, |bytes| *bytes != right))
            .collect();
        if others.is_empty() {
            return self.pair(events, b"idle=0\n".to_vec());
        }
        let output = self.random.pick(&others).clone();
        let events = self.file(events)?;
        Ok(Pair { events, output })
    }

    fn swapped(&mut self) -> io::Result<Pair> {
        let (events, output) = self.telling_events();
        self.pair(output, events)
    }

    fn without_events(&mut self, unread: fn(&mut Self) -> io::Result<File>) -> io::Result<Pair> {
        let (_, output) = self.telling_events();
        Ok(Pair {
            events: unread(self)?,
            output: self.file(output)?,
        })
    }

    fn without_output(&mut self, unread: fn(&mut Self) -> io::Result<File>) -> io::Result<Pair> {
        let (events, _) = self.telling_events();
        Ok(Pair {
            events: self.file(events)?,
            output: unread(self)?,
        })
    }

    // Files.

    fn pair(&mut self, events: Vec<u8>, output: Vec<u8>) -> io::Result<Pair> {
        Ok(Pair {
            events: self.file(events)?,
            output: self.file(output)?,
        })
    }

    fn file(&mut self, bytes: Vec<u8>) -> io::Result<File> {
        let mut file = self.nothing();
        fs::write(file.path(), &bytes)?;
        file.bytes = Some(bytes);
        Ok(file)
    }

    /// A name under which nothing stands yet.
    fn nothing(&mut self) -> File {
        self.named += 1;
        let (name, style) = names::draw(self.named, &mut self.random);
        File {
            style: Some(style),
            ..File::unread(name)
        }
    }

    /// Nothing, or nothing in a folder that is missing, or in a file as though it were a folder.
    fn missing(&mut self) -> io::Result<File> {
        match self.random.below(4) {
            0 => Ok(File::unread(b"nowhere/output".to_vec())),
            1 => {
                let file = self.file(Vec::new())?;
                Ok(File::unread([&file.name[..], b"/output"].concat()))
            }
            _ => Ok(self.nothing()),
        }
    }

    fn folder(&mut self) -> io::Result<File> {
        let folder = self.nothing();
        fs::create_dir(folder.path())?;
        Ok(folder)
    }

    fn empty_name(&mut self) -> io::Result<File> {
        Ok(File::unread(Vec::new()))
    }

    /// Too long a name for a file that is there.
    fn too_long_by_one(&mut self) -> io::Result<File> {
        self.named += 1;
        let there = names::plain(self.named);
        fs::write(OsStr::from_bytes(&there), "")?;
        Ok(File::unread(names::too_long_by_one(self.named)))
    }

    /// A file that is there, under a name that is no UTF-8.
    fn no_utf8(&mut self) -> io::Result<File> {
        self.named += 1;
        let name = names::no_utf8(self.named);
        fs::write(OsStr::from_bytes(&name), "")?;
        Ok(File::unread(name))
    }

    fn far_too_long(&mut self) -> io::Result<File> {
        Ok(File::unread(names::far_too_long(&mut self.random)))
    }
}
