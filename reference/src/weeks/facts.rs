//! What must hold of a sheet, whatever made it: its sums are those of the lines that its sites have
//! printed, and it has a line for each site that needs one.

use super::events::lines_of;
use super::names;
use super::sites::Site;
use crate::coverage::Coverage;
use crate::limits::FLOWS;

/// The lines of single sites, as met.
pub const LINES: &[&str] = &[
    "bad line said",
    "too long an input said",
    "differs at line 1",
    "differs further on",
    "events unread",
    "output unread",
];

/// Packets, bytes and largest packet.
type Share = [i64; 3];

/// The first fact that the sheet of these sites breaks.
pub fn broken_fact(text: &[u8], sites: &[Site], coverage: &mut Coverage) -> Option<String> {
    facts(text, sites, coverage).err()
}

/// A refusal is one line with this beginning.
pub fn broken_refusal(text: &[u8], start: &str) -> Option<String> {
    let one = lines_of(text).len() == 1 && text.ends_with(b"\n");
    hold(
        one && text.starts_with(start.as_bytes()),
        "it is not refused",
    )
    .err()
}

fn facts(text: &[u8], sites: &[Site], coverage: &mut Coverage) -> Result<(), String> {
    let whole = text.strip_suffix(b"\n").ok_or("the last line has no end")?;
    let mut lines = whole.split(|&byte| byte == b'\n');
    let mut line = || {
        lines
            .next()
            .map(String::from_utf8_lossy)
            .unwrap_or_default()
    };

    let mut sum = [0; 3];
    for (flow, counted) in (0..).zip(recounted(sites)?) {
        let [number, share @ ..] = numbers(&line(), ["flow", "packets", "bytes", "largest"])?;
        hold(number == flow, "the flows do not rise by one")?;
        hold(share == counted, "a flow's sums are not its packets'")?;
        sum = [sum[0] + share[0], sum[1] + share[1], sum[2].max(share[2])];
    }
    let [flows, total @ ..] = numbers(&line(), ["flows", "packets", "bytes", "largest"])?;
    hold(flows == FLOWS, "the flows are not 32")?;
    hold(total == sum, "the totals are not the flows'")?;

    let [summed, named] = numbers(&line(), ["sites", "of"])?;
    let remarks: Vec<&[u8]> = lines.collect();
    let seconds = remarks
        .iter()
        .map(|line| line.split(|&byte| byte == b' ').nth(1));
    let left_out = seconds.filter(|&field| field == Some(b"summed=no")).count();
    hold(named == sites.len() as i64, "a site is not counted")?;
    hold(summed == named - left_out as i64, "the sites do not add up")?;
    remarks_hold(&remarks, sites, coverage)
}

fn hold(holds: bool, otherwise: &str) -> Result<(), String> {
    if holds {
        Ok(())
    } else {
        Err(otherwise.to_string())
    }
}

/// The numbers of a line with these keys.
fn numbers<const N: usize>(line: &str, keys: [&str; N]) -> Result<[i64; N], String> {
    let mut found = [0; N];
    let mut fields = line.split(' ');
    for (number, key) in found.iter_mut().zip(keys) {
        let field = fields.next().and_then(|field| field.strip_prefix(key));
        let digits = field.and_then(|rest| rest.strip_prefix('='));
        let value = digits.and_then(|digits| digits.parse().ok());
        *number = value.ok_or_else(|| format!("no number of {key} in the line {line:?}"))?;
    }
    match fields.next() {
        None => Ok(found),
        Some(_) => Err(format!("too many fields in the line {line:?}")),
    }
}

/// What the lines of the sites that follow say, flow by flow.
fn recounted(sites: &[Site]) -> Result<[Share; FLOWS as usize], String> {
    let mut shares = [[0; 3]; FLOWS as usize];
    let follow = sites.iter().filter(|site| site.follows());
    let texts = follow.filter_map(|site| site.transcript.as_ref());
    let lines = texts.flat_map(|text| text.lines());
    for line in lines.filter(|line| line.starts_with("sent=")) {
        let [_, flow, size, ..] = numbers(line, ["sent", "flow", "size", "mark", "allow"])?;
        let [packets, bytes, largest] = &mut shares[flow as usize];
        *packets += 1;
        *bytes += size;
        *largest = size.max(*largest);
    }
    Ok(shares)
}

fn remarks_hold(remarks: &[&[u8]], sites: &[Site], coverage: &mut Coverage) -> Result<(), String> {
    let mut remarks = remarks.iter();
    for (number, site) in (1..).zip(sites) {
        let what = match remark(site) {
            Some(what) => what,
            None => continue,
        };
        let start = format!("site={number} {what} output=");
        let line = remarks.next().copied().unwrap_or_default();
        let name = line
            .strip_prefix(start.as_bytes())
            .ok_or_else(|| format!("no line {start}"))?;
        let output = &site.files.output;
        hold(
            shows(name, &output.name),
            "a name is not shown as it should be",
        )?;
        coverage.met(match &what[..] {
            "summed=yes bad=0" => "too long an input said",
            "summed=no differs=1" => "differs at line 1",
            "summed=no unread=events" => "events unread",
            "summed=no unread=output" => "output unread",
            what if what.starts_with("summed=yes bad=") => "bad line said",
            _ => "differs further on",
        });
        if let Some(style) = output.style {
            coverage.met(names::SHOWN[style]);
        }
    }
    hold(remarks.next().is_none(), "a line is too many")
}

/// Control bytes are shown as `?`, and no more than the first 4,096 bytes are shown.
fn shows(shown: &[u8], name: &[u8]) -> bool {
    let mut both = shown.iter().zip(name);
    shown.len() == name.len().min(4_096)
        && both.all(|(&shown, &byte)| match byte {
            0..=31 | 127 => shown == b'?',
            _ => shown == byte,
        })
}

/// What the sheet must say about a site, if anything.
fn remark(site: &Site) -> Option<String> {
    let expected = match &site.transcript {
        Some(transcript) => transcript,
        None => return Some("summed=no unread=events".to_string()),
    };
    let found = match &site.files.output.bytes {
        Some(bytes) => bytes,
        None => return Some("summed=no unread=output".to_string()),
    };
    if site.follows() {
        let last = expected.lines().last()?;
        return last
            .starts_with("bad=")
            .then(|| format!("summed=yes {last}"));
    }
    let (expected, found) = (lines_of(expected.as_bytes()), lines_of(found));
    let both = expected.iter().zip(&found);
    // A last line without its end is no whole line, and equal to none that has one.
    let equal = both.take_while(|(one, other)| one == other).count();
    Some(format!("summed=no differs={}", equal + 1))
}
