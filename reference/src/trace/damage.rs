//! Inputs that are not what they should be.

use crate::random::Random;

/// Numbers at and beyond every limit.
const NUMBERS: [&str; 20] = [
    "", "0", "00", "01", "1", "2", "8", "16", "17", "31", "32", "256", "257", "300", "+1", "65535",
    "65536", "99999", "100000", "0x1",
];

/// Bytes that have no place in a line, or only in another place of it.
const STRANGERS: &[u8] = b" \t\r\n\0=+-0159xF\x80\xff";

/// Damages one line; now and then the result is still well formed.
pub fn damage(text: &mut Vec<u8>, random: &mut Random) {
    let mut lines: Vec<Vec<u8>> = text
        .split_inclusive(|&byte| byte == b'\n')
        .map(<[u8]>::to_vec)
        .collect();
    if lines.is_empty() {
        return;
    }
    let place = random.below(lines.len());
    if random.one_in(8) {
        // The input ends inside this line, perhaps just before its line feed.
        lines.truncate(place + 1);
        let kept = random.below(lines[place].len());
        let kept = kept.max(random.below(lines[place].len()));
        lines[place].truncate(kept);
    } else {
        damage_line(&mut lines[place], random);
    }
    *text = lines.concat();
}

/// Damages a line that may or may not end in a line feed.
fn damage_line(line: &mut Vec<u8>, random: &mut Random) {
    let at = random.below(line.len());
    match random.below(10) {
        0 => *line = b"\n".to_vec(),
        1 => line.insert(0, b' '),
        2 => line.insert(line.len() - 1, b' '),
        3 => line.insert(line.len() - 1, b'\r'),
        4 => line[at] = line[at].to_ascii_uppercase(),
        5 => line[at] = random.pick(STRANGERS),
        6 => line.insert(at, random.pick(STRANGERS)),
        7 => drop(line.remove(at)),
        8 => replace_number(line, random),
        _ => swap_fields(line),
    }
}

/// Puts another number in the place of the last one.
fn replace_number(line: &mut Vec<u8>, random: &mut Random) {
    if let Some(equals) = line.iter().rposition(|&byte| byte == b'=') {
        line.truncate(equals + 1);
        line.extend(random.pick(&NUMBERS).bytes());
        line.push(b'\n');
    }
}

/// The second field first; a line of one field gets it twice.
fn swap_fields(line: &mut Vec<u8>) {
    let whole: Vec<u8> = line.strip_suffix(b"\n").unwrap_or(line).to_vec();
    let mut fields: Vec<&[u8]> = whole.split(|&byte| byte == b' ').collect();
    fields.reverse();
    if fields.len() == 1 {
        fields.push(fields[0]);
    }
    *line = fields.join(&b' ');
    line.push(b'\n');
}

/// A handful of lines out of odd numbers, some of them damaged.
pub fn scraps(mut random: Random) -> Vec<u8> {
    let mut text = Vec::new();
    for _ in 0..random.below(9) {
        let first = random.pick(&NUMBERS);
        let second = random.pick(&NUMBERS);
        let line = match random.below(7) {
            0 => format!("flow={first} weight={second}\n"),
            1 => format!("arrive={first} size={second}\n"),
            2 => format!("send={first}\n"),
            3 => "flow=0 weight=1\n".to_string(),
            4 => "arrive=0 size=9\n".to_string(),
            5 => "send=1\n".to_string(),
            _ => "flow=1 weight=2\n".to_string(),
        };
        text.extend(line.bytes());
    }
    for _ in 0..random.below(3) {
        damage(&mut text, &mut random);
    }
    text
}
