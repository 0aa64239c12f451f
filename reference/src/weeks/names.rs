//! Names of files, plain ones and such as a sheet could stumble over.

use crate::random::Random;

/// The longest name that a file can be read by. The sheet has its own number for it, so that a wrong
/// one shows.
const LONGEST: usize = 4_095;

/// The styles of names in the order of `STYLES`, as met where a file was read by one.
pub const READ: &[&str] = &[
    "plain name read",
    "name with blanks read",
    "name like a line read",
    "name of two lines read",
    "name of all control bytes read",
    "name of letters above 127 read",
    "name like an option read",
    "name of 255 bytes read",
    "name of 4095 bytes read",
];

/// The same, as met where a line of the sheet shows one.
pub const SHOWN: &[&str] = &[
    "plain name shown",
    "name with blanks shown",
    "name like a line shown",
    "name of two lines shown",
    "name of all control bytes shown",
    "name of letters above 127 shown",
    "name like an option shown",
    "name of 255 bytes shown",
    "name of 4095 bytes shown",
];

/// Each number gives another name, so that no file is written over.
const STYLES: [fn(usize) -> Vec<u8>; 9] = [
    plain,
    |number| format!(" tower  {number} ").into_bytes(),
    |number| format!("site={number} summed=no unread=events output=x").into_bytes(),
    |number| format!("{number}\nsites=9 of=9").into_bytes(),
    |number| [&plain(number)[..], &bytes(1..=31), &[127]].concat(),
    |number| [&plain(number)[..], letters_above_127().as_bytes()].concat(),
    |number| format!("--{number}").into_bytes(),
    |number| padded("x", plain(number), 255),
    |number| padded("./", plain(number), LONGEST),
];

/// A name that a file can have, and its style.
pub fn draw(number: usize, random: &mut Random) -> (Vec<u8>, usize) {
    let style = random.below(STYLES.len());
    (STYLES[style](number), style)
}

/// One byte longer than a name may be; shorter, it would name the file of that number.
pub fn too_long_by_one(number: usize) -> Vec<u8> {
    padded("./", plain(number), LONGEST + 1)
}

/// All bytes above 127, which are no UTF-8 in this order.
pub fn no_utf8(number: usize) -> Vec<u8> {
    [&plain(number)[..], &bytes(128..=255)].concat()
}

/// Letters of two, three and four bytes, with every byte among them that begins such a letter.
fn letters_above_127() -> String {
    let two = (0x80..0x800).step_by(0x41);
    let three = (0x800..0x1_0000).step_by(0x6c1);
    let four = (0x1_0000..0x11_0000).step_by(0x3_0fc1);
    let numbers = two.chain(three).chain(four);
    // No letter has the numbers in between that UTF-16 keeps for itself.
    numbers.filter_map(char::from_u32).collect()
}

/// More bytes than a line shows, none of them 0, which would end the word.
pub fn far_too_long(random: &mut Random) -> Vec<u8> {
    let most = random.pick(&[1, 2, 300, 15_000]);
    let length = LONGEST + 2 + random.below(most);
    (0..length).map(|_| random.between(1, 255) as u8).collect()
}

pub fn plain(number: usize) -> Vec<u8> {
    format!("tower-{number}").into_bytes()
}

fn bytes(range: std::ops::RangeInclusive<u8>) -> Vec<u8> {
    range.collect()
}

/// The name with the padding before it, over and over, to this length. Its last byte may come once
/// more, which "./" can bear.
fn padded(padding: &str, name: Vec<u8>, length: usize) -> Vec<u8> {
    let wanted = length - name.len();
    let mut text = padding.repeat(wanted / padding.len()).into_bytes();
    while text.len() < wanted {
        text.push(*text.last().expect("some padding stands"));
    }
    [text, name].concat()
}
