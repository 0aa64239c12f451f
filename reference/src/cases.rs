//! Replay inputs with the output they must give, worked out by hand from document 01.

use crate::limits::REPLAY_INPUT;

pub struct Case {
    pub name: String,
    pub input: Vec<u8>,
    pub output: String,
}

impl Case {
    fn new(name: &str, input: &[u8], output: &str) -> Self {
        Case {
            name: name.to_string(),
            input: input.to_vec(),
            output: output.to_string(),
        }
    }
}

pub fn cases() -> Vec<Case> {
    let mut cases = bench_rows();
    cases.extend(slips());
    cases.push(story());
    cases.extend(well_formed());
    cases.extend(bad_lines());
    cases.extend(lengths());
    cases.push(long_transcript());
    cases
}

/// The rows of the bench sheet that lines can show.
fn bench_rows() -> Vec<Case> {
    vec![
        Case::new("row-p1", b"send=1\n", "idle=0\n"),
        Case::new(
            "row-p2",
            b"flow=31 weight=16\n\
              flow=32 weight=0\n\
              flow=0 weight=0\n\
              flow=0 weight=17\n\
              arrive=31 size=1\n\
              send=1\n",
            "refused=1 line=2\n\
             refused=2 line=3\n\
             refused=2 line=4\n\
             sent=1 flow=31 size=1 mark=0 allow=16\n",
        ),
        Case::new("row-p3", b"arrive=0 size=0\n", "refused=4 line=1\n"),
        Case::new(
            "row-p4",
            b"flow=0 weight=1\n\
              arrive=0 size=0\n\
              arrive=0 size=257\n\
              arrive=0 size=1\n\
              arrive=0 size=256\n\
              send=3\n",
            "refused=5 line=2\n\
             refused=5 line=3\n\
             sent=1 flow=0 size=1 mark=0 allow=1\n\
             sent=2 flow=0 size=256 mark=0 allow=1\n\
             idle=2\n",
        ),
        Case::new(
            "row-p5",
            b"flow=0 weight=1\n\
              arrive=0 size=1\n\
              arrive=0 size=1\n\
              arrive=0 size=1\n\
              arrive=0 size=1\n\
              arrive=0 size=1\n\
              arrive=0 size=1\n\
              arrive=0 size=1\n\
              arrive=0 size=1\n\
              arrive=0 size=1\n\
              send=1\n\
              arrive=0 size=2\n\
              arrive=0 size=3\n",
            "refused=6 line=10\n\
             sent=1 flow=0 size=1 mark=0 allow=1\n\
             refused=6 line=13\n",
        ),
        Case::new(
            "row-p6",
            b"flow=0 weight=1\n\
              flow=1 weight=2\n\
              arrive=0 size=100\n\
              arrive=0 size=50\n\
              arrive=1 size=30\n\
              arrive=1 size=200\n\
              arrive=1 size=10\n\
              send=6\n",
            "sent=1 flow=0 size=100 mark=0 allow=1\n\
             sent=2 flow=1 size=30 mark=0 allow=2\n\
             sent=3 flow=0 size=50 mark=99 allow=1\n\
             sent=4 flow=1 size=200 mark=99 allow=172\n\
             sent=5 flow=1 size=10 mark=49 allow=72\n\
             idle=5\n",
        ),
        Case::new(
            "row-p7",
            b"flow=0 weight=1\n\
              flow=1 weight=1\n\
              arrive=0 size=100\n\
              arrive=0 size=10\n\
              arrive=1 size=20\n\
              arrive=1 size=30\n\
              arrive=1 size=60\n\
              send=4\n\
              arrive=1 size=5\n\
              send=3\n",
            "sent=1 flow=0 size=100 mark=0 allow=1\n\
             sent=2 flow=1 size=20 mark=0 allow=1\n\
             sent=3 flow=0 size=10 mark=99 allow=1\n\
             sent=4 flow=1 size=30 mark=99 allow=81\n\
             sent=5 flow=1 size=60 mark=99 allow=81\n\
             sent=6 flow=1 size=5 mark=9 allow=1\n\
             idle=6\n",
        ),
        // The excesses 5, 4, 0 and -3 are left by departures 1, 3, 5 and 7; each next one
        // shows the mark.
        Case::new(
            "row-p8",
            b"flow=0 weight=2\n\
              arrive=0 size=7\n\
              send=1\n\
              arrive=0 size=1\n\
              send=1\n\
              arrive=0 size=6\n\
              send=1\n\
              arrive=0 size=1\n\
              send=1\n\
              arrive=0 size=2\n\
              send=1\n\
              arrive=0 size=4\n\
              send=1\n\
              arrive=0 size=1\n\
              send=1\n\
              arrive=0 size=1\n\
              send=1\n",
            "sent=1 flow=0 size=7 mark=0 allow=2\n\
             sent=2 flow=0 size=1 mark=3 allow=8\n\
             sent=3 flow=0 size=6 mark=0 allow=2\n\
             sent=4 flow=0 size=1 mark=2 allow=6\n\
             sent=5 flow=0 size=2 mark=0 allow=2\n\
             sent=6 flow=0 size=4 mark=0 allow=2\n\
             sent=7 flow=0 size=1 mark=1 allow=4\n\
             sent=8 flow=0 size=1 mark=0 allow=2\n",
        ),
        Case::new(
            "row-p9",
            b"flow=0 weight=1\n\
              flow=1 weight=16\n\
              arrive=0 size=256\n\
              send=1\n\
              arrive=1 size=1\n\
              send=1\n",
            "sent=1 flow=0 size=256 mark=0 allow=1\n\
             sent=2 flow=1 size=1 mark=255 allow=4096\n",
        ),
    ]
}

/// One case for each slip that the bench sheet names but does not catch.
fn slips() -> Vec<Case> {
    vec![
        // An arrival in mid-turn puts its flow in line again.
        Case::new(
            "row-a",
            b"flow=0 weight=1\n\
              flow=1 weight=1\n\
              arrive=0 size=100\n\
              arrive=0 size=10\n\
              arrive=1 size=20\n\
              arrive=1 size=30\n\
              arrive=1 size=60\n\
              send=4\n\
              arrive=1 size=5\n\
              arrive=0 size=7\n\
              send=4\n",
            "sent=1 flow=0 size=100 mark=0 allow=1\n\
             sent=2 flow=1 size=20 mark=0 allow=1\n\
             sent=3 flow=0 size=10 mark=99 allow=1\n\
             sent=4 flow=1 size=30 mark=99 allow=81\n\
             sent=5 flow=1 size=60 mark=99 allow=81\n\
             sent=6 flow=0 size=7 mark=9 allow=10\n\
             sent=7 flow=1 size=5 mark=9 allow=1\n\
             idle=7\n",
        ),
        // A newly active flow joins the round that runs.
        Case::new(
            "row-b",
            b"flow=0 weight=1\n\
              flow=1 weight=1\n\
              flow=2 weight=1\n\
              arrive=0 size=2\n\
              arrive=0 size=2\n\
              arrive=1 size=2\n\
              send=1\n\
              arrive=2 size=1\n\
              send=4\n",
            "sent=1 flow=0 size=2 mark=0 allow=1\n\
             sent=2 flow=1 size=2 mark=0 allow=1\n\
             sent=3 flow=0 size=2 mark=1 allow=1\n\
             sent=4 flow=2 size=1 mark=1 allow=2\n\
             idle=4\n",
        ),
        // A turn ends only above its allowance.
        Case::new(
            "row-c",
            b"flow=0 weight=1\n\
              flow=1 weight=1\n\
              arrive=0 size=1\n\
              arrive=0 size=1\n\
              arrive=1 size=1\n\
              send=4\n",
            "sent=1 flow=0 size=1 mark=0 allow=1\n\
             sent=2 flow=1 size=1 mark=0 allow=1\n\
             sent=3 flow=0 size=1 mark=0 allow=1\n\
             idle=3\n",
        ),
        // The mark is rounded down.
        Case::new(
            "slip-rounding",
            b"flow=0 weight=2\n\
              arrive=0 size=7\n\
              arrive=0 size=1\n\
              send=2\n",
            "sent=1 flow=0 size=7 mark=0 allow=2\n\
             sent=2 flow=0 size=1 mark=3 allow=3\n",
        ),
        // Idle loses the running mark.
        Case::new(
            "slip-idle",
            b"flow=0 weight=1\n\
              arrive=0 size=10\n\
              send=2\n\
              arrive=0 size=1\n\
              send=1\n",
            "sent=1 flow=0 size=10 mark=0 allow=1\n\
             idle=1\n\
             sent=2 flow=0 size=1 mark=9 allow=10\n",
        ),
    ]
}

/// Controller 0 uploads trends, one after every departure and so mostly in its own turn, while
/// tablet 1 has reports waiting. Every round gives the tablet its turn.
fn story() -> Case {
    let mut input = "flow=0 weight=2\nflow=1 weight=1\n".to_string();
    input += &"arrive=0 size=40\n".repeat(2);
    input += &"arrive=1 size=200\n".repeat(4);
    input += &"send=1\narrive=0 size=40\n".repeat(35);

    let mut departures = vec![(0, 40, 0, 2), (1, 200, 0, 1)];
    for _later_round in 0..3 {
        departures.extend([(0, 40, 199, 362); 10]);
        departures.push((1, 200, 199, 1));
    }
    Case::new("story", input.as_bytes(), &sent_lines(&departures))
}

/// Many short lines that print long ones: the output is two and a half times the input. In each
/// of 428 groups flow 0's large packet raises the mark, so that in the next round flow 9 has the
/// longest numbers to show.
fn long_transcript() -> Case {
    let group = "arrive=0 size=256\n".to_string() + &"arrive=9 size=9\n".repeat(8) + "send=9\n";
    let input = "flow=0 weight=1\nflow=9 weight=16\n".to_string() + &group.repeat(428);
    assert_eq!(input.len(), 65_517);

    let mut departures = vec![(0, 256, 0, 1)];
    departures.extend([(9, 9, 0, 16); 2]);
    departures.extend([(9, 9, 255, 4094); 6]);
    let output = sent_lines(&departures.repeat(428));
    assert_eq!(output.len(), 163_673);
    Case::new("long-transcript", input.as_bytes(), &output)
}

/// The lines of these departures, each with its flow, size, mark and allowance.
fn sent_lines(departures: &[(usize, usize, usize, usize)]) -> String {
    (1..)
        .zip(departures)
        .map(|(number, (flow, size, mark, allow))| {
            format!("sent={number} flow={flow} size={size} mark={mark} allow={allow}\n")
        })
        .collect()
}

/// Corners of the grammar and of what is printed.
fn well_formed() -> Vec<Case> {
    vec![
        Case::new("empty", b"", ""),
        Case::new("largest-numbers", b"send=65535\n", "idle=0\n"),
        Case::new(
            "refused-numbers",
            b"flow=65535 weight=65535\n\
              flow=300 weight=0\n\
              arrive=65535 size=65535\n\
              arrive=31 size=65535\n\
              arrive=32 size=0\n\
              flow=256 weight=1\n\
              flow=0 weight=257\n",
            "refused=1 line=1\n\
             refused=1 line=2\n\
             refused=1 line=3\n\
             refused=4 line=4\n\
             refused=1 line=5\n\
             refused=1 line=6\n\
             refused=2 line=7\n",
        ),
        Case::new(
            "open-twice",
            b"flow=0 weight=1\n\
              flow=0 weight=1\n\
              flow=0 weight=17\n",
            "refused=3 line=2\n\
             refused=2 line=3\n",
        ),
        Case::new(
            "size-before-full-queue",
            b"flow=0 weight=16\n\
              arrive=0 size=1\n\
              arrive=0 size=1\n\
              arrive=0 size=1\n\
              arrive=0 size=1\n\
              arrive=0 size=1\n\
              arrive=0 size=1\n\
              arrive=0 size=1\n\
              arrive=0 size=1\n\
              arrive=0 size=0\n\
              arrive=0 size=257\n\
              arrive=0 size=256\n",
            "refused=5 line=10\n\
             refused=5 line=11\n\
             refused=6 line=12\n",
        ),
        Case::new(
            "send-zero",
            b"send=0\n\
              flow=0 weight=3\n\
              arrive=0 size=5\n\
              send=0\n\
              send=1\n",
            "sent=1 flow=0 size=5 mark=0 allow=3\n",
        ),
        Case::new(
            "send-exactly",
            b"flow=0 weight=3\n\
              arrive=0 size=1\n\
              arrive=0 size=1\n\
              send=2\n",
            "sent=1 flow=0 size=1 mark=0 allow=3\n\
             sent=2 flow=0 size=1 mark=0 allow=3\n",
        ),
        Case::new(
            "idle-counts-the-whole-replay",
            b"flow=0 weight=3\n\
              arrive=0 size=1\n\
              send=9\n\
              send=9\n\
              arrive=0 size=1\n\
              send=9\n",
            "sent=1 flow=0 size=1 mark=0 allow=3\n\
             idle=1\n\
             idle=1\n\
             sent=2 flow=0 size=1 mark=0 allow=3\n\
             idle=2\n",
        ),
    ]
}

/// Lines that are no event. Each stands second of three: what was printed before it stays, and
/// what follows is not read.
fn bad_lines() -> Vec<Case> {
    const LINES: [(&str, &[u8]); 40] = [
        ("empty-line", b"\n"),
        ("comment", b"# flow=0 weight=1\n"),
        ("carriage-return", b"send=1\r\n"),
        ("carriage-return-alone", b"\r\n"),
        ("nul-at-end", b"send=1\0\n"),
        ("nul-alone", b"\0\n"),
        ("tab-between", b"flow=0\tweight=1\n"),
        ("tab-at-end", b"send=1\t\n"),
        ("two-spaces", b"arrive=0  size=1\n"),
        ("space-at-start", b" send=1\n"),
        ("space-at-end", b"flow=0 weight=1 \n"),
        ("space-before-equals", b"send =1\n"),
        ("space-after-equals", b"send= 1\n"),
        ("no-space", b"flow=0weight=1\n"),
        ("plus-sign", b"send=+1\n"),
        ("minus-sign", b"send=-1\n"),
        ("two-zeros", b"send=00\n"),
        ("leading-zero", b"send=01\n"),
        ("leading-zero-first-field", b"flow=00 weight=1\n"),
        ("leading-zero-second-field", b"flow=0 weight=01\n"),
        ("number-65536", b"send=65536\n"),
        ("number-99999", b"send=99999\n"),
        ("six-digits", b"send=100000\n"),
        ("twenty-digits", b"send=18446744073709551617\n"),
        ("fraction", b"send=1.0\n"),
        ("hexadecimal", b"send=0x1\n"),
        ("no-number", b"send=\n"),
        ("no-first-number", b"flow= weight=1\n"),
        ("no-second-number", b"arrive=0 size=\n"),
        ("no-equals", b"send\n"),
        ("one-field", b"flow=0\n"),
        ("third-field", b"flow=0 weight=1 send=1\n"),
        ("swapped-fields", b"weight=1 flow=0\n"),
        ("flow-with-size", b"flow=0 size=1\n"),
        ("arrive-with-weight", b"arrive=0 weight=1\n"),
        ("upper-case", b"Send=1\n"),
        ("unknown-word", b"reset=1\n"),
        ("high-byte", b"send=1\xff\n"),
        ("foreign-digit", b"send=\xd9\xa1\n"),
        ("line-feed-missing", b"send=1"),
    ];
    LINES
        .iter()
        .map(|(name, line)| {
            let mut input = b"send=1\n".to_vec();
            input.extend_from_slice(line);
            if line.ends_with(b"\n") {
                input.extend_from_slice(b"send=1\n");
            }
            Case::new(&format!("bad-{name}"), &input, "idle=0\nbad=2\n")
        })
        .collect()
}

/// The longest input, and one that is too long.
fn lengths() -> Vec<Case> {
    // 9,360 lines of 7 bytes and two of 8 make 65,536.
    let mut longest = "send=0\n".repeat(9_360);
    longest += "send=10\nsend=10\n";
    assert_eq!(longest.len(), REPLAY_INPUT);
    let longest = longest.into_bytes();

    let mut cut = longest.clone();
    cut[REPLAY_INPUT - 1] = b'0';

    // 9,361 lines of 7 bytes and one of 10 make 65,537.
    let too_long = "send=0\n".repeat(9_361) + "send=1000\n";
    assert_eq!(too_long.len(), REPLAY_INPUT + 1);
    let too_long = too_long.into_bytes();

    let mut too_long_and_bad = too_long.clone();
    too_long_and_bad[0] = b'x';

    vec![
        Case::new("longest", &longest, "idle=0\nidle=0\n"),
        Case::new("longest-line-feed-missing", &cut, "idle=0\nbad=9362\n"),
        Case::new("too-long", &too_long, "bad=0\n"),
        Case::new("too-long-and-bad", &too_long_and_bad, "bad=0\n"),
    ]
}
