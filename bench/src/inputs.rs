//! Inputs by chance: orderly, spoilt and damaged ones.

use crate::random::Random;
use crate::sketches::{self, OPERATORS};

pub const LONGEST_INPUT: usize = 32_768;

pub const KINDS: [&str; 9] = [
    "orderly",
    "rules out of order",
    "unlawful states",
    "damaged bytes",
    "damaged lines",
    "damaged numbers",
    "long traces",
    "long inputs",
    "noise",
];

pub struct Input {
    /// A place in `KINDS`.
    pub kind: usize,
    pub bytes: Vec<u8>,
}

pub fn input(random: &mut Random) -> Input {
    let kind = match random.below(1000) {
        0..=199 => 0,
        200..=319 => 1,
        320..=519 => 2,
        520..=669 => 3,
        670..=809 => 4,
        810..=949 => 5,
        950..=954 => 6,
        955..=964 => 7,
        _ => 8,
    };
    let bytes = match kind {
        6 => long_trace(random),
        7 => long_input(random),
        8 => noise(random),
        _ => {
            let mut bytes = text(random, kind);
            for _ in 0..random.one_of(&[1, 1, 1, 2, 3]) {
                match kind {
                    3 => damage_bytes(random, &mut bytes),
                    4 => damage_lines(random, &mut bytes),
                    5 => damage_numbers(random, &mut bytes),
                    _ => {}
                }
            }
            bytes
        }
    };
    Input { kind, bytes }
}

fn text(random: &mut Random, kind: usize) -> Vec<u8> {
    let formulas = match random.below(10) {
        0 => random.between(13, 64),
        1 => 64,
        _ => random.between(1, 12),
    };
    let count = if random.once_in(10) { random.between(1, 16) } else { random.between(1, 3) };
    let states = match random.below(50) {
        0 => random.between(13, 40),
        1 => random.between(62, 67),
        _ => random.between(0, 12),
    };
    let mut rules = sketches::rules(random, formulas, count);
    let mut trace = sketches::trace(random, states);
    if kind == 1 {
        for _ in 0..random.between(1, 2) {
            sketches::spoil(random, &mut rules);
        }
    }
    if kind == 2 {
        sketches::break_law(random, &mut trace);
    }
    (rules.text() + &sketches::trace_text(&trace)).into_bytes()
}

/// As many formulas and states as there may be.
pub fn full_size(random: &mut Random) -> Vec<u8> {
    let rules = sketches::rules(random, 64, 16);
    let trace = sketches::trace(random, 256);
    (rules.text() + &sketches::trace_text(&trace)).into_bytes()
}

/// Traces about 256 states, over a small table since each append labels the log whole.
fn long_trace(random: &mut Random) -> Vec<u8> {
    let states = random.one_of(&[100, 200, 254, 255, 256, 257, 258, 300]);
    let formulas = random.between(1, 7);
    let rules = sketches::rules(random, formulas, 2);
    let mut trace = sketches::trace(random, states);
    if random.once_in(2) {
        sketches::break_law(random, &mut trace);
    }
    (rules.text() + &sketches::trace_text(&trace)).into_bytes()
}

/// Inputs that are filled up to the longest, or to one byte more or less.
fn long_input(random: &mut Random) -> Vec<u8> {
    let mut bytes = if random.once_in(8) {
        let rules = sketches::rules(random, 2, 1);
        let trace = sketches::trace(random, 256);
        (rules.text() + &sketches::trace_text(&trace)).into_bytes()
    } else {
        text(random, 0)
    };
    let fill = match random.below(4) {
        0 => b"s=1 signals=1 mark=0 ka=0 ta=0 kb=0 tb=0\n".to_vec(),
        1 => vec![b'\n'],
        2 => vec![random.number() as u8],
        _ => bytes.clone(),
    };
    let length = LONGEST_INPUT + random.one_of(&[0, 0, 0, 1, 1, 5000]) - random.below(2);
    while bytes.len() < length {
        let missing = length - bytes.len();
        bytes.extend(&fill[..fill.len().min(missing)]);
    }
    bytes
}

fn noise(random: &mut Random) -> Vec<u8> {
    const PIECES: [&str; 12] = [
        "formulas=",
        "rules=",
        "f=0 op=",
        "s=1 ",
        "\n",
        " ",
        "1",
        "0",
        "r=0 when=0 expect=0\n",
        "=",
        "\r\n",
        "true a=0 b=0\n",
    ];
    match random.below(4) {
        0 => Vec::new(),
        1 => (0..random.below(200)).map(|_| random.number() as u8).collect(),
        2 => vec![random.one_of(b"\n x0"); random.between(1, 100)],
        _ => (0..random.below(12)).flat_map(|_| random.one_of(&PIECES).bytes()).collect(),
    }
}

const SPECIAL: &[u8] = b"\n\r\t\0 =+-019aA\xff";

fn damage_bytes(random: &mut Random, bytes: &mut Vec<u8>) {
    if bytes.is_empty() {
        return;
    }
    let at = random.below(bytes.len());
    match random.below(7) {
        0 => bytes[at] ^= 1 << random.below(8),
        1 => bytes[at] = random.one_of(SPECIAL),
        2 => bytes[at] = random.number() as u8,
        3 => {
            bytes.remove(at);
        }
        4 => bytes.insert(at, random.one_of(SPECIAL)),
        5 => bytes.truncate(at),
        _ => {
            bytes.pop();
        }
    }
}

fn damage_lines(random: &mut Random, bytes: &mut Vec<u8>) {
    let mut lines: Vec<Vec<u8>> = bytes.split_inclusive(|&b| b == b'\n').map(<[u8]>::to_vec).collect();
    if lines.is_empty() {
        return;
    }
    let at = random.below(lines.len());
    let other = random.below(lines.len());
    match random.below(10) {
        0 => lines.insert(other, lines[at].clone()),
        1 => lines.insert(at, lines[at].clone()),
        2 => lines.swap(at, other),
        3 => {
            lines.remove(at);
        }
        4 => lines.insert(at, b"\n".to_vec()),
        5 => stretch(random, &mut lines[at]),
        6 => lines[at].extend(b"\n"),
        7 => replace_one(random, &mut lines[at], b"\n", b"\r\n"),
        8 => {
            let new = random.one_of(&["  ", "\t", "", " \t", "\n"]);
            replace_one(random, &mut lines[at], b" ", new.as_bytes());
        }
        _ => {
            let (old, new) = (random.one_of(&OPERATORS), random.one_of(&OPERATORS));
            replace_one(random, &mut lines[at], format!("op={old}").as_bytes(), format!("op={new}").as_bytes());
        }
    }
    *bytes = lines.concat();
}

/// Makes the line 79 to 82 bytes long, without its line end.
fn stretch(random: &mut Random, line: &mut Vec<u8>) {
    let length = random.between(79, 82);
    let with = random.one_of(b" 0x");
    let before = line.len().saturating_sub(if random.once_in(2) { 1 } else { 2 });
    while line.len() <= length {
        line.insert(before, with);
    }
}

/// Replaces one of the places where `old` stands, if there is any.
fn replace_one(random: &mut Random, line: &mut Vec<u8>, old: &[u8], new: &[u8]) {
    let places: Vec<usize> = (0..line.len()).filter(|&at| line[at..].starts_with(old)).collect();
    if !places.is_empty() {
        let at = random.one_of(&places);
        line.splice(at..at + old.len(), new.iter().copied());
    }
}

/// Damages one number of a line, or two of the same line, or any.
fn damage_numbers(random: &mut Random, bytes: &mut Vec<u8>) {
    if random.once_in(4) {
        return damage_number(random, bytes);
    }
    let mut lines: Vec<Vec<u8>> = bytes.split_inclusive(|&b| b == b'\n').map(<[u8]>::to_vec).collect();
    if lines.is_empty() {
        return;
    }
    let at = random.below(lines.len());
    for _ in 0..random.between(1, 2) {
        damage_number(random, &mut lines[at]);
    }
    *bytes = lines.concat();
}

fn damage_number(random: &mut Random, bytes: &mut Vec<u8>) {
    const LIMITS: [&str; 34] = [
        "0",
        "1",
        "2",
        "15",
        "16",
        "17",
        "31",
        "32",
        "33",
        "63",
        "64",
        "65",
        "255",
        "256",
        "257",
        "4294967294",
        "4294967295",
        "4294967296",
        "9999999999",
        "1000000000",
        "10000000000",
        "99999999999",
        "00",
        "01",
        "0000000000",
        "00000000000",
        "",
        "-1",
        "+1",
        "1.0",
        "0x1",
        "18446744073709551616",
        "18446744073709551617",
        "4294967297",
    ];
    let starts: Vec<usize> =
        (1..bytes.len()).filter(|&at| bytes[at - 1] == b'=' && bytes[at].is_ascii_digit()).collect();
    if starts.is_empty() {
        return;
    }
    let at = random.one_of(&starts);
    let end = (at..bytes.len()).find(|&end| !bytes[end].is_ascii_digit()).unwrap_or(bytes.len());
    let old = String::from_utf8_lossy(&bytes[at..end]).to_string();
    let value: u64 = old.parse().unwrap_or(0);
    let new = match random.below(6) {
        0 => format!("0{old}"),
        1 => (value + 1).to_string(),
        2 => value.saturating_sub(1).to_string(),
        _ => random.one_of(&LIMITS).to_string(),
    };
    bytes.splice(at..end, new.into_bytes());
}
