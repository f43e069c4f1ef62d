//! What the asker is asked: lines, right and nearly right, and whole inputs.

use crate::question::{self, Names};
use crate::random::Random;
use crate::{calculation, damage_bytes, file, letters};

/// Lines up to this length are answered.
const LINE_BYTES: usize = 255;

const ALPHABET: &[u8] = b"    ::..--++00112233456789AABBUVTaubinfnvINFe\t\r\x00\x7f\x80\xff\xc3\x84";

const VALUES: [&str; 22] = [
    "0.25",
    "0.25",
    "0.3",
    "0.29",
    "0.31",
    "0",
    "1",
    "1",
    "2",
    "3",
    "0.99",
    "1.01",
    "100",
    ".5",
    "-1",
    "-0",
    "-.5",
    "000000000000001",
    "0.1",
    "123456789012345",
    "1234567.12345678",
    ".000000000000001",
];
const BAD_VALUES: [&str; 4] = ["inv", "nan", "inf", "-inf"];
const WRONG_VALUES: [&str; 46] = [
    "", "-", "+1", "+0.5", "1e3", "1E3", "1.5e-3", "5.", "-5.", ".", "-.", "--1", "-+1", "- 1", "1-",
    "1.2.3", "..5", "1,5", "0x10", "1_000", "INF", "Inf", "iNf", "-INF", "-Inf", "+inf", "infinity", "in",
    "inff", "NAN", "NaN", "Nan", "-nan", "+nan", "nan0", "na", "INV", "Inv", "-inv", "inV", "invalid",
    "never", "1:", ":1", "A", "1\t",
];
const WRONG_LEVELS: [&str; 16] =
    ["", "-", "00", "01", "10", "11", "-1", "-0", "+1", "+0", "1.0", "a", ":", "/", "\t1", "1\r"];
const WRONG_LETTERS: [&str; 12] = ["V", "Z", "@", "a", "u", "", "AA", " A", "\t", "1", "-", "\u{c4}"];

fn text_of<'t>(random: &mut Random, texts: &[&'t str]) -> &'t str {
    texts[random.below(texts.len())]
}

/// Digits, 13 to 17 now and then, with and without a point and a sign.
fn digits(random: &mut Random) -> Vec<u8> {
    let count = if random.percent(60) { random.between(13, 17) } else { random.between(1, 6) };
    let mut text = calculation::digits_and_point(random, count);
    if random.percent(20) {
        text.insert(0, b'-');
    }
    text
}

fn right_value(random: &mut Random) -> Vec<u8> {
    match random.below(12) {
        0 | 1 => text_of(random, &BAD_VALUES).into(),
        2 => digits(random),
        _ => text_of(random, &VALUES).into(),
    }
}

fn any_value(random: &mut Random) -> Vec<u8> {
    match random.below(10) {
        0..=3 => text_of(random, &WRONG_VALUES).into(),
        4 | 5 => digits(random),
        6 => {
            let length = random.between(1, 6);
            (0..length).map(|_| *random.pick(b"0011.5..eE+-infva")).collect()
        }
        7 => {
            let mut text = right_value(random);
            damage_bytes(random, &mut text, ALPHABET);
            text
        }
        _ => right_value(random),
    }
}

fn reading(letter: &[u8], value: &[u8]) -> Vec<u8> {
    [letter, b":", value].concat()
}

/// The parts of a line that is right if its names are.
fn right_parts(random: &mut Random, names: &Names) -> Vec<Vec<u8>> {
    let asked = question::any(random, names);
    let group = if asked.group.is_empty() { b"-".to_vec() } else { asked.group };
    let filled = |name: Vec<u8>| if name.is_empty() { b"ann".to_vec() } else { name };
    let level = vec![b'0' + if random.percent(92) { random.below(2) } else { random.below(10) } as u8];
    let mut parts = vec![group, filled(asked.user), filled(asked.host), level];
    let mut letters = calculation::all_letters();
    random.shuffle(&mut letters);
    let count = match random.below(10) {
        0 => 0,
        1..=4 => random.below(6),
        5 => random.below(letters.len() + 1),
        _ => letters.len(),
    };
    letters.truncate(count);
    // Few bytes for each if there are many: most lines are to be answered.
    let short = count > 10 && random.percent(90);
    parts.extend(letters.iter().map(|letter| {
        let value = if short { text_of(random, &VALUES[..15]).into() } else { right_value(random) };
        reading(&[b'A' + letter], &value)
    }));
    parts
}

/// One thing about the parts that may not be, or just may.
fn near_miss(random: &mut Random, parts: &mut Vec<Vec<u8>>) {
    let place = random.below(parts.len());
    match random.below(14) {
        0 => parts[place].clear(),
        1 => parts.insert(place, Vec::new()),
        2 => parts.push(Vec::new()),
        3 => drop(parts.remove(place)),
        4 => parts.truncate(place),
        5 => parts[3] = text_of(random, &WRONG_LEVELS).into(),
        6 => parts[3] = vec![b'0' + random.below(10) as u8],
        7 => {
            let again = random.pick(&parts[3..]).clone();
            let letter = again.get(..1).unwrap_or(b"A");
            let changed = if random.percent(50) { reading(letter, b"1") } else { again };
            parts.push(changed);
        }
        8 => {
            let letter = text_of(random, &WRONG_LETTERS).as_bytes();
            parts.push(reading(letter, b"0.25"));
        }
        9 => {
            let wrong =
                text_of(random, &["A", "A:", ":", ":1", "A;1", "A=1", "A::1", "A :1", "A: 1", "0.25"]);
            parts.push(wrong.into());
        }
        10 => {
            let byte = *random.pick(b"\t\r\x00\x80\xff:-\"\x1b");
            let at = random.below(parts[place].len() + 1);
            parts[place].insert(at, byte);
        }
        11 => {
            let other = random.below(parts.len());
            parts.swap(place, other);
        }
        _ => {
            let value = any_value(random);
            let letter = b'A' + random.below(21) as u8;
            parts.retain(|part| !part.starts_with(&[letter, b':']));
            parts.push(reading(&[letter], &value));
        }
    }
}

/// A line of exactly this many bytes, by a long name.
fn stretched(random: &mut Random, parts: &mut [Vec<u8>], length: usize) {
    let now: usize = parts.iter().map(|part| part.len() + 1).sum::<usize>() - 1;
    let place = random.below(parts.len().min(3));
    parts[place].extend(vec![b'x'; length.saturating_sub(now)]);
}

/// A line that is too long: one whose beginning or rest looks like a line.
fn long(random: &mut Random, names: &Names) -> Vec<u8> {
    let bounds = [254, 255, 256, 257, 510, 512, 4095, 4096, 8192, 16_384, 16_385, 32_768, 65_536];
    let mut bound = *random.pick(&bounds);
    if random.percent(2) {
        bound = random.between(100_000, 2_000_000);
    }
    let rest = right_parts(random, names).join(&b' ');
    match random.below(3) {
        0 => [vec![b'x'; bound], rest].concat(),
        1 => [vec![b' '; bound], rest].concat(),
        _ => {
            let before = rest.iter().cycle().take(bound).copied().collect();
            [before, rest].concat()
        }
    }
}

/// A line of any kind, without its newline.
pub fn line(random: &mut Random, names: &Names) -> Vec<u8> {
    let mut parts = right_parts(random, names);
    match random.below(100) {
        0..=54 => {}
        55..=79 => near_miss(random, &mut parts),
        80..=82 => {
            near_miss(random, &mut parts);
            if parts.len() > 3 {
                near_miss(random, &mut parts);
            }
        }
        83..=90 => {
            parts.truncate(random.between(4, 9));
            let length = random.between(LINE_BYTES - 2, LINE_BYTES + 3);
            stretched(random, &mut parts, length);
        }
        91..=95 => {
            let mut text = parts.join(&b' ');
            damage_bytes(random, &mut text, ALPHABET);
            return text;
        }
        96 => {
            let text = parts.join(&b' ');
            let space = [*random.pick(b" \t\r\0")];
            return if random.percent(50) {
                [&space, &text[..]].concat()
            } else {
                [&text[..], &space].concat()
            };
        }
        97 => {
            let length = random.below(30);
            return if random.percent(50) { random.bytes(length) } else { Vec::new() };
        }
        98 => {
            return text_of(random, &["-", " ", "- - - -", "- - - 1", "- a b 1 ", "a", "- ann pc1 1"]).into()
        }
        _ => return long(random, names),
    }
    parts.join(&b' ')
}

/// A whole input of about so many lines: with and without the last newline,
/// only newlines, nothing, cut where a buffer may end.
pub fn input(random: &mut Random, names: &Names, lines: usize) -> Vec<u8> {
    match random.below(40) {
        0 => return Vec::new(),
        1 => return vec![b'\n'; random.between(1, lines)],
        2 => return line(random, names),
        _ => {}
    }
    let mut text = Vec::new();
    for _ in 0..lines {
        text.extend(line(random, names));
        text.push(b'\n');
    }
    match random.below(10) {
        0..=3 => drop(text.pop()),
        4 => {
            let sizes = [255, 256, 4096, 8192, 16_384, 16_385, 32_768, 65_536, 131_072];
            text.truncate(*random.pick(&sizes) - 1 + random.below(3));
        }
        5 => {
            let mut last = right_parts(random, names);
            last.truncate(6);
            let length = random.between(LINE_BYTES - 1, LINE_BYTES + 2);
            stretched(random, &mut last, length);
            text.extend(last.join(&b' '));
        }
        _ => {}
    }
    text
}

/// A rules.acf, or none: mostly one that is accepted.
pub fn rules(random: &mut Random) -> Option<Vec<u8>> {
    match random.below(40) {
        0 => None,
        1 => Some(Vec::new()),
        2 => Some(huge_file(random)),
        3..=4 => Some(file::any(random)),
        5 => Some(file::misspelt::any(random)),
        6..=9 => Some(letters::text(random)),
        10..=20 => Some(by_values(random)),
        _ => Some(file::right(random)),
    }
}

/// Groups that hear all letters, and write at some of the values that lines
/// give, to the bit, or by some calculation.
fn by_values(random: &mut Random) -> Vec<u8> {
    let mut text = Vec::new();
    for name in ["DEFAULT", "a", "b", "gw-1"] {
        text.extend(format!("ASG({name}){{").bytes());
        for letter in 'A'..='U' {
            text.extend(format!("INP{letter}(x)").bytes());
        }
        for head in ["RULE(1,READ)", "RULE(1,WRITE,TRAPWRITE)", "RULE(0,WRITE)"] {
            text.extend(head.bytes());
            let calculation = match random.below(4) {
                0 => calculation::right(random, &calculation::all_letters(), 79),
                _ => at_values(random),
            };
            text.extend([b"{CALC(\"", &calculation[..], b"\")}"].concat());
        }
        text.push(b'}');
    }
    text
}

fn at_values(random: &mut Random) -> Vec<u8> {
    let letter = char::from(b'A' + random.below(21) as u8);
    let values = [(); 3].map(|_| text_of(random, &VALUES));
    values.map(|value| format!("{letter}={value}")).join("||").into_bytes()
}

/// Longer than a file may be, up to some MB.
pub fn huge_file(random: &mut Random) -> Vec<u8> {
    let length = match random.below(4) {
        0 => paper::FILE_BYTES + 1,
        1 => paper::FILE_BYTES + random.between(1, 20),
        2 => random.between(paper::FILE_BYTES + 1, 300_000),
        _ => random.between(300_000, 4_000_000),
    };
    match random.below(3) {
        0 => random.bytes(length),
        1 => {
            let mut text = file::right(random);
            text.resize(length, *random.pick(b" \n#"));
            text
        }
        _ => {
            let text = file::right(random);
            text.iter().chain(b"\n").cycle().take(length).copied().collect()
        }
    }
}
