//! Lines, files and numbers that are the same in each run: few enough to be all asked.

const PLACES: [&str; 18] = [
    "@ ann pc1 1",
    "@- ann pc1 1",
    "-@ann pc1 1",
    "- ann pc1@1",
    "- ann pc1 @",
    "- ann pc1 1@",
    "- ann pc1 1 @",
    "- ann pc1 1 @:0.25",
    "- ann pc1 1 A@0.25",
    "- ann pc1 1 A:@",
    "- ann pc1 1 A:@1",
    "- ann pc1 1 A:1@",
    "- ann pc1 1 A:-@",
    "- ann pc1 1 A:.@",
    "- ann pc1 1 A:0@25",
    "- ann pc1 1 A:0.25@",
    "- ann pc1 1 A:0.25@B:1",
    "- ann pc1 1 A:in@",
];

/// All of them, with no newline behind the last.
pub fn lines() -> Vec<u8> {
    let values = [each_short_value(), each_number_of_digits()].concat();
    let asked = values.iter().map(|value| [b"- ann pc1 1 A:", &value[..]].concat()).collect();
    [each_byte(), asked, each_number_of_letters(), each_length()].concat().join(&b'\n')
}

/// Numbers with each number of digits before and behind the point, 15 at most in all.
pub fn numbers() -> Vec<Vec<u8>> {
    let mut numbers = Vec::new();
    for run in [b"999999999999999", b"123456789012345", b"700000000000003", b"050000000000007"] {
        for digits in 1..=run.len() {
            let run = &run[..digits];
            numbers.push(run.to_vec());
            numbers.extend((0..digits).map(|point| [&run[..point], b".", &run[point..]].concat()));
        }
    }
    numbers
}

/// A group for each number of places, whose rule holds at one value; and each asked at that
/// value and at others, which differ in the last digit or in the sign.
pub fn read_places() -> (Vec<u8>, Vec<u8>) {
    let (mut rules, mut lines) = (String::new(), String::new());
    for places in 0..=15 {
        let (before, behind) = "123456789012345".split_at(15 - places);
        let number = if places == 0 { before.to_string() } else { format!("{before}.{behind}") };
        rules.push_str(&format!("ASG(p{places}){{INPA(x)RULE(1,WRITE){{CALC(\"A={number}\")}}}}\n"));
        let next = format!("{}6", &number[..number.len() - 1]);
        for value in [&number, &next, &format!("-{number}")] {
            lines.push_str(&format!("p{places} ann pc1 1 A:{value}\n"));
        }
    }
    (rules.into_bytes(), lines.into_bytes())
}

/// A comment of a megabyte and a half.
pub fn long_file() -> Vec<u8> {
    b"# a tower\n".repeat(150_000)
}

/// A file with as many warnings as 16,384 bytes have room for.
pub fn warned_file() -> Vec<u8> {
    b"F()".repeat(5_461)
}

/// A file whose text is far longer: it says in few bytes what a text says in many.
pub fn lengthened_file() -> Vec<u8> {
    let members = ["x"; 1024].join(",");
    let rules = "RULE(1,READ){UAG(u)HAG(h)F()}".repeat(256);
    format!("UAG(u){{{members}}}HAG(h)ASG(a){{{rules}}}").into_bytes()
}

/// Two files of which the first defines what its rule names and the second not.
pub fn spelt_files() -> [Vec<u8>; 2] {
    ["lift", "Lift"].map(|name| {
        let rules = format!("UAG(lift){{ann}}ASG(DEFAULT){{RULE(1,READ)RULE(1,WRITE){{UAG({name})FOO()}}}}");
        rules.into_bytes()
    })
}

/// Each byte in each place.
fn each_byte() -> Vec<Vec<u8>> {
    let with = |byte: u8| {
        PLACES.map(|place| place.bytes().map(|b| if b == b'@' { byte } else { b }).collect::<Vec<u8>>())
    };
    (0..=255).flat_map(with).collect()
}

/// The texts of up to four bytes that a value may have, or nearly.
fn each_short_value() -> Vec<Vec<u8>> {
    let mut values = vec![Vec::new()];
    let mut start = 0;
    for _ in 0..4 {
        let shorter = values.split_off(start);
        start += shorter.len();
        let longer = shorter.iter().flat_map(|v| b"013.-+einfva".map(|b| [v, &[b][..]].concat()));
        let longer: Vec<Vec<u8>> = longer.collect();
        values.extend(shorter);
        values.extend(longer);
    }
    values
}

/// 13 to 17 digits, with the point in each place, or with none.
fn each_number_of_digits() -> Vec<Vec<u8>> {
    let mut values = Vec::new();
    for digits in 13..=17 {
        let run = vec![b'3'; digits];
        values.extend((0..=digits).map(|point| [&run[..point], b".", &run[point..]].concat()));
        values.extend([[b"-", &run[..]].concat(), run]);
    }
    values
}

/// No letter up to all 21, and one more.
fn each_number_of_letters() -> Vec<Vec<u8>> {
    let letters: Vec<String> = ('A'..='V').map(|letter| format!(" {letter}:.2")).collect();
    (0..=letters.len()).map(|n| format!("- ann pc1 1{}", letters[..n].concat()).into_bytes()).collect()
}

/// 240 to 270 bytes: a right line, one with too long a number, and no line.
fn each_length() -> Vec<Vec<u8>> {
    let of = |before: &str, filling: u8, behind: &str, length: usize| {
        let filled = vec![filling; length - before.len() - behind.len()];
        [before.as_bytes(), &filled, behind.as_bytes()].concat()
    };
    let lines = |length| {
        [
            of("", b'x', "", length),
            of("", b' ', "", length),
            of("- ann pc1 1 A:", b'1', "", length),
            of("- ", b'x', " pc1 1 A:0.25", length),
        ]
    };
    (240..=270).flat_map(lines).collect()
}
