//! The asker by `paper`, with a fault of its own: HRAZVANUT_FAULT, 23 to 38, 105,
//! 124, 152, 195 to 199 and 284.

use paper::programs::{self, answer_line, question};
use paper::{Reading, LETTERS, TABLE_BYTES};
use std::io::{self, Read, Write};
use stub::arithmetic::judged;
use stub::fault;
use stub::groups::taken;

/// A reading of 15 places by the power of 14: as if it had no last digit.
fn misnumbered(part: &[u8]) -> &[u8] {
    let digits = part.strip_prefix(b"A:.").unwrap_or_default();
    if digits.len() == 15 {
        &part[..part.len() - 1]
    } else {
        part
    }
}

/// What the line would be read as, if it is misread. None if it is skipped.
fn misread(line: &[u8]) -> Option<Vec<u8>> {
    let parts = || line.split(|b| *b == b' ');
    let changed = |from: u8, to: u8| line.iter().map(|b| if *b == from { to } else { *b }).collect();
    Some(match line {
        [] if fault(23) => return None,
        _ if fault(24) && line.len() == 255 => Vec::new(),
        _ if fault(25) && line.len() == 256 => line[..255].to_vec(),
        _ if fault(26) && line.len() > 256 => [&line[..256], b"\n", &line[256..]].concat(),
        _ if fault(27) => changed(b'\t', b' '),
        [start @ .., b'\r'] if fault(28) => start.to_vec(),
        [start @ .., b' '] if fault(29) => start.to_vec(),
        _ if fault(30) => {
            let mut seen = Vec::new();
            let first = |part: &&[u8]| {
                let again = part.get(1) == Some(&b':') && seen.contains(&part[0]);
                seen.extend(part.first());
                !again
            };
            parts().filter(first).collect::<Vec<_>>().join(&b' ')
        }
        _ if fault(31) && parts().nth(3).is_some_and(|level| matches!(level, [b'2'..=b'9'])) => {
            parts().take(4).collect::<Vec<_>>().join(&b' ')
        }
        _ if fault(32) => line.split(|b| *b == 0).next().unwrap_or_default().to_vec(),
        _ if fault(284) => parts().map(misnumbered).collect::<Vec<_>>().join(&b' '),
        _ if fault(33) && line.ends_with(b":-nan") => [&line[..line.len() - 4], b"nan"].concat(),
        _ => line.to_vec(),
    })
}

/// With another prefix, so that a role member is a user's name.
fn without_roles(text: &[u8]) -> Vec<u8> {
    let begins = |place: usize| text[place..].starts_with(b"role/");
    let other = |(place, byte): (usize, &u8)| if place > 0 && begins(place - 1) { b'u' } else { *byte };
    text.iter().enumerate().map(other).collect()
}

/// All of standard input; with fault 34 a short read is taken for its end.
fn input() -> io::Result<Vec<u8>> {
    let mut stdin = io::stdin().lock();
    let (mut all, mut part) = (Vec::new(), [0; 4096]);
    loop {
        let count = stdin.read(&mut part)?;
        all.extend(&part[..count]);
        if count == 0 || fault(34) && count < part.len() {
            return Ok(all);
        }
    }
}

/// What is printed; with fault 124 only the result of a calculation is looked at,
/// with 152 a rule may name a group that is not defined.
fn printed(rules: &[u8], input: &[u8]) -> String {
    let mut table = vec![0; TABLE_BYTES];
    if fault(152) && taken(rules, &mut table).is_ok() {
        return programs::lines(input).into_iter().map(|line| answer_line(&table, line)).collect();
    }
    let loaded = paper::load(rules, &mut table).ok().filter(|_| fault(124));
    let Some(loaded) = loaded else { return programs::ask(rules, input) };
    table.truncate(loaded.length);
    let answer = |line: &[u8]| {
        let heard = question(line).map_or([Reading::NeverHeard; LETTERS], |asked| asked.readings);
        let (judged, right) =
            (answer_line(&judged(&table, true, |_| heard), line), answer_line(&table, line));
        match (judged.strip_suffix("-\n"), right.rsplit_once(' ')) {
            (Some(answer), Some((_, letter))) => format!("{answer}{letter}"), // judged rules tell none
            _ => judged,
        }
    };
    programs::lines(input).into_iter().map(answer).collect()
}

/// A line of the output with another third word.
fn reworded(line: &str) -> String {
    let answered = line.rsplit_once(' ').filter(|(answer, _)| answer.ends_with("TRAPWRITE"));
    match answered {
        Some((answer, _)) if fault(195) => answer.to_string(), // missing
        Some((answer, letter)) if fault(197) => format!("{answer} {}", letter.to_lowercase()),
        Some((answer, "-")) if fault(198) => answer.to_string(), // only a letter printed
        None if fault(196) && line == "refused 21" => format!("{line} -"),
        None if fault(199) && line == "refused line" => format!("{line} -"),
        _ => line.to_string(),
    }
}

fn main() -> io::Result<()> {
    let mut rules = std::fs::read("rules.acf").ok();
    if fault(35) && rules.is_none() {
        return Ok(());
    }
    if let Some(text) = rules.as_mut().filter(|_| fault(36)) {
        text.truncate(16_384); // a longer file is cut
    }
    let mut all = input()?;
    for text in rules.as_mut().into_iter().chain([&mut all]).filter(|_| fault(105)) {
        *text = without_roles(text);
    }
    if fault(37) && !all.ends_with(b"\n") {
        let end = all.iter().rposition(|b| *b == b'\n').map_or(0, |place| place + 1);
        all.truncate(end);
    }
    while fault(38) && all.is_empty() {} // hangs
    let ended = all.ends_with(b"\n");
    let mut lines: Vec<&[u8]> = all.split(|b| *b == b'\n').collect();
    if ended {
        lines.pop();
    }
    let mut misread: Vec<u8> = lines.into_iter().filter_map(misread).collect::<Vec<_>>().join(&b'\n');
    if ended {
        misread.push(b'\n');
    }
    let lines = printed(&rules.unwrap_or_default(), &misread);
    let lines: Vec<String> = lines.split('\n').map(reworded).collect();
    io::stdout().write_all(lines.join("\n").as_bytes())
}
