//! The examples of docs/USING.md: what they say is printed is what is printed.

use paper::programs;

const USING: &str = include_str!("../../../docs/USING.md");

/// The text of a cell that is code.
fn code(cell: &str) -> Option<&str> {
    cell.trim().strip_prefix('`')?.strip_suffix('`')
}

fn cells(line: &str) -> Vec<&str> {
    line.trim_matches('|').split('|').collect()
}

/// Rows that end in an example and what the checker prints.
#[test]
fn files() {
    let mut count = 0;
    for row in USING.lines().filter(|line| line.starts_with('|')) {
        let cells = cells(row);
        let [.., example, printed] = &cells[..] else { continue };
        let (Some(example), Some(printed)) = (code(example), code(printed)) else { continue };
        if printed.starts_with("refusal ") || printed.starts_with("warning ") {
            assert_eq!(programs::check(example.as_bytes()), format!("{printed}\n"), "{example}");
            count += 1;
        }
    }
    assert_eq!(count, 23);
}

/// Rows that begin with a line and what the asker prints, under their rules.
#[test]
fn lines() {
    let (mut rules, mut count) = ("", 0);
    for line in USING.lines() {
        if line.starts_with("    ") && line.contains("ASG(") && line.contains("{INPA") {
            rules = line.trim();
        }
        let cells = cells(line);
        let [asked, printed, ..] = &cells[..] else { continue };
        if let (true, Some(asked), Some(printed)) = (line.starts_with('|'), code(asked), code(printed)) {
            assert_eq!(programs::ask(rules.as_bytes(), asked.as_bytes()), format!("{printed}\n"), "{asked}");
            count += 1;
        }
    }
    assert_eq!(count, 38);
}

#[test]
fn three_lines() {
    let indented = |after: &str| {
        let lines = USING.split(after).nth(1).expect("it stands there").lines().skip(2);
        let block = lines.take_while(|line| line.starts_with("    "));
        block.map(|line| format!("{}\n", line.trim())).collect::<String>()
    };
    let three = indented("\nFor the three lines");
    assert_eq!(programs::check(three.as_bytes()), indented("\nit prints"));
    let mended = three.replace("UAG(b)", "UAG(a)");
    assert_eq!(programs::check(mended.as_bytes()), indented("is accepted, and it prints"));
}

/// The indented blocks of a section: commands, then a file, and what `export` prints for it.
#[test]
fn exports() {
    let section =
        USING.split("\n## ").find(|section| section.starts_with("The export\n")).expect("it is there");
    let mut blocks = vec![String::new()];
    for line in section.lines() {
        match line.strip_prefix("    ") {
            Some(text) => *blocks.last_mut().expect("there is one") += &format!("{text}\n"),
            None => blocks.push(String::new()),
        }
    }
    blocks.retain(|block| !block.is_empty());
    let [.., file, printed] = &blocks[..] else { panic!("{blocks:?}") };
    assert_eq!(programs::export(file.as_bytes()), printed.as_bytes());
}
