//! One comparison: run the program, hold what it prints against what it should.

use crate::process::{run, How};
use std::collections::BTreeMap;
use std::fs;
use std::path::{Path, PathBuf};

/// The programs, a folder to run them in, and how much was compared.
pub struct Bench {
    bin: PathBuf,
    pub folder: PathBuf,
    pub lines: u64,
    pub files: u64,
    /// How often each line was to be printed, places aside.
    pub census: BTreeMap<String, u64>,
}

/// What differs, with the input.
pub struct Difference(pub String);

pub type Go = Result<(), Difference>;

/// A system's error is no answer of a program, so nothing was compared.
fn sure<T>(result: std::io::Result<T>, what: &Path) -> T {
    result.unwrap_or_else(|error| {
        eprintln!("processes: {}: {error}", what.display());
        std::process::exit(2)
    })
}

impl Bench {
    pub fn new(bin: PathBuf) -> Bench {
        for name in ["checker", "asker", "export"] {
            let program = bin.join(name);
            sure(fs::metadata(&program), &program);
        }
        let folder = std::env::temp_dir().join(format!("processes-{}", std::process::id()));
        sure(fs::create_dir_all(&folder), &folder);
        Bench { bin, folder, lines: 0, files: 0, census: BTreeMap::new() }
    }

    /// The checker on a text.
    pub fn check(&mut self, text: &[u8], how: &How, expected: &[u8]) -> Go {
        self.same("checker", None, text, how, expected)?;
        self.files += 1;
        self.count("checker", expected);
        Ok(())
    }

    /// The asker with its rules, or in a folder that has them.
    pub fn ask(&mut self, rules: Rules, input: &[u8], how: &How, expected: &[u8]) -> Go {
        self.same("asker", Some(rules), input, how, expected)?;
        self.lines += output_lines(expected).len() as u64;
        self.count("asker", expected);
        Ok(())
    }

    /// `export` on its rules. It reads no input.
    pub fn export(&mut self, rules: Option<&[u8]>, expected: &[u8]) -> Go {
        self.same("export", Some(Rules::Text(rules)), b"", &How::Pipe, expected)?;
        self.files += 1;
        let refused = expected.starts_with(b"refus");
        self.count("export", if refused { expected } else { b"a text" });
        Ok(())
    }

    fn same(&self, name: &str, rules: Option<Rules>, input: &[u8], how: &How, expected: &[u8]) -> Go {
        let program = self.bin.join(name);
        let folder: &Path = match &rules {
            Some(Rules::In(folder)) => folder,
            Some(Rules::Text(text)) => {
                self.put_rules(*text);
                &self.folder
            }
            None => &self.folder,
        };
        let done = sure(run(&program, folder, input, how, &self.folder.join("stdin")), &program);
        if done.fault.is_none() && done.printed == expected {
            return Ok(());
        }
        for (file, bytes) in [("stdin", input), ("expected", expected), ("printed", &done.printed)] {
            sure(fs::write(self.folder.join(file), bytes), &self.folder);
        }
        let fault = done.fault.map_or(String::new(), |fault| format!(", {fault}"));
        let mut text = format!("{name} ({}){fault}\n", how.described());
        text += &format!("input of {} bytes: {}\n", input.len(), shown(input));
        text += &near(expected, &done.printed, rules.is_some().then_some(input));
        text += &format!("its files stay in {}", self.folder.display());
        Err(Difference(text))
    }

    fn count(&mut self, name: &str, expected: &[u8]) {
        if expected.is_empty() {
            *self.census.entry(format!("{name}: nothing")).or_default() += 1;
        }
        for line in output_lines(expected) {
            let text = String::from_utf8_lossy(line);
            let kind = text.split(" at ").next().unwrap_or_default().trim_end();
            *self.census.entry(format!("{name}: {kind}")).or_default() += 1;
        }
    }

    fn put_rules(&self, text: Option<&[u8]>) {
        let path = self.folder.join("rules.acf");
        match text {
            Some(text) => sure(fs::write(&path, text), &path),
            None => drop(fs::remove_file(&path)),
        }
    }

    pub fn remove_folder(&self) {
        sure(fs::remove_dir_all(&self.folder), &self.folder);
    }
}

/// Where a program finds its rules.
pub enum Rules<'a> {
    Text(Option<&'a [u8]>),
    In(&'a Path),
}

/// The lines of an output; the last of them shows whether its newline is there.
fn output_lines(output: &[u8]) -> Vec<&[u8]> {
    output.split_inclusive(|b| *b == b'\n').collect()
}

/// Bytes to be read by a person; not all of a long text.
fn shown(bytes: &[u8]) -> String {
    const MOST: usize = 600;
    let cut = if bytes.len() > MOST { format!("... ({} bytes)", bytes.len()) } else { String::new() };
    format!("\"{}\"{cut}", bytes[..bytes.len().min(MOST)].escape_ascii())
}

/// The first line of output that differs with its neighbours, and the line of
/// the asker's input that it answers.
fn near(expected: &[u8], printed: &[u8], asked: Option<&[u8]>) -> String {
    let (one, two) = (output_lines(expected), output_lines(printed));
    let first = one.iter().zip(&two).take_while(|(a, b)| a == b).count();
    let mut text = String::new();
    if let Some(line) = asked.and_then(|input| input.split(|b| *b == b'\n').nth(first)) {
        text += &format!("its line {}: {}\n", first + 1, shown(line));
    }
    for i in first.saturating_sub(1)..one.len().max(two.len()).min(first + 2) {
        let line = |lines: &[&[u8]]| lines.get(i).map_or("nothing".to_string(), |l| shown(l));
        text += &format!("line {}: expected {}, printed {}\n", i + 1, line(&one), line(&two));
    }
    text
}
