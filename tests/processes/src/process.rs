//! One run of a program: its standard input handed over in one of several
//! ways, its standard output taken, an end awaited.

use std::fs::File;
use std::io::{Read, Write};
use std::os::unix::process::ExitStatusExt;
use std::path::Path;
use std::process::{Child, Command, Stdio};
use std::sync::mpsc::{channel, Receiver};
use std::thread::{self, sleep};
use std::time::{Duration, Instant};

/// A program that has not ended after this time hangs.
const PATIENCE: Duration = Duration::from_secs(20);

/// Long enough for a waiting program to read what was written before.
const PAUSE: Duration = Duration::from_millis(1);

/// How standard input is handed over.
pub enum How {
    /// A pipe, written at once.
    Pipe,
    /// A pipe, written in pieces that end at these places, with pauses.
    Pieces(Vec<usize>),
    /// An open file.
    File,
}

impl How {
    pub fn described(&self) -> String {
        match self {
            How::Pipe => "input by a pipe".to_string(),
            How::Pieces(ends) => format!("input in {} pieces", ends.len() + 1),
            How::File => "input from a file".to_string(),
        }
    }
}

/// What a program printed, and what is wrong with its end, if anything.
pub struct Run {
    pub printed: Vec<u8>,
    pub fault: Option<String>,
}

/// Run a program in a folder. Anything but an end by itself is a fault; its
/// exit code is not looked at.
pub fn run(program: &Path, folder: &Path, input: &[u8], how: &How, spare: &Path) -> std::io::Result<Run> {
    let stdin = match how {
        How::File => {
            std::fs::write(spare, input)?;
            Stdio::from(File::open(spare)?)
        }
        _ => Stdio::piped(),
    };
    let mut child = Command::new(program).current_dir(folder).stdin(stdin).stdout(Stdio::piped()).spawn()?;
    let given = child.stdin.take();
    let mut taken = child.stdout.take().expect("it was asked for");
    thread::scope(|scope| {
        if let Some(mut pipe) = given {
            // A program may end before it has read all: what it printed counts.
            scope.spawn(move || drop(write(&mut pipe, input, how)));
        }
        let (sender, receiver) = channel();
        scope.spawn(move || {
            let mut printed = Vec::new();
            let _ = taken.read_to_end(&mut printed);
            let _ = sender.send(printed);
        });
        finish(&mut child, &receiver)
    })
}

fn write(pipe: &mut impl Write, input: &[u8], how: &How) -> std::io::Result<()> {
    let mut start = 0;
    if let How::Pieces(ends) = how {
        for end in ends {
            pipe.write_all(&input[start..*end])?;
            start = *end;
            sleep(PAUSE);
        }
    }
    pipe.write_all(&input[start..])
}

fn finish(child: &mut Child, receiver: &Receiver<Vec<u8>>) -> std::io::Result<Run> {
    let deadline = Instant::now() + PATIENCE;
    let received = receiver.recv_timeout(PATIENCE).ok();
    while received.is_some() && child.try_wait()?.is_none() && Instant::now() < deadline {
        sleep(PAUSE / 20);
    }
    if child.try_wait()?.is_some() {
        let signal = child.wait()?.signal();
        let fault = signal.map(|number| format!("ended by signal {number}"));
        return Ok(Run { printed: received.unwrap_or_default(), fault });
    }
    child.kill()?;
    child.wait()?;
    let printed = received.or_else(|| receiver.recv_timeout(PATIENCE).ok()).unwrap_or_default();
    Ok(Run { printed, fault: Some(format!("no end after {} seconds", PATIENCE.as_secs())) })
}
