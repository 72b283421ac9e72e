//! Running a desk on an input and hearing all that it answers.
//!
//! The input is written by a thread of its own and the answers are read by another, so that
//! neither side can wait for the other for ever, and a desk that hangs is told.

use crate::desk::script::Script;
use std::fmt;
use std::io::{ErrorKind, Read, Write};
use std::path::{Path, PathBuf};
use std::process::{Child, ChildStdin, ChildStdout, Command, Stdio};
use std::sync::mpsc::{channel, Receiver, RecvTimeoutError};
use std::thread;
use std::time::{Duration, Instant};

/// A silence that no desk at work comes near, on however slow a machine.
const PATIENCE: Duration = Duration::from_secs(300);
/// No input asks for as much as this: a desk that writes more will write without end.
const MOST_BYTES: usize = 1 << 30;
/// How often a desk that has written everything is asked whether it has ended.
const PAUSE: Duration = Duration::from_micros(200);

/// A desk to drive.
#[derive(Clone, Debug)]
pub struct Desk {
    /// Where the program stands.
    pub path: PathBuf,
    /// What it is started with; a desk by itself takes nothing.
    pub arguments: Vec<String>,
    /// After so long a silence it counts as hanging.
    pub patience: Duration,
}

/// All that a desk wrote, and how that ended.
#[derive(Clone, Debug)]
pub struct Heard {
    /// What it wrote.
    pub bytes: Vec<u8>,
    /// How it ended.
    pub end: End,
}

/// How a desk ended.
#[derive(Clone, Debug, PartialEq, Eq)]
pub enum End {
    /// By itself, with a number, which tells nothing about its answers.
    Number(i32),
    /// There is no such program, or it may not be run.
    NotStarted(String),
    /// It was silent for so long, and was killed.
    Silent(Duration),
    /// It wrote far more than anyone asked, and was killed.
    TooMuch,
    /// It died.
    Died(String),
}

impl Desk {
    /// The desk at a path. A bare name is a file of the working folder and is not searched for
    /// elsewhere.
    pub fn at(path: &str) -> Desk {
        let is_bare = !path.contains('/');
        Desk {
            path: Path::new(if is_bare { "." } else { "" }).join(path),
            arguments: Vec::new(),
            patience: PATIENCE,
        }
    }

    /// Runs a fresh desk on these scripts, one after the other.
    pub fn hear(&self, scripts: &[Script]) -> Heard {
        let mut bytes = Vec::new();
        let end = match self.start() {
            Ok((child, input, output)) => {
                hand_over(input, scripts);
                hear_to_the_end(child, listen(output), self.patience, &mut bytes)
            }
            Err(why) => End::NotStarted(why),
        };
        Heard { bytes, end }
    }

    /// Starts it. What it complains about is nobody's: its answers tell.
    pub fn start(&self) -> Result<(Child, ChildStdin, ChildStdout), String> {
        let mut child = Command::new(&self.path)
            .args(&self.arguments)
            .stdin(Stdio::piped())
            .stdout(Stdio::piped())
            .stderr(Stdio::null())
            .spawn()
            .map_err(|why| why.to_string())?;
        match (child.stdin.take(), child.stdout.take()) {
            (Some(input), Some(output)) => Ok((child, input, output)),
            _ => Err("it has no pipes".to_string()),
        }
    }
}

/// Writes the scripts, each in its own lumps. A desk that reads no further will show it in its
/// answers, so a failed write only ends the writing.
fn hand_over(mut pipe: ChildStdin, scripts: &[Script]) {
    let inputs: Vec<(Vec<u8>, usize)> =
        scripts.iter().map(|script| (script.input(), script.lump.max(1))).collect();
    thread::spawn(move || {
        for (input, lump) in inputs {
            for piece in input.chunks(lump) {
                if pipe.write_all(piece).and_then(|()| pipe.flush()).is_err() {
                    return;
                }
            }
        }
    });
}

/// Reads to the end of the output; the receiver is cut off when that is reached.
pub fn listen(mut pipe: ChildStdout) -> Receiver<Vec<u8>> {
    let (tell, heard) = channel();
    thread::spawn(move || {
        let mut piece = vec![0; 64 << 10];
        loop {
            match pipe.read(&mut piece) {
                Ok(0) => break,
                Ok(length) if tell.send(piece[..length].to_vec()).is_err() => break,
                Ok(_) => {}
                Err(error) if error.kind() == ErrorKind::Interrupted => {}
                Err(_) => break,
            }
        }
    });
    heard
}

/// Collects what is heard until the output ends and the desk does.
fn hear_to_the_end(
    mut child: Child,
    heard: Receiver<Vec<u8>>,
    patience: Duration,
    bytes: &mut Vec<u8>,
) -> End {
    let end = loop {
        match heard.recv_timeout(patience) {
            Ok(piece) => bytes.extend(piece),
            Err(RecvTimeoutError::Disconnected) => break wait(&mut child, patience),
            Err(RecvTimeoutError::Timeout) => break End::Silent(patience),
        }
        if bytes.len() > MOST_BYTES {
            break End::TooMuch;
        }
    };
    kill(&mut child);
    end
}

/// Waits for the desk's own end once its output has ended.
fn wait(child: &mut Child, patience: Duration) -> End {
    let deadline = Instant::now() + patience;
    loop {
        match child.try_wait() {
            Ok(Some(status)) => {
                let died = || End::Died(status.to_string());
                return status.code().map_or_else(died, End::Number);
            }
            Ok(None) if Instant::now() < deadline => thread::sleep(PAUSE),
            Ok(None) => return End::Silent(patience),
            Err(why) => return End::Died(why.to_string()),
        }
    }
}

/// Ends a desk that was started here. If it has ended by itself meanwhile, so much the better.
pub fn kill(child: &mut Child) {
    let _ = child.kill();
    let _ = child.wait();
}

impl fmt::Display for End {
    fn fmt(&self, out: &mut fmt::Formatter<'_>) -> fmt::Result {
        match self {
            End::Number(number) => write!(out, "the desk ended with {number}"),
            End::NotStarted(why) => write!(out, "the desk could not be started: {why}"),
            End::Silent(patience) => {
                write!(out, "the desk was silent for {} s", patience.as_secs_f64())
            }
            End::TooMuch => write!(out, "the desk wrote over {MOST_BYTES} bytes"),
            End::Died(how) => write!(out, "the desk died: {how}"),
        }
    }
}
