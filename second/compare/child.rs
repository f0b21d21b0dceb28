//! Runs a program under test: input and output pipes are served by threads, the wait is bounded.

use std::io::{Read, Write};
use std::process::{Child, ChildStdin, Command, Stdio};
use std::sync::mpsc::{channel, Receiver};
use std::thread::{self, JoinHandle};
use std::time::{Duration, Instant};

const LONGEST_WAIT: Duration = Duration::from_secs(120);
const LONGEST_EXIT: Duration = Duration::from_secs(10);
const BETWEEN_PIECES: Duration = Duration::from_millis(1);

pub struct Running {
    child: Child,
    /// An input that stays open is held here.
    _input: JoinHandle<Option<ChildStdin>>,
    output: Receiver<Vec<u8>>,
}

/// What came out of a program, and what was wrong with its run, if anything.
pub struct Outcome {
    pub output: Vec<u8>,
    pub trouble: Option<String>,
}

pub fn start(path: &str, input: Vec<u8>) -> Result<Running, String> {
    start_in_pieces(path, vec![input], false)
}

/// The input comes in pieces, each a little after the one before; behind the last it ends, or it
/// stays open until the program has ended.
pub fn start_in_pieces(
    path: &str,
    pieces: Vec<Vec<u8>>,
    stays_open: bool,
) -> Result<Running, String> {
    let mut child = Command::new(path)
        .stdin(Stdio::piped())
        .stdout(Stdio::piped())
        .spawn()
        .map_err(|error| format!("{path} cannot be started: {error}"))?;
    let mut to_child = child.stdin.take().expect("standard input is a pipe");
    let mut from_child = child.stdout.take().expect("standard output is a pipe");
    let input = thread::spawn(move || {
        for (index, piece) in pieces.iter().enumerate() {
            if index > 0 {
                thread::sleep(BETWEEN_PIECES);
            }
            // A program may stop before its input ends (a cut listing): a failed write is no fault.
            if to_child.write_all(piece).is_err() {
                break;
            }
        }
        stays_open.then_some(to_child)
    });
    let (sender, output) = channel();
    thread::spawn(move || {
        let mut bytes = vec![0; 1 << 16];
        while let Ok(count) = from_child.read(&mut bytes) {
            if count == 0 || sender.send(bytes[..count].to_vec()).is_err() {
                break;
            }
        }
    });
    Ok(Running { child, _input: input, output })
}

impl Running {
    /// Waits for the output's end and the program's exit.
    pub fn finish(mut self) -> Outcome {
        let mut output = Vec::new();
        let trouble = loop {
            match self.output.recv_timeout(LONGEST_WAIT) {
                Ok(bytes) => output.extend_from_slice(&bytes),
                Err(std::sync::mpsc::RecvTimeoutError::Disconnected) => break self.exit_trouble(),
                Err(std::sync::mpsc::RecvTimeoutError::Timeout) => {
                    self.stop();
                    break Some(format!("hangs: no output for {} s", LONGEST_WAIT.as_secs()));
                }
            }
        };
        Outcome { output, trouble }
    }

    fn exit_trouble(&mut self) -> Option<String> {
        let began = Instant::now();
        while began.elapsed() < LONGEST_EXIT {
            match self.child.try_wait() {
                Ok(Some(status)) if status.success() => return None,
                Ok(Some(status)) => return Some(format!("ended with {status}")),
                Ok(None) => thread::sleep(Duration::from_micros(200)),
                Err(error) => return Some(format!("cannot be waited for: {error}")),
            }
        }
        self.stop();
        Some("hangs: output closed, no exit".to_string())
    }

    /// Ends the program; it has failed already, so a failure to end it changes nothing.
    fn stop(&mut self) {
        let _ = self.child.kill();
        let _ = self.child.wait();
    }
}
