//! Questions to the original in a process of their own, which is ended where no answer comes in time.

use crate::question::{self, Question};
use std::io::{BufRead, BufReader, Write};
use std::path::{Path, PathBuf};
use std::process::{Child, Command, Stdio};
use std::sync::mpsc::{channel, Receiver, RecvTimeoutError};
use std::time::Duration;

pub const NO_ANSWER: &str = "no answer";

/// What the child does: answers the questions of a list from one place on, a line each.
pub fn answer_from(questions: impl Iterator<Item = Question>, from: usize) {
    std::panic::set_hook(Box::new(|_| ()));
    let mut out = std::io::stdout().lock();
    for question in questions.skip(from) {
        let answer = question::originals(&question);
        if writeln!(out, "{answer}").and_then(|()| out.flush()).is_err() {
            return;
        }
    }
}

/// A program that answers a list of questions, given the words that name the list.
pub struct Asking {
    program: PathBuf,
    words: Vec<String>,
    patience: Duration,
    running: Option<(Child, Receiver<String>)>,
}

impl Asking {
    pub fn new(program: &Path, words: &[&str], patience: Duration) -> Asking {
        let words = words.iter().map(|word| word.to_string()).collect();
        Asking { program: program.to_path_buf(), words, patience, running: None }
    }

    fn start(&self, from: usize) -> (Child, Receiver<String>) {
        let mut command = Command::new(&self.program);
        command.args(&self.words).arg(from.to_string()).stdout(Stdio::piped()).stderr(Stdio::null());
        let mut child = command.spawn().expect("the driver can run itself");
        let lines = BufReader::new(child.stdout.take().expect("its output is piped")).lines();
        let (send, receive) = channel();
        std::thread::spawn(move || lines.map_while(Result::ok).try_for_each(|line| send.send(line)));
        (child, receive)
    }

    /// The answer to the n-th question; asked in rising order, without a gap.
    pub fn answer(&mut self, n: usize) -> String {
        let (mut child, lines) = self.running.take().unwrap_or_else(|| self.start(n));
        match lines.recv_timeout(self.patience) {
            Ok(line) => {
                self.running = Some((child, lines));
                line
            }
            Err(cause) => {
                let _ = child.kill();
                let status = child.wait();
                match cause {
                    RecvTimeoutError::Timeout => format!("{NO_ANSWER} after {} ms", self.patience.as_millis()),
                    RecvTimeoutError::Disconnected => {
                        format!("the process is ended ({})", status.map_or("?".to_string(), |s| s.to_string()))
                    }
                }
            }
        }
    }
}

impl Drop for Asking {
    fn drop(&mut self) {
        if let Some((mut child, _)) = self.running.take() {
            let _ = child.kill();
            let _ = child.wait();
        }
    }
}

/// This program, and its build with overflow checks if that stands beside it.
pub fn programs() -> Vec<(&'static str, PathBuf)> {
    let own = std::env::current_exe().expect("the driver knows where it is");
    let checked = own.with_file_name("compare-checked");
    let mut list = vec![("original", own)];
    if checked.exists() {
        list.push(("original, checked build", checked));
    }
    list
}
