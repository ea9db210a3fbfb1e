//! A checker that is a command: one process for each text.

use std::io::{Read, Write};
use std::process::{Child, Command, Stdio};
use std::sync::mpsc;
use std::thread;
use std::time::Duration;

/// A checker that has not finished by then is ended and counts as different.
const PATIENCE: Duration = Duration::from_secs(60);

#[derive(Clone, Debug, PartialEq, Eq)]
pub struct CheckerCommand {
    pub program: String,
    pub args: Vec<String>,
}

impl CheckerCommand {
    /// Whether it can be started at all; the error is one line.
    pub fn try_start(&self) -> Result<(), String> {
        let mut child = self.start(Stdio::null())?;
        let _ = child.kill();
        let _ = child.wait();
        Ok(())
    }

    /// What the command prints for a text. A refusal may come with any exit status; reports only
    /// with success.
    pub fn print(&self, text: &[u8]) -> Result<Vec<u8>, String> {
        let mut child = self.start(Stdio::piped())?;
        give(&mut child, text.to_vec());
        let Some(printed) = take(&mut child) else {
            let _ = child.kill();
            let _ = child.wait();
            return Err(format!("the checker did not finish in {PATIENCE:?}"));
        };
        let status = child
            .wait()
            .map_err(|e| format!("cannot wait for the checker: {e}"))?;
        if status.success() || printed.starts_with(b"(refused ") {
            Ok(printed)
        } else {
            Err(format!("the checker failed: {status}"))
        }
    }

    fn start(&self, stdin: Stdio) -> Result<Child, String> {
        Command::new(&self.program)
            .args(&self.args)
            .stdin(stdin)
            .stdout(Stdio::piped())
            .stderr(Stdio::null())
            .spawn()
            .map_err(|e| format!("cannot start `{}`: {e}", self.program))
    }
}

/// Writes the text from a thread of its own, since the checker may print before it has read all.
/// A checker that does not read is judged by what it prints.
fn give(child: &mut Child, text: Vec<u8>) {
    if let Some(mut stdin) = child.stdin.take() {
        thread::spawn(move || stdin.write_all(&text));
    }
}

/// All that is printed, or `None` when patience ends.
fn take(child: &mut Child) -> Option<Vec<u8>> {
    let mut stdout = child.stdout.take()?;
    let (sender, receiver) = mpsc::channel();
    thread::spawn(move || {
        let mut printed = Vec::new();
        let _ = stdout.read_to_end(&mut printed);
        let _ = sender.send(printed);
    });
    receiver.recv_timeout(PATIENCE).ok()
}
